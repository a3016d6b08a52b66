#!/usr/bin/env python3
"""Where each field lies in the record of an object, for C: records.py [--write]

Prints include/vt_records.h from the tables of vt_kinds (crates/vt_kinds/specs/Tables.antt), by which records are read and written. With
--write it writes the file. Without, it says whether the file differs, and ends with status 1 if it does.
"""
import argparse
import os
import re
import sys

TOP = os.path.dirname(os.path.dirname(os.path.abspath(__file__)))
TABLES, KINDS, HEADER = f'{TOP}/crates/vt_kinds/specs/Tables.antt', f'{TOP}/crates/vt_kinds/src/kind.rt', f'{TOP}/include/vt_records.h'
NUMBERS = {'byte': 1, 'word': 2, 'long': 4, 'signed_long': 4, 'scale': 4, 'decimals': 1}
NOTES = {'signed_long': ', signed', 'scale': ', a float of IEEE 754'}
# The lists, with the bytes of an entry and what it is.
ROWS = {
    'children': (6, '6 bytes each: ID, x and y, signed'),
    'macros': (2, '2 bytes each: the event and the macro'),
    'languages': (2, '2 bytes each: two letters'),
    'keys': (2, '2 bytes each: ID'),
    'items': (2, '2 bytes each: ID'),
    'points': (4, '4 bytes each: x and y'),
    'content': (1, 'bytes'),
}
HEAD = '''/* Where each field lies in the record of an object, as vt_object writes it and as it is in an object pool (ISO 11783-6;
 * docs/PROFILE.md, "Records"). Made by scripts/records.py from the tables by which records are read and written.
 *
 * A record begins with its ID, two bytes, and its kind, one byte. All numbers are from the lowest byte on: vt_number reads one. The
 * field of a list has its first entry, and its count is in a field of its own. Where a field lies behind a list, a function tells its
 * place in a record that is whole.
 */
#ifndef VT_RECORDS_H
#define VT_RECORDS_H

#include <stddef.h>
#include <stdint.h>

/* The number of 1, 2 or 4 bytes at a place of a record. */
static inline uint32_t vt_number(const uint8_t *record, size_t at, size_t size)
{
    uint32_t number = 0;
    for (size_t k = size; k > 0; k--) {
        number = number << 8 | record[at + k - 1];
    }
    return number;
}

/* The same for a signed number of 2 or 4 bytes. */
static inline int32_t vt_signed(const uint8_t *record, size_t at, size_t size)
{
    uint32_t number = vt_number(record, at, size);
    return size == 2 ? (int32_t)(int16_t)(uint16_t)number : (int32_t)number;
}

enum { VT_RECORD_ID = 0, VT_RECORD_KIND = 2 };
'''

# What the values and the bits of fields mean (docs/PROFILE.md, "Pictures"): a name for each, and of which field.
MEANINGS = [
    ('The bits of the options of fields: strings, and numbers without the second one.', 'field_options',
     [('FIELD_TRANSPARENT', 1), ('FIELD_WRAPS', 2)]),
    ('The bit of the second options of an Input Number, and of the options of an Input List.', 'enabled_option', [('IS_ENABLED', 1)]),
    ('Where the text of a field is, the lowest two bits of its justification.', 'justification',
     [('AT_LEFT', 0), ('IN_MIDDLE', 1), ('AT_RIGHT', 2)]),
    ('The bits of the style of a font.', 'font_style',
     [('BOLD', 1), ('CROSSED_OUT', 2), ('UNDERLINED', 4), ('ITALIC', 8), ('INVERTED', 16)]),
    ('The bits of the line suppression of a Rectangle: the sides that it has not.', 'suppression',
     [('NO_UPPER_SIDE', 1), ('NO_RIGHT_SIDE', 2), ('NO_LOWER_SIDE', 4), ('NO_LEFT_SIDE', 8)]),
    ('The types of Fill Attributes. Others are as VT_FILL_OWN.', 'fill_type',
     [('FILL_NOTHING', 0), ('FILL_LINE', 1), ('FILL_OWN', 2), ('FILL_PATTERN', 3)]),
    ('The types of an Ellipse.', 'ellipse_type', [('WHOLE', 0), ('ARC', 1), ('SEGMENT', 2), ('SECTOR', 3)]),
    ('The type of a Polygon that does not go back to its first point. Those of other types are closed, and filled.', 'polygon_type',
     [('OPEN_POLYGON', 3)]),
    ('The bits of the options of a Meter.', 'meter_options',
     [('METER_HAS_ARC', 1), ('METER_HAS_BORDER', 2), ('METER_HAS_TICKS', 4), ('METER_CLOCKWISE', 8)]),
    ('The bits of the options of a Linear Bar.', 'linear_bar_options',
     [('LINEAR_HAS_BORDER', 1), ('LINEAR_HAS_TARGET', 2), ('LINEAR_HAS_TICKS', 4), ('LINEAR_AS_LINE', 8), ('LINEAR_LEVEL', 16),
      ('LINEAR_FORWARDS', 32)]),
    ('The bits of the options of an Arched Bar.', 'arched_bar_options',
     [('ARCHED_HAS_BORDER', 1), ('ARCHED_HAS_TARGET', 2), ('ARCHED_AS_LINE', 8), ('ARCHED_CLOCKWISE', 16)]),
    ('The bits of the options of a Picture: pixels of the transparency colour are not drawn; the bytes are pairs of a count and a byte.',
     'picture_options', [('PICTURE_TRANSPARENT', 1), ('PICTURE_PACKED', 4)]),
]

LENGTH = '''
/* The number of bytes of a whole record by its kind and its counts, or 0 for a kind that is not known. */
static inline size_t vt_record_length(const uint8_t *record)
{
    switch (record[VT_RECORD_KIND]) {
CASES
    default:
        return 0;
    }
}
'''


def text_of(path):
    with open(path, encoding='utf-8') as file:
        return file.read()


def snake(name):
    return re.sub(r'(?<!^)(?=[A-Z])', '_', name).lower()


def kinds():
    """The names of the kinds by their numbers."""
    names = re.search(r'pub enum Kind \{(.*?)\n\}', text_of(KINDS), re.S)[1]
    return re.findall(r'^    (\w+),', names, re.M)


def tables():
    """The terms of each kind's table: what a term is, its words, and the field that it has."""
    text = text_of(TABLES)
    found = {}
    for name, body in re.findall(r'^abbrev pub (\w+) : (?:\{B : Type 0\} → )?Table [^\n]*\n\1 =\n((?:    .*\n)+)', text, re.M):
        terms = []
        for term in re.sub(r'\s+', ' ', body).strip().removesuffix('∷ []').split('∷'):
            term = re.sub(r'^\s*attribute names\.\w+ \((.*)\)\s*$', r'\1', term).strip()
            what, words, field = re.fullmatch(r'(\w+) ?([\w ]*?)\(λ o\. o\.(\w+)\)', term).groups()
            terms.append((what, words.split(), field))
        found[name] = terms
    return found


class Kind:
    """The fields of a kind's record so far, and the lists before the next field."""

    def __init__(self, name, number):
        self.name, self.title = name, name.replace('_', ' ')
        self.at, self.lists, self.counts = 3, [], {}
        self.fixed, self.functions, self.number = [], [], number

    def put(self, field, size, note):
        """A field of some bytes, or a list, whose size is None."""
        if not self.lists:
            self.fixed.append((f'VT_{self.name}_{field}'.upper(), self.at, note))
            place = str(self.at)
        else:
            place = f'vt_{self.name}_{field}'.lower() + '_at(record)'
            self.functions.append((place.removesuffix('(record)'), self.end(), note))
        self.at += size or 0
        return place

    def read(self, what, words, field):
        if what == 'count':
            size = int(words[0])
            self.counts[field] = (self.put(f'count_of_{field}', size, plural(size)), size)
        elif what in ROWS:
            size, note = ROWS[what]
            self.put(field, None, note)
            self.lists.append((size, *self.counts[field]))
        else:
            self.put(field, NUMBERS[what], plural(NUMBERS[what]) + NOTES.get(what, ''))

    def end(self):
        """The number of bytes of a whole record."""
        return ' + '.join([str(self.at), *self.terms()])

    def terms(self):
        """The bytes of each list so far."""
        return [(f'{size} * ' if size > 1 else '') + f'(size_t)vt_number(record, {at}, {count})' for size, at, count in self.lists]

    def text(self):
        article = 'an' if self.title[0] in 'aeio' else 'a'
        lines = [f'\n/* ---- the record of {article} {self.title}, kind {self.number} */\n']
        lines += ['enum {', *(f'    {name} = {at}, /* {note} */' for name, at, note in self.fixed), '};']
        for name, place, note in self.functions:
            lines += ['', f'/* {note[0].upper()}{note[1:]}. */', f'static inline size_t {name}(const uint8_t *record)', '{']
            lines += [*wrapped(f'return {place};'), '}']
        return '\n'.join(lines) + '\n'


def plural(size):
    return '1 byte' if size == 1 else f'{size} bytes'


def wrapped(line, indent=4):
    parts = line.split(' + ')
    lines = [' ' * indent + parts[0]]
    for part in parts[1:]:
        if len(lines[-1]) + len(part) > 120:
            lines.append(' ' * (indent + 7) + f'+ {part}')
        else:
            lines[-1] += f' + {part}'
    return lines


def meaning(note, name, values):
    """The enum of the values or the bits of a field."""
    lines = '\n'.join(f'    VT_{value} = {number},' for value, number in values)
    return f'\n/* {note} */\nenum vt_{name} {{\n{lines}\n}};\n'


def header():
    found, made = tables(), []
    names = [snake(kind) for kind in kinds()]
    numbers = [f'    VT_{name.upper()} = {number},' for number, name in enumerate(names)]
    made.append('\n/* The kinds of objects. */\nenum vt_object_kind {\n' + '\n'.join(numbers) + '\n};\n')
    made += [meaning(*one) for one in MEANINGS]
    cases = []
    for number, name in enumerate(names):
        kind = Kind(name, number)
        for term in found['macro_object' if name == 'macro' else name]:
            kind.read(*term)
        made.append(kind.text())
        cases += [f'    case VT_{name.upper()}:', *wrapped(f'return {kind.end()};', 8)]
    made.append(LENGTH.replace('CASES', '\n'.join(cases)))
    return HEAD + ''.join(made) + '\n#endif\n'


def main():
    parser = argparse.ArgumentParser(description=__doc__.split('\n')[0])
    parser.add_argument('--write', action='store_true')
    words = parser.parse_args()
    text = header()
    if words.write:
        with open(HEADER, 'w', encoding='utf-8') as file:
            file.write(text)
    elif not os.path.exists(HEADER) or text_of(HEADER) != text:
        sys.exit('include/vt_records.h is not what the tables of vt_kinds say: scripts/records.py --write mends it')
    print(f'include/vt_records.h: the records of {len(kinds())} kinds')


if __name__ == '__main__':
    main()
