#!/usr/bin/env python3
"""Objects as records of a pool, and the pool that is being made, for scripts that write pools (docs/PROFILE.md, 8).

A thing is a kind and the fields of its record. add puts it into the pool, and gives its ID.
"""
import re
from struct import pack

NULL = 0xFFFF
BLACK, WHITE, GREEN, SILVER, BLUE, LIME, RED, NAVY = 0, 1, 2, 7, 9, 10, 12, 15
CREAM, SKY = 16 + 36 * 5 + 6 * 5 + 4, 16 + 36 * 4 + 6 * 5 + 5
SCALES = [b'\x00\x00\x80\x3f', b'\xcd\xcc\xcc\x3d', b'\x0a\xd7\x23\x3c', b'\x6f\x12\x83\x3a']
KINDS = ('working_set mask alarm container keys key button boolean input number list text value line rectangle ellipse '
         'polygon meter bar arch picture variable string font pen fill').split() + ['', 'pointer']

# The records by their IDs, the IDs by their names, and those of shared objects by what they are.
RECORDS, NAMES, SHARED = {}, {}, {}


def slug(text):
    return re.sub(r'[^a-z0-9]+', '_', text.lower()).strip('_')


def add(name, thing, object_id=None):
    """Puts an object, its kind and its fields, into the pool under a name that no other has, and gives its ID."""
    kind, fields = thing
    object_id = object_id or 2000 + len(RECORDS)
    name = KINDS[kind] + '_' + slug(name)
    if name in NAMES:
        name += '_%d' % object_id
    NAMES[name] = object_id
    RECORDS[object_id] = pack('<HB', object_id, kind) + fields
    return object_id


def shared(name, thing):
    """The object of this kind and name, which is added once."""
    if (thing[0], name) not in SHARED:
        SHARED[thing[0], name] = add(name, thing)
    return SHARED[thing[0], name]


# Objects that others name.

def font(size=1, colour=BLACK, style=0):
    return shared('%d %d %d' % (size, colour, style), (23, pack('<BBBBB', colour, size, 0, style, 0)))


def pen(width, colour=BLACK, art=0xFFFF):
    return shared('%d %d %04X' % (width, colour, art), (24, pack('<BBHB', colour, width, art, 0)))


def fill(type_, colour, pattern=NULL):
    return shared('%d %d %d' % (type_, colour, pattern), (25, pack('<BBHB', type_, colour, pattern, 0)))


def number_variable(value):
    return shared('%d' % value, (21, pack('<I', value)))


def string_variable(text):
    return shared(text.decode(), (22, pack('<H', len(text)) + text))


# Objects that are drawn: a kind, and the fields of its record.

def listed(children):
    return b''.join(pack('<Hhh', *child) for child in children)


def container(width, height, children, hidden=0):
    return 3, pack('<HHBBB', width, height, hidden, len(children), 0) + listed(children)


def key(children, colour=SILVER, code=1):
    return 5, pack('<BBBB', colour, code, len(children), 0) + listed(children)


def button(width, height, children, colour=SILVER, border=BLACK, options=0):
    return 6, pack('<HHBBBBBB', width, height, colour, border, 1, options, len(children), 0) + listed(children)


def boolean(value, width=12, face=None, enabled=1, variable=NULL):
    return 7, pack('<BHHHBBB', CREAM, width, font() if face is None else face, variable, value, enabled, 0)


def text(content, width=80, height=12, options=0, justify=0, face=None, colour=CREAM, variable=NULL):
    fields = (width, height, colour, font() if face is None else face, options, variable, justify, len(content))
    return 11, pack('<HHBHBHBH', *fields) + content + b'\0'


def input_text(content, width=80, height=12, options=0, justify=0, face=None, enabled=1, variable=NULL):
    face = font() if face is None else face
    fields = (width, height, CREAM, face, NULL, options, variable, justify, len(content))
    return 8, pack('<HHBHHBHBB', *fields) + content + pack('<BB', enabled, 0)


def value(number, offset=0, scale=0, decimals=0, options=0, justify=0, width=88, form=0, variable=NULL, face=None):
    fields = pack('<HHBHBHIi', width, 12, CREAM, font() if face is None else face, options, variable, number, offset)
    return 12, fields + SCALES[scale] + pack('<BBBB', decimals, form, justify, 0)


def input_number(number, offset=0, scale=0, decimals=0, options=0, justify=0, width=88, enabled=1, variable=NULL):
    fields = pack('<HHBHBHIIIi', width, 12, CREAM, font(), options, variable, number, 0, 0xFFFFFFFF, offset)
    return 9, fields + SCALES[scale] + pack('<BBBBB', decimals, 0, justify, enabled, 0)


def input_list(index, items, enabled=1, variable=NULL):
    return 10, pack('<HHHBBBB', 88, 16, variable, index, len(items), enabled, 0) + b''.join(pack('<H', it) for it in items)


def line(width, height, line_pen, direction=0):
    return 13, pack('<HHHBB', line_pen, width, height, direction, 0)


def rectangle(width, height, line_pen=NULL, suppressed=0, filled=NULL):
    return 14, pack('<HHHBHB', line_pen, width, height, suppressed, filled, 0)


def ellipse(width, height, line_pen=NULL, type_=0, start=0, end=0, filled=NULL):
    return 15, pack('<HHHBBBHB', line_pen, width, height, type_, start, end, filled, 0)


def polygon(points, line_pen=NULL, type_=0, filled=NULL, width=36, height=28):
    head = pack('<HHHHBBB', width, height, line_pen, filled, type_, len(points), 0)
    return 16, head + b''.join(pack('<HH', *point) for point in points)


def meter(options=15, number=40, least=0, most=100, ticks=5, start=165, end=105, width=56, variable=NULL):
    return 17, pack('<HBBBBBBBHHHHB', width, RED, BLUE, GREEN, options, ticks, start, end, least, most, variable, number, 0)


def bar(options, number=30, target=70, least=0, most=100, ticks=5, width=40, height=34, variable=NULL, aim=NULL):
    fields = (width, height, BLUE, RED, options, ticks, least, most, variable, number, aim, target, 0)
    return 18, pack('<HHBBBBHHHHHHB', *fields)


def arch(options=3, number=30, target=70, least=0, most=100, start=0, end=90, wide=10, size=(56, 56), variable=NULL, aim=NULL):
    fields = (*size, BLUE, RED, options, start, end, wide, least, most, variable, number, aim, target, 0)
    return 19, pack('<HHBBBBBHHHHHHHB', *fields)


def pointer(target):
    return 27, pack('<H', target)


# Pictures: rows of colours.

def arrow(ink, paper, size=16):
    """An arrow to the upper left corner."""
    return [[ink if x + y < size * 5 // 8 or abs(x - y) < 3 else paper for x in range(size)] for y in range(size)]


def board(one, other, width=16, height=16):
    return [[one if (x // 2 + y // 2) % 2 else other for x in range(width)] for y in range(height)]


RAMP_16 = [list(range(16))] * 16
RAMP_256 = [[16 * y + x for x in range(16)] for y in range(16)]


def packed(rows, form):
    """Rows as the bytes of a format. Spare pixels at the end of a row have the greatest colour, so that they would be seen."""
    bits = (1, 4, 8)[form]
    data = b''
    for row in rows:
        row = row + [(1 << bits) - 1] * (-len(row) % (8 // bits))
        data += int(''.join('{:0{}b}'.format(colour, bits) for colour in row), 2).to_bytes(len(row) * bits // 8, 'big')
    return data


def run_lengths(data):
    return b''.join(bytes([len(run.group()), run.group()[0]]) for run in re.finditer(rb'(.)\1{0,254}', data, re.DOTALL))


def picture(rows, form, options=0, clear=0, width=None, data=None):
    """With bit 2 of the options the bytes are run lengths. Other data may be given."""
    data = packed(rows, form) if data is None else data
    data = run_lengths(data) if options & 4 else data
    return image(len(rows[0]) if width is None else width, len(rows[0]), len(rows), form, options, clear, data)


def image(width, actual_width, actual_height, form, options, clear, data):
    return 20, pack('<HHHBBBIB', width, actual_width, actual_height, form, options, clear, len(data), 0) + data
