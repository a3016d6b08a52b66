#!/usr/bin/env python3
"""Writes segyolant/layouts.py from include/vt_records.h, or with --check says whether it is as it would be written."""
from __future__ import annotations

import re
import sys
from pathlib import Path

HERE = Path(__file__).resolve().parent
HEADER = HERE.parents[1] / 'include' / 'vt_records.h'
TABLE = HERE / 'segyolant' / 'layouts.py'

RECORD = re.compile(r'/\* ---- the record of an? ([a-z ]+), kind (\d+) \*/')
FIELD = re.compile(r'    VT_(\w+) = (\d+), /\* (.*) \*/')
PLACED = re.compile(r'/\* (.*)\. \*/\nstatic inline size_t vt_(\w+)_at\(')
FORMS = {
    '1 byte': 'B',
    '2 bytes': 'H',
    '4 bytes': 'I',
    '4 bytes, signed': 'i',
    '4 bytes, a float of IEEE 754': 'f',
    '6 bytes each: ID, x and y, signed': 'children',
    '4 bytes each: x and y': 'points',
    '2 bytes each: ID': 'ids',
    '2 bytes each: the event and the macro': 'macros',
    '2 bytes each: two letters': 'languages',
    'bytes': 'bytes',
}
FRONT = '''"""The fields of each kind of record, in their order behind the ID and the kind. Made by make_layouts.py from include/vt_records.h.

B, H and I are numbers of 1, 2 and 4 bytes, i is a signed one, and f a float. The others are lists, whose counts are in the fields
`count_of_` and their names.
"""
from __future__ import annotations

from collections.abc import Mapping

LAYOUTS: Mapping[int, tuple[tuple[str, str], ...]] = {
'''


def records(header: str) -> list[tuple[str, int, list[tuple[str, str]]]]:
    """The name and the number of each kind, and its fields with their forms, in the order of the record."""
    parts = RECORD.split(header)[1:]
    return [(name, int(kind), fields_of(name, text)) for name, kind, text in zip(parts[0::3], parts[1::3], parts[2::3])]


def fields_of(name: str, text: str) -> list[tuple[str, str]]:
    front = name.replace(' ', '_') + '_'
    placed = [(field.lower()[len(front):], FORMS[form]) for field, _, form in FIELD.findall(text)]
    return placed + [(field[len(front):], FORMS[form]) for form, field in PLACED.findall(text)]


def table(header: str) -> str:
    """The text of layouts.py."""
    text = FRONT
    for name, kind, fields in records(header):
        text += f'    # {name}\n    {kind}: (\n'
        text += ''.join(f'        ({field!r}, {form!r}),\n' for field, form in fields)
        text += '    ),\n'
    return text + '}\n'


def main() -> None:
    made = table(HEADER.read_text(encoding='utf-8'))
    if sys.argv[1:] == ['--check']:
        sys.exit(0 if TABLE.read_text(encoding='utf-8') == made else f'{TABLE} is not as include/vt_records.h says: run make_layouts.py')
    TABLE.write_text(made, encoding='utf-8')


if __name__ == '__main__':
    main()
