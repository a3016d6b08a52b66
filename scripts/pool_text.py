#!/usr/bin/env python3
"""Prints an object pool as text for tests, an object on a line: pool_text.py FILE.iop > FILE.pool

docs/TESTING.md says how the text is read. Bytes from a record that cannot be cut off on are printed as they are.
"""
import os
import sys

sys.dont_write_bytecode = True
sys.path.insert(0, os.path.dirname(os.path.abspath(__file__)))

from testing import pools  # noqa: E402

NAMES = ('Working Set,Data Mask,Alarm Mask,Container,Soft Key Mask,Key,Button,Input Boolean,Input String,Input Number,Input List,Output String,'
         'Output Number,Output Line,Output Rectangle,Output Ellipse,Output Polygon,Output Meter,Output Linear Bar Graph,Output Arched Bar Graph,'
         'Picture Graphic,Number Variable,String Variable,Font Attributes,Line Attributes,Fill Attributes,Input Attributes,Object Pointer,'
         'Macro').split(',')
# Of each kind the bytes up to what has a variable length, and the counts in it: their offsets, the bytes of each, and those of one thing.
HEADS = [(10, (7, 1, 6), (8, 1, 2), (9, 1, 2)), (8, (6, 1, 6), (7, 1, 2)), (10, (8, 1, 6), (9, 1, 2)), (10, (8, 1, 6), (9, 1, 2)),
         (6, (4, 1, 2), (5, 1, 2)), (7, (5, 1, 6), (6, 1, 2)), (13, (11, 1, 6), (12, 1, 2)), (13, (12, 1, 2)), (17, (16, 1, 1)), (38, (37, 1, 2)),
         (13, (10, 1, 2), (12, 1, 2)), (16, (14, 2, 1)), (29, (28, 1, 2)), (11, (10, 1, 2)), (13, (12, 1, 2)), (15, (14, 1, 2)),
         (14, (12, 1, 4), (13, 1, 2)), (21, (20, 1, 2)), (24, (23, 1, 2)), (27, (26, 1, 2)), (17, (12, 4, 1), (16, 1, 2)), (7,), (5, (3, 2, 1)),
         (8, (7, 1, 2)), (8, (7, 1, 2)), (8, (7, 1, 2)), (5, (4, 1, 1)), (5,), (5, (3, 2, 1))]
# The kinds whose count of macros stands behind their text, and the bytes before that count.
TAILS = {8: 1, 11: 0, 26: 0}


def length_of(data):
    """The length of the record at the front, or None."""
    if len(data) < 3 or data[2] >= len(HEADS) or len(data) < HEADS[data[2]][0]:
        return None
    size, *counts = HEADS[data[2]]
    size += sum(int.from_bytes(data[at:at + width], 'little') * each for at, width, each in counts)
    if data[2] in TAILS:
        at = size + TAILS[data[2]]
        if len(data) <= at:
            return None
        size = at + 1 + 2 * data[at]
    return size if size <= len(data) else None


def main():
    with open(sys.argv[1], 'rb') as file:
        data = file.read()
    while data:
        size = length_of(data)
        if size is None:
            print('\n'.join(pools.text_of(data)))
            return
        record, data = data[:size], data[size:]
        number = int.from_bytes(record[:2], 'little')
        print(f'@{number} {record[2:].hex(" ").upper()}  # {NAMES[record[2]]}')


if __name__ == '__main__':
    main()
