"""Records of objects, against the header that says where their fields lie."""
import re
import struct
import subprocess
import sys
import unittest
from decimal import Decimal

from segyolant.layouts import LAYOUTS
from segyolant.objects import COUNT, KIND_NAMES, SIZES, Child, MacroOf, object_of, objects_in
from tests.support import PYTHON, TOP, example

HEADER = (TOP / 'include' / 'vt_records.h').read_text(encoding='utf-8')


def offsets(name: str, kind: str) -> 'dict[str, int]':
    """Where the header has the fields of a kind that are not behind a list."""
    section = re.split(rf', kind {kind} \*/|/\* ---- the record|/\* The number of bytes', HEADER.split(f'{name}, kind {kind} */')[1])[0]
    front = name.upper().replace(' ', '_')
    return {field.lower(): int(at) for field, at in re.findall(rf'    VT_{front}_(\w+) = (\d+), /\*', section)}


class Layouts(unittest.TestCase):
    def test_the_table_is_that_of_the_header(self) -> None:
        ran = subprocess.run([sys.executable, str(PYTHON / 'make_layouts.py'), '--check'], capture_output=True, text=True)
        self.assertEqual((ran.returncode, ran.stderr), (0, ''))

    def test_each_field_lies_where_the_header_says(self) -> None:
        kinds = re.findall(r'the record of an? ([a-z ]+), kind (\d+)', HEADER)
        self.assertEqual([int(kind) for _, kind in kinds], sorted(LAYOUTS))
        for name, kind in kinds:
            at = 3
            wanted = offsets(name, kind)
            for field, form in LAYOUTS[int(kind)]:
                if field in wanted:
                    self.assertEqual(at, wanted.pop(field), f'{name}: {field}')
                at += SIZES.get(form, 0)
            self.assertEqual(wanted, {}, name)

    def test_each_list_has_its_count_before_it(self) -> None:
        for kind, fields in LAYOUTS.items():
            names = [field for field, _ in fields]
            for at, (field, form) in enumerate(fields):
                if form not in SIZES:
                    self.assertIn(COUNT + field, names[:at], f'{KIND_NAMES[kind]}: {field}')

    def test_each_kind_has_a_name(self) -> None:
        self.assertEqual(sorted(KIND_NAMES), sorted(LAYOUTS))


class Records(unittest.TestCase):
    def test_a_data_mask_with_a_child_and_a_macro(self) -> None:
        record = struct.pack('<HBBHBB', 1000, 1, 7, 4000, 1, 1) + struct.pack('<Hhh', 100, 10, -5) + bytes([3, 9])
        mask = object_of(record + b'more')
        self.assertEqual((mask.id, mask.kind, mask.kind_name, str(mask)), (1000, 1, 'Data Mask', 'Data Mask 1000'))
        self.assertEqual((mask['colour'], mask.number('soft_key_mask')), (7, 4000))
        self.assertEqual(mask.children, (Child(100, 10, -5),))
        self.assertEqual(mask.macros, (MacroOf(3, 9),))
        self.assertEqual(mask.record, record)

    def test_a_number_has_a_signed_offset_and_an_exact_scale(self) -> None:
        front = struct.pack('<HBHHBHBHIiIifBBBBB', 351, 9, 80, 20, 1, 104, 2, 200, 5, 1, 600, -100, 0.1, 1, 0, 2, 3, 0)
        number = object_of(front.replace(struct.pack('<IiIi', 5, 1, 600, -100), struct.pack('<IIIi', 5, 1, 600, -100)))
        self.assertEqual((number['offset'], number['scale'], number['max']), (-100, Decimal('0.1'), 600))

    def test_texts_are_bytes(self) -> None:
        text = object_of(struct.pack('<HBH', 203, 22, 4) + 'Süd '.encode('latin-1'))
        self.assertEqual((text['text'], text.text, text.children), (b'S\xfcd ', 'Süd ', ()))

    def test_the_pools_of_the_examples(self) -> None:
        for name, count in (('pool.iop', 3), ('sprayer.iop', 76), ('kinds.iop', None)):
            pool = example(name)
            objects = objects_in(pool)
            self.assertEqual(b''.join(each.record for each in objects), pool)
            self.assertEqual(count or len(objects), len(objects))

    def test_what_cannot_be_read_is_named(self) -> None:
        for record, words in (
            (b'\x01', 'the record at 0 ends before its kind'),
            (b'\x01\x00\xff', 'the record at 0 has the kind 255, which is not known: 0 to 28 are'),
            (b'\x01\x00\x15\x00', 'the record at 0, Number Variable 1, ends before its value'),
        ):
            with self.assertRaisesRegex(ValueError, words):
                object_of(record)

    def test_an_attribute_that_is_not_there_is_named(self) -> None:
        variable = object_of(struct.pack('<HBI', 200, 21, 5))
        with self.assertRaisesRegex(KeyError, 'Number Variable 200 has no width: it has value'):
            variable['width']
        with self.assertRaisesRegex(TypeError, 'children of Container 100 is no number'):
            objects_in(example('pool.iop'))[2].number('children')


if __name__ == '__main__':
    unittest.main()
