"""What an operator types."""
import unittest
from decimal import Decimal

from segyolant.typing_in import number_text, text_bytes, whole_number


class Numbers(unittest.TestCase):
    def test_forms(self) -> None:
        for typed, text in (('12.5', '12.5'), (-20, '-20'), (Decimal('1E+3'), '1000'), (Decimal('-0.50'), '-0.50'), ('007', '007')):
            self.assertEqual(number_text(typed), text)

    def test_a_float_is_refused_with_the_reason(self) -> None:
        with self.assertRaisesRegex(TypeError, r"typed is the float 0\.1, which is 0\.1000000000000000055\d* exactly: give '0\.1' or a Decimal"):
            number_text(0.1)  # type: ignore[arg-type]

    def test_other_forms_are_refused(self) -> None:
        for typed in ('', '+5', ' 5', '5 ', '12,5', '.5', '5.', '1e3', '٣', Decimal('NaN'), Decimal('Infinity'), '-'):
            with self.subTest(typed=typed), self.assertRaisesRegex(ValueError, 'expected a number'):
                number_text(typed)
        with self.assertRaisesRegex(TypeError, 'typed is True'):
            number_text(True)
        with self.assertRaisesRegex(ValueError, 'has 16 digits: at most 15'):
            number_text('1' * 16)

    def test_whole_numbers(self) -> None:
        self.assertEqual(whole_number(354, '2'), 2)
        for text in ('-1', '1.0', '4294967296'):
            with self.assertRaisesRegex(ValueError, 'is no raw value of object 354'):
                whole_number(354, text)


class Texts(unittest.TestCase):
    def test_a_str_is_in_latin_1(self) -> None:
        self.assertEqual(text_bytes('Südfeld 7'), b'S\xfcdfeld 7')
        self.assertEqual(text_bytes(b'\x80'), b'\x80')
        with self.assertRaisesRegex(ValueError, "text has '€' at 2, which is not in Latin 1"):
            text_bytes('5 €')
        with self.assertRaisesRegex(TypeError, 'text is int'):
            text_bytes(5)  # type: ignore[arg-type]


if __name__ == '__main__':
    unittest.main()
