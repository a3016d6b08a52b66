"""Names of objects."""
import tempfile
import unittest
from pathlib import Path

from segyolant import names_of
from tests.support import EXAMPLES


def names_in(text: bytes) -> 'dict[str, int]':
    with tempfile.TemporaryDirectory() as folder:
        path = Path(folder) / 'names'
        path.write_bytes(text)
        return names_of(path)


class Names(unittest.TestCase):
    def test_a_header(self) -> None:
        text = b'/* keys */\r\n#define KEY_ON 2001 /* on */\r\n  #define KEY_OFF 0x7D2\n#define EMPTY\n#define TEXT "a"\n# define KEY 5\n'
        self.assertEqual(names_in(text), {'KEY_ON': 2001, 'KEY_OFF': 2002, 'KEY': 5})

    def test_numbers_of_c(self) -> None:
        text = b'#define a (1)\n#define b ( 0x2u ) // b\n#define c 3UL\n#define d (1 << 3)\n#define e 70000\n'
        self.assertEqual(names_in(text), {'a': 1, 'b': 2, 'c': 3})

    def test_casts_and_comments_without_a_blank(self) -> None:
        text = b'\xef\xbb\xbf1,first\n#define a (uint16_t)2\n#define b ((uint16_t)3)\n#define c UINT16_C(4)\n#define d 5/* */\n#define e 6//\n#definex 7\n'
        self.assertEqual(names_in(text), {'first': 1, 'a': 2, 'b': 3, 'c': 4, 'd': 5, 'e': 6})

    def test_a_list_of_bytes_names_nothing(self) -> None:
        self.assertEqual(names_in(b'uint8_t pool[] = {\n  8, 9, 10,\n  0x0C, 0x0D,\n};\n'), {})

    def test_members_and_constants(self) -> None:
        text = b'enum {\n a = 1,\n b = 0x2 /* b */,\n c = 3\n};\nstatic const uint16_t d = 4;\nconstexpr int e{5};\nint f = 6;\nf = 6;\npub const g: u16 = 7;\n'
        self.assertEqual(names_in(text), {'a': 1, 'b': 2, 'c': 3, 'd': 4, 'e': 5})

    def test_pairs(self) -> None:
        self.assertEqual(names_in(b'1000,work mask\n0x3E9 , fold\n1002,2nd mask\nid,name\n70000,big\n5,\n7\n'), {'work mask': 1000, 'fold': 1001, '2nd mask': 1002})

    def test_a_later_line_is_taken(self) -> None:
        self.assertEqual(names_in(b'#define a 1\n#define a 2\n'), {'a': 2})

    def test_a_line_that_is_no_utf_8_is_latin_1(self) -> None:
        self.assertEqual(names_in(b'1,\xff\n2,b\xc3\xbc\n'), {'\xff': 1, 'b\xfc': 2})

    def test_a_further_comma_ends_the_name(self) -> None:
        self.assertEqual(names_in(b'1,a,rest\n2,b,\n'), {'a': 1, 'b': 2})

    def test_the_sprayer(self) -> None:
        names = names_of(EXAMPLES / 'sprayer.h')
        self.assertEqual((names['mask_work'], names['font_title']), (1000, 100))

    def test_a_file_that_is_not_there(self) -> None:
        with self.assertRaises(OSError):
            names_of(EXAMPLES / 'none.h')


if __name__ == '__main__':
    unittest.main()
