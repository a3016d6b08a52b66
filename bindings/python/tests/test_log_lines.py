"""Lines of logs, by the tables of docs/PROFILE.md, 3."""
import unittest

from segyolant import Frame, LogError, read_log
from segyolant.log_lines import ActionLine, CommentLine, FaultyLine, FrameLine, SkippedLine, read_line


def after_the_time(rest: str) -> object:
    return read_line(1, b'(1.000000) can0 ' + rest.encode('latin-1'))


class Frames(unittest.TestCase):
    def test_a_frame_has_its_time_in_microseconds(self) -> None:
        line = read_line(7, b'(12.000345) can0 14E72680#A0640000ffffffff R')
        self.assertEqual(line, FrameLine(7, 12_000_345, Frame(0x14E72680, bytes.fromhex('A0640000FFFFFFFF'))))

    def test_of_nine_digits_the_last_three_are_dropped(self) -> None:
        line = read_line(1, b'(1.123456789) x 18EA2680#00EE00')
        self.assertEqual(line, FrameLine(1, 1_123_456, Frame(0x18EA2680, bytes.fromhex('00EE00'))))

    def test_a_frame_may_have_no_data(self) -> None:
        self.assertEqual(after_the_time('14E72680# R'), FrameLine(1, 1_000_000, Frame(0x14E72680, b'')))

    def test_one_carriage_return_is_dropped(self) -> None:
        self.assertIsInstance(read_line(1, b'(1.000000) can0 14E72680#00\r'), FrameLine)
        self.assertIsInstance(read_line(1, b'\r'), CommentLine)
        self.assertEqual(read_line(1, b'\r\r'), FaultyLine(1, 'Time'))


class Others(unittest.TestCase):
    def test_faults(self) -> None:
        wanted = {
            'Shape': ['14E7', '14E7 680#00', '123#00 X', '14G72680#00 X', '14E72680##0 X', '', '14E72680#00  R', '14E72680#00 r'],
            'Hex': ['12G#00', '14G72680#00', '14E72680#r', '14E72680#A0640', '14E72680#' + '0' * 17, '14E72680#' + '0' * 17 + 'G'],
            'Length': ['14E72680#' + '0' * 18],
        }
        for fault, rests in wanted.items():
            for rest in rests:
                with self.subTest(rest=rest):
                    self.assertEqual(after_the_time(rest), FaultyLine(1, fault))

    def test_skipped(self) -> None:
        wanted = {
            'Short': ['123#00', 'FFF#ZZ', '123#0'],
            'Remote': ['14E72680#R', '14E72680#R8', '14E72680#RZ', '14E72680#R R'],
            'Fd': ['14E72680##', '14E72680##0A0'],
            'Error': ['20000000#00', 'FFFFFFFF#R'],
        }
        for why, rests in wanted.items():
            for rest in rests:
                with self.subTest(rest=rest):
                    self.assertEqual(after_the_time(rest), SkippedLine(1, why))

    def test_times(self) -> None:
        for text in (b'x (1.000000) can0 123#', b'!press 400', b'(1.0000000) can0 123#', b'(.000000) can0 123#', b'(1234567890123.000000) c 123#'):
            with self.subTest(text=text):
                self.assertEqual(read_line(1, text), FaultyLine(1, 'Time'))

    def test_an_interface_has_1_to_15_bytes(self) -> None:
        self.assertIsInstance(read_line(1, b'(1.000000) #\t\xff 14E72680#00'), FrameLine)
        for interface in (b'', b'a' * 16):
            self.assertEqual(read_line(1, b'(1.000000) ' + interface + b' 14E72680#00'), FaultyLine(1, 'Shape'))

    def test_comments(self) -> None:
        self.assertEqual(list(read_log(['# a\n', '\n'])), [CommentLine(1, '# a'), CommentLine(2, '')])


class Operator(unittest.TestCase):
    def test_actions(self) -> None:
        wanted = {
            '! press 400': ActionLine(1, 'press', 400),
            '! release 0065534': ActionLine(1, 'release', 65534),
            '! select 0': ActionLine(1, 'select'),
            '! number 600 4294967295': ActionLine(1, 'number', 600, 2**32 - 1),
            '! text 301  a\xfc ': ActionLine(1, 'text', 301, text=b' a\xfc '),
            '! text 301 ': ActionLine(1, 'text', 301),
            '! set fE': ActionLine(1, 'set', value=0xFE),
        }
        for text, action in wanted.items():
            with self.subTest(text=text):
                self.assertEqual(list(read_log([text])), [action])

    def test_faults(self) -> None:
        for text in ('! ', '! press', '! press 65535', '! press 400 ', '! press  400', '! Press 400', '! number 1 4294967296', '! number 1',
                     '! number 1 -1', '! text 301', '! set 8', '! set 080', '! press +1'):
            with self.subTest(text=text):
                self.assertEqual(list(read_log([text])), [FaultyLine(1, 'Operator')])


class Logs(unittest.TestCase):
    def test_a_line_that_is_too_long_ends_the_log(self) -> None:
        lines = read_log([b'#' * 4096 + b'\n', b'#' * 4097])
        self.assertIsInstance(next(lines), CommentLine)
        with self.assertRaisesRegex(LogError, 'line 2 of the log is longer than 4096 bytes'):
            next(lines)


if __name__ == '__main__':
    unittest.main()
