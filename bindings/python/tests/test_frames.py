"""Frames and refusals."""
import unittest

from segyolant import Frame, Refusal
from segyolant.frames import frame_of, refusal_of


class Frames(unittest.TestCase):
    def test_texts(self) -> None:
        for text in ('14E68026#A064000000FFFFFF', '00EA2680#00EE00', '18EEFF26#'):
            self.assertEqual(str(frame_of(text)), text)
        self.assertEqual(frame_of('00EA2680#00EE00'), Frame(0xEA2680, b'\x00\xee\x00'))

    def test_fields_of_an_identifier(self) -> None:
        answer, claim, master = Frame(0x14E68026, b''), Frame(0x18EEFF26, b''), Frame(0x1CFE0D80, b'')
        self.assertEqual((answer.group, answer.destination, answer.source), (0xE600, 0x80, 0x26))
        self.assertEqual((claim.group, claim.destination), (0xEE00, 0xFF))
        self.assertEqual((master.group, master.destination), (0xFE0D, None))
        self.assertEqual((Frame(0x15E68026, b'').group, Frame(0x16E68026, b'').group), (0x1E600, 0x2E600))

    def test_refusals(self) -> None:
        self.assertEqual(refusal_of('1 NotShown'), Refusal(1, 'NotShown'))
        self.assertEqual(str(Refusal(9, 'NoSet')), 'operator 9 NoSet')


if __name__ == '__main__':
    unittest.main()
