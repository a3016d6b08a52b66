"""Replays, against what vt_replay printed of the same logs."""
import io
import os
import re
import subprocess
import unittest
from concurrent.futures import ThreadPoolExecutor
from unittest import mock

from segyolant import Frame, LogError, NoPool, Refusal, programs, read_log, replay, replay_text
from segyolant.log_lines import FaultyLine, FrameLine
from tests import stored
from tests.support import EXAMPLES, SET, example, is_quick

# A quick build takes some milliseconds a line: it replays no longer logs than this, and a proved program all.
MOST_LINES = 200
COUNTS = re.compile(rb'lines \d+ frames \d+ operator \d+ skipped \d+ comments \d+ faults \d+\n')


def text_of(run: stored.Run) -> bytes:
    return replay_text(io.BytesIO(run.log), run.pools, run.own, run.name).encode('latin-1')


def texts_of(runs: 'list[stored.Run]') -> 'list[tuple[stored.Run, bytes]]':
    """The runs with their texts, made side by side: each waits for a child of its own."""
    with ThreadPoolExecutor(len(os.sched_getaffinity(0))) as pool:
        return list(zip(runs, pool.map(text_of, runs)))


class Stored(unittest.TestCase):
    def test_logs_with_expectations(self) -> None:
        runs = list(stored.logs_with_expectations())
        self.assertGreater(len(runs), 130)
        if is_quick():
            runs = [run for run in runs if run.log.count(b'\n') <= MOST_LINES]
            self.assertGreater(len(runs), 100)
        for run, text in texts_of(runs):
            with self.subTest(run.shown):
                lines = text.splitlines(keepends=True)
                self.assertRegex(lines[-1], COUNTS)
                self.assertEqual([line.rstrip() for line in lines[:-1]], run.expected)

    def test_command_lines_of_sessions(self) -> None:
        runs = list(stored.runs_in_sessions())
        self.assertGreater(len(runs), 40)
        for run, text in texts_of(runs):
            with self.subTest(run.shown):
                self.assertEqual(text, run.printed)


# What stands before a frame, and the frame: a request for a claim, which the terminal answers, and others.
FRONTS = [b'(1.000000) can0 ', b'(1.000000)  can0  ', b'  (1.000000)   vcan1  ', b'(1.000000)  an_interface_of_more_than_15 ', b' can0  ']
FRAMES = [
    b'18EA2680#00EE00', b'18EA2680   [3]  00 EE 00', b'18EA2680 [3] 00 EE 00 R', b'18EA2680#00EE00  T', b'18EA2680#00EE00 T R', b'18EA2680#00EE00 T',
    b'18EA2680#00EE00 ', b'18EA2680  [8]  00 EE 00', b'18EA2680  [2]  00 EE 00', b'18EA2680   [3]  00 EE 0', b"18EA2680   [3]  00 EE 00   '...'",
    b"18EA2680   [3]  00 EE 00 'x", b'18EA2680   [3]  00 EE \'0', b'18EA2680   [3]  00 EE 0G', b'18EA2680   [9]  1 2', b'18EA2680   [3]  00  EE  00\r',
    b'18EA2680   [3]  00 EE 00\r\r', b'18EA2680   [0]', b'18EA2680   [8]  00 01 02 03 04 05 06 07 08', b'18EA2680   [8]  remote request',
    b'18EA2680   [0]  r', b'18EA2680   [0]  Remote', b'18EA2680  [08]  00 EE 00', b'18EA2680  [12]  00 01 02 03 04 05 06 07 08 09 0A 0B',
    b'18EA2680   [1]  0', b'18EA2680   [2]  00EE', b'18EA2680   [2]  00000000 11101110', b"18EA2680   [0]  ''", b"18EA2680   [2]  EE`00",
    b'18EA2680 [123] 00 EE 00', b'18EA2680 [', b'18EA2680##100EE00', b'123   [2]  00 01', b'123#0001', b'20000004   [8]  00 00 00 00 00 00 00 00',
    b'18EA268G   [3]  00 EE 00', b'18EA268   [3]  00 EE 00', b'18EA2680# [3] 00', b'18EA2680', b'18EA2680 00EE00', b'', b'\t18EA2680   [3]  00 EE 00',
]
OTHERS = [
    b'\xef\xbb\xbf(1.000000)  can0  18EA2680   [3]  00 EE 00', b'! press 400', b'  ! press 400', b'!  press 400', b'! press  400', b'! set 80 ',
    b' # a comment', b'#', b' ', b'\r', b' \r', b'', b'(1.000000)', b'(1.000000) ', b'(2026-11-10 10:00:00.000000)  can0  18EA2680   [3]  00 EE 00',
    b'1.000000  can0  18EA2680   [3]  00 EE 00', b'(1.00000)  can0  18EA2680   [3]  00 EE 00', b'(1.123456789)  can0  18EA2680   [3]  00 EE 00',
]


class OtherRecorders(unittest.TestCase):
    """Lines of `candump -ta`, padded lines and others, against what the programs read in them."""

    LINES = [front + frame for front in FRONTS for frame in FRAMES] + OTHERS
    LOG = b''.join(line + b'\n' for line in LINES)

    def printed(self, name: str, *words: str) -> bytes:
        return subprocess.run([str(programs.find(name)), *words, '-'], input=self.LOG, capture_output=True, check=True).stdout

    def test_they_are_read_as_vt_replay_reads_them(self) -> None:
        text = self.printed('vt_replay')
        self.assertEqual(replay_text(self.LOG.split(b'\n')[:-1]).encode('latin-1'), text)
        self.assertGreater(text.count(b'18EEFF26#'), 20)

    def test_their_frames_are_those_that_segyolant_log_writes(self) -> None:
        def frames_in(log: bytes) -> list[tuple[int, Frame]]:
            return [(each.time, each.frame) for each in read_log(log.split(b'\n')[:-1]) if isinstance(each, FrameLine)]

        written = frames_in(self.printed('segyolant_log', 'operator'))
        self.assertEqual(frames_in(self.LOG), written)
        self.assertIn((1_000_000, Frame(0x18EA2680, bytes(range(8)))), written)


class Steps(unittest.TestCase):
    def test_a_step_a_line(self) -> None:
        first, *steps = replay(EXAMPLES / 'hide.log', {SET: example('pool.iop')})
        self.assertEqual((first.number, first.line, first.screen), (0, None, 'screen 80 mask 1000\ncontainer 100 10 5 50x20\n'))
        self.assertEqual([step.number for step in steps], list(range(1, len(steps) + 1)))
        hidden = next(step for step in steps if step.frames)
        self.assertIsInstance(hidden.line, FrameLine)
        self.assertEqual((hidden.frames, hidden.screen), ([Frame(0x14E68026, bytes.fromhex('A064000000FFFFFF'))], 'screen 80 mask 1000\n'))

    def test_lines_in_text(self) -> None:
        steps = list(replay(['# a log\n', '! press 400\n', 'x\n', '(2.500000) can0 18EA2680#00EE00']))
        self.assertEqual([step.text for step in steps], [
            'screen none\n', '', 'operator 9 NoSet\n', 'line 3 Time\n', '18EEFF26#01000000001D0020\n',
        ])
        self.assertEqual((steps[2].refusals, steps[3].line, steps[4].time), ([Refusal(9, 'NoSet')], FaultyLine(3, 'Time'), 2_500_000))

    def test_many_lines_at_once(self) -> None:
        lines = [b'(1.%06d) can0 18EA2680#00EE00\n' % k for k in range(120)]
        with mock.patch('segyolant.logs.AT_ONCE', 50):
            text = replay_text(lines)
        self.assertEqual(text.count('18EEFF26#01000000001D0020\n'), 120)
        self.assertTrue(text.endswith('lines 120 frames 120 operator 0 skipped 0 comments 0 faults 0\n'))

    def test_a_line_that_is_too_long_comes_behind_those_before(self) -> None:
        steps = replay([b'! press 1\n', b'#' * 5000])
        self.assertEqual([next(steps).number, next(steps).number], [0, 1])
        with self.assertRaisesRegex(LogError, 'line 2'):
            next(steps)

    def test_a_pool_that_is_none(self) -> None:
        with self.assertRaises(NoPool):
            list(replay([], {SET: b''}))

    def test_a_log_that_is_not_there(self) -> None:
        with self.assertRaises(OSError):
            list(replay(EXAMPLES / 'none.log'))


if __name__ == '__main__':
    unittest.main()
