"""The bench in simulated time: its bus, its conditions, what it says of a failure, and its fixtures."""
from __future__ import annotations

import importlib.util
import os
import subprocess
import sys
import tempfile
import time
import unittest
from collections.abc import Callable, Sequence
from pathlib import Path

from segyolant import names_of
from segyolant.bench import Bench, Refused, Unmet, expect, never
from segyolant.bus import SECOND, Bus
from segyolant.frames import Frame
from segyolant.implement import Implement
from segyolant.sprayer import NAMES, Sprayer
from tests.support import EXAMPLES, PYTHON, TOP, example, is_quick

APT = 'apt-get install -y --no-install-recommends'
ALL_NAMES = {**names_of(EXAMPLES / 'sprayer.h'), **NAMES}


class Node:
    """A node that says some frames at its start and keeps what it hears."""

    def __init__(self, *frames: Frame, deadline: int | None = None) -> None:
        self.frames, self.deadline = frames, deadline
        self.heard: list[tuple[int, int]] = []
        self.ticks: list[int] = []

    def start(self, time: int) -> Sequence[Frame]:
        return self.frames

    def hear(self, time: int, id: int, data: bytes) -> Sequence[Frame]:
        self.heard.append((time, id))
        return []

    def tick(self, time: int) -> Sequence[Frame]:
        self.ticks.append(time)
        return []


class OnTheBus(unittest.TestCase):
    def test_the_lowest_identifier_is_first_and_each_frame_takes_its_time(self) -> None:
        bus, listener = Bus(), Node()
        bus.attach(listener)
        bus.attach(Node(Frame(0x18EEFF81, bytes(8)), Frame(0x00000081, b'')))
        bus.attach(Node(Frame(0x0CEEFF82, bytes(8))))
        bus.run(SECOND)
        # (a frame of 8 bytes has 131 bits of 4 microseconds; the second frame of a node waits for its first)
        self.assertEqual(listener.heard, [(524, 0x0CEEFF82), (1048, 0x18EEFF81), (1316, 0x00000081)])
        self.assertEqual(bus.time, SECOND)

    def test_nobody_hears_himself(self) -> None:
        bus, node = Bus(), Node(Frame(0x18EEFF81, bytes(8)))
        bus.attach(node)
        bus.run(SECOND)
        self.assertEqual(node.heard, [])

    def test_a_node_that_always_wants_a_tick_does_not_stop_the_clock(self) -> None:
        bus, node = Bus(), Node(deadline=0)
        bus.attach(node)
        bus.run(10_000)
        self.assertEqual(node.ticks, list(range(0, 10_001, 1000)))

    def test_a_node_that_is_taken_off(self) -> None:
        bus, node, listener = Bus(), Node(Frame(0x18EEFF81, bytes(8))), Node()
        bus.attach(listener)
        bus.attach(node)
        bus.detach(node)
        bus.run(SECOND)
        self.assertEqual(listener.heard, [])


def started(cleanup: Callable[..., object]) -> tuple[Bench, tuple[Path, str]]:
    """A bench whose sprayer has uploaded its pool, and where its pictures go."""
    folder = tempfile.TemporaryDirectory()
    cleanup(folder.cleanup)
    place = (Path(folder.name), 'a-test')
    bench = Bench(Sprayer(), names=ALL_NAMES, place=place)
    cleanup(bench.close)
    bench.start()
    return bench, place


class Conditions(unittest.TestCase):
    """(one bench for all: they only look)"""

    @classmethod
    def setUpClass(cls) -> None:
        cls.bench, cls.place = started(cls.addClassCleanup)

    def test_values(self) -> None:
        bench = self.bench
        self.assertTrue(bench.value('in_rate') == '200')
        self.assertTrue(bench.value('in_rate') == 200)
        self.assertFalse(bench.value('in_rate') != 200)
        self.assertTrue(bench.value('in_rate') >= 200)
        self.assertFalse(bench.value('in_rate') < 200)
        self.assertTrue(bench.raw('v_tank') == 640)
        self.assertTrue(bench.raw('in_rate', 'max') == 500)
        self.assertTrue(bench.enabled('in_rate').now)
        self.assertFalse(bench.enabled('in_str').now)
        self.assertEqual(bench.items('in_list'), ['Manual', 'Automatic', 'Headland'])
        self.assertTrue((bench.mask == 'mask_work') & ~(bench.mask == 'mask_fold'))
        self.assertTrue((bench.mask == 'mask_fold') | (bench.shown == 0x80))
        self.assertFalse(bench.alarm)
        self.assertTrue(~bench.alarm)

    def test_the_screen(self) -> None:
        bench = self.bench
        self.assertTrue(bench.screen.contains('"Automatic"'))
        self.assertTrue(bench.screen.lacks('"Headland"'))
        self.assertTrue(bench.screen.shows('sections'))
        self.assertEqual(bench.screen.line('in_rate'), 'number 351 12 290 200')
        self.assertTrue(bench.screen.equals(bench.terminal.screen()))
        self.assertFalse(bench.screen.equals('screen none'))


class Clocks(unittest.TestCase):
    def setUp(self) -> None:
        self.bench, self.place = started(self.addCleanup)

    def test_expectations_go_by_the_clock_of_the_bench(self) -> None:
        bench, begun = self.bench, time.monotonic()
        bench.press('key_on', hold=0)
        at = bench.time
        expect(bench.value('value_Rate') > 190, within=60)
        self.assertLess(bench.time - at, 8)
        never(bench.alarm == 'mask_alarm', during=5)
        self.assertLess(time.monotonic() - begun, 30)

    def test_what_the_implement_hears_and_frames_say(self) -> None:
        bench = self.bench
        bench.enter('in_rate', 250)
        expect(bench.heard('number', 'in_rate', 250), within=0.1)
        expect(bench.says('Numeric Value: Input Number 351 `in_rate`, value 250'), within=0.1)
        self.assertFalse(bench.says('Soft Key Activation'))
        bench.touch(20, 360)
        expect(bench.heard('button', 'button_start', False), within=0.1)


class Failures(unittest.TestCase):
    """(one bench for all: none of these does anything that the terminal takes)"""

    @classmethod
    def setUpClass(cls) -> None:
        cls.bench, cls.place = started(cls.addClassCleanup)

    def message(self, kind: type[AssertionError], call: object) -> str:
        with self.assertRaises(kind) as caught:
            call()  # type: ignore[operator]
        return str(caught.exception)

    def test_an_expectation_that_never_comes_true(self) -> None:
        said = self.message(Unmet, lambda: expect(self.bench.value('value_Rate') > 50, within=2))
        self.assertIn("not within 2 s: value_Rate is above 50\nvalue_Rate is '0.0'\nthe last frames, up to ", said)
        self.assertIn('80 to 26: Change Numeric Value: Number Variable 200 `v_rate`, value 0', said)
        picture = self.place[0] / 'a-test.svg'
        self.assertTrue(said.endswith(f'the mask: {picture}'))
        self.assertTrue(picture.read_text().startswith('<svg '))

    def test_the_difference_of_a_screen(self) -> None:
        wanted = self.bench.terminal.screen().replace('number 351 12 290 200', 'number 351 12 290 250')
        said = self.message(Unmet, lambda: expect(self.bench.screen.equals(wanted)))
        self.assertIn('  -number 351 12 290 250\n  +number 351 12 290 200', said)

    def test_the_nearest_lines(self) -> None:
        said = self.message(Unmet, lambda: expect(self.bench.screen.contains('number 351 12 290 250')))
        self.assertIn('the nearest lines of the screen:\n  number 351 12 290 200', said)

    def test_what_was_not_to_come(self) -> None:
        said = self.message(Unmet, lambda: never(self.bench.screen.contains('Automatic'), during=2))
        self.assertIn('not expected at all within 2 s, and it came', said)

    def test_a_refused_action(self) -> None:
        said = self.message(Refused, lambda: self.bench.enter('in_rate', '600'))
        self.assertTrue(said.startswith("enter in_rate '600': refused, 3 Range\nthe last frames"), said)
        self.assertTrue(self.message(Refused, lambda: self.bench.press('key_ok')).startswith('press key_ok: refused, 1 NotShown'))
        self.assertTrue(self.message(Refused, lambda: self.bench.choose(0x81)).startswith('choose 81: refused, 9 NoSet'))

    def test_names_and_items_that_are_not_there(self) -> None:
        with self.assertRaisesRegex(KeyError, 'no object is named key_onn; there is key_on'):
            self.bench.press('key_onn')
        with self.assertRaisesRegex(KeyError, "it has 'Manual', 'Automatic', 'Headland'"):
            self.bench.enter('in_list', 'Sideways')

    def test_a_pool_that_is_refused(self) -> None:
        bench = Bench(Implement(example('refusal-03-missing.iop')), place=self.place)
        self.addCleanup(bench.close)
        said = self.message(Unmet, lambda: bench.start(within=5))
        self.assertIn('the pool of 80 is accepted\nits phase is failed: the pool is refused: error 2, parent 1000', said)


@unittest.skipUnless(importlib.util.find_spec('pytest'), f'{sys.executable} has no pytest: {APT} python3-pytest')
class Fixtures(unittest.TestCase):
    def run_pytest(self, *words: str, cwd: Path = TOP) -> subprocess.CompletedProcess[str]:
        environment = {**os.environ, 'PYTHONPATH': str(PYTHON), 'PYTHONDONTWRITEBYTECODE': '1'}
        command = [sys.executable, '-m', 'pytest', '-q', '-p', 'no:cacheprovider', *words]
        return subprocess.run(command, cwd=cwd, capture_output=True, text=True, env=environment)

    def test_the_sprayers_suite(self) -> None:
        # (a quick build takes two seconds for each upload)
        some = ['-k', 'refused'] if is_quick() else []
        ran = self.run_pytest('examples/sprayer_bench', *some)
        self.assertEqual(ran.returncode, 0, ran.stdout[-3000:] + ran.stderr)
        self.assertRegex(ran.stdout, '2 passed, 18 deselected' if some else '20 passed')
        self.assertEqual([*(EXAMPLES / 'sprayer_bench').glob('*.svg')], [])

    def test_a_pool_of_ones_own_and_the_report_of_a_failure(self) -> None:
        with tempfile.TemporaryDirectory() as folder:
            place = Path(folder)
            (place / 'my.iop').write_bytes(example('pool.iop'))
            (place / 'my.h').write_text('#define mask 1000\n#define box 100\n')
            (place / 'pytest.ini').write_text('[pytest]\nsegyolant_pool = my.iop\nsegyolant_names = my.h\n')
            (place / 'conftest.py').write_text("pytest_plugins = ['segyolant.pytest_plugin']\n")
            (place / 'test_mine.py').write_text(
                'def test_good(bench):\n    assert bench.screen.shows("box")\n\n'
                'def test_bad(bench):\n    assert bench.mask == 2000\n\n'
                'def test_alone(terminal, bus):\n    assert terminal.screen() == "screen none\\n" and bus.time == 0\n')
            ran = self.run_pytest(cwd=place)
            self.assertIn('1 failed, 2 passed', ran.stdout, ran.stdout + ran.stderr)
            self.assertIn('assert the active mask: mask == 2000', ran.stdout)
            self.assertIn(f'the mask: {place}/test_mine.test_bad.svg', ran.stdout)
            self.assertTrue((place / 'test_mine.test_bad.svg').exists())
            self.assertIn('End of Object Pool: accepted', ran.stdout)


if __name__ == '__main__':
    unittest.main()
