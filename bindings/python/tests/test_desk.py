"""The desk without a browser: what it does with frames, pages and logs, and what its server lets in."""
from __future__ import annotations

import asyncio
import contextlib
import importlib.util
import io
import json
import socket
import sys
import tempfile
import time
import unittest
import warnings
from collections.abc import Callable, Sequence
from pathlib import Path
from typing import Any
from unittest import mock

from segyolant import Terminal, names_of
from segyolant.desk import acts
from segyolant.desk.audience import MOST_LINES, Audience, Page
from segyolant.desk.__main__ import main
from segyolant.desk.clock import Clock, PlayClock
from segyolant.desk.desk import Desk
from segyolant.desk.lines import Hear, InternalLine, LogLine
from segyolant.desk.places import places_in
from segyolant.desk.recorder import Recorder
from segyolant.desk.screen_text import said_by
from segyolant.frames import Frame, text_of
from segyolant.implement import Implement
from segyolant.log_lines import ActionLine, FrameLine, read_log
from segyolant.naming import by_id
from segyolant.sprayer import NAMES, Sprayer
from tests.support import EXAMPLES, TOP, example, is_quick

APT = 'apt-get install -y --no-install-recommends python3-can python3-aiohttp'
HAS_AIOHTTP = importlib.util.find_spec('aiohttp') is not None
HAS_CAN = importlib.util.find_spec('can') is not None
NAMES_BY_ID = by_id({**names_of(EXAMPLES / 'sprayer.h'), **NAMES})
MAINTENANCE = bytes.fromhex('FF0003FFFFFFFFFF')


class Wire:
    """A line that keeps what is sent, and on which a test says what is heard."""

    name = 'a wire'

    def __init__(self) -> None:
        self.clock = Clock()
        self.sent: list[Frame] = []

    def open(self, hear: Hear) -> None:
        self._hear = hear

    def send(self, frames: Sequence[Frame]) -> None:
        self.sent += frames

    def close(self) -> None:
        pass

    def say(self, *frames: tuple[int, str]) -> None:
        now = self.clock.now()
        self._hear([(now, id, bytes.fromhex(data)) for id, data in frames])

    def texts(self) -> list[str]:
        return [text_of(each.id, each.data) for each in self.sent]


class WithDesk(unittest.IsolatedAsyncioTestCase):
    async def asyncSetUp(self) -> None:
        asyncio.get_running_loop().slow_callback_duration = 60  # (a quick build is slow, and so is a busy machine)
        folder = tempfile.TemporaryDirectory()
        self.addCleanup(folder.cleanup)
        self.folder = Path(folder.name)
        self.pages: dict[Page, list[dict[str, Any]]] = {}

    def desk(self, line: Any, pools: dict[int, bytes] = {}, **more: Any) -> Desk:
        desk = Desk(lambda own: Terminal(0x26 if own is None else own), line, NAMES_BY_ID, pools=pools, **more)
        self.addAsyncCleanup(self.close, desk)
        desk.start()
        return desk

    async def close(self, desk: Desk) -> None:
        desk.close()

    def page(self, desk: Desk) -> Page:
        """A page, whose messages are in `self.pages`."""
        page = Page()
        told: list[dict[str, Any]] = []

        async def send(text: str) -> None:
            told.extend(json.loads(text))

        task = asyncio.ensure_future(page.run(send))
        self.addCleanup(task.cancel)
        self.pages[page] = told
        desk.audience.add(page)
        desk.painter.paint_soon()
        return page

    async def until(self, holds: Callable[[], Any], seconds: float = 20) -> Any:
        end = time.monotonic() + seconds
        while not (found := holds()):
            self.assertLess(time.monotonic(), end, 'it took too long')
            await asyncio.sleep(0.02)
        return found

    def last(self, page: Page, kind: str) -> dict[str, Any]:
        return next((each for each in reversed(self.pages[page]) if each['kind'] == kind), {})

    def lines(self, page: Page) -> list[list[Any]]:
        return [line for each in self.pages[page] if each['kind'] == 'lines' for line in each['lines']]

    def notes(self, page: Page) -> list[str]:
        return [each['text'] for each in self.pages[page] if each['kind'] == 'note']


class ADesk(WithDesk):
    async def quiet(self, desk: Desk) -> None:
        """Waits for the end of the silence after the claim."""
        await asyncio.sleep(0.3)
        desk.run()

    async def test_it_claims_and_tells_its_status(self) -> None:
        wire = Wire()
        self.desk(wire)
        self.assertEqual(wire.texts(), ['18EEFF26#01000000001D0020'])
        await self.until(lambda: '14E6FF26#FEFEFFFFFFFF00FF' in wire.texts(), 3)

    async def test_a_page_that_comes_gets_the_picture(self) -> None:
        desk = self.desk(Wire(), {0x80: example('sprayer.iop')})
        page = self.page(desk)
        picture = await self.until(lambda: self.last(page, 'picture'))
        self.assertTrue(picture['svg'].startswith('<svg '))
        hits = {each['id']: (each['kind'], each['label'], each['off']) for each in picture['hits']}
        self.assertEqual(hits[351], ('number', '200', False))
        self.assertEqual(hits[352], ('boolean', 'on', False))
        self.assertEqual(hits[353], ('text', '', True))
        self.assertEqual(hits[354], ('list', 'Automatic', False))
        self.assertEqual(hits[360], ('button', 'START', False))
        self.assertEqual(hits[2001], ('key', 'ON', False))
        state = await self.until(lambda: self.last(page, 'state').get('sets', [{}])[0].get('icon') and self.last(page, 'state'))
        self.assertEqual((state['shown'], state['mask'], state['mask_name'], state['alarm']), (0x80, 1000, 'mask_work', None))
        self.assertTrue(state['sets'][0]['icon'].startswith('<svg '))

    async def test_a_preloaded_set_stays(self) -> None:
        wire = Wire()
        desk = self.desk(wire, {0x80: example('pool.iop')})
        await asyncio.sleep(3.6)  # (a set that is silent for 3 seconds is closed)
        self.assertEqual(desk.terminal.shown, 0x80)
        self.assertNotIn(0xFF, [each.data[0] for each in wire.sent if each.id & 0xFF == 0x80])

    async def test_keys_and_two_pages(self) -> None:
        wire = Wire()
        desk = self.desk(wire, {0x80: example('sprayer.iop'), 0x81: example('pool.iop')})
        first, second = self.page(desk), self.page(desk)
        await self.quiet(desk)
        acts.do(desk, first, '{"do":"press","object":2001}')
        acts.do(desk, second, '{"do":"press","object":2003}')
        acts.do(desk, second, '{"do":"release","object":2001}')
        self.assertEqual([each for each in wire.texts() if each.startswith('14E680')], ['14E68026#0001D107E8030AFF'])
        await self.until(lambda: 'refused: Held' in self.notes(second))
        self.assertNotIn('refused: Held', self.notes(first))
        # (another set is chosen while the key is held: it is released first)
        acts.do(desk, first, '{"do":"choose","address":129}')
        self.assertIn('14E68026#0000D107E8030AFF', wire.texts())
        self.assertEqual((desk.terminal.shown, first.held), (0x81, set()))

    async def test_a_page_that_is_closed_releases_its_key(self) -> None:
        wire = Wire()
        desk = self.desk(wire, {0x80: example('sprayer.iop')})
        page = self.page(desk)
        await self.quiet(desk)
        acts.do(desk, page, '{"do":"press","object":2001}')
        desk.leave(page)
        self.assertEqual(wire.texts()[-1], '14E68026#0000D107E8030AFF')

    async def test_dialogs(self) -> None:
        desk = self.desk(Wire(), {0x80: example('sprayer.iop')})
        page = self.page(desk)
        await self.quiet(desk)
        for message in ({'do': 'open', 'object': 351}, {'do': 'enter', 'object': 351, 'typed': ' 250 '}):
            acts.do(desk, page, json.dumps(message))
        told = await self.until(lambda: self.last(page, 'entered'))
        self.assertEqual(told['fault'], '')
        dialog = self.last(page, 'dialog')
        self.assertEqual((dialog['input'], dialog['name'], dialog['least'], dialog['greatest']), ('number', 'in_rate', '0', '500'))
        self.assertEqual(desk.terminal.value_text(351), '250')
        for typed, fault in (('600', 'it is out of range'), ('2,5', '2.5 is no value of Input Number 351'), ('x', "typed is 'x'")):
            before = len(self.pages[page])
            acts.do(desk, page, json.dumps({'do': 'enter', 'object': 351, 'typed': typed}))
            await self.until(lambda: any(each['kind'] == 'entered' for each in self.pages[page][before:]))
            self.assertTrue(self.last(page, 'entered')['fault'].startswith(fault), self.last(page, 'entered'))
        acts.do(desk, page, '{"do":"open","object":354}')
        items = (await self.until(lambda: self.last(page, 'dialog').get('items')))
        self.assertEqual([each['text'] for each in items], ['Manual', 'Automatic', 'Headland'])
        self.assertTrue(all(each['svg'].startswith('<svg ') for each in items))
        acts.do(desk, page, '{"do":"open","object":353}')
        await self.until(lambda: 'refused: Disabled' in self.notes(page))

    async def test_messages_that_are_none(self) -> None:
        desk = self.desk(Wire(), {0x80: example('sprayer.iop')})
        page = self.page(desk)
        await self.quiet(desk)
        for text in ('', '[]', '{}', '{"do":5}', '{"do":"__init__"}', '{"do":"press"}', '{"do":"press","object":"1"}',
                     '{"do":"press","object":true}',
                     '{"do":"press","object":65536}', '{"do":"press","object":-1}', '{"do":"press","object":1.5}', '[' * 100_000,
                     '{"do":"enter","object":351,"typed":5}', '{"do":"enter","object":353,"text":"' + 'x' * 2000 + '"}',
                     '{"do":"play","speed":3}',
                     '{"do":"record","on":true}', '{"do":"begin","own":40}', '{"do":"choose","address":256}'):
            with self.assertRaises(acts.WrongMessage, msg=text[:60]):
                acts.do(desk, page, text)
        self.assertEqual(desk.terminal.value_text(351), '200')

    async def test_a_terminal_that_ends_is_begun_again_with_its_sets(self) -> None:
        wire = Wire()
        desk = self.desk(wire, {0x80: example('sprayer.iop')})
        page = self.page(desk)
        await self.quiet(desk)
        wire.say((0x14E72680, 'A8C800FF39300000'))
        desk.terminal._live.kill()
        wire.say((0x14E72680, 'A8C800FF40300000'))
        self.assertEqual(desk.terminal.shown, 0x80)
        await self.until(lambda: 'the terminal is there again, with the sets that were there' in self.notes(page))
        wire.say((0x14E72680, 'A8C900FF40000000'))
        self.assertIn('14E68026#A8C9000040000000', wire.texts())
        self.assertIn(desk.terminal.value_text(321), ('1234.5', '1235.2'))

    async def test_one_that_ends_again_and_again_is_given_up(self) -> None:
        wire = Wire()
        desk = self.desk(wire)
        page = self.page(desk)
        await self.quiet(desk)
        for _ in range(7):
            desk.terminal._live.kill()
            wire.say((0x14E72680, 'A8C800FF39300000'))
        self.assertIn('ended 5 times within a minute', desk.ended)
        await self.until(lambda: self.last(page, 'desk')['ended'])

    async def test_the_loss_of_the_address_and_another_one(self) -> None:
        wire = Wire()
        desk = self.desk(wire)
        page = self.page(desk)
        await self.quiet(desk)
        wire.say((0x18EEFF26, '0000000000000000'))
        await self.until(lambda: self.last(page, 'desk').get('lost'))
        acts.do(desk, page, '{"do":"begin","own":39}')
        self.assertEqual(wire.texts()[-1], '18EEFF27#01000000001D0020')

    async def test_events_are_told(self) -> None:
        wire = Wire()
        desk = self.desk(wire)
        page = self.page(desk)
        await self.quiet(desk)
        patch = mock.patch('segyolant.desk.trace.MOST_WORDS', 20.0)
        patch.start()
        self.addCleanup(patch.stop)
        wire.say((0x18EEFF80, '21000000001D00A0'), (0x1CFE0D80, '01FFFFFFFFFFFFFF'), (0x14E72680, '1101'), (0x14E72680, '12FFFFFFFFFFFFFF'))
        await self.until(lambda: any(each.startswith('the pool of 80 is refused: fault 1 Truncated at 0') for each in self.notes(page)))
        self.assertIn('set 80 came', self.notes(page))
        await self.until(lambda: '80 to 26: End of Object Pool' in [line[3] for line in self.lines(page)])

    async def test_a_flood_is_heard_and_holds_up_no_page(self) -> None:
        wire = Wire()
        desk = self.desk(wire, {0x80: example('pool.iop')})
        page = self.page(desk)
        await self.quiet(desk)
        turns = 0

        async def count() -> None:
            nonlocal turns
            while True:
                turns += 1
                await asyncio.sleep(0)

        async def live() -> None:
            while True:
                wire.say((0x14E72680, MAINTENANCE.hex()))
                await asyncio.sleep(0.2)

        # (the set is alive by what it says, however long the terminal takes to hear it)
        wire.say(*[(0x18FF0090 + k % 8, f'{k:016X}') for k in range(600 if is_quick() else 20_000)])
        for task in (asyncio.ensure_future(count()), asyncio.ensure_future(live())):
            self.addCleanup(task.cancel)
        await self.until(lambda: not desk._waiting, 60)
        self.assertGreater(turns, 3)
        self.assertEqual(desk.terminal.shown, 0x80)
        await self.until(lambda: any('more frames' in line[3] for line in self.lines(page)))
        self.assertLess(len(self.lines(page)), 500)


class APageThatTakesNothing(unittest.IsolatedAsyncioTestCase):
    async def test_its_letter_box_stays_small(self) -> None:
        audience, page = Audience(), Page()
        audience.add(page)
        for k in range(5000):
            audience.tell_picture({'kind': 'picture', 'svg': f'{k}'}, None)
            audience.add_lines([[k, 'in', '', '']])
            audience.note({'kind': 'note', 'text': f'{k}'})
        messages = page._taken()
        self.assertEqual([each['svg'] for each in messages if each['kind'] == 'picture'], ['4999'])
        (lines,) = [each for each in messages if each['kind'] == 'lines']
        self.assertEqual((len(lines['lines']), lines['left_out']), (MOST_LINES, 5000 - MOST_LINES))
        self.assertLessEqual(sum(each['kind'] == 'note' for each in messages), 50)

    async def test_the_same_picture_is_told_once(self) -> None:
        audience, page = Audience(), Page()
        audience.add(page)
        audience.tell_picture({'kind': 'picture', 'svg': 'a'}, 1.0)
        self.assertEqual(len(page._taken()), 1)
        audience.tell_picture({'kind': 'picture', 'svg': 'a'}, 2.0)
        self.assertEqual(page._taken(), [])


class Logs(WithDesk):
    async def test_a_log_is_played_with_its_operator(self) -> None:
        line = LogLine(EXAMPLES / 'sprayer.log', 0x26)
        recorder = Recorder(self.folder / 'again.log')
        desk = self.desk(line, {0x80: example('sprayer.iop')}, recorder=recorder)
        line.act, line.told = desk.play_action, lambda: desk.audience.tell(line.state)
        page = self.page(desk)
        line.play(speed=64)
        await self.until(lambda: line.is_over and line._next is None)
        await self.until(lambda: self.last(page, 'player').get('over'))
        self.assertIn('refused: Range', self.notes(page))
        await self.until(lambda: 'set 80 fell silent and is closed' in self.notes(page))
        lines = list(read_log((self.folder / 'again.log').read_bytes().splitlines()))
        self.assertTrue(all(isinstance(each, (FrameLine, ActionLine)) for each in lines))
        actions = [(each.action, each.object, each.value) for each in lines if isinstance(each, ActionLine)]
        self.assertIn(('number', 351, 250), actions)
        self.assertIn('14E68026#055F01FFFA000000', [str(each.frame) for each in lines if isinstance(each, FrameLine)])

    async def test_it_stands_still_and_goes_by_lines(self) -> None:
        line = LogLine(EXAMPLES / 'sprayer.log', 0x26)
        desk = self.desk(line, {0x80: example('sprayer.iop')})
        line.act = desk.play_action
        page = self.page(desk)
        acts.do(desk, page, '{"do":"play","runs":false}')
        at = line.clock.now()
        await asyncio.sleep(0.1)
        self.assertEqual(line.clock.now(), at)
        for _ in range(2):
            acts.do(desk, page, '{"do":"play","step":true}')
        self.assertEqual(desk.terminal.value_text(324), '8.6')
        self.assertEqual(line.state['line'], 6)

    async def test_the_recorded_terminals_own_frames_are_left_out(self) -> None:
        path = self.folder / 'own.log'
        path.write_text('(1.000000) can0   18EEFF26#0000000000000000\n(1.100000) can0 18EEFF80#21000000001D00A0\n')
        line = LogLine(path, 0x26)
        desk = self.desk(line)
        line.play(speed=64)
        await self.until(lambda: line._next is None)
        self.assertFalse(desk.terminal.lost)
        self.assertEqual(line.problems, '')

    async def played(self, log: bytes) -> tuple[Desk, LogLine, list[str]]:
        """A log that was played to its end, with its warnings."""
        path = self.folder / 'played.log'
        path.write_bytes(log)
        line, warnings = LogLine(path, 0x26), []
        line.warn = warnings.append
        desk = self.desk(line)
        line.play(speed=64)
        await self.until(lambda: line.is_over and line._next is None)
        return desk, line, warnings

    async def test_lines_of_candump_are_played(self) -> None:
        desk, line, warnings = await self.played(
            b'(1.000000)  can0  18EEFF80   [8]  01 00 00 00 00 1D 00 20\n(1.100000)  vcan1 1CFE0D80#01FFFFFFFFFFFFFF\n')
        self.assertEqual([each.address for each in desk.terminal.sets()], [0x80])
        self.assertEqual((warnings, line.problems), ([], ''))

    async def test_faulty_lines_are_told(self) -> None:
        frame = b'.000000) can0 18EEFF80#01000000001D0020\n'
        _, line, warnings = await self.played(b'(1' + frame + b'x\n(9' + frame + b'(9.000000) can0 18EEFF80\n')
        self.assertEqual(warnings, ['line 2 is faulty (Time)', '2 lines are faulty, the first is line 2 (Time)'])
        self.assertEqual(line.state['problems'], warnings[-1])

    async def test_a_log_without_a_frame_is_told(self) -> None:
        _, _, warnings = await self.played(b'# a comment\n18EEFF80#01000000001D0020\n')
        self.assertEqual(warnings, ['line 2 is faulty (Time); the log has no frame'])


class Pieces(unittest.TestCase):
    def test_the_places_in_a_picture_are_those_of_the_elements(self) -> None:
        masks = {'sprayer.iop': [0], 'kinds.iop': range(1000, 1005)}
        for name in masks:
            with Terminal() as terminal:
                terminal.preload(0x80, example(name))
                for k, mask in enumerate(masks[name]):
                    if mask:
                        terminal.hear(1000 * k, 0x14E72680, b'\xad\x01\x00' + mask.to_bytes(2, 'little') + b'\xff\xff\xff')
                    wanted = [(each.id, each.depth, each.left, each.top, each.right, each.bottom) for each in terminal.elements()]
                    found = [(each.id, each.depth, each.left, each.top, each.right, each.bottom) for each in places_in(terminal.picture())]
                    self.assertEqual(found, wanted, (name, mask))
        self.assertEqual(places_in('no picture'), [])

    def test_what_lines_of_a_screen_say(self) -> None:
        for line, text, is_off in (('text 311 12 8 "SPRAYER 24 m"', 'SPRAYER 24 m', False), ('value 321 12 74 187.4', '187.4', False),
                                   (r'input 353 250 292 "a \x22<b>\xFC" off', 'a "<b>ü', True),
                                   ('boolean 352 210 290 true off', 'true', True),
                                   ('list 354 270 288 1', '1', False), ('rectangle 310 0 0 480x44', '', False)):
            said = said_by(line)
            self.assertEqual((said.text, said.is_off), (text, is_off))

    def test_the_clock_of_a_log(self) -> None:
        clock = PlayClock(1000)
        clock.limit = 10_000_000
        self.assertEqual((clock.now(), clock.seconds_until(2000)), (1000, None))
        clock.set(at_least=5000)
        clock.set(at_least=3000)
        self.assertEqual(clock.now(), 5000)
        clock.set(runs=True, speed=2)
        time.sleep(0.05)
        self.assertGreaterEqual(clock.now(), 5000 + 100_000)
        self.assertAlmostEqual(clock.seconds_until(clock.now() + 2_000_000) or 0, 1, delta=0.1)


class Simulated(WithDesk):
    async def test_the_sprayer_in_its_closed_loop(self) -> None:
        desk = self.desk(InternalLine([Sprayer()]))
        page = self.page(desk)
        await self.until(lambda: self.last(page, 'state').get('mask') == 1000, 60)
        acts.do(desk, page, '{"do":"press","object":2001}')
        acts.do(desk, page, '{"do":"release","object":2001}')
        await self.until(lambda: float(desk.terminal.value_text(321) or 0) > 50, 60)


@unittest.skipUnless(HAS_CAN, f'{sys.executable} has no python-can: {APT}')
class OnPythonCan(WithDesk):
    async def asyncSetUp(self) -> None:
        from segyolant.desk.python_can import CanLine

        with warnings.catch_warnings():
            warnings.simplefilter('ignore')  # (python-can of Debian 12 warns of what it calls itself)
            import can

        await super().asyncSetUp()
        self.message, channel = can.Message, self.id()
        self.running = self.desk(CanLine('virtual', channel))
        self.other = can.Bus(interface='virtual', channel=channel)
        self.addCleanup(self.other.shutdown)

    def send(self, frames: Sequence[Frame]) -> None:
        for frame in frames:
            self.other.send(self.message(arbitration_id=frame.id, data=frame.data, is_extended_id=True))

    def received(self) -> Frame | None:
        message = self.other.recv(0)
        return None if message is None else Frame(message.arbitration_id, bytes(message.data))

    async def test_an_implement_on_a_virtual_bus(self) -> None:
        implement, clock = Implement(example('pool.iop')), Clock()
        self.send(implement.start(clock.now()))
        end = time.monotonic() + 30
        while implement.phase != 'live' and time.monotonic() < end:
            frame, now = self.received(), clock.now()
            self.send(implement.tick(now) if frame is None else implement.hear(now, frame.id, frame.data))
            await asyncio.sleep(0.001)
        self.assertEqual((implement.phase, self.running.terminal.shown), ('live', 0x80))

    async def test_the_sender_of_linux(self) -> None:
        await asyncio.sleep(0.3)  # (the silence after the claim)
        answers: list[Frame] = []

        def answer() -> Frame | None:
            while (frame := self.received()) is not None:
                if frame.id in (0x1CEC8026, 0x1CC88026):
                    answers.append(frame)
            return answers.pop(0) if answers else None

        logs = sorted((TOP / 'tests' / 'bus' / 'linux').glob('*.log'))
        self.assertEqual(len(logs), 9)
        for path in [path for path in logs if not is_quick() or path.stat().st_size < 20_000]:
            for line in read_log(path.read_bytes().splitlines()):
                if not isinstance(line, FrameLine):
                    continue
                if line.frame.id & 0xFF == 0x80:
                    self.send([line.frame])
                else:
                    self.assertEqual(await self.until(answer), line.frame, f'{path.name}:{line.number}')
        self.assertIsNone(answer())


@unittest.skipUnless(HAS_AIOHTTP, f'{sys.executable} has no aiohttp: {APT}')
class CommandLine(unittest.TestCase):
    def said(self, *words: str) -> tuple[int, str]:
        with contextlib.redirect_stderr(io.StringIO()) as errors:
            status = main(['--port', '0', *words])
        return status, errors.getvalue()

    def test_a_refused_pool_is_named_with_its_file(self) -> None:
        path = EXAMPLES / 'many-faults.iop'
        self.assertEqual(self.said('--pool', f'80={path}'), (
            2, f'segyolant.desk: {path}: the terminal refuses this pool; segyolant check {path} says why\n'))

    def test_a_folder_is_no_file(self) -> None:
        with self.assertRaises(SystemExit), contextlib.redirect_stderr(io.StringIO()) as errors:
            main(['--pool', f'80={EXAMPLES}'])
        self.assertIn(f'{EXAMPLES} is a folder; expected a file', errors.getvalue())


@unittest.skipUnless(HAS_AIOHTTP, f'{sys.executable} has no aiohttp: {APT}')
class TheServer(WithDesk):
    async def asyncSetUp(self) -> None:
        import aiohttp

        from segyolant.desk.server import Server

        await super().asyncSetUp()
        self.wire = Wire()
        self.server = Server(self.desk(self.wire, {0x80: example('sprayer.iop')}), port=0)
        await self.server.start()
        self.client = aiohttp.ClientSession()
        self.addAsyncCleanup(self.server.close)
        self.addAsyncCleanup(self.client.close)
        self.url = self.server.url.rstrip('/')

    def socket(self, token: str | None = None, origin: str | None = None) -> Any:
        """A WebSocket to be opened, by `await` or `async with`."""
        headers = {'Origin': self.url if origin is None else origin}
        return self.client.ws_connect(f'{self.url}/ws?token={self.server.token if token is None else token}', headers=headers)

    async def test_the_page_and_its_headers(self) -> None:
        for path, kind in (('/', 'text/html'), ('/desk.css', 'text/css'), ('/desk.js', 'text/javascript')):
            async with self.client.get(self.url + path) as answer:
                self.assertEqual((answer.status, answer.content_type), (200, kind))
                self.assertIn("default-src 'none'", answer.headers['Content-Security-Policy'])
                self.assertEqual(answer.headers['X-Content-Type-Options'], 'nosniff')
                self.assertNotIn('content="TOKEN"', await answer.text())

    async def test_no_other_path(self) -> None:
        from yarl import URL

        for path in ('/index.html', '/static/', '/desk.py', '/../server.py', '/%2e%2e/server.py', '//etc/passwd', '/ws/../desk.js?x'):
            async with self.client.get(URL(self.url + path, encoded=True)) as answer:
                self.assertIn(answer.status, (400, 403, 404) if 'desk.js' not in path else (200, 404), path)

    async def test_a_port_that_is_taken(self) -> None:
        from segyolant.desk.server import Server

        other = Server(self.server.desk, port=self.server.port)
        self.addAsyncCleanup(other.close)
        with self.assertRaisesRegex(OSError, f'the port {self.server.port} is taken'):
            await other.start()

    async def test_names_of_other_machines_are_refused(self) -> None:
        async with self.client.get(self.url, headers={'Host': 'evil.example:8099'}) as answer:
            self.assertEqual(answer.status, 403)

    async def test_another_origin_or_token_is_refused(self) -> None:
        import aiohttp

        for token, origin in (('', None), ('wrong', None), (None, 'http://evil.example'), (None, 'null'), (None, '')):
            with self.assertRaises(aiohttp.WSServerHandshakeError) as caught:
                await self.socket(token, origin)
            self.assertEqual(caught.exception.status, 403)

    async def test_a_page_is_told_and_acts(self) -> None:
        async with self.socket() as socket:
            kinds: set[str] = set()
            while not {'picture', 'state', 'desk'} <= kinds:
                kinds |= {each['kind'] for each in await socket.receive_json(timeout=20)}
            await asyncio.sleep(0.3)
            await socket.send_str('{"do":"press","object":2001}')
            await self.until(lambda: '14E68026#0001D107E8030AFF' in self.wire.texts())
        await self.until(lambda: '14E68026#0000D107E8030AFF' in self.wire.texts())

    async def test_a_page_that_talks_nonsense_is_closed(self) -> None:
        async with self.socket() as socket:
            for _ in range(20):
                await socket.send_str('nonsense')
            while not (message := await socket.receive(timeout=20)).type.name.startswith('CLOS'):
                pass
            self.assertEqual(message.type.name, 'CLOSE')
        async with self.socket() as socket:
            await socket.send_str('x' * 10_000)
            while not (message := await socket.receive(timeout=20)).type.name.startswith('CLOS'):
                pass
        async with self.client.get(self.url) as answer:
            self.assertEqual(answer.status, 200)

    async def test_beyond_loopback_the_page_asks_for_the_token(self) -> None:
        from segyolant.desk.server import Server

        server = Server(self.server.desk, '0.0.0.0', 0)
        await server.start()
        self.addAsyncCleanup(server.close)
        url = f'http://127.0.0.1:{server.port}/'
        self.assertEqual(server.url, f'http://{socket.gethostname()}:{server.port}/?token={server.token}')
        for query, status in (('', 403), ('?token=wrong', 403), (f'?token={server.token}', 200)):
            async with self.client.get(url + query) as answer:
                self.assertEqual(answer.status, status)


if __name__ == '__main__':
    unittest.main()
