"""The simulated implement: its sessions against each other, and its life with a terminal on a simulated bus."""
from __future__ import annotations

import re
import unittest

from segyolant import Terminal, commands
from segyolant.bus import SECOND, Bus
from segyolant.canid import ETP_CONTROL, TP_CONTROL, TP_DATA, identifier
from segyolant.frames import group_of
from segyolant.host import Host
from segyolant.implement import ERROR_AT, Implement
from segyolant.node import TerminalNode
from segyolant.objects import objects_in
from segyolant.sprayer import Sprayer, full_pool
from segyolant.transport import Receiver, Sender
from tests.support import EXAMPLES, TOP, example

SET, OWN, TO_TERMINAL = 0x80, 0x26, 0xE700
POOL = example('pool.iop')


def exchange(size: int, lost: set[int] = set()) -> tuple[bytes | None, str, int]:
    """Sends a message by TP to a receiver, with some frames lost, by their numbers. Returns what came, the fault, and the time."""
    sender, receiver = Sender(bytes(k % 251 for k in range(size)), TO_TERMINAL, SET, OWN), Receiver(OWN, SET)
    time, count, came = 0, 0, None
    waiting = [(True, frame) for frame in sender.start(time)]
    while not sender.is_done and not sender.fault:
        if not waiting:
            time = min(each for each in (sender.deadline, receiver.deadline) if each is not None)
            waiting = [(True, frame) for frame in sender.tick(time)] + [(False, frame) for frame in receiver.tick(time)]
            continue
        (is_senders, frame), count = waiting.pop(0), count + 1
        if count in lost:
            continue
        if is_senders:
            answers, message = receiver.hear(time, frame.group, frame.data)
            came = came if message is None else message[1]
            waiting += [(False, each) for each in answers]
        else:
            waiting += [(True, each) for each in sender.hear(time, frame.group, frame.data)]
    return came, sender.fault, time


class Rows(unittest.TestCase):
    def test_errors_are_where_the_terminal_has_them(self) -> None:
        text = (TOP / 'crates/vt_commands/src/row.rt').read_text()
        numbers = dict(re.findall(r'pub const (\w+): u8 = (0x\w+);', text))
        rows = re.findall(r'function::(\w+) => CommandRow \{[^}]*?error_at: (\d+)', text)
        self.assertEqual({int(numbers[name], 16): int(at) for name, at in rows}, ERROR_AT)


class Sessions(unittest.TestCase):
    def test_messages_arrive(self) -> None:
        for size in (9, 14, 15, 112, 113, 1785):
            self.assertEqual(exchange(size), (bytes(k % 251 for k in range(size)), '', 0))

    def test_a_lost_frame_is_made_up_for(self) -> None:
        for lost in range(1, 12):
            came, fault, time = exchange(40, {lost})
            self.assertEqual((len(came or b''), fault), (40, ''), lost)
            self.assertLess(time, 4 * SECOND)

    def test_a_peer_that_never_answers_is_given_up(self) -> None:
        came, fault, time = exchange(40, set(range(1, 100)))
        self.assertEqual((came, fault), (None, 'the peer did not answer'))
        self.assertEqual(time, 3 * 1_250_000 + 2 * 500_000)

    def test_the_peer_holds_the_message(self) -> None:
        sender = Sender(bytes(20), TO_TERMINAL, SET, OWN)
        sender.start(0)
        self.assertEqual(sender.hear(SECOND, TP_CONTROL, bytes.fromhex('110001FFFF00E700')), [])
        self.assertEqual(sender.deadline, SECOND + 1_250_000)
        self.assertEqual(len(sender.hear(2 * SECOND, TP_CONTROL, bytes.fromhex('110301FFFF00E700'))), 3)

    def test_an_abort_is_followed_by_another_try(self) -> None:
        sender = Sender(bytes(2000), TO_TERMINAL, SET, OWN)
        (request,) = sender.start(0)
        self.assertEqual((request.group, request.data), (ETP_CONTROL, bytes.fromhex('14D007000000E700')))
        sender.hear(0, ETP_CONTROL, bytes.fromhex('FF02FFFFFF00E700'))
        self.assertEqual(sender.tick(400_000), [])
        self.assertEqual(sender.tick(500_000), [request])

    def test_frames_of_other_sessions_are_passed_over(self) -> None:
        sender = Sender(bytes(20), TO_TERMINAL, SET, OWN)
        sender.start(0)
        for group, data in ((ETP_CONTROL, 'FF02FFFFFF00E700'), (TP_CONTROL, '110301FFFF00E600'), (TP_CONTROL, '1103'), (TP_DATA, '01' * 8)):
            self.assertEqual(sender.hear(0, group, bytes.fromhex(data)), [])
        self.assertEqual(sender.fault, '')

    def test_sizes(self) -> None:
        for size in (0, 8):
            with self.assertRaisesRegex(ValueError, 'has 9 to'):
                Sender(bytes(size), TO_TERMINAL, SET, OWN)


class World(unittest.TestCase):
    """A terminal and implements on a bus."""

    def setUp(self) -> None:
        self.terminal = Terminal()
        self.addCleanup(self.terminal.close)
        self.bus = Bus()
        self.bus.attach(TerminalNode(self.terminal))

    def live(self, implement: Implement, seconds: float = 10) -> Implement:
        self.bus.attach(implement)
        end = self.bus.time + round(seconds * SECOND)
        while implement.phase not in ('live', 'failed') and self.bus.step(end):
            pass
        return implement

    def groups(self) -> set[int]:
        return {group_of(seen.id) for seen in self.bus.seen}


class Uploads(World):
    def asking(self, terminal: Terminal) -> TerminalNode:
        """A terminal that asks for the claims that were made before it came."""
        return TerminalNode(terminal, host=Host(terminal, extras=['request-claims']))

    def test_each_protocol(self) -> None:
        for by, group in (('frames', TO_TERMINAL), ('tp', TP_CONTROL), ('etp', ETP_CONTROL), (None, TP_CONTROL)):
            with self.subTest(by=by):
                self.setUp()
                implement = self.live(Implement(POOL, by=by))
                self.assertEqual((implement.phase, implement.fault), ('live', ''))
                self.assertIn(group, self.groups())
                self.assertEqual(self.terminal.shown, SET)

    def test_a_large_pool_goes_by_etp(self) -> None:
        self.assertEqual(self.live(Implement(example('sprayer.iop'))).phase, 'live')
        self.assertIn(ETP_CONTROL, self.groups())
        self.assertNotIn(TP_CONTROL, self.groups())

    def test_a_large_pool_in_pieces_of_tp(self) -> None:
        self.assertEqual(self.live(Implement(example('sprayer.iop'), by='tp')).phase, 'live')
        self.assertNotIn(ETP_CONTROL, self.groups())

    def test_a_refused_pool_is_told(self) -> None:
        implement = self.live(Implement(example('refusal-03-missing.iop')))
        self.assertEqual(implement.phase, 'failed')
        self.assertRegex(implement.fault, '^the pool is refused: error 2, parent 1000, object ')

    def test_a_terminal_that_comes_later(self) -> None:
        self.bus = Bus()
        implement = Implement(POOL)
        self.bus.attach(implement)
        self.bus.run(10 * SECOND)
        self.assertEqual(implement.phase, 'waiting')
        self.bus.attach(self.asking(self.terminal))
        self.bus.run(3 * SECOND)
        self.assertEqual(implement.phase, 'live')

    def test_a_terminal_that_goes_and_comes_back(self) -> None:
        self.bus = Bus()
        node = TerminalNode(self.terminal)
        self.bus.attach(node)
        implement = self.live(Implement(POOL))
        self.bus.detach(node)
        self.bus.run(4 * SECOND)
        self.assertEqual(implement.phase, 'waiting')
        with Terminal() as other:
            self.bus.attach(self.asking(other))
            self.bus.run(3 * SECOND)
            self.assertEqual((implement.phase, other.shown), ('live', SET))


class Life(World):
    def test_it_keeps_its_set_alive(self) -> None:
        self.live(Implement(POOL))
        self.bus.run(60 * SECOND)
        self.assertEqual([each.address for each in self.terminal.sets()], [SET])

    def test_it_stops_and_its_set_is_closed(self) -> None:
        implement = self.live(Implement(POOL))
        implement.stop()
        self.bus.run(4 * SECOND)
        self.assertEqual((self.terminal.sets(), implement.phase), ([], 'off'))

    def test_two_of_them(self) -> None:
        self.live(Implement(POOL))
        self.live(Implement(example('sprayer.iop'), 0x81, 0xA000_1D00_0000_0022))
        self.assertEqual([each.address for each in self.terminal.sets()], [SET, 0x81])

    def test_the_lower_name_has_the_address(self) -> None:
        first, second = self.live(Implement(POOL)), Implement(POOL, name=0xA000_1D00_0000_0020)
        self.bus.attach(second)
        self.bus.run(5 * SECOND)
        self.assertEqual((first.phase, first.fault), ('failed', 'another node has the address'))
        self.assertEqual(second.phase, 'live')

    def test_it_answers_a_request_for_claims(self) -> None:
        implement = Implement(POOL)
        implement.start(0)
        (claim,) = implement.hear(SECOND, 0x18EAFF26, bytes.fromhex('00EE00'))
        self.assertEqual(str(claim), '18EEFF80#21000000001D00A0')
        self.assertEqual(implement.hear(SECOND, 0x18EAFF26, bytes.fromhex('00FE00')), [])

    def test_what_the_operator_does_is_heard(self) -> None:
        node = TerminalNode(self.terminal)
        self.bus = Bus()
        self.bus.attach(node)
        implement = self.live(Sprayer())
        for action, *arguments in (('press', 2001), ('release', 2001), ('press', 360), ('release', 360), ('enter_number', 351, '250'),
                                   ('enter_raw', 354, 2), ('enter_text', 3020, 'South field 7')):
            self.bus.send(node, node.act(self.bus.time, action, *arguments))
            self.bus.run(SECOND // 10)
        heard = [(each.what, each.object, each.value) for each in implement.heard]
        self.assertEqual(heard, [('key', 2001, True), ('key', 2001, False), ('button', 360, True), ('button', 360, False),
                                 ('number', 351, 250), ('number', 354, 2), ('text', 3020, b'South field 7')])

    def test_a_refused_command_is_kept(self) -> None:
        implement = self.live(Implement(POOL))
        implement.send(commands.hide(101))
        implement.send(commands.hide(100))
        self.bus.run(SECOND)
        self.assertEqual([each.hex() for each in implement.refused], ['a065000002ffffff'])
        self.assertTrue(implement.is_idle)

    def test_commands_wait_for_their_answers(self) -> None:
        implement = Implement(POOL)
        implement.phase = 'live'
        implement.send(commands.hide(100))
        implement.send(commands.show(100))
        self.assertEqual([str(each) for each in implement.tick(0)], ['14E72680#A0640000FFFFFFFF'])
        answered = implement.hear(0, identifier(5, 0xE600, OWN, SET), bytes.fromhex('A064000000FFFFFF'))
        self.assertEqual([str(each) for each in answered], ['14E72680#A0640001FFFFFFFF'])

    def test_a_terminal_that_answers_nothing_is_met_anew(self) -> None:
        implement = Implement(POOL)
        implement.phase = 'live'
        for _ in range(3):
            implement.send(commands.hide(100))
        implement.tick(0)
        for _ in range(3):
            self.assertEqual(implement.phase, 'live')
            implement.tick(implement.deadline or 0)
        self.assertEqual(implement.phase, 'waiting')

    def test_a_key_that_is_still_held_is_no_other_press(self) -> None:
        implement = Implement(POOL)
        implement.phase = 'live'
        for code in ('01', '02', '02', '00'):
            implement.hear(0, identifier(5, 0xE600, OWN, SET), bytes.fromhex(f'00{code}9001E80307FF'))
        self.assertEqual([each.value for each in implement.heard], [True, False])


class Commands(unittest.TestCase):
    def test_their_bytes(self) -> None:
        for made, wanted in (
            (commands.number(600, 10), 'A85802FF0A000000'), (commands.hide(100), 'A0640000'), (commands.active_mask(0, 2000), 'AD0000D007'),
            (commands.text(300, 'AB'), 'B32C0102004142'), (commands.sound(2, 1000, 100, 100), 'A302E80364006400'),
            (commands.soft_key_mask(1000, 0xFFFF), 'AE01E803FFFF'), (commands.get_memory(2928), 'C0FF700B0000'),
            (commands.maintenance(True), 'FF0103'), (commands.text(300, 'Süd €'), 'B32C01050053FC64203F'),
        ):
            self.assertEqual(made.hex().upper(), wanted)


class ThePool(unittest.TestCase):
    def test_the_sprayers_pool_is_that_of_the_file_and_more(self) -> None:
        pool = (EXAMPLES / 'sprayer.iop').read_bytes()
        full = full_pool(pool)
        self.assertTrue(full.startswith(pool))
        first, last = ([each for each in objects_in(some) if each.id == 1000][-1] for some in (pool, full))
        self.assertEqual(last.children[:-2], first.children)
        self.assertEqual(last.macros, first.macros)


if __name__ == '__main__':
    unittest.main()
