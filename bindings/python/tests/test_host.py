"""What a host owes the bus: times, silence, order, and the extras."""
import unittest
from unittest import mock

from segyolant import (
    AddressLost, CoreEnded, Frame, Host, NoMemory, Output, Refusal, SegyolantError, SetSilent, Silent, Terminal,
)
from tests.support import FROM_SET, NAME, SET, command, example, upload

MAINTENANCE = (FROM_SET, command('FF01'))
GET_VERSIONS = (FROM_SET, command('DF'))
START = 10_000_000
QUIET_END = START + 250_000


def texts(outputs: 'list[Output]') -> 'list[str]':
    return [str(each) for each in outputs if isinstance(each, Frame)]


class WithHost(unittest.TestCase):
    def setUp(self) -> None:
        self.terminal = Terminal()
        self.addCleanup(self.terminal.close)

    def host(self, *extras: str, pool: str = '', addresses: 'tuple[int, ...]' = ()) -> Host:
        """A host whose silence is over."""
        if pool:
            self.terminal.preload(SET, example(pool))
        host = Host(self.terminal, extras=extras, addresses=addresses)
        host.start(START)
        host.receive(QUIET_END, *MAINTENANCE)
        host.run(QUIET_END)
        return host


class Beginning(WithHost):
    def test_the_claim_and_the_silence(self) -> None:
        self.terminal.preload(SET, example('pool.iop'))
        host = Host(self.terminal)
        self.assertEqual(texts(host.start(START)), ['18EEFF26#01000000001D0020'])
        host.receive(START + 1000, FROM_SET, command('A0640000'))
        host.receive(START + 2000, 0x18EA2680, bytes.fromhex('00EE00'))
        host.receive(QUIET_END - 1, FROM_SET, command('A0640001'))
        self.assertEqual(texts(host.run(QUIET_END - 1)), ['18EEFF26#01000000001D0020'])
        with self.assertRaisesRegex(Silent, 'claimed its address at 10000000 and is silent for 250000 microseconds'):
            host.press(QUIET_END - 1, 400)
        host.receive(QUIET_END, FROM_SET, command('A0640000'))
        self.assertEqual(texts(host.run(QUIET_END)), ['14E68026#A064000000FFFFFF'])

    def test_all_comes_behind_the_start(self) -> None:
        with self.assertRaisesRegex(SegyolantError, r'before start\(\)'):
            Host(self.terminal).run(1)

    def test_a_claim_in_the_silence_lets_a_set_register(self) -> None:
        host = Host(self.terminal)
        host.start(START)
        for time, identifier, data in upload(example('pool.iop'), START + 200_000, 60_000):
            host.receive(time, identifier, data)
        outputs = host.run(START + 2_000_000)
        self.assertIn('14E68026#1200FFFFFFFF00FF', texts(outputs))


class Status(WithHost):
    def test_each_second_and_once_after_a_standstill(self) -> None:
        host = self.host()
        self.assertEqual(host.wake(), START + 1_000_000)
        times = [START + 999_999, START + 1_000_000, START + 1_000_100, START + 2_000_003, START + 7_500_000, START + 7_500_001, START + 8_499_999,
                 START + 8_500_000]
        sent = [len(host.run(time)) for time in times]
        self.assertEqual(sent, [0, 1, 0, 1, 1, 0, 0, 1])
        self.assertEqual(host.wake(), START + 9_500_000)


class Order(WithHost):
    def test_frames_that_wait_are_heard_before_a_tick(self) -> None:
        host = self.host(pool='pool.iop')
        # Five seconds of standstill, in which the set spoke each second.
        for second in range(1, 6):
            host.receive(QUIET_END + second * 1_000_000, *MAINTENANCE)
        outputs = host.run(QUIET_END + 5_200_000)
        self.assertFalse([each for each in outputs if isinstance(each, SetSilent)])
        self.assertEqual(self.terminal.shown, SET)

    def test_frames_that_wait_are_heard_before_an_action(self) -> None:
        host = self.host(pool='sprayer.iop')
        host.receive(QUIET_END + 100, FROM_SET, command('A0680100'))
        self.assertEqual([type(each) for each in host.press(QUIET_END + 200, 360)], [Frame, Frame])

    def test_silence_is_found_in_time(self) -> None:
        host = self.host(pool='pool.iop')
        host.run(START + 1_000_000)
        host.run(START + 2_000_000)
        host.run(START + 3_000_000)
        self.assertEqual(host.wake(), QUIET_END + 3_000_001)
        outputs = host.run(QUIET_END + 3_000_001)
        self.assertEqual([each for each in outputs if isinstance(each, SetSilent)], [SetSilent(SET)])

    def test_10_milliseconds_between_ticks(self) -> None:
        host = self.host(pool='pool.iop')
        now = QUIET_END + 10_000_000
        with mock.patch.object(self.terminal, 'tick', return_value=[]) as tick:
            for later in (0, 1, 9_999, 10_000, 19_999, 20_000):
                host.run(now + later)
        self.assertEqual([each.args[0] - now for each in tick.call_args_list], [0, 10_000, 20_000])

    def test_echoes_are_dropped_but_no_claim_of_another_name(self) -> None:
        host = self.host()
        with mock.patch.object(self.terminal, 'hear', wraps=self.terminal.hear) as hear:
            host.receive(START + 300_000, 0x14E6FF26, command('FE'))
            host.receive(START + 300_000, 0x18EEFF26, NAME.to_bytes(8, 'little'))
            host.receive(START + 300_000, 0x18EEFF26, b'\xff' * 8)
            self.assertEqual(texts(host.run(START + 300_000)), ['18EEFF26#01000000001D0020'])
        self.assertEqual(len(hear.call_args_list), 1)

    def test_a_held_key_is_released_before_another_set_is_chosen(self) -> None:
        host = self.host(pool='sprayer.iop')
        self.terminal.preload(0x81, example('pool.iop'))
        host.press(QUIET_END + 1, 360)
        self.assertEqual([type(each) for each in host.choose(QUIET_END + 2, SET)], [])
        outputs = texts(host.choose(QUIET_END + 3, 0x81))
        self.assertEqual(outputs[0], '14E68026#01006801E80305FF')
        self.assertEqual(self.terminal.shown, 0x81)

    def test_a_wrong_argument_loses_nothing(self) -> None:
        host = self.host(pool='sprayer.iop')
        host.receive(QUIET_END + 1, FROM_SET, command('A0640000'))
        with self.assertRaises(ValueError):
            host.enter_number(QUIET_END + 2, 351, '1.5')
        self.assertEqual(host.wake(), 0)
        self.assertEqual(len(texts(host.run(QUIET_END + 3))), 1)
        self.assertEqual(host.press(QUIET_END + 4, 9), [Refusal(1, 'NotShown')])


class Memory(WithHost):
    def test_what_was_refused_memory_is_given_again(self) -> None:
        host = self.host(pool='pool.iop')
        refused = NoMemory('no-memory', {'do': 'frame'})
        real = self.terminal.hear
        host.receive(QUIET_END + 1, FROM_SET, command('A0640000'))
        with mock.patch.object(self.terminal, 'hear', side_effect=[refused, refused]):
            self.assertEqual(host.run(QUIET_END + 10), [])
            self.assertEqual(host.wake(), QUIET_END + 1010)
            self.assertEqual(host.run(QUIET_END + 500), [])
            self.assertEqual(host.run(QUIET_END + 1010), [])
        with mock.patch.object(self.terminal, 'hear', side_effect=real):
            self.assertEqual(len(host.run(QUIET_END + 2010)), 1)
        self.assertEqual(host.left_out, 0)

    def test_it_is_left_out_at_last(self) -> None:
        host = self.host(pool='pool.iop')
        refused = NoMemory('no-memory', {'do': 'press'})
        refused.outputs = [Frame(1, b'')]
        with mock.patch.object(self.terminal, 'press', side_effect=refused) as press:
            outputs = host.press(QUIET_END + 1, 400)
            for later in range(1, 20):
                outputs += host.run(QUIET_END + 1 + later * 1000)
        self.assertEqual((press.call_count, host.left_out, outputs), (10, 1, [Frame(1, b'')] * 10))


    def test_an_extra_without_memory_is_left_out(self) -> None:
        host = self.host('versions', pool='pool.iop')
        host.receive(QUIET_END + 1, *GET_VERSIONS)
        host.receive(QUIET_END + 2, FROM_SET, command('A0640000'))
        with mock.patch.object(self.terminal, 'sets', side_effect=NoMemory('no-memory', {'do': 'sets'})):
            self.assertEqual(texts(host.run(QUIET_END + 3)), ['14E68026#A064000000FFFFFF'])
        self.assertEqual(host.left_out, 1)


class Crash(WithHost):
    def test_it_goes_on_with_another_child(self) -> None:
        host = self.host(pool='pool.iop')
        host.receive(QUIET_END + 1, FROM_SET, command('A0640000'))
        self.terminal._live.kill()
        host.receive(QUIET_END + 2, FROM_SET, command('A0640001'))
        with self.assertRaises(CoreEnded):
            host.run(QUIET_END + 3)
        self.terminal.restart()
        self.assertEqual(texts(host.run(QUIET_END + 4)), ['14E68026#A064000000FFFFFF', '14E68026#A064000100FFFFFF'])
        self.assertEqual(self.terminal.screen(), 'screen 80 mask 1000\ncontainer 100 10 5 50x20\n')


class Loss(WithHost):
    def test_it_is_over(self) -> None:
        host = self.host()
        host.receive(START + 300_000, 0x18EEFF26, bytes(8))
        self.assertEqual(host.run(START + 300_000)[-1], AddressLost(0x26))
        self.assertEqual((host.is_over, host.wake(), host.run(START + 9_000_000)), (True, None, []))

    def test_another_address_that_is_free(self) -> None:
        host = self.host(addresses=(0x80, 0x27, 0x28))
        for address in (0x80, 0x27):
            host.receive(START + 300_000, 0x18EEFF00 | address, (0x8000000000000000 | address).to_bytes(8, 'little'))
        host.receive(START + 300_000, 0x18EEFF26, bytes(8))
        now = START + 300_001
        self.assertEqual(texts(host.run(now)), ['18EEFFFE#01000000001D0020', '18EEFF28#01000000001D0020'])
        self.assertEqual((self.terminal.own, host.is_over, host.wake()), (0x28, False, now + 1_000_000))
        # The claims that were heard before count: the set need not claim again.
        for time, identifier, data in upload(example('pool.iop'), now + 300_000)[1:]:
            host.receive(time, identifier & ~0xFF00 | 0x2800 if identifier == FROM_SET else identifier, data)
        self.assertIn('14E68028#1200FFFFFFFF00FF', texts(host.run(now + 400_000)))


if __name__ == '__main__':
    unittest.main()
