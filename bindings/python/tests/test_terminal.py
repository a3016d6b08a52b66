"""A terminal, by its inputs and questions."""
import os
import signal
import unittest
from decimal import Decimal

from segyolant import (
    AddressLost, CoreEnded, Frame, NoPool, NoSuch, Output, PoolAccepted, PoolRefused, Profile, Refusal, SegyolantError, SetCame, SetSilent,
    Shown, Terminal, WorkingSet,
)
from tests.support import CLAIM, FROM_SET, MASTER, NAME, OWN, SET, command, example, upload

HIDE = (FROM_SET, command('A0640000'))
SCREEN = 'screen 80 mask 1000\ncontainer 100 10 5 50x20\n'


class WithTerminal(unittest.TestCase):
    def setUp(self) -> None:
        self.terminal = Terminal()
        self.addCleanup(self.terminal.close)

    def preload(self, name: str) -> Terminal:
        self.terminal.preload(SET, example(name))
        return self.terminal


class Inputs(WithTerminal):
    def test_it_claims_and_tells_its_status(self) -> None:
        self.assertEqual(self.terminal.claim(), [Frame(0x18EEFF26, NAME.to_bytes(8, 'little'))])
        self.assertEqual(self.terminal.status(), [Frame(0x14E6FF26, bytes.fromhex('FEFEFFFFFFFF00FF'))])

    def test_a_command_is_answered(self) -> None:
        terminal = self.preload('pool.iop')
        self.assertEqual((terminal.shown, terminal.redraws, terminal.screen()), (SET, True, SCREEN))
        look = terminal.look
        outputs = terminal.hear(1_000_000, *HIDE)
        self.assertEqual(list(map(str, outputs)), ['14E68026#A064000000FFFFFF'])
        self.assertNotEqual(terminal.look, look)
        self.assertEqual((terminal.redraws, terminal.screen()), (True, 'screen 80 mask 1000\n'))

    def test_an_upload(self) -> None:
        heard = self.terminal.hear_all(upload(example('pool.iop')))
        self.assertEqual(heard[1], [SetCame(SET)])
        frames = [str(each) for each in heard[-1] if isinstance(each, Frame)]
        self.assertEqual(frames, ['14E68026#1200FFFFFFFF00FF', '14E6FF26#FE80E803FFFF00FF'])
        self.assertEqual([each for each in heard[-1] if not isinstance(each, Frame)], [PoolAccepted(SET), Shown(SET, 1000, None)])
        self.assertTrue(self.terminal.redraws)

    def test_many_frames_are_as_one_by_one(self) -> None:
        frames = upload(example('sprayer.iop'))
        with Terminal() as other:
            self.assertEqual(self.terminal.hear_all(frames), [other.hear(*frame) for frame in frames])
            self.assertEqual(self.terminal.screen(), other.screen())
        self.assertEqual(self.terminal.hear_all([]), [])

    def test_a_refused_upload_is_told(self) -> None:
        self.terminal.hear_all(upload(example('refusal-03-missing.iop'))[:-1])
        outputs = self.terminal.hear(2_000_000, FROM_SET, command('12'))
        self.assertEqual(outputs[1:], [PoolRefused(SET, 3, 1000, 100, 0)])

    def test_silence_is_found_at_the_deadline(self) -> None:
        terminal = self.preload('pool.iop')
        self.assertEqual((terminal.deadline, terminal.tick(500)), (0, []))
        self.assertEqual((terminal.deadline, terminal.tick(3_000_500)), (3_000_501, []))
        outputs = terminal.tick(3_000_501)
        self.assertEqual(outputs[1:], [SetSilent(SET), Shown(None, None, None)])
        self.assertEqual((terminal.shown, terminal.deadline, terminal.screen()), (None, None, 'screen none\n'))

    def test_the_loss_of_the_address(self) -> None:
        outputs = self.terminal.hear(5, 0x18EEFF26, bytes(8))
        self.assertEqual(outputs, [Frame(0x18EEFFFE, NAME.to_bytes(8, 'little')), AddressLost(OWN)])
        self.assertTrue(self.terminal.lost)
        self.assertEqual(self.terminal.claim(), [])
        self.terminal.begin(own=0x27)
        self.assertEqual((self.terminal.lost, self.terminal.own), (False, 0x27))
        self.assertEqual(self.terminal.claim(), [Frame(0x18EEFF27, NAME.to_bytes(8, 'little'))])

    def test_preloads_that_are_refused(self) -> None:
        terminal = self.preload('pool.iop')
        for address, pool, error in ((SET, example('pool.iop'), NoSuch), (OWN, example('pool.iop'), NoSuch), (254, example('pool.iop'), NoSuch),
                                     (0x81, b'', NoPool), (0x81, example('refusal-03-missing.iop'), NoPool)):
            with self.assertRaises(error):
                terminal.preload(address, pool)
        self.assertEqual([each.address for each in terminal.sets()], [SET])

    def test_a_profile(self) -> None:
        profile = Profile(width=240, height=200, soft_key_width=40, physical_soft_keys=4)
        with Terminal(0x30, 5, profile) as terminal:
            terminal.preload(SET, example('pool.iop'))
            (hardware,) = terminal.hear(1, 0x14E73080, command('C7'))
            self.assertEqual(str(hardware), '14E68030#C7000200F000C800')
            terminal.begin()
            self.assertEqual(terminal.claim(), [Frame(0x18EEFF30, (5).to_bytes(8, 'little'))])


class Operator(WithTerminal):
    def refused(self, outputs: 'list[Output]') -> 'list[int]':
        return [each.number for each in outputs if isinstance(each, Refusal)]

    def test_refusals(self) -> None:
        terminal = self.terminal
        self.assertEqual(terminal.press(None, 1), [Refusal(9, 'NoSet')])
        self.assertEqual(terminal.enter_number(None, 351, 5), [Refusal(9, 'NoSet')])
        self.preload('pool.iop')
        self.assertEqual(terminal.press(None, 1), [Refusal(1, 'NotShown')])
        self.assertEqual(terminal.release(7, 1), [Refusal(6, 'NotPressed')])
        self.assertEqual(terminal.select(7, 100), [Refusal(5, 'WrongKind')])
        self.assertEqual(terminal.enter_number(7, 100, 1), [Refusal(5, 'WrongKind')])
        self.assertEqual(terminal.enter_text(7, 100, 'a'), [Refusal(5, 'WrongKind')])
        self.assertEqual(terminal.choose(7, 0x81), [Refusal(9, 'NoSet')])
        self.assertEqual(terminal.choose(7, SET), [])

    def test_keys(self) -> None:
        terminal = self.preload('sprayer.iop')
        (pressed,) = terminal.press(None, 360)
        self.assertEqual(str(pressed), '14E68026#01016801E80305FF')
        self.assertEqual([each.key for each in terminal.sets()], [360])
        (released,) = terminal.release(None, 360)
        self.assertEqual(str(released), '14E68026#01006801E80305FF')

    def test_numbers(self) -> None:
        terminal = self.preload('sprayer.iop')
        limits = terminal.limits(351)
        assert limits is not None
        self.assertEqual((limits.kind, limits.enabled, limits.value), (9, True, 200))
        (sent,) = terminal.enter_number(None, 351, '250')
        self.assertEqual(str(sent), '14E68026#055F01FFFA000000')
        self.assertEqual(terminal.value_text(351), '250')
        self.assertEqual(self.refused(terminal.enter_number(None, 351, limits.shown(limits.maximum) + 1)), [3])
        self.assertEqual([str(each)[9:] for each in terminal.enter_number(None, 352, 0)], ['056001FF00000000'])
        self.assertEqual([str(each)[9:] for each in terminal.enter_number(None, 354, 2)], ['056201FF02000000'])
        self.assertEqual([str(each)[9:] for each in terminal.enter_raw(None, 354, 0)], ['056201FF00000000'])

    def test_numbers_are_exact(self) -> None:
        terminal = self.preload('sprayer.iop')
        with self.assertRaisesRegex(ValueError, r'250\.5 is no value of Input Number 351: its numbers have 0 decimal places'):
            terminal.enter_number(None, 351, Decimal('250.5'))
        with self.assertRaisesRegex(TypeError, 'typed is the float 250.0'):
            terminal.enter_number(None, 351, 250.0)  # type: ignore[arg-type]
        self.assertEqual((terminal.raw(351, '250'), terminal.raw(351, '250.50'), terminal.raw(310, '1')), (250, None, None))

    def test_texts(self) -> None:
        with Terminal() as terminal:
            terminal.preload(SET, example('sprayer.iop'))
            self.assertEqual(terminal.enter_text(None, 353, 'Süd'), [Refusal(2, 'Disabled')])


class Questions(WithTerminal):
    def test_of_no_set(self) -> None:
        terminal = self.terminal
        self.assertEqual((terminal.screen(), terminal.picture(), terminal.part(1), terminal.elements()), ('screen none\n', '', '', []))
        self.assertEqual((terminal.object(0), terminal.limits(1), terminal.value_text(1), terminal.raw(1, 5)), (None, None, None, None))
        self.assertEqual((terminal.sets(), terminal.touch(5, 5), terminal.object(0, SET), terminal.picture(SET)), ([], None, None, ''))

    def test_sets(self) -> None:
        terminal = self.preload('pool.iop')
        self.assertEqual(terminal.sets(), [WorkingSet(SET, None, True, True, 1000, None, None, None)])
        terminal.hear(1, *CLAIM)
        self.assertEqual(terminal.sets()[0].name, 0x20001D0000000001)

    def test_objects(self) -> None:
        terminal = self.preload('sprayer.iop')
        mask = terminal.object(1000)
        assert mask is not None
        self.assertEqual((mask.kind_name, mask.id), ('Data Mask', 1000))
        self.assertIn(310, [each.id for each in mask.children])
        self.assertEqual(terminal.object(1000, SET), mask)
        self.assertIsNone(terminal.object(65000))
        self.assertEqual((terminal.value_text(321), terminal.value_text(311), terminal.value_text(310)), ('187.4', 'SPRAYER 24 m', None))

    def test_elements_and_touches(self) -> None:
        terminal = self.preload('sprayer.iop')
        button = next(each for each in terminal.elements() if each.id == 360)
        self.assertEqual((button.kind, button.x, button.y, button.width, button.height, button.around), (6, 12, 350, 90, 44, None))
        self.assertEqual((terminal.touch(20, 360), terminal.touch(-1, 360), terminal.touch(0, 0)), (360, None, None))

    def test_pictures(self) -> None:
        terminal = self.preload('pool.iop')
        picture = terminal.picture()
        self.assertTrue(picture.startswith('<svg ') and 'data-id="100"' in picture)
        self.assertEqual(terminal.picture(SET, 1000), picture)
        self.assertIn('width="50" height="20"', terminal.part(100))
        self.assertEqual((terminal.part(101), terminal.picture(0x81)), ('', ''))

    def test_words(self) -> None:
        terminal = self.preload('pool.iop')
        self.assertEqual(terminal.words(*HIDE), '80 to 26: Hide/Show Object: Container 100, hide')
        (answer,) = terminal.hear(1, *HIDE)
        assert isinstance(answer, Frame)
        self.assertEqual(terminal.words(answer.id, answer.data), '26 to 80: Hide/Show Object: done')


class Arguments(WithTerminal):
    def test_each_wrong_number_is_named(self) -> None:
        terminal = self.terminal
        for call, words in (
            (lambda: terminal.hear(-1, 1, b''), 'time is -1: expected a time in microseconds from 0'),
            (lambda: terminal.hear(2**64 - 1, 1, b''), 'time is 18446744073709551615'),
            (lambda: terminal.hear(1, 0x20000000, b''), 'id is 536870912: expected an identifier of 29 bits'),
            (lambda: terminal.hear(1, 1, bytes(9)), 'data has 9 bytes: a frame has at most 8'),
            (lambda: terminal.press(1, 70000), 'object is 70000: expected the ID of an object from 0 to 65535'),
            (lambda: terminal.enter_raw(1, 1, -20), 'value is -20: expected a raw value'),
            (lambda: terminal.choose(1, 256), 'address is 256'),
            (lambda: terminal.object(65536), 'id is 65536'),
            (lambda: terminal.picture(SET, 65536), 'mask is 65536'),
            (lambda: terminal.touch(2**32, 0), 'x is 4294967296: expected a column'),
            (lambda: Terminal(254), 'own is 254'),
            (lambda: Terminal(1, 2**64), 'name is 18446744073709551616: expected a NAME'),
            (lambda: Profile(width=65536), 'width is 65536'),
            (lambda: Profile(hardware=256), 'hardware is 256'),
        ):
            with self.assertRaisesRegex(ValueError, words):
                call()
        for wrong, words in (
            (lambda: terminal.tick(1.5), 'time is 1.5: expected a time in microseconds, an int from 0'),  # type: ignore[arg-type]
            (lambda: terminal.press(None, True), 'object is True'),
            (lambda: terminal.preload(1, 'pool.iop'), 'pool is str: expected bytes'),  # type: ignore[arg-type]
        ):
            with self.assertRaisesRegex(TypeError, words):
                wrong()
        self.assertEqual(terminal.status(), [Frame(0x14E6FF26, bytes.fromhex('FEFEFFFFFFFF00FF'))])


class Restarts(WithTerminal):
    def kill(self) -> None:
        os.kill(self.terminal._live.pid, signal.SIGKILL)

    def test_the_sets_are_there_again(self) -> None:
        terminal = self.preload('sprayer.iop')
        terminal.hear_all([(1_000_000, *CLAIM), (1_100_000, *MASTER), (1_200_000, *HIDE)])
        terminal.press(2_000_000, 2001)
        terminal.enter_number(2_100_000, 351, 250)
        before = (terminal.screen(), terminal.sets(), terminal.shown, terminal.look, terminal.deadline, terminal.picture())
        self.kill()
        with self.assertRaises(CoreEnded):
            terminal.tick(2_200_000)
        terminal.restart()
        self.assertEqual((terminal.screen(), terminal.sets(), terminal.shown, terminal.look, terminal.deadline, terminal.picture()), before)
        self.kill()
        terminal.restart()
        self.assertEqual(terminal.screen(), before[0])

    def test_a_new_terminal_forgets_the_one_before(self) -> None:
        terminal = self.preload('pool.iop')
        terminal.begin(0x27)
        terminal.preload(OWN, example('pool.iop'))
        terminal.restart()
        self.assertEqual([each.address for each in terminal.sets()], [OWN])
        self.assertEqual(terminal.claim()[0], Frame(0x18EEFF27, NAME.to_bytes(8, 'little')))

    def test_a_journal_that_is_too_long(self) -> None:
        with Terminal(journal_bytes=400) as terminal:
            terminal.hear(1, *MASTER)
            terminal.restart()
            terminal.preload(SET, example('sprayer.iop'))
            with self.assertRaisesRegex(SegyolantError, 'grew beyond 400 bytes'):
                terminal.restart()
            self.assertEqual(terminal.shown, SET)
            terminal.begin()
            terminal.restart()

    def test_what_was_heard_before_the_end_is_told(self) -> None:
        terminal = self.preload('pool.iop')
        self.kill()
        with self.assertRaises(CoreEnded) as raised:
            terminal.hear_all([(1, *HIDE)])
        self.assertEqual(raised.exception.heard, [])


if __name__ == '__main__':
    unittest.main()
