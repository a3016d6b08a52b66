"""What a host says where the core says nothing, each by its name."""
import unittest

from segyolant import ExtraFrame, Host, Language, Output, Terminal
from segyolant.extras import NAMES as EXTRAS
from tests.support import FROM_SET, SET, command, example, upload
from tests.test_host import GET_VERSIONS, QUIET_END, START, WithHost, texts


class Extras(WithHost):
    def run_frame(self, host: Host, frame: 'tuple[int, bytes]', now: int = QUIET_END + 100) -> 'list[str]':
        host.receive(now, *frame)
        return texts(host.run(now))

    def test_none_is_on_by_itself(self) -> None:
        host = self.host(pool='sprayer.iop')
        for frame in (GET_VERSIONS, (FROM_SET, command('A25F01FF')), (0x18EA2680, bytes.fromhex('0FFE00'))):
            self.assertEqual(self.run_frame(host, frame), [])
        host.press(QUIET_END + 200, 360)
        self.assertEqual(host.run(QUIET_END + 700_000), [])

    def test_one_that_is_not_known(self) -> None:
        for names in (['version'], 'versions'):
            with self.assertRaisesRegex(ValueError, 'versions, language, repeats'):
                Host(self.terminal, extras=names)

    def test_versions(self) -> None:
        host = self.host('versions', pool='pool.iop')
        self.assertEqual(self.run_frame(host, GET_VERSIONS), ['14E68026#E000FFFFFFFFFFFF'])
        self.assertEqual(self.run_frame(host, (FROM_SET, command('D0'))), ['14E68026#D0FFFFFFFF04FFFF'])
        self.assertEqual(self.run_frame(host, (FROM_SET, command('D1'))), ['14E68026#D1FFFFFFFF02FFFF'])
        self.assertEqual(self.run_frame(host, (0x14E72681, command('DF'))), [])
        self.assertEqual(self.run_frame(host, (0x14E72780, command('DF'))), [])

    def test_language(self) -> None:
        self.terminal.preload(SET, example('pool.iop'))
        host = Host(self.terminal, extras=['language'], language=Language('de', point=0))
        host.start(START)
        self.assertEqual((host.run(QUIET_END - 1), host.wake()), ([], QUIET_END))
        said = '18FE0F26#64650F000000FFFF'
        self.assertEqual(texts(host.run(QUIET_END)), [said])
        for identifier in (0x18EA2680, 0x18EAFF80):
            self.assertEqual(self.run_frame(host, (identifier, bytes.fromhex('0FFE00'))), [said])
        self.assertEqual(self.run_frame(host, (0x18EA2780, bytes.fromhex('0FFE00'))), [])
        with self.assertRaisesRegex(ValueError, "code is 'deu': expected two letters"):
            Language('deu')

    def test_repeats(self) -> None:
        host = self.host('repeats', pool='sprayer.iop')
        now = QUIET_END + 1000
        self.assertEqual(texts(host.press(now, 360)), ['14E68026#01016801E80305FF'])
        self.assertEqual(host.wake(), now + 200_000)
        held = '14E68026#01026801E80305FF'
        self.assertEqual([texts(host.run(now + ms * 1000)) for ms in (199, 200, 399, 400, 650)], [[], [held], [], [held], [held]])
        self.assertEqual(host.wake(), START + 1_000_000)
        self.assertEqual(texts(host.release(now + 700_000, 360)), ['14E68026#01006801E80305FF'])
        self.assertEqual(texts(host.run(now + 740_000)), [])

    def test_a_key_whose_set_is_gone_is_not_repeated(self) -> None:
        host = self.host('repeats', pool='sprayer.iop')
        host.press(QUIET_END + 1000, 360)
        outputs = texts(host.run(QUIET_END + 3_100_000)) + texts(host.run(QUIET_END + 3_400_000))
        self.assertFalse([each for each in outputs if '#0102' in each])

    def test_select(self) -> None:
        host = self.host('select-command', 'selections', pool='sprayer.iop')
        self.assertEqual(self.run_frame(host, (FROM_SET, command('A25F01FF'))), ['14E68026#A25F010100FFFFFF', '14E68026#035F0101FFFFFFFF'])
        self.assertEqual(self.terminal.sets()[0].input, 351)
        # Disabled, no input, not there, and nothing.
        for frame, answer in (('A26101', 'A261010001'), ('A26801', 'A268010002'), ('A2FFFE', 'A2FFFE0002'), ('A2FFFF', 'A2FFFF0010')):
            self.assertEqual(self.run_frame(host, (FROM_SET, command(frame))), [f'14E68026#{answer}FFFFFF'])
        self.assertEqual(texts(host.select(QUIET_END + 500, 352)), ['14E68026#035F0100FFFFFFFF', '14E68026#03600101FFFFFFFF'])

    def test_claims_are_asked_for(self) -> None:
        outputs = Host(self.terminal, extras=['request-claims']).start(START)
        self.assertEqual(texts(outputs), ['18EAFFFE#00EE00', '18EEFF26#01000000001D0020'])
        self.assertEqual([each.extra for each in outputs if isinstance(each, ExtraFrame)], ['request-claims'])

    def test_the_core_says_the_same_with_all_of_them(self) -> None:
        with Terminal() as other:
            plain, full = Host(other), Host(self.terminal, extras=EXTRAS)
            told = [self.story(host) for host in (plain, full)]
        core = [each for each in told[1] if not isinstance(each, ExtraFrame)]
        self.assertEqual(core, told[0])
        self.assertEqual({each.extra for each in told[1] if isinstance(each, ExtraFrame)}, set(EXTRAS))
        self.assertEqual(self.terminal.screen(), self.screen)

    def story(self, host: Host) -> 'list[Output]':
        """An upload, keys, inputs and commands, among them those to which the extras speak."""
        outputs = host.start(START)
        frames = upload(example('sprayer.iop'), QUIET_END + 1000)
        more = [GET_VERSIONS, (0x18EA2680, bytes.fromhex('0FFE00')), (FROM_SET, command('A26101FF')), (FROM_SET, command('A0720100'))]
        frames += [(frames[-1][0] + 1000 * (k + 1), *frame) for k, frame in enumerate(more)]
        for frame in frames:
            host.receive(*frame)
        now = frames[-1][0] + 1000
        outputs += host.run(now)
        for later, action in enumerate((host.press, host.select, host.release)):
            outputs += action(now + later * 300_000, 351 if action == host.select else 360)
            outputs += host.run(now + later * 300_000 + 250_000)
        outputs += host.enter_number(now + 900_000, 351, 300)
        outputs += host.run(now + 4_500_000)
        self.screen = host.terminal.screen()
        return outputs


if __name__ == '__main__':
    unittest.main()
