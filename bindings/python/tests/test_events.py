"""Events and outputs as lines say them (docs/LIVE.md, "Events")."""
import re
import unittest

from segyolant import Alarm, Frame, PoolFaulty, PoolRefused, ProtocolError, Refusal, Shown, events
from segyolant.live import Reply
from segyolant.outputs import outputs_of
from tests.support import TOP


class Events(unittest.TestCase):
    def test_each_event_of_the_page_has_a_class(self) -> None:
        page = (TOP / 'docs' / 'LIVE.md').read_text(encoding='utf-8')
        table = page[page.index('| `event` |'):page.index('## Answers')]
        rows = re.findall(r'^\| (`[a-z-]+`(?:, `[a-z-]+`)?) \|([^|]*)\|', table, re.M)[1:]
        told = {}
        for names, members in rows:
            for name in re.findall('`([a-z-]+)`', names):
                told[name] = re.findall('`([a-z_]+)`', members)
        self.assertEqual(sorted(told), sorted(events.KINDS))
        for name, members in told.items():
            if name != 'pool-faulty':
                self.assertEqual(['address', *members], list(events.MEMBERS[name]), name)

    def test_values(self) -> None:
        shown = {'event': 'shown', 'address': None, 'mask': None, 'soft_key_mask': None}
        self.assertEqual(events.event_of(shown), Shown(None, None, None))
        refused = {'event': 'pool-refused', 'address': 128, 'rule': 3, 'object': 1000, 'other': None, 'offset': 0}
        self.assertEqual(events.event_of(refused), PoolRefused(128, 3, 1000, None, 0))
        faulty = {'event': 'pool-faulty', 'address': 128, 'fault': 'fault 1 Truncated at 3'}
        self.assertEqual(events.event_of(faulty), PoolFaulty(128, 1, 'Truncated', 3))
        alarm = {'event': 'alarm', 'address': 128, 'mask': 2000, 'priority': 0, 'signal': 3, 'more': 1}
        self.assertEqual(events.event_of(alarm), Alarm(128, 2000, 0, 3))

    def test_what_is_not_known(self) -> None:
        for line in ({'event': 'rain', 'address': 1}, {'event': 'alarm', 'address': 1}, {'event': 'pool-faulty', 'fault': 'x', 'address': 1}, {}):
            self.assertIsNone(events.event_of(line))
        with self.assertRaisesRegex(ProtocolError, 'rain.* to tick time=5; take this package and the program vt_live of the same version'):
            outputs_of(Reply({'do': 'tick', 'time': 5}, [{'event': 'rain'}]))


class Outputs(unittest.TestCase):
    def test_lines(self) -> None:
        lines = [{'send': '14E68026#A064'}, {'refused': '1 NotShown'}, {'send': '18EEFF26#'}]
        outputs = outputs_of(Reply({'do': 'claim'}, lines))
        self.assertEqual(outputs, [Frame(0x14E68026, b'\xa0\x64'), Refusal(1, 'NotShown'), Frame(0x18EEFF26, b'')])
        self.assertEqual([str(each) for each in outputs], ['14E68026#A064', 'operator 1 NotShown', '18EEFF26#'])


if __name__ == '__main__':
    unittest.main()
