"""Pools by themselves."""
import unittest

from segyolant import ProgramFailed, check, draw, report
from tests.support import EXAMPLES, example


class Checks(unittest.TestCase):
    def test_an_accepted_pool(self) -> None:
        self.assertEqual([(each.code, each.severity) for each in check(example('pool.iop'))], [('W18', 'warning')])

    def test_a_finding(self) -> None:
        (finding,) = [each for each in check(example('refusal-03-missing.iop')) if each.severity == 'error']
        self.assertEqual((finding.code, finding.name, finding.severity), ('R03', 'Missing', 'error'))
        self.assertEqual(finding.details['names']['id'], 100)
        self.assertIn(f'{finding.offset}: error[R03 Missing] Data Mask 1000: ', str(finding))

    def test_all_findings_with_names(self) -> None:
        found = check(EXAMPLES / 'many-faults.iop', EXAMPLES / 'many-faults.h')
        self.assertEqual([sum(each.severity == kind for each in found) for kind in ('error', 'warning')], [13, 3])
        missing = next(each for each in found if each.code == 'R03')
        self.assertEqual((missing.offset, missing.details['object']['name']), (598, 'tank_value'))
        self.assertIn('`font_input`', missing.message)

    def test_what_cannot_be_judged(self) -> None:
        with self.assertRaises(OSError):
            check(EXAMPLES / 'none.iop')
        with self.assertRaisesRegex(ProgramFailed, 'none.h') as raised:
            check(b'', EXAMPLES / 'none.h')
        self.assertEqual(raised.exception.status, 2)


class Reports(unittest.TestCase):
    def test_an_accepted_pool(self) -> None:
        self.assertEqual(report(example('pool.iop')), 'accepted 3 objects\n')

    def test_a_refused_pool(self) -> None:
        self.assertEqual(report(example('refusal-03-missing.iop')), 'refused 3 Missing 1000 100\n')
        self.assertEqual(report(b'\x01'), 'fault 1 Truncated at 0\n')


class Pictures(unittest.TestCase):
    def test_the_active_mask_and_another(self) -> None:
        pool = example('sprayer.iop')
        active = draw(pool)
        self.assertTrue(active.startswith('<svg '))
        self.assertEqual(draw(EXAMPLES / 'sprayer.iop', 1000), active)
        self.assertNotEqual(draw(pool, 1500), active)

    def test_a_pool_with_errors(self) -> None:
        self.assertTrue(draw(example('many-faults.iop')).startswith('<svg '))

    def test_no_such_mask(self) -> None:
        with self.assertRaisesRegex(ProgramFailed, 'object 9 is not there; --mask 1000 draws Data Mask 1000'):
            draw(example('pool.iop'), 9)
        with self.assertRaisesRegex(ValueError, 'mask is 65536'):
            draw(example('pool.iop'), 65536)


if __name__ == '__main__':
    unittest.main()
