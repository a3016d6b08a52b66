"""What a terminal tells of its state, as values of the core say it."""
import unittest
from decimal import Decimal

from segyolant import Limits, Profile, WorkingSet
from segyolant.state import element_of, limits_of, set_of
from tests.support import TOP


class Values(unittest.TestCase):
    def test_a_set_has_its_name_as_a_number(self) -> None:
        value = {'address': 128, 'name': '20001D0000000001', 'pool': True, 'shown': False, 'mask': 1000, 'soft_key_mask': None, 'input': None,
                 'key': 5, 'more': 1}
        self.assertEqual(set_of(value), WorkingSet(128, 0x20001D0000000001, True, False, 1000, None, None, 5))
        self.assertIsNone(set_of({**value, 'name': None}).name)

    def test_an_element(self) -> None:
        value = {'id': 5, 'kind': 6, 'depth': 0, 'around': None, 'x': -1, 'y': 2, 'width': 3, 'height': 4, 'left': 0, 'top': 2, 'right': 2, 'bottom': 6}
        element = element_of(value)
        self.assertEqual((element.id, element.x, element.around, element.bottom), (5, -1, None, 6))

    def test_the_numbers_of_limits_are_exact(self) -> None:
        value = {'kind': 9, 'enabled': True, 'value': 1135, 'minimum': 0, 'maximum': 2**32 - 1, 'offset': -100, 'places': 1, 'decimals': 1,
                 'items': 0, 'length': 0}
        limits = limits_of(value)
        self.assertEqual(limits, Limits(9, True, 1135, 0, 2**32 - 1, -100, 1, 1, 0, 0))
        self.assertEqual((limits.shown(1135), limits.shown(limits.maximum)), (Decimal('103.5'), Decimal('429496719.5')))


class Profiles(unittest.TestCase):
    def test_it_has_the_members_of_the_page(self) -> None:
        page = (TOP / 'docs' / 'LIVE.md').read_text(encoding='utf-8')
        row = next(line for line in page.split('\n') if line.startswith('| `memory`'))
        self.assertEqual(sorted(Profile().members()), sorted(row.split('|')[1].strip(' `').split('`, `')))


if __name__ == '__main__':
    unittest.main()
