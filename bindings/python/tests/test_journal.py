"""The journal of commands."""
import unittest
from unittest import mock

from segyolant.journal import Journal

BEGIN = {'do': 'begin', 'own': 38}


def told(journal: Journal) -> 'list[object]':
    return [request for part in journal.parts() for request in part]


class Journals(unittest.TestCase):
    def journal(self, most: int) -> Journal:
        journal = Journal(most)
        self.addCleanup(journal.close)
        journal.begin(BEGIN)
        return journal

    def test_commands_come_in_their_order(self) -> None:
        journal = self.journal(10_000)
        ticks = [{'do': 'tick', 'time': time} for time in range(7)]
        for tick in ticks[:5]:
            journal.add(tick)
        with mock.patch('segyolant.journal.PART', 2):
            self.assertEqual([len(part) for part in journal.parts()], [2, 2, 2])
        for tick in ticks[5:]:
            journal.add(tick)
        self.assertEqual(told(journal), [BEGIN, *ticks])

    def test_a_new_terminal_begins_anew(self) -> None:
        journal = self.journal(10_000)
        journal.add({'do': 'claim'})
        journal.begin({'do': 'begin', 'own': 39})
        self.assertEqual(told(journal), [{'do': 'begin', 'own': 39}])

    def test_one_that_is_too_long_is_given_up(self) -> None:
        journal = self.journal(60)
        self.assertTrue(journal.is_whole)
        journal.add({'do': 'tick', 'time': 2**60})
        journal.add({'do': 'claim'})
        self.assertEqual((journal.is_whole, told(journal)), (False, []))
        journal.begin(BEGIN)
        self.assertEqual((journal.is_whole, told(journal)), (True, [BEGIN]))

    def test_none_is_kept(self) -> None:
        self.assertFalse(self.journal(0).is_whole)


if __name__ == '__main__':
    unittest.main()
