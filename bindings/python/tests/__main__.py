"""Runs tests, all of this folder or those that are named, and ends with their counts: python3 -m tests [NAME ...]"""
from __future__ import annotations

import sys
import unittest
from collections.abc import Iterable


def names_of(found: Iterable[tuple[unittest.TestCase, str]]) -> set[str]:
    """The tests among which some failed; a part of a test counts as the test."""
    return {getattr(test, 'test_case', test).id() for test, _ in found}


def main(names: list[str]) -> int:
    loader = unittest.defaultTestLoader
    suite = loader.loadTestsFromNames(names) if names else loader.discover('tests', top_level_dir='.')
    result = unittest.TextTestRunner(stream=sys.stdout).run(suite)
    for test, why in result.skipped:
        print(f'passed over: {test.id()}: {why}')
    failed = len(names_of(result.failures + result.errors)) + len(result.unexpectedSuccesses)
    over = len(names_of(result.skipped))
    print(f'{result.testsRun - failed - over} passed, {failed} failed, {over} passed over', flush=True)
    return 0 if result.wasSuccessful() else 1


if __name__ == '__main__':
    sys.exit(main(sys.argv[1:]))
