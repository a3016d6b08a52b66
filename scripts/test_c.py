#!/usr/bin/env python3
"""Tests the C interface: the programs of examples/c over the libraries crates/vt_terminal/out/libvt_terminal.a and
crates/vt_check/out/libvt_check.a, examples/cpp and bindings/rust. The tests are in scripts/c, by subject.

    test_c.py [--cases FOLDER ...] [--only WORD]

It compiles with gcc into a temporary folder. `rt lib` makes each library, in its crate. What needs a tool that is not on the machine
is passed over by name. The last line is `N passed, M failed, L passed over`, and the status is 1 where something failed.

--cases names folders of runs of vt_replay, each a folder with the files args, log, pool, stdout and status (and perhaps stages: a run
without the stage `final` is passed over). --only runs the tests whose names have the word.
"""
import argparse
import os
import shutil
import sys
import tempfile

sys.dont_write_bytecode = True

from c.dialogs import test_dialogs
from c.display import test_display
from c.events import test_events
from c.generated import test_generated
from c.languages import test_other_languages
from c.live import test_live
from c.looks import test_looks
from c.memory import test_memory
from c.misuse import test_misuse
from c.packed import test_package
from c.parts import test_parts
from c.programs import CHECKING, LIBRARY, Programs
from c.readings import test_readings
from c.repaints import test_repaints
from c.replays import test_replays
from c.results import Tests
from c.shared import test_shared
from c.stacks import test_stacks
from c.symbols import test_symbols
from c.times import test_times
from c.words import test_words


def test_all(tests, folder, cases):
    programs = Programs(folder)
    test_symbols(tests)
    test_times(tests, programs)
    test_replays(tests, programs, cases)
    test_generated(tests, programs)
    test_events(tests, programs)
    test_readings(tests, programs)
    test_parts(tests, programs)
    test_repaints(tests, programs)
    test_display(tests, programs)
    test_looks(tests, programs)
    test_memory(tests, programs)
    test_misuse(tests, programs)
    test_stacks(tests, programs)
    test_live(tests, programs)
    test_other_languages(tests, folder)
    test_shared(tests, folder)
    test_package(tests, f'{folder}/package')
    test_dialogs(tests)
    test_words(tests, programs)


def main():
    parser = argparse.ArgumentParser(description=__doc__.split('\n')[0])
    parser.add_argument('--cases', action='append', default=[], metavar='FOLDER')
    parser.add_argument('--only', default='', metavar='WORD')
    words = parser.parse_args()
    for library in [LIBRARY, CHECKING]:
        if not os.path.exists(library):
            sys.exit(f'{library} is not there: rt lib makes it, in {os.path.dirname(os.path.dirname(library))}')
    tests = Tests(words.only)
    if shutil.which('gcc') is None:
        print('passed over: all tests: gcc is not on this machine')
        tests.passed_over += 1
    else:
        with tempfile.TemporaryDirectory() as folder:
            test_all(tests, folder, words.cases)
    print(f'{tests.passed} passed, {tests.failed} failed, {tests.passed_over} passed over')
    sys.exit(1 if tests.failed else 0)


if __name__ == '__main__':
    main()
