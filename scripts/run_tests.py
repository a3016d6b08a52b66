#!/usr/bin/env python3
"""Runs the tests that are data: run_tests.py [--only WORD] [--bless] [--functions] [--programs PATTERN] [FILE ...]

Below tests/, a log `*.log` says behind `#<` what the terminal prints, and a session `*.run` has command lines with what they print, say
and write (docs/TESTING.md). Without FILE all are run, and those of scripts/testing/faults.py, consoles.py, limits.py, outputs.py and pipes.py, by the quick builds unless PATTERN says where the programs are, as
'crates/{}/out/{}'. Each test that fails is shown with its file and line, what was expected behind `-` and what came behind `+`. --bless
writes what came into the files, to be read before it is kept. --functions runs the tests that are functions as well, by the toolchain's
quick build. The last line is 'N passed, N failed'.
"""
import argparse
import concurrent.futures
import difflib
import os
import sys

sys.dont_write_bytecode = True

TOP = os.path.dirname(os.path.dirname(os.path.abspath(__file__)))
sys.path.insert(0, f'{TOP}/scripts')

import quick  # noqa: E402
from testing import consoles, faults, functions, limits, logs, outputs, pipes, sessions  # noqa: E402


def tests_below(folder):
    """The files of tests below a folder."""
    return sorted(f'{at}/{name}' for at, _, names in os.walk(folder) for name in names if name.endswith(('.log', '.run')))


def difference(test, block, told):
    """The lines that tell how what a command told differs from what stands behind it."""
    wanted = [line for _, line in block.body]
    if wanted == told:
        return []
    shown = os.path.relpath(test, TOP)
    parts = difflib.unified_diff(wanted, told, lineterm='', n=2)
    return [f'{shown}:{block.number}: {block.head}', *(f'  {line}' for line in list(parts)[2:])]


def session_results(test, programs, only, bless):
    """The results of a session: for each command line its name, and what differs."""
    shown = os.path.relpath(test, TOP)
    try:
        if not any(only in it for it in (shown, *heads_in(test))):
            return []
        told = [it for it in sessions.results_of(TOP, test, programs) if only in it[0].head or only in shown]
    except sessions.BadTest as error:
        return [(test, [f'{shown}:{error}'])]
    crashed = [(block.head, [f'{shown}:{block.number}: {block.head}', '  ' + lines[-1]]) for block, lines in told if lines and is_crash(lines[-1])]
    if bless and not crashed:
        text = sessions.read(test).decode('utf-8')
        made = sessions.blessed(text, told)
        if made != text:
            sessions.put(test, made.encode('utf-8'))
            print(f'written: {shown}', flush=True)
        return [(block.head, []) for block, _ in told]
    return crashed if bless else [(block.head, difference(test, block, lines)) for block, lines in told]


def heads_in(test):
    """The command lines of a session."""
    return [line for line in sessions.read(test).decode('utf-8').split('\n') if line.startswith('$ ')]


def is_crash(line):
    """Whether the last line of what a command told says that it was ended by a signal or did not end."""
    return line.startswith(('status -', 'still running'))


def results(test, programs, only, bless):
    """The results of a file of tests: the name of each test, and the lines that tell what differs."""
    if test.endswith('.run'):
        return session_results(test, programs, only, bless)
    if only not in os.path.relpath(test, TOP):
        return []
    try:
        if bless:
            if logs.bless(TOP, test, programs):
                print(f'written: {os.path.relpath(test, TOP)}', flush=True)
            return [(test, [])]
        return [(test, logs.faults_of(TOP, test, programs))]
    except Exception as error:
        return [(test, [f'{os.path.relpath(test, TOP)}: {error}'])]


def programs_at(pattern):
    """Where the programs are, by name."""
    if pattern is None:
        quick.build_all(quick.PROGRAMS)
        return {name: f'{quick.QUICK}/{name}' for name in quick.PROGRAMS}
    found = {name: os.path.join(TOP, pattern.replace('{}', name)) for name in quick.PROGRAMS}
    lacking = [path for path in found.values() if not os.path.exists(path)]
    if lacking:
        sys.exit(f'{lacking[0]} is not there: make quick or make build makes the programs')
    return found


def count(told):
    """Shows the tests that failed, and returns how many passed and failed."""
    passed = failed = 0
    for _, differing in told:
        passed, failed = passed + (not differing), failed + bool(differing)
        if differing:
            print('FAILED ' + '\n'.join(differing), flush=True)
    return passed, failed


def run_data(tests, programs, only, bless):
    """Runs files of tests side by side, shows those that fail, and returns how many passed and failed."""
    passed = failed = 0
    with concurrent.futures.ThreadPoolExecutor(len(os.sched_getaffinity(0))) as pool:
        for each in pool.map(lambda test: results(test, programs, only, bless), tests):
            more = count(each)
            passed, failed = passed + more[0], failed + more[1]
    return passed, failed


def main():
    parser = argparse.ArgumentParser(description=__doc__.split('\n')[0])
    parser.add_argument('files', nargs='*', metavar='FILE')
    parser.add_argument('--only', default='', metavar='WORD', help='those whose path or command line holds it')
    parser.add_argument('--bless', action='store_true')
    parser.add_argument('--programs', metavar='PATTERN')
    parser.add_argument('--functions', action='store_true')
    options = parser.parse_args()
    tests = [os.path.abspath(it) for it in options.files] or tests_below(f'{TOP}/tests')
    lacking = [it for it in tests if not os.path.isfile(it)]
    if lacking:
        sys.exit(f'{lacking[0]} is no file')
    with concurrent.futures.ThreadPoolExecutor(1) as pool:
        later = pool.submit(functions.run, options.only) if options.functions else None
        programs = programs_at(options.programs)
        passed, failed = run_data(tests, programs, options.only, options.bless)
        if not options.files and not options.bless:
            for module in (faults, consoles, limits, outputs, pipes):
                more = count(module.results(TOP, programs, options.only))
                passed, failed = passed + more[0], failed + more[1]
        if later is not None:
            more = later.result()
            passed, failed = passed + more[0], failed + more[1]
    if passed + failed == 0:
        print(f'no test has {options.only} in its path or its command line')
        failed = 1
    print(f'{passed} passed, {failed} failed')
    sys.exit(1 if failed else 0)


if __name__ == '__main__':
    main()
