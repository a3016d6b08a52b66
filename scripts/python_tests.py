#!/usr/bin/env python3
"""Tests of the package for Python: python_tests.py package|desk [--gate]

`package` runs all but those of the page in a browser; what needs a module that no Python here has is passed over, and named. `desk` runs
those of the page in headless Chromium, of the server, the bench and the simulated implement, and needs all its packages. Both run over
quick builds of the programs.

With --gate they run over the proved programs of this tree, and `desk` runs the page alone, or says what it lacks.
"""
import argparse
import os
import shutil
import subprocess
import sys

sys.dont_write_bytecode = True

import desk  # noqa: E402
import quick  # noqa: E402

# The packages of Debian by the modules, or by the programs, that they have.
MODULES = {'aiohttp': 'python3-aiohttp', 'can': 'python3-can', 'selenium': 'python3-selenium', 'pytest': 'python3-pytest'}
PROGRAMS = {'chromium': 'chromium', 'chromedriver': 'chromium-driver'}
PAGE = 'desk_tests.in_chromium'
DESK = ['tests.test_implement', 'tests.test_bench', 'tests.test_desk', PAGE]


def run(python, names, gate):
    """Runs tests by their names, all of tests/ where there are none. Returns the status."""
    folder = {} if gate else {'SEGYOLANT_BIN': quick.QUICK}
    if not gate:
        quick.build_all(quick.PROGRAMS)
    words = [python, '-B', '-W', 'error', '-m', 'tests', *names]
    return subprocess.run(words, cwd=desk.PACKAGE, env={**desk.environment(), **folder}).returncode


def main():
    parser = argparse.ArgumentParser(description=__doc__.split('\n')[0])
    parser.add_argument('what', choices=['package', 'desk'])
    parser.add_argument('--gate', action='store_true')
    words = parser.parse_args()
    python, missing = desk.best_python(MODULES)
    if words.what == 'package':
        sys.exit(run(python, [], words.gate))
    packages = [MODULES[name] for name in missing] + [package for name, package in PROGRAMS.items() if shutil.which(name) is None]
    if not packages:
        sys.exit(run(python, [PAGE] if words.gate else DESK, words.gate))
    what = f'the tests of the desk need what is not there: {desk.INSTALL} {" ".join(packages)}'
    if not words.gate:
        sys.exit(what)
    print(f'passed over: {what}')
    print('0 passed, 0 failed, 1 passed over')


if __name__ == '__main__':
    main()
