"""The tests that are functions, by the toolchain's quick build: of what no program can be made to do.

A crate whose tests have passed is not run again while its sources, those below it and the toolchain are the same.
"""
import concurrent.futures
import os
import re
import subprocess

import quick

SECONDS = 900


def crates():
    """The crates of tests."""
    with open(f'{quick.ROOT}/crates.txt', encoding='utf-8') as file:
        return re.findall(r'^(vt_\w+_tests):', file.read(), re.M)


def functions_in(name):
    """The paths of the crate's test functions: their modules, by the files, and their names."""
    top, found = f'{quick.ROOT}/crates/{name}/src', []
    for at, _, files in os.walk(top):
        for file in files:
            module = os.path.relpath(f'{at}/{file}', top).removesuffix('.rt').replace('/', '::')
            found += [f'{module}::{it}' for it in re.findall(r'#\[test\]\s*fn (\w+)', quick.text_of(f'{at}/{file}'))]
    return found


def run_crate(name, only):
    """Runs the tests of a crate. Returns how many passed, and what is said of those that failed."""
    if only and not any(only in f'{name}::{path}' for path in functions_in(name)):
        return 0, []
    folder, made_from = f'{quick.QUICK}/tests', quick.sum_of(name)
    kept = quick.text_of(f'{folder}/{name}')
    if kept.startswith(f'{made_from}\n'):
        said = kept
    else:
        words = ['rt', 'try', '--test', '--seconds', str(SECONDS)]
        ran = subprocess.run(words, cwd=f'{quick.ROOT}/crates/{name}', stdin=subprocess.DEVNULL, stdout=subprocess.PIPE,
                             stderr=subprocess.STDOUT, text=True, errors='replace')
        said = ran.stdout
        if ran.returncode == 0:
            os.makedirs(folder, exist_ok=True)
            with open(f'{folder}/{name}', 'w', encoding='utf-8') as file:
                file.write(f'{made_from}\n{said}')
        elif not re.search(r'^test .* FAILED$', said, re.M):
            return 0, [f'{name}: its tests did not run\n{said}']
    listed = re.findall(r'^test (\S+) \.\.\. (.*)$', said, re.M)
    if not listed:
        return 0, [f'{name}: no test was run\n{said}']
    found = [it for it in listed if only in f'{name}::{it[0]}']
    wrong = [f'{name}: {test}' for test, end in found if end != 'ok']
    return len(found) - len(wrong), [f'{it}\n{said}' for it in wrong[:1]] + wrong[1:]


def run(only=''):
    """Runs the tests of all crates of tests side by side, shows those that fail, and returns how many passed and failed."""
    passed = failed = 0
    with concurrent.futures.ThreadPoolExecutor(len(os.sched_getaffinity(0))) as pool:
        for more, wrong in pool.map(lambda name: run_crate(name, only), crates()):
            passed, failed = passed + more, failed + len(wrong)
            for it in wrong:
                print(f'FAILED {it}', flush=True)
    return passed, failed
