"""The results of tests: what they expect, and how many passed, failed and are passed over."""
import os
import shutil


class PassedOver(Exception):
    """Why a test is passed over."""


class Failed(Exception):
    """Why a test failed."""


class Tests:
    """The counts of the tests so far."""

    def __init__(self, only):
        self.only, self.passed, self.failed, self.passed_over = only, 0, 0, 0

    def run(self, name, function, *words, quiet=False):
        """Runs a test. It may return a note."""
        if self.only not in name:
            return
        try:
            note = function(*words)
        except PassedOver as why:
            self.passed_over += 1
            print(f'passed over: {name}: {why}', flush=True)
        except Failed as why:
            self.failed += 1
            print(f'FAILED: {name}: {why}', flush=True)
        else:
            self.passed += 1
            if not quiet:
                print(f'passed: {name}{f": {note}" if note else ""}', flush=True)


def expect(holds, why):
    if not holds:
        raise Failed(why)


def pass_over(why):
    raise PassedOver(why)


def need(tool):
    if shutil.which(tool) is None:
        raise PassedOver(f'{tool} is not on this machine')


def read(path, default=None):
    if default is not None and not os.path.exists(path):
        return default
    with open(path, 'rb') as file:
        return file.read()


def difference(wanted, got):
    """Where two texts differ first."""
    wanted, got = wanted.split(b'\n'), got.split(b'\n')
    for number, (one, other) in enumerate(zip(wanted + [b'(the end)'], got + [b'(the end)']), 1):
        if one != other:
            return f'line {number} of the output is {other[:90]!r}, wanted {one[:90]!r}'
    return 'one output is longer than the other'
