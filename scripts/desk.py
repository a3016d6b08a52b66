#!/usr/bin/env python3
"""The terminal on the desk, for make: desk.py [WORDS]

It takes a Python that has what is needed, /usr/bin/python3 where this one has not, says what has to be installed where none has it, and
makes the quick build of vt_live where no program is there.
"""
import os
import subprocess
import sys

sys.dont_write_bytecode = True

ROOT = os.path.dirname(os.path.dirname(os.path.abspath(__file__)))
PACKAGE = f'{ROOT}/bindings/python'
INSTALL = 'apt-get install -y --no-install-recommends'


def lacking(python, modules):
    """The modules that a Python does not have."""
    code = 'import importlib.util, sys; print(*(name for name in sys.argv[1:] if importlib.util.find_spec(name) is None))'
    ran = subprocess.run([python, '-c', code, *modules], capture_output=True, text=True)
    return ran.stdout.split() if ran.returncode == 0 else list(modules)


def best_python(modules):
    """The Python that lacks the fewest modules, this one before /usr/bin/python3, and those that it lacks."""
    found = [(python, lacking(python, modules)) for python in (sys.executable, '/usr/bin/python3') if os.path.exists(python)]
    return min(found, key=lambda each: len(each[1]))


def environment():
    return {**os.environ, 'PYTHONPATH': PACKAGE, 'PYTHONDONTWRITEBYTECODE': '1'}


def has_program():
    """Whether vt_live is there, proved or as a quick build of these sources."""
    sys.path.insert(0, PACKAGE)
    from segyolant import errors, programs
    try:
        found = str(programs.find('vt_live'))
    except errors.ProgramNotFound:
        return False
    return not found.startswith(f'{ROOT}/out/quick/')


def make_program():
    """Makes the quick build, if there is no other program. It takes some minutes, and nothing if it is there and up to date."""
    if not has_program():
        subprocess.run([sys.executable, f'{ROOT}/scripts/quick.py', 'vt_live'], check=True)


def main(words):
    modules = ['aiohttp', *(['can'] if any(word.split('=')[0] == '--bus' for word in words) else [])]
    python, missing = best_python(modules)
    if missing:
        sys.exit(f'{", ".join(missing)} is not there: {INSTALL} python3-can python3-aiohttp')
    make_program()
    os.execve(python, [python, '-m', 'segyolant.desk', *words], environment())


if __name__ == '__main__':
    main(sys.argv[1:])
