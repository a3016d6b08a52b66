"""Logs with expectations (`tests/**/*.log`): each is replayed by vt_replay and compared line by line by `segyolant_log test`.

Lines `#<` are what the line above has to print, those at the front what the first screen is. `#pool 80 FILE` names a pool that is there
from the start and the address of its working set, `#words ..` further words of the terminal's command line.
"""
import os
import re
import shutil
import subprocess
import tempfile

from testing import sessions

EXPECTED = re.compile(rb'#< ?(.*)')


def words_of(top, test, room, text):
    """The words of the command lines that the log asks for. Its pool is put into the folder."""
    words = []
    for line in text.split('\n'):
        if line.startswith('#pool '):
            _, owner, file = line.split()
            with open(f'{room}/pool.iop', 'wb') as made:
                made.write(sessions.pool_at(sessions.found(top, test, file)[0]))
            words += ['--pool', f'{room}/pool.iop', '--owner', owner]
        elif line.startswith('#words '):
            words += line.split()[1:]
    return words


def expected(data):
    """The expectations of a log, each with the number of its line."""
    found = [(number, EXPECTED.match(line.rstrip(b'\r'))) for number, line in enumerate(data.split(b'\n'), 1)]
    return [(number, match[1]) for number, match in found if match]


def without_expectations(path):
    """The lines of a log that are no expectations."""
    return [line for line in sessions.read(path).split(b'\n') if not line.startswith(b'#<')]


def run(programs, name, words, room):
    environment = {'PATH': os.environ.get('PATH', ''), 'LANG': 'C.UTF-8', 'ASAN_OPTIONS': 'detect_leaks=0'}
    return subprocess.run([name, *words], executable=programs[name], cwd=room, stdin=subprocess.DEVNULL, capture_output=True,
                          timeout=sessions.SECONDS, env=environment)


def faults_of(top, test, programs):
    """Replays a log, and returns the lines that tell what differs, or none."""
    data = sessions.read(test)
    shown = os.path.relpath(test, top)
    with tempfile.TemporaryDirectory(prefix='log-') as room:
        name = f'{room}/{os.path.basename(test)}'
        shutil.copyfile(test, name)
        words = words_of(top, test, room, data.decode('latin-1'))
        compared = run(programs, 'segyolant_log', ['test', name, *words], room)
        if compared.returncode:
            return (compared.stdout + compared.stderr).decode('utf-8', 'backslashreplace').replace(name, shown).rstrip('\n').split('\n')
        replayed = run(programs, 'vt_replay', [name, *words], room)
    printed, wanted = replayed.stdout.split(b'\n')[:-1], expected(data)
    if replayed.returncode:
        return [f'{shown}: vt_replay ended with status {replayed.returncode}', replayed.stderr.decode('utf-8', 'backslashreplace')]
    if not printed or not re.fullmatch(rb'lines \d+ frames \d+ operator \d+ skipped \d+ comments \d+ faults \d+', printed[-1]):
        return [f'{shown}: vt_replay printed no counts']
    for (number, line), other in zip(wanted, printed):
        if line != other.rstrip():
            return [f'{shown}:{number}: vt_replay prints something else', f'  - {line.decode("latin-1")}', f'  + {other.decode("latin-1")}']
    if len(wanted) != len(printed) - 1:
        return [f'{shown}: vt_replay prints {len(printed) - 1} lines, and {len(wanted)} are expected']
    return []


def bless(top, test, programs):
    """Writes the log's expectations anew, and returns whether they are others."""
    with tempfile.TemporaryDirectory(prefix='log-') as room:
        name = f'{room}/{os.path.basename(test)}'
        shutil.copyfile(test, name)
        ran = run(programs, 'segyolant_log', ['test', name, *words_of(top, test, room, sessions.read(test).decode('latin-1')), '--bless'], room)
        if ran.returncode not in (0, 1) or without_expectations(name) != without_expectations(test):
            raise sessions.BadTest(ran.stderr.decode('utf-8', 'backslashreplace').replace(name, os.path.relpath(test, top)) or 'its lines changed')
        is_new = sessions.read(name) != sessions.read(test)
        if is_new:
            shutil.copyfile(name, test)
        return is_new
