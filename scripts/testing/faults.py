"""Reads and writes that fail: vt_replay over files and outputs whose calls fail at a place (scripts/fail_io.c).

Each test runs the program many times, with the place of the fault moved on. It is passed over where there is no C compiler.
"""
import os
import shutil
import subprocess
import tempfile

ERROR = 'Input/output error (os error 5)'
LOG = 'seeder.log'
# A log whose second line is faulty, so that its text is longer than that of the first screen.
SECOND_FAULTY = b'# one\nx\n# three\n'
FAULTY_LINE = ('vt_replay: log: 1 of 3 lines is faulty; line 2: the line does not begin with a time, as (1.000000)\n'
               'vt_replay: log: the output could not be written after line 3')


class Faults:
    """The program with the library that makes its calls fail, and the folder of the logs."""

    def __init__(self, top, program, folder):
        self.program, self.examples, self.folder = program, f'{top}/examples', folder
        self.library = f'{folder}/fail_io.so'
        words = ['cc', '-O1', '-shared', '-fPIC', '-o', self.library, f'{top}/scripts/fail_io.c', '-ldl']
        subprocess.run(words, check=True)
        with open(f'{self.examples}/{LOG}', 'rb') as file:
            self.log = file.read()
        self.whole = self.run([LOG])[1]

    def run(self, words, folder=None, **faults):
        """The status of a run, its output and its messages. Each fault is a name of scripts/fail_io.c with its number."""
        env = {**os.environ, 'LD_PRELOAD': self.library, **{name.upper(): str(number) for name, number in faults.items()}}
        ran = subprocess.run([self.program, *words], cwd=folder or self.examples, env=env, capture_output=True,
                             stdin=subprocess.DEVNULL, timeout=60)
        return ran.returncode, ran.stdout, ran.stderr.decode()

    def put(self, name, data):
        with open(f'{self.folder}/{name}', 'wb') as file:
            file.write(data)

    # ---- the tests: each gives what differs, a line each

    def pieces_make_no_difference(self):
        """A log read in pieces of at most so many bytes."""
        for most in range(1, 101):
            status, out, _ = self.run([LOG], read_most=most, write_breaks=most % 2)
            if (status, out) != (0, self.whole):
                yield f'in pieces of {most}: status {status}, {len(out)} bytes, expected {len(self.whole)}'

    def a_log_that_cannot_be_read_on(self):
        """All lines that were read are replayed, and written out before the next read."""
        for count in range(0, len(self.log), 10):
            front = self.log[:self.log.rfind(b'\n', 0, count) + 1]
            self.put('front', front)
            wanted = self.run(['front'], self.folder)[1].rpartition(b'lines ')[0]
            status, out, said = self.run([LOG], read_room=count)
            line = front.count(b'\n')
            message = f'vt_replay: {LOG}: the log could not be read{f" after line {line}" if line else ""}: {ERROR}\n'
            if (status, out) != (1, wanted) or not said.endswith(message):
                yield f'after {count} bytes: status {status}, {len(out)} bytes, expected {len(wanted)}; {said[-120:]!r}'

    def an_output_that_cannot_be_written(self):
        """Exactly the bytes that were taken are written."""
        for room in range(0, len(self.whole), 5):
            status, out, said = self.run([LOG], write_room=room)
            if (status, out) != (1, self.whole[:room]) or 'the output could not be written' not in said or ERROR not in said:
                yield f'after {room} bytes: status {status}, {len(out)} bytes; {said[-120:]!r}'

    def failures_are_named(self):
        """The cause of the system is in the message, if it gave one."""
        self.put('log', SECOND_FAULTY)
        for error, cause in [(5, f': {ERROR}'), (12, ': Cannot allocate memory (os error 12)'), (0, ': failed to write the buffered data')]:
            status, out, said = self.run(['log'], self.folder, write_room=14, write_error=error, write_breaks=1)
            if (status, len(out), said) != (1, 14, f'{FAULTY_LINE}{cause}\n'):
                yield f'error {error}: status {status}, {len(out)} bytes; {said!r}'

    def outputs_that_end_early(self):
        """A report that is cut, and messages that are cut, which leave the status as it is."""
        for pool in ['pool.iop', 'refusal-03-missing.iop']:
            status, out, said = self.run([pool, '--report'], write_room=3)
            if (status, len(out)) != (1, 3) or f'the output could not be written: {ERROR}' not in said:
                yield f'{pool}: status {status}, {len(out)} bytes; {said!r}'
        for words, wanted in [([], 2), (['none'], 1)]:
            status, out, said = self.run(words, say_room=3)
            if (status, out, len(said)) != (wanted, b'', 3):
                yield f'{" ".join(words) or "no words"}: status {status}, expected {wanted}; {said!r}'


def results(top, programs, only):
    """The name of each test, and what differs."""
    names = [name for name in vars(Faults) if not name.startswith('_') and name not in ('run', 'put') and only in f'faults/{name}']
    if not names:
        return []
    if shutil.which('cc') is None:
        print('passed over: faults: there is no C compiler on this machine', flush=True)
        return []
    with tempfile.TemporaryDirectory() as folder:
        faults = Faults(top, programs['vt_replay'], folder)
        return [(f'faults/{name}', [f'scripts/testing/faults.py: {name}', *(f'  {it}' for it in differing)] if differing else [])
                for name in names for differing in [list(getattr(faults, name)())]]
