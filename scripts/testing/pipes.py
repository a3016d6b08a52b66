"""What segyolant_log prints of a log that comes through a pipe, that is long, or whose lines are.

Of the standard input of trace, draw and pools each line is written before more are read. Any other pipe gives what a file with the same bytes does.
A file is read anew in each pass, in pieces, so its size needs no memory, and no line is cut where a piece ends.
"""
import os
import select
import shutil
import subprocess
import tempfile
import threading

FIRST = b'(1.000000) can0 18EA2680#00EE00\n'
SECOND = b'(2.000000) can0 18EA2680#00EE00\n'
TRACED = ('1 1.000000 80 to 26: Request: Address Claimed\n'
          '    18EEFF26#01000000001D0020  26 to all: Address Claimed: NAME 20001D0000000001 (agriculture, virtual terminal, manufacturer 0, identity 1)\n')
RUNS = [(['trace', '-'], TRACED, '2 2.000000 80 to 26: Request: Address Claimed\n'
         '    18EEFF26#01000000001D0020  26 to all: Address Claimed: NAME 20001D0000000001 (agriculture, virtual terminal, manufacturer 0, identity 1)\n'),
        (['draw', '-', '--out', 'pictures'], 'line 0: screen none\n', '')]
SUBCOMMANDS = [['trace'], ['compare'], ['stats'], ['pools'], ['operator'], ['report'], ['draw', '--out', 'pictures']]
# The bytes of a log that are read at once.
PIECE = 65536


def read_while_open(output, wanted):
    """The text that a program writes, until it is as long as the expected one or ten seconds pass without more."""
    text = b''
    while len(text) < len(wanted) and select.select([output], [], [], 10)[0]:
        more = os.read(output.fileno(), 65536)
        if not more:
            break
        text += more
    return text.decode()


def frames(count):
    """The lines of a log, of which some end within 16 bytes before the end of a piece, and some behind it."""
    return b''.join(b'(%d.%06d) can0 18FEF%X80#%s\n' % (number // 1000, number, number % 16, b'5A' * (number % 9)) for number in range(count))


def write(path, content):
    with open(path, 'wb') as file:
        file.write(content)


class Pipes:
    """segyolant_log, a log with an upload, and a folder that each test has empty."""

    def __init__(self, top, programs, folder):
        self.program, self.folder = programs['segyolant_log'], folder
        with open(f'{top}/examples/field.log', 'rb') as file:
            self.log = file.read()

    def run(self, *words):
        """The status of a run in the folder, its output, and its messages."""
        ran = subprocess.run([self.program, *words], cwd=self.folder, stdin=subprocess.DEVNULL, capture_output=True, timeout=120)
        return ran.returncode, ran.stdout, ran.stderr.decode()

    # ---- the tests: each gives what differs, a line each

    def lines_come_at_once(self):
        """The text of a first line, while the pipe stays open, and that of a second."""
        for words, first, second in RUNS:
            ran = subprocess.Popen([self.program, *words], cwd=self.folder, stdin=subprocess.PIPE, stdout=subprocess.PIPE)
            ran.stdin.write(FIRST)
            ran.stdin.flush()
            told = read_while_open(ran.stdout, first)
            rest, _ = ran.communicate(SECOND, 60)
            if (told, rest.decode(), ran.returncode) != (first, second, 0):
                yield f'{" ".join(words)}: expected {(first, second, 0)}, came {(told, rest.decode(), ran.returncode)}'

    def a_named_pipe(self):
        """A log that can be read only once gives what the same log in a file does, from each subcommand."""
        for subcommand, *words in SUBCOMMANDS:
            write(f'{self.folder}/my.log', self.log)
            expected = self.run(subcommand, 'my.log', *words)
            os.remove(f'{self.folder}/my.log')
            shutil.rmtree(f'{self.folder}/pictures', ignore_errors=True)
            os.mkfifo(f'{self.folder}/my.log')
            feeder = threading.Thread(target=write, args=(f'{self.folder}/my.log', self.log), daemon=True)
            feeder.start()
            came = self.run(subcommand, 'my.log', *words)
            feeder.join(10)
            os.remove(f'{self.folder}/my.log')
            if feeder.is_alive() or came != expected:
                yield f'{subcommand}: expected {expected}, came {came}'

    def lines_are_whole(self):
        """Lines at the ends of pieces, and lines that are longer than a piece, are copied whole; the last one needs no newline."""
        log = frames(6000)
        for name, content in [
                ('pieces', log), ('without a newline', log[:-1]), ('one piece', log[:log.rindex(b'\n', 0, PIECE)].ljust(PIECE - 1, b'0') + b'\n'),
                ('a long comment', log[:1000000] + b'\n# ' + b'x' * 3 * PIECE + b'\n' + FIRST), ('empty lines', FIRST + b'\n' * PIECE + SECOND)]:
            write(f'{self.folder}/my.log', content)
            status, copy, said = self.run('operator', 'my.log')
            if (status, copy) != (0, content if content.endswith(b'\n') else content + b'\n'):
                yield f'{name}: status {status}, {len(content)} bytes, copied {len(copy)}, {said!r}'

    def a_long_log(self):
        """The size of a log in a file needs no memory, and for pools neither does that of the standard input."""
        for log in ('my.log', '-'):
            short, long = self.memory_for(log, 0), self.memory_for(log, 40)
            if long > short + (8 << 10):
                yield f'pools {log}: {short} kB for a line, {long} kB for 40 MB'

    def memory_for(self, log, megabytes):
        """The most memory, in kB, that pools takes for a log of comments and a frame. (The process has the memory of this one at first.)"""
        with open(f'{self.folder}/my.log', 'wb') as file:
            file.write(FIRST)
            for _ in range(megabytes * 256):
                file.write(b'# ' + b'x' * 4093 + b'\n')
        with subprocess.Popen(['cat', 'my.log'], cwd=self.folder, stdout=subprocess.PIPE) as cat:
            ran = subprocess.Popen([self.program, 'pools', log], cwd=self.folder, stdin=cat.stdout)
            cat.stdout.close()
            return os.wait4(ran.pid, 0)[2].ru_maxrss


TESTS = ('lines_come_at_once', 'a_named_pipe', 'lines_are_whole', 'a_long_log')


def results(top, programs, only):
    """The name of each test, and what differs."""
    told = []
    for name in TESTS:
        if only not in f'pipes/{name}':
            continue
        with tempfile.TemporaryDirectory() as folder:
            differing = list(getattr(Pipes(top, programs, folder), name)())
        told.append((f'pipes/{name}', [f'scripts/testing/pipes.py: {name}', *(f'  {it}' for it in differing)] if differing else []))
    return told
