"""Outputs that cannot be written: a full device, files that may not grow, folders without rights, and a symbolic link in a folder.

Files that may not grow stand for a full disk: a write past a limit of the system fails in the middle of a file.
"""
import os
import resource
import signal
import subprocess
import tempfile

FULL = 'the output could not be written: No space left on device (os error 28)'
NOBODY = 65534
LOG = 'seeder.log'
RUNS = {
    'segyolant_log': [['trace', LOG], ['trace', LOG, '--format', 'json'], ['stats', LOG], ['pools', LOG], ['operator', LOG], ['report', LOG],
                      ['test', 'bench-hide.log'], ['draw', LOG, '--out', '{out}'], ['--help']],
    'segyolant': [['check', 'sprayer.iop'], ['needs', 'sprayer.iop'], ['draw', 'sprayer.iop'], ['report', 'sprayer.iop'], ['why', 'sprayer.iop', '2002:24']],
}


class Outputs:
    """The programs, the examples, and a folder that each test has empty."""

    def __init__(self, top, programs, folder):
        self.programs, self.examples, self.folder = programs, f'{top}/examples', folder

    def run(self, program, words, prepare=None, **more):
        """The status of a run in the folder of the examples, its output and its messages."""
        ran = subprocess.run([self.programs[program], *words], cwd=self.examples, stdin=subprocess.DEVNULL, stderr=subprocess.PIPE,
                             preexec_fn=prepare, timeout=60, **({'stdout': subprocess.PIPE} | more))
        return ran.returncode, (ran.stdout or b'').decode(), ran.stderr.decode()

    def path(self, name):
        return f'{self.folder}/{name}'

    def read(self, name):
        with open(self.path(name), 'rb') as file:
            return file.read()

    def old(self, name):
        """A folder with an old file of this name."""
        os.makedirs(os.path.dirname(self.path(name)))
        with open(self.path(name), 'w') as file:
            file.write('old')

    # ---- the tests: each gives what differs, a line each

    def a_full_device(self):
        """A run whose output is on a full device ends with status 2 and says so."""
        for program, runs in RUNS.items():
            for words in runs:
                words = [it.format(out=self.path('out')) for it in words]
                with open('/dev/full', 'wb') as full:
                    status, _, said = self.run(program, words, stdout=full)
                if (status, said.splitlines()[-1:]) != (2, [f'{program}: {FULL}']):
                    yield f'{program} {" ".join(words)}: status {status}, {said!r}'

    def a_full_disk(self):
        """A file that cannot be written to its end is not named, leaves the old file, and leaves no part of itself."""
        self.old('full/80-2.iop')
        status, out, said = self.run('segyolant_log', ['pools', 'field.log', '--out', self.path('full')], no_file_over(1000))
        wanted = f'segyolant_log: {self.path("full")}/80-2.iop: cannot be written: File too large (os error 27)'
        if status != 2 or wanted not in said or '80-2.iop' in out or '80-1.iop' not in out:
            yield f'pools: status {status}, {out!r}, {said!r}'
        if sorted(os.listdir(self.path('full'))) != ['80-1.iop', '80-2.iop'] or self.read('full/80-2.iop') != b'old':
            yield f'pools: {sorted(os.listdir(self.path("full")))}, {self.read("full/80-2.iop")[:20]!r}'
        status, out, said = self.run('segyolant_log', ['draw', LOG, '--out', self.path('few')], no_file_over(300))
        named, there = [it for it in out.splitlines() if ' -> ' in it], os.listdir(self.path('few'))
        if status != 2 or len(named) != len(there) or 'cannot be written' not in said or any(it.endswith('-part') for it in there):
            yield f'draw: status {status}, {out!r}, {said!r}, {there}'

    def a_folder_without_rights(self):
        """A file in a folder that may not be written is not named, and the folder is as it was."""
        self.old('closed/80-1.iop')
        os.chmod(self.path('closed'), 0o555)
        os.chmod(self.folder, 0o755)
        status, out, said = self.run('segyolant_log', ['pools', LOG, '--out', self.path('closed')], as_nobody)
        if status != 2 or 'cannot be written: Permission denied (os error 13)' not in said or ' -> ' in out:
            yield f'pools: status {status}, {out!r}, {said!r}'
        if os.listdir(self.path('closed')) != ['80-1.iop'] or self.read('closed/80-1.iop') != b'old':
            yield f'pools: {os.listdir(self.path("closed"))}'
        status, out, said = self.run('segyolant_log', ['draw', LOG, '--out', self.path('closed/new')], as_nobody)
        if status != 2 or out or 'Permission denied (os error 13)' not in said:
            yield f'draw: status {status}, {out!r}, {said!r}'

    def a_link_in_a_folder(self):
        """A symbolic link in the place of a picture is replaced, and what it names is unchanged."""
        self.old('target/file')
        os.makedirs(self.path('linked'))
        os.symlink(self.path('target/file'), self.path('linked/line-18.svg'))
        status, out, said = self.run('segyolant_log', ['draw', LOG, '--out', self.path('linked')])
        if status or 'line-18.svg: a symbolic link was replaced' not in said or os.path.islink(self.path('linked/line-18.svg')):
            yield f'draw: status {status}, {out!r}, {said!r}'
        if self.read('target/file') != b'old':
            yield 'draw: what the link names was changed'


def no_file_over(size):
    """What a process does at its begin, so that its writes past this size of a file fail."""
    def prepare():
        signal.signal(signal.SIGXFSZ, signal.SIG_IGN)
        resource.setrlimit(resource.RLIMIT_FSIZE, (size, size))
    return prepare


def as_nobody():
    """What a process of root does at its begin, so that it has no more rights than others."""
    if os.geteuid() == 0:
        os.setgid(NOBODY)
        os.setuid(NOBODY)


TESTS = ('a_full_device', 'a_full_disk', 'a_folder_without_rights', 'a_link_in_a_folder')


def results(top, programs, only):
    """The name of each test, and what differs."""
    told = []
    for name in TESTS:
        if only not in f'outputs/{name}':
            continue
        with tempfile.TemporaryDirectory() as folder:
            differing = list(getattr(Outputs(top, programs, folder), name)())
        told.append((f'outputs/{name}', [f'scripts/testing/outputs.py: {name}', *(f'  {it}' for it in differing)] if differing else []))
    return told
