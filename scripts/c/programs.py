"""The programs of the tests: the paths of the project, and how a program is compiled and run."""
import os
import subprocess

from c.results import Failed

ROOT = os.path.dirname(os.path.dirname(os.path.dirname(os.path.abspath(__file__))))
LIBRARY = f'{ROOT}/crates/vt_terminal/out/libvt_terminal.a'
CHECKING = f'{ROOT}/crates/vt_check/out/libvt_check.a'
VT_REPLAY = f'{ROOT}/crates/vt_replay/out/vt_replay'
EXAMPLES, HEADERS = f'{ROOT}/examples', f'{ROOT}/include'
WARNINGS = ['-std=c11', '-Wall', '-Wextra', '-Werror']
THREADS = ['-g', '-pthread', '-fsanitize=thread']
SANITIZERS = ['-g', '-fsanitize=address,undefined', '-fno-sanitize-recover=all']
HOST = ['host.c', 'lines.c']
REPLAY = ['replay.c', 'files.c', *HOST]
LIVE = ['live.c', 'bus.c', *HOST]
STATE = ['state.c', 'files.c', *HOST]
PAIR = [f'{ROOT}/scripts/c/pair.c', 'files.c', *HOST]
LOOKS = [f'{ROOT}/scripts/c/looks.c', 'files.c', *HOST]
WORDS = [f'{ROOT}/scripts/c/words.c', 'files.c', *HOST]


def compiled(folder, name, sources, *flags, compiler='gcc', library=LIBRARY, libraries=()):
    """Compiles and links a program, and returns its path. `libraries` are the words of others behind the library."""
    program = f'{folder}/{name}'
    paths = [source if '/' in source else f'{EXAMPLES}/c/{source}' for source in sources]
    words = [compiler, *WARNINGS, *flags, f'-I{HEADERS}', f'-I{EXAMPLES}/c', '-o', program, *paths, library, *libraries]
    ran = subprocess.run(words, capture_output=True, text=True)
    if ran.returncode != 0:
        raise Failed(f'gcc: {ran.stderr.strip()[:600]}')
    return program


class Programs:
    """The programs, each compiled when it is first asked for."""

    def __init__(self, folder):
        self.folder, self.made = folder, {}

    def get(self, name):
        recipes = {
            'replay': ([*REPLAY, 'heap.c'], ['-O2']),
            'replay-arena': ([*REPLAY, 'arena.c'], ['-O2', '-DARENA_BYTES=67108864']),
            'replay-sanitized': ([*REPLAY, 'heap.c'], ['-O1', *SANITIZERS]),
            'refuse': ([f'{ROOT}/scripts/c/refuse.c', *REPLAY, 'heap_refusing.c'], ['-O2', '-Dmain=replay_main']),
            'refuse-sanitized': ([f'{ROOT}/scripts/c/refuse.c', *REPLAY, 'heap_refusing.c'],
                                 ['-O1', '-Dmain=replay_main', *SANITIZERS]),
            'live': ([*LIVE, 'heap.c'], ['-O2']),
            'live-sanitized': ([*LIVE, 'heap.c'], ['-O1', *SANITIZERS]),
            'state': ([*STATE, 'heap.c'], ['-O2']),
            'state-sanitized': ([*STATE, 'heap.c'], ['-O1', *SANITIZERS]),
            'looks': ([*LOOKS, 'heap.c'], ['-O2']),
            'looks-sanitized': ([*LOOKS, 'heap.c'], ['-O1', *SANITIZERS]),
            'words': ([*WORDS, 'heap.c'], ['-O2']),
            'words-sanitized': ([*WORDS, 'heap.c'], ['-O1', *SANITIZERS]),
            'looks-by-redraws': ([*LOOKS, 'heap.c'], ['-O2', '-DBY_REDRAWS']),
            'misuse': ([f'{ROOT}/scripts/c/misuse.c', 'files.c', 'heap.c'], ['-O1', *SANITIZERS]),
            'misuse-short': ([f'{ROOT}/scripts/c/misuse.c', 'files.c', 'heap.c'], ['-O1', '-g', '-DFRAMES=10000']),
            'pair': ([*PAIR, 'heap.c'], ['-O1', *THREADS]),
            'pair-arena': ([*PAIR, 'arena.c'], ['-O1', '-DARENA_BYTES=67108864', *THREADS]),
            'records': (['records.c', 'files.c'], ['-O1', *SANITIZERS]),
            'bench': (['bench.c', *HOST, 'heap.c'], ['-O2']),
            'bench-sanitized': (['bench.c', *HOST, 'heap.c'], ['-O1', *SANITIZERS]),
            'arena_64k': ([f'{ROOT}/scripts/c/arena_64k.c', 'arena.c'], ['-O2', '-DARENA_BYTES=65536']),
            'arena_64k-sanitized': ([f'{ROOT}/scripts/c/arena_64k.c', 'arena.c'], ['-O1', '-DARENA_BYTES=65536', *SANITIZERS]),
            'check': (['check.c', 'heap.c'], ['-O2']),
            'check-sanitized': (['check.c', 'heap.c'], ['-O1', *SANITIZERS]),
            'stack': ([f'{ROOT}/scripts/c/stack.c', 'lines.c', 'heap.c'], ['-O2', '-pthread', '-Wl,-z,now']),
        }
        if name not in self.made:
            sources, flags = recipes[name]
            if name.startswith('refuse'):
                self.made[name] = self.with_other_main(name, sources, flags)
            else:
                library = CHECKING if name.startswith('check') else LIBRARY
                self.made[name] = compiled(self.folder, name, sources, *flags, library=library)
        return self.made[name]

    def with_other_main(self, name, sources, flags):
        """A program whose first source has the main function, and whose others have theirs under another name."""
        first = f'{self.folder}/{name}.o'
        plain = [flag for flag in flags if not flag.startswith('-Dmain=')]
        words = ['gcc', *WARNINGS, *plain, f'-I{HEADERS}', f'-I{EXAMPLES}/c', '-c', '-o', first, sources[0]]
        subprocess.run(words, check=True)
        return compiled(self.folder, name, [first, *sources[1:]], *flags)


# What a program may take, on a busy machine too.
SECONDS = 300


def run(words, folder, **how):
    """Runs a program, and returns its status, its output and its messages."""
    how.setdefault('stdin', None if 'input' in how else subprocess.DEVNULL)
    if 'input' in how:
        del how['stdin']
    try:
        ran = subprocess.run(words, cwd=folder, capture_output=True, timeout=SECONDS, **how)
    except subprocess.TimeoutExpired:
        raise Failed(f'{words[0]}: it has not ended after {SECONDS} seconds') from None
    return ran.returncode, ran.stdout, ran.stderr
