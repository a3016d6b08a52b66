"""The runs of vt_replay that the repository's tests have stored: logs with expectations, and sessions (docs/TESTING.md)."""
from __future__ import annotations

import re
import shlex
import tempfile
from collections.abc import Iterator
from dataclasses import dataclass, field
from pathlib import Path

from tests.support import EXAMPLES, NAME, OWN, SET, TOP, example

from testing import logs, pools, sessions  # type: ignore[import-not-found]

# The pools of the logs of examples/, which name none themselves (examples/README.md).
EXAMPLE_POOLS = {'bench-hide.log': 'pool.iop', 'bench-sprayer.log': 'sprayer.iop'}


@dataclass
class Run:
    """A replay with what it prints: `printed` as it is, or `expected` line by line, without the counts and without blanks at the ends."""

    shown: str
    log: bytes
    pools: 'dict[int, bytes]' = field(default_factory=dict)
    own: int = OWN
    name: int = NAME
    printed: bytes | None = None
    expected: 'list[bytes]' = field(default_factory=list)


def logs_with_expectations() -> Iterator[Run]:
    """The logs of tests/ and examples/ that say what they print."""
    for path in sorted([*(TOP / 'tests').rglob('*.log'), *EXAMPLES.glob('*.log')]):
        data = path.read_bytes()
        wanted = [line for _, line in logs.expected(data)]
        if not wanted or path.name == 'bench-wrong.log':
            continue
        run = Run(str(path.relative_to(TOP)), data, expected=wanted)
        if path.name in EXAMPLE_POOLS:
            run.pools[SET] = example(EXAMPLE_POOLS[path.name])
        text = data.decode('latin-1')
        for owner, file in re.findall(r'^#pool (\w\w) (\S+)', text, re.M):
            run.pools[int(owner, 16)] = sessions.pool_at(sessions.found(str(TOP), str(path), file)[0])
        for words in re.findall(r'^#words (.*)', text, re.M):
            take_words(run, words.split())
        yield run


def take_words(run: Run, words: 'list[str]') -> None:
    for option, word in zip(words[0::2], words[1::2]):
        setattr(run, option[2:], int(word, 16))


def runs_in_sessions() -> Iterator[Run]:
    """The command lines `vt_replay LOG ..` of sessions that end with status 0, with what they print."""
    for path in sorted((TOP / 'tests').rglob('*.run')):
        text = path.read_text(encoding='utf-8')
        if '$ vt_replay' in text:
            yield from runs_in(path, text)


def runs_in(path: Path, text: str) -> Iterator[Run]:
    with tempfile.TemporaryDirectory() as room:
        for block in sessions.blocks_of(text):
            verb, _, rest = block.head.partition(' ')
            if verb == 'use':
                sessions.use(str(TOP), str(path), room, rest.split())
            elif verb == 'file':
                sessions.put(f'{room}/{rest}', block.data())
            elif verb == 'pool':
                sessions.put(f'{room}/{rest}', pools.pool_of(block.data().decode('utf-8')))
            else:
                run = run_of(path, block, Path(room), shlex.split(rest))
                if run is not None:
                    yield run


def run_of(path: Path, block: 'sessions.Block', room: Path, words: 'list[str]') -> Run | None:
    """The replay of a command line, or None if it is another program's, fails, or writes its output to a file."""
    body = [line for _, line in block.body]
    if words[0] != 'vt_replay' or {'>', '--report', '--help', '--version'} & set(words) or any(it.startswith('status') for it in body):
        return None
    words = [part for word in words[1:] for part in (word.split('=', 1) if word.startswith('--') else [word])]
    options = dict(zip(*[iter(word for at, word in enumerate(words) if word.startswith('--') or at and words[at - 1].startswith('--'))] * 2))
    (log,) = [word for at, word in enumerate(words) if not word.startswith('--') and not (at and words[at - 1].startswith('--'))][:1]
    given = room / (words[-1] if log == '-' else log)
    if not given.is_file():
        return None
    run = Run(f'{path.relative_to(TOP)}:{block.number}: {block.head}', given.read_bytes())
    run.own, run.name = int(options.get('--own', f'{OWN:X}'), 16), int(options.get('--name', f'{NAME:X}'), 16)
    if '--pool' in options:
        run.pools[int(options['--owner'], 16)] = (room / options['--pool']).read_bytes()
    run.printed = b''.join(sessions.lines.bytes_of(line[1:]) for line in body if line.startswith('|'))
    return run
