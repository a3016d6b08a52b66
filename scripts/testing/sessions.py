"""Sessions: command lines of the programs, with what they print, say, write and end with (`tests/**/*.run`).

    # A remark.
    use examples/sprayer.iop examples/sprayer.h
    file short.log
    | ! press 400
    pool two.iop
    | @1 00 00 01 @1000 00 00 00

    $ segyolant check sprayer.iop --names sprayer.h > told.txt
    | a line of its output
    ! a line of its error output
    wrote told.txt
    | a line of that file
    status 1

A session runs in a folder of its own. `use` copies files into it (`as NAME` gives another name, a pool's text `x.pool` becomes `x.iop`),
`file` and `pool` make one, and `link NAME to TARGET` a symbolic link. `< FILE` gives the standard input, `> FILE` takes the output. Behind a command stand what it wrote and a
status other than 0: a file that equals one that is there is `wrote NEW as OLD`.
"""
import glob
import hashlib
import os
import re
import shlex
import subprocess
import tempfile

from testing import lines, pools

TESTS = 'tests'
SECONDS = 120
# A file of more lines than this is told by its size and its checksum.
MOST_LINES = 400


class BadTest(Exception):
    """A test that cannot be run, with its line."""


# What may stand behind each head line.
BEHIND = {'$': ('|', '!', 'status ', 'wrote ', 'removed '), 'file': ('|',), 'pool': ('|',), 'link': (), 'use': ()}


class Block:
    """A head line of a session, its number, and the lines of text behind it."""

    def __init__(self, number, head):
        self.number, self.head, self.body = number, head, []

    def data(self):
        return b''.join(lines.bytes_of(line[1:]) for _, line in self.body)


def blocks_of(text):
    """The blocks of a session. A remark belongs to none."""
    blocks = []
    for number, line in enumerate(text.split('\n'), 1):
        if line.startswith('#') or not line.strip():
            continue
        if line[0] in '|!' or line.startswith(('status ', 'wrote ', 'removed ')):
            verb = blocks[-1].head.partition(' ')[0] if blocks else 'use'
            if not line.startswith(BEHIND[verb]):
                raise BadTest(f'{number}: this line may not stand behind {blocks[-1].head if blocks else "nothing"}')
            blocks[-1].body.append((number, line))
        elif line.startswith(('$ ', 'use ', 'file ', 'pool ', 'link ')):
            blocks.append(Block(number, line))
        else:
            raise BadTest(f'{number}: a line begins with $, use, file, pool, link, |, !, wrote, removed, status or #, and not so: {line[:60]}')
    if not any(block.head.startswith('$') for block in blocks):
        raise BadTest('1: it has no command line')
    return blocks


def found(top, test, word):
    """The files that a word of `use` names: beside the test, in tests/, or from the top."""
    for folder in (os.path.dirname(test), f'{top}/{TESTS}', top):
        names = sorted(glob.glob(f'{glob.escape(folder)}/{word}'))
        if names:
            return names
    raise BadTest(f'no file is {word}')


def put(path, data):
    os.makedirs(os.path.dirname(path), exist_ok=True)
    with open(path, 'wb') as file:
        file.write(data)


def read(path):
    with open(path, 'rb') as file:
        return file.read()


def pool_at(path):
    """The bytes of a pool's file, or of its text."""
    data = read(path)
    return pools.pool_of(data.decode('utf-8')) if path.endswith('.pool') else data


def use(top, test, room, words):
    """Copies files into the session's folder."""
    name = None
    if len(words) == 3 and words[1] == 'as':
        words, name = words[:1], words[2]
    for path in [it for word in words for it in found(top, test, word)]:
        own = re.sub(r'\.pool$', '.iop', os.path.basename(path))
        put(f'{room}/{name or own}', pool_at(path))


def link(room, rest):
    """Makes a symbolic link."""
    name, _, target = rest.partition(' to ')
    os.makedirs(os.path.dirname(f'{room}/{name}'), exist_ok=True)
    os.symlink(target, f'{room}/{name}')


def content(path):
    """The bytes of a file, or what a symbolic link is told as."""
    return f'link to {os.readlink(path)}'.encode() if os.path.islink(path) else read(path)


def files_in(room):
    """The bytes of each file below the folder, by its path."""
    return {os.path.relpath(f'{at}/{name}', room): content(f'{at}/{name}') for at, _, names in os.walk(room) for name in names}


def told_file(path, data, before):
    """What is told of a file that a command wrote."""
    twins = sorted(name for name, old in before.items() if old == data and name != path)
    if data and twins:
        return [f'wrote {path} as {twins[0]}']
    if data.count(b'\n') > MOST_LINES:
        return [f'wrote {path}: {len(data)} bytes, sha256 {hashlib.sha256(data).hexdigest()}']
    try:
        data.decode('utf-8')
        told = lines.lines_of('|', data)
    except UnicodeDecodeError:
        return [f'wrote {path} in hex', *(f'| {it}' for it in pools.text_of(data))]
    return [f'wrote {path}', *told]


def told_run(room, programs, head):
    """Runs a command line in the session's folder, and returns what is to stand behind it."""
    words = shlex.split(head)
    given, taken = b'', None
    while len(words) > 2 and words[-2] in ('<', '>'):
        if words[-2] == '<':
            given = read(f'{room}/{words[-1]}')
        else:
            taken = words[-1]
        words = words[:-2]
    if not words or words[0] not in programs:
        raise BadTest(f'no program of these tests: {head}')
    before = files_in(room)
    environment = {'PATH': os.environ.get('PATH', ''), 'LANG': 'C.UTF-8', 'ASAN_OPTIONS': 'detect_leaks=0'}
    try:
        ran = subprocess.run([words[0], *words[1:]], executable=programs[words[0]], cwd=room, input=given, capture_output=True, timeout=SECONDS, env=environment)
    except subprocess.TimeoutExpired:
        return [f'still running after {SECONDS} seconds']
    if taken:
        put(f'{room}/{taken}', ran.stdout)
    after = files_in(room)
    told = ([] if taken else lines.lines_of('|', ran.stdout)) + lines.lines_of('!', ran.stderr)
    for path in sorted(after):
        if before.get(path) != after[path]:
            told += told_file(path, after[path], before)
    told += [f'removed {path}' for path in sorted(before) if path not in after]
    return told + ([f'status {ran.returncode}'] if ran.returncode else [])


def results_of(top, test, programs):
    """Runs a session. Yields the block of each command line, and what is to stand behind it."""
    with open(test, encoding='utf-8') as file:
        blocks = blocks_of(file.read())
    with tempfile.TemporaryDirectory(prefix='session-') as room:
        for block in blocks:
            verb, _, rest = block.head.partition(' ')
            try:
                if verb == 'use':
                    use(top, test, room, rest.split())
                elif verb == 'file':
                    put(f'{room}/{rest}', block.data())
                elif verb == 'link':
                    link(room, rest)
                elif verb == 'pool':
                    put(f'{room}/{rest}', pools.pool_of(block.data().decode('utf-8')))
                else:
                    yield block, told_run(room, programs, rest)
            except (BadTest, ValueError, OSError) as error:
                raise BadTest(f'{block.number}: {error}') from None


def blessed(text, results):
    """The session's text with what its commands told in the place of what stood behind them."""
    told = {block.number: block_told for block, block_told in results}
    ends = {block.number: block.body[-1][0] if block.body else block.number for block, _ in results}
    made, skipped = [], 0
    for number, line in enumerate(text.split('\n'), 1):
        if number <= skipped and not line.startswith('#') and line.strip():
            continue
        made.append(line)
        if number in told:
            made += told[number]
            skipped = ends[number]
    return '\n'.join(made)
