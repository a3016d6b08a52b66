"""Tests of examples/c/replay.c and check.c: they print what vt_replay printed for the same words, in runs that are stored."""
import glob
import os
import re

from c.programs import EXAMPLES, ROOT, run
from c.results import PassedOver, difference, expect, pass_over, read
from testing import lines, sessions

# The options of vt_replay that replay.c lacks.
LACKING = {'--report', '--help', '-h', '--version', '-V'}


class Run:
    """A run of vt_replay that is stored: its words, its folder, its output and its status. The output may have messages behind it."""

    def __init__(self, name, words, folder, stdout, status, given=b'', has_messages=False, is_prefix=False, stages=('final',)):
        self.name, self.words, self.folder, self.given, self.stages = name, words, folder, given, stages
        self.stdout, self.status, self.has_messages, self.is_prefix = stdout, status, has_messages, is_prefix

    def why_not(self):
        """Why replay.c is not run on this, or None."""
        lacking = sorted(LACKING.intersection(self.words))
        if 'final' not in self.stages:
            return 'it is of an earlier stage'
        return f'replay.c lacks {lacking[0]}' if lacking else None

    def is_refused_pool(self):
        """Whether the output is the line of a pool's fault or refusal, which the library does not give."""
        return self.status == 1 and '--pool' in self.words and re.match(rb'(fault|refused) [^\n]*\n', self.stdout)

    def reported(self):
        """The pool whose report it is, or None."""
        pools = [word for word in self.words if word != '--report']
        is_report = len(self.words) == 2 and len(pools) == 1 and pools[0] not in ('-', '--') and 'final' in self.stages
        return pools[0] if is_report else None


def stored_runs():
    """The runs of vt_replay on the examples that the tests compare."""
    blocks = sessions.blocks_of(read(f'{ROOT}/tests/vt_replay/examples.run').decode())
    given = next(block.data() for block in blocks if block.head == 'file given')
    for block in blocks:
        if block.head.startswith('$ vt_replay'):
            words = block.head.removesuffix(' < given').split()[2:]
            text = b''.join(lines.bytes_of(line[1:]) for _, line in block.body if line[0] in '|!')
            status = next((int(line.split()[1]) for _, line in block.body if line.startswith('status ')), 0)
            yield Run(' '.join(words) or 'no words', words, EXAMPLES, text, status, given, has_messages=True)


def case_runs(folder):
    """The runs of a folder of cases."""
    for name in sorted(os.listdir(folder)):
        case = f'{folder}/{name}'
        if not os.path.exists(f'{case}/args'):
            continue
        words = read(f'{case}/args').decode('latin-1').split('\n')[:-1]
        yield Run(name, words, case, read(f'{case}/stdout'), int(read(f'{case}/status')),
                  is_prefix=os.path.exists(f'{case}/prefix'), stages=read(f'{case}/stages', b'final').decode().split())


def check_replay(programs, kind, one, words=()):
    """Compares what replay prints with what vt_replay printed."""
    program = programs.get(kind)
    how = {'input': one.given} if '-' in one.words else {}
    status, out, messages = run([program, *words, *one.words], one.folder, **how)
    expect(status == one.status, f'status {status}, wanted {one.status}: {messages[-200:]!r}')
    if one.is_refused_pool():
        expect(out == b'', f'printed {out[:90]!r}')
    elif one.has_messages:
        expect(one.stdout.startswith(out), difference(one.stdout, out))
        rest = one.stdout[len(out):].splitlines()
        expect(one.status == 2 or all(line.startswith(b'vt_replay: ') for line in rest), difference(one.stdout, out))
    elif one.is_prefix:
        expect(one.stdout.startswith(out), difference(one.stdout, out))
    else:
        expect(one.stdout == out, difference(one.stdout, out))


def check_report(programs, kind, one):
    """Compares what check prints with the report that vt_replay printed."""
    status, out, messages = run([programs.get(kind), one.reported()], one.folder)
    if one.status == 2 or b'vt_replay: ' in one.stdout or not os.path.exists(f'{one.folder}/{one.reported()}'):
        expect(status != 0, f'status {status}, wanted an error')
        return
    expect(status == one.status, f'status {status}, wanted {one.status}: {messages[-200:]!r}')
    expect(without_chain(one.stdout) == without_chain(out), difference(one.stdout, out))


def without_chain(report):
    """A report without the chain or the circle that a refusal names: any that the pool has may be named."""
    return re.sub(rb'^(refused (?:5 TooDeep|11 MacroCircle))[ \d]*', rb'\1', report)


def example_words():
    """The words of each stored run over an example log that ends well."""
    names = {os.path.basename(path) for path in glob.glob(f'{EXAMPLES}/*.log')}
    return [one for one in stored_runs() if one.has_messages and one.words[:1] and one.words[0] in names and one.status == 0]


def check_covered(log, covered):
    """Every example log is in a stored run."""
    if log not in covered:
        raise PassedOver('no run of it is stored')


def test_replays(tests, programs, folders):
    lists = [('stored', list(stored_runs()))] + [(os.path.basename(folder.rstrip('/')), list(case_runs(folder))) for folder in folders]
    for name, runs in lists:
        for one in runs:
            if one.reported():
                for kind in ['check', 'check-sanitized']:
                    tests.run(f'{kind} {name} {one.name}', check_report, programs, kind, one, quiet=True)
                continue
            if one.why_not():
                tests.run(f'replay {name} {one.name}', pass_over, one.why_not())
                continue
            for kind in ['replay', 'replay-arena', 'replay-sanitized']:
                tests.run(f'{kind} {name} {one.name}', check_replay, programs, kind, one, quiet=True)
    covered = {one.words[0] for one in example_words()}
    for path in sorted(glob.glob(f'{EXAMPLES}/*.log')):
        tests.run(f'log {os.path.basename(path)}', check_covered, os.path.basename(path), covered)
