"""Tests of calls that make no sense, by misuse.c, and of two terminals in two threads, by pair.c.

The sanitizers see the headers, the programs and the memory that is taken; what the library itself reads and writes is seen by valgrind.
"""
import os

from c.programs import EXAMPLES, VT_REPLAY, run
from c.results import PassedOver, difference, expect, need

SPRAYER = ['sprayer.iop', 'sprayer.log']

# At the first report a program ends.
FIRST_REPORT = {**os.environ, 'TSAN_OPTIONS': 'halt_on_error=1'}


def check_misuse(programs, kind, *before):
    """Each call has the result that its header names, before a pool is there, after the address was lost, and of random frames."""
    status, out, messages = run([*before, programs.get(kind), SPRAYER[0]], EXAMPLES)
    expect(status == 0 and not messages, f'status {status}: {out[:300]!r} {messages[:600]!r}')
    return out.decode().splitlines()[0]


def check_in_valgrind(programs):
    need('valgrind')
    return check_misuse(programs, 'misuse-short', 'valgrind', '-q', '--error-exitcode=9', '--leak-check=full')


def in_two_threads(programs, kind):
    status, out, messages = run([programs.get(kind), *SPRAYER], EXAMPLES, env=FIRST_REPORT)
    if b'unexpected memory mapping' in messages:
        raise PassedOver('ThreadSanitizer does not run on this machine')
    return status, out, messages


def check_threads(programs):
    """Two terminals in two threads print what one prints, and share nothing."""
    need(VT_REPLAY)
    status, out, messages = in_two_threads(programs, 'pair')
    expect(status == 0 and not messages, f'status {status}: {messages[:600]!r}')
    _, wanted, _ = run([VT_REPLAY, SPRAYER[1], '--pool', SPRAYER[0], '--owner', '80'], EXAMPLES)
    wanted = wanted[:wanted.rindex(b'lines ')]
    expect(out == wanted, difference(wanted, out))


def check_arena(programs):
    """Over arena.c, which is for one thread (docs/EMBEDDING.md, "Threads"), the same program is found to share memory."""
    _, _, messages = in_two_threads(programs, 'pair-arena')
    expect(b'data race' in messages, 'nothing is found')


def test_misuse(tests, programs):
    tests.run('calls that make no sense', check_misuse, programs, 'misuse')
    tests.run('calls that make no sense, in valgrind', check_in_valgrind, programs)
    tests.run('two terminals in two threads', check_threads, programs)
    tests.run('two threads over one arena are found', check_arena, programs)
