"""Tests of refused memory: a request refused in each run, and heaps that are too small."""
import re

from c.programs import EXAMPLES, REPLAY, ROOT, compiled, run
from c.replays import check_replay, example_words
from c.results import difference, expect

# The most runs with a refused request, for each log.
REFUSALS = 250

# What a terminal with a heap of 64 KB does when its ECU sends more than fits.
ARENA_TEXT = '''\
in use at the start: 0
claim: 0
working set: 0
end of the small pool: 0
  14E68026#1200FFFFFFFF00FF
  14E6FF26#FE80E803FFFF00FF
screen 80 mask 1000
container 100 10 5 50x20
pieces taken before the first refusal: 1170
refused again: 1000 of 1000, no byte more in use
get memory: 0
  14E68026#C00301FFFFFFFFFF
hide the container: 0
  14E68026#A064000000FFFFFF
screen 80 mask 1000
end of the large pool: 0
  14E68026#1201FFFFFFFF04FF
show the container: 0
  14E68026#A064000100FFFFFF
screen 80 mask 1000
container 100 10 5 50x20
in use at the end: 0
'''


def check_refusals(programs, kind, one, most):
    """Refuses each request in turn, or each Nth. The call is repeated, and the output must be the same."""
    program = programs.get(kind)
    wanted, status, requests = None, 0, 0
    number, step, runs = 0, 1, 0
    while number <= requests:
        status, out, messages = run([program, str(number), *one.words], one.folder)
        match = re.search(rb'requests (\d+)\n$', messages)
        expect(status == 0 and match, f'request {number} refused: status {status}, {messages[-300:]!r}')
        if number == 0:
            wanted, requests = out, int(match[1])
            step = max(1, -(-requests // most))
            check_replay(programs, kind, one, ['0'])
        expect(out == wanted, f'request {number} refused: {difference(wanted, out)}')
        expect(number == 0 or int(match[1]) > requests - 1, f'request {number}: only {int(match[1])} requests')
        number += step
        runs += 1
    return f'{runs - 1} of {requests} requests refused, one in each run'


def check_lasting_refusals(program, one):
    """In a heap too small for an input the replay ends with a fault, and its output is the front of the whole."""
    status, out, messages = run([program, *one.words], one.folder)
    expect(status == 1, f'status {status}: {messages[-200:]!r}')
    expect(one.stdout.startswith(out), difference(one.stdout, out))
    return f'{len(out)} bytes printed, then: {messages.decode().strip()}'


def check_arena(program):
    status, out, messages = run([program, f'{EXAMPLES}/pool.iop'], ROOT)
    expect(status == 0, f'status {status}: {messages[-300:]!r}')
    expect(out == ARENA_TEXT.encode(), difference(ARENA_TEXT.encode(), out))
    return messages.decode().strip()


def test_memory(tests, programs):
    for one in example_words():
        tests.run(f'refusals {one.name}', check_refusals, programs, 'refuse', one, REFUSALS)
        tests.run(f'refusals-sanitized {one.name}', check_refusals, programs, 'refuse-sanitized', one, REFUSALS // 4)
    small = compiled(programs.folder, 'replay-small', [*REPLAY, 'arena.c'], '-O2', '-DARENA_BYTES=32768')
    tests.run('replay in 32 KB', check_lasting_refusals, small, example_words()[0])
    tests.run('heap of 64 KB', check_arena, programs.get('arena_64k'))
    tests.run('heap of 64 KB sanitized', check_arena, programs.get('arena_64k-sanitized'))
