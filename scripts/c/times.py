"""Tests of examples/c/bench.c, which tells the time of a frame."""
import re

from c.programs import EXAMPLES, ROOT, run
from c.results import expect


def check_bench(programs, kind):
    """The time of a frame is told three times. It is not compared with anything."""
    status, out, messages = run([programs.get(kind), f'{EXAMPLES}/sprayer.log', f'{EXAMPLES}/sprayer.iop', '80'], ROOT)
    expect(status == 0, f'status {status}: {messages[-300:]!r}')
    expect(len(re.findall(rb'^\d+ ns a frame: 6 frames, \d+ outputs', out, re.M)) == 3, f'it prints {out[:200]!r}')


def test_times(tests, programs):
    for kind in ['bench', 'bench-sanitized']:
        tests.run(kind, check_bench, programs, kind)
