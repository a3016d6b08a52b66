"""Tests of scripts/c/words.c: vt_words says of a frame what `segyolant_log trace` prints for it."""
import re

from c.programs import EXAMPLES, ROOT, run
from c.results import difference, expect, need

SEGYOLANT_LOG = f'{ROOT}/crates/segyolant_log/out/segyolant_log'

# Logs, each with the pool that is there from the start, if there is one. Of the field log the frames of one interface are taken.
LOGS = [('hide.log', 'pool.iop'), ('seeder.log',), ('sprayer.log', 'sprayer.iop'), ('field.log',)]
FIELD = 'field.log'

# A line of a trace with what a frame of the log says, and one with what a frame of the terminal says.
HEARD = re.compile(r'(\d+) \d+\.\d{6} (.*)')
SENT = re.compile(r'    [0-9A-F]{8}#[0-9A-F]*  .*')
WHOLE = ', whole message: '


def printed(*words):
    """What segyolant_log prints."""
    status, out, messages = run([SEGYOLANT_LOG, *words], EXAMPLES)
    expect(status == 0, f'segyolant_log: status {status}: {messages[-300:]!r}')
    return out


def plain(folder, log):
    """The path of a log in the lines of `candump -L`, which the programs in C take."""
    if log != FIELD:
        return log
    path = f'{folder}/words.log'
    with open(path, 'wb') as file:
        file.write(printed('operator', log, '--interface', 'can0'))
    return path


def traced(log, *pool):
    """What a trace says of the frames, without their times, and without the messages that packets make whole."""
    start = ['--pool', *pool, '--owner', '80'] if pool else []
    out = printed('trace', log, '--own', '26', '--name', '20001D0000000001', *start)
    lines = []
    for line in out.decode().splitlines():
        heard = HEARD.fullmatch(line)
        if heard:
            lines.append(f'{heard[1]} {heard[2].partition(WHOLE)[0]}')
        elif SENT.fullmatch(line):
            lines.append(line)
    return lines


def check_options(programs, kind, log, *pool):
    need(SEGYOLANT_LOG)
    path = plain(programs.folder, log)
    status, out, messages = run([programs.get(kind), path, *pool], EXAMPLES)
    expect(status == 0, f'status {status}: {messages[-300:]!r}')
    wanted = traced(path, *pool)
    expect(out == '\n'.join([*wanted, '']).encode(), difference('\n'.join(wanted).encode(), out.rstrip(b'\n')))
    sent = sum(line.startswith(' ') for line in wanted)
    expect(0 < sent < len(wanted), f'{sent} of {len(wanted)} frames are sent')
    return f'{len(wanted) - sent} frames heard, {sent} sent'


def test_words(tests, programs):
    for kind in ['words', 'words-sanitized']:
        for words in LOGS:
            tests.run(f'{kind} of {words[0]}', check_options, programs, kind, *words)
