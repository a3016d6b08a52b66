"""Tests of vt_look by looks.c: while its number stays, the picture and the elements stay, and frames of other nodes leave it."""
import re

from c.generated import COUNT, generated, side_by_side
from c.programs import EXAMPLES, run
from c.readings import LOGS
from c.results import Failed, expect

# A log that changes a colour of the shown mask of pool.iop and nothing else.
COLOUR = '(1.000000) can0 14E72680#A7E80305FFFFFFFF\n'

TOLD = re.compile(rb'lines (\d+) pictures (\d+) alone (\d+) others (\d+)\n')


def looked(programs, kind, pool, log):
    """What looks prints on a log: the lines, the pictures, and how often the number alone changed, of that by others. Then its messages."""
    status, out, messages = run([programs.get(kind), pool, log], EXAMPLES)
    told = TOLD.fullmatch(out)
    if status not in (0, 1) or told is None:
        raise Failed(f'{log}: status {status}: {messages[-300:]!r}')
    return [int(number) for number in told.groups()], messages.decode()


def counts_of(programs, kind, pool, log):
    """The numbers of a log in which vt_look tells each change, and other nodes leave it."""
    counts, messages = looked(programs, kind, pool, log)
    expect(not messages, messages)
    expect(counts[3] == 0, f'{log}: {counts[3]} frames of others change the number and nothing else')
    return counts


def check_log(programs, kind, pool, log):
    lines, pictures, alone, _ = counts_of(programs, kind, pool, log)
    return f'{lines} lines, {pictures} pictures, {alone} times only another number'


def check_generated(programs, kind, numbers):
    programs.get(kind)
    found = side_by_side(lambda number: counts_of(programs, kind, *reversed(generated(programs, number))), numbers)
    lines, pictures, alone, _ = map(sum, zip(*found))
    stayed = lines - pictures - alone
    expect(pictures > 5 * len(numbers) and stayed > 5 * len(numbers), f'{pictures} pictures, and {stayed} times the same number')
    return f'{len(numbers)} logs, {lines} lines, {pictures} pictures, {alone} times only another number, {stayed} times the same'


def check_redraws(programs, numbers):
    """looks finds the changes of which vt_redraws does not tell."""
    path = f'{programs.folder}/colour.log'
    with open(path, 'w') as file:
        file.write(COLOUR)
    expect(counts_of(programs, 'looks', 'pool.iop', path) == [1, 3, 0, 0], 'vt_look does not tell of a colour, of the silence and of another pool')
    _, messages = looked(programs, 'looks-by-redraws', 'pool.iop', path)
    expect('the picture is another one' in messages, 'vt_redraws tells of a colour')
    results = side_by_side(lambda number: looked(programs, 'looks-by-redraws', *reversed(generated(programs, number))), numbers)
    found = sum('the picture is another one' in messages for _, messages in results)
    expect(2 * found > len(numbers), f'found in {found} logs alone')
    return f'found in {found} logs of {len(numbers)}'


def test_repaints(tests, programs):
    for kind in ['looks', 'looks-sanitized']:
        for pool, log in LOGS:
            tests.run(f'vt_look by {kind} on {log}', check_log, programs, kind, pool, log)
    tests.run('vt_look on generated logs', check_generated, programs, 'looks', range(COUNT))
    tests.run('vt_look on generated logs, sanitized', check_generated, programs, 'looks-sanitized', range(0, COUNT, 3))
    tests.run('vt_redraws is not enough', check_redraws, programs, range(0, COUNT, 3))
