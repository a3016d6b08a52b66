"""Tests of examples/c/state.c: what a display reads is what the pool has, and what segyolant draws."""
import subprocess
import xml.etree.ElementTree as xml

from c.programs import EXAMPLES, ROOT, run
from c.results import difference, expect, need, read

SEGYOLANT = f'{ROOT}/crates/segyolant/out/segyolant'

# Pools that a terminal accepts, and logs over them.
POOLS = ['pool.iop', 'sprayer.iop', 'kinds.iop']
LOGS = [('pool.iop', 'hide.log'), ('sprayer.iop', 'sprayer.log'), ('sprayer.iop', 'seeder.log')]


def all_told(programs, kind, *words):
    """What state prints: its lines before the picture, and the picture."""
    status, out, messages = run([programs.get(kind), *words], EXAMPLES)
    expect(status == 0, f'status {status}: {messages[-200:]!r}')
    head, _, picture = out.partition(b'\npicture\n')
    return head.decode().splitlines(), picture


def told(programs, kind, *words):
    """The lines of state that are not of single objects, the record of each object, and the picture."""
    lines, picture = all_told(programs, kind, *words)
    records = {int(line.split()[1]): bytes.fromhex(line.split()[2]) for line in lines if line.startswith('object ')}
    return [line for line in lines if not line.startswith(('object ', 'part '))], records, picture


def check_records(programs, kind, pool):
    """Before the first input the records of the objects are those of the pool."""
    lines, records, _ = told(programs, kind, pool)
    expect(lines[0] == 'set 80 pool 1 shown 1' and lines[1].startswith('active '), f'told {lines}')
    bytes_of_pool, at, count = read(f'{EXAMPLES}/{pool}'), 0, 0
    while at < len(bytes_of_pool):
        number = int.from_bytes(bytes_of_pool[at:at + 2], 'little')
        expect(number in records, f'object {number} is not told')
        record = records[number]
        expect(bytes_of_pool[at:at + len(record)] == record, f'object {number} is told as {record.hex()}')
        at, count = at + len(record), count + 1
    expect(count == len(records), f'{len(records)} objects are told, and the pool has {count}')
    return f'{count} objects'


def check_no_mask(programs, kind):
    """Of a set without an active mask it is told that nothing is active, and not that there is no set."""
    pool = bytearray(read(f'{EXAMPLES}/pool.iop'))
    expect(pool[2] == 0, 'the working set is not the first object')
    pool[5:7] = b'\xFF\xFF'
    path = f'{programs.folder}/no-mask.iop'
    with open(path, 'wb') as file:
        file.write(pool)
    lines, _, _ = told(programs, kind, path)
    expect(lines == ['set 80 pool 1 shown 1', 'active 65535 65535 65535 65535'], f'told {lines}')


def check_full(programs, kind):
    """A full output is a failure."""
    with open('/dev/full', 'w') as full:
        ran = subprocess.run([programs.get(kind), 'pool.iop'], cwd=EXAMPLES, stdout=full, stderr=subprocess.PIPE)
    expect(ran.returncode == 1, f'status {ran.returncode}')


def check_picture(programs, kind, pool, *log):
    """The picture is the line that segyolant draws, and the elements are those of the picture, at their places."""
    lines, _, picture = told(programs, kind, pool, *log)
    elements = [box_of(line) for line in lines if line.startswith('element ')]
    wanted = boxes(picture, 480, 480)
    for one, other in zip(elements, wanted):
        expect(one == other, f'element {one}, and on the picture {other}')
    expect(len(elements) == len(wanted), f'{len(elements)} elements, and {len(wanted)} on the picture')
    if picture:
        words = [SEGYOLANT, 'draw', pool, *(['--state', *log, '--owner', '80'] if log else [])]
        status, drawn, messages = run(words, EXAMPLES)
        expect(status == 0, f'segyolant: status {status}: {messages[-200:]!r}')
        expect(drawn == picture + b'\n', difference(drawn, picture + b'\n'))
    return len(elements)


def check_first_picture(programs, kind, pool):
    need(SEGYOLANT)
    return f'{check_picture(programs, kind, pool)} elements'


def check_pictures(programs, kind, pool, log):
    """The picture and the elements after each line of a log."""
    need(SEGYOLANT)
    counts, beginning = set(), f'{programs.folder}/beginning.log'
    lines = read(f'{EXAMPLES}/{log}').splitlines(keepends=True)
    for count in range(len(lines)):
        with open(beginning, 'wb') as file:
            file.writelines(lines[:count + 1])
        counts.add(check_picture(programs, kind, pool, beginning))
    return f'{len(lines)} times, {" or ".join(map(str, sorted(counts)))} elements'


def check_layout(programs, pool):
    """The layout of vt_records.h finds the objects of a pool."""
    status, out, messages = run([programs.get('records'), pool], EXAMPLES)
    expect(status == 0, f'status {status}: {messages[-200:]!r}')
    _, records, _ = told(programs, 'state', pool)
    wanted = sorted((number, record[2], len(record)) for number, record in records.items())
    expect(sorted(tuple(map(int, line.split())) for line in out.decode().splitlines()) == wanted, 'other objects are told')
    return f'{len({kind for _, kind, _ in wanted})} kinds'


def boxes(picture, width, height):
    """The elements of a picture as state prints them, but for their kinds: from its nested areas, their places and sizes added up."""
    found = []
    if not picture:
        return found
    root = xml.fromstring(picture)
    areas = [node for node in root if node.tag.endswith('}svg')]
    right = int(root.get('width'))
    for area, bounds in zip(areas, [(0, 0, width, height), (width + 8, 0, right, height)]):
        add_boxes(found, area, None, 0, int(area.get('x', 0)), 0, bounds)
    return found


def add_boxes(found, node, around, depth, left, top, bounds):
    for child in node:
        if not child.tag.endswith('}svg') or child.get('data-id') is None:
            continue
        x, y = left + int(child.get('x')), top + int(child.get('y'))
        size = (int(child.get('width', 0)), int(child.get('height', 0)))
        is_clipped = child.get('width') is not None and child.get('viewBox') is None
        inner = (max(x, bounds[0]), max(y, bounds[1]), min(x + size[0], bounds[2]), min(y + size[1], bounds[3])) if is_clipped else bounds
        index = len(found)
        found.append((int(child.get('data-id')), depth, around, x, y, *size, *inner))
        add_boxes(found, child, index, depth + 1, x, y, inner)


def box_of(line):
    """What a line of state says of an element, but for its kind."""
    words = line.split()
    number, _, depth = (int(word) for word in words[1:4])
    size = [int(word) for word in words[7].split('x')]
    return (number, depth, None if words[4] == '-' else int(words[4]), int(words[5]), int(words[6]), *size, *(int(word) for word in words[8:]))


def test_readings(tests, programs):
    for pool in POOLS:
        tests.run(f'records.h on {pool}', check_layout, programs, pool)
    for kind in ['state', 'state-sanitized']:
        tests.run(f'{kind} without an active mask', check_no_mask, programs, kind)
        tests.run(f'{kind} into a full file', check_full, programs, kind)
        for pool in POOLS:
            tests.run(f'{kind} records of {pool}', check_records, programs, kind, pool)
            tests.run(f'{kind} picture of {pool}', check_first_picture, programs, kind, pool)
        for pool, log in LOGS:
            tests.run(f'{kind} pictures of {pool} through {log}', check_pictures, programs, kind, pool, log)
