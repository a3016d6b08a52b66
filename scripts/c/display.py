"""Tests of examples/sdl, a display on SDL2: its elements are those of the pictures and of the screens."""
import re
import subprocess

from c.programs import EXAMPLES, SANITIZERS, VT_REPLAY, compiled, run
from c.readings import SEGYOLANT, boxes
from c.results import PassedOver, expect, need, read

SOURCES = ['display.c', 'window.c', 'entry.c', 'painter.c', 'objects.c', 'canvas.c', 'pens.c', 'shapes.c', 'gauges.c', 'fields.c', 'texts.c',
           'images.c']
SHARED = ['files.c', 'host.c', 'lines.c', 'heap.c']
OWNER = '80'
MASK, KEY, GAP = 480, 64, 8

# The kinds of element lines, by the first word (docs/PROFILE.md, "Element lines").
KINDS = {'workset': 0, 'container': 3, 'key': 5, 'button': 6, 'boolean': 7, 'input': 8, 'number': 9, 'list': 10, 'text': 11, 'value': 12,
         'line': 13, 'rectangle': 14, 'ellipse': 15, 'polygon': 16, 'meter': 17, 'bar': 18, 'arch': 19, 'picture': 20}


def display(programs, kind):
    """The program, compiled when it is first asked for."""
    need('pkg-config')
    found = subprocess.run(['pkg-config', '--cflags', '--libs', 'sdl2', 'SDL2_ttf >= 2.0.18'], capture_output=True, text=True)
    if found.returncode != 0:
        raise PassedOver('sdl2 or SDL2_ttf is not on this machine')
    if kind not in programs.made:
        flags = ['-O1', *SANITIZERS] if kind.endswith('-sanitized') else ['-O2']
        sources = [f'{EXAMPLES}/sdl/{source}' for source in SOURCES]
        programs.made[kind] = compiled(programs.folder, kind, [*sources, *SHARED], *flags, '-pedantic', '-Wshadow',
                                       libraries=[*found.stdout.split(), '-lm'])
    return programs.made[kind]


# ---- what is shown

def objects_of(programs, pool, kinds):
    """The IDs of the objects of some kinds in a pool."""
    status, out, messages = run([programs.get('records'), pool], EXAMPLES)
    expect(status == 0, f'records: status {status}: {messages[-200:]!r}')
    return [int(line.split()[0]) for line in out.decode().splitlines() if int(line.split()[1]) in kinds]


def masks_of(programs, pool):
    """The data masks and alarm masks of a pool."""
    return objects_of(programs, pool, {1, 2})


def log_of_mask(programs, pool, mask):
    """A log in which the working set makes a mask active."""
    ids = objects_of(programs, pool, {0})[0].to_bytes(2, 'little') + mask.to_bytes(2, 'little')
    path = f'{programs.folder}/mask.log'
    with open(path, 'w') as file:
        file.write(f'(1.000000) can0 14E726{OWNER}#AD{ids.hex()}FFFFFF\n')
    return path


def beginning_of(programs, log, count):
    """The first lines of a log."""
    path = f'{programs.folder}/beginning.log'
    with open(path, 'wb') as file:
        file.writelines(read(f'{EXAMPLES}/{log}').splitlines(keepends=True)[:count])
    return path


def picture_of(pool, log):
    """The picture that segyolant draws after a log, or nothing if there is none."""
    status, out, messages = run([SEGYOLANT, 'draw', pool, '--state', log, '--owner', OWNER], EXAMPLES)
    expect(status == 0 or not out, f'segyolant: status {status}: {messages[-200:]!r}')
    return out


def screen_of(pool, log):
    """The lines of the screen that vt_replay prints last."""
    status, out, messages = run([VT_REPLAY, log, '--pool', pool, '--owner', OWNER], EXAMPLES)
    expect(status == 0, f'vt_replay: status {status}: {messages[-200:]!r}')
    lines = out.decode().splitlines()
    last = max(k for k, line in enumerate(lines) if line.startswith('screen '))
    ends = [k for k in range(last + 1, len(lines)) if lines[k].split()[0] not in KINDS]
    return lines[last], lines[last + 1:ends[0]]


def boxes_of(programs, kind, words):
    """The elements that display prints: ID, kind, x, y, width and height."""
    status, out, messages = run([display(programs, kind), *words, '--boxes'], EXAMPLES)
    expect(status == 0, f'status {status}: {messages[-300:]!r}')
    return [tuple(map(int, line.split())) for line in out.decode().splitlines()]


def key_place(index):
    """The upper left corner of a soft key: in columns to the right of the mask."""
    in_column = (MASK + GAP) // (KEY + GAP)
    return MASK + GAP + index // in_column * (KEY + GAP), index % in_column * (KEY + GAP)


def placed(lines):
    """What the lines of a screen say of each element: ID, kind, x, y, and the width and the height or None."""
    corner = (0, 0)
    for line in lines:
        words = line.split()
        if words[0] == 'key':
            corner = key_place(int(words[2]))
            yield int(words[1]), KINDS['key'], *corner, KEY, KEY
            continue
        size = re.fullmatch(r'(\d+)x(\d+)', words[4]) if len(words) > 4 else None
        width, height = map(int, size.groups()) if size else (None, None)
        if words[0] == 'picture':
            width = int(words[4])
        kind = KINDS[words[0]]
        if 13 <= kind <= 19 and size:
            width, height = max(width, 1), max(height, 1)
        yield int(words[1]), kind, corner[0] + int(words[2]), corner[1] + int(words[3]), width, height


def compare_boxes(found, pool, log):
    """The elements are those of the picture and those of the screen. Returns their number."""
    head, lines = screen_of(pool, log)
    picture = picture_of(pool, log)
    drawn = boxes(picture, MASK, MASK) if picture else []
    expect([(one[0], *one[2:]) for one in found] == [(one[0], *one[3:7]) for one in drawn], f'{found} are not those of the picture')
    said = list(placed(lines))
    expect(len(found) == len(said), f'{len(found)} elements, and {len(said)} on the screen {head!r}')
    for one, other in zip(found, said):
        expect(all(b is None or a == b for a, b in zip(one, other)), f'element {one}, and on the screen {other}')
    return len(found)


def check_masks(programs, kind, pool):
    need(SEGYOLANT)
    need(VT_REPLAY)
    masks, count = masks_of(programs, pool), 0
    for mask in masks:
        log = log_of_mask(programs, pool, mask)
        count += compare_boxes(boxes_of(programs, kind, ['--pool', pool, '--owner', OWNER, '--log', log]), pool, log)
    return f'{len(masks)} masks, {count} elements'


def check_lines(programs, kind, pool, log):
    need(SEGYOLANT)
    need(VT_REPLAY)
    lines, count = len(read(f'{EXAMPLES}/{log}').splitlines()), 0
    for number in range(lines + 1):
        found = boxes_of(programs, kind, ['--pool', pool, '--owner', OWNER, '--log', log, '--lines', str(number)])
        count += compare_boxes(found, pool, beginning_of(programs, log, number))
    return f'{lines + 1} times, {count} elements'


def check_options(programs, kind):
    """Wrong words and files that cannot be read are told, with the status."""
    for words, wanted in [(['--pool', 'pool.iop'], 2), (['--lines', '3'], 2), (['--log', 'hide.log', '--lines', '-1'], 2), (['--boxes', '--shot', 'none.bmp'], 2), (['--none'], 2), (['--pool', 'none.iop', '--owner', '80'], 1),
                          (['--pool', 'fault-1-truncated.iop', '--owner', '80'], 1), (['--pool', 'pool.iop', '--owner', '26'], 1),
                          (['--boxes'], 0)]:
        status, out, messages = run([display(programs, kind), *words], EXAMPLES)
        expect(status == wanted and out == b'' and (messages == b'') == (wanted == 0), f'{words}: status {status}, {out!r}, {messages!r}')


def test_display(tests, programs):
    for kind in ['display', 'display-sanitized']:
        tests.run(f'{kind} words', check_options, programs, kind)
        for pool in ['kinds.iop', 'sprayer.iop']:
            tests.run(f'{kind} elements of {pool}', check_masks, programs, kind, pool)
        tests.run(f'{kind} elements through sprayer.log', check_lines, programs, kind, 'sprayer.iop', 'sprayer.log')
