"""Tests of how examples/sdl looks, a display on SDL2: as the pictures that segyolant draws, in a window on a screen of Xvfb."""
import functools
import os
import re
import struct
import subprocess
import time

from c.display import MASK, OWNER, beginning_of, boxes_of, display, log_of_mask, masks_of, picture_of
from c.pixels import Pixels, differing, has_ink, read_bmp, read_png
from c.programs import EXAMPLES, VT_REPLAY, run
from c.readings import SEGYOLANT, boxes
from c.results import Failed, PassedOver, expect, need, read

# The colour beside the mask, as painter.c has it.
BESIDE = '#404040'

# The font of display.c.
FONT = '/usr/share/fonts/truetype/dejavu/DejaVuSansMono.ttf'

# The environment of a program that draws into no window. In it the sanitizers look for memory that was not given back; the libraries of
# X11 keep some to the end.
UNSEEN = {**os.environ, 'SDL_VIDEODRIVER': 'dummy'}

SPRAYER = ['--pool', 'sprayer.iop', '--owner', OWNER]

# The kinds with a text.
TEXT_KINDS = {8, 9, 11, 12}

# How far apart two colours may be that look the same, of 255, and which share of the pixels outside of texts may look otherwise. The most
# that was measured is 0.00028, on mask 1006 of kinds.iop: 64 pixels of a thick line without a length, of which rsvg-convert draws nothing.
# The dots and the corners of dashes on mask 1002 are 0.00016, and on all other masks it is 0. A needle that moves is 0.001.
TOLERANCE, MOST_DIFFERING = 48, 0.0003

# The pixels at the edge of a field that may be those of its border.
BORDER = 2


class Screen:
    """A screen without a monitor, whose pixels are in a file."""

    SIZE = (1280, 720)

    def __init__(self, folder):
        self.folder, self.child = folder, None

    def environment(self):
        """The environment for a program on it. The screen is made at first."""
        need('Xvfb')
        if self.child is None:
            receiver, sender = os.pipe()
            words = ['Xvfb', '-displayfd', str(sender), '-screen', '0', '%dx%dx24' % self.SIZE, '-fbdir', self.folder, '-nolisten', 'tcp']
            self.child = subprocess.Popen(words, pass_fds=[sender], stdin=subprocess.DEVNULL, stdout=subprocess.DEVNULL,
                                          stderr=subprocess.DEVNULL)
            os.close(sender)
            with os.fdopen(receiver) as file:
                self.number = file.readline().strip()
            expect(self.number, 'Xvfb does not begin')
        return {**os.environ, 'DISPLAY': f':{self.number}', 'SDL_VIDEODRIVER': 'x11', 'ASAN_OPTIONS': 'detect_leaks=0'}

    def end(self):
        if self.child is not None:
            self.child.terminate()
            self.child.wait()


def shot_of(programs, kind, words, environment):
    """What the window shows."""
    if not os.path.exists(FONT):
        raise PassedOver(f'{FONT} is not on this machine')
    path = f'{programs.folder}/shot.bmp'
    status, _, messages = run([display(programs, kind), *words, '--shot', path], EXAMPLES, env=environment)
    expect(status == 0, f'status {status}: {messages[-300:]!r}')
    return read_bmp(path)


@functools.cache
def rendered(picture):
    """A picture as rsvg-convert draws it."""
    ran = subprocess.run(['rsvg-convert', '--background-color', BESIDE], input=picture, capture_output=True, timeout=60)
    expect(ran.returncode == 0, f'rsvg-convert: {ran.stderr[-200:]!r}')
    return read_png(ran.stdout)


def texts_of(found, picture):
    """The elements of a picture that have a text."""
    return [element for element, one in zip(boxes(picture, MASK, MASK), found) if one[1] in TEXT_KINDS]


def share_differing(shot, wanted, texts):
    """The share of the pixels outside of texts that look otherwise."""
    areas = [element[7:] for element in texts]
    places = differing(shot, wanted, TOLERANCE, lambda x, y: any(a <= x < c and b <= y < d for a, b, c, d in areas))
    return len(places) / (shot.width * shot.height)


def compare_looks(programs, kind, words, environment, pool, log):
    """The share of the pixels outside of texts that look otherwise than on the picture. Where one has a text, the other has one."""
    picture = picture_of(pool, log)
    shot, wanted = shot_of(programs, kind, words, environment), rendered(picture)
    expect((shot.width, shot.height) == (wanted.width, wanted.height), f'{shot.width}x{shot.height}, wanted {wanted.width}x{wanted.height}')
    texts = texts_of(boxes_of(programs, kind, words), picture)
    for number, *_, left, top, right, bottom in texts:
        inside = (left + BORDER, top + BORDER, right - BORDER, bottom - BORDER)
        inks = [has_ink(pixels.box(*inside), TOLERANCE) for pixels in (shot, wanted)]
        expect(inks[0] == inks[1], f'the text of {number} is shown: {inks[0]}, and on the picture: {inks[1]}')
    share = share_differing(shot, wanted, texts)
    expect(share <= MOST_DIFFERING, f'{share:.3%} of the pixels look otherwise')
    return share


def check_looks(programs, kind, environment, pool):
    need(SEGYOLANT)
    need('rsvg-convert')
    shares = []
    for mask in masks_of(programs, pool):
        log = log_of_mask(programs, pool, mask)
        words = ['--pool', pool, '--owner', OWNER, '--log', log]
        shares.append(compare_looks(programs, kind, words, environment(), pool, log))
    return f'{len(shares)} masks, at most {max(shares):.3%} of the pixels look otherwise'


def check_looks_in_log(programs, kind, environment):
    """How it looks after each line of a log, as long as a set is shown."""
    need(SEGYOLANT)
    need('rsvg-convert')
    shares = []
    for number in range(len(read(f'{EXAMPLES}/sprayer.log').splitlines()) + 1):
        log = beginning_of(programs, 'sprayer.log', number)
        if picture_of('sprayer.iop', log):
            words = [*SPRAYER, '--log', 'sprayer.log', '--lines', str(number)]
            shares.append(compare_looks(programs, kind, words, environment(), 'sprayer.iop', log))
    return f'{len(shares)} times, at most {max(shares):.3%} of the pixels look otherwise'


def check_needle(programs, kind, environment):
    """A needle that moves looks otherwise: so the comparison would tell one at a wrong place."""
    need(SEGYOLANT)
    need('rsvg-convert')
    picture = picture_of('sprayer.iop', beginning_of(programs, 'sprayer.log', 8))
    before = shot_of(programs, kind, [*SPRAYER, '--log', 'sprayer.log', '--lines', '7'], environment())
    share = share_differing(before, rendered(picture), texts_of(boxes_of(programs, kind, SPRAYER), picture))
    expect(MOST_DIFFERING < share < 0.01, f'{share:.3%} of the pixels look otherwise')
    return f'{share:.3%} of the pixels look otherwise'


# ---- the window and the mouse

def seen_on(screen):
    """The pixels of the screen, which Xvfb keeps as an xwd file."""
    data = read(f'{screen.folder}/Xvfb_screen0')
    fields = struct.unpack_from('>25I', data)
    start, width, height, bits, stride, colours = fields[0] + 12 * fields[19], *fields[4:6], *fields[11:13], fields[19]
    expect(bits == 32, f'the screen has {bits} bits for a pixel, and {colours} colours')
    rows = []
    for y in range(height):
        row = data[start + y * stride:start + y * stride + 4 * width]
        pixels = bytearray(3 * width)
        pixels[0::3], pixels[1::3], pixels[2::3] = row[2::4], row[1::4], row[0::4]
        rows.append(bytes(pixels))
    return Pixels(width, height, rows)


def wait_for(holds, what):
    """Waits some seconds until something holds."""
    end = time.monotonic() + 10
    while not holds():
        expect(time.monotonic() < end, f'{what}, even after 10 seconds')
        time.sleep(0.1)


def shows(screen, shot, corner):
    """Whether the screen shows a shot with its upper left corner at a place."""
    rows = seen_on(screen).rows[corner[1]:corner[1] + shot.height]
    return [row[3 * corner[0]:3 * (corner[0] + shot.width)] for row in rows] == shot.rows


class Shown:
    """A window with a pool, in the middle of a screen. At its end a signal closes it, and the status is 0."""

    def __init__(self, programs, kind, screen, words=SPRAYER):
        self.programs, self.kind, self.screen, self.words, self.environment = programs, kind, screen, words, screen.environment()

    def __enter__(self):
        shot = shot_of(self.programs, self.kind, self.words, self.environment)
        self.corner = [(screen - size) // 2 for screen, size in zip(self.screen.SIZE, (shot.width, shot.height))]
        words = [display(self.programs, self.kind), *self.words]
        self.child = subprocess.Popen(words, cwd=EXAMPLES, env=self.environment, stdout=subprocess.PIPE, stderr=subprocess.PIPE)
        try:
            self.wait_for(shot)
        except Failed:
            self.end()
            raise
        return self

    def __exit__(self, *_):
        self.end()

    def wait_for(self, shot):
        wait_for(lambda: shows(self.screen, shot, self.corner), 'the window shows something else than the shot')

    def move(self, x, y, word):
        """Moves the mouse to a place of the window, and presses or releases its left button."""
        words = ['xdotool', 'mousemove', str(self.corner[0] + x), str(self.corner[1] + y), word, '1']
        subprocess.run(words, env=self.environment, check=True)
        time.sleep(0.3)

    def click(self, x, y):
        """Presses the left button of the mouse at a place, and releases it there."""
        self.move(x, y, 'mousedown')
        self.move(x, y, 'mouseup')

    def type(self, *words):
        """Types by the words of xdotool."""
        subprocess.run(['xdotool', *words], env=self.environment, check=True)
        time.sleep(0.3)

    def end(self):
        """Closes the window, and returns what it printed."""
        if self.child is not None:
            child, self.child = self.child, None
            child.terminate()
            self.out, messages = child.communicate(timeout=10)
            expect(child.returncode == 0, f'status {child.returncode}: {messages[-300:]!r}')
        return self.out


def check_window(programs, kind, screen):
    """The window shows what the shot has."""
    with Shown(programs, kind, screen):
        pass


def check_mouse(programs, kind, screen):
    """The mouse presses the button START, the soft key ON and the soft key FOLD, and releases them within the window and outside of it.
    The terminal sends what it sends for these actions in a log. FOLD shows a mask without keys, and the window becomes narrower."""
    need('xdotool')
    actions = [(360, None), (2001, (-20, 5)), (2002, (300, 600)), (None, None)]
    path = f'{programs.folder}/mouse.log'
    with open(path, 'w') as file:
        file.writelines(f'! press {number}\n! release {number}\n' for number, _ in actions if number)
    with Shown(programs, kind, screen) as window:
        middles = {one[0]: (one[2] + one[4] // 2, one[3] + one[5] // 2) for one in boxes_of(programs, kind, SPRAYER)}
        for number, end in actions:
            place = middles.get(number, (470, 240))
            window.move(*place, 'mousedown')
            window.move(*(end or place), 'mouseup')
        window.wait_for(shot_of(programs, kind, [*SPRAYER, '--log', path], window.environment))
        out = window.end()
    _, told, _ = run([VT_REPLAY, path, '--pool', 'sprayer.iop', '--owner', OWNER], EXAMPLES)
    frames = [line for line in told.splitlines() if re.match(rb'[0-9A-F]{8}#', line)]
    expect(len(frames) >= 6 and out.splitlines() == frames, f'the mouse sent {out!r}, wanted {frames}')
    return f'{len(frames)} frames'


# What is typed for inputs of the sprayer and of kinds.iop, and the actions that it comes to. Of the number the last digit is taken back.
SPRAYER_ENTRIES = [(351, '257', 1, 'number 351 25'), (352, '1', 0, 'number 352 1'), (354, '1', 0, 'number 354 1'), (351, '2x', 0, None)]
KINDS_ENTRIES = [(2131, 'Hi', 0, 'text 2131 Hi')]


def check_entries(programs, kind, screen, pool, entries):
    """What is typed for inputs is entered: the terminal sends what it sends for these actions in a log. What is no number is not entered."""
    need('xdotool')
    words = ['--pool', pool, '--owner', OWNER]
    path = f'{programs.folder}/entries.log'
    with open(path, 'w') as file:
        for number, _, _, action in entries:
            file.write(f'! select {number}\n' + (f'! {action}\n' if action else ''))
    with Shown(programs, kind, screen, words) as window:
        middles = {one[0]: (one[2] + one[4] // 2, one[3] + one[5] // 2) for one in boxes_of(programs, kind, words)}
        for number, typed, erased, _ in entries:
            window.click(*middles[number])
            window.type('type', typed)
            for _ in range(erased):
                window.type('key', 'BackSpace')
            window.type('key', 'Return')
        out = window.end()
    _, told, _ = run([VT_REPLAY, path, *words], EXAMPLES)
    frames = [line for line in told.splitlines() if re.match(rb'[0-9A-F]{8}#', line)]
    expect(frames and out.splitlines() == frames, f'what was typed sent {out!r}, wanted {frames}')
    return f'{len(frames)} frames'


def test_looks(tests, programs):
    screen = Screen(programs.folder)
    try:
        for kind, environment in [('display', screen.environment), ('display-sanitized', lambda: UNSEEN)]:
            for pool in ['kinds.iop', 'sprayer.iop']:
                tests.run(f'{kind} looks of {pool}', check_looks, programs, kind, environment, pool)
            tests.run(f'{kind} looks through sprayer.log', check_looks_in_log, programs, kind, environment)
            tests.run(f'{kind} looks of a needle', check_needle, programs, kind, environment)
            tests.run(f'{kind} window', check_window, programs, kind, screen)
            tests.run(f'{kind} mouse', check_mouse, programs, kind, screen)
            tests.run(f'{kind} keyboard', check_entries, programs, kind, screen, 'sprayer.iop', SPRAYER_ENTRIES)
            tests.run(f'{kind} keyboard for a text', check_entries, programs, kind, screen, 'kinds.iop', KINDS_ENTRIES)
    finally:
        screen.end()
