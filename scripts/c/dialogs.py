"""Tests of what a dialog reads and of vt_look, over the shared library: compared with a plain reading of the records."""
import ctypes
import re
import struct
from fractions import Fraction

from c.programs import EXAMPLES, ROOT
from c.results import expect, read
from c.shared import SHARED, Profile
from testing.pools import pool_of

OWNER = 0x80
NONE = 0xFFFF
SCALES = {0x3F800000: 0, 0x3DCCCCCD: 1, 0x3C23D70A: 2, 0x3A83126F: 3}

# Numbers, a list and a text, some with variables and one disabled; the first has the offset -100 and the scale 0.1.
POOL = '''
@0 00 00 01 @1000 00 00 00
@1000 01 00 @65535 07 00 @200 00 00 00 00 @201 00 00 00 00 @202 00 00 00 00 @203 00 00 00 00 @204 00 00 00 00 @205 00 00 00 00 @206 00 00 00 00
@200 09 @60 @20 00 @65535 00 @65535 6F 04 00 00 0A 00 00 00 D0 07 00 00 9C FF FF FF CD CC CC 3D 01 00 00 01 00
@201 09 @60 @20 00 @65535 00 @300 00 00 00 00 00 00 00 00 FF FF FF FF 00 00 00 80 6F 12 83 3A 02 00 00 00 00
@202 0A @60 @20 @65535 01 03 01 00 @65535 @205 @65535
@203 08 @60 @20 00 @65535 @65535 00 @301 00 05 "abcde" 01 00
@204 07 00 @20 @65535 @300 00 01 00
@205 0B @60 @20 00 @65535 00 @65535 00 @3 "xyz" 00
@206 0C @60 @20 00 @65535 00 @65535 E8 03 00 00 00 00 00 00 00 00 80 3F 03 00 00 00
@300 15 07 00 00 00
@301 16 @3 "pqr"
'''


class Limits(ctypes.Structure):
    _fields_ = [(name, ctypes.c_uint8) for name in ('kind', 'enabled', 'places', 'decimals', 'items', 'length')] + [
        ('value', ctypes.c_uint32), ('minimum', ctypes.c_uint32), ('maximum', ctypes.c_uint32), ('offset', ctypes.c_int32)]


class Terminal:
    """A terminal of the shared library with a pool at 80."""

    def __init__(self, pool):
        self.library = ctypes.CDLL(SHARED)
        self.library.vt_size.restype = ctypes.c_size_t
        for name in ('vt_screen', 'vt_picture', 'vt_elements', 'vt_value_text', 'vt_look'):
            getattr(self.library, name).restype = ctypes.c_uint64
        self.memory = ctypes.create_string_buffer(self.library.vt_size() + 16)
        self.at = ctypes.c_void_p((ctypes.addressof(self.memory) + 15) // 16 * 16)
        profile = Profile(ctypes.sizeof(Profile), 1048576, 64, 64, 64, 6, 0x7F, 0x7F, 0, 0, 2, 0, 480, 480)
        expect(self.library.vt_begin(self.at, 0x26, ctypes.c_uint64(0x20001D0000000001), ctypes.byref(profile)) == 0, 'vt_begin fails')
        expect(self.library.vt_preload(self.at, OWNER, pool, ctypes.c_size_t(len(pool))) == 0, 'vt_preload fails')
        self.room = ctypes.create_string_buffer(1 << 20)

    def limits(self, number):
        found = Limits()
        return found if self.library.vt_limits_of(self.at, OWNER, number, ctypes.byref(found)) == 0 else None

    def text(self, number):
        count = self.library.vt_value_text(self.at, OWNER, number, self.room, ctypes.c_size_t(len(self.room)))
        return self.room.raw[:count]

    def raw(self, number, typed):
        found = ctypes.c_uint32()
        status = self.library.vt_raw(self.at, OWNER, number, typed.encode(), ctypes.c_size_t(len(typed)), ctypes.byref(found))
        return found.value if status == 0 else None

    def picture(self):
        shown = self.library.vt_shown(self.at)
        count = self.library.vt_picture(self.at, shown, NONE, self.room, ctypes.c_size_t(len(self.room)))
        return shown, self.room.raw[:count]

    def size(self):
        found = (ctypes.c_uint32 * 2)()
        status = self.library.vt_picture_size(self.at, self.library.vt_shown(self.at), NONE, ctypes.byref(found))
        return status, found[0], found[1]

    def take(self):
        taken = ctypes.create_string_buffer(64)
        outputs = 0
        while self.library.vt_take(self.at, taken) != 0:
            outputs += 1
        return outputs

    def hear(self, time, number, data):
        self.library.vt_hear(self.at, ctypes.c_uint64(time), number, data, ctypes.c_size_t(len(data)))
        return self.take()

    def act(self, time, kind, number, value):
        self.library.vt_act(self.at, ctypes.c_uint64(time), kind, number, ctypes.c_uint32(value))
        return self.take()

    def end(self):
        self.library.vt_done(self.at)


# ---- a plain reading

def shown_number(value, offset, places, decimals):
    """The number as it is shown: rounded half away from zero."""
    exact = Fraction(value + offset, 10 ** places) * 10 ** decimals
    whole = int(abs(exact) + Fraction(1, 2))
    sign = '-' if exact < 0 and whole > 0 else ''
    digits = str(whole).rjust(decimals + 1, '0')
    return sign + digits[:len(digits) - decimals] + ('.' + digits[len(digits) - decimals:] if decimals else '')


def raw_of(typed, offset, places):
    """The raw value that is the typed number exactly, or None."""
    raw = Fraction(typed) * 10 ** places - offset
    return int(raw) if raw.denominator == 1 and 0 <= raw < 2 ** 32 else None


def check_dialogs():
    terminal = Terminal(pool_of(POOL))
    wanted = {
        200: (9, 1, 1, 1, 0, 0, 1135, 10, 2000, -100),
        201: (9, 0, 3, 2, 0, 0, 7, 0, 4294967295, -2147483648),
        202: (10, 1, 0, 0, 3, 0, 1, 0, 2, 0),
        203: (8, 1, 0, 0, 0, 3, 0, 1, 0, 0),
        204: (7, 1, 0, 0, 0, 0, 7, 0, 1, 0),
    }
    for number in (0, 200, 201, 202, 203, 204, 205, 206, 300, 301, 999, 65535, 70000):
        found = terminal.limits(number)
        told = None if found is None else tuple(getattr(found, name) for name, _ in Limits._fields_)
        expect(told == wanted.get(number), f'the limits of {number} are {told}')
    texts = {200: shown_number(1135, -100, 1, 1), 201: shown_number(7, -2147483648, 3, 2), 203: 'pqr', 205: 'xyz', 206: shown_number(1000, 0, 0, 3)}
    for number in (0, 200, 201, 202, 203, 204, 205, 206, 300, 999):
        expect(terminal.text(number) == texts.get(number, '').encode(), f'the text of {number} is {terminal.text(number)!r}')
    terminal.end()
    return f'{len(wanted)} inputs'


def check_raw():
    """Typed numbers, and the value that is entered is then shown as it was typed."""
    terminal = Terminal(pool_of(POOL))
    inputs = {200: (-100, 1), 201: (-2147483648, 3)}
    numbers = ['0', '20', '20.0', '20.00', '20.5', '20.05', '-9.9', '-10', '-10.0', '-10.1', '-0', '-0.0', '0.1', '4294967195', '429496719.5',
               '429496719.6', '2147483.647', '2147483.648', '-2147483.648', '-2147483.649', '2147483.6470000', '999999999999999', '1.00000000000000',
               '100000000000000', '0.00000000000001', '00000000000020.5']
    none = ['', '-', '.', '.5', '5.', '-5.', '5..', '5.5.5', '+5', ' 5', '5 ', '1e3', '--5', '5-', '1' * 16, 'x', '0x10', '1,5', '-.5']
    for number, (offset, places) in inputs.items():
        for typed in numbers:
            expect(terminal.raw(number, typed) == raw_of(typed, offset, places), f'{typed!r} is {terminal.raw(number, typed)} for {number}')
        for typed in none:
            expect(terminal.raw(number, typed) is None, f'{typed!r} is {terminal.raw(number, typed)}')
    for number in (0, 202, 203, 204, 205, 206, 300, 999, 65535, 70000):
        expect(terminal.raw(number, '1') is None, f'{number} has a raw value')
    for value in range(10, 2001, 7):
        typed = shown_number(value, -100, 1, 1)
        expect(terminal.raw(200, typed) == value, f'{typed} is {terminal.raw(200, typed)} and not {value}')
    terminal.act(1000000, 3, 200, terminal.raw(200, '20.5'))
    expect(terminal.text(200) == b'20.5', f'{terminal.text(200)} is shown')
    terminal.end()
    return f'{len(numbers) + len(none)} texts'


def check_look():
    """The number of vt_look is another one wherever the picture is, and stays at frames of others."""
    terminal = Terminal(read(f'{EXAMPLES}/sprayer.iop'))
    look, picture, stayed, changed = terminal.library.vt_look(terminal.at), terminal.picture(), 0, 0
    time = 1000000
    for line in read(f'{EXAMPLES}/sprayer.log').decode().splitlines() * 2:
        for frame in (line.split(' ')[-1], '18FEF155#0102030405060708'):
            if '#' not in frame or line.startswith(('#', '!')):
                continue
            number, data = frame.split('#')
            time += 1000
            terminal.hear(time, int(number, 16), bytes.fromhex(data))
            new = terminal.library.vt_look(terminal.at), terminal.picture()
            expect(new[0] != look or new[1] == picture, f'{frame}: the picture changed, and vt_look did not')
            stayed, changed = stayed + (new[0] == look), changed + (new[1] != picture)
            look, picture = new
    # A colour, of which vt_redraws tells nothing.
    terminal.hear(time, 0x14E72680, bytes.fromhex('A7E80305FFFFFFFF'))
    expect(terminal.library.vt_look(terminal.at) != look and terminal.library.vt_redraws(terminal.at) == 0, 'a colour is not noted')
    look = terminal.library.vt_look(terminal.at)
    terminal.act(time, 0, 2001, 0)
    expect(terminal.library.vt_look(terminal.at) != look, 'an action is not noted')
    terminal.end()
    expect(stayed > 0 and changed > 0, f'{stayed} times the same, {changed} times another picture')
    return f'{changed} pictures, {stayed} frames after which nothing is painted'


def check_sizes():
    """The size of a picture is that in its first tag: of each mask of a pool, and of none once the set is closed."""
    terminal = Terminal(read(f'{EXAMPLES}/sprayer.iop'))
    sizes = set()
    for mask in ('E803', 'DC05'):
        terminal.hear(1000000, 0x14E72680, bytes.fromhex('AD0100' + mask + 'FFFFFF'))
        first = re.match(rb'<svg [^>]*?width="(\d+)" height="(\d+)"', terminal.picture()[1])
        wanted = (0, int(first[1]), int(first[2]))
        expect(terminal.size() == wanted, f'{terminal.size()} in place of {wanted}')
        sizes.add(wanted)
    terminal.act(9000000, 0, 200, 0)
    expect(terminal.size() == (2, 0, 0), f'{terminal.size()} of no set')
    terminal.end()
    expect(len(sizes) == 2, f'{sizes}')


def check_act_at_its_time():
    """A text of an operator after two seconds of silence is sent in a session that does not end at once."""
    terminal = Terminal(pool_of(POOL))
    terminal.hear(1000000, 0x18FFFF80, b'')
    look = terminal.library.vt_text(terminal.at, ctypes.c_uint64(2900000), 203, b'abc', ctypes.c_size_t(3))
    expect(look == 0, f'status {look}')
    terminal.take()
    expect(terminal.library.vt_text(terminal.at, ctypes.c_uint64(2950000), 203, b'', ctypes.c_size_t(0)) == 0, 'a text of no bytes is refused')
    expect(terminal.take() > 0 and terminal.text(203) == b'   ', f'{terminal.text(203)} is shown')
    # The action at a later time closes the silent set first.
    terminal.act(9000000, 0, 200, 0)
    expect(terminal.library.vt_shown(terminal.at) == 254, 'the silent set is still shown')
    terminal.end()


def check_null_and_versions():
    """No bytes may be null, and a struct of another size is refused."""
    terminal = Terminal(pool_of(POOL))
    expect(terminal.library.vt_preload(terminal.at, 0x81, None, ctypes.c_size_t(0)) == 5, 'no bytes are a pool')
    expect(terminal.library.vt_hear(terminal.at, ctypes.c_uint64(1), 0x18FFFF80, None, ctypes.c_size_t(0)) == 0, 'a frame without data is refused')
    expect(terminal.library.vt_hear(terminal.at, ctypes.c_uint64(1), 0x18FFFF80, b'123456789', ctypes.c_size_t(9)) == 2, 'nine bytes are heard')
    expect(terminal.library.vt_screen(terminal.at, None, ctypes.c_size_t(0)) > 0, 'the screen has no bytes')
    profile = Profile(ctypes.sizeof(Profile) - 4, 1048576, 64, 64, 64, 6, 0x7F, 0x7F, 0, 0, 2, 0, 480, 480)
    other = Terminal(pool_of(POOL))
    other.end()
    status = other.library.vt_begin(other.at, 0x26, ctypes.c_uint64(1), ctypes.byref(profile))
    expect(status == 6, f'a profile of another size: status {status}')
    expect(terminal.library.vt_version() == 0x200, 'another version')
    terminal.end()


def test_dialogs(tests):
    tests.run('limits and texts of inputs', check_dialogs)
    tests.run('raw values of typed numbers', check_raw)
    tests.run('vt_look', check_look)
    tests.run('sizes of pictures', check_sizes)
    tests.run('actions at their time', check_act_at_its_time)
    tests.run('null pointers and versions', check_null_and_versions)
