"""Tests on logs that are made at random, each from its number: replay.c prints for them what vt_replay prints.

    PYTHONPATH=scripts python3 -B -m c.generated 17 > 17.log

The pool of a log with an even number is sprayer.iop, that of the others kinds.iop, at the address 80.
"""
import struct
import sys
from concurrent.futures import ThreadPoolExecutor
from random import Random

from c.logs import Log
from c.pools import PARENTS, Pool
from c.programs import EXAMPLES, VT_REPLAY, run
from c.results import difference, expect, need

COUNT = 300
SHORTEST, LONGEST = 30, 80
OWN, OWNER, OTHER = 0x26, 0x80, 0x81
POOLS = [Pool('sprayer.iop'), Pool('kinds.iop')]
SMALL = Pool('pool.iop')

# The commands of the owner of a pool (docs/PROFILE.md, 11 and 14): the function, and its fields. `@3,5` is the ID of an object of one of
# these kinds, `?20` the same or NULL, and the others are methods of Field. A command has 8 bytes.
DRAWN = '0,3,6,7,8,9,10,11,12,13,14,15,16,17,18,19,20,27'
COMMANDS = [
    'A0 @3 flag', 'A0 @3 flag', 'A1 @7,8,9,10 flag', 'A3 byte', 'A4 byte', 'A6 @3,6,7,8,9,10,11,12,14,15,16,17,18,19,20 size size',
    'A7 @0,1,2,4,5,6,7,8,9,11,12 byte', 'A7 @1,6,11,12 byte', 'A8 @7,9,10,12,17,18,19,21,27 FF value', 'A8 @12,17,18,19,21 FF value',
    'A8 @21,27 FF value', 'A9 @13 size size flag', 'AA @23 byte few byte byte', 'AB @24 byte few size', 'AC @25 few byte ?20',
    f'AF @{DRAWN},1,2,4,5,23,24,25 few value', f'AF @{DRAWN} few size FF FF', f'AF @{DRAWN} few ?21,22,23,24,25', 'B0 @2 few',
    f'B1 @10 few ?{DRAWN}', 'BE @28', 'C0 FF value', 'C2', 'C3', 'C7', 'FF 01 FF', 'FF 01 FF', 'FF 01 FF',
]
ODD_LINES = ['# a remark', '', '! press', '! number 351 -1', '(1.000000) can0 123#00', '(1.000000) can0 14E72680#R', '(1.0) can0 14E72680#00']

# Further functions that a terminal answers or tells in the logs.
TOLD = ['00', '01', '05', '08', '12', 'A5', 'AD', 'AE', 'B2', 'B3', 'B4']

# The gaps between frames, and those in which a session or a set may end.
GAPS = [0, 1, 1000, 1000, 10000, 10000, 50000, 100000, 200000, -5000]
LONG_GAPS = [760000, 1260000, 2999999, 3000000, 3000001, 4500000]


class Field:
    """Fields of commands at random."""

    def __init__(self, random):
        self.random = random

    def byte(self):
        return bytes([self.random.randrange(256)])

    def flag(self):
        return bytes([self.random.choice([0, 0, 0, 1, 1, 1, 2])])

    def few(self):
        return bytes([self.random.randrange(12)])

    def size(self):
        return struct.pack('<H', self.random.choice([0, 1, 2, 8, 20, 60, 100, 200, 480, 65535]))

    def value(self):
        known = [0, 1, 2, 3, 30, 100, 255, 1000, 20000, 65535, 2000000, 4294967295]
        return struct.pack('<I', self.random.choice([*known, self.random.randrange(300)]))


class RandomLog(Log):
    """A log at random: the owner of a preloaded pool, another node, and an operator."""

    def __init__(self, random, pool):
        super().__init__()
        self.random, self.field = random, Field(random)
        self.use(pool)

    def use(self, pool):
        """From now on the owner has this pool."""
        self.pool, self.mask, self.held = pool, pool.active, 0

    def gap(self):
        return self.random.choice(GAPS)

    # ---- objects

    def pick(self, kinds):
        """An object of some kinds, most often one near to the active mask, and at times one of another kind or none."""
        known, chance = self.pool.of(kinds), self.random.random()
        if chance < 0.04 or not known:
            return self.random.choice([*self.pool.records, 65535, 65001])
        near = [number for number in known if number in self.pool.near[self.mask]]
        return self.random.choice(near if near and chance < 0.8 else known)

    def bytes_of(self, word):
        """The bytes of a field."""
        if word[0] in '@?':
            number = self.pick(list(map(int, word[1:].split(','))))
            return struct.pack('<H', 65535 if word[0] == '?' and self.random.random() < 0.2 else number)
        return bytes.fromhex(word) if len(word) == 2 else getattr(self.field, word)()

    # ---- the owner of the pool

    def command(self):
        self.vt(b''.join(map(self.bytes_of, self.random.choice(COMMANDS).split())))

    def activate(self):
        """Another active mask."""
        mask = self.random.choice(self.pool.of([1, 2]))
        self.mask = mask
        self.vt(struct.pack('<BHH', 0xAD, self.pool.set, mask))

    def keys(self):
        """Other soft keys of a mask."""
        mask = self.pick([1, 2])
        self.vt(struct.pack('<BBHH', 0xAE, self.pool.kind(mask) or 0, mask, self.random.choice([self.pick([4]), 65535])))

    def move(self):
        """Another place for a child, by Change Child Location or, in several frames, Change Child Position."""
        parents = [number for number in self.pool.of(PARENTS) if self.pool.children(number)]
        near = [number for number in parents if number in self.pool.near[self.mask]]
        parent = self.random.choice(near or parents)
        child = self.random.choice([*self.pool.children(parent), self.pick([3, 6, 14])])
        if self.random.random() < 0.6:
            self.vt(struct.pack('<BHHBB', 0xA5, parent, child, *(self.random.randrange(100, 156) for _ in range(2))))
        else:
            self.send_by_tp(struct.pack('<BHHhh', 0xB4, parent, child, *(self.random.randrange(-40, 480) for _ in range(2))))

    def write(self):
        """A text, in one frame or in several."""
        text = bytes(self.random.choice(b'abc XYZ 0189<&\xe4') for _ in range(self.random.choice([0, 1, 2, 3, 3, 5, 9, 20])))
        message = struct.pack('<BHH', 0xB3, self.pick([8, 11, 22]), len(text)) + text
        if len(message) > 8:
            self.send_by_tp(message)
        else:
            self.vt(message)

    def answer(self):
        """What the owner answers to a long message of the terminal: a request for packets, or the end."""
        self.hear(0x1CEC2680, self.random.choice([b'\x11\x02\x01', b'\x11\x01\x02', b'\x13\x0A\x00']) + b'\xff\xff\x00\xe6\x00')

    def garbage(self):
        """A frame of random bytes."""
        source = self.random.choice([OWNER, OTHER, OWN, 0xFE])
        known = [0x14E72600, 0x1CEC2600, 0x1CEB2600, 0x1CC82600, 0x18EEFF00, 0x18EAFF00]
        identifier = self.random.choice([*known, self.random.randrange(1 << 29) & ~0xFF])
        data = self.random.randbytes(self.random.randrange(9))
        self.hear(identifier | source, data)

    # ---- another node

    def stranger(self):
        """Frames of another node that say nothing to a terminal, or that only claim."""
        choice = self.random.randrange(4)
        if choice == 0:
            self.hear(0x18EEFF00 | OTHER, struct.pack('<Q', 0x20001D0000000181))
        elif choice == 1:
            self.hear(0x18EAFF00 | OTHER, b'\x00\xee\x00')
        else:
            self.hear(self.random.choice([0x18FEF100, 0x0CF00400, 0x1CE68000]) | OTHER, self.random.randbytes(8))

    def second_set(self):
        """A working set at the other address: its pool, or what it says to it."""
        if self.random.random() < 0.5:
            self.register(OTHER)
            self.random.choice([self.upload_by_pieces, self.upload_by_tp])(SMALL.data, OTHER)
        else:
            self.vt(bytes.fromhex(self.random.choice(['A0640000', 'A0640001', 'A7E80305', 'A7E80309', 'FF01', 'B2'])), OTHER)

    def claim(self):
        """A claim of the owner's address or of the terminal's. By a lower NAME the terminal loses its own."""
        address, name = self.random.choice([(OWNER, 0x20001D0000000180)] * 4 + [(OWNER, 0x20001D0000000999), (OWN, 0x30001D0000000001),
                                            (OWN, 0x30001D0000000001), (OWN, 0x10001D0000000001)])
        self.hear(0x18EEFF00 | address, struct.pack('<Q', name))

    # ---- the operator

    def operator(self):
        key, entry = self.pick([5, 6]), self.pick([7, 8, 9, 10])
        text = ''.join(self.random.choice('abc 019') for _ in range(self.random.choice([0, 1, 2, 3, 4, 5, 12])))
        number = self.random.choice([0, 1, 1, 2, 3, 50, 250, 4294967295])
        line = self.random.choice([f'press {key}', f'press {key}', f'release {self.held}', f'release {self.held}', f'select {entry}',
                                   f'number {entry} {number}', f'number {self.pick([7, 9, 10])} {number}', f'text {entry} {text}',
                                   f'text {self.pick([8])} {text}', 'set 80', 'set 81', f'press {self.pick([0, 1, 3, 11])}'])
        if line.startswith('press'):
            self.held = line.split()[1]
        self.lines.append(f'! {line}')

    # ---- time

    def wait(self):
        """A long gap. Behind one the owner's set may be closed, and at times it comes back with another pool."""
        self.at += self.random.choice(LONG_GAPS)
        self.stranger()
        if self.random.random() < 0.3:
            self.register()
            self.upload_by_pieces(SMALL.data)
            self.use(SMALL)

    def odd_line(self):
        self.lines.append(self.random.choice(ODD_LINES))

    def fill(self):
        """Writes the lines."""
        steps = [(self.command, 100), (self.activate, 6), (self.keys, 3), (self.move, 14), (self.write, 12), (self.answer, 3), (self.garbage, 5),
                 (self.stranger, 14), (self.second_set, 2), (self.claim, 1), (self.operator, 30), (self.wait, 2), (self.odd_line, 2)]
        wanted = self.random.randrange(SHORTEST, LONGEST)
        while len(self.lines) < wanted:
            self.random.choices([step for step, _ in steps], [weight for _, weight in steps])[0]()


def log_of(number):
    """The log of a number, and the name of its pool."""
    pool = POOLS[number % len(POOLS)]
    log = RandomLog(Random(number), pool)
    log.fill()
    return log, pool.name


def generated(programs, number):
    """The path of a log, and the name of its pool."""
    log, pool = log_of(number)
    path = f'{programs.folder}/generated-{number}.log'
    with open(path, 'w') as file:
        file.write(log.text())
    return path, pool


def side_by_side(function, numbers):
    """The results of a function, two at a time."""
    with ThreadPoolExecutor(2) as workers:
        return list(workers.map(function, numbers))


def printed_alike(programs, kind, number):
    """What vt_replay prints for a log, after a comparison with what replay prints."""
    path, pool = generated(programs, number)
    words = [path, '--pool', pool, '--owner', f'{OWNER:X}']
    wanted, got = (run([program, *words], EXAMPLES) for program in (VT_REPLAY, programs.get(kind)))
    expect(wanted[0] == got[0] == 0, f'log {number}: status {got[0]}, wanted {wanted[0]}: {got[2][-200:]!r}')
    expect(wanted[1] == got[1], f'log {number}: {difference(wanted[1], got[1])}')
    return wanted[1]


def check_generated(programs, kind, numbers):
    """Of each log the same is printed."""
    need(VT_REPLAY)
    programs.get(kind)
    outputs = b''.join(side_by_side(lambda number: printed_alike(programs, kind, number), numbers)).split(b'\n')
    screens = sum(line.startswith(b'screen ') for line in outputs)
    refused = sum(line.startswith(b'operator ') for line in outputs)
    if len(numbers) == COUNT:
        check_answers(outputs)
    return f'{len(numbers)} logs, {len(outputs)} lines printed, {screens} screens, {refused} refused actions'


def check_answers(outputs):
    """Each kind of command is answered somewhere, and each message of the terminal is sent."""
    answered = {line[9:11].decode() for line in outputs if line.startswith((b'14E68026#', b'14E68126#'))}
    missing = {*(row[:2] for row in COMMANDS), *TOLD} - {'FF'} - answered
    expect(not missing, f'never answered or told: {sorted(missing)}')


def test_generated(tests, programs):
    tests.run('replay on generated logs', check_generated, programs, 'replay', range(COUNT))
    tests.run('replay-sanitized on generated logs', check_generated, programs, 'replay-sanitized', range(0, COUNT, 3))


if __name__ == '__main__':
    print(log_of(int(sys.argv[1]))[0].text(), end='')
