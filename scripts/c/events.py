"""Tests of the events that a host is told (docs/EMBEDDING.md, "Events"): those of logs whose events are listed here, and those of logs made
at random, which the frames foretell that they bring."""
import re
import struct

from c.generated import COUNT, OWN, OWNER, generated, side_by_side
from c.logs import Log, macro
from c.programs import EXAMPLES, run
from c.results import expect

NO_ID = 0xFFFF
OWN_NAME = 0x20001D0000000001
# An object pool: a data mask with an input of ten characters, a key and an alarm mask. Macro 1 sounds twice and sets the volume; it runs
# when the key is pressed.
SET = struct.pack('<HBBBHBBB', 0, 0, 0, 1, 1000, 0, 0, 0)
MASK = struct.pack('<HBBHBBHhh', 1000, 1, 0, 3000, 1, 0, 200, 5, 6)
INPUT = struct.pack('<HBHHBHHBHBB', 200, 8, 100, 20, 1, 23, NO_ID, 0, NO_ID, 0, 10) + b' ' * 10 + bytes([1, 0])
FONT = struct.pack('<HBBBBBB', 23, 23, 0, 0, 0, 0, 0)
KEYS = struct.pack('<HBBBBH', 3000, 4, 0, 1, 0, 400)
KEY = struct.pack('<HBBBBB', 400, 5, 0, 7, 0, 1) + bytes([24, 1])
ALARM = struct.pack('<HBBHBBBB', 2000, 2, 0, NO_ID, 1, 3, 0, 0)
SOUNDS = macro(1, struct.pack('<BBHHH', 0xA3, 1, 100, 20, 30) + struct.pack('<BBHHH', 0xA3, 2, 1000, 200, 300) + b'\xa4\x32' + b'\xff' * 6)
POOL = SET + MASK + INPUT + FONT + KEYS + KEY + ALARM + SOUNDS


def begun(way='upload_by_pieces', pool=POOL):
    """A log in which a set registers and uploads a pool."""
    log = Log()
    log.register()
    getattr(log, way)(pool)
    return log


def wait(log, seconds):
    """Another node's frame after a time."""
    log.at += int(seconds * 1000000)
    log.hear(0x18FFFF90, b'')


def entering():
    """A log in which the operator enters a text that takes packets."""
    log = begun()
    log.lines.append('! text 200 abcdefgh')
    return log


def answer(log, *data):
    log.hear(0x1CEC2680, bytes(data) + b'\x00\xe6\x00')


def acknowledged():
    log = entering()
    answer(log, 0x11, 2, 1, 0xFF, 0xFF)
    answer(log, 0x13, 13, 0, 2, 0xFF)
    return log


def aborted(log, *data):
    answer(log, *data)
    return log


def overdue():
    log = entering()
    wait(log, 1.3)
    return log


def silent(again):
    log = begun()
    log.at += 3000001
    if again:
        log.hear(0x1CFE0D80, b'\x01' + b'\xff' * 7)
    else:
        wait(log, 0)
    return log


def claimed_by_another():
    log = begun()
    log.hear(0x18EEFF80, struct.pack('<Q', 0x10001D0000000001))
    return log


def moved_to(address):
    """The NAME of the set claims another address, or none by 254."""
    log = begun()
    log.hear(0x18EEFF00 | address, struct.pack('<Q', 0x20001D0000000180))
    return log


def lost():
    log = begun()
    log.hear(0x18EEFF26, bytes(8))
    log.vt(b'\xa3\x01')
    return log


def commanded(*commands):
    log = begun()
    for command in commands:
        log.vt(bytes.fromhex(command))
    return log


def pressed():
    log = begun()
    log.lines += ['! press 400', '! release 400']
    return log


def updated(*records):
    log = begun()
    for record in records:
        log.upload_by_pieces(record)
    return log


BEGUN = ['SetCame 80 0 0', 'PoolAccepted 80 0 0', 'Shown 80 1000 3000']
GONE = 'Shown FE 65535 65535'
LINE = struct.pack('<HBBBHBB', 500, 13, 24, 0, 10, 10, 0) + b'\x00'

# A log of each event, and the events behind those of its begin.
LISTED = {
    'nothing but a pool': (begun, []),
    'a pool that is deleted, and comes again': (
        lambda: updated_after_deletion(), ['PoolDeleted 80 0 0', GONE, 'PoolAccepted 80 0 0', 'Shown 80 1000 3000']),
    'an update': (lambda: updated(KEY), ['PoolUpdated 80 0 0']),
    'an update that lacks an object': (lambda: updated(MASK.replace(struct.pack('<H', 200), struct.pack('<H', 201))),
                                       [f'PoolRefused 80 3 {1000 + 65536 * 201}']),
    'an update of an unknown kind': (lambda: updated(KEY + b'\x01\x00\x63'), [f'PoolFaulty 80 2 {len(KEY)}']),
    'a second working set': (lambda: updated(b'\x01' + SET[1:]), [f'PoolRefused 80 2 {NO_ID + 65536 * NO_ID}']),
    'a macro that runs itself': (lambda: updated(macro(1, struct.pack('<BH5s', 0xBE, 1, b'\xff' * 5))), [f'PoolRefused 80 11 {1 + 65536 * NO_ID}']),
    'a macro with Get Memory': (lambda: updated(macro(1, b'\xa4' + bytes(7) + b'\xc0' + b'\xff' * 7)), [f'PoolRefused 80 {7 + 65536 * 8} {1 + 65536 * NO_ID}']),
    'a text that arrives': (acknowledged, []),
    'a text that the implement aborts': (lambda: aborted(entering(), 0xFF, 2, 0xFF, 0xFF, 0xFF), ['TextAborted 80 0 0']),
    'a text that is asked for beyond its end': (lambda: aborted(entering(), 0x11, 1, 9, 0xFF, 0xFF), ['TextAborted 80 0 0']),
    'a text without an answer': (overdue, ['TextAborted 80 0 0']),
    'a set that falls silent': (lambda: silent(False), ['SetSilent 80 0 0', GONE]),
    'a set that registers after it fell silent': (lambda: silent(True), ['SetSilent 80 0 0', 'SetCame 80 0 0', GONE]),
    'a set whose address another NAME takes': (claimed_by_another, ['SetClosed 80 0 0', GONE]),
    'a set whose NAME moves to another address': (lambda: moved_to(0x81), ['SetClosed 80 0 0', GONE]),
    'a set whose NAME gives up its address': (lambda: moved_to(0xFE), ['SetClosed 80 0 0', GONE]),
    'an alarm that comes, sounds otherwise and goes': (
        lambda: commanded('AD0000D007', 'B0D00700', 'AFD0070402000000', 'AD0000E803'),
        ['Shown 80 2000 65535', f'Alarm 80 2000 {1 + 65536 * 3}', f'Alarm 80 2000 {0 + 65536 * 3}', f'Alarm 80 2000 {0 + 65536 * 2}',
         'Shown 80 1000 3000', 'AlarmOver 80 0 0']),
    'sounds by commands': (lambda: commanded('A305E8030A001400', 'A464', 'A465'),
                           [f'Signal 80 {5 + 65536 * 1000} {10 + 65536 * 20}', 'Volume 80 100 0']),
    'sounds of a macro': (pressed, [f'Signal 80 {2 + 65536 * 1000} {200 + 65536 * 300}', 'Volume 80 50 0']),
    'a lost address': (lost, ['AddressLost 26 0 0']),
}


def updated_after_deletion():
    log = commanded('B2')
    log.upload_by_pieces(POOL)
    return log


def told(programs, kind, path, *words):
    """The events by their lines, and all that replay prints."""
    status, out, messages = run([programs.get(kind), path, '--events', *words], EXAMPLES)
    expect(status == 0, f'status {status}: {messages[-300:]!r}')
    return out.decode('latin-1').splitlines()


def events_of(lines):
    return [line.split(' ', 2)[2] for line in lines if line.startswith('event ')]


def check_listed(programs, kind, name, log, wanted):
    path = f'{programs.folder}/{name.replace(" ", "-")}.log'
    with open(path, 'w') as file:
        file.write(log().text())
    lines = told(programs, kind, path)
    got = [event for event in events_of(lines) if not event.startswith('Uploaded')]
    expect(got == BEGUN + wanted, f'told {got[len(BEGUN):]}, wanted {wanted}')
    check_closed(path, lines, {})


def check_progress(programs, kind, way):
    """An upload of sprayer.iop tells each 1,024 bytes once, and at once how many there will be where a message announces it."""
    with open(f'{EXAMPLES}/sprayer.iop', 'rb') as file:
        pool = file.read()
    path = f'{programs.folder}/progress-{way}.log'
    log = Log()
    log.register()
    if way == 'upload_by_tp':
        log.send_by_tp(b'\x11' + pool[:1700])
        log.send_by_tp(b'\x11' + pool[1700:])
        log.vt(b'\x12')
    else:
        getattr(log, way)(pool)
    with open(path, 'w') as file:
        file.write(log.text())
    numbers = [tuple(map(int, event.split()[2:])) for event in events_of(told(programs, kind, path)) if event.startswith('Uploaded 80')]
    expect([came // 1024 for came, _ in numbers] == list(range(1, len(pool) // 1024 + 1)), f'told {numbers}')
    wanted = {'upload_by_etp': [len(pool)] * 2, 'upload_by_tp': [1700, len(pool)], 'upload_by_pieces': [came for came, _ in numbers]}[way]
    expect([announced for _, announced in numbers] == wanted, f'announced {numbers}, wanted {wanted}')


# ---- a plain reading of what is printed

def told_by_frames(lines):
    """What the printed frames say of events: the masks shown, the ends of uploads, lost addresses, and commands about sounds that are done."""
    shown, ends, lost, sounds = [], [], 0, {'Signal': 0, 'Volume': 0}
    for line in lines:
        found = re.fullmatch('([0-9A-F]{8})#([0-9A-F]*)', line)
        if not found:
            continue
        identifier, data = found[1], bytes.fromhex(found[2])
        if identifier == '14E6FF26' and data[0] == 0xFE:
            shown.append((f'{data[1]:02X}', *struct.unpack('<HH', data[2:6])))
        elif identifier[:4] == '14E6' and data[0] == 0x12:
            ends.append((identifier[4:6], data[1], *struct.unpack('<HHB', data[2:7])))
        elif identifier[:4] == '14E6' and data[0] in (0xA3, 0xA4) and data[1] == 0:
            sounds['Signal' if data[0] == 0xA3 else 'Volume'] += 1
        lost += identifier == '18EEFFFE'
    return shown, ends, lost, sounds


def end_of(event):
    """The reply of which an event of an upload tells."""
    kind, address, first, second = event.split()
    first, second = int(first), int(second)
    if kind in ('PoolAccepted', 'PoolUpdated'):
        return address, 0, NO_ID, NO_ID, 0
    if kind == 'PoolFaulty':
        return address, 1, NO_ID, NO_ID, 1 if first in (2, 3) else 4
    rule, named, other = first % 65536, second % 65536, second // 65536
    if rule in (3, 4, 8, 9):
        return address, 1, named, other, 2 if rule in (3, 8) else 4
    return address, 1, NO_ID, NO_ID if rule in (1, 2, 5) else named, 4


def claim_of(line):
    """The NAME and the address of an address claim of a log, or none."""
    found = re.fullmatch(r'\(\d+\.\d{6}\) can0 ([0-9A-F]{8})#((?:[0-9A-F]{2})*)', line)
    identifier, data = (int(found[1], 16), bytes.fromhex(found[2])) if found else (0, b'')
    if identifier & 0x03FFFF00 != 0x00EEFF00 or len(data) < 8:
        return None
    return struct.unpack('<Q', data[:8])[0], identifier & 0xFF


def check_closed(path, lines, sets):
    """A set is closed by the claim after which its NAME does not hold its address any more, and by no other line. `sets` are the NAMEs of the
    sets that are there from the start, by their addresses."""
    events, addresses = {}, {}
    for number, kind, address in (line.split()[1:4] for line in lines if line.startswith('event ')):
        events.setdefault(int(number), []).append((kind, int(address, 16)))

    def holder(address):
        return min((name for name, at in addresses.items() if at == address), default=None)

    with open(path) as file:
        log = file.read().splitlines()
    for number, line in enumerate(log, 1):
        told_here = events.get(number, [])
        if any(kind == 'AddressLost' for kind, _ in told_here):
            return
        sets = {address: name for address, name in sets.items() if ('SetSilent', address) not in told_here}
        claim, closed = claim_of(line), []
        if claim and claim != (OWN_NAME, OWN):
            addresses[claim[0]] = claim[1]
            closed = [address for address, name in sets.items() if name is not None and name != holder(address)]
            named = {claim[1]: holder(claim[1])}
            sets = {address: named.get(address) if name is None else name for address, name in sets.items() if address not in closed}
        got = [address for kind, address in told_here if kind == 'SetClosed']
        expect(got == closed, f'{path}, line {number}: closed {got}, wanted {closed}')
        sets.update({address: holder(address) for kind, address in told_here if kind == 'SetCame'})


def check_told(programs, kind, number):
    """The events of a log made at random are those that its frames foretell. Returns their kinds."""
    path, pool = generated(programs, number)
    lines = told(programs, kind, path, '--pool', pool, '--owner', f'{OWNER:X}')
    events = events_of(lines)
    check_closed(path, lines, {OWNER: None})
    shown, ends, lost, sounds = told_by_frames(lines)
    words = [event.split() for event in events]
    # (in the input of the loss no status goes out)
    until = next((k for k, w in enumerate(words) if w[0] == 'AddressLost'), len(words))
    displays = [(w[1], int(w[2]), int(w[3])) for w in words[:until] if w[0] == 'Shown']
    expect(displays == shown, f'log {number}: shown {shown}, told {events}')
    ended = [end_of(event) for event in events if event.startswith(('PoolA', 'PoolU', 'PoolF', 'PoolR'))]
    expect(ended == ends, f'log {number}: replies {ends}, told {events}')
    expect(sum(w[0] == 'AddressLost' for w in words) == lost, f'log {number}: {lost} lost addresses, told {events}')
    for sound, count in sounds.items():
        # Macros ask for sounds too, without a reply.
        expect(sum(w[0] == sound for w in words) >= count, f'log {number}: {count} times {sound}, told {events}')
    there = {f'{OWNER:02X}'}
    for what, address, *_ in words:
        if what == 'SetCame':
            expect(address not in there, f'log {number}: {address} came twice: {events}')
            there.add(address)
        elif what in ('SetSilent', 'SetClosed'):
            expect(address in there, f'log {number}: {address} went twice: {events}')
            there.remove(address)
    return {w[0] for w in words}


def check_generated(programs, kind, numbers):
    programs.get(kind)
    kinds = set().union(*side_by_side(lambda number: check_told(programs, kind, number), numbers))
    if len(numbers) == COUNT:
        missing = {'SetCame', 'SetSilent', 'PoolAccepted', 'PoolUpdated', 'PoolRefused', 'PoolDeleted', 'Shown', 'Alarm', 'AlarmOver',
                   'Signal', 'Volume', 'AddressLost'} - kinds
        expect(not missing, f'never told: {sorted(missing)}')
    return f'{len(numbers)} logs'


def test_events(tests, programs):
    for name, (log, wanted) in LISTED.items():
        tests.run(f'events of {name}', check_listed, programs, 'replay-sanitized', name, log, wanted, quiet=True)
    for way in ('upload_by_pieces', 'upload_by_tp', 'upload_by_etp'):
        tests.run(f'events of {way}', check_progress, programs, 'replay-sanitized', way)
    tests.run('events of generated logs', check_generated, programs, 'replay', range(COUNT))
