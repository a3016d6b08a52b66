#!/usr/bin/env python3
"""Times a program on the dearest inputs of their kind, each at two lengths, the second twice the first.

    bench_hostile.py PROGRAM [OTHER]

Prints of each the processor time at both lengths, how it grows, and where another program with the same
command line is given, how many times its time that is, and whether both print the same.
"""
import os
import resource
import subprocess
import sys
import tempfile

OWN = 0x26


def le(number, size):
    return number.to_bytes(size, 'little')


def record(object_id, kind, body):
    return le(object_id, 2) + bytes([kind]) + body


def working_set(mask):
    return record(0, 0, bytes([0, 1]) + le(mask, 2) + b'\0\0\0')


def data_mask(object_id, children, soft_keys=0xFFFF):
    listed = b''.join(le(c, 2) + le(x, 2) + le(y, 2) for c, x, y in children)
    return record(object_id, 1, b'\0' + le(soft_keys, 2) + bytes([len(children), 0]) + listed)


def container(object_id, children, macros=()):
    listed = b''.join(le(c, 2) + le(x, 2) + le(y, 2) for c, x, y in children)
    events = b''.join(bytes([event, macro]) for event, macro in macros)
    return record(object_id, 3, le(50, 2) + le(20, 2) + b'\0' + bytes([len(children), len(macros)]) + listed + events)


def number_variable(object_id, value):
    return record(object_id, 21, le(value, 4))


def object_pointer(object_id, value):
    return record(object_id, 27, le(value, 2))


def macro(object_id, commands):
    return record(object_id, 28, le(len(commands), 2) + commands)


class Log:
    """A log of `candump -L`; its time stands still."""

    def __init__(self):
        self.lines = []

    def frame(self, identifier, data):
        self.lines.append('(1.000000) can0 %08X#%s' % (identifier, data.hex().upper()))

    def message(self, data, source=0x80):
        self.frame(0x14E70000 | OWN << 8 | source, data)

    def claim(self, name, source):
        self.frame(0x18EEFF00 | source, le(name, 8))

    def text(self):
        return '\n'.join(self.lines) + '\n'


def updates(count):
    """An update each two frames, on a pool of 50,000 objects."""
    pool = working_set(1000) + data_mask(1000, [])
    pool += b''.join(number_variable(2000 + i, i) for i in range(50_000))
    log = Log()
    for i in range(count):
        log.message(b'\x11' + number_variable(2000 + i % 50_000, i))
        log.message(b'\x12' + b'\xff' * 7)
    return log, pool


def leaving_holders(count):
    """NAMEs that claim one address, and leave it for another, the holder first."""
    log = Log()
    for name in range(1, count + 1):
        log.claim(name, 0x80)
    for name in range(1, count + 1):
        log.claim(name, 0x81)
    return log, None


def pointer_changes(count):
    """Macros of so many steps, most of them changes of a pointer."""
    change = [b'\xa8' + le(300, 2) + b'\xff' + le(value, 4) for value in (200, 201)]
    run = lambda k: b'\xbe' + le(k, 2) + b'\xff' * 5
    pool = working_set(1000) + data_mask(1000, [(100, 0, 0), (300, 0, 0)])
    pool += container(100, [], [(4, 1)]) + container(200, []) + container(201, []) + object_pointer(300, 200)
    pool += macro(1, run(2) * (count // 100_000)) + macro(2, run(3) * 100) + macro(3, b''.join(change) * 490)
    log = Log()
    log.message(b'\xa0' + le(100, 2) + b'\0' + b'\xff' * 4)
    return log, pool


def long_screens(count):
    """Screens of 2,000 lines, another at each line of the log."""
    pool = working_set(1000) + data_mask(1000, [(10, 0, 0)])
    pool += container(10, [(100 + k, 0, 0) for k in range(8)])
    pool += b''.join(container(100 + k, [(200, k, i) for i in range(249)]) for k in range(8))
    pool += container(200, [])
    log = Log()
    for i in range(count):
        log.message(b'\xa6' + le(200, 2) + le(50 + i % 2, 2) + le(20, 2) + b'\xff')
    return log, pool


def many_sessions(count):
    """All 253 sources that may hold an address beside the terminal, each with a session of 1 MB, whose packets come in turn."""
    log = Log()
    sources = [source for source in range(254) if source != OWN]
    connection = lambda source: 0x1CC80000 | OWN << 8 | source
    for source in sources:
        log.frame(connection(source), b'\x14' + le(1_000_000, 4) + b'\0\xe7\0')
    for at in range(0, count // len(sources), 255):
        for source in sources:
            log.frame(connection(source), b'\x16\xff' + le(at, 3) + b'\0\xe7\0')
        for number in range(1, 256):
            for source in sources:
                log.frame(0x1CC70000 | OWN << 8 | source, bytes([number]) + b'\x11' * 7)
    return log, None


INPUTS = [(updates, 50), (leaving_holders, 50_000), (pointer_changes, 500_000), (long_screens, 1_000), (many_sessions, 250_000)]


# Of so many runs the shortest counts.
RUNS = 5


def run(program, words, output):
    """The processor time of a run, the shortest of some, and its status."""
    times = []
    for _ in range(RUNS):
        before = resource.getrusage(resource.RUSAGE_CHILDREN)
        with open(output, 'wb') as out:
            status = subprocess.run([program] + words, stdout=out, check=False).returncode
        after = resource.getrusage(resource.RUSAGE_CHILDREN)
        times.append(after.ru_utime + after.ru_stime - before.ru_utime - before.ru_stime)
    return min(times), status


def written(folder, make, count):
    log, pool = make(count)
    path = os.path.join(folder, 'log')
    with open(path, 'w') as file:
        file.write(log.text())
    if pool is None:
        return [path]
    pool_path = os.path.join(folder, 'pool')
    with open(pool_path, 'wb') as file:
        file.write(pool)
    return [path, '--pool', pool_path, '--owner', '80']


def same(one, other):
    with open(one, 'rb') as a, open(other, 'rb') as b:
        return a.read() == b.read()


def main():
    programs = sys.argv[1:3]
    with tempfile.TemporaryDirectory() as folder:
        ours, theirs = os.path.join(folder, 'ours'), os.path.join(folder, 'theirs')
        for make, count in INPUTS:
            times, text = [], ''
            for length in (count, 2 * count):
                words = written(folder, make, length)
                time, status = run(programs[0], words, ours)
                times.append(time)
                if status != 0:
                    text += ', status %d' % status
                if len(programs) > 1:
                    other, _ = run(programs[1], words, theirs)
                    text += ', %.2f times the other%s' % (time / max(other, 0.001), '' if same(ours, theirs) else ', OTHER OUTPUT')
            print('%s: %.3f s at %d, %.3f s at %d, growth %.2f%s'
                  % (make.__name__, times[0], count, times[1], 2 * count, times[1] / max(times[0], 0.001), text), flush=True)


if __name__ == '__main__':
    main()
