#!/usr/bin/env python3
"""Counts the instructions of a program for a line, a message, a command, a drawn line, an object, an update and an action.

    count_instructions.py PROGRAM [OTHER]

Each input is made at two lengths. A cost is what the longer input takes more, divided by how much longer it is, so that the
start of the program is in none. Where another program with the same command line is given, its counts stand beside, with their
ratio. Needs valgrind.
"""
import os
import re
import shutil
import subprocess
import sys
import tempfile

from bench_hostile import Log, container, data_mask, le, number_variable, object_pointer, record, working_set

COLOUR = b'\xa7' + le(1000, 2) + b'\x07' + b'\xff' * 4


def size(width):
    return b'\xa6' + le(100, 2) + le(width, 2) + le(20, 2) + b'\xff'


def mask_of(elements):
    """A mask with a container, and rectangles in it; the line of the container changes with its width."""
    pool = working_set(1000) + data_mask(1000, [(100, 0, 0)]) + container(100, [(200, k, 0) for k in range(elements)])
    return pool + container(200, [])


def of_commands(commands, pool):
    log = Log()
    for command in commands:
        log.message(command)
    return log.text(), pool


def ignored_frames(count):
    log = Log()
    for _ in range(count):
        log.frame(0x18FFFF55, b'\0' * 8)
    return log.text(), None


def messages_of_packets(count):
    """Messages of two packets that are no command."""
    log = Log()
    for _ in range(count):
        log.frame(0x1CEC2680, bytes.fromhex('10090002FF00E700'))
        log.frame(0x1CEB2680, b'\x01' + b'\xf0' * 7)
        log.frame(0x1CEB2680, b'\x02' + b'\xf0' * 2)
    return log.text(), mask_of(0)


def colours(count):
    return of_commands([COLOUR] * count, mask_of(10))


def screens(elements):
    return lambda count: of_commands([size(50 + k % 2) for k in range(count)], mask_of(elements))


def updates(count):
    """Updates of one object in a pool of 20,000, two frames each."""
    pool = mask_of(0) + b''.join(number_variable(2000 + k, k) for k in range(20_000))
    updated = [b'\x11' + number_variable(2000 + k, k + 1) for k in range(count)]
    return of_commands([frame for it in updated for frame in (it, b'\x12' + b'\xff' * 7)], pool)


def updates_of_references(count):
    """Updates of an object pointer in a pool of 20,000 objects, each to another object."""
    pool = mask_of(1) + container(201, []) + b''.join(number_variable(2000 + k, k) for k in range(20_000))
    pool += object_pointer(300, 200)
    updated = [b'\x11' + object_pointer(300, 201 - k % 2) for k in range(count)]
    return of_commands([frame for it in updated for frame in (it, b'\x12' + b'\xff' * 7)], pool)


def presses(count):
    """A key that is pressed and released, on a mask of 200 elements."""
    pool = working_set(1000) + data_mask(1000, [(100, 0, 0)], 2000) + container(100, [(200, k, 0) for k in range(200)])
    pool += container(200, []) + record(2000, 4, b'\0\x01\0' + le(500, 2)) + record(500, 5, b'\0\x01\0\0')
    lines = ['! press 500', '! release 500'] * count
    return '(1.000000) can0 18FFFF55#00\n' + '\n'.join(lines) + '\n', pool


def report(count):
    return None, mask_of(0) + b''.join(number_variable(2000 + k, k) for k in range(count))


# What is counted, the input, and its shorter length.
COSTS = [
    ('a line with a frame that is ignored', ignored_frames, 10_000),
    ('a message of two packets', messages_of_packets, 4_000),
    ('a command that writes no field in a text', colours, 10_000),
    ('a command that changes a screen of 2 lines', screens(1), 4_000),
    ('a command that changes a screen of 101 lines', screens(100), 1_000),
    ('an update of one object of 20,000', updates, 100),
    ('an update of a reference in 20,000 objects', updates_of_references, 10),
    ('a key pressed and released, of 202 elements', presses, 2_000),
    ('an object of a pool in a report', report, 10_000),
]


def instructions(program, folder, text, pool):
    words = [program]
    if text is not None:
        log = os.path.join(folder, 'log')
        with open(log, 'w', encoding='ascii') as out:
            out.write(text)
        words.append(log)
    if pool is not None:
        path = os.path.join(folder, 'pool.iop')
        with open(path, 'wb') as out:
            out.write(pool)
        words += [path, '--report'] if text is None else ['--pool', path, '--owner', '80']
    counting = ['valgrind', '--tool=callgrind', '--callgrind-out-file=' + os.path.join(folder, 'counts')]
    ran = subprocess.run(counting + words, stdout=subprocess.DEVNULL, stderr=subprocess.PIPE, text=True, check=False)
    found = re.search(r'Collected : (\d+)', ran.stderr)
    if ran.returncode or not found:
        sys.exit('count_instructions.py: %s ended with status %d:\n%s' % (' '.join(words), ran.returncode, ran.stderr[-2000:]))
    return int(found.group(1))


def cost(program, folder, make, count):
    return (instructions(program, folder, *make(2 * count)) - instructions(program, folder, *make(count))) / count


def main(programs):
    if not shutil.which('valgrind'):
        sys.exit('count_instructions.py: valgrind is not installed')
    with tempfile.TemporaryDirectory() as folder:
        for name, make, count in COSTS:
            counts = [cost(program, folder, make, count) for program in programs]
            ratio = '   %.2f' % (counts[0] / counts[1]) if len(counts) == 2 else ''
            print('%-46s' % name + ''.join('%12s' % format(round(it), ',') for it in counts) + ratio, flush=True)


if __name__ == '__main__':
    if len(sys.argv) not in (2, 3):
        sys.exit(__doc__)
    main([os.path.abspath(it) for it in sys.argv[1:]])
