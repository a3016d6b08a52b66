#!/usr/bin/env python3
"""A terminal that talks to Linux's J1939 stack, which runs in a virtual machine without acceleration.

    run.py [--kernel FOLDER] [--frames]

FOLDER is where a kernel's package was unpacked, / unless told. With --frames each frame is printed, not only what is told in words.
"""
import argparse
import contextlib
import lzma
import os
import re
import select
import shutil
import socket
import stat
import struct
import subprocess
import sys
import tempfile
import time
from pathlib import Path

HERE = Path(__file__).resolve().parent
TOP = HERE.parents[1]
sys.path.insert(0, str(TOP / 'bindings' / 'python'))

from segyolant import Frame, Host, PoolUpdated, ProgramNotFound, Terminal  # noqa: E402
from segyolant.programs import find  # noqa: E402
from segyolant.sprayer import IN_FIELD, full_pool, sprayer_file  # noqa: E402

PROGRAMS = {'qemu-system-x86_64': 'qemu-system-x86', 'busybox': 'busybox-static', 'candump': 'can-utils', 'canplayer': 'can-utils',
            'cansend': 'can-utils', 'testj1939': 'can-utils', 'gcc': 'gcc libc6-dev'}
GUEST_PACKAGES = ('busybox-static', 'can-utils')
APPLETS = 'mount insmod ip stty cat cut sleep uname reboot'.split()
MODULES = ['drivers/net/can/dev/can-dev', 'drivers/net/can/vcan', 'net/can/can', 'net/can/can-raw', 'net/can/j1939/can-j1939']
# The lengths of the messages of the first upload: TP from its least to its greatest message, and ETP.
LENGTHS = [9, 100, 1785, 3000]
TEXT = 'Written to Linux'
# In microseconds: how long all may take, and the time between the second upload and the operator's text. In seconds: between two ticks.
LIMIT = 120_000_000
WRITE_PAUSE = 500_000
TICK = 0.01
FRAME = re.compile(rb'\([\d.]+\) \w+ ([0-9A-F]{8})#([0-9A-F]*)')


class Missing(Exception):
    """Something that is not on this machine."""


# ---- the guest


def path_of(program):
    path = shutil.which(program)
    if path is None:
        raise Missing(f'{program} is not there: apt-get install {PROGRAMS[program]}')
    return Path(path)


def kernel_in(folder):
    """The kernel of a folder that has the J1939 stack, and the folder of its modules."""
    for modules in sorted(folder.glob('lib/modules/*/kernel')):
        kernel = folder / 'boot' / f'vmlinuz-{modules.parent.name}'
        if kernel.exists() and list(modules.glob('net/can/j1939/can-j1939.ko*')):
            return kernel, modules
    raise Missing(f'no kernel with the module can-j1939 is in {folder}: README.md says how to get one')


def module_bytes(modules, name):
    """A module, which some packages compress."""
    path = next(modules.glob(f'{name}.ko*'))
    return lzma.decompress(path.read_bytes()) if path.suffix == '.xz' else path.read_bytes()


def libraries_of(program):
    """The libraries with which a program is linked."""
    text = subprocess.run(['ldd', program], capture_output=True, text=True, check=False).stdout
    return re.findall(r'(/\S+) \(0x', text)


def pool_messages():
    """The messages of the uploads. Four of them have the pool with unused texts behind it, cut to the wanted lengths; one the pool alone."""
    pool = full_pool(sprayer_file('iop').read_bytes())
    more = sum(LENGTHS) - len(LENGTHS) - len(pool)
    rest = pool + b''.join(texts_of(more))
    messages = {'whole': b'\x11' + pool}
    for number, length in enumerate(LENGTHS, 1):
        messages[f'part-{number}'] = b'\x11' + rest[:length - 1]
        rest = rest[length - 1:]
    return messages


def texts_of(count):
    """String Variables that take so many bytes together."""
    identifier = 60000
    while count > 0:
        size = count if count <= 250 else min(200, count - 5)
        yield struct.pack('<HBH', identifier, 22, size - 5) + b' ' * (size - 5)
        identifier, count = identifier + 1, count - size


def message_program():
    """The program that sends a message by the stack."""
    with tempfile.TemporaryDirectory() as folder:
        program = Path(folder) / 'message'
        subprocess.run(['gcc', '-std=c11', '-O2', '-static', '-o', program, HERE / 'message.c'], check=True)
        return program.read_bytes()


def guest_files(modules):
    """The files of the guest, each a path with its bytes."""
    yield 'init', (HERE / 'init').read_bytes()
    for name in MODULES:
        yield f'modules/{Path(name).name}.ko', module_bytes(modules, name)
    for name, data in pool_messages().items():
        yield f'messages/{name}', data
    yield 'message', message_program()
    libraries = set()
    for program, package in PROGRAMS.items():
        if package in GUEST_PACKAGES:
            yield f'usr/bin/{program}', path_of(program).read_bytes()
            libraries.update(libraries_of(path_of(program)))
    for library in sorted(libraries):
        yield library.lstrip('/'), Path(library).read_bytes()


def archive_of(entries):
    """An archive of cpio in the form `newc`, of entries that are each a name, a mode and bytes."""
    parts = []
    for number, (name, mode, data) in enumerate([*entries, ('TRAILER!!!', 0, b'')], 1):
        path = name.encode() + b'\0'
        fields = [number, mode, 0, 0, 1, 0, len(data), 0, 0, 0, 0, len(path), 0]
        head = b'070701' + b''.join(b'%08X' % each for each in fields) + path
        parts += [head, bytes(-len(head) % 4), data, bytes(-len(data) % 4)]
    return b''.join(parts)


def initramfs(modules):
    """The guest's file system: folders before what is in them."""
    files = dict(guest_files(modules))
    folders = {str(parent) for name in files for parent in Path(name).parents} - {'.'} | {'dev', 'proc', 'sys'}
    entries = [(name, stat.S_IFDIR | 0o755, b'') for name in sorted(folders)]
    entries += [(name, stat.S_IFREG | 0o755, data) for name, data in files.items()]
    entries += [(f'usr/bin/{name}', stat.S_IFLNK | 0o777, b'busybox') for name in APPLETS]
    return archive_of(entries)


@contextlib.contextmanager
def guest(kernel, modules):
    """The virtual machine: its console as a pipe, and its second serial line, which is the bus, as a socket."""
    with tempfile.TemporaryDirectory() as folder:
        files, line = Path(folder) / 'files', f'{folder}/bus'
        files.write_bytes(initramfs(modules))
        server = socket.socket(socket.AF_UNIX)
        server.bind(line)
        server.listen()
        words = ['qemu-system-x86_64', '-accel', 'tcg', '-m', '256', '-kernel', str(kernel), '-initrd', str(files), '-append',
                 'console=ttyS0 quiet panic=-1', '-display', 'none', '-no-reboot', '-serial', 'stdio', '-serial', f'unix:{line}', '-net', 'none']
        child = subprocess.Popen(words, stdin=subprocess.DEVNULL, stdout=subprocess.PIPE)
        try:
            server.settimeout(20)
            yield child.stdout, server.accept()[0]
        finally:
            child.kill()
            child.wait()
            server.close()


# ---- the terminal


def now():
    return time.monotonic_ns() // 1000


class Lines:
    """What comes from a pipe or a socket, by lines."""

    def __init__(self, file):
        self.file, self.rest = file, b''

    def fileno(self):
        return self.file.fileno()

    def take(self):
        """The lines that came, or None at the end."""
        data = os.read(self.fileno(), 65536)
        if not data:
            return None
        *lines, self.rest = (self.rest + data).split(b'\n')
        return lines


class Desk:
    """A terminal on the bus, and an operator who writes a text when the pool has come for the second time."""

    def __init__(self, terminal, line, is_telling_frames):
        self.terminal, self.host, self.line = terminal, Host(terminal), line
        self.is_telling_frames = is_telling_frames
        self.start = now()
        self.is_started = False
        self.write_at = None
        self.said = []

    def say(self, text):
        print(f'{(now() - self.start) / 1e6:7.3f} {text}', flush=True)

    def hear_console(self, line):
        """Takes a line of the guest's console. The terminal begins when the guest's bus is there."""
        text = line.decode(errors='replace').strip()
        self.said.append(text)
        self.say(text)
        if text.startswith('peer:') and text.endswith(' ready'):
            self.is_started = True
            self.take(self.host.start(now()))

    def hear_bus(self, line):
        """Takes a line of candump."""
        match = FRAME.match(line)
        if match and self.is_started:
            frame = Frame(int(match[1], 16), bytes.fromhex(match[2].decode()))
            self.tell_frame('<', frame)
            self.host.receive(now(), frame.id, frame.data)

    def run(self):
        """Does what is due."""
        if not self.is_started:
            return
        self.take(self.host.run(now()))
        if self.write_at is not None and now() >= self.write_at:
            self.write_at = None
            self.say(f'terminal: the operator writes {TEXT!r}')
            self.take(self.host.enter_text(now(), IN_FIELD, TEXT))

    def take(self, outputs):
        for output in outputs:
            if isinstance(output, Frame):
                self.tell_frame('>', output)
                self.line.sendall(f'(0.000000) can0 {output}\n'.encode())
                continue
            self.say(f'terminal: {output}')
            if isinstance(output, PoolUpdated):
                self.write_at = now() + WRITE_PAUSE

    def tell_frame(self, sign, frame):
        if self.is_telling_frames:
            self.say(f'  {sign} {frame}  {self.terminal.words(frame.id, frame.data)}')


def serve(desk, console, bus):
    """Serves the terminal until the guest ends, or has taken too long."""
    takers = {console: desk.hear_console, bus: desk.hear_bus}
    while now() - desk.start < LIMIT:
        for each in select.select([console, bus], [], [], TICK)[0]:
            lines = each.take()
            if lines is None:
                return
            for line in lines:
                takers[each](line)
        desk.run()


def heard_bytes(said):
    """The bytes of the messages that testj1939 printed, in hexadecimal."""
    found = (re.match(r'(?:26 0e600:|[0-9a-f]{5} )\s*((?:[0-9a-f]{2} ?)+)$', each) for each in said)
    return ' '.join(each[1].strip() for each in found if each)


def lacking(terminal, said):
    """What did not happen, in words."""
    text = '\n'.join(said)
    facts = {
        'all messages are acknowledged': text.count(': acknowledged') == len(LENGTHS) + 1,
        'both pools are accepted': text.count('14E68026   [8]  12 00 ') == 2,
        'the text came to Linux as a message': TEXT.encode().hex(' ') in heard_bytes(said),
        'the mask is shown with the text': terminal.screen().startswith('screen 80 mask 1000\n') and terminal.value_text(IN_FIELD) == TEXT,
    }
    return [fact for fact, is_so in facts.items() if not is_so]


def words_of():
    parser = argparse.ArgumentParser(description=__doc__.split('\n')[0])
    parser.add_argument('--kernel', type=Path, default=Path('/'), metavar='FOLDER')
    parser.add_argument('--frames', action='store_true')
    return parser.parse_args()


def main():
    words = words_of()
    try:
        for program in PROGRAMS:
            path_of(program)
        find('vt_live')
        kernel, modules = kernel_in(words.kernel)
    except (Missing, ProgramNotFound) as missing:
        print(f'run.py: skipped: {missing}')
        return 0
    with Terminal() as terminal, guest(kernel, modules) as (console, line):
        desk = Desk(terminal, line, words.frames)
        serve(desk, Lines(console), Lines(line))
        faults = lacking(terminal, desk.said)
    for fault in faults:
        print(f'run.py: it is not so that {fault}')
    print('run.py: ' + ('failed' if faults else 'passed'))
    return 1 if faults else 0


if __name__ == '__main__':
    sys.exit(main())
