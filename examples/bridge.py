#!/usr/bin/env python3
"""A terminal on a CAN bus, by the program vt_replay.

    bridge.py [--own AA] [--name N] [--interface TYPE --channel NAME [--bitrate N]] [PROGRAM]

PROGRAM is vt_replay. Without it the bridge takes the proved one, crates/vt_replay/out/vt_replay, or else the quick build,
out/quick/vt_replay, and says on the error output which. It runs as a child that reads its log from a pipe. The bridge sends the
address claim, gives the child each frame with the time of its reception, sends the frames that the child prints, and repeats the
status each second. For 250 ms after its claim it gives the child only claims and requests for them, and passes over other frames.
The child hears the time with frames only; so before each action of the operator, and each tenth of a second in which no frame waits, it
gets its own last status as a frame, which it takes as an echo. The bridge ends with status 1 when another node takes the address, or the child ends.

With --interface and --channel the bus is one of python-can (socketcan and can0, virtual and any name). Then the lines of the standard
input are the operator's: press ID, release ID, select ID, number ID N, text ID TEXT and set AA. Screens go to the standard output.

Without them a line of the standard input is a frame, ID#HEX, or an operator's, with `! ` in front. Frames go to the standard output in
the same form, and screens to the error output. The bridge ends with the standard input.
"""
import argparse
import os
import queue
import re
import subprocess
import sys
import threading
import time

ROOT = os.path.dirname(os.path.dirname(os.path.abspath(__file__)))
PROGRAMS = [f'{ROOT}/crates/vt_replay/out/vt_replay', f'{ROOT}/out/quick/vt_replay']
FRAME = re.compile(r'([0-9A-Fa-f]{8})#((?:[0-9A-Fa-f]{2}){0,8})$')
STATUS_SECONDS = 1
TICK_SECONDS = 0.1
QUIET_MICROS = 250000
CLAIMS, REQUESTS = 0xEE00, 0xEA00


def micros():
    """The time of a monotonic clock, in microseconds."""
    return time.monotonic_ns() // 1000


def is_about_claims(frame):
    """Whether a frame, `ID#HEX`, is an address claim, or a request. The child answers requests for claims alone."""
    return (int(frame[:8], 16) >> 8 & 0x3FF00) in (CLAIMS, REQUESTS)


def reception(message):
    """The time at which a message was received. python-can tells it by the time of day, if the interface does, whose distance from the
    other clock is that of now."""
    age = time.time() - message.timestamp if message.timestamp else 0
    return micros() - max(0, int(age * 1000000))


class Pipe:
    """The standard input and output as a bus."""

    def __init__(self):
        self.people = sys.stderr

    def send(self, identifier, data):
        print(f'{identifier:08X}#{data.hex().upper()}', flush=True)

    def listen(self, events):
        """Puts what comes from outside to the events, with its time."""
        for line in sys.stdin:
            line = line.rstrip('\r\n')
            if line.startswith('! '):
                events.put(('action', line))
            elif FRAME.match(line):
                events.put(('frame', line, micros()))
            elif line:
                events.put(('odd', line))
        events.put(('end',))


class Bus:
    """A bus of python-can."""

    def __init__(self, words):
        try:
            import can
        except ImportError:
            sys.exit(f'bridge.py: {sys.executable} has no python-can: apt-get install python3-can, and run bridge.py by /usr/bin/python3')
        self.can = can
        more = {'bitrate': words.bitrate} if words.bitrate else {}
        try:
            self.bus = can.Bus(interface=words.interface, channel=words.channel, receive_own_messages=False, **more)
        except (can.CanError, OSError, ValueError) as error:
            sys.exit(f'bridge.py: {words.interface} {words.channel} cannot be opened: {error}')
        self.people = sys.stdout

    def send(self, identifier, data):
        self.bus.send(self.can.Message(arbitration_id=identifier, data=data, is_extended_id=True))

    def listen(self, events):
        threading.Thread(target=self.listen_to_operator, args=[events], daemon=True).start()
        for message in self.bus:
            if message.is_extended_id and not (message.is_remote_frame or message.is_error_frame or message.is_fd):
                events.put(('frame', f'{message.arbitration_id:08X}#{message.data.hex().upper()}', reception(message)))

    def listen_to_operator(self, events):
        for line in sys.stdin:
            line = line.rstrip('\r\n')
            if line:
                events.put(('action', line if line.startswith('! ') else f'! {line}'))


class Terminal:
    """The child, its address and its last status."""

    def __init__(self, program, own, name, events):
        self.own, self.name = own, bytes.fromhex(name)[::-1]
        self.status = bytes.fromhex('FEFEFFFFFFFF00FF')
        words = [program, '-', '--own', f'{own:02X}', '--name', name]
        try:
            self.child = subprocess.Popen(words, stdin=subprocess.PIPE, stdout=subprocess.PIPE, text=True, encoding='latin-1')
        except OSError as error:
            sys.exit(f'bridge.py: {program}: {error.strerror}: PROGRAM is the path of vt_replay')
        threading.Thread(target=self.listen, args=[events], daemon=True).start()

    def listen(self, events):
        """Puts each line that the child prints to the events."""
        for line in self.child.stdout:
            events.put(('printed', line.rstrip('\n')))
        events.put(('gone',))

    def claim(self):
        return 0x18EEFF00 | self.own, self.name

    def status_frame(self):
        return 0x14E6FF00 | self.own, self.status

    def tell(self, line):
        """Gives the child a line. One that is gone is found by its output."""
        try:
            self.child.stdin.write(line + '\n')
            self.child.stdin.flush()
        except BrokenPipeError:
            pass

    def hear(self, frame, at):
        self.tell(f'({at // 1000000}.{at % 1000000:06}) can0 {frame}')

    def tick(self):
        """Tells the child the time, by an echo."""
        identifier, data = self.status_frame()
        self.hear(f'{identifier:08X}#{data.hex().upper()}', micros())

    def is_status(self, identifier, data):
        return identifier == self.status_frame()[0] and data[:1] == b'\xfe'

    def is_loss(self, identifier, data):
        """Whether a frame is the terminal's Cannot Claim."""
        return identifier == 0x18EEFFFE and data == self.name


class Bridge:
    def __init__(self, bus, terminal):
        self.bus, self.terminal = bus, terminal
        self.quiet_end = 0
        self.fault = None
        self.is_ending = False

    def take_printed(self, line):
        """Takes a line that the child printed: a frame to send, or words for people."""
        match = FRAME.match(line)
        if not match:
            print(line, file=self.bus.people, flush=True)
            return
        identifier, data = int(match[1], 16), bytes.fromhex(match[2])
        self.bus.send(identifier, data)
        if self.terminal.is_status(identifier, data):
            self.terminal.status = data
        if self.terminal.is_loss(identifier, data):
            self.fault = 'another node took the address'

    def hear(self, frame, at):
        """Gives the child a frame. Right after the claim one that might be answered with something else is passed over."""
        if at >= self.quiet_end or is_about_claims(frame):
            self.terminal.hear(frame, at)

    def take(self, event):
        kind, *more = event
        if kind == 'frame':
            self.hear(*more)
        elif kind == 'action':
            self.terminal.tick()
            self.terminal.tell(*more)
        elif kind == 'printed':
            self.take_printed(*more)
        elif kind == 'odd':
            print(f'this is no frame: {more[0]}', file=self.bus.people, flush=True)
        elif kind == 'end':
            self.is_ending = True
            self.terminal.child.stdin.close()
        elif kind == 'gone':
            self.fault = self.fault or 'the program ended'

    def run(self, events):
        self.bus.send(*self.terminal.claim())
        self.quiet_end = micros() + QUIET_MICROS
        next_status = time.monotonic() + STATUS_SECONDS
        next_tick = time.monotonic() + TICK_SECONDS
        while not self.fault:
            wait = min(next_status, next_tick) - time.monotonic()
            try:
                self.take(events.get(timeout=max(wait, 0)))
            except queue.Empty:
                pass
            if self.is_ending:
                continue
            if time.monotonic() >= next_tick and events.empty():
                next_tick = time.monotonic() + TICK_SECONDS
                self.terminal.tick()
            if time.monotonic() >= next_status:
                next_status += STATUS_SECONDS
                if next_status <= time.monotonic():
                    next_status = time.monotonic() + STATUS_SECONDS
                self.bus.send(*self.terminal.status_frame())
        return 0 if self.is_ending and self.fault == 'the program ended' else 1


def hex_of(digits):
    def read(text):
        if not re.fullmatch('[0-9A-Fa-f]{%d}' % digits, text):
            raise argparse.ArgumentTypeError(f'{text}: {digits} hex digits are wanted')
        return text
    return read


def words_of():
    parser = argparse.ArgumentParser(description=__doc__.split('\n')[0])
    parser.add_argument('--own', type=hex_of(2), default='26', metavar='AA')
    parser.add_argument('--name', type=hex_of(16), default='20001D0000000001', metavar='N')
    parser.add_argument('--interface', metavar='TYPE')
    parser.add_argument('--channel', metavar='NAME')
    parser.add_argument('--bitrate', type=int, metavar='N')
    parser.add_argument('program', nargs='?', metavar='PROGRAM')
    words = parser.parse_args()
    if (words.interface is None) != (words.channel is None):
        parser.error('--interface and --channel are given together or not at all')
    if int(words.own, 16) > 0xFD:
        parser.error(f'--own {words.own}: an address up to FD is wanted')
    words.program = words.program or found_program()
    return words


def found_program():
    """The vt_replay of this repository, proved or a quick build."""
    for path in filter(os.path.exists, PROGRAMS):
        print(f'bridge.py: runs {path}', file=sys.stderr)
        return path
    sys.exit('bridge.py: vt_replay is not there: make build proves it, make quick builds it without a proof, and PROGRAM names another one')


def main():
    words = words_of()
    events = queue.Queue()
    bus = Bus(words) if words.interface else Pipe()
    terminal = Terminal(words.program, int(words.own, 16), words.name, events)
    threading.Thread(target=bus.listen, args=[events], daemon=True).start()
    bridge = Bridge(bus, terminal)
    status = bridge.run(events)
    if status:
        print(f'bridge.py: {bridge.fault}', file=sys.stderr)
        terminal.child.terminate()
    sys.stdout.flush()
    os._exit(status)


if __name__ == '__main__':
    main()
