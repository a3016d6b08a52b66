"""Long messages in packets (ISO 11783-3), without I/O and without a clock: TP up to 1,785 bytes, ETP beyond.

A session is given the control frames and packets that come from its peer, and the time in microseconds. It returns the frames to
send. `deadline` is the time at which it wants a `tick`, or `None`.
"""
from __future__ import annotations


from .canid import ETP_CONTROL, ETP_DATA, TP_CONTROL, TP_DATA, identifier
from .frames import Frame

MOST_BY_TP, MOST_BY_ETP = 1785, 117_440_505
PATIENCE = 1_250_000  # microseconds without a frame of the peer
PAUSE = 500_000  # microseconds before a message that was refused begins anew
RESOURCES, TIMEOUT = 2, 3

RTS, CTS, TP_END = 0x10, 0x11, 0x13
EXTENDED_RTS, EXTENDED_CTS, OFFSET, EXTENDED_END = 0x14, 0x15, 0x16, 0x17
ABORT = 0xFF


class Sender:
    """Sends one message to one node, and sends it again where it was aborted or not answered, up to `tries` times in all.

    `is_done` says whether the message arrived. `fault` says why it never will, and is empty otherwise.
    """

    def __init__(self, data: bytes, group: int, source: int, to: int, tries: int = 3, is_extended: bool | None = None) -> None:
        if not 9 <= len(data) <= MOST_BY_ETP:
            raise ValueError(f'a message in packets has 9 to {MOST_BY_ETP} bytes, and not {len(data)}')
        self.data, self.group, self.source, self.to, self.tries = bytes(data), group, source, to, tries
        self.is_extended = len(data) > MOST_BY_TP if is_extended is None else is_extended
        self.packets = (len(data) + 6) // 7
        self.is_done, self.fault = False, ''
        self.deadline: int | None = None
        self.is_pausing = False

    def start(self, time: int) -> list[Frame]:
        """Asks the peer to take the message."""
        self.tries -= 1
        self.deadline, self.is_pausing = time + PATIENCE, False
        if self.is_extended:
            return [self._control(bytes([EXTENDED_RTS]) + len(self.data).to_bytes(4, 'little'))]
        return [self._control(bytes([RTS]) + len(self.data).to_bytes(2, 'little') + bytes([self.packets, 0xFF]))]

    def hear(self, time: int, group: int, data: bytes) -> list[Frame]:
        """Hears a control frame of the peer to this node. Frames of other sessions are passed over."""
        control = ETP_CONTROL if self.is_extended else TP_CONTROL
        if self.is_done or self.fault or self.is_pausing or group != control or len(data) < 8:
            return []
        if data[5:8] != self.group.to_bytes(3, 'little'):
            return []
        if data[0] == ABORT:
            return self._begin_later(time, f'the peer aborted the message, reason {data[1]}')
        if data[0] == (EXTENDED_END if self.is_extended else TP_END):
            self.is_done, self.deadline = True, None
        if data[0] == (EXTENDED_CTS if self.is_extended else CTS):
            self.deadline = time + PATIENCE
            return self._packets(data[1], int.from_bytes(data[2:5], 'little') if self.is_extended else data[2])
        return []

    def tick(self, time: int) -> list[Frame]:
        """Moves the time on: a peer that says nothing is told that the session ends, and is asked again."""
        if self.deadline is None or time < self.deadline:
            return []
        if self.is_pausing:
            return self.start(time)
        return [self._abort(TIMEOUT), *self._begin_later(time, 'the peer did not answer')]

    def _begin_later(self, time: int, fault: str) -> list[Frame]:
        if self.tries == 0:
            self.fault, self.deadline = fault, None
        else:
            self.is_pausing, self.deadline = True, time + PAUSE
        return []

    def _packets(self, count: int, first: int) -> list[Frame]:
        """The packets that the peer asks for, numbered from 1; none if it asks to wait."""
        last = min(first + count, self.packets + 1)
        frames = []
        if self.is_extended and count > 0:
            frames.append(self._control(bytes([OFFSET, last - first]) + (first - 1).to_bytes(3, 'little')))
        for number in range(first, last):
            piece = self.data[7 * number - 7:7 * number].ljust(7, b'\xff')
            sequence = number - first + 1 if self.is_extended else number
            frames.append(self._frame(ETP_DATA if self.is_extended else TP_DATA, bytes([sequence]) + piece))
        return frames

    def _abort(self, reason: int) -> Frame:
        return self._control(bytes([ABORT, reason, 0xFF, 0xFF, 0xFF]))

    def _control(self, head: bytes) -> Frame:
        control = ETP_CONTROL if self.is_extended else TP_CONTROL
        return self._frame(control, head.ljust(5, b'\xff') + self.group.to_bytes(3, 'little'))

    def _frame(self, group: int, data: bytes) -> Frame:
        return Frame(identifier(7, group, self.source, self.to), data)


class Receiver:
    """Receives messages by TP from one node. Packets that are missing are asked for again, twice."""

    def __init__(self, source: int, peer: int, window: int = 16) -> None:
        self.source, self.peer, self.window = source, peer, window
        self.deadline: int | None = None
        self._packets: dict[int, bytes] = {}
        self._size = self._count = self._last = self._asked_again = 0
        self._group = b''

    def hear(self, time: int, group: int, data: bytes) -> tuple[list[Frame], tuple[int, bytes] | None]:
        """Hears a control frame or packet of the peer to this node. Returns the frames to send, and the parameter group with the
        bytes of a message that is whole now."""
        if len(data) < 8:
            return [], None
        if group == TP_CONTROL and data[0] == RTS:
            return self._open(time, data), None
        if group == TP_CONTROL and data[0] == ABORT and data[5:8] == self._group:
            self.deadline = None
        if group == TP_DATA and self.deadline is not None and 1 <= data[0] <= self._count:
            return self._take(time, data)
        return [], None

    def tick(self, time: int) -> list[Frame]:
        """Moves the time on: missing packets are asked for, and a peer that says nothing more is told that the session ends."""
        if self.deadline is None or time < self.deadline:
            return []
        if self._asked_again == 2:
            self.deadline = None
            return [self._control(bytes([ABORT, TIMEOUT, 0xFF, 0xFF, 0xFF]))]
        self._asked_again += 1
        return self._ask(time)

    def _open(self, time: int, data: bytes) -> list[Frame]:
        self._size, self._count, self._group = int.from_bytes(data[1:3], 'little'), data[3], data[5:8]
        self._packets, self._asked_again = {}, 0
        return self._ask(time)

    def _take(self, time: int, data: bytes) -> tuple[list[Frame], tuple[int, bytes] | None]:
        self._packets[data[0]] = data[1:8]
        self.deadline = time + PATIENCE
        if len(self._packets) == self._count:
            self.deadline = None
            whole = b''.join(self._packets[number] for number in range(1, self._count + 1))[:self._size]
            end = bytes([TP_END]) + self._size.to_bytes(2, 'little') + bytes([self._count, 0xFF])
            return [self._control(end)], (int.from_bytes(self._group, 'little'), whole)
        return (self._ask(time) if data[0] == self._last else []), None

    def _ask(self, time: int) -> list[Frame]:
        """Asks for the packets from the first one that is missing."""
        first = next(number for number in range(1, self._count + 2) if number not in self._packets)
        self._last = min(first + self.window - 1, self._count)
        self.deadline = time + PATIENCE
        return [self._control(bytes([CTS, self._last - first + 1, first, 0xFF, 0xFF]))]

    def _control(self, head: bytes) -> Frame:
        return Frame(identifier(7, TP_CONTROL, self.source, self.peer), head + self._group)
