"""A CAN bus in simulated time: nodes without I/O and without a clock, joined by one clock of microseconds."""
from __future__ import annotations

from collections import deque
from collections.abc import Callable, Sequence
from dataclasses import dataclass
from typing import Protocol

from .frames import Frame, text_of

SECOND = 1_000_000
BITS = 67  # of a frame with an identifier of 29 bits and without data; stuffed bits are not counted


class Node(Protocol):
    """What a bus wants of a node. All times are microseconds, and each call returns the frames to send."""

    @property
    def deadline(self) -> int | None:
        """The time at which the node wants a tick, or `None`."""

    def start(self, time: int) -> Sequence[Frame]:
        """The node is on the bus from now on."""

    def hear(self, time: int, id: int, data: bytes) -> Sequence[Frame]:
        """Hears a frame of another node."""

    def tick(self, time: int) -> Sequence[Frame]:
        """Does what is due."""


@dataclass(frozen=True)
class Seen:
    """A frame that was on the bus, with the time in microseconds at which it was whole."""
    time: int
    id: int
    data: bytes

    def __str__(self) -> str:
        return f'({self.time / SECOND:.6f}) can0 {text_of(self.id, self.data)}'


class Bus:
    """The frames of each node wait in a queue. When the bus is free, the first frame with the lowest identifier is sent, and takes the
    time that its bits take."""

    def __init__(self, bits_a_second: int = 250_000, most_seen: int = 100_000) -> None:
        self.time = 0
        self.bits_a_second = bits_a_second
        self.seen: deque[Seen] = deque(maxlen=most_seen)
        self.count = 0  # of all frames that were on the bus
        self.on_frame: Callable[[Seen], None] = lambda seen: None
        self._queues: dict[int, deque[Frame]] = {}
        self._nodes: list[Node] = []
        self._ticked: dict[int, int] = {}
        self._sending: int | None = None
        self._frame: Frame | None = None
        self._end = 0

    def attach(self, node: Node) -> None:
        """Puts a node on the bus, and starts it."""
        self._nodes.append(node)
        self._queues[id(node)] = deque()
        self.send(node, node.start(self.time))

    def detach(self, node: Node) -> None:
        """Takes a node off the bus. Frames of it that were not sent are lost."""
        self._nodes = [each for each in self._nodes if each is not node]
        self._queues.pop(id(node), None)
        if self._sending == id(node):
            self._sending = self._frame = None

    def send(self, node: Node, frames: Sequence[Frame]) -> None:
        """Queues frames of a node on the bus."""
        self._queues[id(node)].extend(frames)

    def run(self, microseconds: int) -> None:
        """Moves the time on by so much, with all that happens meanwhile."""
        end = self.time + microseconds
        while self.step(end):
            pass

    @property
    def deadline(self) -> int | None:
        """The time at which the next thing happens, or `None` if nothing ever does. It may be before the time of the bus."""
        self._begin_frame()
        times = [self._due(node) for node in self._nodes]
        if self._frame is not None:
            times.append(self._end)
        return min((time for time in times if time is not None), default=None)

    def step(self, end: int) -> bool:
        """Does the next thing that happens up to `end`. If nothing does, the time is `end` then, and the answer is `False`."""
        next_time = self.deadline
        if next_time is None or next_time > end:
            self.time = max(end, self.time)
            return False
        self.time = max(next_time, self.time)
        if self._frame and self._end <= self.time:
            self._end_frame()
        else:
            self._tick()
        return True

    def _begin_frame(self) -> None:
        if self._frame is not None:
            return
        waiting = [(queue[0].id, key) for key, queue in self._queues.items() if queue]
        if waiting:
            _, self._sending = min(waiting)
            self._frame = self._queues[self._sending].popleft()
            self._end = self.time + (BITS + 8 * len(self._frame.data)) * SECOND // self.bits_a_second

    def _end_frame(self) -> None:
        assert self._frame is not None
        frame, sender, self._frame, self._sending = self._frame, self._sending, None, None
        seen = Seen(self.time, frame.id, bytes(frame.data))
        self.seen.append(seen)
        self.count += 1
        self.on_frame(seen)
        for node in list(self._nodes):
            if id(node) != sender and id(node) in self._queues:
                self.send(node, node.hear(self.time, frame.id, seen.data))

    def _due(self, node: Node) -> int | None:
        """When a node is ticked: at its deadline, but two ticks of one node are a millisecond apart."""
        if node.deadline is None:
            return None
        return max(node.deadline, self._ticked.get(id(node), -SECOND) + 1000)

    def _tick(self) -> None:
        for node in list(self._nodes):
            due = self._due(node)
            if due is not None and due <= self.time:
                self._ticked[id(node)] = self.time
                self.send(node, node.tick(self.time))
