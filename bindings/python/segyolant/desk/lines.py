"""The buses of the desk that need no hardware: one in this process with simulated implements, and one that a log is played on.

A line is opened with a function to which it gives the frames that it receives, each with its time on the clock of the desk, and is given
the frames to send.
"""
from __future__ import annotations

import asyncio
import os
import time
from collections.abc import Callable, Sequence
from typing import Any, Protocol

from ..bus import Bus, Node
from ..errors import LogError
from ..frames import Frame
from ..log_lines import ActionLine, FaultyLine, FrameLine, read_log
from .clock import SECOND, Clock, PlayClock, SlowClock

Received = tuple[int, int, bytes]
Hear = Callable[[Sequence[Received]], None]
Act = Callable[[ActionLine], None]

AT_ONCE = 500  # lines of a log that are played before the pages have their turn
BUDGET = 0.03  # seconds that a simulated bus may take before the pages have their turn
QUIET = 300_000  # microseconds before the first line, in which the terminal claims its address


class Line(Protocol):
    """What the desk wants of a bus."""

    name: str
    clock: Clock

    def open(self, hear: Hear) -> None:
        """Begins to receive. `hear` is called in the loop of the desk."""

    def send(self, frames: Sequence[Frame]) -> None:
        """Sends frames, soon and in their order."""

    def close(self) -> None:
        """Ends it."""


class InternalLine:
    """A bus of 250 kbit/s in this process, with simulated nodes."""

    def __init__(self, nodes: Sequence[Node], name: str = 'simulated') -> None:
        self.name = name
        self.clock = self._clock = SlowClock()
        self.bus = Bus(most_seen=1)
        self.bus.time = self.clock.now()
        self._nodes = nodes
        self._gate = _Gate(self._heard)
        self._timer: asyncio.TimerHandle | None = None
        self._is_running = False

    def open(self, hear: Hear) -> None:
        self._hear = hear
        self.bus.time = self.clock.now()
        self.bus.attach(self._gate)
        for node in self._nodes:
            self.bus.attach(node)
        self._plan()

    def send(self, frames: Sequence[Frame]) -> None:
        if not self._is_running:
            self._advance()
        self.bus.send(self._gate, frames)
        self._plan()

    def close(self) -> None:
        if self._timer is not None:
            self._timer.cancel()

    def _heard(self, moment: int, id: int, data: bytes) -> None:
        self._clock.hold(moment)
        self._hear([(moment, id, data)])

    def _advance(self) -> None:
        """Lets happen what is to have happened by now, or so much of it as there is time for."""
        end, most = self.clock.now(), time.monotonic() + BUDGET
        self._is_running = True
        is_late = False
        try:
            while not is_late and self.bus.step(end):
                is_late = time.monotonic() > most
        finally:
            self._is_running = False
            self._clock.go_on(self.bus.time if is_late else None)

    def _run(self) -> None:
        self._advance()
        self._plan()

    def _plan(self) -> None:
        if self._timer is not None:
            self._timer.cancel()
        deadline = self.bus.deadline
        if deadline is not None:
            seconds = self.clock.seconds_until(deadline) or 0.0
            self._timer = asyncio.get_running_loop().call_later(max(seconds, 0.0005), self._run)


class _Gate:
    """The terminal's place on a simulated bus: what it hears goes to the desk, and what it sends comes from there."""

    deadline = None

    def __init__(self, heard: Callable[[int, int, bytes], None]) -> None:
        self._heard = heard

    def start(self, time: int) -> Sequence[Frame]:
        return []

    def hear(self, time: int, id: int, data: bytes) -> Sequence[Frame]:
        self._heard(time, id, data)
        return []

    def tick(self, time: int) -> Sequence[Frame]:
        return []


class LogLine:
    """A log, played by its own times. Frames of the terminal's address are left out, as the terminal sends its own.

    It is read as it is played. `told` is called when something of `state` has changed, and `warn` with `problems`: when the first one is
    found, and at the end of the log.
    """

    def __init__(self, path: str | os.PathLike[str], own: int, act: Act = lambda line: None) -> None:
        self.name, self.own, self.act = os.path.basename(path), own, act
        self.told: Callable[[], None] = lambda: None
        self.warn: Callable[[str], None] = lambda problems: None
        self.position, self.faults, self.fault, self.is_over = 0, 0, '', False
        self._first_faulty: FaultyLine | None = None
        self._has_frames = self._has_warned = self._has_warned_at_end = False
        self._size = max(os.path.getsize(path), 1)
        self._file = open(path, 'rb')
        self._lines = read_log(self._file)
        self._read = 0
        self._next: FrameLine | ActionLine | None = self._next_line()
        self._first = self._next.time if isinstance(self._next, FrameLine) else 0
        self._shift = max(QUIET - self._first, 0)
        self.clock: PlayClock = _ShiftedClock(self._first + self._shift - QUIET, self._shift)
        self._timer: asyncio.TimerHandle | None = None

    @property
    def state(self) -> dict[str, Any]:
        """How far it is, for the pages."""
        return {'kind': 'player', 'name': self.name, 'line': self.position, 'part': self._read / self._size, 'runs': self.clock.runs,
                'speed': self.clock.speed, 'over': self.is_over, 'problems': self.problems,
                'time': round((self.clock.now() - self._shift - self._first) / SECOND, 1)}

    @property
    def problems(self) -> str:
        """What could not be read so far, in words, and whether the log has no frame. Empty if all is well."""
        found, first = [], self._first_faulty
        if first is not None and self.faults == 1:
            found.append(f'line {first.number} is faulty ({first.fault})')
        elif first is not None:
            found.append(f'{self.faults} lines are faulty, the first is line {first.number} ({first.fault})')
        if self.fault:
            found.append(self.fault)
        if self.is_over and not self._has_frames:
            found.append('the log has no frame')
        return '; '.join(found)

    def open(self, hear: Hear) -> None:
        self._hear = hear
        self._set_limit()
        self.clock.set(runs=True)
        self._plan()

    def send(self, frames: Sequence[Frame]) -> None:
        """Nobody hears what the terminal sends to a log."""

    def close(self) -> None:
        if self._timer is not None:
            self._timer.cancel()
        self._file.close()

    def play(self, runs: bool | None = None, speed: float | None = None) -> None:
        """Goes on, stands still, or changes the speed."""
        self.clock.set(runs, speed)
        self._plan()

    def step(self) -> None:
        """Stands still, and plays one line."""
        self.clock.set(runs=False)
        self._play_line()
        self._plan()

    def _run(self) -> None:
        for _ in range(AT_ONCE):
            line = self._next
            if line is None or isinstance(line, FrameLine) and line.time + self._shift > self.clock.now():
                break
            self._play_line()
        self._plan()

    def _play_line(self) -> None:
        line = self._next
        if line is None:
            return
        self.position = line.number
        if isinstance(line, ActionLine):
            self.act(line)
        else:
            self.clock.set(at_least=line.time + self._shift)
            if line.frame.source != self.own:
                self._hear([(line.time + self._shift, line.frame.id, line.frame.data)])
        self._next = self._next_line()
        self._set_limit()

    def _set_limit(self) -> None:
        """The clock goes up to the next line. At the end it stands still, and what is shown stays."""
        if isinstance(self._next, FrameLine):
            self.clock.limit = max(self._next.time + self._shift, self.clock.limit)
        elif self._next is None:
            self.clock.set(runs=False)

    def _next_line(self) -> FrameLine | ActionLine | None:
        """The next line that does something."""
        try:
            for line in self._lines:
                self._read = self._file.tell()
                if isinstance(line, FaultyLine):
                    self.faults += 1
                    self._first_faulty = self._first_faulty or line
                elif isinstance(line, (FrameLine, ActionLine)):
                    self._has_frames |= isinstance(line, FrameLine)
                    return line
        except (LogError, OSError) as error:
            self.fault = str(error)
        self.is_over = True
        return None

    def _plan(self) -> None:
        if self._timer is not None:
            self._timer.cancel()
        if self._next is not None and self.clock.runs:
            time = self._next.time + self._shift if isinstance(self._next, FrameLine) else 0
            self._timer = asyncio.get_running_loop().call_later(self.clock.seconds_until(time) or 0.0, self._run)
        self.told()
        self._warn_once()

    def _warn_once(self) -> None:
        """Warns of the first problem, and of all at the end."""
        if self.problems and not (self._has_warned_at_end if self.is_over else self._has_warned):
            self._has_warned, self._has_warned_at_end = True, self.is_over
            self.warn(self.problems)


class _ShiftedClock(PlayClock):
    """The clock of a log whose first line comes too early for a claim before it: it is put back by a shift."""

    def __init__(self, start: int, shift: int) -> None:
        super().__init__(start)
        self._shift = shift

    def wall(self, moment: int) -> float:
        return (moment - self._shift) / SECOND
