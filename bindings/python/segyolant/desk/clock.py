"""Clocks of microseconds that do not jump: that of this machine, and one that a log is played by."""
from __future__ import annotations

import time

SECOND = 1_000_000


class Clock:
    """The clock of this machine. It counts from an arbitrary moment."""

    def now(self) -> int:
        """The time, in microseconds."""
        return time.monotonic_ns() // 1000

    def seconds_until(self, moment: int) -> float | None:
        """In how many seconds it will be that time, at least 0. `None` if the clock stands still."""
        return max(moment - self.now(), 0) / SECOND

    def wall(self, moment: int) -> float:
        """The time of day at a time of this clock, in seconds since 1970."""
        return time.time() + (moment - self.now()) / SECOND


class SlowClock(Clock):
    """The clock of a simulated bus. Where the simulation cannot keep up it is put back, and the simulated world goes slower."""

    def __init__(self) -> None:
        self._slip = 0
        self._held: int | None = None

    def now(self) -> int:
        return super().now() - self._slip if self._held is None else self._held

    def hold(self, moment: int) -> None:
        """It is this time until `go_on`, as something simulated happens at it."""
        self._held = moment

    def go_on(self, moment: int | None = None) -> None:
        """Goes on, from a moment that may be in the past."""
        self._held = None
        if moment is not None:
            self._slip += max(self.now() - moment, 0)


class PlayClock(Clock):
    """The clock of a log. It can stand still, go faster or slower, and be put forward; it never goes back.

    It does not go beyond `limit`, the time of what is played next, so that a slow terminal does not see time run away from its frames.
    """

    def __init__(self, start: int, speed: float = 1.0) -> None:
        self.limit = start
        self._at, self._since, self._speed, self._runs = start, super().now(), speed, False

    def now(self) -> int:
        if not self._runs:
            return self._at
        return max(self._at, min(self._at + round((super().now() - self._since) * self._speed), self.limit))

    def seconds_until(self, moment: int) -> float | None:
        return max(moment - self.now(), 0) / SECOND / self._speed if self._runs else None

    def wall(self, moment: int) -> float:
        return moment / SECOND

    @property
    def runs(self) -> bool:
        """Whether the clock goes on."""
        return self._runs

    @property
    def speed(self) -> float:
        """How many seconds of the log go by in a second."""
        return self._speed

    def set(self, runs: bool | None = None, speed: float | None = None, at_least: int = 0) -> None:
        """Starts or stops the clock, changes its speed, or puts it forward to a time."""
        self._at, self._since = max(self.now(), at_least), super().now()
        self._runs = self._runs if runs is None else runs
        self._speed = self._speed if speed is None else speed
