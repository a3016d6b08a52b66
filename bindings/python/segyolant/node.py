"""A terminal as a node of a simulated bus: its host, with a clock that the bus tells."""
from __future__ import annotations

from collections.abc import Callable, Sequence
from typing import Any

from .frames import Frame
from .host import Host
from .outputs import Output
from .terminal import Terminal

Told = Callable[[int, Sequence[Output]], None]


class TerminalNode:
    """A terminal on a Bus. `told` is called after each input with the time and all its outputs, also those that are no frames."""

    def __init__(self, terminal: Terminal, told: Told = lambda time, outputs: None, host: Host | None = None) -> None:
        self.terminal, self.told = terminal, told
        self.host = Host(terminal) if host is None else host

    @property
    def deadline(self) -> int | None:
        """The time at which the host wants to run."""
        return self.host.wake()

    def start(self, time: int) -> list[Frame]:
        """Claims the address."""
        return self._frames(time, self.host.start(time))

    def hear(self, time: int, id: int, data: bytes) -> list[Frame]:
        """Hears a frame of the bus."""
        self.host.receive(time, id, data)
        return self.tick(time)

    def tick(self, time: int) -> list[Frame]:
        """Does what is due."""
        return self._frames(time, self.host.run(time))

    def act(self, time: int, action: str, *arguments: Any) -> list[Frame]:
        """Does what the operator did, by the name of a method of Host."""
        return self._frames(time, getattr(self.host, action)(time, *arguments))

    def _frames(self, time: int, outputs: Sequence[Output]) -> list[Frame]:
        self.told(time, outputs)
        return [output for output in outputs if isinstance(output, Frame)]
