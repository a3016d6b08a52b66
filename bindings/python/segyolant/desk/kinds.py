"""The kinds of the objects of the shown set. They stay while its pool stays, so they are asked for once."""
from __future__ import annotations

from typing import TYPE_CHECKING

if TYPE_CHECKING:
    from .desk import Desk


class Kinds:
    """Kinds by IDs, asked of the terminal where they are not known."""

    def __init__(self, desk: Desk) -> None:
        self._desk = desk
        self._address: int | None = None
        self._kinds: dict[int, int] = {}

    def forget(self) -> None:
        """A pool may be another one."""
        self._kinds.clear()

    def of(self, id: int) -> int:
        """The kind of an element of the shown mask."""
        terminal = self._desk.terminal
        if terminal.shown != self._address:
            self._address = terminal.shown
            self._kinds.clear()
        if id not in self._kinds:
            self._kinds.update((element.id, element.kind) for element in terminal.elements())
            self._kinds.setdefault(id, -1)
        return self._kinds[id]
