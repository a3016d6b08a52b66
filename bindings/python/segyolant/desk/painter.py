"""Pictures for the pages: the shown mask, the sets and their designators, whenever they may have changed, with a pause between two."""
from __future__ import annotations

import asyncio
import time
from collections.abc import Iterator
from typing import TYPE_CHECKING, Any

from ..events import Event
from . import views
from .kinds import Kinds

if TYPE_CHECKING:
    from .desk import Desk

GAP = 0.02  # seconds between two pictures
SHARE = 1.0  # at least so many times the time that a picture took passes before the next one
SOME_IDS = 32  # that are looked at at once for a Working Set object
WORKING_SET = 0


class Painter:
    """Tells the pages what they show. Without a page nothing is drawn."""

    def __init__(self, desk: Desk) -> None:
        self.desk = desk
        self._look: int | None = None
        self._changed_at: int | None = None
        self._next = 0.0
        self._timer: asyncio.TimerHandle | None = None
        self._icons: dict[int, str] = {}
        self._kinds = Kinds(desk)
        self._finding: asyncio.TimerHandle | None = None

    def timers(self) -> Iterator[asyncio.TimerHandle | None]:
        """What is to be cancelled at the end."""
        yield from (self._timer, self._finding)

    def forget(self) -> None:
        """Another terminal is there."""
        self._look = None
        self._icons.clear()
        self._kinds.forget()
        self.paint_soon()

    def forget_sets(self, event: Event) -> None:
        """A set came or went, or has another pool: its designator may be another one."""
        self._icons.pop(getattr(event, 'address', -1), None)
        self._kinds.forget()
        self._look = None

    def note_change(self, moment: int) -> None:
        """An input was taken at a time: what is shown may have changed."""
        if self.desk.terminal.look != self._look:
            if self._changed_at is None:
                self._changed_at = moment
            self.paint_soon()

    def paint_soon(self) -> None:
        """Paints as soon as the pause since the last picture is over."""
        if self._timer is None and self.desk.audience and not self.desk.ended:
            wait = max(self._next - time.monotonic(), 0.0)
            self._timer = asyncio.get_running_loop().call_later(wait, self._paint)

    def _paint(self) -> None:
        self._timer = None
        desk, begun = self.desk, time.monotonic()
        if not desk.audience or desk.ended:
            return
        look, moment = desk.terminal.look, self._changed_at
        told = desk.guarded(lambda: self._told())
        self._look, self._changed_at = (look, None) if told is not None else (None, moment)
        self._next = time.monotonic() + max(GAP, SHARE * (time.monotonic() - begun))
        if told is None:
            self.paint_soon()
            return
        picture, state = told
        at = None if moment is None else desk.clock.wall(moment)
        desk.audience.tell({'kind': 'state', **state})
        desk.audience.tell_picture({'kind': 'picture', **picture}, at)

    def _told(self) -> tuple[dict[str, Any], dict[str, Any]]:
        terminal = self.desk.terminal
        sets = views.sets(terminal)
        shown = next((each for each in sets if each['shown']), None)
        for each in sets:
            each['icon'] = self._icons.get(each['address'], '')
            if each['pool'] and each['address'] not in self._icons:
                self._icons[each['address']] = ''
                self._find_icon(each['address'], 0)
        mask = shown['mask'] if shown else None
        state = {'sets': sets, 'shown': terminal.shown, 'mask': mask, 'mask_name': self.desk.names.get(mask or -1, ''),
                 'alarm': views.alarm(terminal, mask)}
        return views.picture(terminal, self._kinds), state

    def _find_icon(self, address: int, first: int) -> None:
        """Looks for the Working Set object among some IDs, and later among the next ones; most have a low one."""
        desk = self.desk
        if desk.ended or first > 0xFFFF or self._icons.get(address) != '':
            return
        id = desk.guarded(lambda: self._working_set(address, first))
        if id is None:
            self._finding = asyncio.get_running_loop().call_later(0.01, self._find_icon, address, first + SOME_IDS)
        else:
            self._icons[address] = desk.guarded(lambda: desk.terminal.part(id, address)) or ' '
            self._look = None
            self.paint_soon()

    def _working_set(self, address: int, first: int) -> int | None:
        requests = [{'do': 'object', 'address': address, 'object': id} for id in range(first, first + SOME_IDS)]
        for request, reply in zip(requests, self.desk.terminal.exchange(requests)):
            record = bytes.fromhex(reply.answer.get('value', {}).get('record', ''))
            if len(record) > 2 and record[2] == WORKING_SET:
                return int(str(request['object']))
        return None
