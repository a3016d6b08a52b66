"""The open pages. Each has a letter box of its own, so that a page that is slow or closed holds up nothing."""
from __future__ import annotations

import asyncio
import json
from collections import deque
from collections.abc import Awaitable, Callable, Iterator
from typing import Any

MOST_LINES = 400  # of the bus that wait for a page; older ones are left out, and counted
MOST_NOTES = 50
PATIENCE = 20.0  # seconds until a page that takes nothing is given up
HISTORY = 300  # lines of the bus that a new page gets

Message = dict[str, Any]


class Page:
    """What waits for one page. Of a message with a `kind` that tells a state only the last one waits."""

    def __init__(self) -> None:
        self.held: set[int] = set()  # keys and buttons that the operator holds on this page
        self._states: dict[str, Message] = {}
        self._notes: deque[Message] = deque(maxlen=MOST_NOTES)
        self._lines: deque[list[Any]] = deque()
        self._left_out = 0
        self._is_waiting = asyncio.Event()

    def tell(self, message: Message) -> None:
        """A message that takes the place of an earlier one of its kind."""
        self._states[message['kind']] = message
        self._is_waiting.set()

    def note(self, message: Message) -> None:
        """A message that stands for itself."""
        self._notes.append(message)
        self._is_waiting.set()

    def add_lines(self, lines: list[list[Any]]) -> None:
        """Lines of the bus."""
        self._lines.extend(lines)
        while len(self._lines) > MOST_LINES:
            self._lines.popleft()
            self._left_out += 1
        self._is_waiting.set()

    async def run(self, send: Callable[[str], Awaitable[None]]) -> None:
        """Sends what waits, until the page is closed or takes nothing for too long."""
        while True:
            await self._is_waiting.wait()
            self._is_waiting.clear()
            await _in_time(send(json.dumps(self._taken(), separators=(',', ':'))))

    def _taken(self) -> list[Message]:
        messages = [*self._states.values(), *self._notes]
        if self._lines or self._left_out:
            messages.append({'kind': 'lines', 'lines': list(self._lines), 'left_out': self._left_out})
        self._states, self._left_out = {}, 0
        self._notes.clear()
        self._lines.clear()
        return messages


class Audience:
    """All pages, and what one that comes later has to know."""

    def __init__(self) -> None:
        self.pages: set[Page] = set()
        self._states: dict[str, Message] = {}
        self._picture: Message = {}
        self._history: deque[list[Any]] = deque(maxlen=HISTORY)

    def __bool__(self) -> bool:
        return bool(self.pages)

    def __iter__(self) -> Iterator[Page]:
        return iter(list(self.pages))

    def add(self, page: Page) -> None:
        """A page that has come gets all states and the last lines of the bus."""
        self.pages.add(page)
        for message in self._states.values():
            page.tell(message)
        page.add_lines(list(self._history))

    def remove(self, page: Page) -> None:
        """A page that is closed."""
        self.pages.discard(page)

    def tell(self, message: Message) -> None:
        """Tells all pages of a state, also those that come later, unless they know it."""
        if self._states.get(message['kind']) == message:
            return
        self._states[message['kind']] = message
        for page in self.pages:
            page.tell(message)

    def tell_picture(self, message: Message, at: float | None) -> None:
        """Tells all pages of a picture, unless it is the last one, with the time of day of the change that it shows."""
        if self._picture != message:
            self._picture = message
            self.tell({**message, 'at': at})

    def note(self, message: Message, only: Page | None = None) -> None:
        """Tells all pages, or only one, of something that happened."""
        for page in (only,) if only is not None else self.pages:
            page.note(message)

    def add_lines(self, lines: list[list[Any]]) -> None:
        """Lines of the bus, for all pages."""
        self._history.extend(lines)
        for page in self.pages:
            page.add_lines(lines)


async def _in_time(sending: Awaitable[None]) -> None:
    """Waits for a message to be sent. TimeoutError if it takes too long. (Before Python 3.12 asyncio.wait_for may lose a cancellation.)"""
    task = asyncio.ensure_future(sending)
    task.add_done_callback(lambda each: each.cancelled() or each.exception())  # (a page that goes is no fault)
    try:
        done, _ = await asyncio.wait({task}, timeout=PATIENCE)
    finally:
        if not task.done():
            task.cancel()
    if not done:
        raise asyncio.TimeoutError
    task.result()
