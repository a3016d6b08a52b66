"""The panel of the bus: each frame in words, each action of the operator, some at a time."""
from __future__ import annotations

import asyncio
import time
from collections.abc import Sequence
from typing import TYPE_CHECKING, Any

from ..canid import ETP_DATA, TP_DATA, destination_of, source_of
from ..errors import CoreEnded, SegyolantError
from ..frames import group_of, text_of
from ..naming import with_names

if TYPE_CHECKING:
    from .desk import Desk

GAP = 0.05  # seconds between two messages to the pages
MOST_IN_GAP = 40  # lines that are told in that time; further ones are counted
MOST_WORDS = 0.02  # seconds of that time in which the terminal is asked for words; further lines go without
ACTIONS = {'enter_raw': 'number', 'enter_text': 'text', 'enter_number': 'number', 'choose': 'set'}


class Trace:
    """Lines of the bus for the pages and for the recording.

    A line is its time of day, `in`, `out`, `operator` or the mood of a note, the frame, and words. The words are asked for when the lines
    are told, and not before each frame is heard, so that they hold up no picture. Where a pool came or went in that twentieth of a second,
    an object may be told by its ID alone.
    """

    def __init__(self, desk: Desk) -> None:
        self.desk = desk
        self._lines: list[list[Any]] = []
        self._left_out = 0
        self._timer: asyncio.TimerHandle | None = None

    def add(self, direction: str, moment: int, id: int, data: bytes) -> None:
        """A frame that comes in or goes out."""
        wall = self.desk.clock.wall(moment)
        if self.desk.recorder is not None:
            self.desk.recorder.frame(wall, id, data)
        self._add([round(wall, 6), direction, text_of(id, data), (id, data)])

    def add_action(self, action: str, arguments: Sequence[Any]) -> None:
        """What the operator did."""
        words = ' '.join([ACTIONS.get(action, action), *(_argument(action, each) for each in arguments)])
        recorder = self.desk.recorder
        if recorder is not None and action != 'enter_number':
            recorder.action(words)
        named = self.desk.names.get(arguments[0]) if action != 'choose' and arguments else None
        wall = self.desk.clock.wall(self.desk.clock.now())
        self._add([round(wall, 6), 'operator', '', words + (f' `{named}`' if named else '')])

    def add_note(self, text: str, mood: str) -> None:
        """What the pages are told in a sentence. It comes behind the frames that it speaks of."""
        self._add([round(self.desk.clock.wall(self.desk.clock.now()), 6), mood, '', text], is_kept=True)

    def timers(self) -> tuple[asyncio.TimerHandle | None, ...]:
        """What is to be cancelled at the end."""
        return (self._timer,)

    def _add(self, line: list[Any], is_kept: bool = False) -> None:
        if is_kept or len(self._lines) < MOST_IN_GAP:
            self._lines.append(line)
        else:
            self._left_out += 1
        if self._timer is None:
            self._timer = asyncio.get_running_loop().call_later(GAP, self._flush)

    def _flush(self) -> None:
        self._timer = None
        lines, self._lines = self._lines, []
        end = time.monotonic() + MOST_WORDS
        for line in lines:
            if isinstance(line[3], tuple):
                is_asked = bool(self.desk.audience) and not self.desk.ended and time.monotonic() < end
                line[3] = self._words(*line[3]) if is_asked else ''
        if self._left_out:
            lines.append([lines[-1][0] if lines else 0, 'left-out', '', f'{self._left_out} more frames'])
            self._left_out = 0
        self.desk.audience.add_lines(lines)

    def _words(self, id: int, data: bytes) -> str:
        if group_of(id) in (TP_DATA, ETP_DATA) and data:
            return f'{source_of(id):02X} to {destination_of(id):02X}: packet {data[0]} of a long message'
        try:
            return with_names(self.desk.terminal.words(id, data), self.desk.names)
        except CoreEnded:
            return ''  # the next call of the terminal begins another one
        except SegyolantError as error:
            return str(error)


def _argument(action: str, value: Any) -> str:
    if action == 'choose':
        return f'{value:02X}'
    return value.decode('latin-1') if isinstance(value, bytes) else str(value)
