"""Logs: their lines (`read_log`), and replays, what a terminal answers to each line and what it shows then."""
from __future__ import annotations

import os
from collections import Counter
from collections.abc import Iterable, Iterator, Mapping
from dataclasses import dataclass
from typing import Union

from .checks import LATEST
from .errors import LogError
from .events import Event
from .frames import Frame, Refusal
from .live import Request
from .log_lines import ActionLine, CommentLine, FaultyLine, FrameLine, Line, SkippedLine, read_log
from .outputs import Output, outputs_of
from .terminal import STANDARD_NAME, STANDARD_OWN, Terminal

__all__ = ['Step', 'read_log', 'replay', 'replay_text']

Log = Union[str, 'os.PathLike[str]', Iterable[Union[str, bytes]]]

# How many lines are given to the core before their answers are read.
AT_ONCE = 500
COUNTED: tuple[tuple[str, type[Line]], ...] = (
    ('frames', FrameLine), ('operator', ActionLine), ('skipped', SkippedLine), ('comments', CommentLine), ('faults', FaultyLine),
)


@dataclass(frozen=True)
class Step:
    """What came of a line of a log. The step of the number 0 stands before the first line, and has the first screen.

    `time` is that of a frame, in microseconds, and else None. `outputs` has the frames, refusals and events in their order. `screen` is
    there where its text is another one than before. `text` is what `vt_replay` prints for the line.
    """

    number: int
    line: Line | None
    time: int | None = None
    outputs: tuple[Output, ...] = ()
    screen: str | None = None

    @property
    def frames(self) -> list[Frame]:
        """The frames that the terminal sends."""
        return [each for each in self.outputs if isinstance(each, Frame)]

    @property
    def refusals(self) -> list[Refusal]:
        """The refusals of the operator's action."""
        return [each for each in self.outputs if isinstance(each, Refusal)]

    @property
    def events(self) -> list[Event]:
        """What happened."""
        return [each for each in self.outputs if isinstance(each, Event)]

    @property
    def text(self) -> str:
        """What `vt_replay` prints for the line."""
        fault = f'line {self.number} {self.line.fault}\n' if isinstance(self.line, FaultyLine) else ''
        told = ''.join(f'{each}\n' for each in self.outputs if not isinstance(each, Event))
        return fault + told + (self.screen or '')


def replay(
    log: Log, pools: Mapping[int, bytes] = {}, own: int = STANDARD_OWN, name: int = STANDARD_NAME
) -> Iterator[Step]:
    """Replays a log, given by its path or as lines, to a terminal with these pools from the start, by the addresses of their sets.

    Yields the step of the number 0, and then one for each line. Some hundred lines are given at once, so that a long log goes fast.
    OSError if the log cannot be read; NoSuch and NoPool for a pool that cannot be there; LogError at a line longer than 4,096 bytes.
    """
    if isinstance(log, (str, os.PathLike)):
        with open(log, 'rb') as file:
            yield from replay(file, pools, own, name)
        return
    with Terminal(own, name, journal_bytes=0) as terminal:
        for address, pool in pools.items():
            terminal.preload(address, pool)
        shown = terminal.screen()
        yield Step(0, None, screen=shown)
        for lines in _parts(read_log(log)):
            for line, outputs, screen in _heard(terminal, lines):
                yield _step(line, outputs, None if screen == shown else screen)
                shown = shown if screen is None else screen


def replay_text(
    log: Log, pools: Mapping[int, bytes] = {}, own: int = STANDARD_OWN, name: int = STANDARD_NAME
) -> str:
    """What `vt_replay` prints for a log: the texts of its steps, and a last line of counts."""
    counts: Counter[type[Line]] = Counter()
    texts: list[str] = []
    for step in replay(log, pools, own, name):
        texts.append(step.text)
        if step.line is not None:
            counts[type(step.line)] += 1
    told = ' '.join(f'{word} {counts[kind]}' for word, kind in COUNTED)
    return ''.join(texts) + f'lines {sum(counts.values())} {told}\n'


def _parts(lines: Iterator[Line]) -> Iterator[list[Line]]:
    """The lines, some at a time. At one that cannot be read those before it come first, and then its error."""
    part: list[Line] = []
    wrong: LogError | None = None
    try:
        for line in lines:
            part.append(line)
            if len(part) == AT_ONCE:
                yield part
                part = []
    except LogError as error:
        wrong = error
    if part:
        yield part
    if wrong is not None:
        raise wrong


Heard = tuple[Line, list[Output], Union[str, None]]


def _heard(terminal: Terminal, lines: list[Line]) -> Iterator[Heard]:
    """Gives lines to the core at once. Yields each with its outputs, and with the screen if that may have changed."""
    requests = [request for line in lines for request in _requests_of(line)]
    replies = iter(terminal.exchange(requests))
    for line in lines:
        if isinstance(line, (FrameLine, ActionLine)):
            done, screen = next(replies), next(replies)
            yield line, outputs_of(done), str(screen.answer['value']) if done.answer['redraws'] else None
        else:
            yield line, [], None


def _requests_of(line: Line) -> list[Request]:
    """The input of a line, and the question for the screen after it."""
    if isinstance(line, FrameLine):
        return [{'do': 'frame', 'time': line.time, 'frame': str(line.frame)}, {'do': 'screen'}]
    if isinstance(line, ActionLine):
        return [_action_of(line), {'do': 'screen'}]
    return []


def _action_of(line: ActionLine) -> Request:
    action: Request = {'do': line.action, 'time': LATEST}
    if line.action == 'set':
        return {**action, 'address': line.value}
    if line.action == 'number':
        return {**action, 'object': line.object, 'value': line.value}
    if line.action == 'text':
        return {**action, 'object': line.object, 'text': line.text.hex().upper()}
    return {**action, 'object': line.object}


def _step(line: Line, outputs: list[Output], screen: str | None) -> Step:
    return Step(line.number, line, line.time if isinstance(line, FrameLine) else None, tuple(outputs), screen)
