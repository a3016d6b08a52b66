"""The lines of a log, as `candump -L` or `candump -ta` writes them, with lines of the operator (docs/PROFILE.md, "Log lines" and "Lines of
other recorders").
"""
from __future__ import annotations

import re
from collections.abc import Iterable, Iterator
from dataclasses import dataclass
from typing import Union

from .errors import LogError
from .frames import Frame

# The most bytes of a line before its newline.
LONGEST = 4096
LAST_ID = 0xFFFE

GOOD = re.compile(rb'\(([0-9]{1,12})\.([0-9]{6})(?:[0-9]{3})?\) [^ ]{1,15} ([01][0-9A-Fa-f]{7})#((?:[0-9A-Fa-f]{2}){0,8})(?: [RT])?')
TIMED = re.compile(rb'\([0-9]{1,12}\.(?:[0-9]{6}|[0-9]{9})\)(.*)', re.DOTALL)
SHAPED = re.compile(rb' [^ ]{1,15} ([^ #]*)#([^ ]*)(?: [RT])?', re.DOTALL)
HEX = re.compile(rb'[0-9A-Fa-f]*')
OPERATOR = re.compile(rb'! (?:(press|release|select) ([0-9]+)|(number) ([0-9]+) ([0-9]+)|(text) ([0-9]+) (.*)|(set) ([0-9A-Fa-f]{2}))', re.DOTALL)


@dataclass(frozen=True)
class FrameLine:
    """A frame, and its time in microseconds."""

    number: int
    time: int
    frame: Frame


@dataclass(frozen=True)
class ActionLine:
    """What the operator does: press, release, select, number, text or set.

    `object` is an ID. `value` is the raw value of a number, or the address of a set. `text` has the bytes of a text.
    """

    number: int
    action: str
    object: int = 0
    value: int = 0
    text: bytes = b''


@dataclass(frozen=True)
class CommentLine:
    """A comment, or an empty line."""

    number: int
    text: str


@dataclass(frozen=True)
class SkippedLine:
    """A line that is no frame of ISOBUS: Short, Error, Remote or Fd."""

    number: int
    why: str


@dataclass(frozen=True)
class FaultyLine:
    """A line of no known form: Time, Shape, Hex, Length or Operator."""

    number: int
    fault: str


Line = Union[FrameLine, ActionLine, CommentLine, SkippedLine, FaultyLine]


def read_log(lines: Iterable[str | bytes]) -> Iterator[Line]:
    """The lines of a log, numbered from 1, each with its newline or without it. An open file, in text or in bytes, is such lines.

    A str is taken in Latin 1. A line that says nothing is a FaultyLine with its fault. LogError at a line longer than 4,096 bytes.
    """
    for number, line in enumerate(lines, 1):
        text = line.encode('latin-1', 'replace') if isinstance(line, str) else line
        if text.endswith(b'\n'):
            text = text[:-1]
        if len(text) > LONGEST:
            raise LogError(f'line {number} of the log is longer than {LONGEST} bytes: expected a log as `candump -L` writes it')
        yield read_line(number, text)


def read_line(number: int, text: bytes) -> Line:
    """A line of a log, without its newline. One of another form than that of `candump -L` is read in its plain form, if this is a frame."""
    line = _as_it_stands(number, text)
    if isinstance(line, FaultyLine) and line.fault in ('Time', 'Shape'):
        plain = _as_it_stands(number, _plain_form(_content(text)))
        if isinstance(plain, (FrameLine, SkippedLine)):
            return plain
    return line


def _as_it_stands(number: int, text: bytes) -> Line:
    """A line of the form of `candump -L`, or of the operator."""
    text = _content(text)
    good = GOOD.fullmatch(text)
    if good is not None:
        time = int(good[1]) * 1_000_000 + int(good[2])
        return FrameLine(number, time, Frame(int(good[3], 16), bytes.fromhex(good[4].decode('ascii'))))
    if text == b'' or text.startswith(b'#'):
        return CommentLine(number, text.decode('latin-1'))
    if text.startswith(b'! '):
        return _action(number, text) or FaultyLine(number, 'Operator')
    return _other(number, text)


def _content(text: bytes) -> bytes:
    """A line without the one carriage return that may end it."""
    return text[:-1] if text.endswith(b'\r') else text


def _plain_form(text: bytes) -> bytes:
    """What `candump -L` would write for a line that was recorded in another way (docs/PROFILE.md, "Lines of other recorders")."""
    time, rest = _word(text)
    interface, rest = _word(rest)
    rest = _without_direction(rest)
    identifier, data = _word(rest)
    count, data = _word(data)
    if not count.startswith(b'['):
        return b'%b %b %b' % (time, interface, rest.lstrip(b' '))
    # (a CAN FD frame has two digits in its brackets)
    return b'%b %b %b#%b' % (time, interface, identifier, b'#' if len(count) == 4 else _joined(data))


def _without_direction(text: bytes) -> bytes:
    """A text without the direction and the two words of flags at its front, which `candump -x` writes."""
    direction, rest = _word(text)
    if direction not in (b'RX', b'TX'):
        return text
    return _word(_word(rest)[1])[1]


def _joined(text: bytes) -> bytes:
    """The data of a frame without the spaces between its bytes, R of a remote frame, or a space, which no data begins with."""
    word, rest = _word(text)
    if word.startswith(b'r'):
        return b'R'
    if len(word) not in (0, 2) and not word.startswith(b"'"):
        return b' '
    data = b''
    while len(data) < 16 and len(word) == 2 and not word.startswith(b"'"):
        data += word
        word, rest = _word(rest)
    return data


def _word(text: bytes) -> tuple[bytes, bytes]:
    """The first word of a text, and what is behind it. Words stand between spaces."""
    text = text.lstrip(b' ')
    word = text.partition(b' ')[0]
    return word, text[len(word):]


def _other(number: int, text: bytes) -> Line:
    """A line that is no frame, by the first test that it fails (docs/PROFILE.md, "Faults and skipped lines, in order")."""
    timed = TIMED.fullmatch(text)
    if timed is None:
        return FaultyLine(number, 'Time')
    shaped = SHAPED.fullmatch(timed[1])
    if shaped is None or len(shaped[1]) not in (3, 8):
        return FaultyLine(number, 'Shape')
    identifier, data = shaped[1], shaped[2]
    if HEX.fullmatch(identifier) is None:
        return FaultyLine(number, 'Hex')
    if len(identifier) == 3:
        return SkippedLine(number, 'Short')
    if int(identifier, 16) > 0x1FFFFFFF:
        return SkippedLine(number, 'Error')
    if data.startswith((b'R', b'#')):
        return SkippedLine(number, 'Remote' if data.startswith(b'R') else 'Fd')
    if HEX.fullmatch(data) is None or len(data) % 2:
        return FaultyLine(number, 'Hex')
    return FaultyLine(number, 'Length')


def _action(number: int, text: bytes) -> ActionLine | None:
    """A line of the operator, or None if it has another form."""
    said = OPERATOR.fullmatch(text)
    if said is None:
        return None
    if said[9]:
        return ActionLine(number, 'set', value=int(said[10], 16))
    object_id = int(said[2] or said[4] or said[7])
    if object_id > LAST_ID:
        return None
    if said[6]:
        return ActionLine(number, 'text', object_id, text=said[8])
    value = int(said[5]) if said[3] else 0
    if value >= 2**32:
        return None
    return ActionLine(number, (said[1] or said[3]).decode('ascii'), object_id, value)
