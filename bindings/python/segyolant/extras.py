"""Answers that an implement of version 3 may wait for, and that the core leaves out. segyolant.host has the table of them."""
from __future__ import annotations

from collections.abc import Collection
from dataclasses import dataclass

from . import checks
from .frames import GLOBAL, NULL_ADDRESS, Frame, Refusal
from .objects import NO_OBJECT
from .outputs import Output
from .terminal import Terminal

NAMES = ('versions', 'language', 'repeats', 'select-command', 'selections', 'request-claims')

# Parameter groups (ISO 11783-3), and functions of the messages between an implement and a terminal (ISO 11783-6).
FROM_IMPLEMENT, TO_IMPLEMENT, REQUESTS, LANGUAGE, CLAIMS = 0xE700, 0xE600, 0xEA00, 0xFE0F, 0xEE00
KEY, BUTTON, SELECTED, SELECT = 0x00, 0x01, 0x03, 0xA2
STORE_VERSION, LOAD_VERSION, DELETE_VERSION, GET_VERSIONS, VERSIONS = 0xD0, 0xD1, 0xD2, 0xDF, 0xE0
RELEASED, PRESSED, HELD = 0, 1, 2
# The errors of a version that cannot be stored, loaded or deleted: no memory, no such label.
NO_ROOM, NO_LABEL = 4, 2
# The errors of Select Input Object.
DISABLED, NO_INPUT, NOT_SHOWN, OTHER_ERROR = 1, 2, 4, 16
REPEAT = 200_000


@dataclass(frozen=True)
class ExtraFrame(Frame):
    """A frame that the core did not make. `extra` is the name of what made it."""

    extra: str = ''


@dataclass(frozen=True)
class Language:
    """What the Language command says (ISO 11783-7): two letters of ISO 639, and numbers of its tables.

    `point`: the decimal symbol, 0 a comma, 1 a point. `time`: 0 for 24 hours, 1 for 12. `date`: 0 ddmmyyyy, 1 ddyyyymm, 2 mmyyyydd,
    3 mmddyyyy, 4 yyyymmdd, 5 yyyyddmm. The units are 0 metric, 1 imperial, 2 US, 3 no action.
    """

    code: str = 'en'
    point: int = 1
    time: int = 0
    date: int = 0
    distance: int = 0
    area: int = 0
    volume: int = 0
    mass: int = 0
    temperature: int = 0
    pressure: int = 0
    force: int = 0
    units: int = 0

    def __post_init__(self) -> None:
        if len(self.code) != 2 or not self.code.isascii() or not self.code.isalpha():
            raise ValueError(f'code is {self.code!r}: expected two letters of ISO 639, such as en')
        checks.number('date', self.date, 255)
        for name in ('point', 'time', 'distance', 'area', 'volume', 'mass', 'temperature', 'pressure', 'force', 'units'):
            checks.number(name, getattr(self, name), 3)

    def data(self) -> bytes:
        """The data of the command."""
        lengths = self.distance << 6 | self.area << 4 | self.volume << 2 | self.mass
        others = self.temperature << 6 | self.pressure << 4 | self.force << 2 | self.units
        return self.code.encode('ascii') + bytes([self.point << 6 | self.time << 4 | 0x0F, self.date, lengths, others, 0xFF, 0xFF])


@dataclass
class _HeldKey:
    """A key or button that is held: the set to which its press went, what the press said, and when it is said again."""

    address: int
    press: bytes
    next: int


class Extras:
    """The extras of a host that are switched on. Each method returns frames that the host sends behind what the core sent."""

    def __init__(self, terminal: Terminal, names: Collection[str], language: Language) -> None:
        unknown = sorted(set(names) - set(NAMES))
        if isinstance(names, str) or unknown:
            raise ValueError(f'extras is {names!r}: expected a collection of {", ".join(NAMES)}')
        self.terminal = terminal
        self.names = frozenset(names)
        self.language = language
        self._is_language_due = 'language' in self.names
        self._held: _HeldKey | None = None
        self._selected: tuple[int, int] | None = None

    def begin(self) -> None:
        """Forgets the terminal before, as another one begins."""
        self._is_language_due = 'language' in self.names
        self._held = None
        self._selected = None

    # ---- what the host calls

    def before_claim(self) -> list[Output]:
        """What goes out before the claim of the address."""
        if 'request-claims' not in self.names:
            return []
        return [ExtraFrame(0x18EAFF00 | NULL_ADDRESS, CLAIMS.to_bytes(3, 'little'), 'request-claims')]

    def heard(self, time: int, frame: Frame, outputs: list[Output], is_quiet: bool) -> list[Output]:
        """What is said to a frame, behind what the core put out at it."""
        self.acted(time, outputs)
        if is_quiet or self.terminal.lost or len(frame.data) == 0:
            return []
        if frame.group == REQUESTS and frame.destination in (self.terminal.own, GLOBAL):
            is_for_language = frame.data[:3] == LANGUAGE.to_bytes(3, 'little')
            return self._language() if is_for_language and 'language' in self.names else []
        if frame.group != FROM_IMPLEMENT or frame.destination != self.terminal.own:
            return []
        return self._answer(time, frame)

    def acted(self, time: int, outputs: list[Output]) -> list[Output]:
        """Looks for keys that are pressed and released in what the core sends, and returns it as it is."""
        if 'repeats' in self.names:
            for each in outputs:
                self._look_at_key(time, each)
        return outputs

    def selected(self, object_id: int, outputs: list[Output]) -> list[Output]:
        """What the core put out as the operator selected an input, and behind it what the implement is told of that."""
        if any(isinstance(each, Refusal) for each in outputs):
            return outputs
        return outputs + self._tell_selection(object_id)

    def due(self, now: int) -> list[Output]:
        """What is due at a time."""
        if self.terminal.lost:
            return []
        outputs = self._language() if self._is_language_due else []
        self._is_language_due = False
        return outputs + self._repeat(now)

    def wake(self) -> int | None:
        """The time at which something is due, or None."""
        if self._is_language_due:
            return 0
        return None if self._held is None else self._held.next

    # ---- each extra

    def _to(self, address: int, data: bytes, extra: str) -> ExtraFrame:
        """A message to an implement, of 8 bytes."""
        return ExtraFrame(0x14000000 | TO_IMPLEMENT << 8 | address << 8 | self.terminal.own, data.ljust(8, b'\xff'), extra)

    def _language(self) -> list[Output]:
        return [ExtraFrame(0x18000000 | LANGUAGE << 8 | self.terminal.own, self.language.data(), 'language')]

    def _answer(self, time: int, frame: Frame) -> list[Output]:
        """What is said to a message of an implement. One whose set is not registered is not answered, as the core does."""
        function = frame.data[0]
        is_version = function in (GET_VERSIONS, STORE_VERSION, LOAD_VERSION, DELETE_VERSION) and 'versions' in self.names
        is_select = function == SELECT and len(frame.data) >= 3 and 'select-command' in self.names
        if not (is_version or is_select) or all(each.address != frame.source for each in self.terminal.sets()):
            return []
        return self._versions(frame) if is_version else self._select(time, frame)

    def _versions(self, frame: Frame) -> list[Output]:
        function = frame.data[0]
        if function == GET_VERSIONS:
            return [self._to(frame.source, bytes([VERSIONS, 0]), 'versions')]
        error = NO_ROOM if function == STORE_VERSION else NO_LABEL
        return [self._to(frame.source, bytes([function]) + b'\xff' * 4 + bytes([error]), 'versions')]

    def _select(self, time: int, frame: Frame) -> list[Output]:
        """Selects an input as the operator does, if that can be done, and answers the command. The core's outputs come first."""
        object_id = int.from_bytes(frame.data[1:3], 'little')
        error = self._select_error(frame.source, object_id)
        outputs = self.terminal.select(time, object_id) if error == 0 else []
        if any(isinstance(each, Refusal) for each in outputs):
            error = OTHER_ERROR
        answer = bytes([SELECT]) + frame.data[1:3] + bytes([int(error == 0), error])
        told = [] if error else self._tell_selection(object_id)
        return outputs + [self._to(frame.source, answer, 'select-command')] + told

    def _select_error(self, address: int, object_id: int) -> int:
        """Why an input of a set cannot be selected, in the bits of the answer, or 0."""
        # (the ID 65535 asks that none be selected, which the core does not do)
        if self.terminal.shown != address or object_id == NO_OBJECT:
            return OTHER_ERROR
        limits = self.terminal.limits(object_id)
        if limits is None:
            return NO_INPUT
        is_shown = any(each.id == object_id for each in self.terminal.elements())
        return (0 if limits.enabled else DISABLED) | (0 if is_shown else NOT_SHOWN)

    def _tell_selection(self, object_id: int) -> list[Output]:
        """Tells the shown set that its input is selected, and the one before not any more."""
        shown = self.terminal.shown
        if 'selections' not in self.names or shown is None:
            return []
        before, self._selected = self._selected, (shown, object_id)
        told: list[Output] = []
        if before is not None and before[0] == shown and before[1] != object_id:
            told.append(self._selection(shown, before[1], False))
        return told + [self._selection(shown, object_id, True)]

    def _selection(self, address: int, object_id: int, is_selected: bool) -> ExtraFrame:
        return self._to(address, bytes([SELECTED]) + object_id.to_bytes(2, 'little') + bytes([is_selected]), 'selections')

    def _look_at_key(self, time: int, output: Output) -> None:
        if not isinstance(output, Frame) or output.group != TO_IMPLEMENT or output.data[:1] not in (bytes([KEY]), bytes([BUTTON])):
            return
        if output.data[1] == PRESSED:
            self._held = _HeldKey(output.destination or 0, output.data, time + REPEAT)
        elif self._held is not None and self._held.press[2:4] == output.data[2:4]:
            self._held = None

    def _repeat(self, now: int) -> list[Output]:
        """Says again that a key is held, once after a standstill. A key whose set or pool is gone is not held any more."""
        held = self._held
        if held is None or now < held.next:
            return []
        object_id = int.from_bytes(held.press[2:4], 'little')
        if not any(each.address == held.address and each.key == object_id for each in self.terminal.sets()):
            self._held = None
            return []
        held.next += REPEAT
        if held.next <= now:
            held.next = now + REPEAT
        return [self._to(held.address, held.press[:1] + bytes([HELD]) + held.press[2:], 'repeats')]
