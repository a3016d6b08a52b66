"""What happened in an input, so that a host need not compare states (docs/LIVE.md, "Events"). `address` is that of the working set."""
from __future__ import annotations

import re
from collections.abc import Callable, Mapping
from dataclasses import dataclass, fields
from typing import Any


@dataclass(frozen=True)
class Event:
    """Any event."""


@dataclass(frozen=True)
class SetCame(Event):
    """A set registered."""

    address: int


@dataclass(frozen=True)
class SetSilent(Event):
    """A set fell silent; it is closed and its pool is gone."""

    address: int


@dataclass(frozen=True)
class SetClosed(Event):
    """A set is closed because its NAME does not hold its address any more."""

    address: int


@dataclass(frozen=True)
class PoolAccepted(Event):
    """The first pool of a set is accepted."""

    address: int


@dataclass(frozen=True)
class PoolUpdated(Event):
    """An update of a set's pool is accepted."""

    address: int


@dataclass(frozen=True)
class PoolFaulty(Event):
    """An upload is refused for a record: the number and the name of its fault, and its offset in the upload in bytes."""

    address: int
    fault: int
    name: str
    offset: int


@dataclass(frozen=True)
class PoolRefused(Event):
    """An upload is refused by a rule: the object, the one to which it refers, and the offset of a command in its macro."""

    address: int
    rule: int
    object: int | None
    other: int | None
    offset: int


@dataclass(frozen=True)
class PoolDeleted(Event):
    """The implement deleted its pool."""

    address: int


@dataclass(frozen=True)
class Uploaded(Event):
    """Another 1,024 bytes of an upload have come: the bytes received, and those received or announced."""

    address: int
    received: int
    announced: int


@dataclass(frozen=True)
class TextAborted(Event):
    """A text of the operator did not reach the implement."""

    address: int


@dataclass(frozen=True)
class Shown(Event):
    """Another set, mask or soft key mask is shown; each is None where there is none."""

    address: int | None
    mask: int | None
    soft_key_mask: int | None


@dataclass(frozen=True)
class Alarm(Event):
    """An alarm mask is shown: its priority, 0 high, 1 medium, 2 low, and its signal, 0 highest, 1 medium, 2 lowest, 3 none."""

    address: int
    mask: int
    priority: int
    signal: int


@dataclass(frozen=True)
class AlarmOver(Event):
    """No alarm mask is shown any more."""

    address: int


@dataclass(frozen=True)
class Signal(Event):
    """A set asks for a sound: how often, in Hz, and the milliseconds on and off."""

    address: int
    times: int
    frequency: int
    on: int
    off: int


@dataclass(frozen=True)
class Volume(Event):
    """A set asks for a volume, in percent."""

    address: int
    percent: int


@dataclass(frozen=True)
class AddressLost(Event):
    """Another node took the terminal's address, which `address` tells. Nothing is sent any more."""

    address: int


def name_of(kind: type[Event]) -> str:
    """The name of an event in a line: that of its class with hyphens, as set-came."""
    return re.sub('(?<=.)([A-Z])', r'-\1', kind.__name__).lower()


KINDS: Mapping[str, Callable[..., Event]] = {name_of(kind): kind for kind in Event.__subclasses__()}
MEMBERS: Mapping[str, tuple[str, ...]] = {
    name_of(kind): tuple(each.name for each in fields(kind)) for kind in Event.__subclasses__()
}
FAULT = re.compile(r'fault (?P<fault>\d+) (?P<name>\w+) at (?P<offset>\d+)')


def event_of(line: Mapping[str, Any]) -> Event | None:
    """The event that a line of the core says, or None if it says none that this package knows."""
    name = str(line.get('event'))
    if name not in KINDS:
        return None
    if name == 'pool-faulty':
        return _faulty(line)
    if any(member not in line for member in MEMBERS[name]):
        return None
    return KINDS[name](*(line[member] for member in MEMBERS[name]))


def _faulty(line: Mapping[str, Any]) -> PoolFaulty | None:
    """A faulty pool: its fault is a text, as `fault 1 Truncated at 3`."""
    fault = FAULT.fullmatch(str(line.get('fault')))
    if fault is None or 'address' not in line:
        return None
    return PoolFaulty(line['address'], int(fault['fault']), fault['name'], int(fault['offset']))
