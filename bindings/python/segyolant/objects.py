"""Objects of pools: their attributes by name, read from their records (include/vt_records.h)."""
from __future__ import annotations

import struct
from collections.abc import Mapping
from dataclasses import dataclass
from decimal import Decimal
from typing import Any, NamedTuple, Union

from .layouts import LAYOUTS

# The ID that stands for no object.
NO_OBJECT = 0xFFFF
# The kinds that show a text or a number: Input String, Input Number, Output String, Output Number.
FIELDS_WITH_TEXT = frozenset({8, 9, 11, 12})

KIND_NAMES: Mapping[int, str] = dict(enumerate((
    'Working Set', 'Data Mask', 'Alarm Mask', 'Container', 'Soft Key Mask', 'Key', 'Button', 'Input Boolean', 'Input String',
    'Input Number', 'Input List', 'Output String', 'Output Number', 'Output Line', 'Output Rectangle', 'Output Ellipse', 'Output Polygon',
    'Output Meter', 'Output Linear Bar Graph', 'Output Arched Bar Graph', 'Picture Graphic', 'Number Variable', 'String Variable',
    'Font Attributes', 'Line Attributes', 'Fill Attributes', 'Input Attributes', 'Object Pointer', 'Macro',
)))
SIZES = {'B': 1, 'H': 2, 'I': 4, 'i': 4, 'f': 4}
COUNT = 'count_of_'


class Child(NamedTuple):
    """An object in another one, and where it is, in pixels from the upper left corner of that."""

    id: int
    x: int
    y: int


class Point(NamedTuple):
    """A point of a polygon, in pixels from its upper left corner."""

    x: int
    y: int


class MacroOf(NamedTuple):
    """An event (docs/PROFILE.md, "Event numbers") and the Macro that it runs."""

    event: int
    macro: int


Attribute = Union[int, Decimal, bytes, tuple[int, ...], tuple[str, ...], tuple[Child, ...], tuple[Point, ...], tuple[MacroOf, ...]]


@dataclass(frozen=True)
class Object:
    """An object: its ID, the number of its kind (ISO 11783-6), its attributes by name, and its record.

    `object['width']` is an attribute: an int, a Decimal (`scale`), bytes (`text`, `bytes`), or a tuple (`children`, `keys`, `items`,
    `points`, `languages`, `macros`). Their names are those of the fields in include/vt_records.h. 65535 stands for no object.
    """

    id: int
    kind: int
    attributes: Mapping[str, Attribute]
    record: bytes

    @property
    def kind_name(self) -> str:
        """The name of its kind, as `Data Mask`."""
        return KIND_NAMES[self.kind]

    @property
    def children(self) -> tuple[Child, ...]:
        """The objects in it with their places; none for a kind that has no children."""
        children: tuple[Child, ...] = self._list('children')
        return children

    @property
    def macros(self) -> tuple[MacroOf, ...]:
        """Its events with their macros; none for a kind that has no macros."""
        macros: tuple[MacroOf, ...] = self._list('macros')
        return macros

    @property
    def text(self) -> str:
        """The text in its record, in Latin 1; empty for a kind that has none. `Terminal.value_text` tells what a field shows."""
        text = self.attributes.get('text', b'')
        return text.decode('latin-1') if isinstance(text, bytes) else ''

    def __getitem__(self, name: str) -> Attribute:
        try:
            return self.attributes[name]
        except KeyError:
            raise KeyError(f'{self} has no {name}: it has {", ".join(self.attributes)}') from None

    def __str__(self) -> str:
        return f'{self.kind_name} {self.id}'

    def number(self, name: str) -> int:
        """An attribute that is an int. KeyError if the kind has none of that name, TypeError if it is none."""
        value = self[name]
        if not isinstance(value, int):
            raise TypeError(f'{name} of {self} is no number but {value!r}')
        return value

    def _list(self, name: str) -> Any:
        return self.attributes.get(name, ())


def object_of(record: bytes, at: int = 0) -> Object:
    """The object whose record begins at a place. ValueError if it ends too early or has a kind that is not known."""
    if len(record) < at + 3:
        raise ValueError(f'the record at {at} ends before its kind')
    identifier, kind = struct.unpack_from('<HB', record, at)
    if kind not in LAYOUTS:
        raise ValueError(f'the record at {at} has the kind {kind}, which is not known: 0 to {max(LAYOUTS)} are')
    attributes: dict[str, Attribute] = {}
    counts: dict[str, int] = {}
    place = at + 3
    for name, form in LAYOUTS[kind]:
        size = SIZES[form] if form in SIZES else _list_size(form) * counts[name]
        part = record[place:place + size]
        if len(part) < size:
            raise ValueError(f'the record at {at}, {KIND_NAMES[kind]} {identifier}, ends before its {name}')
        if name.startswith(COUNT):
            counts[name[len(COUNT):]] = int.from_bytes(part, 'little')
        else:
            attributes[name] = _value(form, part)
        place += size
    return Object(identifier, kind, attributes, record[at:place])


def objects_in(pool: bytes) -> list[Object]:
    """The objects of a pool in the order of their records. ValueError, with its offset, at a record that cannot be read.

    That a pool can be read does not mean that a terminal accepts it: segyolant.check tells that.
    """
    objects: list[Object] = []
    at = 0
    while at < len(pool):
        objects.append(object_of(pool, at))
        at += len(objects[-1].record)
    return objects


def _list_size(form: str) -> int:
    """The bytes of an entry of a list."""
    return {'children': 6, 'points': 4, 'bytes': 1}.get(form, 2)


def _value(form: str, part: bytes) -> Attribute:
    if form == 'f':
        # (a scale of 0.1 is the float next to it: seven digits tell it exactly)
        return Decimal(f'{struct.unpack("<f", part)[0]:.7g}')
    if form in SIZES:
        return int.from_bytes(part, 'little', signed=form == 'i')
    if form == 'children':
        return tuple(Child(*entry) for entry in struct.iter_unpack('<Hhh', part))
    if form == 'points':
        return tuple(Point(*entry) for entry in struct.iter_unpack('<HH', part))
    if form == 'macros':
        return tuple(MacroOf(*entry) for entry in struct.iter_unpack('<BB', part))
    if form == 'languages':
        return tuple(part[at:at + 2].decode('latin-1') for at in range(0, len(part), 2))
    if form == 'ids':
        return tuple(entry[0] for entry in struct.iter_unpack('<H', part))
    return part
