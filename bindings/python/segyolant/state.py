"""What a terminal tells of its state, and the profile that it is begun with (docs/LIVE.md)."""
from __future__ import annotations

from collections.abc import Mapping
from dataclasses import asdict, dataclass, fields
from decimal import Decimal
from typing import Any

from . import checks

# The kinds of inputs.
INPUT_BOOLEAN, INPUT_STRING, INPUT_NUMBER, INPUT_LIST = 7, 8, 9, 10


@dataclass(frozen=True)
class Profile:
    """What a terminal answers about its memory, keys, fonts and screen. Its sizes, in pixels, are those of pictures and elements."""

    memory: int = 1_048_576
    width: int = 480
    height: int = 480
    soft_key_width: int = 64
    soft_key_height: int = 64
    virtual_soft_keys: int = 64
    physical_soft_keys: int = 6
    small_fonts: int = 0x7F
    large_fonts: int = 0x7F
    font_styles: int = 0
    boot_time: int = 0
    graphic_type: int = 2
    hardware: int = 0

    def __post_init__(self) -> None:
        most = {'memory': 2**32 - 1, 'width': 0xFFFF, 'height': 0xFFFF}
        for each in fields(self):
            checks.number(each.name, getattr(self, each.name), most.get(each.name, 0xFF))

    def members(self) -> dict[str, object]:
        """The profile as members of a request."""
        return dict(asdict(self))


@dataclass(frozen=True)
class Element:
    """An element of the shown mask or of its soft keys, in pixels from the upper left corner of the mask.

    `depth` is how many elements are around it, and `around` the index of the one around it. Nothing of it is shown left of `left`, above
    `top`, or from `right` and `bottom` on. A pointer is told as the object to which it leads.
    """

    id: int
    kind: int
    depth: int
    around: int | None
    x: int
    y: int
    width: int
    height: int
    left: int
    top: int
    right: int
    bottom: int


@dataclass(frozen=True)
class WorkingSet:
    """A working set, and the IDs of what is active in it, each None where there is none.

    `name` is its NAME (ISO 11783-5), None for a preloaded set that has not claimed an address. `input` is selected by the operator, and
    `key` held.
    """

    address: int
    name: int | None
    pool: bool
    shown: bool
    mask: int | None
    soft_key_mask: int | None
    input: int | None
    key: int | None


@dataclass(frozen=True)
class Limits:
    """What an input accepts: raw values from `minimum` to `maximum`, none if that is lower, and texts of at most `length` bytes.

    `value` is the raw value that it shows, `items` how many a list has. A number is shown as (raw value + offset) / 10**places, with
    `decimals` decimals.
    """

    kind: int
    enabled: bool
    value: int
    minimum: int
    maximum: int
    offset: int
    places: int
    decimals: int
    items: int
    length: int

    def shown(self, raw: int) -> Decimal:
        """The number that an Input Number stands for with a raw value, exactly, before it is rounded to its decimals."""
        return Decimal(raw + self.offset).scaleb(-self.places)


def element_of(value: Mapping[str, Any]) -> Element:
    """The element that a value of the core says."""
    return Element(**{each.name: value[each.name] for each in fields(Element)})


def set_of(value: Mapping[str, Any]) -> WorkingSet:
    """The working set that a value of the core says."""
    members = {each.name: value[each.name] for each in fields(WorkingSet)}
    name = members['name']
    return WorkingSet(**{**members, 'name': None if name is None else int(name, 16)})


def limits_of(value: Mapping[str, Any]) -> Limits:
    """The limits that a value of the core says."""
    return Limits(**{each.name: value[each.name] for each in fields(Limits)})
