"""What comes out of a terminal beside events: frames to send, and refusals of the operator's actions."""
from __future__ import annotations

from dataclasses import dataclass

GLOBAL = 0xFF
NULL_ADDRESS = 0xFE


@dataclass(frozen=True)
class Frame:
    """A CAN frame: an identifier of 29 bits and up to 8 data bytes. As a text it is as `candump -L` writes it: 14E68026#A064000000FFFFFF."""

    id: int
    data: bytes

    def __str__(self) -> str:
        return text_of(self.id, self.data)

    @property
    def source(self) -> int:
        """The address that sends it."""
        return self.id & 0xFF

    @property
    def destination(self) -> int | None:
        """The address to which it goes, 255 for all, or None for a group without a destination."""
        return self.id >> 8 & 0xFF if self.id >> 16 & 0xFF < 240 else None

    @property
    def group(self) -> int:
        """Its parameter group number (PGN), as 0xE700."""
        return group_of(self.id)


@dataclass(frozen=True)
class Refusal:
    """An action of the operator was refused (docs/PROFILE.md, "Refusals"): its number, and its name as `NotShown`."""

    number: int
    name: str

    def __str__(self) -> str:
        return f'operator {self.number} {self.name}'


def text_of(identifier: int, data: bytes) -> str:
    """A frame as a text."""
    return f'{identifier:08X}#{data.hex().upper()}'


def frame_of(text: str) -> Frame:
    """The frame that a text `ID#DATA` says."""
    identifier, _, data = text.partition('#')
    return Frame(int(identifier, 16), bytes.fromhex(data))


def group_of(identifier: int) -> int:
    """The parameter group number of an identifier. The destination, where it has one, is no part of it (ISO 11783-3)."""
    group = identifier >> 8 & 0x3FFFF
    return group if group >> 8 & 0xFF >= 240 else group & 0x3FF00


def refusal_of(text: str) -> Refusal:
    """The refusal that a text `1 NotShown` says."""
    number, _, name = text.partition(' ')
    return Refusal(int(number), name)
