"""Identifiers of 29 bits, as ISO 11783-3 divides them, and the parameter groups that a terminal and its implements speak."""
from __future__ import annotations

GLOBAL, NULL_ADDRESS = 0xFF, 0xFE

CLAIM = 0xEE00
REQUEST = 0xEA00
MASTER = 0xFE0D
TO_TERMINAL = 0xE700
FROM_TERMINAL = 0xE600
TP_CONTROL, TP_DATA = 0xEC00, 0xEB00
ETP_CONTROL, ETP_DATA = 0xC800, 0xC700


def identifier(priority: int, group: int, source: int, to: int = GLOBAL) -> int:
    """The identifier of a frame of a parameter group. `to` counts only for groups that have a destination."""
    destination = to << 8 if has_destination(group) else 0
    return priority << 26 | group << 8 | destination | source


def has_destination(group: int) -> bool:
    """Whether frames of this parameter group go to one node."""
    return group >> 8 & 0xFF < 0xF0


def source_of(identifier: int) -> int:
    """The address from which a frame comes."""
    return identifier & 0xFF


def destination_of(identifier: int) -> int:
    """The address to which a frame goes, 255 for all nodes."""
    return identifier >> 8 & 0xFF if has_destination(identifier >> 8 & 0x3FFFF) else GLOBAL
