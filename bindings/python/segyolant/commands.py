"""The bytes of the commands that an implement sends to a terminal (ISO 11783-6; docs/PROFILE.md, 11 and 14).

Each function gives the bytes of one message without the filling bytes at its end. Numbers that have no room in their bytes are
refused with `struct.error`.
"""
from __future__ import annotations

from struct import pack

POOL, END_OF_POOL, GET_MEMORY, MAINTENANCE = 0x11, 0x12, 0xC0, 0xFF
KEY, BUTTON, NUMBER, TEXT, STATUS = 0x00, 0x01, 0x05, 0x08, 0xFE


def hide(object: int) -> bytes:
    """Hides a container."""
    return pack('<BHB', 0xA0, object, 0)


def show(object: int) -> bytes:
    """Shows a container."""
    return pack('<BHB', 0xA0, object, 1)


def enable(object: int, is_enabled: bool = True) -> bytes:
    """Enables or disables an input."""
    return pack('<BHB', 0xA1, object, is_enabled)


def sound(times: int, frequency: int, on: int, off: int) -> bytes:
    """Asks for a sound: how often, in Hz, and the milliseconds on and off."""
    return pack('<BBHHH', 0xA3, times, frequency, on, off)


def volume(percent: int) -> bytes:
    """Sets the volume of sounds."""
    return pack('<BB', 0xA4, percent)


def size(object: int, width: int, height: int) -> bytes:
    """Changes the size of an object, in pixels."""
    return pack('<BHHH', 0xA6, object, width, height)


def background(object: int, colour: int) -> bytes:
    """Changes the background colour of an object."""
    return pack('<BHB', 0xA7, object, colour)


def number(object: int, value: int) -> bytes:
    """Changes the raw value of an object, from 0 to 2^32 - 1."""
    return pack('<BHBI', 0xA8, object, 0xFF, value)


def font(object: int, colour: int, size: int, kind: int = 0, style: int = 0) -> bytes:
    """Changes Font Attributes."""
    return pack('<BHBBBB', 0xAA, object, colour, size, kind, style)


def fill(object: int, kind: int, colour: int, pattern: int = 0xFFFF) -> bytes:
    """Changes Fill Attributes."""
    return pack('<BHBBH', 0xAC, object, kind, colour, pattern)


def active_mask(working_set: int, mask: int) -> bytes:
    """Makes a mask the active one of a Working Set object."""
    return pack('<BHH', 0xAD, working_set, mask)


def soft_key_mask(mask: int, keys: int, is_alarm: bool = False) -> bytes:
    """Gives a mask another soft key mask."""
    return pack('<BBHH', 0xAE, 2 if is_alarm else 1, mask, keys)


def attribute(object: int, attribute: int, value: int) -> bytes:
    """Changes an attribute of an object by its number."""
    return pack('<BHBI', 0xAF, object, attribute, value)


def priority(mask: int, priority: int) -> bytes:
    """Changes the priority of an alarm mask: 0 high, 1 medium, 2 low."""
    return pack('<BHB', 0xB0, mask, priority)


def item(object: int, index: int, item: int) -> bytes:
    """Changes an item of a list."""
    return pack('<BHBH', 0xB1, object, index, item)


def delete_pool() -> bytes:
    """Deletes the pool of the working set."""
    return b'\xB2'


def text(object: int, text: str | bytes) -> bytes:
    """Changes a text. Characters are those of Latin 1."""
    encoded = text.encode('latin-1', 'replace') if isinstance(text, str) else bytes(text)
    return pack('<BHH', 0xB3, object, len(encoded)) + encoded


def get_memory(size: int) -> bytes:
    """Asks whether the terminal has room for a pool of so many bytes."""
    return pack('<BBI', GET_MEMORY, 0xFF, size)


def maintenance(is_first: bool) -> bytes:
    """Tells the terminal each second that the working set is there; the first one begins it."""
    return pack('<BBB', MAINTENANCE, is_first, 3)
