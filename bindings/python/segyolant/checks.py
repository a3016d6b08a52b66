"""Checks of numbers before they are sent: a wrong one is named with its value and what is expected."""
from __future__ import annotations

# The greatest time, in microseconds. The number above it stands for the latest time so far (docs/LIVE.md).
LAST_TIME = 2**64 - 2
LATEST = 2**64 - 1


def number(name: str, value: object, most: int, meaning: str = 'a number') -> int:
    """The value, if it is an int from 0 to `most`. TypeError for another type, ValueError for another number; both name it."""
    if isinstance(value, bool) or not isinstance(value, int):
        raise TypeError(f'{name} is {value!r}: expected {meaning}, an int from 0 to {most}')
    if not 0 <= value <= most:
        raise ValueError(f'{name} is {value}: expected {meaning} from 0 to {most}')
    return value


def time(value: object) -> int:
    """A time in microseconds of a clock that does not jump."""
    return number('time', value, LAST_TIME, 'a time in microseconds')


def address(value: object, name: str = 'address') -> int:
    """The address of a working set."""
    return number(name, value, 255, 'the address of a working set')


def own_address(value: object) -> int:
    """An address that a terminal may have."""
    return number('own', value, 253, "a terminal's address")


def object_id(value: object, name: str = 'object') -> int:
    """The ID of an object."""
    return number(name, value, 0xFFFF, 'the ID of an object')


def data(value: object) -> bytes:
    """The data of a frame, at most 8 bytes."""
    given = in_bytes('data', value)
    if len(given) > 8:
        raise ValueError(f'data has {len(given)} bytes: a frame has at most 8')
    return given


def in_bytes(name: str, value: object) -> bytes:
    """Bytes, also those of a bytearray or a memoryview."""
    if not isinstance(value, (bytes, bytearray, memoryview)):
        raise TypeError(f'{name} is {type(value).__name__}: expected bytes')
    return bytes(value)
