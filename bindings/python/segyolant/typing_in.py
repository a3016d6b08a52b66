"""What an operator types: numbers, exactly as they are typed, and texts."""
from __future__ import annotations

import re
from decimal import Decimal

from .state import Limits

NUMBER = re.compile(r'-?[0-9]+(?:\.[0-9]+)?')
MOST_DIGITS = 15


def number_text(typed: str | int | Decimal) -> str:
    """A number as the core reads it: perhaps a minus, digits, and perhaps a point and more digits; at most 15 digits.

    ValueError for a text of another form, TypeError for a float: the number that stands in it is mostly none that was typed.
    """
    if isinstance(typed, float):
        raise TypeError(f'typed is the float {typed!r}, which is {Decimal(typed)} exactly: give {str(typed)!r} or a Decimal in its place')
    if isinstance(typed, bool) or not isinstance(typed, (str, int, Decimal)):
        raise TypeError(f'typed is {typed!r}: expected a number as a str, an int or a Decimal')
    text = format(typed, 'f') if isinstance(typed, Decimal) else str(typed)
    if NUMBER.fullmatch(text) is None:
        raise ValueError(f'typed is {text!r}: expected a number such as -12.5, with a point, without blanks and without a plus')
    digits = sum(each.isdigit() for each in text)
    if digits > MOST_DIGITS:
        raise ValueError(f'typed is {text!r}, which has {digits} digits: at most {MOST_DIGITS} are taken')
    return text


def text_bytes(text: str | bytes) -> bytes:
    """A text as the bytes of an input: a str in Latin 1. ValueError if it has another character."""
    if isinstance(text, (bytes, bytearray)):
        return bytes(text)
    if not isinstance(text, str):
        raise TypeError(f'text is {type(text).__name__}: expected a str or bytes')
    try:
        return text.encode('latin-1')
    except UnicodeEncodeError as error:
        raise ValueError(
            f'text has {text[error.start]!r} at {error.start}, which is not in Latin 1: leave it out, or give the bytes of the font of the input'
        ) from None


def no_raw_value(object_id: int, text: str, limits: Limits) -> str:
    """The message for a number that no raw value of an Input Number is."""
    return (
        f'{text} is no value of Input Number {object_id}: its numbers have {limits.places} decimal places, from {limits.shown(0)} to '
        f'{limits.shown(2**32 - 1)}, and it accepts {limits.shown(limits.minimum)} to {limits.shown(limits.maximum)}'
    )


def whole_number(object_id: int, text: str) -> int:
    """The raw value of an object that is no Input Number. ValueError if the text is none."""
    if not text.isdigit() or int(text) >= 2**32:
        raise ValueError(f'{text} is no raw value of object {object_id}, which is no Input Number: expected 0 to {2**32 - 1}')
    return int(text)
