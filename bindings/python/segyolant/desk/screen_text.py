"""What the elements of a mask say, from the screen as text (docs/PROFILE.md, "Element lines"), which has them in the same order."""
from __future__ import annotations

import re
from collections.abc import Sequence
from dataclasses import dataclass

from .places import Place

QUOTED = re.compile(r'"([^"]*)"')
ESCAPE = re.compile(r'\\x([0-9A-F]{2})')


@dataclass(frozen=True)
class Said:
    """What one element says: the text that it shows, empty for shapes, and whether it is a disabled input."""
    text: str = ''
    is_off: bool = False


def said_by(line: str) -> Said:
    """What a line of the screen says of its element."""
    is_off = line.endswith(' off')
    words = (line[:-4] if is_off else line).split(' ', 4)
    if len(words) < 5 or words[0] not in ('text', 'value', 'input', 'number', 'boolean', 'list'):
        return Said('', is_off)
    quoted = QUOTED.search(words[4])
    text = ESCAPE.sub(lambda match: chr(int(match[1], 16)), quoted[1]) if quoted else words[4]
    return Said(text.strip(), is_off)


def all_said(screen: str, places: Sequence[Place]) -> list[Said]:
    """What each element says. Elements beyond the lines of the screen say nothing."""
    lines = screen.splitlines()[1:]
    said = [said_by(line) for line in lines[:len(places)]]
    return said + [Said()] * (len(places) - len(said))


def texts_within(index: int, places: Sequence[Place], said: Sequence[Said]) -> str:
    """The texts of an element and of those within it, in their order: the label of a key or button."""
    texts = [said[index].text]
    for at in range(index + 1, len(places)):
        if places[at].depth <= places[index].depth:
            break
        texts.append(said[at].text)
    return ' '.join(text for text in texts if text)
