"""Names of objects in the words of frames."""
from __future__ import annotations

import re
from collections.abc import Mapping

from .objects import KIND_NAMES

OBJECT_IN_WORDS = re.compile(f'\\b(?:{"|".join(sorted(KIND_NAMES.values(), key=len, reverse=True))}|object) (\\d+)\\b')


def with_names(words: str, names: Mapping[int, str]) -> str:
    """The words of a frame with the names of its objects: `Container 100` becomes "Container 100 `sections`"."""
    if not names:
        return words
    return OBJECT_IN_WORDS.sub(lambda match: f'{match[0]} `{names[int(match[1])]}`' if int(match[1]) in names else match[0], words)


def by_id(names: Mapping[str, int]) -> dict[int, str]:
    """The names by the IDs of their objects; of several names of one ID the first."""
    found: dict[int, str] = {}
    for name, id in names.items():
        found.setdefault(id, name)
    return found
