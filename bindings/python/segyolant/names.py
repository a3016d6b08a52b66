"""Names of objects, from the file that a pool editor exports."""
from __future__ import annotations

import os
import re

ID = r'(?P<id>0[xX][0-9A-Fa-f]+|[0-9]+)'
NUMBER = ID + '[uUlL]*'
NAME = r'(?P<name>[^\W\d]\w*)'
COMMENT = re.compile('//|/[*]|[*]')
PAIR = re.compile(ID + r'\s*,\s*(?P<name>(?!(\d+|0[xX][0-9A-Fa-f]+)\s*(,|$))[^\s,][^,]*?)\s*(,.*)?')
DEFINE = re.compile(r'#\s*define\s+' + NAME + r'\s+(?P<value>.*)')
MEMBER = re.compile(NAME + r'\s*[={]\s*' + NUMBER + r'[\s,}]*')
CONSTANT = re.compile(r'(.*\s)?const(expr)?\s(.*[^:\s]\s+)?' + NAME + r'\s*[={]\s*' + NUMBER + r'[\s,;}]*')


def names_of(path: str | os.PathLike[str]) -> dict[str, int]:
    """The IDs of objects by their names, in the order of the file.

    Its lines are `ID,NAME`, or those of a header in C: `#define NAME ID`, a member of an enum with its ID, or a constant. Other lines are
    passed over (docs/POOLS.md, "Names"). A later line of a name is taken. OSError if the file cannot be read.
    """
    names: dict[str, int] = {}
    with open(path, 'rb') as file:
        for line in file.read().split(b'\n'):
            found = _name_in(line)
            if found is not None:
                names[found[0]] = found[1]
    return names


def _name_in(line: bytes) -> tuple[str, int] | None:
    try:
        text = line.decode('utf-8').lstrip('\ufeff').strip()
    except UnicodeDecodeError:
        text = line.decode('latin-1').strip()
    if COMMENT.match(text):
        return None
    code = re.split('//|/[*]', text)[0].strip()
    defined = DEFINE.fullmatch(code)
    number = re.fullmatch(NUMBER, _number_in(defined['value'])) if defined else None
    found = number or PAIR.fullmatch(text) or MEMBER.fullmatch(code) or CONSTANT.fullmatch(code)
    identifier = _id_of(found['id']) if found else None
    return ((defined or found)['name'], identifier) if identifier is not None else None


def _number_in(value: str) -> str:
    """The number of a definition: its first word, or the only word in parentheses or behind a cast."""
    parts = re.split('[()]', value.rstrip(') \t'))
    return parts[-1].strip() if len(parts) > 1 else (value.split() or [''])[0]


def _id_of(word: str) -> int | None:
    """An ID from 0 to 65535, decimal, or hex after 0x."""
    number = int(word, 16) if word[:2] in ('0x', '0X') else int(word)
    return number if number <= 0xFFFF else None
