"""What the tests share: the files of the repository, and terminals."""
from __future__ import annotations

import sys
from pathlib import Path

from segyolant import programs

TOP = Path(__file__).resolve().parents[3]
EXAMPLES = TOP / 'examples'
PYTHON = TOP / 'bindings' / 'python'

# (the modules that read the repository's tests)
sys.path.append(str(TOP / 'scripts'))

OWN, NAME, SET = 0x26, 0x20001D0000000001, 0x80
# What a set at 80 sends until its first screen.
CLAIM = (0x18EEFF80, bytes.fromhex('01000000001D0020'))
MASTER = (0x1CFE0D80, bytes.fromhex('01FFFFFFFFFFFFFF'))
FROM_SET = 0x14E72680


def is_quick() -> bool:
    """Whether the program is a quick build, which takes milliseconds for a frame."""
    return programs.find('vt_live').parent.name == 'quick'


def example(name: str) -> bytes:
    """The bytes of a file of examples/."""
    return (EXAMPLES / name).read_bytes()


def command(text: str) -> bytes:
    """A command of 8 bytes, filled with FF."""
    return bytes.fromhex(text).ljust(8, b'\xff')


def upload(pool: bytes, time: int = 1_000_000, step: int = 1000) -> list[tuple[int, int, bytes]]:
    """The frames by which a set at 80 uploads a pool, with their times."""
    pieces = [(FROM_SET, b'\x11' + pool[at:at + 7]) for at in range(0, len(pool), 7)]
    frames = [CLAIM, MASTER, *pieces, (FROM_SET, command('12'))]
    return [(time + k * step, identifier, data) for k, (identifier, data) in enumerate(frames)]
