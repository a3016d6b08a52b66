"""Object pools by themselves: what is wrong with them, what their events cost, and how their masks look."""
from __future__ import annotations

import json
import os
import subprocess
from collections.abc import Mapping, Sequence
from dataclasses import dataclass
from pathlib import Path
from typing import Any, Union

from . import checks, programs
from .errors import ProgramFailed, shortened

Pool = Union[bytes, str, 'os.PathLike[str]']


@dataclass(frozen=True)
class Finding:
    """An error, a warning or a note of a pool (docs/POOLS.md, "Every fault at once").

    `code` is as R03 and `name` as Missing; `severity` is error, warning or note. `offset` is the index of a byte in the pool, 0 for the
    whole pool. `message` says it in a sentence; `details` has the objects that it is about, as docs/POOLS.md tells.
    """

    code: str
    name: str
    severity: str
    offset: int
    message: str
    details: Mapping[str, Any]

    def __str__(self) -> str:
        return f'{self.offset}: {self.severity}[{self.code} {self.name}] {self.message}'


def check(pool: Pool, names: str | os.PathLike[str] | None = None) -> list[Finding]:
    """All that is found in a pool, given as bytes or by its path. `names` is a file of names (`names_of`), for the messages.

    A terminal accepts the pool if no finding is an error. ProgramFailed if it could not be judged.
    """
    words = ['check', '-', '--format', 'json']
    if names is not None:
        words += ['--names', os.fspath(names)]
    lines = [json.loads(line) for line in _run('segyolant', words, pool).splitlines()]
    return [_finding(line) for line in lines if 'code' in line]


def report(pool: Pool) -> str:
    """The report of a pool: a line for each event that runs macros, with the steps that it can take at most (docs/POOLS.md, "A report").

    Of a pool that is not accepted it is the line of its fault or refusal. ProgramFailed if it could not be judged.
    """
    return _run('vt_replay', ['-', '--report'], pool)


def draw(pool: Pool, mask: int | None = None) -> str:
    """A mask of a pool with its soft keys as SVG, the active one if `mask` is None. Of a pool with errors the readable part is drawn.

    ProgramFailed, with the cure, if the pool has no such mask.
    """
    words = ['draw', '-', '--out', '-']
    if mask is not None:
        words += ['--mask', str(checks.object_id(mask, 'mask'))]
    return _run('segyolant', words, pool)


def bytes_of(pool: Pool) -> bytes:
    """The bytes of a pool that is given as such, or by its path. OSError if it cannot be read."""
    if isinstance(pool, (bytes, bytearray, memoryview)):
        return bytes(pool)
    return Path(pool).read_bytes()


def _finding(line: Mapping[str, Any]) -> Finding:
    return Finding(line['code'], line['name'], line['severity'], line['offset'], line['message'], line['details'])


def _run(name: str, words: Sequence[str], pool: Pool) -> str:
    """What a program prints of a pool. Its status is 0 if nothing was found, and 1 if something was."""
    ran = subprocess.run([programs.find(name), *words], input=bytes_of(pool), capture_output=True, check=False)
    said = ran.stderr.decode('utf-8', 'backslashreplace').strip()
    told = ran.stdout.decode('utf-8')
    if ran.returncode not in (0, 1) or not told and ran.returncode:
        raise ProgramFailed(f'{name} {" ".join(words)}: status {ran.returncode}; it said: {shortened(said)}', ran.returncode, said)
    return told
