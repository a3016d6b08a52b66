"""A recording of the bus as `candump -L` writes it, with the operator's actions as lines `! press 2001` (docs/PROFILE.md, "Log lines")."""
from __future__ import annotations

import os
from typing import TextIO

from ..frames import text_of


class Recorder:
    """Writes to one file, which is made anew. Each line is written at once, so that an end at any time loses none.

    `is_on` can be switched; `fault` says why nothing is written any more.
    """

    def __init__(self, path: str | os.PathLike[str], interface: str = 'can0') -> None:
        self.path, self.interface = os.fspath(path), interface
        self.is_on, self.fault, self.count = True, '', 0
        self._file: TextIO = open(path, 'w', buffering=1, encoding='latin-1', newline='\n')

    def frame(self, time: float, id: int, data: bytes) -> None:
        """Writes a frame with its time of day in seconds."""
        self._write(f'({time:.6f}) {self.interface} {text_of(id, data)}\n')

    def action(self, words: str) -> None:
        """Writes what the operator did, as `press 2001`."""
        self._write(f'! {words}\n')

    def close(self) -> None:
        """Ends the recording."""
        self._file.close()

    def _write(self, line: str) -> None:
        if not self.is_on:
            return
        try:
            self._file.write(line)
            self.count += 1
        except OSError as error:
            self.is_on, self.fault = False, f'{self.path}: {error.strerror}'
