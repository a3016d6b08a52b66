"""What a terminal was told, kept in a temporary file, so that another child can be told the same."""
from __future__ import annotations

import json
import tempfile
from collections.abc import Iterator
from itertools import islice

from .live import Request, encoded

# How many requests are read at once.
PART = 1000


class Journal:
    """Commands that were done, a line of JSON each. It holds `most` bytes; one that would be longer is given up and holds nothing.

    A frame takes some 65 bytes.
    """

    def __init__(self, most: int) -> None:
        self.most = most
        self.is_whole = most > 0
        self._file = tempfile.TemporaryFile()
        self._size = 0

    def begin(self, request: Request) -> None:
        """Forgets all, as a new terminal begins with this request."""
        self._file.seek(0)
        self._file.truncate()
        self._size = 0
        self.is_whole = self.most > 0
        self.add(request)

    def add(self, request: Request) -> None:
        """Adds a command that was done."""
        if not self.is_whole:
            return
        line = encoded(request).encode('ascii') + b'\n'
        self._size += len(line)
        if self._size > self.most:
            self.is_whole = False
            self._file.seek(0)
            self._file.truncate()
        else:
            self._file.write(line)

    def parts(self) -> Iterator[list[Request]]:
        """The commands in their order, some at a time."""
        self._file.seek(0)
        while part := [json.loads(line) for line in islice(self._file, PART)]:
            yield part
        self._file.seek(0, 2)

    def close(self) -> None:
        """Removes the file. It may be called again."""
        self._file.close()
