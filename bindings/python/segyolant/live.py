"""The child process: requests go to `vt_live` as lines of JSON, and their answers come back (docs/LIVE.md)."""
from __future__ import annotations

import json
import os
import select
import subprocess
import tempfile
from collections.abc import Sequence
from dataclasses import dataclass, field
from typing import IO, Any

from . import programs
from .errors import CoreEnded, CoreError, ProgramNotFound, ProtocolError, described, error_of, shortened

Request = dict[str, object]
Line = dict[str, Any]

READ = 1 << 16
# A request as a text, in ASCII and without blanks.
encoded = json.JSONEncoder(separators=(',', ':')).encode
# How long a child whose input is closed may take to end, in seconds.
END_SECONDS = 5.0


@dataclass
class Reply:
    """What came of a request: its lines of outputs and events, and its answer."""

    request: Request
    lines: list[Line] = field(default_factory=list)
    answer: Line = field(default_factory=dict)

    def error(self) -> CoreError | None:
        """The error that the answer tells, or None if the request is done."""
        return error_of(self.request, self.answer)


class Live:
    """A running `vt_live`. One thread at a time may use it.

    The child has a session of its own, so that Ctrl-C at a console ends no terminal. It ends with `close()`, or with this process.
    """

    def __init__(self, program: str | os.PathLike[str] | None = None) -> None:
        """Starts the program at that path, or where it is found by itself. ProgramNotFound if it is nowhere, or cannot be started."""
        self.program = os.fspath(programs.find('vt_live') if program is None else program)
        self._said = tempfile.TemporaryFile()
        self._child = self._start()
        self._in, self._out = _open(self._child.stdin), _open(self._child.stdout)
        os.set_blocking(self._in, False)
        self._asked = 0
        self._rest = b''
        self._why = ''

    def _start(self) -> subprocess.Popen[bytes]:
        try:
            return subprocess.Popen(
                [self.program], bufsize=0, stdin=subprocess.PIPE, stdout=subprocess.PIPE, stderr=self._said, start_new_session=True
            )
        except OSError as error:
            self._said.close()
            raise ProgramNotFound(f'{self.program} cannot be started ({error.strerror}): expected a program for this processor') from error

    @property
    def pid(self) -> int:
        """The process of the child."""
        return self._child.pid

    def ask(self, request: Request) -> Reply:
        """Gives one request, and waits for its answer. CoreEnded if the child ends or has ended."""
        return self.ask_all([request])[0]

    def ask_all(self, requests: Sequence[Request]) -> list[Reply]:
        """Gives many requests before it waits for answers, so that the child never stands still. The replies are in the same order.

        CoreEnded if the child ends or has ended; its `replies` has those that came before.
        """
        replies = [Reply(request) for request in requests]
        if not replies:
            return replies
        if self._child.poll() is not None:
            raise self._ended(replies, 0)
        exchange = _Exchange(replies, self._asked)
        self._asked += len(replies)
        try:
            self._pump(exchange)
        except OSError:
            raise self._ended(replies, exchange.done) from None
        except BaseException:
            # (what was left half written or unread belongs to no later request)
            self._why = 'an exchange with it was interrupted, and so it was ended'
            self.kill()
            raise
        if exchange.done < len(replies):
            raise self._ended(replies, exchange.done)
        return replies

    def _pump(self, exchange: _Exchange) -> None:
        """Writes as the child reads, and reads as it writes, until the last answer has come or its output ends."""
        waiting = select.poll()
        waiting.register(self._out, select.POLLIN)
        waiting.register(self._in, select.POLLOUT)
        is_writing = True
        while exchange.done < len(exchange.replies):
            if is_writing and not exchange.unwritten:
                waiting.unregister(self._in)
                is_writing = False
            for file, _ in waiting.poll():
                if file == self._in:
                    exchange.unwritten = exchange.unwritten[os.write(self._in, exchange.unwritten[:READ]):]
                elif not self._read(exchange):
                    return

    def _read(self, exchange: _Exchange) -> bool:
        """Reads what the child wrote, and returns whether that was something."""
        part = os.read(self._out, READ)
        exchange.parts.append(part)
        if b'\n' in part:
            lines = b''.join([self._rest, *exchange.parts]).split(b'\n')
            self._rest = lines.pop()
            exchange.parts.clear()
            for line in lines:
                exchange.take(line)
        return part != b''

    def _ended(self, replies: list[Reply], done: int) -> CoreEnded:
        """The error that tells how the child ended."""
        status = self._wait()
        said = ''
        if not self._said.closed:
            self._said.seek(0)
            said = self._said.read().decode('utf-8', 'backslashreplace').strip()
        why = self._why or (f'it said: {shortened(said)}' if said else 'it said nothing')
        request = f' at {described(replies[done].request)}' if done < len(replies) else ''
        error = CoreEnded(f'{self.program} ended with status {status}{request}; {why}; restart() makes another one', said)
        error.replies = replies[:done]
        return error

    def _wait(self) -> int:
        """The status of a child that ends by itself; one that does not is killed."""
        try:
            return self._child.wait(END_SECONDS)
        except subprocess.TimeoutExpired:
            self._child.kill()
            return self._child.wait()

    def kill(self) -> None:
        """Ends the child at once. The next request raises CoreEnded."""
        self._child.kill()
        self._child.wait()

    def close(self) -> None:
        """Ends the child, and closes its files. It may be called again."""
        if self._said.closed:
            return
        for pipe in (self._child.stdin, self._child.stdout):
            if pipe is not None:
                pipe.close()
        self._wait()
        self._said.close()
        self._why = 'it was closed'


class _Exchange:
    """Requests that are being written, and the replies that have come."""

    def __init__(self, replies: list[Reply], first: int) -> None:
        self.replies = replies
        self.first = first
        self.done = 0
        # What was read since the last end of a line.
        self.parts: list[bytes] = []
        self.unwritten = memoryview(b''.join(_line_of(reply.request, first + k) for k, reply in enumerate(replies)))

    def take(self, line: bytes) -> None:
        """Takes a line of the child: an output or event of the request that is being served, or its answer."""
        reply = self.replies[min(self.done, len(self.replies) - 1)]
        try:
            said: Line = json.loads(line.decode('utf-8'))
        except ValueError:
            raise ProtocolError('a line that is no JSON', reply.request, f': {shortened(line.decode("latin-1"))}') from None
        if 'answer' not in said:
            reply.lines.append(said)
            return
        if self.done == len(self.replies) or said['answer'] not in (self.first + self.done, None):
            raise ProtocolError('another request', reply.request, f': {shortened(line.decode("latin-1"))}')
        reply.answer = said
        self.done += 1


def _line_of(request: Request, number: int) -> bytes:
    """A request as a line, with its number."""
    return encoded({'id': number, **request}).encode('ascii') + b'\n'


def _open(pipe: IO[bytes] | None) -> int:
    assert pipe is not None, 'the pipes of the child are opened with it'
    return pipe.fileno()
