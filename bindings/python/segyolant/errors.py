"""What goes wrong between this package and the programs of Segyolant."""
from __future__ import annotations

from collections.abc import Mapping
from typing import Any

# The most characters of a request or of an error output in a message.
SHOWN = 200


def shortened(text: str) -> str:
    """A text as it stands in a message: long ones, as requests with a pool, lose their middle."""
    return text if len(text) <= SHOWN else f'{text[:SHOWN - 40]} .. {text[-20:]} ({len(text)} characters)'


class SegyolantError(Exception):
    """Any error of this package but those of wrong arguments, which are ValueError and TypeError."""


class ProgramNotFound(SegyolantError):
    """A program is in none of the places in which it is looked for."""


class ProgramFailed(SegyolantError):
    """A program that judges or draws a pool ended with an error. `status` is its status and `said` its error output."""

    def __init__(self, message: str, status: int, said: str) -> None:
        super().__init__(message)
        self.status = status
        self.said = said


class CoreEnded(SegyolantError):
    """The child `vt_live` ended. `restart()` of the terminal makes another one.

    `said` is its error output. `heard` has the outputs of the frames of a `hear_all` that were heard before.
    """

    def __init__(self, message: str, said: str = '') -> None:
        super().__init__(message)
        self.said = said
        self.heard: list[list[Any]] = []
        # (the replies that came before, for the terminal)
        self.replies: list[Any] = []


class LogError(SegyolantError):
    """A log cannot be replayed from a line on, as it is longer than 4,096 bytes."""


class CoreError(SegyolantError):
    """The core did not do a request (docs/LIVE.md, "Answers").

    `result` is the word of its answer and `request` the request. `outputs` has the outputs that came with it: those of the time that an
    action without memory moved on. `heard` has the outputs of each frame of a `hear_all`.
    """

    cure = ''

    def __init__(self, result: str, request: Mapping[str, object], more: str = '') -> None:
        self.result = result
        self.request = dict(request)
        self.outputs: list[Any] = []
        self.heard: list[list[Any]] = []
        cure = f'; {self.cure}' if self.cure else ''
        super().__init__(f'the core answered {result}{more} to {described(request)}{cure}')


class NoMemory(CoreError):
    """Memory was refused. Nothing is changed, but an action may leave the time moved on: then `outputs` has what that brought."""

    cure = 'give the same again some milliseconds later, or leave it out'


class NoSuch(CoreError):
    """No set can be preloaded at the address."""

    cure = "take an address up to 253 that is not the terminal's own and has no set yet"


class NoPool(CoreError):
    """The bytes are no accepted object pool."""

    cure = 'segyolant.check(pool) tells why'


class NotBegun(CoreError):
    """There is no terminal in the child."""

    cure = 'begin() makes one'


class ProtocolError(CoreError):
    """The core did not understand a request, or this package not an answer: the two are of different versions."""

    cure = 'take this package and the program vt_live of the same version'


RESULTS: Mapping[str, type[CoreError]] = {
    'no-memory': NoMemory,
    'no-such': NoSuch,
    'no-pool': NoPool,
    'not-begun': NotBegun,
}


def error_of(request: Mapping[str, object], answer: Mapping[str, Any]) -> CoreError | None:
    """The error that an answer tells, or None if the request is done."""
    result = answer.get('result')
    if result == 'done':
        return None
    member = answer.get('member')
    more = '' if member is None else f' about its member {member}'
    return RESULTS.get(str(result), ProtocolError)(str(result), request, more)


def described(request: Mapping[str, object]) -> str:
    """A request in a message, as `press time=5 object=400`."""
    members = ' '.join(f'{name}={value}' for name, value in request.items() if name not in ('do', 'id'))
    return shortened(f'{request.get("do")} {members}'.rstrip())
