"""A virtual terminal (ISO 11783-6), held as a child process."""
from __future__ import annotations

import os
from collections.abc import Iterable, Mapping, Sequence
from decimal import Decimal
from types import TracebackType
from typing import Any

from . import checks
from .errors import CoreEnded, CoreError, NoMemory, ProtocolError, SegyolantError
from .frames import text_of
from .journal import Journal
from .live import Live, Reply, Request
from .objects import FIELDS_WITH_TEXT, Object, object_of
from .outputs import Output, outputs_of
from .state import INPUT_NUMBER, Element, Limits, Profile, WorkingSet, element_of, limits_of, set_of
from .typing_in import no_raw_value, number_text, text_bytes, whole_number

STANDARD_OWN = 0x26
STANDARD_NAME = 0x20001D0000000001
JOURNAL_BYTES = 1 << 28
ACTIVE_MASK = 0xFFFF


class Terminal:
    """A terminal at an address, with its NAME (ISO 11783-5). Each input returns its outputs, to be sent and shown at once.

    Times are ints in microseconds of one clock that does not jump; an earlier time counts as the latest so far. An action of the operator
    has its time, or None for the latest time so far. `address=None` of a question is that of the shown set.

    After each command: `shown`, the address of the shown set, or None; `redraws`, whether the screen may differ from the one before;
    `look`, a number that is another one if the picture of the shown set may have changed; `deadline`, the first time at which a tick is
    due, or None; `lost`, whether another node took the address.

    ValueError and TypeError name an argument that is wrong; then nothing was sent. NoMemory: memory was refused, and the same may be given
    again. CoreEnded: the child ended, and `restart()` makes another one. One thread at a time may use a terminal.
    """

    def __init__(
        self,
        own: int = STANDARD_OWN,
        name: int = STANDARD_NAME,
        profile: Profile = Profile(),
        *,
        program: str | os.PathLike[str] | None = None,
        journal_bytes: int = JOURNAL_BYTES,
    ) -> None:
        """Begins a terminal. `program` is the path of `vt_live`, found by itself if None; `journal_bytes` limits what `restart` needs."""
        self.own = own
        self.name = name
        self.profile = profile
        self.shown: int | None = None
        self.redraws = True
        self.look = 0
        self.deadline: int | None = None
        self.lost = False
        request = self._begin_request(own, name, profile)
        self._journal = Journal(journal_bytes)
        try:
            self._live = Live(program)
            self._command(request)
        except BaseException:
            self.close()
            raise

    # ---- its life

    def __enter__(self) -> Terminal:
        return self

    def __exit__(self, kind: type[BaseException] | None, error: BaseException | None, trace: TracebackType | None) -> None:
        self.close()

    def close(self) -> None:
        """Ends the child. It sends nothing. It may be called again."""
        if hasattr(self, '_live'):
            self._live.close()
        self._journal.close()

    def begin(self, own: int | None = None, name: int | None = None, profile: Profile | None = None) -> None:
        """Makes a new terminal in place of this one, as after the loss of its address. What is None stays as it was."""
        own, name, profile = self.own if own is None else own, self.name if name is None else name, profile or self.profile
        self._command(self._begin_request(own, name, profile))
        self.own, self.name, self.profile = own, name, profile

    def restart(self) -> None:
        """Makes another child, and gives it again all commands that were done, so that the sets are there that were.

        What the child was doing when it ended is not done: give it again. SegyolantError if the journal was given up because it grew
        beyond `journal_bytes`: then make a new terminal, to which implements upload anew.
        """
        if not self._journal.is_whole:
            raise SegyolantError(
                f'the journal of the terminal grew beyond {self._journal.most} bytes and was given up: make a new Terminal, with a greater '
                'journal_bytes if it is to outlive its child again'
            )
        self._live.close()
        self._live = Live(self._live.program)
        for part in self._journal.parts():
            for reply in self._live.ask_all(part):
                error = reply.error()
                if error is not None:
                    raise error
                self._take_state(reply)
        self.redraws = True

    @staticmethod
    def _begin_request(own: int, name: int, profile: Profile) -> Request:
        checks.own_address(own)
        checks.number('name', name, 2**64 - 1, 'a NAME')
        return {'do': 'begin', 'own': own, 'name': f'{name:016X}', **profile.members()}

    # ---- inputs

    def hear(self, time: int, id: int, data: bytes) -> list[Output]:
        """Hears a frame of the bus with the time of its reception: an identifier of 29 bits, and at most 8 bytes."""
        return self._command({'do': 'frame', 'time': checks.time(time), 'frame': _frame_text(id, data)})

    def hear_all(self, frames: Iterable[tuple[int, int, bytes]]) -> list[list[Output]]:
        """Hears many frames, each a time, an identifier and its data, and returns the outputs of each. Faster than one by one.

        Of several frames without memory the first is raised, once all were heard; the error's `heard` has the outputs of each frame.
        `redraws` then tells of all the frames.
        """
        requests: list[Request] = [
            {'do': 'frame', 'time': checks.time(time), 'frame': _frame_text(id, data)} for time, id, data in frames
        ]
        heard: list[list[Output]] = []
        wrong: CoreError | None = None
        redraws = False
        for reply in self._give(requests):
            error = self._take(reply)
            wrong = wrong or error
            redraws = redraws or self.redraws
            heard.append(outputs_of(reply))
        self.redraws = redraws
        if wrong is not None:
            wrong.heard = heard
            raise wrong
        return heard

    def tick(self, time: int) -> list[Output]:
        """Moves the time on: sessions time out, and silent sets are closed. A host calls it at the `deadline`."""
        return self._command({'do': 'tick', 'time': checks.time(time)})

    def press(self, time: int | None, object: int) -> list[Output]:
        """The operator presses a soft key or a button."""
        return self._act('press', time, object=checks.object_id(object))

    def release(self, time: int | None, object: int) -> list[Output]:
        """The operator releases the key or button that is held."""
        return self._act('release', time, object=checks.object_id(object))

    def select(self, time: int | None, object: int) -> list[Output]:
        """The operator selects an input."""
        return self._act('select', time, object=checks.object_id(object))

    def enter_raw(self, time: int | None, object: int, value: int) -> list[Output]:
        """The operator enters a raw value, 0 to 2**32 - 1: without offset and scale, 0 or 1 of a boolean, the index of an item."""
        value = checks.number('value', value, 2**32 - 1, 'a raw value')
        return self._act('number', time, object=checks.object_id(object), value=value)

    def enter_number(self, time: int | None, object: int, typed: str | int | Decimal) -> list[Output]:
        """The operator types a number, as '12.5', into an input of the shown set; of a boolean or a list it is the raw value.

        ValueError if no raw value of the Input Number is exactly that number, TypeError for a float: 0.1 is none of its values.
        """
        return self.enter_raw(time, object, self._raw_to_enter(checks.object_id(object), typed))

    def enter_text(self, time: int | None, object: int, text: str | bytes) -> list[Output]:
        """The operator enters a text: bytes as the input's font has them, or a str in Latin 1. ValueError if it is not in Latin 1."""
        return self._act('text', time, object=checks.object_id(object), text=text_bytes(text).hex().upper())

    def choose(self, time: int | None, address: int) -> list[Output]:
        """The operator chooses the working set at an address. A key that is held is released before (segyolant.host does so)."""
        return self._act('set', time, address=checks.address(address))

    def claim(self) -> list[Output]:
        """The address claim, to be sent at the start. No other frame goes out for 250 milliseconds after it."""
        return self._command({'do': 'claim'})

    def status(self) -> list[Output]:
        """The status message, to be sent each second."""
        return self._command({'do': 'status'})

    def preload(self, address: int, pool: bytes) -> None:
        """Adds a working set with an object pool that is there from the start. NoSuch and NoPool tell why it cannot be added."""
        request: Request = {'do': 'preload', 'address': checks.address(address), 'pool': checks.in_bytes('pool', pool).hex().upper()}
        self._command(request)

    # ---- questions

    def screen(self) -> str:
        """The screen of the shown set as text, a line an object (docs/PROFILE.md, "Form of the text")."""
        return str(self._question('screen'))

    def picture(self, address: int | None = None, mask: int | None = None) -> str:
        """A mask with its soft keys as SVG, the active one if `mask` is None. Empty without a set that has a pool."""
        mask = ACTIVE_MASK if mask is None else checks.object_id(mask, 'mask')
        return str(self._of_set('picture', address, mask=mask) or '')

    def part(self, object: int, address: int | None = None) -> str:
        """One object by itself as SVG: an item of a list, the label of a key, a Working Set's designator. Empty without such an object."""
        return str(self._of_set('part', address, object=checks.object_id(object)) or '')

    def elements(self) -> list[Element]:
        """The elements of the shown mask and its soft keys, in the order in which they are drawn."""
        return [element_of(each) for each in self._question('elements')]

    def object(self, id: int, address: int | None = None) -> Object | None:
        """An object as it is now, or None if there is none."""
        value = self._of_set('object', address, object=checks.object_id(id, 'id'))
        return object_of(bytes.fromhex(value['record'])) if value and value['record'] else None

    def sets(self) -> list[WorkingSet]:
        """The working sets in the order in which they registered."""
        return [set_of(each) for each in self._question('sets')]

    def limits(self, object: int, address: int | None = None) -> Limits | None:
        """What an input accepts, or None if the object is no input."""
        value = self._of_set('limits', address, object=checks.object_id(object))
        return None if value is None else limits_of(value)

    def value_text(self, object: int, address: int | None = None) -> str | None:
        """What an input or output field shows, in Latin 1: a number with its offset, scale and decimals, or a text. None for others."""
        value = self._of_set('object', address, object=checks.object_id(object))
        record = bytes.fromhex(value['record']) if value else b''
        if len(record) < 3 or record[2] not in FIELDS_WITH_TEXT:
            return None
        return bytes.fromhex(value['text']).decode('latin-1')

    def raw(self, object: int, typed: str | int | Decimal, address: int | None = None) -> int | None:
        """The raw value of a typed number for an Input Number, exactly, or None if there is none."""
        return self._raw(checks.object_id(object), typed, address)

    def touch(self, x: int, y: int) -> int | None:
        """The key, button or input at a place, in pixels from the upper left corner of the mask; of several the one drawn last."""
        if isinstance(x, int) and isinstance(y, int) and (x < 0 or y < 0):
            return None
        pixels = {'x': checks.number('x', x, 2**32 - 1, 'a column'), 'y': checks.number('y', y, 2**32 - 1, 'a row')}
        touched: int | None = self._question('touch', **pixels)
        return touched

    def words(self, id: int, data: bytes) -> str:
        """What a frame says in words. Ask before it is heard, or once it is sent: objects are told as the terminal has them now."""
        return str(self._question('words', frame=_frame_text(id, data)))

    # ---- requests as they are

    def exchange(self, requests: Sequence[Mapping[str, Any]]) -> list[Reply]:
        """Gives requests as docs/LIVE.md has them, many at once, and returns their replies. The first error is raised once all are served."""
        replies = self._give([dict(request) for request in requests])
        for error in [self._take(reply) for reply in replies]:
            if error is not None:
                raise error
        return replies

    # ---- behind them

    def _act(self, do: str, time: int | None, **members: Any) -> list[Output]:
        when = checks.LATEST if time is None else checks.time(time)
        return self._command({'do': do, 'time': when, **members})

    def _raw(self, object: int, number: str | int | Decimal, address: int | None) -> int | None:
        raw: int | None = self._of_set('raw', address, object=object, typed=number_text(number))
        return raw

    def _raw_to_enter(self, object: int, number: str | int | Decimal) -> int:
        """The raw value to enter. Of what is no Input Number the core refuses or takes the number itself."""
        text = number_text(number)
        raw = self._raw(object, number, None)
        if raw is not None:
            return raw
        limits = self.limits(object)
        if limits is not None and limits.kind == INPUT_NUMBER:
            raise ValueError(no_raw_value(object, text, limits))
        return whole_number(object, text)

    def _of_set(self, do: str, address: int | None, **members: Any) -> Any:
        """The value of a question about a set. Without a set it is None."""
        address = self.shown if address is None else checks.address(address)
        return None if address is None else self._question(do, address=address, **members)

    def _question(self, do: str, **members: Any) -> Any:
        reply = self._live.ask({'do': do, **members})
        error = reply.error()
        if error is not None:
            raise error
        if 'value' not in reply.answer:
            raise ProtocolError('no value', reply.request)
        return reply.answer['value']

    def _command(self, request: Request) -> list[Output]:
        (reply,) = self._give([request])
        error = self._take(reply)
        if error is not None:
            raise error
        return outputs_of(reply)

    def _give(self, requests: list[Request]) -> list[Reply]:
        """Gives requests to the child. The replies that came before its end are taken, and their outputs told with the error."""
        try:
            return self._live.ask_all(requests)
        except CoreEnded as ended:
            for reply in ended.replies:
                self._take(reply)
                ended.heard.append(outputs_of(reply))
            raise

    def _take(self, reply: Reply) -> CoreError | None:
        """Takes the state that the answer to a command tells, keeps the command, and returns the error, if there is one."""
        error = reply.error()
        request = reply.request
        if error is not None:
            error.outputs = outputs_of(reply)
        if 'value' in reply.answer:
            return error
        if error is None:
            self._take_state(reply)
            self._keep(request)
        elif isinstance(error, NoMemory) and 'shown' in reply.answer:
            self._take_state(reply)
            if request.get('time', checks.LATEST) != checks.LATEST and request['do'] not in ('frame', 'tick'):
                # (the time may have moved on, as a tick moves it)
                self._keep({'do': 'tick', 'time': request['time']})
        return error

    def _keep(self, request: Request) -> None:
        if request['do'] == 'begin':
            self._journal.begin(request)
        else:
            self._journal.add(request)

    def _take_state(self, reply: Reply) -> None:
        answer = reply.answer
        try:
            self.shown, self.redraws, self.look = answer['shown'], answer['redraws'], answer['look']
            self.deadline, self.lost = answer['deadline'], answer['lost']
        except KeyError as lacking:
            raise ProtocolError(f'no {lacking.args[0]}', reply.request) from None


def _frame_text(identifier: int, data: bytes) -> str:
    checks.number('id', identifier, 0x1FFFFFFF, 'an identifier of 29 bits')
    return text_of(identifier, checks.data(data))
