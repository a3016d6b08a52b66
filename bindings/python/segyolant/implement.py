"""A simulated implement, without I/O and without a clock: frames and times in microseconds go in, frames come out.

It claims an address, waits for the status of a terminal, registers as a working set, uploads a pool and keeps its set alive. What the
operator does comes as calls of methods that a subclass overrides; `send` queues what it wants to say.

    implement = Implement(pool, address=0x80)
    frames = implement.start(time)
    frames = implement.hear(time, id, data)    # each frame of the bus
    frames = implement.tick(time)              # at implement.deadline, at the latest
"""
from __future__ import annotations

from collections import deque
from dataclasses import dataclass
from struct import unpack_from

from . import commands
from .canid import (CLAIM, ETP_CONTROL, FROM_TERMINAL, GLOBAL, MASTER, NULL_ADDRESS, REQUEST, TO_TERMINAL, TP_CONTROL, TP_DATA,
                    destination_of, identifier, source_of)
from .frames import Frame, group_of
from .transport import MOST_BY_TP, Receiver, Sender

SECOND = 1_000_000
QUIET = 250_000
SILENCE = 3 * SECOND  # without a status message of the terminal
ANSWER = 1_500_000  # for an answer to a command
VERDICT = 10 * SECOND  # for the answer to the end of a pool
TRIES = 3  # commands without an answer, after which the terminal is met anew
RELEASED, PRESSED, STILL_HELD = 0, 1, 2
# Where an answer has its error, which is 0 where the command was done.
ERROR_AT = {0xA0: 4, 0xA1: 4, 0xA3: 1, 0xA4: 1, 0xA5: 5, 0xA6: 3, 0xA7: 4, 0xA8: 3, 0xA9: 3, 0xAA: 3, 0xAB: 3, 0xAC: 3, 0xAD: 3, 0xAE: 5,
            0xAF: 4, 0xB0: 4, 0xB1: 6, 0xB2: 1, 0xB3: 5, 0xB4: 5, 0xBE: 3}


@dataclass(frozen=True)
class Heard:
    """What the operator did: `what` is `key`, `button`, `number` or `text`; the value is whether a key is held, or what was entered."""
    time: int
    what: str
    object: int
    value: bool | int | bytes


@dataclass
class _Task:
    """A message that is to be sent. `answer` is the function of the answer that is awaited, `None` for none."""
    data: bytes
    answer: int | None
    patience: int = ANSWER


class Implement:
    """A working set with one pool.

    `phase` is `off`, `claiming`, `waiting` (for a status), `asking` (for memory), `uploading`, `live` or `failed`; `fault` then says why.
    `by` is `None` for the protocol that the size of the pool asks for, or else `frames`, `tp` or `etp`.
    """

    def __init__(self, pool: bytes, address: int = 0x80, name: int = 0xA000_1D00_0000_0021, terminal: int = 0x26,
                 by: str | None = None) -> None:
        if by not in (None, 'frames', 'tp', 'etp'):
            raise ValueError(f'a pool goes by frames, tp or etp, and not by {by}')
        self.pool, self.address, self.name, self.terminal, self.by = bytes(pool), address, name, terminal, by
        self.phase, self.fault = 'off', ''
        self.shown: int | None = None
        self.mask: int | None = None
        self.heard: list[Heard] = []
        self.refused: list[bytes] = []  # answers of the terminal that tell of an error
        self.time = 0
        self._frames: list[Frame] = []
        self._tasks: deque[_Task] = deque()
        self._task: _Task | None = None
        self._task_end: int | None = None
        self._sender: Sender | None = None
        self._receiver = Receiver(address, terminal)
        self._quiet_end: int | None = None
        self._status_end: int | None = None
        self._maintenance: int | None = None
        self._work: int | None = None
        self._unanswered = 0

    # What a subclass overrides. All are called with `self.time` as the time of what happened.

    work_interval: int | None = None  # microseconds between two calls of `work`

    def started(self) -> None:
        """The pool is accepted, for the first time or again."""

    def work(self) -> None:
        """Called each `work_interval` while the pool is in force."""

    def key(self, object: int, is_held: bool) -> None:
        """A soft key is pressed or released."""

    def button(self, object: int, is_held: bool) -> None:
        """A button is pressed or released."""

    def number(self, object: int, value: int) -> None:
        """The operator entered a raw value."""

    def text(self, object: int, text: bytes) -> None:
        """The operator entered a text, in the bytes of its font."""

    def answered(self, data: bytes) -> None:
        """The terminal answered a command."""

    # Inputs

    @property
    def deadline(self) -> int | None:
        """The time at which `tick` is due, or `None`."""
        times = (self._quiet_end, self._status_end, self._maintenance, self._work, self._task_end, self._receiver.deadline,
                 self._sender.deadline if self._sender else None)
        return min((time for time in times if time is not None), default=None)

    def start(self, time: int) -> list[Frame]:
        """Claims the address. 250 milliseconds later the implement waits for a status of the terminal."""
        self.time, self.phase, self.fault = time, 'claiming', ''
        self._claim()
        self._quiet_end = time + QUIET
        return self._taken()

    def stop(self) -> None:
        """Falls silent, as an implement whose plug is pulled."""
        self._forget()
        self.phase, self._receiver = 'off', Receiver(self.address, self.terminal)
        self._quiet_end = self._status_end = self._maintenance = None

    def hear(self, time: int, id: int, data: bytes) -> list[Frame]:
        """Hears a frame of the bus, also one that is not for this implement."""
        self.time = max(time, self.time)
        group, source, to = group_of(id), source_of(id), destination_of(id)
        if self.phase == 'off':
            return []
        if group == CLAIM and source == self.address and len(data) == 8:
            self._meet(int.from_bytes(data, 'little'))
        elif group == REQUEST and data[:3] == CLAIM.to_bytes(3, 'little') and to in (self.address, GLOBAL):
            self._claim()
        elif self.phase != 'failed' and source == self.terminal and to in (self.address, GLOBAL):
            self._hear_terminal(group, bytes(data))
        self._go_on()
        return self._taken()

    def tick(self, time: int) -> list[Frame]:
        """Does what is due at a time."""
        self.time = max(time, self.time)
        if self._is_due(self._quiet_end):
            self._quiet_end, self.phase = None, 'waiting'
        if self._is_due(self._status_end):
            self._register_again()
        self._frames += self._receiver.tick(self.time)
        if self._sender:
            self._frames += self._sender.tick(self.time)
        if self._is_due(self._maintenance):
            self._maintain(is_first=False)
        if self._is_due(self._task_end):
            self._miss_answer()
        if self._is_due(self._work):
            self._work = self.time + (self.work_interval or SECOND)
            self.work()
        self._go_on()
        return self._taken()

    def send(self, data: bytes) -> None:
        """Queues a message for the terminal: by one frame, TP or ETP. Commands are sent one after the other, each after the answer."""
        self._tasks.append(_Task(bytes(data), data[0] if data[0] in ERROR_AT else None))

    @property
    def is_idle(self) -> bool:
        """Whether nothing is to be sent and no answer is awaited."""
        return self._task is None and not self._tasks

    # Addresses

    def _claim(self, source: int | None = None) -> None:
        self._put(CLAIM, self.name.to_bytes(8, 'little'), 6, source=source)

    def _meet(self, name: int) -> None:
        """Another node claims this address: the lower NAME has it."""
        if name > self.name:
            self._claim()
        elif name < self.name:
            self._claim(NULL_ADDRESS)
            self.stop()
            self._fail('another node has the address')

    # What the terminal says

    def _hear_terminal(self, group: int, data: bytes) -> None:
        if group in (TP_CONTROL, TP_DATA):
            frames, message = self._receiver.hear(self.time, group, data)
            self._frames += frames
            if message and message[0] == FROM_TERMINAL:
                self._hear_message(message[1])
        if group in (TP_CONTROL, ETP_CONTROL) and self._sender:
            self._frames += self._sender.hear(self.time, group, data)
        if group == FROM_TERMINAL and data:
            self._hear_message(data)

    def _hear_message(self, data: bytes) -> None:
        function = data[0]
        if function == commands.STATUS and len(data) >= 6:
            self._hear_status(data)
        elif function in (commands.KEY, commands.BUTTON) and len(data) >= 4:
            self._hear_press(data)
        elif function == commands.NUMBER and len(data) >= 8:
            object, value = unpack_from('<HxI', data, 1)
            self._put(TO_TERMINAL, data)
            self._note('number', object, value)
            self.number(object, value)
        elif function == commands.TEXT and len(data) >= 4:
            object, count = unpack_from('<HB', data, 1)
            self._put(TO_TERMINAL, bytes([commands.TEXT, 0xFF, 0xFF]) + data[1:3])
            self._note('text', object, data[4:4 + count])
            self.text(object, data[4:4 + count])
        elif self._task and function == self._task.answer:
            self._hear_answer(data)

    def _hear_status(self, data: bytes) -> None:
        self._status_end = self.time + SILENCE
        self.shown, self.mask = data[1], int.from_bytes(data[2:4], 'little')
        if self.phase == 'waiting':
            self._register()

    def _hear_press(self, data: bytes) -> None:
        object, is_held = int.from_bytes(data[2:4], 'little'), data[1] == PRESSED
        self._put(TO_TERMINAL, data)
        if data[1] == STILL_HELD:
            return
        is_key = data[0] == commands.KEY
        self._note('key' if is_key else 'button', object, is_held)
        (self.key if is_key else self.button)(object, is_held)

    def _note(self, what: str, object: int, value: bool | int | bytes) -> None:
        self.heard.append(Heard(self.time, what, object, value))

    def _hear_answer(self, data: bytes) -> None:
        self._task, self._task_end, self._unanswered = None, None, 0
        if data[0] == commands.GET_MEMORY:
            self._upload() if data[2] == 0 else self._fail('the terminal has no room for the pool')
        elif data[0] == commands.END_OF_POOL:
            self._hear_verdict(data)
        else:
            if data[ERROR_AT[data[0]]]:
                self.refused.append(data)
            self.answered(data)

    def _hear_verdict(self, data: bytes) -> None:
        if data[1]:
            parent, object = unpack_from('<HH', data, 2)
            self._fail(f'the pool is refused: error {data[6]}, parent {parent}, object {object}')
            return
        self.phase = 'live'
        if self.work_interval:
            self._work = self.time + self.work_interval
        self.started()

    # Registration and upload

    def _register(self) -> None:
        """Tells the terminal of the working set, and asks for room for its pool."""
        self.phase = 'asking'
        self._put(MASTER, b'\x01')
        self._maintain(is_first=True)
        self._tasks.append(_Task(commands.get_memory(len(self.pool)), commands.GET_MEMORY))

    def _register_again(self) -> None:
        """The terminal is gone, or has forgotten the set: everything begins anew with its next status."""
        self._forget()
        self._status_end = self._maintenance = None
        if self.phase not in ('claiming', 'failed'):
            self.phase = 'waiting'

    def _forget(self) -> None:
        self._tasks.clear()
        self._task = self._task_end = self._sender = self._work = None
        self._unanswered = 0

    def _maintain(self, is_first: bool) -> None:
        self._put(TO_TERMINAL, commands.maintenance(is_first))
        self._maintenance = self.time + SECOND

    def _upload(self) -> None:
        self.phase = 'uploading'
        most = {None: len(self.pool), 'frames': 7, 'tp': MOST_BY_TP - 1, 'etp': len(self.pool)}[self.by] or 1
        for at in range(0, len(self.pool), most):
            self._tasks.append(_Task(bytes([commands.POOL]) + self.pool[at:at + most], None))
        self._tasks.append(_Task(bytes([commands.END_OF_POOL]), commands.END_OF_POOL, VERDICT))

    def _fail(self, fault: str) -> None:
        self._forget()
        self.phase, self.fault = 'failed', fault

    # Sending

    def _go_on(self) -> None:
        """Ends a message that has arrived, and begins the next one."""
        if self._sender and self._sender.fault:
            self._fail(f'a message did not arrive: {self._sender.fault}')
        if self._sender and self._sender.is_done:
            self._sender = None
            self._await_answer()
        while self._task is None and self._tasks:
            self._begin(self._tasks.popleft())

    def _begin(self, task: _Task) -> None:
        self._task = task
        if len(task.data) <= 8:
            self._put(TO_TERMINAL, task.data)
            self._await_answer()
        else:
            is_extended = (task.data[0] == commands.POOL and self.by == 'etp') or None
            self._sender = Sender(task.data, TO_TERMINAL, self.address, self.terminal, is_extended=is_extended)
            self._frames += self._sender.start(self.time)

    def _await_answer(self) -> None:
        if self._task and self._task.answer is not None:
            self._task_end = self.time + self._task.patience
        else:
            self._task = None

    def _miss_answer(self) -> None:
        """An answer did not come: what belongs to the upload is sent again, and a terminal that answers no command is met anew."""
        task, self._task, self._task_end = self._task, None, None
        self._unanswered += 1
        if self._unanswered == TRIES:
            self._register_again()
        elif task and task.answer in (commands.GET_MEMORY, commands.END_OF_POOL):
            self._tasks.appendleft(task)

    def _put(self, group: int, data: bytes, priority: int = 5, source: int | None = None) -> None:
        """Puts a frame among those to send. Only pieces of a pool are not filled up to eight bytes."""
        filled = data if data[:1] == bytes([commands.POOL]) and group == TO_TERMINAL else data.ljust(8, b'\xff')
        to = self.terminal if group == TO_TERMINAL else GLOBAL
        id = identifier(7 if group == MASTER else priority, group, self.address if source is None else source, to)
        self._frames.append(Frame(id, filled))

    def _taken(self) -> list[Frame]:
        frames, self._frames = self._frames, []
        return frames

    def _is_due(self, time: int | None) -> bool:
        return time is not None and time <= self.time
