"""What a host owes the bus, without I/O, without a clock and without threads."""
from __future__ import annotations

from collections import deque
from collections.abc import Callable, Collection, Sequence
from decimal import Decimal

from . import checks
from .errors import NoMemory, SegyolantError
from .extras import Extras, Language
from .frames import NULL_ADDRESS, Frame
from .outputs import Output
from .terminal import Terminal

# All in microseconds: the silence after a claim, the time between two statuses, that between two ticks, and that before a call whose memory
# was refused is made again.
QUIET = 250_000
SECOND = 1_000_000
TICK_PAUSE = 10_000
RETRY_PAUSE = 1_000
# How often a call is made whose memory is refused, before it is left out.
TRIES = 10

CLAIMS, REQUESTS = 0xEE00, 0xEA00
CLAIM_TO_ALL = 0x18EEFF00

Action = Callable[[Terminal, int], list[Output]]


class Silent(SegyolantError):
    """The operator acted in the 250 milliseconds after the claim, in which a terminal sends nothing else. Act again after them."""


class Host:
    """Tells what a terminal on a bus has to send and when, and hides nothing of what it says.

    A loop waits until a frame has come or the time `wake()` is there, gives all frames that have come, each with the time of its
    reception, to `receive`, then calls `run`, and sends the frames of what `run` returns. Times are in microseconds of one clock that does
    not jump, as `time.monotonic_ns() // 1000`.

    It claims the address, and hears only claims and requests for them in the 250 milliseconds after that; sends the status each second, once
    after a standstill; hears all frames that wait before a tick or an action; leaves 10 milliseconds between two ticks; drops the echoes
    of its own frames, but not a claim of its address by another NAME; releases a held key before another set is chosen; gives again what
    memory was refused to, ten times, and then leaves it out (`left_out` counts these); and, where `addresses` has others, claims the next
    of them that is free when it loses its own. `is_over` tells that it has lost the last one: then nothing is sent any more.

    The core says nothing to some messages that an implement of version 3 may wait for. `extras` switches on what the host says to them, by
    name. What the core says is never changed or held back; a frame of an extra is an ExtraFrame, which has its name.

    | Extra | What is sent |
    |---|---|
    | `versions` | to Get Versions, that none is stored; to Store, Load and Delete Version, that it cannot be done |
    | `language` | the Language command, of `language`: when the silence after a claim is over, and to each request for it |
    | `repeats` | Soft Key and Button Activation with the code 2, held, each 200 milliseconds while a key or button is held |
    | `select-command` | to the command Select Input Object, whether it was selected: it is, as if the operator had done it |
    | `selections` | VT Select Input Object, when the operator or that command selects an input |
    | `request-claims` | before each claim, a request to all for their claims: a set whose claim was not heard cannot register |
    """

    def __init__(
        self, terminal: Terminal, *, extras: Collection[str] = (), addresses: Sequence[int] = (), language: Language = Language()
    ) -> None:
        """ValueError for an extra that is not known, and for an address above 253."""
        self.terminal = terminal
        self.is_over = False
        self.left_out = 0
        self._extras = Extras(terminal, extras, language)
        self._addresses = [checks.own_address(each) for each in addresses]
        self._frames: deque[tuple[int, Frame]] = deque()
        self._actions: deque[Action] = deque()
        self._outputs: list[Output] = []
        self._claims: dict[int, bytes] = {}
        self._is_started = False
        self._quiet_end = self._next_tick = self._next_status = self._retry_at = 0
        self._tries = 0

    # ---- what a loop calls

    def start(self, now: int) -> list[Output]:
        """Claims the address. It is called once, before all else."""
        self._claim(checks.time(now))
        self._is_started = True
        return self._take_outputs()

    def receive(self, time: int, id: int, data: bytes) -> None:
        """Takes a frame that was received at a time. It waits for `run`."""
        checks.number('id', id, 0x1FFFFFFF, 'an identifier of 29 bits')
        frame = Frame(id, checks.data(data))
        if not self._is_echo(frame):
            self._frames.append((checks.time(time), frame))

    def run(self, now: int) -> list[Output]:
        """Does all that is due: hears the frames that wait, and then does what time brings. Returns what to send, show and notice.

        CoreEnded comes through: after `restart()` of the terminal the next run goes on, and nothing is lost.
        """
        self._check_started(checks.time(now))
        self._look_at_loss(now)
        if self._hear_all(now) and self._act_all(now):
            self._tick(now)
        self._say_status(now)
        if not self.is_over and now >= self._quiet_end:
            self._say_extra(lambda: self._extras.due(now))
        return self._take_outputs()

    def act(self, now: int, action: Action) -> list[Output]:
        """Does what the operator did, as `lambda terminal, now: terminal.press(now, 400)`, once all frames that wait are heard.

        Silent in the 250 milliseconds after a claim. What an action raises, as ValueError, comes through, and nothing is lost by it. Where
        memory was refused, or the child ended (CoreEnded), the action waits, and `run` makes it again.
        """
        self._check_started(checks.time(now))
        if now < self._quiet_end:
            raise Silent(f'the terminal claimed its address at {self._quiet_end - QUIET} and is silent for {QUIET} microseconds: act after them')
        if self._hear_all(now) and self._act_all(now):
            self._actions.append(action)
            self._act_all(now)
        else:
            self._actions.append(action)
        return self._take_outputs()

    def forget(self) -> None:
        """Leaves out the frames and actions that wait, as after the end of the child at one of them, which may end it again."""
        self._frames.clear()
        self._actions.clear()

    def wake(self) -> int | None:
        """The time at which `run` is to be called if nothing comes before, or None if it is over."""
        if self.is_over:
            return None
        if self._outputs:
            return 0
        deadline = self.terminal.deadline
        times = [self._next_status]
        if deadline is not None:
            times.append(max(deadline, self._next_tick))
        if self._frames or self._actions:
            times.append(self._retry_at)
        extra = self._extras.wake()
        if extra is not None:
            times.append(max(extra, self._quiet_end))
        return min(times)

    # ---- actions of the operator

    def press(self, now: int, object: int) -> list[Output]:
        """Presses a key or button, as Terminal.press."""
        return self.act(now, lambda terminal, time: terminal.press(time, object))

    def release(self, now: int, object: int) -> list[Output]:
        """Releases the key or button held, as Terminal.release."""
        return self.act(now, lambda terminal, time: terminal.release(time, object))

    def select(self, now: int, object: int) -> list[Output]:
        """Selects an input, as Terminal.select."""
        return self.act(now, lambda terminal, time: self._extras.selected(object, terminal.select(time, object)))

    def enter_raw(self, now: int, object: int, value: int) -> list[Output]:
        """Enters a raw value, as Terminal.enter_raw."""
        return self.act(now, lambda terminal, time: terminal.enter_raw(time, object, value))

    def enter_number(self, now: int, object: int, typed: str | int | Decimal) -> list[Output]:
        """Enters a typed number, as Terminal.enter_number."""
        return self.act(now, lambda terminal, time: terminal.enter_number(time, object, typed))

    def enter_text(self, now: int, object: int, text: str | bytes) -> list[Output]:
        """Enters a text, as Terminal.enter_text."""
        return self.act(now, lambda terminal, time: terminal.enter_text(time, object, text))

    def choose(self, now: int, address: int) -> list[Output]:
        """Chooses a working set, as Terminal.choose. A key that is held in another one is released first: later it could not be."""
        return self.act(now, lambda terminal, time: self._choose(terminal, time, address))

    def _choose(self, terminal: Terminal, time: int, address: int) -> list[Output]:
        for each in terminal.sets():
            if each.shown and each.key is not None and each.address != address:
                self._outputs += self._extras.acted(time, terminal.release(time, each.key))
        return terminal.choose(time, address)

    # ---- behind them

    def _take_outputs(self) -> list[Output]:
        outputs, self._outputs = self._outputs, []
        return outputs

    def _check_started(self, now: int) -> None:
        if not self._is_started:
            raise SegyolantError(f'the host is told the time {now} before start(): that claims the address, and comes first')

    def _is_echo(self, frame: Frame) -> bool:
        """Whether a frame is one of the terminal's own. A claim of its address by another NAME is none."""
        own_claim = self.terminal.name.to_bytes(8, 'little')
        return frame.source == self.terminal.own and (frame.group != CLAIMS or frame.data[:8] == own_claim)

    def _claim(self, now: int) -> None:
        claim = self.terminal.claim()
        self._outputs += self._extras.before_claim() + claim
        self._quiet_end = self._next_tick = now + QUIET
        self._next_status = now + SECOND

    def _hear_all(self, now: int) -> bool:
        """Hears the frames that wait. Returns whether none waits any more: memory may have been refused."""
        while self._frames and not self.is_over:
            time, frame = self._frames[0]
            outputs = self._try(now, lambda: self._hear(time, frame))
            if outputs is None:
                return False
            self._frames.popleft()
            is_quiet = time < self._quiet_end
            self._say_extra(lambda: self._extras.heard(time, frame, outputs or [], is_quiet))
            self._look_at_loss(now)
        if self.is_over:
            self._frames.clear()
        return True

    def _hear(self, time: int, frame: Frame) -> list[Output]:
        """Hears a frame. In the silence after a claim one that might be answered with something else is passed over."""
        if time < self._quiet_end and frame.group not in (CLAIMS, REQUESTS):
            return []
        outputs = self.terminal.hear(time, frame.id, frame.data)
        self._note_claim(frame)
        return outputs

    def _act_all(self, now: int) -> bool:
        """Does the actions that wait. Returns whether none waits any more."""
        while self._actions and not self.is_over:
            action = self._actions[0]
            try:
                outputs = self._try(now, lambda: self._extras.acted(now, action(self.terminal, now)))
            except (ValueError, TypeError):
                self._actions.popleft()
                raise
            if outputs is None:
                return False
            self._actions.popleft()
            self._look_at_loss(now)
        if self.is_over:
            self._actions.clear()
        return True

    def _try(self, now: int, call: Callable[[], list[Output]]) -> list[Output] | None:
        """Makes a call, keeps its outputs and returns them. None where memory was refused and it is to be made again later."""
        if self._tries > 0 and now < self._retry_at:
            return None
        outputs: list[Output] = []
        try:
            outputs = call()
            self._outputs += outputs
        except NoMemory as refused:
            self._outputs += refused.outputs
            self._tries += 1
            self._retry_at = now + RETRY_PAUSE
            if self._tries < TRIES:
                return None
            self.left_out += 1
        self._tries = 0
        return outputs

    def _say_extra(self, call: Callable[[], list[Output]]) -> None:
        """Says what an extra says. Where memory is refused to it, it is left out: what the core did is done."""
        try:
            self._outputs += call()
        except NoMemory as refused:
            self._outputs += refused.outputs
            self.left_out += 1

    def _tick(self, now: int) -> None:
        """Tells the terminal the time, if that has something to do and the last tick is some time ago."""
        deadline = self.terminal.deadline
        if self.is_over or deadline is None or now < max(deadline, self._next_tick):
            return
        self._next_tick = now + TICK_PAUSE
        try:
            self._outputs += self._extras.acted(now, self.terminal.tick(now))
        except NoMemory:
            # (it stays due, and the next tick tries again)
            return
        self._look_at_loss(now)

    def _say_status(self, now: int) -> None:
        """Sends the status, if it is due. After a standstill it goes out once, and not for each second of that."""
        if self.is_over or now < self._next_status:
            return
        self._next_status += SECOND
        if self._next_status <= now:
            self._next_status = now + SECOND
        try:
            self._outputs += self.terminal.status()
        except NoMemory:
            self._next_status = now + RETRY_PAUSE

    # ---- addresses

    def _note_claim(self, frame: Frame) -> None:
        """Keeps which addresses other nodes have, by their last claims."""
        if frame.group == CLAIMS and len(frame.data) == 8:
            self._claims = {address: name for address, name in self._claims.items() if name != frame.data}
            if frame.source != NULL_ADDRESS:
                self._claims[frame.source] = frame.data

    def _look_at_loss(self, now: int) -> None:
        """Goes on at another address, if the own one is lost and another one is free."""
        if self.is_over or not self.terminal.lost:
            return
        free = [each for each in self._addresses if each not in self._claims and each != self.terminal.own]
        if not free:
            self.is_over = True
            return
        self.terminal.begin(free[0])
        self._addresses.remove(free[0])
        self._actions.clear()
        self._extras.begin()
        for address, name in self._claims.items():
            self._say_extra(lambda: self.terminal.hear(now, CLAIM_TO_ALL | address, name))
        self._claim(now)
