"""The desk: one terminal on one line, and the pages that show it. All of it runs in one loop."""
from __future__ import annotations

import asyncio
import time
from collections import deque
from collections.abc import Callable, Mapping, Sequence
from typing import Any

from ..errors import CoreEnded, SegyolantError
from ..events import AddressLost, Alarm, AlarmOver, Event, Shown, Signal, Uploaded, Volume
from ..frames import Frame, Refusal
from ..host import Host
from ..log_lines import ActionLine
from ..outputs import Output
from ..terminal import Terminal
from .audience import Audience, Page
from .lines import Line, Received
from .painter import Painter
from .recorder import Recorder
from .trace import Trace
from .views import event_words

SECOND = 1_000_000
TURN, SOME = 0.03, 10  # seconds that frames are heard before the pages have their turn, and how many are heard together
MOST_WAITING = 200_000  # frames; where the terminal is so far behind the bus, the oldest are lost
BEHIND = 0.5  # seconds that the terminal may be behind the bus before the pages are told
LATE, CATCH_UP = 0.3, 0.05  # seconds: a loop that wakes so late has stood still, and first lets the frames that wait come in
MOST_CRASHES, CRASH_TIME = 5, 60.0
MAINTENANCE = b'\xff\x00\x03\xff\xff\xff\xff\xff'


class Desk:
    """Gives the terminal what comes from the line and from the pages, and tells the pages what comes of it."""

    def __init__(self, make_terminal: Callable[[int | None], Terminal], line: Line, names: Mapping[int, str] = {},
                 recorder: Recorder | None = None, pools: Mapping[int, bytes] = {}, extras: Sequence[str] = ()) -> None:
        self._make_terminal, self.line, self.names, self.recorder, self._extras = make_terminal, line, names, recorder, extras
        self.clock = line.clock
        self.terminal = make_terminal(None)
        self.host = Host(self.terminal, extras=extras)
        self.audience = Audience()
        self.trace = Trace(self)
        self.painter = Painter(self)
        self.pools = dict(pools)
        self.speaks_for = set(pools)  # preloaded sets without an implement: the desk keeps them alive, to the terminal alone
        self.ended = ''
        self._to_release: dict[int, int] = {}
        self._acting: Page | None = None
        self._crashes: deque[float] = deque(maxlen=MOST_CRASHES)
        self._waiting: deque[Received] = deque(maxlen=MOST_WAITING)
        self._is_hearing = False
        self._timer: asyncio.TimerHandle | None = None
        self._wanted = 0.0
        self._next_maintenance = 0

    # Its life

    def start(self) -> None:
        """Claims the address, and opens the line."""
        for address, pool in self.pools.items():
            self.terminal.preload(address, pool)
        claim = self.host.start(self.clock.now())
        self.line.open(self.hear)
        self.take(claim)
        self.tell_state()
        self.run()

    def close(self) -> None:
        """Closes the line, and ends the terminal. A key that is held is released before."""
        for page in self.audience:
            self.leave(page)
        for timer in (self._timer, *self.painter.timers(), *self.trace.timers()):
            if timer is not None:
                timer.cancel()
        self.line.close()
        self.terminal.close()
        if self.recorder is not None:
            self.recorder.close()

    # What comes in

    def hear(self, frames: Sequence[Received]) -> None:
        """Hears frames of the line, each with the time of its reception."""
        if self.ended:
            return
        for moment, id, data in frames:
            self.speaks_for.discard(id & 0xFF)
            self.trace.add('in', moment, id, data)
        self._waiting.extend(frames)
        if len(self._waiting) == MOST_WAITING:
            self.note('frames are lost: the terminal is too far behind the bus', 'bad')
        if not self._is_hearing:
            self._hear_waiting()

    def now(self) -> int:
        """The time for the terminal: that of the next frame that waits, if one does, as no time may pass before that is heard."""
        return min(self._waiting[0][0], self.clock.now()) if self._waiting else self.clock.now()

    def _hear_waiting(self) -> None:
        """Hears frames for a while. If some still wait then, the pages have their turn before them."""
        self._is_hearing, end = True, time.monotonic() + TURN
        try:
            while self._waiting and time.monotonic() < end:
                since = self._waiting[0][0]
                for _ in range(min(SOME, len(self._waiting))):
                    self.host.receive(*self._waiting.popleft())
                self.run(since)
        finally:
            self._is_hearing = False
        if self._waiting:
            asyncio.get_running_loop().call_soon(self._hear_more)
        self._tell_behind()

    def _hear_more(self) -> None:
        if not self._is_hearing and not self.ended:
            self._hear_waiting()

    def _tell_behind(self) -> None:
        """Tells the pages how far the terminal is behind the bus, in whole seconds."""
        behind = (self.clock.now() - self._waiting[0][0]) / SECOND if self._waiting else 0.0
        self.audience.tell({'kind': 'behind', 'seconds': round(behind) if behind > BEHIND else 0})

    def run(self, since: int | None = None) -> None:
        """Does what is due, and plans when to do so again. `since` is the time of the first frame that is heard now."""
        if self.ended:
            return
        now = self.now()
        self._maintain(now)
        self.take(self.guarded(lambda: self.host.run(now)) or [])
        self.painter.note_change(now if since is None else since)
        self._plan()

    def operate(self, page: Page | None, action: str, *arguments: Any) -> list[Refusal] | None:
        """Does what the operator did, by the name of a method of Host. Returns the refusals, `None` if the terminal is not there.

        ValueError, TypeError and Silent come through. What is refused is told to the page that acted, or to all.
        """
        self.trace.add_action(action, arguments)
        self._acting = page
        try:
            outputs = self.guarded(lambda: getattr(self.host, action)(self.now(), *arguments))
            if outputs is not None:
                self.take(outputs)
        finally:
            self._acting = None
        self.painter.note_change(self.clock.now())
        self._plan()
        return None if outputs is None else [each for each in outputs if isinstance(each, Refusal)]

    def play_action(self, line: ActionLine) -> None:
        """Does what a line of a log says that the operator did."""
        arguments: dict[str, tuple[str, tuple[Any, ...]]] = {
            'number': ('enter_raw', (line.object, line.value)), 'text': ('enter_text', (line.object, line.text)),
            'set': ('choose', (line.value,)),
        }
        action, values = arguments.get(line.action, (line.action, (line.object,)))
        try:
            self.operate(None, action, *values)
        except (SegyolantError, ValueError) as error:
            self.note(str(error), 'bad')

    # Held keys

    def release(self, page: Page | None, object: int) -> None:
        """Releases a key. One whose set is not shown any more is released when that is shown again."""
        refusals = self.operate(page, 'release', object)
        if refusals:
            for each in self.terminal.sets():
                if each.key == object and not each.shown:
                    self._to_release[each.address] = object

    def leave(self, page: Page) -> None:
        """A page is closed: what is held on it is released."""
        self.audience.remove(page)
        for object in list(page.held):
            page.held.discard(object)
            try:
                self.release(None, object)
            except (SegyolantError, ValueError):
                pass

    # What comes out

    def take(self, outputs: Sequence[Output]) -> None:
        """Sends, shows and tells what an input brought."""
        frames = [each for each in outputs if isinstance(each, Frame)]
        for frame in frames:
            self.trace.add('out', self.clock.now(), frame.id, frame.data)
        if frames:
            self.line.send(frames)
        for each in outputs:
            if isinstance(each, Refusal):
                self.note(f'refused: {each.name}', 'bad', self._acting, number=each.number)
            elif isinstance(each, Event):
                self._tell_event(each)

    def note(self, text: str, mood: str = 'plain', only: Page | None = None, **more: Any) -> None:
        """Tells the pages, or one, of something in a sentence; the mood is `good`, `bad` or `plain`. It is in the lines of all."""
        self.trace.add_note(text, mood)
        self.audience.note({'kind': 'note', 'text': text, 'mood': mood, **more}, only)

    def tell_state(self) -> None:
        """Tells the pages of the bus, the address and the recording."""
        recorder = self.recorder
        self.audience.tell({
            'kind': 'desk', 'bus': self.line.name, 'own': self.terminal.own, 'lost': self.terminal.lost, 'ended': self.ended,
            'recording': None if recorder is None else {'path': recorder.path, 'on': recorder.is_on, 'fault': recorder.fault},
        })

    def _tell_event(self, event: Event) -> None:
        said = event_words(event, self.names)
        if said is not None:
            self.note(*said)
            self.painter.forget_sets(event)
        if isinstance(event, Uploaded):
            self.audience.tell({'kind': 'upload', 'address': event.address, 'received': event.received, 'announced': event.announced})
        elif said is not None and said[0].startswith('the pool') or said is not None and said[1] == 'bad':
            self.audience.tell({'kind': 'upload', 'address': None})
        if isinstance(event, Alarm):
            self.audience.tell({'kind': 'sound', 'signal': event.signal, 'address': event.address, 'mask': event.mask})
        elif isinstance(event, AlarmOver):
            self.audience.tell({'kind': 'sound', 'signal': None})
        elif isinstance(event, Signal):
            self.audience.note({'kind': 'beep', 'times': event.times, 'frequency': event.frequency, 'on': event.on, 'off': event.off})
        elif isinstance(event, Volume):
            self.audience.tell({'kind': 'volume', 'percent': event.percent})
        elif isinstance(event, Shown) and event.address in self._to_release:
            key = self._to_release.pop(event.address)
            asyncio.get_running_loop().call_soon(self.release, None, key)
        elif isinstance(event, AddressLost):
            self.tell_state()

    # Behind it

    def _maintain(self, now: int) -> None:
        """Speaks for the preloaded sets that have no implement."""
        if not self.speaks_for or now < self._next_maintenance:
            return
        self._next_maintenance = now + SECOND
        for address in self.speaks_for:
            self.host.receive(now, 0x14E70000 | self.terminal.own << 8 | address, MAINTENANCE)

    def _plan(self) -> None:
        wake = self.host.wake()
        if self.speaks_for:
            wake = self._next_maintenance if wake is None else min(wake, self._next_maintenance)
        seconds = None if wake is None else self.clock.seconds_until(wake)
        if self._timer is not None:
            self._timer.cancel()
            self._timer = None
        if seconds is not None and not self.ended:
            self._wanted = time.monotonic() + seconds
            self._timer = asyncio.get_running_loop().call_later(max(seconds, 0.001), self._wake)

    def _wake(self) -> None:
        """Wakes at the time that was planned. After a standstill the frames that wait come first."""
        late, self._wanted = time.monotonic() - self._wanted, time.monotonic() + CATCH_UP
        if late > LATE:
            self._timer = asyncio.get_running_loop().call_later(CATCH_UP, self._wake)
        else:
            self.run()

    def guarded(self, call: Callable[[], Any]) -> Any:
        """Makes a call of the terminal. If its child ends by it, another one is begun with the sets that were there."""
        if self.ended:
            return None
        try:
            return call()
        except CoreEnded as error:
            self._restart(error)
            return None

    def _restart(self, error: CoreEnded) -> None:
        now = time.monotonic()
        self.note(f'the terminal ended: {str(error).partition("; restart()")[0]}', 'bad')
        if len(self._crashes) == MOST_CRASHES and now - self._crashes[0] < CRASH_TIME:
            self.ended = f'the terminal ended {MOST_CRASHES} times within a minute: {error}'
            self.tell_state()
            return
        self._crashes.append(now)
        # (what it ended at may end it again)
        self.host.forget()
        try:
            self.terminal.restart()
            self.note('the terminal is there again, with the sets that were there', 'good')
        except (SegyolantError, OSError) as fault:
            self.note(f'its sets are lost, and their implements upload anew: {fault}', 'bad')
            self.begin()
        self.painter.note_change(self.clock.now())

    def begin(self, own: int | None = None) -> None:
        """Makes a new terminal, at the same address or another one, and claims that."""
        self.terminal.close()
        self.terminal = self._make_terminal(self.terminal.own if own is None else own)
        self.host = Host(self.terminal, extras=self._extras)
        self.speaks_for = set(self.pools)
        for address, pool in self.pools.items():
            if address != self.terminal.own:
                self.terminal.preload(address, pool)
        self.painter.forget()
        self.take(self.host.start(self.clock.now()))
        self.tell_state()
        self._plan()
