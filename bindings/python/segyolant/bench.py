"""A test bench in simulated time: a terminal and implements on one bus, with one clock. No test waits.

    bench = Bench(Sprayer(), names=names_of('examples/sprayer.h'))
    bench.start()
    bench.press('key_on')
    expect(bench.value('value_Rate') > 150, within=10)
    expect(bench.screen.contains('Automatic'))
"""
from __future__ import annotations

import difflib
import re
import tempfile
from collections.abc import Callable, Mapping, Sequence
from pathlib import Path
from typing import Any

from .bus import SECOND, Bus, Seen
from .conditions import Condition, Probe, Screen
from .events import Event
from .frames import Refusal
from .implement import Heard, Implement
from .naming import by_id, with_names
from .node import TerminalNode
from .state import INPUT_LIST, INPUT_NUMBER, INPUT_STRING, Limits
from .terminal import Terminal

LAST_FRAMES = 12
BORING = re.compile(r'VT Status|Working Set Maintenance')


class Refused(AssertionError):
    """The terminal refused an action of the operator. `number` and `name` are those of docs/PROFILE.md, "Refusals"."""

    def __init__(self, refusal: Refusal, words: str) -> None:
        super().__init__(words)
        self.number, self.name = refusal.number, refusal.name


class Unmet(AssertionError):
    """An expectation did not come true in its time. The message has what was there in its place, and the last frames."""


class Bench:
    """A terminal with implements on a bus.

    `terminal`, `bus`, `implement` (the first one) and `implements` are there to be used. Times that are given are in seconds. Objects are
    given by their IDs or, with `names`, by their names.
    """

    def __init__(self, *implements: Implement, terminal: Terminal | None = None, bus: Bus | None = None,
                 names: Mapping[str, int] | None = None, place: tuple[Path, str] | None = None) -> None:
        self.terminal = Terminal() if terminal is None else terminal
        self.owns_terminal = terminal is None
        self.bus = Bus() if bus is None else bus
        self.implements = list(implements)
        self.names = dict(names or {})
        self._names_by_id = by_id(self.names)
        self.place = place
        self.events: list[tuple[int, Event]] = []
        self.refusals: list[Refusal] = []
        self.node = TerminalNode(self.terminal, self._told)
        self.screen = Screen(self, self._screen)
        self._cached: dict[Any, Any] = {}
        self._mark = 0

    def __enter__(self) -> Bench:
        self.start()
        return self

    def __exit__(self, *_: object) -> None:
        self.close()

    def start(self, within: float = 30) -> Bench:
        """Puts all on the bus and waits until the pool of each implement is accepted, and it has said what it says at first."""
        self.bus.attach(self.node)
        for implement in self.implements:
            self.bus.attach(implement)
        for implement in self.implements:
            self.expect(self.live(implement), within)
            self.expect(lambda: implement.is_idle, within)
        return self

    def close(self) -> None:
        """Ends the terminal, if the bench made it."""
        if self.owns_terminal:
            self.terminal.close()

    @property
    def implement(self) -> Any:
        """The first implement."""
        return self.implements[0]

    @property
    def time(self) -> float:
        """The time of the clock, in seconds."""
        return self.bus.time / SECOND

    # Names

    def id(self, object: int | str) -> int:
        """The ID of an object that is given by its name or its ID. `KeyError` for a name that is not known."""
        if isinstance(object, int):
            return object
        if object not in self.names:
            near = difflib.get_close_matches(object, self.names, 3)
            raise KeyError(f'no object is named {object}' + (f'; there is {", ".join(near)}' if near else ''))
        return self.names[object]

    def name(self, object: int | None) -> str:
        """An object by its name, or else by its ID."""
        if object is None:
            return 'none'
        return self._names_by_id.get(object, str(object))

    # The clock

    def wait(self, seconds: float) -> None:
        """Lets the time go on."""
        self.bus.run(round(seconds * SECOND))

    def expect(self, condition: Condition | Callable[[], Any], within: float = 0) -> None:
        """Lets the time go on until the condition holds, at most so many seconds. `Unmet` if it never does."""
        holds = condition.holds if isinstance(condition, Condition) else condition
        end = self.bus.time + round(within * SECOND)
        while not holds():
            if not self.bus.step(end) and not holds():
                raise Unmet(self._message(condition, f'not within {within:g} s'))

    def never(self, condition: Condition, during: float) -> None:
        """Lets so many seconds go by. `Unmet` if the condition holds at any moment of them."""
        end = self.bus.time + round(during * SECOND)
        while not condition.holds():
            if not self.bus.step(end):
                return
        raise Unmet(self._message(condition, f'not expected at all within {during:g} s, and it came'))

    # The operator

    def press(self, object: int | str, hold: float = 0.2) -> None:
        """Presses a key or button, and releases it after so many seconds. `Refused` if the terminal refuses that."""
        self.hold(object)
        self.wait(hold)
        self.release(object)

    def hold(self, object: int | str) -> None:
        """Presses a key or button."""
        self._do('press', 'press', self.id(object))

    def release(self, object: int | str) -> None:
        """Releases the key or button that is held."""
        self._do('release', 'release', self.id(object))

    def touch(self, x: int, y: int, hold: float = 0.2) -> int:
        """Presses what is at a place, in pixels from the upper left corner of the mask, and returns its ID."""
        object = self.terminal.touch(x, y)
        if object is None:
            raise self._refused(Refusal(1, 'NotShown'), f'touch {x},{y}')
        self.press(object, hold)
        return object

    def select(self, object: int | str) -> None:
        """Selects an input."""
        self._do('select', 'select', self.id(object))

    def enter(self, object: int | str, value: str | int | bytes) -> None:
        """Enters what an operator would: a number as it is shown, a text, an item by its text or index, `True` or `False`."""
        number = self.id(object)
        limits = self.terminal.limits(number)
        if limits is None:
            raise self._refused(Refusal(5, 'WrongKind'), f'enter {value!r} into {self.name(number)}')
        if limits.kind == INPUT_STRING:
            self._do('enter', 'enter_text', number, value)
        elif limits.kind == INPUT_NUMBER:
            self._do('enter', 'enter_number', number, str(value))
        else:
            self._do('enter', 'enter_raw', number, self._raw(number, limits, value))

    def enter_raw(self, object: int | str, value: int) -> None:
        """Enters a raw value, without offset and scale."""
        self._do('enter', 'enter_raw', self.id(object), value)

    def choose(self, address: int) -> None:
        """Chooses a working set by its address."""
        self._do('choose', 'choose', address)

    def _raw(self, object: int, limits: Limits, value: str | int | bytes) -> int:
        if limits.kind == INPUT_LIST and isinstance(value, str):
            items = self.items(object)
            if value not in items:
                raise KeyError(f'{self.name(object)} has no item {value!r}; it has {", ".join(map(repr, items))}')
            return items.index(value)
        return int(value)

    def _do(self, words: str, action: str, *arguments: Any) -> None:
        self._mark = self.bus.count
        before = len(self.refusals)
        self.bus.send(self.node, self.node.act(self.bus.time, action, *arguments))
        if len(self.refusals) > before:
            first = f'{arguments[0]:02X}' if action == 'choose' else self.name(arguments[0])
            raise self._refused(self.refusals[-1], ' '.join([words, first, *(repr(each) for each in arguments[1:])]))

    def _refused(self, refusal: Refusal, what: str) -> Refused:
        return Refused(refusal, f'{what}: refused, {refusal.number} {refusal.name}\n{self.state()}')

    # What is there

    @property
    def mask(self) -> Probe:
        """The active mask of the shown set, compared by its name or ID."""
        return Probe(self, 'the active mask', self._mask, lambda object: None if object is None else self.id(object), self.name)

    @property
    def shown(self) -> Probe:
        """The address of the shown set."""
        return Probe(self, 'the shown set', lambda: self.terminal.shown, show=lambda at: 'none' if at is None else f'{at:02X}')

    @property
    def alarm(self) -> Probe:
        """The alarm mask that is shown, or `None`."""
        return Probe(self, 'the alarm mask', self._alarm, lambda object: None if object is None else self.id(object), self.name)

    def value(self, object: int | str) -> Probe:
        """The text that a number or string shows; for comparisons with `<` and `>` as a number."""
        number = self.id(object)
        return Probe(self, self.name(number), lambda: self._once(('text', number), lambda: self.terminal.value_text(number)))

    def raw(self, object: int | str, attribute: str = 'value') -> Probe:
        """An attribute of an object as it is now, as the value of a bar or a variable."""
        number = self.id(object)
        return Probe(self, f'{attribute} of {self.name(number)}', lambda: self._attribute(number, attribute))

    def enabled(self, object: int | str) -> Probe:
        """Whether an input is enabled."""
        number = self.id(object)
        return Probe(self, f'{self.name(number)} enabled', lambda: (limits := self.terminal.limits(number)) is not None and limits.enabled)

    def items(self, object: int | str) -> list[str]:
        """The texts of the items of a list, empty for an item that is no text."""
        found = self.terminal.object(self.id(object))
        ids: Sequence[int] = found['items'] if found is not None else ()  # type: ignore[assignment]
        return [self.terminal.value_text(id) or '' for id in ids]

    def heard(self, what: str, object: int | str, value: bool | int | bytes | None = None, implement: Implement | None = None) -> Condition:
        """That the operator's last action reached the implement: a `key`, `button`, `number` or `text`, with its value if that is given."""
        number, listener = self.id(object), implement or self.implements[0]
        wanted = f'{what} {self.name(number)}' + ('' if value is None else f' {value!r}')

        def is_it(heard: Heard) -> bool:
            return (heard.what, heard.object) == (what, number) and (value is None or heard.value == value)

        return Condition(self, f'the implement hears {wanted}', lambda: any(is_it(each) for each in listener.heard),
                         lambda: f'it heard {self._heard_last(listener)}')

    def says(self, part: str) -> Condition:
        """That a frame since the operator's last action says this in words."""
        return Condition(self, f'a frame says {part!r}', lambda: any(part in self.words(seen) for seen in self._since()),
                         lambda: 'no frame since the last action of the operator says it')

    def live(self, implement: Implement | None = None) -> Condition:
        """That the pool of an implement is accepted."""
        which = implement or self.implements[0]
        return Condition(self, f'the pool of {which.address:02X} is accepted', lambda: which.phase == 'live',
                         lambda: f'its phase is {which.phase}' + (f': {which.fault}' if which.fault else ''))

    def words(self, seen: Seen) -> str:
        """What a frame says, with its objects as they are now."""
        return with_names(self.terminal.words(seen.id, seen.data), self._names_by_id)

    def _since(self) -> list[Seen]:
        new = self.bus.count - self._mark
        return list(self.bus.seen)[-new:] if new else []

    def _heard_last(self, listener: Implement) -> str:
        last = [f'{each.what} {self.name(each.object)} {each.value!r}' for each in listener.heard[-5:]]
        return ', '.join(last) or 'nothing'

    def _attribute(self, object: int, attribute: str) -> Any:
        found = self._once(('object', object), lambda: self.terminal.object(object))
        return None if found is None else found[attribute]

    def _mask(self) -> int | None:
        mask: int | None = self._once('mask', lambda: next((each.mask for each in self.terminal.sets() if each.shown), None))
        return mask

    def _alarm(self) -> int | None:
        mask = self._mask()
        found = None if mask is None else self._once(('object', mask), lambda: self.terminal.object(mask))
        return mask if found is not None and found.kind_name == 'Alarm Mask' else None

    def _screen(self) -> str:
        return str(self._once('screen', self.terminal.screen))

    def _once(self, key: Any, ask: Callable[[], Any]) -> Any:
        """What the terminal is asked, once until it may have changed."""
        if self._cached.get('look') != self.terminal.look:
            self._cached = {'look': self.terminal.look}
        if key not in self._cached:
            self._cached[key] = ask()
        return self._cached[key]

    def _told(self, time: int, outputs: Sequence[object]) -> None:
        """What the terminal told beside frames."""
        if self.terminal.redraws:
            self._cached = {}
        self.refusals += [each for each in outputs if isinstance(each, Refusal)]
        self.events += [(time, each) for each in outputs if isinstance(each, Event)]

    # Failures

    def state(self) -> str:
        """The last frames in words, and the path of a picture of the mask as it is now."""
        seen = [(each, self.words(each)) for each in list(self.bus.seen)[-200:]]
        last = [(each, words) for each, words in seen if not BORING.search(words)][-LAST_FRAMES:]
        lines = [f'the last frames, up to {self.time:.3f} s:', *(f'  {each.time / SECOND:9.3f} {words}' for each, words in last)]
        picture = self.save_picture()
        return '\n'.join(lines + ([f'the mask: {picture}'] if picture else []))

    def save_picture(self) -> Path | None:
        """Writes the mask as SVG beside the test, or to the folder for temporary files. `None` if nothing is shown."""
        text = self.terminal.picture()
        if not text:
            return None
        folder, stem = self.place or (Path(tempfile.gettempdir()), 'bench')
        path = folder / f'{stem}.svg'
        try:
            path.write_text(text, encoding='utf-8')
        except OSError:
            path = Path(tempfile.gettempdir()) / f'{stem}.svg'
            path.write_text(text, encoding='utf-8')
        return path

    def _message(self, condition: Condition | Callable[[], Any], when: str) -> str:
        words, found = (condition.words, condition.found()) if isinstance(condition, Condition) else (repr(condition), '')
        return '\n'.join(part for part in (f'{when}: {words}', found, self.state()) if part)


def expect(condition: Condition, within: float = 0) -> None:
    """Lets the time of the condition's bench go on until it holds, at most so many seconds. `Unmet` if it never does."""
    condition.bench.expect(condition, within)


def never(condition: Condition, during: float) -> None:
    """Lets so many seconds go by. `Unmet` if the condition holds at any moment of them."""
    condition.bench.never(condition, during)
