"""What a test expects of a bench: conditions that are looked at again and again while the clock goes on, and values to compare.

    bench.screen.contains('Automatic')            a condition
    bench.value('value_Rate') > 50                a condition, of a value that is read when it is looked at
    (bench.mask == 'mask_fold') & ~bench.alarm    conditions together

As a truth value, as behind `assert`, a condition says whether it holds now.
"""
from __future__ import annotations

import difflib
from collections.abc import Callable
from typing import TYPE_CHECKING, Any

if TYPE_CHECKING:
    from .bench import Bench


class Condition:
    """Something that may hold on a bench. `words` says what, and `found` what is there in its place."""

    def __init__(self, bench: Bench, words: str, test: Callable[[], bool], found: Callable[[], str] = lambda: '') -> None:
        self.bench, self.words, self.test, self.found = bench, words, test, found

    def holds(self) -> bool:
        """Whether it holds now."""
        return bool(self.test())

    def __bool__(self) -> bool:
        return self.holds()

    def __and__(self, other: Condition) -> Condition:
        return Condition(self.bench, f'{self.words}, and {other.words}', lambda: self.holds() and other.holds(),
                         lambda: '\n'.join(each.found() for each in (self, other) if not each.holds()))

    def __or__(self, other: Condition) -> Condition:
        return Condition(self.bench, f'{self.words}, or {other.words}', lambda: self.holds() or other.holds(),
                         lambda: f'{self.found()}\n{other.found()}')

    def __invert__(self) -> Condition:
        return Condition(self.bench, f'not: {self.words}', lambda: not self.holds(), self.found)

    def __repr__(self) -> str:
        return self.words if self.holds() else f'{self.words}; {self.found()}'


class Probe:
    """A value of the bench that is read each time it is looked at. Compared, it gives a condition."""

    __hash__ = None  # type: ignore[assignment]

    def __init__(self, bench: Bench, words: str, read: Callable[[], Any], convert: Callable[[Any], Any] = lambda value: value,
                 show: Callable[[Any], str] = repr) -> None:
        self.bench, self.words, self.read, self.convert, self.show = bench, words, read, convert, show

    @property
    def now(self) -> Any:
        """The value that it has now."""
        return self.read()

    def is_(self, words: str, test: Callable[[Any], bool]) -> Condition:
        """A condition of one's own: `bench.value('v').is_('even', lambda value: value % 2 == 0)`."""
        return Condition(self.bench, f'{self.words} is {words}', lambda: test(self.now), lambda: f'{self.words} is {self.show(self.now)}')

    def contains(self, part: str) -> Condition:
        """That the value has this part."""
        return self._compare(f'contains {part!r}', lambda value: value is not None and part in value)

    def __eq__(self, other: object) -> Condition:  # type: ignore[override]
        wanted = self.convert(other)
        return self._compare(f'is {self.show(wanted)}', lambda value: is_same(value, wanted))

    def __ne__(self, other: object) -> Condition:  # type: ignore[override]
        wanted = self.convert(other)
        return self._compare(f'is not {self.show(wanted)}', lambda value: not is_same(value, wanted))

    def __gt__(self, other: float) -> Condition:
        return self._compare(f'is above {other}', lambda value: value is not None and float(value) > other)

    def __ge__(self, other: float) -> Condition:
        return self._compare(f'is at least {other}', lambda value: value is not None and float(value) >= other)

    def __lt__(self, other: float) -> Condition:
        return self._compare(f'is below {other}', lambda value: value is not None and float(value) < other)

    def __le__(self, other: float) -> Condition:
        return self._compare(f'is at most {other}', lambda value: value is not None and float(value) <= other)

    def __bool__(self) -> bool:
        return bool(self.now)

    def __invert__(self) -> Condition:
        return Condition(self.bench, f'{self.words} is nothing', lambda: not self.now, lambda: f'{self.words} is {self.show(self.now)}')

    def __repr__(self) -> str:
        return f'{self.words}: {self.show(self.now)}'

    def _compare(self, words: str, test: Callable[[Any], bool]) -> Condition:
        return Condition(self.bench, f'{self.words} {words}', lambda: test(self.now), lambda: f'{self.words} is {self.show(self.now)}')


def is_same(value: Any, wanted: object) -> bool:
    """Whether a value is the wanted one. The text of a number is compared with a number by what it says."""
    if isinstance(value, str) and isinstance(wanted, (int, float)):
        try:
            return float(value) == wanted
        except ValueError:
            return False
    return bool(value == wanted)


class Screen:
    """The screen of the shown set as text, a line for each object (docs/PROFILE.md, "Form of the text")."""

    def __init__(self, bench: Bench, read: Callable[[], str]) -> None:
        self.bench, self.read = bench, read

    @property
    def text(self) -> str:
        """The text now."""
        return self.read()

    def contains(self, part: str) -> Condition:
        """That the text has this part."""
        return Condition(self.bench, f'the screen contains {part!r}', lambda: part in self.text, lambda: self._nearest(part))

    def lacks(self, part: str) -> Condition:
        """That the text does not have this part."""
        return Condition(self.bench, f'the screen does not contain {part!r}', lambda: part not in self.text, lambda: self._nearest(part))

    def equals(self, text: str) -> Condition:
        """That the text is this one, from the first to the last line."""
        wanted = text.strip().splitlines()
        return Condition(self.bench, 'the screen is as expected', lambda: self.text.strip().splitlines() == wanted,
                         lambda: self._difference(wanted))

    def shows(self, object: int | str) -> Condition:
        """That the object is drawn."""
        number = self.bench.id(object)
        return Condition(self.bench, f'{self.bench.name(number)} is drawn', lambda: self.line(number) is not None,
                         lambda: f'{self.bench.name(number)} is not drawn')

    def line(self, object: int | str) -> str | None:
        """The first line of an object, or `None`."""
        number = str(self.bench.id(object))
        return next((line for line in self.text.splitlines()[1:] if line.split(' ')[1:2] == [number]), None)

    def __repr__(self) -> str:
        return self.text

    def _nearest(self, part: str) -> str:
        lines = self.text.splitlines()
        near = difflib.get_close_matches(part, lines, 3, 0.4) or [line for line in lines if part.split(' ')[0] in line][:3]
        if not near:
            return 'no line of the screen is like it'
        return '\n'.join(['the nearest lines of the screen:', *(f'  {line}' for line in near)])

    def _difference(self, wanted: list[str]) -> str:
        lines = difflib.unified_diff(wanted, self.text.strip().splitlines(), 'expected', 'shown', lineterm='', n=1)
        return '\n'.join(f'  {line}' for line in lines)
