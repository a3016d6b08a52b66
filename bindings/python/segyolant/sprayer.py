"""A sprayer in a closed loop, over the pool `examples/sprayer.iop`: what the operator does changes what its masks show.

ON and START begin to spray and end it. The rate goes to the target; in the mode Headland to half of it. Without Auto the rate stays as
it is. FOLD moves the boom for some seconds, and nothing is sprayed while it is folded. The tank runs empty: when it is low, an alarm is
shown until OK, or FILL, is pressed.
"""
from __future__ import annotations

from pathlib import Path
from struct import pack

from . import commands
from .implement import SECOND, Implement
from .objects import objects_in
from .programs import PACKAGE, checkout

WORKING_SET, MASK_WORK, MASK_FOLD = 1, 1000, 1500
V_RATE, V_SPEED, V_TANK, S_FIELD = 200, 201, 202, 203
FONT_TITLE, FONT_LABEL, FONT_INPUT, FONT_KEY = 100, 101, 104, 105
PRESSURE, FLOW, SECTIONS, FOOTER, START, START_TEXT = 330, 331, 370, 397, 360, 361
KEY_ON, KEY_FOLD, KEY_MENU = 2001, 2002, 2003
IN_RATE, IN_AUTO, IN_MODE = 351, 352, 354

# The objects that stand behind those of the file.
ALARM, ALARM_KEYS, KEY_OK, KEY_FILL, IN_FIELD = 3000, 3001, 3002, 3003, 3020
ALARM_TITLE, ALARM_TANK, OK_TEXT, FILL_TEXT, FIELD_LABEL = 3010, 3011, 3012, 3013, 3021
NAMES = {'mask_alarm': ALARM, 'alarm_keys': ALARM_KEYS, 'key_ok': KEY_OK, 'key_fill': KEY_FILL, 'in_field': IN_FIELD,
         'alarm_title': ALARM_TITLE, 'alarm_tank': ALARM_TANK, 'keytext_ok': OK_TEXT, 'keytext_fill': FILL_TEXT, 'label_Field': FIELD_LABEL}

NULL, RED, SILVER = 0xFFFF, 12, 7
FULL, LOW = 1000.0, 100.0  # litres
HEADLAND = 2
FOLDING = 4 * SECOND
PLAIN = b'\x00\x00\x80\x3f\x00\x00'  # a scale of 1, no decimals, no exponents


class Sprayer(Implement):
    """The implement. `rate` and `target` are litres a hectare, `tank` litres, `speed` kilometres an hour."""

    work_interval = SECOND // 2

    def __init__(self, pool: bytes | None = None, tank: float = 640.0, **options: object) -> None:
        super().__init__(full_pool(sprayer_file('iop').read_bytes() if pool is None else pool), **options)  # type: ignore[arg-type]
        self.rate, self.target, self.speed, self.tank = 0.0, 200, 8.3, tank
        self.is_on, self.is_auto, self.is_folded, self.mode = False, True, False, 1
        self.is_warned = False
        self._fold_end: int | None = None
        self._sent: dict[int, int] = {}

    # What the operator does

    def key(self, object: int, is_held: bool) -> None:
        if not is_held:
            return
        if object == KEY_ON:
            self._switch()
        elif object == KEY_FOLD:
            self._fold()
        elif object == KEY_MENU:
            self.send(commands.sound(1, 1200, 60, 60))
        elif object in (KEY_OK, KEY_FILL):
            self._leave_alarm(is_filled=object == KEY_FILL)

    def button(self, object: int, is_held: bool) -> None:
        if is_held and object == START:
            self._switch()

    def number(self, object: int, value: int) -> None:
        if object == IN_RATE:
            self.target = value
        elif object == IN_AUTO:
            self.is_auto = bool(value)
        elif object == IN_MODE:
            self.mode = value

    def _switch(self) -> None:
        if self.is_folded or self._fold_end is not None or self.tank == 0:
            self.send(commands.sound(3, 800, 100, 100))
            return
        self._turn(not self.is_on)

    def _turn(self, is_on: bool) -> None:
        self.is_on = is_on
        self.send(commands.text(START_TEXT, 'STOP' if is_on else 'START'))

    def _fold(self) -> None:
        """The key's macros have hidden the sections and shown the mask of folding."""
        if self.is_on:
            self._turn(False)
        self._fold_end = self.time + FOLDING

    def _end_folding(self) -> None:
        self._fold_end, self.is_folded = None, not self.is_folded
        self.send(commands.text(FOOTER, f'Boom folded {"in" if self.is_folded else "out"}. GPS RTK fix.'))
        if not self.is_folded:
            self.send(commands.show(SECTIONS))
        self.send(commands.active_mask(WORKING_SET, MASK_WORK))

    def _leave_alarm(self, is_filled: bool) -> None:
        if is_filled:
            self.tank, self.is_warned = FULL, False
        self.send(commands.active_mask(WORKING_SET, MASK_WORK))

    # The loop

    def started(self) -> None:
        self._sent.clear()
        self._fold_end, self.is_folded, self.is_on, self.is_warned = None, False, False, False
        self._show_all()

    def work(self) -> None:
        if self._fold_end is not None and self._fold_end <= self.time:
            self._end_folding()
        goal = self.target * (0.5 if self.mode == HEADLAND else 1.0) if self.is_on else 0.0
        if self.is_auto or not self.is_on:
            self.rate += (goal - self.rate) * 0.3
        self.tank = max(self.tank - self.rate * 0.005, 0.0)
        if self.tank < LOW and not self.is_warned:
            self.is_warned = True
            self.send(commands.active_mask(WORKING_SET, ALARM))
        if self.tank == 0 and self.is_on:
            self._turn(False)
        self._show_all()

    def _show_all(self) -> None:
        """Sends the values that are other ones than those sent last."""
        values = {V_RATE: round(self.rate * 10), V_SPEED: round(self.speed * 10), V_TANK: round(self.tank),
                  PRESSURE: round(min(self.rate / 5, 100)), FLOW: round(min(self.rate / 4, 100))}
        for object, value in values.items():
            if self._sent.get(object) != value:
                self._sent[object] = value
                self.send(commands.number(object, value))


def sprayer_file(kind: str) -> Path:
    """The path of `sprayer.iop` or `sprayer.h`, in this package or in the repository. FileNotFoundError where they are in neither."""
    top = checkout()
    path = (PACKAGE if top is None else top) / 'examples' / f'sprayer.{kind}'
    if not path.is_file():
        raise FileNotFoundError(f'{path} is not there: the simulated sprayer needs it, from the folder examples of the repository')
    return path


def full_pool(pool: bytes) -> bytes:
    """The pool of `sprayer.iop` with an alarm mask and an input for the field's name behind it.

    A later record of an ID takes the place of an earlier one, so the work mask is written once more, with the input on it.
    """
    alarm = pack('<HBBHBBBB', ALARM, 2, RED, ALARM_KEYS, 1, 0, 2, 0) + _children((ALARM_TITLE, 40, 60), (ALARM_TANK, 40, 140))
    tank = pack('<HBHHBHBHII', ALARM_TANK, 12, 200, 32, RED, FONT_TITLE, 1, V_TANK, 0, 0) + PLAIN + pack('<BB', 0, 0)
    field = pack('<HBHHBHHBHBB16sBB', IN_FIELD, 8, 200, 20, 1, FONT_INPUT, NULL, 0, S_FIELD, 0, 16, b' ' * 16, 1, 0)
    keys = pack('<HBBBBHH', ALARM_KEYS, 4, SILVER, 2, 0, KEY_OK, KEY_FILL)
    added = [alarm, keys, _key(KEY_OK, 20, OK_TEXT), _key(KEY_FILL, 21, FILL_TEXT),
             _string(ALARM_TITLE, FONT_TITLE, 'THE TANK IS LOW', 400, 28), tank, _string(OK_TEXT, FONT_KEY, 'OK', 56, 14),
             _string(FILL_TEXT, FONT_KEY, 'FILL', 56, 14), field, _string(FIELD_LABEL, FONT_LABEL, 'Field', 100, 12),
             _with_children(pool, (FIELD_LABEL, 12, 399), (IN_FIELD, 12, 413))]
    return pool + b''.join(added)


def _children(*children: tuple[int, int, int]) -> bytes:
    return b''.join(pack('<Hhh', *child) for child in children)


def _key(id: int, code: int, text: int) -> bytes:
    return pack('<HBBBBB', id, 5, SILVER, code, 1, 0) + _children((text, 4, 20))


def _string(id: int, font: int, text: str, width: int, height: int) -> bytes:
    return pack('<HBHHBHBHBH', id, 11, width, height, 1, font, 1, NULL, 0, len(text)) + text.encode('latin-1') + b'\x00'


def _with_children(pool: bytes, *children: tuple[int, int, int]) -> bytes:
    """The record of the work mask with further children."""
    record = next(each.record for each in objects_in(pool) if each.id == MASK_WORK)
    count, end = record[6], 8 + 6 * record[6]
    return record[:6] + bytes([count + len(children)]) + record[7:end] + _children(*children) + record[end:]
