"""What a page asks for: messages of JSON that are checked, and done. Nothing of them is trusted."""
from __future__ import annotations

import json
from collections.abc import Callable
from typing import Any

from ..errors import SegyolantError
from ..host import Silent
from . import views
from .audience import Page
from .desk import Desk
from .lines import LogLine

MOST_TEXT = 1000
SPEEDS = (0.25, 0.5, 1, 2, 4, 8, 16, 64)


class WrongMessage(ValueError):
    """A message of a page that is none."""


def do(desk: Desk, page: Page, text: str) -> None:
    """Does what a message asks for. WrongMessage for one that has another form; what the terminal refuses is told to the page."""
    try:
        message = json.loads(text)
    except (ValueError, RecursionError):
        raise WrongMessage('a message that is no JSON') from None
    if not isinstance(message, dict) or not isinstance(message.get('do'), str) or message['do'] not in ACTS:
        raise WrongMessage('a message that asks for nothing that is known')
    try:
        ACTS[message['do']](desk, page, message)
    except WrongMessage:
        raise
    except Silent:
        desk.note('the terminal is claiming its address: try again in a moment', 'plain', page)
    except (SegyolantError, ValueError, TypeError) as error:
        desk.note(str(error), 'bad', page)


def press(desk: Desk, page: Page, message: dict[str, Any]) -> None:
    """Presses a key or button, and holds it until `release`, or until the page is closed."""
    object = _number(message, 'object', 0xFFFF)
    page.held.add(object)
    if desk.operate(page, 'press', object):
        page.held.discard(object)


def release(desk: Desk, page: Page, message: dict[str, Any]) -> None:
    """Releases a key or button that is held on this page."""
    object = _number(message, 'object', 0xFFFF)
    if object in page.held:
        page.held.discard(object)
        desk.release(page, object)


def open_dialog(desk: Desk, page: Page, message: dict[str, Any]) -> None:
    """Selects an input, and tells the page what its dialog needs."""
    object = _number(message, 'object', 0xFFFF)
    if desk.operate(page, 'select', object):
        return
    told = desk.guarded(lambda: views.dialog(desk.terminal, object, desk.names))
    if told is not None:
        page.note({'kind': 'dialog', **told})


def enter(desk: Desk, page: Page, message: dict[str, Any]) -> None:
    """Enters what was typed or chosen in a dialog, and tells the page whether the terminal took it."""
    object = _number(message, 'object', 0xFFFF)
    try:
        if 'typed' in message:
            typed = _text(message, 'typed').strip().replace(',', '.')
            refusals = desk.operate(page, 'enter_number', object, typed)
        elif 'text' in message:
            refusals = desk.operate(page, 'enter_text', object, _text(message, 'text').encode('latin-1', 'replace'))
        else:
            refusals = desk.operate(page, 'enter_raw', object, _number(message, 'raw', 2**32 - 1))
    except WrongMessage:
        raise
    except (SegyolantError, ValueError, TypeError) as error:
        page.note({'kind': 'entered', 'object': object, 'fault': str(error)})
        return
    fault = 'the terminal is not there' if refusals is None else ', '.join(WHY.get(each.name, each.name) for each in refusals)
    page.note({'kind': 'entered', 'object': object, 'fault': fault})


def choose(desk: Desk, page: Page, message: dict[str, Any]) -> None:
    """Chooses a working set. What is held on this page is released before."""
    address = _number(message, 'address', 0xFF)
    for object in list(page.held):
        page.held.discard(object)
        desk.release(page, object)
    desk.operate(page, 'choose', address)


def begin(desk: Desk, page: Page, message: dict[str, Any]) -> None:
    """Begins a new terminal at an address, after the loss of the one before."""
    own = _number(message, 'own', 253)
    if not desk.terminal.lost:
        raise WrongMessage('the terminal has its address')
    desk.begin(own)


def record(desk: Desk, page: Page, message: dict[str, Any]) -> None:
    """Switches the recording on or off."""
    if desk.recorder is None:
        raise WrongMessage('nothing is recorded: start the desk with --record FILE')
    desk.recorder.is_on = message.get('on') is True and not desk.recorder.fault
    desk.tell_state()


def play(desk: Desk, page: Page, message: dict[str, Any]) -> None:
    """Plays the log, stands still, plays one line, or changes the speed."""
    line = desk.line
    if not isinstance(line, LogLine):
        raise WrongMessage('no log is played')
    if message.get('step') is True:
        line.step()
    speed = message.get('speed')
    if speed is not None and speed not in SPEEDS:
        raise WrongMessage(f'the speed is one of {", ".join(map(str, SPEEDS))}')
    if isinstance(message.get('runs'), bool) or speed is not None:
        line.play(message.get('runs') if isinstance(message.get('runs'), bool) else None, speed)
    desk.run()


def _number(message: dict[str, Any], name: str, most: int) -> int:
    value = message.get(name)
    if isinstance(value, bool) or not isinstance(value, int) or not 0 <= value <= most:
        raise WrongMessage(f'{name} is a number from 0 to {most}')
    return value


def _text(message: dict[str, Any], name: str) -> str:
    value = message.get(name)
    if not isinstance(value, str) or len(value) > MOST_TEXT:
        raise WrongMessage(f'{name} is a text of at most {MOST_TEXT} characters')
    return value


WHY = {
    'NotShown': 'it is not shown any more', 'Disabled': 'it is disabled', 'Range': 'it is out of range', 'TooLong': 'it is too long',
    'WrongKind': 'it is no such input', 'NotPressed': 'it is not held', 'Held': 'another key is held',
    'Busy': 'the implement has not taken the text before it yet', 'NoSet': 'no set is shown',
}
ACTS: dict[str, Callable[[Desk, Page, dict[str, Any]], None]] = {
    'press': press, 'release': release, 'open': open_dialog, 'enter': enter, 'choose': choose, 'begin': begin, 'record': record,
    'play': play,
}
