"""What the page is told of the terminal, as values of JSON. Texts of pools go as they are: the page never takes them for markup."""
from __future__ import annotations

from collections.abc import Mapping, Sequence
from typing import Any

from ..events import (AddressLost, Event, PoolAccepted, PoolDeleted, PoolFaulty, PoolRefused, PoolUpdated, SetCame, SetClosed, SetSilent,
                      TextAborted)
from ..objects import NO_OBJECT
from ..state import INPUT_BOOLEAN, INPUT_LIST, INPUT_NUMBER, INPUT_STRING, Limits
from ..terminal import Terminal
from .kinds import Kinds
from .places import Place, places_in
from .screen_text import Said, all_said, texts_within

MOST_PICTURE = 4_000_000  # characters of a picture that is still sent
ALARM_MASK, KEY, BUTTON = 2, 5, 6
ACTIVE = {KEY: 'key', BUTTON: 'button', INPUT_BOOLEAN: 'boolean', INPUT_STRING: 'text', INPUT_NUMBER: 'number', INPUT_LIST: 'list'}
PRIORITIES = ('high', 'medium', 'low')

Names = Mapping[int, str]


def picture(terminal: Terminal, kinds: Kinds) -> dict[str, Any]:
    """The picture of the shown mask, and the places of its keys, buttons and inputs."""
    svg = terminal.picture()
    if len(svg) > MOST_PICTURE:
        return {'svg': '', 'hits': [], 'lines': [], 'too_long': len(svg)}
    screen = terminal.screen()
    return {'svg': svg, 'hits': hits(places_in(svg), screen, kinds), 'lines': screen.splitlines()[1:]}


def hits(places: Sequence[Place], screen: str, kinds: Kinds) -> list[dict[str, Any]]:
    """The places at which the operator can do something, those that are drawn last behind the others."""
    said = all_said(screen, places)
    found = []
    for index, place in enumerate(places):
        kind = kinds.of(place.id)
        if kind in ACTIVE and place.right > place.left and place.bottom > place.top:
            found.append({
                'id': place.id, 'kind': ACTIVE[kind], 'label': label(index, kind, places, said), 'off': said[index].is_off,
                'x': place.left, 'y': place.top, 'width': place.right - place.left, 'height': place.bottom - place.top,
            })
    return found


def label(index: int, kind: int, places: Sequence[Place], said: Sequence[Said]) -> str:
    """What a place is called: the texts of a key or button, the value of an input."""
    own = said[index].text
    if kind == INPUT_BOOLEAN:
        return 'on' if own == 'true' else 'off'
    if kind == INPUT_LIST:
        within = texts_within(index, places, said)
        return within[len(own):].strip() or f'item {own}'
    return texts_within(index, places, said)


def sets(terminal: Terminal) -> list[dict[str, Any]]:
    """The working sets, in the order in which they registered."""
    return [{'address': each.address, 'pool': each.pool, 'shown': each.shown, 'mask': each.mask, 'held': each.key, 'selected': each.input}
            for each in terminal.sets()]


def alarm(terminal: Terminal, mask: int | None) -> dict[str, Any] | None:
    """The alarm that is shown: its priority in a word, and its signal, 0 highest to 3 none. `None` for another mask."""
    found = None if mask is None else terminal.object(mask)
    if found is None or found.kind != ALARM_MASK:
        return None
    priority = found.number('priority')
    return {'mask': mask, 'priority': PRIORITIES[priority] if priority < 3 else str(priority), 'signal': found.number('acoustic')}


def dialog(terminal: Terminal, object: int, names: Names) -> dict[str, Any] | None:
    """What a dialog for an input needs. `None` for another object."""
    limits = terminal.limits(object)
    if limits is None:
        return None
    told: dict[str, Any] = {'object': object, 'name': names.get(object, ''), 'input': ACTIVE[limits.kind], 'enabled': limits.enabled,
                            'value': limits.value}
    if limits.kind == INPUT_NUMBER:
        told.update(number_limits(limits))
    elif limits.kind == INPUT_LIST:
        told['items'] = items(terminal, object)
    elif limits.kind == INPUT_STRING:
        told.update(text=(terminal.value_text(object) or '').rstrip(), length=limits.length, **allowed(terminal, object))
    return told


def number_limits(limits: Limits) -> dict[str, Any]:
    """The value and the limits of a number as they are shown, and how many decimals can be typed."""
    shown = {name: f'{limits.shown(raw):f}' for name, raw in
             (('shown', limits.value), ('least', limits.minimum), ('greatest', limits.maximum))}
    return {**shown, 'places': limits.places, 'none': limits.maximum < limits.minimum}


def items(terminal: Terminal, object: int) -> list[dict[str, Any]]:
    """The items of a list: each with its text, if it has one, and its picture."""
    found = terminal.object(object)
    ids: Any = found['items'] if found is not None else ()
    told = []
    for id in ids:
        there = id != NO_OBJECT
        told.append({'text': (terminal.value_text(id) or '').strip() if there else '', 'svg': terminal.part(id) if there else ''})
    return told


def allowed(terminal: Terminal, object: int) -> dict[str, Any]:
    """The characters that the input's attributes name: those that are allowed, or those that are not."""
    found = terminal.object(object)
    id = NO_OBJECT if found is None else found.number('input_attributes')
    attributes = None if id == NO_OBJECT else terminal.object(id)
    if attributes is None:
        return {}
    return {'characters': attributes.text, 'are_forbidden': attributes.number('validation_type') == 1}


def event_words(event: Event, names: Names) -> tuple[str, str] | None:
    """What an event says in a sentence, and how grave it is: `good`, `bad` or `plain`. `None` for those that the page shows otherwise."""
    at = f'{event.address:02X}' if getattr(event, 'address', None) is not None else ''
    if isinstance(event, PoolFaulty):
        return f'the pool of {at} is refused: fault {event.fault} {event.name} at {event.offset}', 'bad'
    if isinstance(event, PoolRefused):
        objects = _named(event.object, names) + _named(event.other, names, ', which names ')
        return f'the pool of {at} is refused: rule {event.rule}{objects}', 'bad'
    plain: dict[type, tuple[str, str]] = {
        SetCame: (f'set {at} came', 'plain'), SetSilent: (f'set {at} fell silent and is closed', 'bad'),
        SetClosed: (f'set {at} is closed: its NAME does not hold the address any more', 'bad'),
        PoolAccepted: (f'the pool of {at} is accepted', 'good'), PoolUpdated: (f'the pool of {at} is updated', 'good'),
        PoolDeleted: (f'{at} deleted its pool', 'plain'), TextAborted: (f'a text did not reach {at}', 'bad'),
        AddressLost: (f'another node took the address {at}', 'bad'),
    }
    return plain.get(type(event))


def _named(object: int | None, names: Names, before: str = ', object ') -> str:
    if object is None:
        return ''
    return f'{before}{object}' + (f' `{names[object]}`' if object in names else '')
