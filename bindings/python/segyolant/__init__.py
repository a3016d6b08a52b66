"""An ISOBUS virtual terminal (ISO 11783-6) for Python: frames and actions in; frames, screens and pictures out.

docs/PYTHON.md has recipes. `Terminal` is one terminal in exact time, `Host` what a terminal on a bus owes it, `replay` takes logs, and
`check`, `report` and `draw` pools.
"""
from .errors import (
    CoreEnded, CoreError, LogError, NoMemory, NoPool, NoSuch, NotBegun, ProgramFailed, ProgramNotFound, ProtocolError, SegyolantError,
)
from .events import (
    AddressLost, Alarm, AlarmOver, Event, PoolAccepted, PoolDeleted, PoolFaulty, PoolRefused, PoolUpdated, SetCame, SetClosed, SetSilent,
    Shown, Signal, TextAborted, Uploaded, Volume,
)
from .extras import ExtraFrame, Language
from .frames import Frame, Refusal
from .host import Host, Silent
from .logs import Step, read_log, replay, replay_text
from .names import names_of
from .objects import Object, object_of, objects_in
from .outputs import Output
from .pools import Finding, check, draw, report
from .state import Element, Limits, Profile, WorkingSet
from .terminal import Terminal

__version__ = '0.2.0'

__all__ = [
    'AddressLost', 'Alarm', 'AlarmOver', 'CoreEnded', 'CoreError', 'Element', 'Event', 'ExtraFrame', 'Finding', 'Frame', 'Host', 'Language',
    'Limits', 'LogError', 'NoMemory', 'NoPool', 'NoSuch', 'NotBegun', 'Object', 'Output', 'PoolAccepted', 'PoolDeleted', 'PoolFaulty',
    'PoolRefused', 'PoolUpdated', 'Profile', 'ProgramFailed', 'ProgramNotFound', 'ProtocolError', 'Refusal', 'SegyolantError', 'SetCame',
    'SetClosed', 'SetSilent', 'Shown', 'Signal', 'Silent', 'Step', 'Terminal', 'TextAborted', 'Uploaded', 'Volume', 'WorkingSet', 'check',
    'draw', 'names_of', 'object_of', 'objects_in', 'read_log', 'replay', 'replay_text', 'report',
]
