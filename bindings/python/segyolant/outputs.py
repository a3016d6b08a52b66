"""The outputs of an input: frames to send, refusals, and events, in their order."""
from __future__ import annotations

from typing import Union

from .errors import ProtocolError
from .events import Event, event_of
from .frames import Frame, Refusal, frame_of, refusal_of
from .live import Reply

Output = Union[Frame, Refusal, Event]


def outputs_of(reply: Reply) -> list[Output]:
    """The outputs and events of a reply. ProtocolError if there is one that this package does not know."""
    outputs: list[Output] = []
    for line in reply.lines:
        if 'send' in line:
            outputs.append(frame_of(line['send']))
        elif 'refused' in line:
            outputs.append(refusal_of(line['refused']))
        else:
            event = event_of(line)
            if event is None:
                raise ProtocolError(f'an output that is not known, {line}', reply.request)
            outputs.append(event)
    return outputs
