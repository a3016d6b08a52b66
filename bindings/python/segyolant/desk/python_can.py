"""A bus of python-can: frames are received and sent in threads of their own, so that neither waits for the desk."""
from __future__ import annotations

import asyncio
import queue
import threading
import time
from collections import deque
from collections.abc import Callable, Sequence
from typing import Any

from ..frames import Frame
from .clock import SECOND, Clock
from .lines import Hear, Received

CHANNELS = {'virtual': 'desk', 'udp_multicast': '239.74.163.2'}
OLDEST = 60 * SECOND  # a time of reception that is older is none, as some interfaces give 0
TRIES, PAUSE = 50, 0.002


class CanLine:
    """An interface of python-can, as `socketcan:can0`. `told` is called in the loop of the desk with each fault in words."""

    def __init__(self, interface: str, channel: str | None = None, **options: Any) -> None:
        import can  # not needed without a bus

        self._can = can
        channel = channel or CHANNELS.get(interface)
        self.name, self.clock = interface + (f':{channel}' if channel else ''), Clock()
        self.told: Callable[[str], None] = lambda words: None
        try:
            self._bus = can.Bus(interface=interface, channel=channel, receive_own_messages=False, **options)
        except (OSError, can.CanError) as error:
            raise OSError(f'the bus {self.name} cannot be opened: {error}') from error
        self._waiting: deque[Received] = deque()
        self._is_told = False
        self._to_send: queue.SimpleQueue[Frame | None] = queue.SimpleQueue()
        self._is_open = False
        self._threads: list[threading.Thread] = []
        self._latest = 0

    def open(self, hear: Hear) -> None:
        self._hear, self._loop, self._is_open = hear, asyncio.get_running_loop(), True
        self._threads = [threading.Thread(target=work, daemon=True) for work in (self._receive, self._send)]
        for thread in self._threads:
            thread.start()

    def send(self, frames: Sequence[Frame]) -> None:
        for frame in frames:
            self._to_send.put(frame)

    def close(self) -> None:
        self._is_open = False
        self._to_send.put(None)
        for thread in self._threads:
            thread.join(2)
        self._bus.shutdown()

    # In the loop of the desk

    def _take(self) -> None:
        """Gives all frames that wait to the desk at once."""
        self._is_told = False
        frames = []
        while self._waiting:
            frames.append(self._waiting.popleft())
        if frames:
            self._hear(frames)

    # In the threads

    def _receive(self) -> None:
        while self._is_open:
            try:
                message = self._bus.recv(0.2)
            except self._can.CanError as error:
                self._say(f'{self.name}: {error}')
                time.sleep(0.5)
                continue
            if message is None or not message.is_extended_id or message.is_remote_frame or message.is_error_frame or message.is_fd:
                continue
            self._waiting.append((self._time_of(message.timestamp), message.arbitration_id, bytes(message.data)))
            if not self._is_told:
                self._is_told = True
                self._call(self._take)

    def _time_of(self, timestamp: float) -> int:
        """The time of reception on the clock of the desk, never later than now nor earlier than the one before."""
        now = self.clock.now()
        at = now - round((time.time() - timestamp) * SECOND)
        if not now - OLDEST < at <= now:
            at = now
        self._latest = max(at, self._latest)
        return self._latest

    def _send(self) -> None:
        while (frame := self._to_send.get()) is not None:
            message = self._can.Message(arbitration_id=frame.id, data=frame.data, is_extended_id=True)
            for attempt in range(TRIES):
                try:
                    self._bus.send(message, timeout=0.5)
                    break
                except (self._can.CanError, OSError) as error:
                    if attempt == TRIES - 1 or not self._is_open:
                        self._say(f'{self.name}: a frame could not be sent: {error}')
                        break
                    time.sleep(PAUSE)

    def _say(self, words: str) -> None:
        self._call(lambda: self.told(words))

    def _call(self, function: Callable[[], None]) -> None:
        try:
            self._loop.call_soon_threadsafe(function)
        except RuntimeError:
            self._is_open = False  # the loop has ended
