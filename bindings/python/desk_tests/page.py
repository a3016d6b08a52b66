"""A desk in this process and a headless Chromium that has its page open."""
from __future__ import annotations

import asyncio
import threading
import time
from collections.abc import Callable, Sequence
from pathlib import Path
from typing import Any

from selenium import webdriver
from selenium.webdriver.chrome.service import Service
from selenium.webdriver.common.by import By
from selenium.webdriver.remote.webelement import WebElement

from segyolant import Terminal, names_of
from segyolant.bus import Node
from segyolant.desk.desk import Desk
from segyolant.desk.lines import InternalLine, LogLine
from segyolant.desk.server import Server
from segyolant.naming import by_id
from segyolant.programs import checkout
from segyolant.sprayer import NAMES, sprayer_file

TOP = checkout() or Path('.')
SHOTS = TOP / 'out' / 'desk'


class RunningDesk:
    """A desk with simulated implements, or a log, in a loop of its own thread."""

    def __init__(self, implements: Sequence[Node] = (), pools: dict[int, bytes] = {}, log: Path | None = None) -> None:
        self._implements, self._pools, self._log = implements, pools, log
        self.loop = asyncio.new_event_loop()
        self._thread = threading.Thread(target=self.loop.run_forever, daemon=True)
        self._thread.start()
        self.call(self._start)

    async def _start(self) -> None:
        self.line = InternalLine(self._implements) if self._log is None else LogLine(self._log, 0x26)
        names = by_id({**names_of(sprayer_file('h')), **NAMES}) if self._log is None else {}
        self.desk = Desk(lambda own: Terminal(0x26 if own is None else own), self.line, names, pools=self._pools)
        if isinstance(self.line, LogLine):
            line = self.line
            line.act, line.told = self.desk.play_action, lambda: self.desk.audience.tell(line.state)
        self.server = Server(self.desk, port=0)
        await self.server.start()
        self.desk.start()

    def call(self, function: Callable[..., Any], *arguments: Any) -> Any:
        """Calls a function in the loop of the desk."""
        async def run() -> Any:
            result = function(*arguments)
            return await result if asyncio.iscoroutine(result) else result
        return asyncio.run_coroutine_threadsafe(run(), self.loop).result(60)

    def close(self) -> None:
        async def end() -> None:
            await self.server.close()
            self.desk.close()
        self.call(end)
        self.loop.call_soon_threadsafe(self.loop.stop)
        self._thread.join(10)
        self.loop.close()


class Browser:
    """The page in headless Chromium. `close` fails if the page ever said something on its console."""

    def __init__(self) -> None:
        options = webdriver.ChromeOptions()
        for word in ('--headless=new', '--no-sandbox', '--disable-dev-shm-usage', '--window-size=1500,900', '--disable-gpu', '--mute-audio'):
            options.add_argument(word)
        options.set_capability('goog:loggingPrefs', {'browser': 'ALL'})
        self.driver = webdriver.Chrome(service=Service('/usr/bin/chromedriver'), options=options)

    def open(self, desk: RunningDesk) -> None:
        self.driver.get(desk.server.url)

    def script(self, text: str, *arguments: Any) -> Any:
        return self.driver.execute_script(text, *arguments)

    def until(self, holds: Callable[[], Any], what: str, seconds: float = 30) -> Any:
        """Waits until something holds, and returns it."""
        end = time.monotonic() + seconds
        while True:
            found = holds()
            if found:
                return found
            if time.monotonic() > end:
                self.shot('failure')
                says = self.script('return document.body.innerText')[:600]
                raise AssertionError(f'{what}: not within {seconds} s; the page says {says!r}')
            time.sleep(0.03)

    def all(self, selector: str) -> list[WebElement]:
        return self.driver.find_elements(By.CSS_SELECTOR, selector)

    def hit(self, object: int) -> WebElement:
        """The button that lies over an object."""
        return self.until(lambda: self.all(f'#hit-{object}-0'), f'a place of {object}')[0]

    def label(self, object: int) -> str:
        return self.script('return document.getElementById(arguments[0])?.ariaLabel ?? ""', f'hit-{object}-0')

    def text(self, selector: str) -> str:
        return self.script('return document.querySelector(arguments[0]).textContent', selector)

    def said(self) -> list[str]:
        """What the mask says, line by line."""
        return self.script('return [...document.querySelectorAll("#said li")].map(line => line.textContent)')

    def value(self, object: int) -> str:
        """The end of the line of an object, empty where there is none."""
        return next((line.split(' ', 4)[-1] for line in self.said() if line.split(' ')[1:2] == [str(object)]), '')

    def shot(self, name: str) -> None:
        SHOTS.mkdir(parents=True, exist_ok=True)
        self.driver.save_screenshot(str(SHOTS / f'{name}.png'))

    def console(self) -> list[str]:
        """What the page has said on its console since the last time."""
        return [entry['message'] for entry in self.driver.get_log('browser')] + self.script('return desk.errors.splice(0)')

    def close(self) -> None:
        self.driver.quit()
