"""python3 -m segyolant.desk: a virtual terminal in a browser."""
from __future__ import annotations

import argparse
import asyncio
import signal
import sys
import webbrowser
from typing import TYPE_CHECKING

from ..errors import NoPool, SegyolantError
from ..naming import by_id
from ..names import names_of
from ..sprayer import NAMES, Sprayer, sprayer_file
from ..terminal import Terminal
from . import options
from .lines import InternalLine, Line, LogLine
from .recorder import Recorder

if TYPE_CHECKING:
    from .desk import Desk

APT = 'apt-get install -y --no-install-recommends python3-can python3-aiohttp'


def main(words: list[str] | None = None) -> int:
    """Runs the desk until it is interrupted. Status 2: something that it needs is not there."""
    chosen = options.parse(words)
    try:
        import aiohttp  # noqa: F401
    except ImportError:
        print(f'the desk needs aiohttp, and {sys.executable} has none: {APT}, and run it by /usr/bin/python3', file=sys.stderr)
        return 2
    try:
        asyncio.run(run(chosen))
    except NoPool as error:
        path = dict(chosen.pool).get(error.request.get('address'))
        print(f'segyolant.desk: {path}: the terminal refuses this pool; segyolant check {path} says why', file=sys.stderr)
        return 2
    except (SegyolantError, OSError) as error:
        print(f'segyolant.desk: {error}', file=sys.stderr)
        return 2
    except ImportError as error:
        print(f'segyolant.desk: {error}; a bus needs python-can: {APT}', file=sys.stderr)
        return 2
    except KeyboardInterrupt:
        pass
    return 0


async def run(chosen: argparse.Namespace) -> None:
    """Runs the desk and its server until SIGINT or SIGTERM."""
    from .server import Server, is_loopback

    desk = make_desk(chosen)
    server = Server(desk, chosen.host, chosen.port)
    ended = asyncio.Event()
    for number in (signal.SIGINT, signal.SIGTERM):
        asyncio.get_running_loop().add_signal_handler(number, ended.set)
    try:
        await server.start()
        desk.start()
        if not is_loopback(chosen.host):
            print('other machines can reach this page, and who has its address can operate the terminal', file=sys.stderr)
        print(f'the terminal is at {server.url}', flush=True)
        if chosen.open:
            webbrowser.open(server.url)
        await ended.wait()
    finally:
        await server.close()
        desk.close()


def make_desk(chosen: argparse.Namespace) -> Desk:
    """The desk that the words ask for."""
    from .desk import Desk

    names = {}
    line: Line
    if chosen.log is not None:
        line = LogLine(chosen.log, chosen.own)
    elif chosen.bus is not None:
        from .python_can import CanLine
        interface, channel = chosen.bus
        line = CanLine(interface, channel, **({'bitrate': chosen.bitrate} if chosen.bitrate else {}))
    elif chosen.pool:
        line = InternalLine([], 'no bus')
    else:
        line = InternalLine([Sprayer(terminal=chosen.own)], 'a simulated sprayer')
        names = {**names_of(sprayer_file('h')), **NAMES}
    for path in chosen.names:
        names.update(names_of(path))

    def make_terminal(own: int | None) -> Terminal:
        return Terminal(chosen.own if own is None else own, chosen.name, program=chosen.program)

    recorder = Recorder(chosen.record) if chosen.record is not None else None
    desk = Desk(make_terminal, line, by_id(names), recorder, {address: path.read_bytes() for address, path in chosen.pool},
                chosen.extras)
    if isinstance(line, LogLine):
        line.act = desk.play_action
        line.told = lambda: desk.audience.tell(line.state)
        line.warn = lambda problems: print(f'segyolant.desk: {line.name}: {problems}', file=sys.stderr)
    elif hasattr(line, 'told'):
        line.told = lambda words: desk.note(words, 'bad')
    return desk


if __name__ == '__main__':
    sys.exit(main())
