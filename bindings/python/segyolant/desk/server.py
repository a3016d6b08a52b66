"""The server of the page. It has four paths and reads no file but the page's own, and its WebSocket takes one origin and one token."""
from __future__ import annotations

import asyncio
import errno
import hmac
import ipaddress
import secrets
import socket
from pathlib import Path

from aiohttp import WSCloseCode, WSMsgType, web

from .acts import WrongMessage, do
from .audience import Page
from .desk import Desk

STATIC = Path(__file__).resolve().parent / 'static'
FILES = {'/desk.css': ('desk.css', 'text/css'), '/desk.js': ('desk.js', 'text/javascript')}
MOST_MESSAGE = 4096  # bytes of a message of a page
ANY = ('0.0.0.0', '::')  # all addresses of this machine
MOST_WRONG = 20  # messages of a page that are none, before it is closed
HEADERS = {
    'Content-Security-Policy': "default-src 'none'; script-src 'self'; style-src 'self'; img-src blob: data:; connect-src 'self'; "
                               "base-uri 'none'; form-action 'none'; frame-ancestors 'none'",
    'X-Content-Type-Options': 'nosniff', 'Referrer-Policy': 'no-referrer', 'Cache-Control': 'no-store',
    'Cross-Origin-Resource-Policy': 'same-origin', 'Cross-Origin-Opener-Policy': 'same-origin',
}


class Server:
    """Serves one desk. On loopback a page has the token in it; elsewhere it is given only to who knows the token already."""

    def __init__(self, desk: Desk, host: str = '127.0.0.1', port: int = 8099) -> None:
        self.desk, self.host, self.port = desk, host, port
        self.token = secrets.token_urlsafe(24)
        self.is_loopback = is_loopback(host)
        self._files = {path: ((STATIC / name).read_text(encoding='utf-8'), kind) for path, (name, kind) in FILES.items()}
        self._page = (STATIC / 'index.html').read_text(encoding='utf-8')
        self._sockets: set[web.WebSocketResponse] = set()
        self._runner: web.AppRunner | None = None

    @property
    def url(self) -> str:
        """Where the page is. Beyond loopback it has the token. For all addresses of this machine it has its name."""
        name = socket.gethostname() if self.host in ANY else self.host
        host = f'[{name}]' if ':' in name else name
        return f'http://{host}:{self.port}/' + ('' if self.is_loopback else f'?token={self.token}')

    async def start(self) -> None:
        """Opens the port; OSError if it is taken. Port 0 is any free one."""
        app = web.Application(middlewares=[self._guard])
        app.add_routes([web.get('/', self._index), web.get('/ws', self._socket), *(web.get(path, self._file) for path in self._files)])
        self._runner = web.AppRunner(app, access_log=None)
        await self._runner.setup()
        try:
            await web.TCPSite(self._runner, self.host, self.port).start()
        except OSError as error:
            if error.errno != errno.EADDRINUSE:
                raise
            raise OSError(f'the port {self.port} is taken, perhaps by another desk: give another one by --port') from None
        self.port = self._runner.addresses[0][1]

    async def close(self) -> None:
        """Closes all pages and the port."""
        for each in list(self._sockets):
            await each.close(code=WSCloseCode.GOING_AWAY, message=b'the desk has ended')
        if self._runner is not None:
            await self._runner.cleanup()

    @web.middleware
    async def _guard(self, request: web.Request, handler: object) -> web.StreamResponse:
        """Refuses names of other machines, as those that are bent to this one, and sets the headers of all answers."""
        if not self._is_own_host(request.host):
            raise web.HTTPForbidden(text=f'this is {self.url}, and not {request.host}\n')
        response: web.StreamResponse = await handler(request)  # type: ignore[operator]
        if not response.prepared:
            response.headers.update(HEADERS)
        return response

    def _is_own_host(self, host: str) -> bool:
        return not self.is_loopback or host in {f'{name}:{self.port}' for name in (self.host, 'localhost', '127.0.0.1', '[::1]')}

    def _knows_token(self, request: web.Request) -> bool:
        return hmac.compare_digest(request.query.get('token', '').encode(), self.token.encode())

    async def _index(self, request: web.Request) -> web.Response:
        if not self.is_loopback and not self._knows_token(request):
            raise web.HTTPForbidden(text='open the address that the program printed: it has a token\n')
        return web.Response(text=self._page.replace('TOKEN', self.token), content_type='text/html')

    async def _file(self, request: web.Request) -> web.Response:
        text, kind = self._files[request.path]
        return web.Response(text=text, content_type=kind)

    async def _socket(self, request: web.Request) -> web.WebSocketResponse:
        if request.headers.get('Origin') != f'http://{request.host}' or not self._knows_token(request):
            raise web.HTTPForbidden(text='another origin, or another token\n')
        talk = web.WebSocketResponse(max_msg_size=MOST_MESSAGE, heartbeat=20, compress=False)
        await talk.prepare(request)
        self._sockets.add(talk)
        page = Page()
        self.desk.audience.add(page)
        self.desk.painter.paint_soon()
        sender = asyncio.ensure_future(self._send(talk, page))
        try:
            await self._receive(talk, page)
        finally:
            sender.cancel()
            self._sockets.discard(talk)
            self.desk.leave(page)
        return talk

    async def _send(self, talk: web.WebSocketResponse, page: Page) -> None:
        try:
            await page.run(talk.send_str)
        except (asyncio.TimeoutError, ConnectionError, RuntimeError):
            self.desk.leave(page)
            await talk.close()

    async def _receive(self, talk: web.WebSocketResponse, page: Page) -> None:
        wrong = 0
        async for message in talk:
            if message.type != WSMsgType.TEXT:
                break
            try:
                do(self.desk, page, message.data)
            except WrongMessage as error:
                wrong += 1
                self.desk.note(str(error), 'bad', page)
                if wrong == MOST_WRONG:
                    await talk.close(code=WSCloseCode.POLICY_VIOLATION)
                    break


def is_loopback(host: str) -> bool:
    """Whether an address is reached from this machine alone."""
    try:
        return ipaddress.ip_address(host).is_loopback
    except ValueError:
        return host == 'localhost'
