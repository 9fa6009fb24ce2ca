"""A small server of HTTP/1.1 over asyncio, for the page: what it takes is limited in number, size and time.

A handler is given a `Request` and gives an `Answer`, whose body is bytes, or lines that are sent as they come. While lines are sent the
connection is watched: where the browser leaves, the generator of lines is closed at once, and so is what it waits for.

Why not aiohttp: the one of Debian has no time within which a request's head must come, so that a few slow hosts would hold all places of a
class, and no limit for one address; both would have to be put beneath it, and are most of what stands here. The package needs nothing else.
"""
from __future__ import annotations

import asyncio
import collections
import contextlib
import dataclasses
import http
import json
import logging
import ssl
import sys
import time
import urllib.parse
from collections.abc import AsyncGenerator, Awaitable, Callable
from typing import Any

SECURITY = {
    "Content-Security-Policy": "default-src 'none'; script-src 'self' 'wasm-unsafe-eval'; style-src 'self'; img-src 'self'; connect-src 'self'; base-uri 'none'; "
    "form-action 'none'; frame-ancestors 'none'; require-trusted-types-for 'script'; trusted-types engine offline",
    "X-Content-Type-Options": "nosniff",
    "X-Frame-Options": "DENY",
    "Referrer-Policy": "no-referrer",
    "Cross-Origin-Opener-Policy": "same-origin",
    "Cross-Origin-Resource-Policy": "same-origin",
}
LOG = logging.getLogger("coluwen.page")  # a line for each request, in the common log format, and what went wrong
LOOK = 0.5  # seconds between two looks whether who waits for an answer is there
HEARTBEAT = 5.0  # seconds after which an empty line is sent where there is none, so that a host that is gone is noticed


@dataclasses.dataclass(frozen=True)
class Limits:
    """What one host, and all together, may take of the server."""

    connections: int = 768  # at once
    per_address: int = 256  # of these for one address: a class may come through one
    head: int = 16384  # bytes of a request without its body
    head_seconds: float = 10  # to send them
    idle_seconds: float = 20  # between two requests
    body_seconds: float = 30
    write_seconds: float = 30  # for a browser to take what it is sent
    requests: int = 500  # of one connection


@dataclasses.dataclass
class Request:
    method: str
    target: str  # as it was sent: path and query
    path: str
    query: dict[str, str]
    headers: dict[str, str]
    address: str
    body: bytes = b""

    def json(self) -> Any:
        """The body's value; `Fault` where it has none."""
        if self.headers.get("content-type", "").split(";")[0].strip() != "application/json":
            raise Fault(415, "type", "a question is JSON")
        try:
            return json.loads(self.body)
        except (ValueError, RecursionError) as fault:
            raise Fault(400, "json", f"the question is no JSON: {fault}") from None


@dataclasses.dataclass
class Answer:
    status: int = 200
    kind: str = "application/json"
    body: bytes = b""
    lines: AsyncGenerator[bytes, None] | None = None
    headers: dict[str, str] = dataclasses.field(default_factory=dict)
    later: Awaitable[Answer] | None = None  # what it is once that is known; given up where the other side leaves

    @classmethod
    def json(cls, value: object, status: int = 200, **headers: str) -> Answer:
        return cls(status, body=json.dumps(value, separators=(",", ":")).encode(), headers=headers)


NUMBERS = {"position": 24, "depth": 27, "token": 30}  # of faults that a session's lines have too; of others it is the status


class Fault(Exception):
    """What a request is refused for: a status, a word and a number for programs, and a sentence."""

    def __init__(self, status: int, code: str, text: str):
        super().__init__(text)
        self.status, self.code, self.number = status, code, NUMBERS.get(code, status)
        self.headers: dict[str, str] = {}  # of its answer, beside those of all


Handler = Callable[[Request], Awaitable[Answer]]
Most = Callable[[str, str], int]  # how many bytes the body of a request by this method and path may have


class Web:
    """The server: a handler behind its limits."""

    def __init__(self, handler: Handler, most: Most, limits: Limits | None = None):
        self.handler, self.most, self.limits = handler, most, limits or Limits()
        self.count = 0
        self.of_address: collections.Counter[str] = collections.Counter()
        self.tasks: set[asyncio.Task[None]] = set()

    async def start(self, address: str, port: int, context: ssl.SSLContext | None = None) -> asyncio.Server:
        patience = self.limits.head_seconds if context else None
        return await asyncio.start_server(self.connected, address, port, ssl=context, limit=self.limits.head, backlog=256, ssl_handshake_timeout=patience)

    async def connected(self, reader: asyncio.StreamReader, writer: asyncio.StreamWriter) -> None:
        peer = writer.get_extra_info("peername")
        address = str(peer[0]) if peer else ""
        self.count += 1
        self.of_address[address] += 1
        if task := asyncio.current_task():
            self.tasks.add(task)
            task.add_done_callback(self.tasks.discard)
        try:
            if self.count > self.limits.connections or self.of_address[address] > self.limits.per_address:
                await self.write(writer, head_of(said(Fault(503, "busy", "too many connections")), close=True))
                return
            for number in range(self.limits.requests):
                if not await self.serve_one(reader, writer, address, number):
                    return
        except (ConnectionError, TimeoutError, asyncio.IncompleteReadError, ssl.SSLError):
            pass
        except asyncio.CancelledError:  # the server ends: this is the connection's own task, and nobody waits for it
            pass
        finally:
            self.count -= 1
            self.of_address[address] -= 1
            if not self.of_address[address]:
                del self.of_address[address]
            writer.close()
            with contextlib.suppress(Exception):
                await asyncio.wait_for(writer.wait_closed(), 5)

    async def end(self) -> None:
        """Ends all connections."""
        for task in list(self.tasks):
            task.cancel()
        await asyncio.gather(*self.tasks, return_exceptions=True)

    async def serve_one(self, reader: asyncio.StreamReader, writer: asyncio.StreamWriter, address: str, number: int) -> bool:
        """Reads a request and answers it. Whether another one may follow."""
        try:
            request = await self.read(reader, address, first=number == 0)
        except Fault as fault:  # what follows can't be told from its body
            noted(address, "-", said(fault))
            await self.write(writer, head_of(said(fault), close=True))
            return False
        close = request.headers.get("connection", "").lower() == "close"
        try:
            answer = await self.handler(request)
            if answer.later:
                headers, answer = answer.headers, await while_there(reader, answer.later)
                answer.headers |= headers
        except Fault as fault:
            answer = said(fault)
        except (ConnectionError, asyncio.CancelledError):
            raise
        except Exception:
            LOG.exception("%s %s", request.method, plain(request.target))
            answer = said(Fault(500, "fault", "something went wrong here"))
        noted(address, f"{request.method} {request.target} HTTP/1.1", answer)
        if answer.lines is not None:
            await self.stream(reader, writer, answer)
            return False
        await self.write(writer, head_of(answer, close, request.method == "HEAD"))
        return not close

    async def read(self, reader: asyncio.StreamReader, address: str, first: bool) -> Request:
        try:
            head = await asyncio.wait_for(reader.readuntil(b"\r\n\r\n"), self.limits.head_seconds if first else self.limits.idle_seconds)
        except asyncio.LimitOverrunError:
            raise Fault(431, "head", "the request's head is too long") from None
        request = request_of(head, address)
        length = request.headers.get("content-length", "0")
        if "transfer-encoding" in request.headers:
            raise Fault(411, "length", "a request says how long it is")
        if not (length.isascii() and length.isdigit() and len(length) < 12):
            raise Fault(400, "length", "no length")
        if int(length) > self.most(request.method, request.path):
            raise Fault(413, "size", "that is more than is read at once")
        if request.headers.get("expect"):
            raise Fault(417, "expect", "nothing is said before a request has come")
        request.body = await asyncio.wait_for(reader.readexactly(int(length)), self.limits.body_seconds)
        return request

    async def write(self, writer: asyncio.StreamWriter, data: bytes) -> None:
        writer.write(data)
        await asyncio.wait_for(writer.drain(), self.limits.write_seconds)

    async def stream(self, reader: asyncio.StreamReader, writer: asyncio.StreamWriter, answer: Answer) -> None:
        """Sends lines as they come, and an empty one where none comes for a while; ends with the browser."""
        sender = asyncio.ensure_future(self.send_lines(writer, answer))
        watcher = asyncio.ensure_future(ended(reader))
        try:
            await asyncio.wait({sender, watcher}, return_when=asyncio.FIRST_COMPLETED)
        finally:
            for task in (sender, watcher):
                if not task.done():
                    task.cancel()
            results = await asyncio.gather(sender, watcher, return_exceptions=True)
            assert answer.lines is not None
            await answer.lines.aclose()
        for result in results:
            if isinstance(result, Exception) and not isinstance(result, (ConnectionError, TimeoutError)):
                raise result

    async def send_lines(self, writer: asyncio.StreamWriter, answer: Answer) -> None:
        assert answer.lines is not None
        answer.headers["Transfer-Encoding"] = "chunked"
        await self.write(writer, head_of(answer, close=True))
        upcoming: asyncio.Future[bytes] | None = None
        try:
            while True:
                upcoming = upcoming or asyncio.ensure_future(answer.lines.__anext__())
                done, _ = await asyncio.wait({upcoming}, timeout=HEARTBEAT)
                line = b"\n"
                if done:
                    try:
                        line = upcoming.result()
                    except StopAsyncIteration:
                        break
                    finally:
                        upcoming = None
                await self.write(writer, b"%x\r\n%s\r\n" % (len(line), line))
        finally:
            if upcoming:
                upcoming.cancel()
                await asyncio.gather(upcoming, return_exceptions=True)
        await self.write(writer, b"0\r\n\r\n")


async def while_there(reader: asyncio.StreamReader, later: Awaitable[Answer]) -> Answer:
    """What an answer comes to; where the other side has left meanwhile it is given up. What it sent ahead stays unread."""
    task = asyncio.ensure_future(later)
    try:
        while not (await asyncio.wait({task}, timeout=LOOK))[0]:
            if reader.at_eof():
                raise ConnectionError("the other side has left")
        return task.result()
    finally:
        if not task.done():
            task.cancel()
            await asyncio.gather(task, return_exceptions=True)


async def ended(reader: asyncio.StreamReader) -> None:
    """Returns when the other side has ended its connection; what it still sends is dropped."""
    while await reader.read(4096):
        pass


def request_of(head: bytes, address: str) -> Request:
    """The request of a head; `Fault` where it is none."""
    lines = head.decode("latin-1").split("\r\n")[:-2]
    parts = lines[0].split(" ")
    if len(parts) != 3 or not parts[2].startswith("HTTP/1.") or not parts[1].startswith("/"):
        raise Fault(400, "request", "no request")
    headers: dict[str, str] = {}
    for line in lines[1:]:
        name, colon, value = line.partition(":")
        name = name.lower()
        if not colon or not name or name != name.strip() or (name in headers and name in ("host", "content-length", "transfer-encoding")):
            raise Fault(400, "header", "a header is none, or stands twice")
        headers[name] = value.strip()
    if parts[2] != "HTTP/1.1":
        headers["connection"] = "close"
    path, _, query = parts[1].partition("#")[0].partition("?")
    words = dict(urllib.parse.parse_qsl(query)) if query.count("&") < 50 else {}
    return Request(parts[0], parts[1], urllib.parse.unquote(path), words, headers, address)


def plain(text: str) -> str:
    """A text that somebody sent, in a line of the log."""
    return "".join(letter if letter.isascii() and letter.isprintable() and letter not in '"\\' else f"\\x{ord(letter):02x}" for letter in text[:1000])


def noted(address: str, request: str, answer: Answer) -> None:
    """Writes a request to the log, in the common log format; lines that are yet to be sent have no length."""
    length = "-" if answer.lines is not None or not answer.body else str(len(answer.body))
    LOG.info('%s - - [%s] "%s" %d %s', address or "-", time.strftime("%d/%b/%Y:%H:%M:%S +0000", time.gmtime()), plain(request), answer.status, length)


def log_to(file: str) -> None:
    """Has the log written into a file; `-` is standard error, and without a name there is none."""
    if file == "-":
        LOG.addHandler(logging.StreamHandler(sys.stderr))
    elif file:
        LOG.addHandler(logging.FileHandler(file))
    LOG.setLevel(logging.INFO if file else logging.CRITICAL)
    LOG.propagate = False


def said(fault: Fault) -> Answer:
    answer = Answer.json({"code": fault.code, "number": fault.number, "text": str(fault)}, fault.status)
    if fault.status in (429, 503):
        answer.headers["Retry-After"] = "2"
    if fault.status == 401:
        answer.headers["WWW-Authenticate"] = "Bearer"
    answer.headers |= fault.headers
    return answer


def head_of(answer: Answer, close: bool, bare: bool = False) -> bytes:
    """An answer's head, and its body where it has one."""
    headers = {"Content-Type": answer.kind, "Cache-Control": "no-store", **SECURITY, **answer.headers}
    if "Transfer-Encoding" not in headers and answer.status != 304:
        headers["Content-Length"] = str(len(answer.body))
    if close:
        headers["Connection"] = "close"
    if any("\r" in value or "\n" in value for value in headers.values()):
        raise ValueError("a header has one line")
    lines = [f"HTTP/1.1 {answer.status} {http.HTTPStatus(answer.status).phrase}", *(f"{name}: {value}" for name, value in headers.items())]
    return ("\r\n".join(lines) + "\r\n\r\n").encode("latin-1") + (b"" if bare or answer.lines else answer.body)
