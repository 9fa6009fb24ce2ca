"""Values of positions from a server, by as many sessions as they need. The same for asyncio is `AsyncClient` of `coluwen.aio`."""

import asyncio
import collections
import concurrent.futures
import logging
import math
import os
import re
import socket
import ssl
import threading
import urllib.parse
from collections.abc import Callable
from typing import Any

from ._core import LEVELS, Core, Errand, Info, Options, Question, Reservation, Work, ping
from .analyst import Analyst, Result, checked, result_of, settle
from .board import Position
from .errors import Closed, ColuwenError, TooDeep

HOST, PORT = "127.0.0.1", 4711
URL = "COLUWEN_URL"  # the variable that names a server where the caller doesn't
SILENCE, PATIENCE, OUTAGE, SESSIONS = 1.5, 30.0, 120.0, 4
REST = 0.002  # seconds in which answers that still come aren't read
LOG = logging.getLogger("coluwen")


def tls_context(authority: str | None = None) -> ssl.SSLContext:
    """What a session over TLS needs: the host's certificate is checked, by a file of authorities where one is named."""
    return ssl.create_default_context(cafile=authority)


def token_in(path: str) -> str:
    """The token that a file has: what stands in a command's line every user of the host can read."""
    with open(path, encoding="latin-1") as file:
        token = file.read().strip()
    if not re.fullmatch("[!-~]{1,64}", token):
        raise OSError(f"{path} has no token: 1 to 64 letters, digits and signs")
    return token


class _Link(asyncio.Protocol):
    """The connection of a session."""

    def __init__(self, driver: "Driver", key: int):
        self.driver, self.key = driver, key

    def data_received(self, data: bytes) -> None:
        self.driver.core.received(self.key, data)
        self.driver.rest(self.key)

    def connection_lost(self, fault: Exception | None) -> None:
        self.driver.core.failed(self.key, str(fault or "the server ended the session"))


class Driver:
    """A core, its connections, and the tasks that wait for what it ends. It belongs to one loop."""

    def __init__(self, loop: asyncio.AbstractEventLoop, host: str, port: int, tls: ssl.SSLContext | None, options: Options):
        self.loop, self.host, self.port, self.tls = loop, host, port, tls
        self.core, self.tell = Core(options, self), LOG.warning
        self.links: dict[int, asyncio.Transport | asyncio.Task[None]] = {}
        self.resting: list[asyncio.Transport] = []  # they aren't read for a moment
        self.coming, self.is_called = collections.deque[Callable[[], Work | None]](), False  # what other threads have asked for
        self.clock: asyncio.TimerHandle | None = None
        self.learning: asyncio.Future[Info] | None = None  # finds out what the server is
        self.ended = asyncio.Event()

    @property
    def now(self) -> float:
        return self.loop.time()

    def wake(self, due: float) -> None:
        if due < (self.clock.when() if self.clock else math.inf):  # (a tick that comes too early does nothing)
            if self.clock:
                self.clock.cancel()
            self.clock = self.loop.call_at(due, self.tick)
        if self.core.has_ended:
            self.ended.set()
            if self.clock:
                self.clock.cancel()

    def tick(self) -> None:
        self.clock = None
        self.core.tick()

    def dial(self, key: int) -> None:
        self.links[key] = self.loop.create_task(self.connect(key))

    async def connect(self, key: int) -> None:
        """Makes the connection of a session."""
        name = self.host if self.tls else None
        try:
            transport, _ = await self.loop.create_connection(lambda: _Link(self, key), self.host, self.port, ssl=self.tls, server_hostname=name)
        except OSError as fault:
            self.core.failed(key, str(fault.strerror or fault), isinstance(fault, (ssl.SSLCertVerificationError, socket.gaierror)))
        else:
            self.links[key] = transport
            self.core.opened(key)

    def send(self, key: int, data: bytes) -> None:
        if isinstance(link := self.links.get(key), asyncio.Transport):
            link.write(data)

    def hang_up(self, key: int) -> None:
        if isinstance(link := self.links.pop(key, None), asyncio.Transport):
            link.abort()
        elif link and link is not asyncio.current_task(self.loop):
            link.cancel()

    def rest(self, key: int) -> None:
        """Answers that still come in a session are read a moment later, and many at once: each reading costs more than an answer."""
        if self.core.has_much(key) and isinstance(link := self.links.get(key), asyncio.Transport):
            if not self.resting:
                self.loop.call_later(REST, self.go_on)
            link.pause_reading()
            self.resting.append(link)

    def go_on(self) -> None:
        for link in self.resting:
            link.resume_reading()
        self.resting.clear()

    def settle(self, work: Work) -> None:
        if work.owner:
            work.owner(work)

    def begin(self, work: Work) -> asyncio.Future[Any]:
        """Begins a question or an errand; what it ends with is the future's. Where that is cancelled it is given up."""
        future = self.loop.create_future()

        def ended(_: Work) -> None:
            if work.fault and not future.done():
                future.set_exception(work.fault)
            elif not future.done():
                future.set_result(work.found)

        work.owner = ended
        self.core.ask(work)
        future.add_done_callback(lambda one: self.core.give_up(work, ColuwenError("it was given up")) if one.cancelled() else one.exception())
        return future

    def soon(self, step: Callable[[], Work | None]) -> None:
        """Has the loop's thread take a step, and ask what that gives: many at once, where many come. `Closed` where the loop has ended."""
        self.coming.append(step)
        if not self.is_called:
            self.is_called = True
            try:
                self.loop.call_soon_threadsafe(self.take_steps)
            except RuntimeError:
                raise Closed("the client is closed") from None

    def take_steps(self) -> None:
        self.is_called, works = False, list[Work]()
        while self.coming:
            if work := self.coming.popleft()():
                works.append(work)
        try:
            self.core.ask(*works)
        except Closed as fault:
            for work in works:
                work.fault = fault
                self.settle(work)

    async def info(self) -> Info:
        """What the server is, found out once."""
        if not self.learning or self.learning.done() and self.learning.exception():
            self.learning = self.begin(Errand(self.core.learns, alone=True))
        return await asyncio.shield(self.learning)

    def begin_info(self, told: Callable[[Info | BaseException], None]) -> None:
        """The same for who doesn't wait."""
        self.loop.create_task(self.info()).add_done_callback(lambda one: told(one.exception() or one.result()))

    async def ping(self) -> float:
        """Seconds that the server takes to a line that it answers at once."""
        begun = self.now
        await self.begin(Errand(ping))
        return self.now - begun

    async def close(self) -> None:
        """Ends all, and returns when the last connection has."""
        self.core.close()
        await self.ended.wait()
        await asyncio.sleep(0)  # who waits for what was learned hears it before the loop stops


class Served:
    """What clients have of a server: where it is, and how it is spoken to. Where no host is named it is that of COLUWEN_URL, if there is one."""

    def __init__(self, host: str | None = None, port: int | None = None, *, tls: ssl.SSLContext | bool | None = None, token: str | None = None, sessions: int = SESSIONS,
                 ahead: int = 1, patience: float = PATIENCE, silence: float = SILENCE, outage: float = OUTAGE, timeout: float | None = None, segments: int | None = None,
                 nodes: int | None = None, counts: bool = False):  # fmt: skip
        named = url_of(os.environ.get(URL, "")) if host is None and port is None else {}
        self._host, self._port = host or str(named.get("host", HOST)), port or int(named.get("port", PORT))
        tls, token = named.get("tls") if tls is None else tls, named.get("token") if token is None else token
        for name, number in (("sessions", sessions), ("ahead", ahead), ("segments", segments), ("nodes", nodes), ("port", port)):
            if number is not None and (isinstance(number, bool) or not isinstance(number, int) or number < 1):
                raise ValueError(f"{name} is a whole number from 1 on, and not {number!r}")
        for name, seconds in (("patience", patience), ("silence", silence), ("outage", outage), ("timeout", timeout)):
            if seconds is not None and not seconds >= 0:
                raise ValueError(f"{name} is a number of seconds, and not {seconds!r}")
        if token is not None and not re.fullmatch("[!-~]{1,64}", token):
            raise ValueError("a token has 1 to 64 letters, digits and signs")
        self._tls, self._timeout = tls_context() if tls is True else tls or None, timeout
        own = Reservation(segments or LEVELS[-1].segments, nodes or LEVELS[-1].nodes)
        levels = LEVELS if segments is None and nodes is None else (own,)
        self._options = Options(f"{self._host}:{self._port}", token, sessions, ahead, patience, silence, outage, counts, levels)
        self.parallel = sessions * ahead  # how many questions are with the server at once
        self._lock, self._closed = threading.Lock(), False
        self._driver: Driver | None = None

    @property
    def address(self) -> str:
        """The server's `host:port`."""
        return self._options.address

    def __repr__(self) -> str:
        return f"{type(self).__name__}({self.address!r})"

    def _loop(self) -> asyncio.AbstractEventLoop:
        """Where the connections live."""
        return asyncio.get_running_loop()

    def _driving(self) -> Driver:
        """What has the connections, once there is something to ask."""
        with self._lock:
            if self._closed:
                raise Closed("the client is closed")
            if not self._driver:
                self._driver = Driver(self._loop(), self._host, self._port, self._tls, self._options)
            return self._driver

    async def _answer(self, driver: Driver, position: Position, depth: int, timeout: float | None) -> Result:
        """What is found of a question; a task that is cancelled gives it up."""
        try:
            return result_of(position, depth, await driver.begin(Question(depth, position.text, self._timeout if timeout is None else timeout)))
        except TooDeep:
            if not driver.core.is_free:
                raise
        raise TooDeep(depth, min(depth - 1, (await driver.info()).sure))


class Client(Served, Analyst):
    """Answers any number of positions by a server of `othello serve`; threads may share it. Where no host is named it is that of the variable
    COLUWEN_URL, else 127.0.0.1:4711.

    `tls`: speak it, True or a context (`tls_context`). `token`: a customer's of a site. `sessions`: how many are open at once at most;
    `ahead`: with how many questions each. Seconds: `patience`, for which a server that is full (ERR 14, 19) is asked again; `silence`, after which
    one that can't be reached, or doesn't answer what it answers at once, is given up; `outage`, for which one that was there and is silent or lost is
    asked again in new sessions, its work with it; `timeout`, that a job may take from when it is asked. `segments` and `nodes`: what each session
    reserves, where that isn't to be the client's matter. `counts`: results say how many nodes they took.

    What happens meanwhile (a full or silent server, sessions that were lost) is told by `logging.getLogger("coluwen")`."""

    def _loop(self) -> asyncio.AbstractEventLoop:
        """One that has a thread of its own."""
        loop = asyncio.new_event_loop()
        self._thread = threading.Thread(target=loop.run_forever, name="coluwen", daemon=True)
        self._thread.start()
        return loop

    def submit(self, position: str | Position, depth: int, *, timeout: float | None = None) -> concurrent.futures.Future[Result]:
        place, driver = checked(position, depth), self._driving()
        question, future = Question(depth, place.text, self._timeout if timeout is None else timeout), concurrent.futures.Future[Result]()

        def ended(_: Work) -> None:
            if question.fault and driver.core.is_free and isinstance(question.fault, TooDeep):
                driver.begin_info(lambda info: settle(future, info if isinstance(info, BaseException) else TooDeep(depth, min(depth - 1, info.sure))))
            else:
                settle(future, question.fault or result_of(place, depth, question.found))

        question.owner = ended
        future.add_done_callback(lambda one: driver.soon(lambda: driver.core.give_up(question, ColuwenError("it was given up"))) if one.cancelled() else None)
        driver.soon(lambda: question)
        return future

    def info(self) -> Info:
        """What the server is, found out once: at mid-game positions it looks `sure` plies deep, at most of them `mostly`; its `grain`, and a
        site's `version`."""
        driver = self._driving()
        return asyncio.run_coroutine_threadsafe(driver.info(), driver.loop).result()

    def ping(self) -> float:
        """Whether the server is there: the seconds that a line and its answer take. `Unreachable` where it isn't."""
        driver = self._driving()
        return asyncio.run_coroutine_threadsafe(driver.ping(), driver.loop).result()

    def close(self) -> None:
        """Ends the sessions. Calls that wait, and later ones, raise `Closed`."""
        with self._lock:
            driver, self._driver, self._closed = self._driver, None, True
        if driver:
            asyncio.run_coroutine_threadsafe(driver.close(), driver.loop).result()
            driver.loop.call_soon_threadsafe(driver.loop.stop)
            self._thread.join()
            driver.loop.close()


def connect(url: str | None = None, **options: Any) -> Client:
    """A client of the server of an address, `othello://host:port?tls=1&token=FILE`, else of that of the variable COLUWEN_URL, else of 127.0.0.1:4711.
    Options are those of `Client`, and come before those of the address."""
    return Client(**{**url_of(url or os.environ.get(URL) or ""), **options})


def url_of(text: str) -> dict[str, Any]:
    """`Client`'s words in an address, `othello://host:port?tls=..&token=..`, of which all but the host may be missing; `host:port` is one too.

    `tls`: 1, or a file of authorities; `token`: a file that has the customer's token; any other of `Client`'s options by its name."""
    if not text:
        return {}
    parts = urllib.parse.urlsplit(text if "://" in text else f"othello://{text}")
    try:
        words: dict[str, Any] = {"host": parts.hostname or HOST, "port": parts.port or PORT}
    except ValueError as fault:
        raise ValueError(f"{text!r} is no address of a server: {fault}") from None
    if parts.scheme not in ("othello", "othellos") or parts.path.strip("/") or parts.username or parts.fragment:
        raise ValueError(f"{text!r} is no address of a server, othello://host:port?tls=1")
    if parts.scheme == "othellos":
        words["tls"] = True
    for name, value in urllib.parse.parse_qsl(parts.query, keep_blank_values=True, strict_parsing=True):
        if name not in READERS:
            raise ValueError(f"{text!r} has a word {name!r} that isn't known")
        words[name] = READERS[name](value)
    return words


READERS: dict[str, Callable[[str], Any]] = {  # of what an address may say
    "tls": lambda value: value not in ("", "0") and (value == "1" or tls_context(value)), "token": token_in,
    **dict.fromkeys(("sessions", "ahead", "segments", "nodes"), int), **dict.fromkeys(("patience", "silence", "outage", "timeout"), float),
}  # fmt: skip
