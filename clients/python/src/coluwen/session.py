"""One session of a server: its lines and their answers, over a connection of its own.

    with Session("127.0.0.1", 4711, segments=64, nodes=4096) as session:
        job = session.ask(6, position)
        print(session.wait(job))                # Done(value=-3, move='d3'), Spent() or Cancelled()
        print(session.table(job))               # (Entry(d3=-3), Entry(c4<-3), ..)

Most callers want `Client`, which opens sessions as they are needed.
"""

import contextlib
import dataclasses
import socket
import ssl
import threading
import time
from typing import Self

from ._answers import LONGEST, Answer
from ._core import Reservation, Wire, pause_after
from .board import Position
from .errors import Broken, Late, Refused, Silent
from .score import Entry, Score


@dataclasses.dataclass(frozen=True)
class Pending:
    """A job that hasn't ended."""


@dataclasses.dataclass(frozen=True)
class Done:
    """A job that has a value, and its first best move (`-` at depth 0 and in a finished game)."""

    value: int
    move: str


@dataclasses.dataclass(frozen=True)
class Spent:
    """A job that has used up the reservation: it will never have a value."""


@dataclasses.dataclass(frozen=True)
class Cancelled:
    """A job that was cancelled."""


@dataclasses.dataclass(frozen=True)
class Quota:
    """What is left: segments, nodes and steps."""

    segments: int
    nodes: int
    steps: int


@dataclasses.dataclass(frozen=True)
class Live:
    """The frames that are open, and their words."""

    frames: int
    words: int


State = Pending | Done | Spent | Cancelled


class Session:
    """A tenant of the server, from HELLO to BYE. Threads may share it: each call is a line and its answer.

    `timeout` is how many seconds `wait` gives a job: after them the job is cancelled. `silence` is how many the server may
    take to answer what it answers at once, which is all but WAIT; after them the session is broken. Without either there is
    no limit. `token` is a customer's of a site."""

    def __init__(self, host: str, port: int, segments: int, nodes: int, *, timeout: float | None = None, tls: ssl.SSLContext | None = None,
                 silence: float | None = None, token: str | None = None):  # fmt: skip
        self._lock, self._wire = threading.Lock(), Wire()
        self._timeout, self._silence = timeout, silence
        self.reserved = Reservation(segments, nodes)
        self._socket = self._connect(host, port, silence)
        try:
            self._socket.setsockopt(socket.IPPROTO_TCP, socket.TCP_NODELAY, 1)
            if tls:
                self._socket = tls.wrap_socket(self._socket, server_hostname=host)
            self._call(f"HELLO {segments} {nodes}", token)
        except BaseException:
            self._socket.close()
            raise

    def _connect(self, host: str, port: int, silence: float | None) -> socket.socket:
        """The connection; deploy/stage.py has sessions that come from other addresses of this host."""
        return socket.create_connection((host, port), silence)

    @property
    def jobs(self) -> int:
        """How many were asked."""
        return self._wire.jobs

    @property
    def broken(self) -> str | None:
        """Why the session can't be used any more."""
        return self._wire.broken

    def _call(self, line: str, token: str | None = None) -> Answer:
        """Sends one line and gives its answer. Where it is interrupted the session can't be used any more, as the answer still comes."""
        limit, begun = None if line.startswith("WAIT") else self._silence, time.monotonic()
        with self._lock:
            data = self._wire.send(line, token)
            try:
                self._socket.settimeout(limit)
                self._socket.sendall(data)
                while not (found := next(self._wire.receive(self._socket.recv(LONGEST + 1)), None)):
                    self._socket.settimeout(limit and max(begun + limit - time.monotonic(), 0.001))
            except TimeoutError:
                self._wire.broken = f"{line.partition(' ')[0]} was interrupted"
                raise Silent(f"no answer to {line.partition(' ')[0]} in {limit or 0:.2g} s") from None
            except OSError as fault:
                self._wire.broken = self._wire.broken or str(fault)
                raise Broken(self._wire.broken) from fault
        if isinstance(found, Refused):
            raise found
        return found

    def reserve(self, segments: int, nodes: int) -> None:
        """Reserves so many segments and nodes in all: no fewer of either than before, and more of one."""
        self._call(f"RESERVE {segments} {nodes}")
        self.reserved = Reservation(segments, nodes)

    def ask(self, depth: int, position: str | Position) -> int:
        """Asks for a position of 66 bytes, so many plies deep (0 to 12); gives the job's number."""
        return self.ask_line(f"{depth} {position}")

    def ask_line(self, line: str) -> int:
        """The same of a line `depth position`, as it stands."""
        return self._call(f"ASK {line}").numbers[0]

    def get(self, job: int) -> State:
        """How a job stands."""
        return _state_of(self._call(f"GET {job}"))

    def wait(self, job: int) -> State:
        """How a job ended. Without a `timeout` the server reads no other line of this session until then, so that nobody can
        cancel the job: where another thread may, or the server may be lost meanwhile, use `poll`."""
        return _state_of(self._call(f"WAIT {job}")) if self._timeout is None else self.poll(job, self._timeout)

    def poll(self, job: int, timeout: float | None = None) -> State:
        """How a job ended, by GET with pauses of up to 20 ms. Between them other threads may use the session, and cancel the
        job. After so many seconds the job is cancelled, and `Late` (a TimeoutError) is raised; the session goes on."""
        begun = time.monotonic()
        while isinstance(found := self.get(job), Pending):
            taken = time.monotonic() - begun
            if timeout is not None and taken > timeout and isinstance(found := self.stopped(job), Cancelled):
                raise Late(timeout)
            time.sleep(pause_after(taken))
        return found

    def stopped(self, job: int) -> State:
        """Cancels a job, if it hasn't ended meanwhile; how it ended."""
        with contextlib.suppress(Refused):
            self.cancel(job)
        return self.get(job)

    def table(self, job: int) -> tuple[Entry, ...] | None:
        """What is known of each choice of a job that is done, in the order of the choices, the best one's exact; none at depth 0. None
        where the job isn't done. Whether a score is the end of the game isn't known here."""
        answer = self._call(f"TABLE {job}")
        return tuple(Entry(move, Score(value, sign)) for move, sign, value in answer.entries) if answer.state == "TABLE" else None

    def cancel(self, job: int) -> None:
        """Ends a job that hasn't ended. Behind a WAIT of another thread it comes when that job has ended (`poll`)."""
        self._call(f"CANCEL {job}")

    def quota(self) -> Quota:
        """What is left of the reservation."""
        return Quota(*self._call("QUOTA").numbers)

    def live(self) -> Live:
        """What the jobs have open."""
        return Live(*self._call("LIVE").numbers)

    def drop(self, why: str = "it was dropped") -> None:
        """Ends the connection under a call that waits; another thread may do so."""
        self._wire.broken = self._wire.broken or why
        with contextlib.suppress(OSError):
            self._socket.shutdown(socket.SHUT_RDWR)

    def close(self) -> None:
        """Ends the session. A broken one is dropped without a word, since BYE would wait behind what it left."""
        with contextlib.suppress(OSError, Broken, Refused), self._socket:
            self._call("BYE")
        self._wire.broken = self._wire.broken or "it was closed"

    def __enter__(self) -> Self:
        return self

    def __exit__(self, kind: object, *_: object) -> None:
        if kind:
            self._wire.broken = self._wire.broken or "it was left by a fault"
        self.close()


def _state_of(answer: Answer) -> State:
    states: dict[str, State] = {"PENDING": Pending(), "SPENT": Spent(), "CANCELLED": Cancelled()}
    return states.get(answer.state) or Done(answer.value, answer.move)
