"""What a client does, without input and output: bytes and questions come in, and `Hands` do what is to be done, and have the clock.

`Core` decides for all sessions of a client what is sent, when one is opened or ended, and how each question ends; a driver (`client.py`)
has the connections and the clock. So it is the same algorithm for `Client`, `AsyncClient`, the commands and the page, and it is tried without any
socket. clients/behaviour/README.md says the rules.

    core.ask(question)                what callers do; also `give_up` and `close`
    core.opened(key)                  what happened to a connection that was asked for; also `failed`, `received`
    core.tick()                       time has gone on, to when `Hands.wake` said at the latest
"""

import collections
import contextlib
import dataclasses
import itertools
import math
from collections.abc import Callable, Generator, Iterator
from typing import Any, NamedTuple, Protocol

from ._answers import LONGEST, Answer, parse
from .board import BLACK, WHITE, Position
from .errors import Broken, Closed, ColuwenError, Late, Refused, Silent, TooDeep, Unreachable

DEEPEST = 12  # plies that a server looks at most
MOST_JOBS = 256  # of a session
USED_UP = (10, 11, 13)  # ASK: this session takes no more jobs, and another one may
LATER = (14, 19, 31)  # HELLO: it may come again
TOO_FAST = 31
UNKNOWN = 21
SHORTEST_PAUSE, LONGEST_PAUSE = 0.0002, 0.02  # seconds between two looks at a job
AGAIN = 0.1  # seconds between two tries of a server that is full or can't be reached
RARELY = 1.0  # the same, where other sessions are there
MOST_LOSSES = 3  # of a question; at the next it isn't asked again
LONGEST_SILENCE = 30.0  # seconds, of a session whose questions were met by silence before
# Where many wait, and jobs are quick, a session says the lines of many questions at once (`_Session.flying`).
MOST_FLYING, LEAST_FLYING = 32, 8  # how many, and how many have to wait for each session
FLIGHT = 2.0  # seconds that they may take, by what the last job of their depth took
SLOW, FORGETS = 1.0, 0.7  # seconds, of a depth whose jobs weren't quick; a quick one counts for less by and by
# Mid-game positions with many moves, by which the server's grain is found out: deeper than it by two a search opens many frames.
PROBES = ("-O-------O-------OXOO---XOXXOO--OOXXOOO---OXO------OO----------- X", "-----X-------XX---OOOXO---OXX----OOOOXO---OO--X--OXO------X----- X")
FEW_NODES = 50  # those two take 22 to 31 while a search is no more than a ply deeper than the grain, and 127 to 232 a ply deeper


@dataclasses.dataclass(frozen=True)
class Reservation:
    """So many segments (1 to 4096) and nodes (1 to 65536)."""

    segments: int
    nodes: int


def enough(position: Position, depth: int, grain: int) -> Reservation | None:
    """What a session has to have left so that a search, its only one then, is never SPENT, whatever the load (docs/PROTOCOL.md, "What to reserve"); None
    where no session can have as much. A client reserves less by itself."""
    segments = nodes = 1
    for ply in reversed(range(max(1, depth - grain))):
        most = min(max(position.empties - ply, 0), 56 if ply else 8 * max(position.discs(BLACK), position.discs(WHITE)), 56)
        segments, nodes = 1 + (27 + most) // 16 + most * segments, 2 + max(2 * most - 1, 0) * nodes
    return Reservation(segments, nodes) if segments <= 4096 and nodes <= 65536 else None


LEVELS = (Reservation(256, 8192), Reservation(1024, 65536))  # what the first session has, and what one has at most
RAISED = (Reservation(512, 16384), Reservation(1024, 32768), LEVELS[1])  # what RESERVE raises to


@dataclasses.dataclass(frozen=True)
class Options:
    """How a client behaves; `Client` says what each means."""

    address: str = ""
    token: str | None = None
    sessions: int = 4
    ahead: int = 1
    patience: float = 30
    silence: float = 1.5
    outage: float = 120
    counts: bool = False  # whether the nodes of each job are told, by QUOTA
    levels: tuple[Reservation, ...] = LEVELS  # of one session after another; one alone where the caller has said what to reserve


class Found(NamedTuple):
    """How a job ended that is done. `nodes`: what it took, where that is counted."""

    value: int
    move: str
    entries: tuple[tuple[str, str, int], ...] = ()
    seconds: float = 0.0
    nodes: int | None = None


@dataclasses.dataclass(frozen=True)
class Info:
    """What a server is: mid-game positions are looked at `sure` plies deep at its grain, most of them `mostly`; with as few empty squares as 12
    it looks to the end of the game. `version` and the rest of what a site's INFO tells; nothing of a server without a site."""

    grain: int
    version: str = ""
    words: tuple[str, ...] = ()

    @property
    def sure(self) -> int:
        return min(self.grain + 4, DEEPEST)

    @property
    def mostly(self) -> int:
        return min(self.grain + 5, DEEPEST)


Script = Generator[Any, Any, Any]  # yields lines, or a line and the seconds before it, and takes the answers; `Refused` is raised at an ERR


class Work:
    """What a caller waits for: it ends with `found` or `fault`. `owner` is the driver's."""

    owner: Any = None
    found: Any = None
    fault: ColuwenError | None = None
    ended = False
    sequence = 0
    losses = 0
    silences = 0  # how often it was met by silence, and since when
    silent_since = 0.0
    depth = -1
    level = 0
    alone = False  # it begins in a session of its own
    begin: Callable[[], Script]  # of an errand
    script: Script  # what a session says for it
    line: str  # what that is next, and not before when
    due: float
    timeout: float | None = None  # how many seconds that may take
    until = math.inf  # when they are over
    cancels = False  # it isn't wanted any more: its job is to be cancelled


class Question(Work):
    """A position and a depth, and how many seconds its job may take."""

    job = 0  # its number, 0 before it has one
    said = 0  # of one that is flying: the number that its lines say, when it began, and how it ended
    begun = 0.0
    done: Answer | None = None
    limited = math.inf  # since when the server says that it is asked too fast

    def __init__(self, depth: int, position: str, timeout: float | None = None):
        self.depth, self.position, self.timeout = depth, position, timeout


class Errand(Work):
    """Lines of which each follows from the answer before it."""

    def __init__(self, begin: Callable[[], Script], alone: bool = False):
        self.begin, self.alone = begin, alone


class Hands(Protocol):
    """What does what the core decides, and has the clock; it calls the core later, and not from here."""

    @property
    def now(self) -> float: ...
    def dial(self, key: int) -> None: ...  # begins a connection; then `opened` or `failed` is called
    def send(self, key: int, data: bytes) -> None: ...
    def hang_up(self, key: int) -> None: ...  # ends a connection without a word; nothing more is told of it
    def settle(self, work: Work) -> None: ...  # tells who waits for it that it has ended
    def tell(self, text: str) -> None: ...  # tells something that who runs the client may want to know
    def wake(self, due: float) -> None: ...  # has `tick` called then, and no more when it said earlier


class Wire:
    """The lines of one session and their answers, which come in order."""

    broken: str | None = None
    jobs = 0
    rest = b""

    def __init__(self) -> None:
        self.lines = collections.deque[str]()  # what isn't answered yet

    @property
    def line(self) -> str | None:
        """What is to be answered next."""
        return self.lines[0] if self.lines else None

    def send(self, line: str, token: str | None = None) -> bytes:
        """The bytes of a line, which waits for no other. A token is its last word, and stands in no fault."""
        if self.lines:
            self.broken = self.broken or f"{self.lines[0].partition(' ')[0]} was interrupted"
        data = self.send_all([line])
        return data if token is None else self.bytes_of(f"{line} {token}")

    def send_all(self, lines: list[str]) -> bytes:
        """The bytes of lines, behind those that aren't answered yet."""
        if self.broken:
            raise Broken(f"this session can't be used any more: {self.broken}")
        data = b"".join(map(self.bytes_of, lines))
        self.lines += lines
        return data

    @staticmethod
    def bytes_of(line: str) -> bytes:
        if "\n" in line:
            raise ValueError("a line has one LF, at its end")
        return f"{line}\n".encode("latin-1")

    def receive(self, data: bytes) -> Iterator[Answer | Refused]:
        """The answers that are whole, each as it is taken. No bytes are the connection's end. `Broken` where what came isn't the answer to the line."""
        *whole, self.rest = (self.rest + data).split(b"\n")
        try:
            for number, answer in enumerate(whole, 1):
                if len(self.lines) < 2 and (unasked := b"\n".join([*(whole[number:] if self.lines else whole[number - 1 :]), self.rest])):
                    raise Broken(f"the server said {unasked[:60]!r}, which wasn't asked")
                asked = self.lines.popleft()
                try:
                    found = parse(asked, answer + b"\n", self.jobs)
                except Refused as refusal:
                    yield refusal
                else:
                    self.jobs += found.state == "JOB"
                    yield found
            if self.rest and not self.lines:
                raise Broken(f"the server said {self.rest[:60]!r}, which wasn't asked")
            if not data or len(self.rest) >= LONGEST:
                parse(self.line or "", self.rest, self.jobs)
        except Broken as fault:
            self.broken = str(fault)
            raise


def pause_after(seconds: float) -> float:
    """How long to wait before the next look at a job that was looked at for so long."""
    return min(max(seconds / 4, SHORTEST_PAUSE), LONGEST_PAUSE)


@dataclasses.dataclass(eq=False)
class _Session:
    """A session: a connection, what is reserved, what it works on and the line that is under way."""

    key: int
    reserved: Reservation
    silence: float
    deadline: float  # by when it must have been opened, or have answered
    wire: Wire = dataclasses.field(default_factory=Wire)
    works: list[Work] = dataclasses.field(default_factory=list)  # the oldest first
    asking: Work = dataclasses.field(init=False)  # whose line was sent last
    is_ready = False  # it was welcomed
    flying: collections.deque[tuple[str, Question]] = dataclasses.field(default_factory=collections.deque)  # of each line that was said ahead its word, and whose it is
    begun: collections.deque[Question] = dataclasses.field(default_factory=collections.deque)  # those whose ASK was said ahead, and nothing more yet
    until = math.inf  # when the first of those may be late
    is_careful = False  # what was said ahead was refused: the next question is asked alone
    takes_no_more = False
    not_before = 0.0  # nothing is sent before
    used = 0  # nodes, where they are counted

    @property
    def is_idle(self) -> bool:
        return self.is_ready and not self.works and self.wire.line is None


class Core:
    """The algorithm; see above."""

    def __init__(self, options: Options, hands: Hands):
        self.options, self.hands = options, hands
        self.levels, self.is_free = options.levels, options.levels is LEVELS
        self.closed = False
        self._sessions: dict[int, _Session] = {}
        self._waiting: dict[int, Work] = {}  # for whom there is no session yet, in the order in which they were asked
        self._needs: dict[int, int] = {}  # of a depth the level that its last job needed
        self._takes: dict[int, float] = {}  # of a depth the seconds that its jobs took
        self._keys, self._sequence = itertools.count(1), itertools.count(1)
        self._trouble = self._full = math.inf  # since when it is tried to reach the server, and since when it says that it is full
        self._endures = False  # a server that can't be reached any more is tried for longer than a moment
        self._pause = 0.0  # no connection is begun before
        self._granted = options.sessions  # how many sessions there were when no more were granted
        self._noted: set[str] = set()

    # What callers do.

    def ask(self, *works: Work) -> None:
        """Begins questions or errands. `Closed` where the client is closed."""
        if self.closed:
            raise Closed("the client is closed")
        for work in works:
            self._wait(work)
        self._advance()

    def give_up(self, work: Work, fault: ColuwenError) -> None:
        """Ends what its caller doesn't want any more; its job is cancelled as soon as that can be said."""
        self._end(work, fault=fault)
        work.cancels = True
        self._advance()

    def close(self) -> None:
        """Ends all: who waits gets `Closed`; sessions that have nothing to do say BYE, others are dropped."""
        self.closed = True
        sessions = list(self._sessions.values())
        for work in [*self._waiting.values(), *(work for session in sessions for work in session.works)]:
            self._end(work, fault=Closed("the client was closed"))
        for session in sessions:
            if session.is_idle:
                self._send(session, "BYE")
            elif session.wire.line != "BYE":
                self._shut(session)
        self._advance()

    def has_much(self, key: int) -> bool:
        """Whether so many answers come in a session that it needn't be read at once."""
        return key in self._sessions and len(self._sessions[key].flying) > LEAST_FLYING

    @property
    def has_ended(self) -> bool:
        return self.closed and not self._sessions

    # What connections do.

    def opened(self, key: int) -> None:
        """The connection is there: the session begins."""
        if session := self._sessions.get(key):
            self._send(session, f"HELLO {session.reserved.segments} {session.reserved.nodes}", self.options.token)

    def failed(self, key: int, text: str, is_final: bool = False) -> None:
        """The connection couldn't be made, or was lost. Final: trying again can't mend it."""
        if session := self._sessions.get(key):
            if is_final:
                self._shut(session)
                self._fail_waiting(lambda: Unreachable(f"{self.options.address}: {text}"))
            else:
                self._lose(session, Broken(text))
            self._advance()

    def received(self, key: int, data: bytes) -> None:
        """Bytes came; none are the connection's end."""
        if session := self._sessions.get(key):
            try:
                for found in session.wire.receive(data):
                    self._trouble, self._endures = math.inf, self.options.outage > 0
                    flown = session.flying.popleft() if session.flying else None
                    session.deadline = self.hands.now + session.silence if session.flying else math.inf
                    if flown:
                        self._land(session, *flown, found)
                    else:
                        self._take(session, found)
                    if key not in self._sessions:
                        break
            except Broken as fault:
                self._lose(session, fault)
            self._advance()

    def tick(self) -> None:
        """What is due by time: silence, late jobs, looks and tries."""
        now = self.hands.now
        for session in list(self._sessions.values()):
            if session.flying and (now >= session.until or now >= session.deadline and session.flying[0][0] == "WAIT"):
                session.until = min(work.until for work in session.works)
                if now >= min(session.until, session.deadline):
                    self._dive(session)
            elif now >= session.deadline:
                word = (session.wire.line or "").partition(" ")[0]
                self._lose(session, Silent(f"no {f'answer to {word}' if word else 'connection'} in {session.silence:.3g} s"))
            elif not session.flying:
                for work in session.works:
                    if now >= work.until:
                        work.cancels, work.until = True, math.inf
                        if session.wire.line is not None:
                            self._end(work, fault=Late(work.timeout or 0.0))
        self._advance()

    def _due(self) -> float:
        """When `tick` is to be called, if nothing else happens before."""
        times = [self._pause] if self._pause and self._waiting else []
        for session in self._sessions.values():
            times += [session.deadline, *([session.until] if session.flying else (work.until for work in session.works))]
            if session.is_ready and session.wire.line is None:
                if session.works or session.not_before and self._waiting:
                    times.append(session.not_before or session.works[0].due)
        return min(times, default=math.inf)

    # Questions that wait.

    def _wait(self, work: Work) -> None:
        """Puts it among those that wait, behind those that came before it."""
        if not work.ended:
            work.sequence = work.sequence or next(self._sequence)
            last = next(reversed(self._waiting), 0)
            self._waiting[work.sequence] = work
            if last > work.sequence:
                self._waiting = dict(sorted(self._waiting.items()))

    def _level_of(self, work: Work) -> int:
        """What it needs, as far as that is known."""
        return max(work.level, self._needs.get(work.depth, 0))

    def _suits(self, session: _Session, work: Work) -> bool:
        """Whether a session could take this, once it has nothing else to do."""
        has_enough = session.reserved.nodes >= self.levels[self._level_of(work)].nodes
        return has_enough and not session.takes_no_more and not (work.alone and session.wire.jobs)

    def _end(self, work: Work, found: Any = None, fault: ColuwenError | None = None) -> None:
        if work.ended:
            return
        work.ended, work.found, work.fault = True, found, fault
        self.hands.settle(work)
        self._waiting.pop(work.sequence, None)

    def _fail_waiting(self, fault: Callable[[], ColuwenError]) -> None:
        for work in list(self._waiting.values()):
            self._end(work, fault=fault())
        self._trouble = self._full = math.inf
        self._pause = 0.0
        self._noted.clear()

    def _tell(self, text: str, once: str = "") -> None:
        if once not in self._noted:
            self._noted |= {once} - {""}
            self.hands.tell(text)

    # Sessions.

    def _advance(self) -> None:
        """Has each session send what is next, opens those that are wanted, and says when to go on."""
        now = self.hands.now
        self._pause = self._pause if now < self._pause else 0.0
        for session in list(self._sessions.values()):
            if session.is_ready and now >= session.not_before:
                if session.works and (session.flying or session.begun):
                    if len(session.flying) <= MOST_FLYING // 2 * 3:
                        least = LEAST_FLYING if len(session.flying) > LEAST_FLYING else 1
                        self._fly(session, self._for_flight(session, math.ceil(len(self._waiting) / max(self._there, 1)), least))
                elif session.wire.line is None:
                    self._turn(session)
        self._open()
        self.hands.wake(self._due())

    def _open(self) -> None:
        """Opens sessions for those who wait and whom none of those that are being opened is for."""
        now = self.hands.now
        coming = [session for session in self._sessions.values() if not session.is_ready]
        for work in self._waiting.values():
            if len(self._sessions) >= self.options.sessions or now < self._pause:
                return
            if one := next((session for session in coming if self._suits(session, work)), None):
                coming.remove(one)
                continue
            silence = min(self.options.silence * 2**work.silences, max(LONGEST_SILENCE, self.options.silence))
            self._trouble = min(self._trouble, now)
            left = silence if self._endures else max(silence - (now - self._trouble), 0.05)
            session = _Session(next(self._keys), self.levels[self._level_of(work)], silence, now + left)
            self._sessions[session.key] = session
            self.hands.dial(session.key)

    @property
    def _there(self) -> int:
        """How many sessions have begun."""
        return sum(session.is_ready for session in self._sessions.values())

    def _send(self, session: _Session, line: str, token: str | None = None) -> None:
        data = session.wire.send(line, token)
        if session.is_ready:  # else it has as long to be opened and welcomed
            session.deadline = self.hands.now + session.silence
        self.hands.send(session.key, data)

    def _shut(self, session: _Session) -> None:
        if self._sessions.pop(session.key, None):
            self.hands.hang_up(session.key)

    def _greeted(self, session: _Session, found: Answer | Refused) -> None:
        if not isinstance(found, Refused):
            session.is_ready = True
            self._full, self._pause = math.inf, 0.0
            self._granted = max(self._granted, self._there)
            self._noted -= {"full", "outage"}
            return
        self._shut(session)
        number, self._full = found.number, min(self._full, self.hands.now)
        if number not in LATER or not self._try_later(self._full, self.options.patience):
            self._fail_waiting(lambda: Refused(number))
        elif self._there:
            self._granted = self._there
            self._tell(f"{self._there} of {self.options.sessions} sessions were granted", "granted")
        elif self.hands.now - self._full > 1:
            self._tell(f"{found}; it is asked again for {self.options.patience:g} s", "full")

    def _try_later(self, begun: float, most: float) -> bool:
        """Whether it makes sense to try a session again: rarely where others are there; else for so many seconds from when that began."""
        self._pause = self.hands.now + (RARELY if self._there else AGAIN)
        return bool(self._there) or self.hands.now - begun < most

    def _lose(self, session: _Session, fault: Broken | Silent) -> None:
        """Drops a session; what it had to do is asked again in another one, or can't be had."""
        self._shut(session)
        if not session.is_ready:
            if not self._try_later(min(self._trouble, self.hands.now), self.options.outage if self._endures else 0.8 * self.options.silence):
                self._fail_waiting(lambda: Unreachable(f"{self.options.address}: {fault}"))
            elif self._endures and not self._there:
                self._tell(f"{self.options.address}: {fault}; it is tried again for {self.options.outage:g} s", "outage")
            return
        works, now = [work for work in session.works if not work.ended], self.hands.now
        for work in works:
            if isinstance(fault, Silent):
                work.silent_since = work.silent_since if work.silences else now - session.silence
                work.silences += 1
                again = now - work.silent_since < self.options.outage
            else:
                work.losses += 1
                again = work.losses <= MOST_LOSSES
            if again:
                self._wait(work)
            else:
                self._end(work, fault=Unreachable(f"{self.options.address}: {fault}"))
        if any(not work.ended for work in works):
            self._tell(f"{self.options.address}: {fault}; what was asked is asked again")

    # One session's lines.

    def _take(self, session: _Session, found: Answer | Refused) -> None:
        """What the answer to a session's line brings."""
        work = session.asking if session.works else None
        if not session.is_ready:
            self._greeted(session, found)
        elif not work:  # it was BYE: the session has ended, and its place is free
            self._pause = 0.0
            self._shut(session)
        elif isinstance(found, Refused) and found.number == TOO_FAST and (not isinstance(work, Question) or work.job):
            session.not_before = self.hands.now + AGAIN  # its line is sent again
        else:
            self._go_on(session, work, found)

    def _turn(self, session: _Session) -> None:
        """Sends what is next in a session that waits for no answer."""
        session.not_before = 0.0
        for work in list(session.works):
            if work.cancels:
                work.cancels = False
                self._go_on(session, work, Late(work.timeout or 0.0))
        next_one = next((work for work in session.works if not work.line.startswith("GET")), None)
        session.takes_no_more = session.takes_no_more or session.wire.jobs >= MOST_JOBS
        if not next_one and not session.takes_no_more and (next_one := self._next_for(session)):
            if len(questions := self._for_flight(session, len(self._waiting) // self.options.sessions, LEAST_FLYING)) >= LEAST_FLYING:
                next_one = None  # (once nothing is under way any more)
                if not session.works:
                    return self._fly(session, questions)
        if next_one and next_one.sequence in self._waiting:
            del self._waiting[next_one.sequence]
            session.works.append(next_one)
            session.takes_no_more = isinstance(next_one, Errand) and next_one.alone
            next_one.script = self._asks(session, next_one) if isinstance(next_one, Question) else next_one.begin()
            self._go_on(session, next_one)
        if not next_one and session.works and self.hands.now >= session.works[0].due:
            next_one = session.works[0]
        if next_one:
            session.asking = next_one
            self._send(session, next_one.line)
        elif session.takes_no_more and not session.works:
            self._send(session, "BYE")

    def _next_for(self, session: _Session) -> Work | None:
        """What a session takes next: the oldest that waits, if it suits. It makes place for an older one that no session is for."""
        if session.works:
            spare = sum(not other.is_ready or other.is_idle for other in self._sessions.values())
            if len(session.works) >= self.options.ahead or session.works[0].alone:
                return None
            if len(self._sessions) < self.options.sessions and not self._pause or spare and spare >= len(self._waiting):
                return None
        for work in self._waiting.values():
            if self._suits(session, work):
                return None if session.works and (work.alone or isinstance(work, Errand)) else work
            others = any(other is not session and self._suits(other, work) for other in self._sessions.values())
            if not others and len(self._sessions) >= self._granted:
                session.takes_no_more = True
                return None
        return None

    # Lines that are said ahead: of each question ASK, WAIT and TABLE, before any of them is answered, with no more than `ahead` jobs alive. What can't be had so
    # is asked again alone.

    def _fly(self, session: _Session, questions: list[Question]) -> None:
        """Says their lines; without any, those that are left of the ones before."""
        lines, ahead = list[str](), 1 if self.options.counts else self.options.ahead

        def say(question: Question, *words: str) -> None:
            for line in words:
                lines.append(line)
                session.flying.append((line.partition(" ")[0], question))

        def end_one() -> None:
            question = session.begun.popleft()
            say(question, f"WAIT {question.said}", f"TABLE {question.said}", *["QUOTA"] * self.options.counts)

        job = session.wire.jobs + sum(word == "ASK" for word, _ in session.flying)
        for job, question in enumerate(questions, job + 1):
            del self._waiting[question.sequence]
            question.job, question.said, question.done, question.found, question.until, question.cancels = 0, job, None, None, math.inf, False
            say(question, f"ASK {question.depth} {question.position}")
            session.begun.append(question)
            if len(session.begun) >= ahead:
                end_one()
        while session.begun and (not self._waiting or not questions and len(session.flying) <= LEAST_FLYING):
            end_one()
        session.works += questions
        if lines:
            session.deadline = self.hands.now + session.silence
            self.hands.send(session.key, session.wire.send_all(lines))

    def _for_flight(self, session: _Session, share: int, least: int = 1) -> list[Question]:
        """The first of those that wait that a session may ask ahead: no more than its share, as long as none has had trouble."""
        found, left = list[Question](), FLIGHT - sum(self._takes.get(work.depth, FLIGHT) for work in session.works)
        most = min(share, MOST_FLYING - len(session.works), MOST_JOBS - session.wire.jobs - sum(not work.job for work in session.works if isinstance(work, Question)))
        if most < least or session.is_careful or session.takes_no_more:
            return found
        for work in itertools.islice(self._waiting.values(), most):
            left -= self._takes.get(work.depth, FLIGHT)
            has_trouble = work.alone or work.losses or work.silences or work.timeout is not None and work.timeout < SLOW
            if not isinstance(work, Question) or left < 0 or has_trouble or not self._suits(session, work):
                break
            found.append(work)
        return found

    def _land(self, session: _Session, word: str, question: Question, found: Answer | Refused) -> None:
        """What the answer to a line brings that was said ahead. Where the job has another number than its lines say, as an ASK before it was refused, they mean
        another job: it is asked again."""
        now = self.hands.now
        if isinstance(found, Refused):
            session.is_careful = True
            if question.job == question.said:
                raise Broken(str(found))
        elif word == "ASK":
            question.job, question.begun = session.wire.jobs, now
            if question.timeout is not None:
                question.until = now + question.timeout
                session.until = min(session.until, question.until)
        elif question.job == question.said and word == "WAIT":
            question.done, question.until, seconds = found, math.inf, now - question.begun
            self._takes[question.depth] = max(seconds / self.options.ahead, self._takes.get(question.depth, 0.0) * FORGETS)
        elif question.done and question.done.state == "DONE" and word == "TABLE":
            if found.state != "TABLE":
                raise Broken(f"no table of job {question.job}")
            question.found = Found(question.done.value, question.done.move, found.entries, now - question.begun)
        elif question.found and word == "QUOTA":
            left = session.reserved.nodes - session.used
            question.found, session.used = question.found._replace(nodes=left - found.numbers[1]), session.reserved.nodes - found.numbers[1]
        if word == ("QUOTA" if self.options.counts else "TABLE"):
            self._landed(session, question)

    def _landed(self, session: _Session, question: Question) -> None:
        """All lines of a question that were said ahead are answered."""
        session.works.remove(question)
        if not question.done:
            self._wait(question)
        elif question.found:
            self._end(question, question.found)
        elif question.done.state == "SPENT":
            self._spent(session, question)
        else:
            self._end(question, fault=Broken(f"job {question.job} was cancelled by nobody here"))

    def _dive(self, session: _Session) -> None:
        """A job takes long, and others are behind it: these are asked again one by one, in another session."""
        now = self.hands.now
        self._takes[session.works[0].depth] = SLOW
        self._shut(session)
        for work in session.works:
            if now >= work.until:
                self._end(work, fault=Late(work.timeout or 0.0))
            self._wait(work)

    def _go_on(self, session: _Session, work: Work, found: Answer | Refused | Late | None = None) -> None:
        """Has a work take an answer, or that its time is over, up to its next line or its end."""
        try:
            line = work.script.throw(found) if isinstance(found, ColuwenError) else work.script.send(found)
            work.line, pause = line if isinstance(line, tuple) else (line, 0.0)
            work.due = self.hands.now + pause
        except Broken as fault:  # this session can't be believed
            self._lose(session, fault)
        except (StopIteration, ColuwenError) as end:
            session.works.remove(work)
            if isinstance(end, ColuwenError):
                self._end(work, fault=end)
            elif end.value:
                self._end(work, end.value)

    def _asks(self, session: _Session, question: Question) -> Script:
        """What a session says for a question, up to what is found; without that it is asked again, or has ended otherwise."""
        question.job, question.cancels, begun = 0, False, self.hands.now
        session.is_careful = False
        question.until = math.inf if question.timeout is None else begun + question.timeout
        while not question.job:
            try:
                question.job = (yield f"ASK {question.depth} {question.position}").numbers[0]
            except Refused as refusal:
                if not (yield from self._has_room(session, question, refusal)):
                    self._wait(question)
                    return None
        try:
            answer = yield from self._ended(question, begun)
            if answer.state == "SPENT":
                self._spent(session, question)
            elif answer.state == "CANCELLED":
                self._end(question, fault=Broken(f"job {question.job} was cancelled by nobody here"))
            if answer.state != "DONE" or question.ended:
                return None
            question.until, seconds, nodes = math.inf, self.hands.now - begun, None
            self._takes[question.depth] = max(seconds, self._takes.get(question.depth, 0.0) * FORGETS)
            if (table := (yield f"TABLE {question.job}")).state != "TABLE":
                raise Broken(f"no table of job {question.job}")
            if self.options.counts:
                nodes = session.reserved.nodes - session.used - (yield "QUOTA").numbers[1]
                session.used += nodes
        except Refused as refusal:
            raise Broken(str(refusal)) from None
        if question.alone:
            self._needs[question.depth] = question.level
        return Found(answer.value, answer.move, table.entries, seconds, nodes)

    def _has_room(self, session: _Session, question: Question, refusal: Refused) -> Script:
        """Whether a session that has refused a question is to be asked again, as more is reserved now."""
        if refusal.number == TOO_FAST:
            session.not_before = self.hands.now + AGAIN
            question.limited = min(question.limited, self.hands.now)
            if self.hands.now - question.limited < self.options.patience:
                return False
        if refusal.number not in USED_UP or not session.wire.jobs:
            raise refusal
        with contextlib.suppress(Refused):
            for step in RAISED if self.is_free and refusal.number != 13 else ():
                if step.nodes > session.reserved.nodes:
                    yield f"RESERVE {step.segments} {step.nodes}"
                    session.reserved = step
                    return not question.ended
        session.takes_no_more = True
        return False

    def _looks(self, job: int, begun: float) -> Script:
        """How a job ended: it is looked at at once, and then more and more rarely."""
        pause = 0.0
        while (answer := (yield f"GET {job}", pause)).state == "PENDING":
            pause = pause_after(self.hands.now - begun)
        return answer

    def _ended(self, question: Question, begun: float) -> Script:
        """How a question's job ended. `Late` where it was cancelled; one that has ended meanwhile is looked at once more."""
        try:
            return (yield from self._looks(question.job, begun))
        except Late:
            with contextlib.suppress(Refused):
                yield f"CANCEL {question.job}"
                raise
            if question.ended or (answer := (yield from self._looks(question.job, begun))).state == "CANCELLED":
                raise
            return answer

    def _spent(self, session: _Session, question: Question) -> None:
        level = max([at for at, one in enumerate(self.levels) if one.nodes <= session.reserved.nodes], default=0)
        session.takes_no_more = True
        if question.ended:
            return
        if session.wire.jobs > 1 or level < len(self.levels) - 1:
            question.level, question.alone = min(max(level, question.level) + 1, len(self.levels) - 1), True
            return self._wait(question)
        self._needs[question.depth] = level
        self._end(question, fault=TooDeep(question.depth))

    def learns(self) -> Script:
        """Finds out what the server is: a site says it, and of any other it is found by how many nodes two positions take, from depth to depth."""
        try:
            answer = yield "INFO"
            return Info(answer.numbers[0], answer.more[-1] if answer.more else "", answer.more)
        except Refused as refusal:
            if refusal.number != UNKNOWN:
                raise
        left, grain = (yield "QUOTA").numbers[1], 6
        for probe in PROBES:
            for depth in range(2, 9):
                job = (yield f"ASK {depth} {probe}").numbers[0]
                ended = yield from self._looks(job, self.hands.now)
                before, left = left, (yield "QUOTA").numbers[1]
                if ended.state != "DONE" or before - left > FEW_NODES:
                    grain = min(grain, depth - 2)
                    break
        return Info(grain)


def ping() -> Script:
    """A line that the server answers at once."""
    return (yield "QUOTA")
