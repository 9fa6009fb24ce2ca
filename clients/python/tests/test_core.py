"""The core alone, in a time of its own: servers that answer as a model says, without sockets and without waiting."""
from __future__ import annotations

import heapq
import math
import random
from collections.abc import Callable
from typing import Any

import hypothesis
import hypothesis.strategies as st
import pytest
from coluwen import Broken, Closed, Late, Refused, TooDeep, Unreachable
from coluwen._answers import parse
from coluwen._core import PROBES, Core, Errand, Found, Info, Options, Question, Reservation, Wire, Work, pause_after, ping
from told import value_of

OPENING = "---------------------------OX------XO--------------------------- X"
POSITIONS = [OPENING[:at] + "X" + OPENING[at + 1 :] for at in range(20)]


class Model:
    """What a server is like: how long an answer takes, how long a job and how it ends, how many sessions it has, and when it is away."""

    def __init__(self, takes: float = 0.001, job: float = 0.05, most: int = 64, grain: int = 4, spent: Callable[[int, int, int], bool] = lambda depth, nodes, jobs: False):
        self.takes, self.job, self.most, self.grain, self.spent = takes, job, most, grain, spent
        self.away: list[tuple[float, float]] = []  # from when to when nobody is there
        self.mute: list[tuple[float, float]] = []  # when lines aren't answered, and never will be
        self.full = 14
        self.too_fast: list[tuple[float, float]] = []  # when each line but HELLO is refused, as too many came

    def is_away(self, now: float) -> bool:
        return any(begin <= now < end for begin, end in self.away)

    def is_mute(self, now: float) -> bool:
        return any(begin <= now < end for begin, end in self.mute)


class Peer:
    """The server's side of one session."""

    def __init__(self, model: Model):
        self.model, self.jobs, self.nodes, self.is_in = model, list[tuple[float, str, int]](), 0, False

    def left(self, line: str, now: float) -> float:
        """How long a line has to wait."""
        word, *rest = line.split(" ")
        return self.jobs[int(rest[0]) - 1][0] - now if word == "WAIT" and int(rest[0]) <= len(self.jobs) else 0.0

    def answer(self, line: str, now: float, present: int) -> str:
        word, *rest = line.split(" ")
        if word == "HELLO":
            if present >= self.model.most:
                return f"ERR {self.model.full}"
            self.is_in, self.nodes = True, int(rest[1])
            return f"WELCOME {rest[0]} {rest[1]}"
        if word == "RESERVE":
            self.nodes += int(rest[1]) - self.nodes
            return f"RESERVED {rest[0]} {rest[1]}"
        if word == "ASK":
            if len(self.jobs) == 256:
                return "ERR 13"
            depth, position = int(rest[0]), " ".join(rest[1:])
            is_probe = position.startswith(("-O---", "-----X"))
            self.nodes -= 200 if is_probe and depth > self.model.grain + 1 else 20
            ends = "SPENT" if self.model.spent(depth, self.nodes, len(self.jobs)) else "DONE"
            self.jobs.append((now + self.model.job, ends, value_of(position)))
            return f"JOB {len(self.jobs)}"
        if word in ("QUOTA", "INFO", "BYE"):
            return {"QUOTA": f"QUOTA 1 {max(self.nodes, 0)} 1", "INFO": "ERR 21", "BYE": "BYE"}[word]
        number = int(rest[0])
        if number > len(self.jobs):
            return "ERR 17"
        at, ends, value = self.jobs[number - 1]
        if word == "CANCEL":
            if now >= at:
                return "ERR 17"
            self.jobs[number - 1] = (now, "CANCELLED", 0)
            return f"CANCELLED {number}"
        if word in ("GET", "WAIT"):
            return f"PENDING {number}" if now < at else f"DONE {number} {value} d3" if ends == "DONE" else f"{ends} {number}"
        return f"TABLE {number} d3={value}" if ends == "DONE" else f"{ends} {number}"


class Stage:
    """A core among servers of a model: what is sent, how many sessions were open, what ended and when."""

    def __init__(self, model: Model, **options: Any):
        self.model, self.core, self.now = model, Core(Options("here", **options), self), 0.0
        self.peers: dict[int, Peer] = {}
        self.open: set[int] = set()
        self.unread: dict[int, list[str]] = {}  # lines that came, of each session
        self.queue: list[tuple[float, int, Callable[[], None]]] = []
        self.sent: list[tuple[float, int, str]] = []
        self.ended: list[tuple[float, Work]] = []
        self.told: list[str] = []
        self.most_open = self.number = 0
        self.due = math.inf

    def later(self, seconds: float, call: Callable[[], None]) -> None:
        self.number += 1
        heapq.heappush(self.queue, (self.now + seconds, self.number, call))

    def ask(self, *works: Work) -> None:
        for work in works:
            self.core.ask(work)

    def dial(self, key: int) -> None:
        self.open.add(key)
        self.most_open = max(self.most_open, len(self.open))
        self.later(0.001, lambda: self.connect(key))

    def send(self, key: int, data: bytes) -> None:
        assert key in self.open and data.endswith(b"\n")
        lines = data.decode().split("\n")[:-1]
        self.sent += ((self.now, key, line) for line in lines)
        if not self.model.is_mute(self.now):
            self.unread[key] = [*self.unread.get(key, []), *lines]
            if len(self.unread[key]) == len(lines):
                self.later(self.model.takes, lambda: self.read(key))

    def read(self, key: int) -> None:
        """The server answers the next line of a session, in order; a WAIT when its job has ended."""
        if key not in self.peers or not self.unread.get(key):
            return
        line = self.unread[key][0]
        wait = self.peers[key].left(line, self.now)
        if wait > 0:
            return self.later(wait, lambda: self.read(key))
        self.unread[key].pop(0)
        if self.unread[key]:
            self.later(self.model.takes, lambda: self.read(key))
        self.answer(key, line)

    def hang_up(self, key: int) -> None:
        self.open.discard(key)
        self.peers.pop(key, None)

    def settle(self, work: Work) -> None:
        self.ended.append((self.now, work))

    def tell(self, text: str) -> None:
        self.told.append(text)

    def wake(self, due: float) -> None:
        self.due = due

    def connect(self, key: int) -> None:
        if key in self.open:
            if self.model.is_away(self.now):
                self.core.failed(key, "nobody is there")
            else:
                self.peers[key] = Peer(self.model)
                self.core.opened(key)

    def answer(self, key: int, line: str) -> None:
        if key not in self.peers:
            return
        if self.model.is_away(self.now):
            del self.peers[key]
            self.core.received(key, b"")
            return
        told = self.peers[key].answer(line, self.now, sum(peer.is_in for peer in self.peers.values()))
        if any(begin <= self.now < end for begin, end in self.model.too_fast) and not line.startswith(("HELLO", "BYE")):
            told = "ERR 31"
        for part in (told[: len(told) // 2].encode(), told[len(told) // 2 :].encode() + b"\n"):  # in two pieces, as TCP may
            if key in self.open:
                self.core.received(key, part)

    def run(self, seconds: float) -> None:
        """So long, or until nothing more happens."""
        end = self.now + seconds
        for _ in range(100_000):
            first = min(self.due, self.queue[0][0] if self.queue else math.inf)
            if first > end:
                self.now = end
                return
            self.now = max(self.now, first)
            if self.queue and self.queue[0][0] <= self.now:
                heapq.heappop(self.queue)[2]()
            else:
                self.core.tick()
        raise AssertionError("it turns without end")

    def lines(self, word: str) -> list[str]:
        return [line for _, _, line in self.sent if line.startswith(word)]


def results(works: list[Question]) -> list[int | str]:
    return [work.found.value if isinstance(work.found, Found) else type(work.fault).__name__ for work in works]


def test_each_has_its_own_value_by_no_more_sessions_than_are_allowed() -> None:
    works = [Question(3, POSITIONS[at % 20]) for at in range(100)]
    stage = Stage(Model(), sessions=3)
    stage.ask(*works)
    stage.run(60)
    assert results(works) == [value_of(work.position) for work in works] and stage.most_open == 3
    assert len(stage.lines("HELLO")) == 3 and len(stage.lines("ASK")) == 100
    assert stage.ended[-1][0] == pytest.approx(100 / 3 * 0.056, rel=0.35)  # three at a time


def test_ahead() -> None:
    """So many at once with one session, and no more."""
    works = [Question(3, POSITIONS[at % 20]) for at in range(40)]
    stage = Stage(Model(), sessions=1, ahead=4)
    stage.ask(*works)
    stage.run(60)
    assert results(works) == [value_of(work.position) for work in works] and stage.most_open == 1
    most = under_way = 0
    for _, _, line in stage.sent:
        under_way += line.startswith("ASK") - line.startswith("TABLE")
        most = max(most, under_way)
    assert most == 4


@pytest.mark.parametrize("most", [1, 2])
def test_fewer_sessions_than_are_wanted(most: int) -> None:
    """Those that are granted do it all, however long that takes; it is told once, and asked for more rarely."""
    works = [Question(3, POSITIONS[at % 20]) for at in range(60)]
    stage = Stage(Model(most=most, job=0.2), sessions=5, patience=2)
    stage.ask(*works)
    stage.run(60)
    assert results(works) == [value_of(work.position) for work in works]
    assert [text for text in stage.told if "granted" in text] == [f"{most} of 5 sessions were granted"]
    assert len(stage.lines("HELLO")) < 60 // most


def test_an_outage_loses_nothing() -> None:
    """The server is away for a while, and silent for another: all is asked again, and it is told."""
    model = Model(job=0.3)
    model.away, model.mute = [(1.0, 6.0)], [(9.0, 14.0)]
    works = [Question(5, POSITIONS[at % 20]) for at in range(80)]
    stage = Stage(model, sessions=4, outage=30)
    stage.ask(*works)
    stage.run(100)
    assert results(works) == [value_of(work.position) for work in works] and stage.most_open <= 4
    assert any("nobody is there; it is tried again for 30 s" in text for text in stage.told) and any("no answer to" in text for text in stage.told)


@pytest.mark.parametrize("outage, least, most", [(0, 1.4, 3.5), (5, 6, 9)])
def test_an_outage_that_lasts(outage: float, least: float, most: float) -> None:
    model = Model(job=10)
    model.mute = [(1.0, 1e9)]
    work = Question(5, OPENING)
    stage = Stage(model, sessions=1, outage=outage)
    stage.ask(work)
    stage.run(100)
    assert isinstance(work.fault, Unreachable) and least < stage.ended[-1][0] < most


def test_a_host_that_is_slow() -> None:
    """A server that takes longer to each answer than silence says is waited for twice as long each time."""
    work = Question(5, OPENING)
    stage = Stage(Model(takes=1.0, job=3), sessions=1, silence=1.5, outage=60)
    stage.ask(work)
    stage.run(20)
    assert results([work]) == [value_of(OPENING)]
    model = Model(takes=0.01, job=1)
    stage = Stage(model, sessions=1, silence=0.5, outage=60)
    stage.ask(work := Question(5, OPENING))
    stage.run(0.3)
    model.takes = 0.8
    stage.run(30)
    assert results([work]) == [value_of(OPENING)] and len(stage.lines("HELLO")) == 2


def test_patience() -> None:
    model = Model(most=0)
    work = Question(3, OPENING)
    stage = Stage(model, sessions=2, patience=3)
    stage.ask(work)
    stage.run(0.9)
    assert not stage.told
    stage.run(1.1)
    assert not work.ended and [text for text in stage.told if "ERR 14" in text] and 10 < len(stage.lines("HELLO")) < 22  # ten times a second
    stage.run(5)
    assert isinstance(work.fault, Refused) and work.fault.number == 14 and 3 <= stage.ended[-1][0] < 3.5
    stage = Stage(model, sessions=2, patience=30)
    stage.ask(work := Question(3, OPENING))
    stage.run(2)
    model.most = 1
    stage.run(2)
    assert results([work]) == [value_of(OPENING)]
    model.most, model.full = 0, 30
    stage = Stage(model, sessions=2)
    stage.ask(work := Question(3, OPENING))
    stage.run(1)
    assert isinstance(work.fault, Refused) and work.fault.number == 30 and len(stage.lines("HELLO")) <= 2


@pytest.mark.parametrize("grain, found", [(0, 0), (3, 3), (5, 5), (6, 6), (9, 6)])
def test_the_grain_by_probes(grain: int, found: int) -> None:
    stage = Stage(Model(grain=grain, job=0.01), sessions=1)
    stage.ask(errand := Errand(stage.core.learns, alone=True))
    stage.run(30)
    assert errand.found.grain == found and stage.lines("BYE") == ["BYE"]
    asked = [int(line.split()[1]) for line in stage.lines("ASK")]
    assert asked == [*range(2, min(grain + 2, 8) + 1)] * 2 and len(stage.lines("QUOTA")) == len(asked) + 1


def test_an_older_question_isn_t_passed_over() -> None:
    """One that needs more than the open sessions have gets a session, though younger ones keep coming."""
    stage = Stage(Model(spent=lambda depth, nodes, jobs: depth == 9 and nodes < 20000), sessions=1)
    deep = Question(9, OPENING)
    stage.ask(*(Question(3, POSITIONS[at]) for at in range(3)), deep)
    for at in range(60):
        stage.run(0.05)
        stage.ask(Question(3, POSITIONS[at % 20]))
    assert results([deep]) == [value_of(OPENING)]


def test_late_and_given_up() -> None:
    model = Model(job=5)
    stage = Stage(model, sessions=1)
    late, next_one = Question(6, OPENING, timeout=0.5), Question(6, POSITIONS[3], timeout=9)
    stage.ask(late, next_one)
    stage.run(1)
    assert isinstance(late.fault, Late) and late.fault.seconds == 0.5 and stage.ended[0][0] < 0.6 and stage.lines("CANCEL") == ["CANCEL 1"]
    stage.run(10)
    assert results([next_one]) == [value_of(POSITIONS[3])]
    stage.ask(given := Question(6, OPENING), waits := Question(6, POSITIONS[4]))
    stage.run(0.5)
    stage.core.give_up(given, Broken("not wanted"))
    stage.core.give_up(waits, Broken("not wanted"))
    assert given.ended and waits.ended
    stage.run(5)
    assert stage.lines("CANCEL") == ["CANCEL 1", "CANCEL 3"] and len(stage.lines("ASK")) == 3 and len(stage.lines("HELLO")) == 1


def test_lines_that_come_too_fast() -> None:
    """What a site refuses for coming too fast is said again a little later, and not at once; whichever line it is."""
    for begin in (0.0, 0.003, 0.02, 0.056, 0.057, 0.058, 0.059):
        model = Model(job=0.05)
        model.too_fast = [(begin, begin + 1.5)]
        stage = Stage(model, sessions=1)
        stage.ask(work := Question(3, OPENING), other := Question(3, POSITIONS[5]))
        stage.run(10)
        assert results([work, other]) == [value_of(OPENING), value_of(POSITIONS[5])]
        assert len([line for at, _, line in stage.sent if begin + 0.01 <= at < begin + 1.4]) <= 16
    model.too_fast = [(0.0, 1e9)]
    stage = Stage(model, sessions=1, patience=3)
    stage.ask(work := Question(3, OPENING))
    stage.run(20)
    assert isinstance(work.fault, Refused) and work.fault.number == 31 and 3 <= stage.ended[-1][0] < 4
    model.too_fast = [(1.0, 2.0)]
    stage = Stage(model, sessions=1)
    stage.ask(ping_work := Errand(ping))
    stage.run(1.0)
    assert ping_work.ended
    model.job = 60
    stage.ask(late := Question(3, OPENING, timeout=0.5), asked := Errand(ping))
    stage.run(10)
    assert isinstance(late.fault, Late) and asked.ended and not asked.fault and len(stage.lines("CANCEL")) <= 11


def test_each_has_a_session_of_its_own_before_any_has_two() -> None:
    stage = Stage(Model(job=1), sessions=3, ahead=4)
    stage.ask(Errand(ping))
    stage.run(1)
    stage.ask(*(Question(3, POSITIONS[at]) for at in range(3)))
    stage.run(0.5)
    asked = [key for _, key, line in stage.sent if line.startswith("ASK")]
    assert len(asked) == len(set(asked)) == 3
    stage.ask(*(Question(3, POSITIONS[at]) for at in range(3, 12)))
    stage.run(0.2)
    asked = [key for _, key, line in stage.sent if line.startswith("ASK")]
    assert sorted(asked.count(key) for key in set(asked)) == [4, 4, 4] and stage.most_open == 3


def test_silence_is_twice_as_long_each_time() -> None:
    model = Model(job=100)
    stage = Stage(model, sessions=1, silence=0.5, outage=20)
    stage.ask(work := Question(5, OPENING))
    stage.run(0.2)
    answer = stage.answer
    stage.answer = lambda key, line: answer(key, line) if line.startswith("HELLO") else None  # type: ignore[method-assign, assignment]
    stage.run(60)
    begun = [at for at, _, line in stage.sent if line.startswith("HELLO")]
    assert [round(after - before, 1) for before, after in zip(begun[1:], begun[2:])] == [1.0, 2.0, 4.0, 8.0] and isinstance(work.fault, Unreachable)
    assert "no answer to ASK in 16 s" in str(work.fault)


def test_a_job_that_somebody_else_cancelled() -> None:
    stage = Stage(Model(job=1), sessions=1)
    stage.ask(work := Question(3, OPENING))
    stage.run(0.5)
    peer = next(iter(stage.peers.values()))
    peer.jobs[0] = (0.0, "CANCELLED", 0)
    stage.run(1)
    assert isinstance(work.fault, Broken) and "cancelled by nobody here" in str(work.fault)


def test_counted_nodes() -> None:
    stage = Stage(Model(), sessions=1, counts=True)
    works = [Question(3, POSITIONS[at]) for at in range(5)]
    stage.ask(*works)
    stage.run(5)
    assert [work.found.nodes for work in works] == [20] * 5


@hypothesis.given(st.integers(0, 10**9), st.integers(1, 4), st.integers(1, 3))
def test_whatever_happens_each_ends_as_it_should(seed: int, sessions: int, ahead: int) -> None:
    """Outages, silences, a limit of sessions, jobs that are spent: each question has its own value, or its own fault, and sessions are as many
    as are allowed; the core never turns without end."""
    chance = random.Random(seed)
    model = Model(takes=chance.choice([0.0005, 0.01]), job=chance.choice([0.0, 0.02, 0.5]), most=chance.randint(1, 4), spent=lambda depth, nodes, jobs: depth > 6 or depth == 6 and nodes < 20000)
    at = 0.5
    for _ in range(chance.randint(0, 3)):
        at += chance.random() * 4
        (model.away if chance.random() < 0.5 else model.mute).append((at, at + chance.random() * 3))
        at += 3
    works = [Question(chance.choice([1, 3, 6, 9]), chance.choice(POSITIONS)) for _ in range(chance.randint(1, 40))]
    stage = Stage(model, sessions=sessions, ahead=ahead, outage=60, patience=60)
    for work in works:
        stage.ask(work)
        stage.run(chance.random() * 0.1)
    stage.run(300)
    assert results(works) == ["TooDeep" if work.depth == 9 else value_of(work.position) for work in works]
    assert stage.most_open <= sessions
    stage.core.close()
    stage.run(5)
    assert stage.core.has_ended


def test_a_wire() -> None:
    def given(wire: Wire, data: bytes) -> list[Any]:
        return list(wire.receive(data))

    wire = Wire()
    assert wire.send("HELLO 1 2", "secret") == b"HELLO 1 2 secret\n" and not given(wire, b"WELC")
    with pytest.raises(Broken) as fault:
        given(wire, b"OME 1 3\n")
    assert "secret" not in str(fault.value) and wire.broken
    with pytest.raises(Broken):
        wire.send("BYE")
    wire = Wire()
    wire.send("QUOTA")
    with pytest.raises(Broken, match="QUOTA was interrupted"):
        wire.send("BYE")
    with pytest.raises(ValueError):
        Wire().send("two\nlines")
    with pytest.raises(Broken, match="wasn't asked"):
        given(Wire(), b"BYE\n")
    with pytest.raises(Broken, match="wasn't asked"):
        given(Wire(), b"B")
    with pytest.raises(Broken, match="ended the session"):
        given(Wire(), b"")


def test_a_wire_with_many_lines() -> None:
    """Answers come in order, in whatever pieces; what is refused is among them, and what wasn't asked is a fault before the last one is taken."""
    lines, told = ["ASK 0 x", "WAIT 1", "ASK 0 y", "WAIT 2", "TABLE 1"], b"JOB 1\nDONE 1 3 -\nERR 24\nERR 17\nTABLE 1\n"
    for size in (1, 5, 7, len(told)):
        wire, found = Wire(), list[Any]()
        assert wire.send_all(lines) == "".join(f"{line}\n" for line in lines).encode()
        for at in range(0, len(told), size):
            found += wire.receive(told[at : at + size])
        assert [one.number if isinstance(one, Refused) else one.state for one in found] == ["JOB", "DONE", 24, 17, "TABLE"] and wire.line is None
    wire = Wire()
    wire.send_all(["QUOTA", "QUOTA"])
    source = wire.receive(b"QUOTA 1 2 3\nQUOTA 1 2 3\nQ")
    assert next(source)
    with pytest.raises(Broken, match="wasn't asked"):
        next(source)


@pytest.mark.parametrize("ahead", [1, 3])
def test_many_quick_ones_are_asked_ahead(ahead: int) -> None:
    """The first alone, and then the lines of many at once; no more than `ahead` jobs live at a time, and a session takes no more than its share."""
    works = [Question(3, POSITIONS[at % 20]) for at in range(200)]
    stage = Stage(Model(job=0.002), sessions=2, ahead=ahead)
    stage.ask(*works)
    stage.run(20)
    assert results(works) == [value_of(work.position) for work in works]
    assert len(stage.lines("WAIT")) > 180 and len(stage.lines("ASK")) == 200 == len(stage.lines("TABLE"))
    assert len({at for at, _, _ in stage.sent}) < 60  # so many times something was sent
    first = [line for _, key, line in stage.sent if key == 1]
    alive = most = 0
    for line in first:
        alive += line.startswith("ASK") - line.startswith("TABLE")
        most = max(most, alive)
    assert most <= ahead and 70 <= sum(line.startswith("ASK") for line in first) <= 130


def test_few_or_slow_ones_are_asked_one_by_one() -> None:
    for job, count in ((0.002, 8), (0.4, 40)):
        works = [Question(3, POSITIONS[at % 20]) for at in range(count)]
        stage = Stage(Model(job=job), sessions=1)
        stage.ask(*works)
        stage.run(60)
        assert results(works) == [value_of(work.position) for work in works] and not stage.lines("WAIT")


def test_what_is_refused_ahead_is_asked_again_alone() -> None:
    """An ASK that is refused shifts the numbers of jobs behind it: no answer to them is taken, and each ends as it should."""
    works = [Question(3, POSITIONS[at % 20]) for at in range(30)]
    stage = Stage(Model(job=0.002), sessions=1, ahead=2)
    wrong = POSITIONS[12]
    stage.peers = Refusing(wrong)
    stage.ask(*works)
    stage.run(20)
    assert [work.fault.number if isinstance(work.fault, Refused) else work.found.value for work in works] == [24 if work.position == wrong else value_of(work.position) for work in works]
    assert stage.lines("WAIT") and len(stage.lines("HELLO")) == 1


class Refusing(dict[int, Peer]):
    """Peers that refuse one position."""

    def __init__(self, position: str):
        super().__init__()
        self.position = position

    def __setitem__(self, key: int, peer: Peer) -> None:
        answer = peer.answer
        peer.answer = lambda line, now, present: "ERR 24" if line.endswith(self.position) else answer(line, now, present)  # type: ignore[method-assign]
        super().__setitem__(key, peer)


def test_a_job_that_takes_long_among_those_asked_ahead() -> None:
    """It is asked again alone, as those behind it are; a timeout is its own."""
    model = Model(job=0.002)
    works = [Question(3, POSITIONS[at % 20], timeout=2.0) for at in range(40)]
    stage = Stage(model, sessions=1, silence=0.5, outage=30)
    stage.ask(*works)
    stage.run(0.05)
    assert stage.lines("WAIT")
    model.job = 0.8
    stage.run(1.0)
    model.job = 0.002
    stage.run(60)
    assert results(works) == [value_of(work.position) for work in works] and len(stage.lines("HELLO")) == 2
    late = [Question(3, POSITIONS[at % 20], timeout=1.0) for at in range(40)]
    stage = Stage(model, sessions=1, silence=5)
    stage.ask(*late)
    stage.run(0.05)
    model.job = 3.0
    stage.run(6.0)
    model.job = 0.002
    stage.run(60)
    ends = results(late)
    assert "Late" in ends and ends.count("Late") < 10 and set(ends) <= {"Late", *(value_of(work.position) for work in late)}


def test_given_up_among_those_asked_ahead() -> None:
    works = [Question(3, POSITIONS[at % 20]) for at in range(40)]
    stage = Stage(Model(job=0.01), sessions=1)
    stage.ask(*works)
    stage.run(0.1)
    for work in works[::2]:
        stage.core.give_up(work, Broken("not wanted"))
    stage.run(20)
    assert all(results([work]) == [value_of(work.position)] for work in works[1::2]) and len(stage.lines("HELLO")) == 1


def test_nodes_that_end_among_those_asked_ahead() -> None:
    """Spent ones are asked again alone, by a session with more; the others go on."""
    model = Model(job=0.001, spent=lambda depth, nodes, jobs: nodes < 7900)
    works = [Question(3, POSITIONS[at % 20]) for at in range(120)]
    stage = Stage(model, sessions=2)
    stage.ask(*works)
    stage.run(60)
    assert results(works) == [value_of(work.position) for work in works] and stage.lines("HELLO 1024")


def test_counted_nodes_ahead() -> None:
    works = [Question(3, POSITIONS[at % 20]) for at in range(40)]
    stage = Stage(Model(job=0.001), sessions=1, counts=True)
    stage.ask(*works)
    stage.run(5)
    assert [work.found.nodes for work in works] == [20] * 40 and stage.lines("WAIT")


class Hand:
    """A core, moved by hand: what happens is said, and what is done is read as texts."""

    def __init__(self, **options: Any):
        self.core, self.now, self.ended, self.done = Core(Options("here", **options), self), 1000.0, list[Work](), list[str]()
        self.due = math.inf

    def dial(self, key: int) -> None:
        self.done.append(f"open {key}")

    def send(self, key: int, data: bytes) -> None:
        self.done.append(f"{key} {data.decode().strip()}")

    def hang_up(self, key: int) -> None:
        self.done.append(f"shut {key}")

    def settle(self, work: Work) -> None:
        self.ended.append(work)

    def tell(self, text: str) -> None:
        """(What is told, `Stage` keeps.)"""

    def wake(self, due: float) -> None:
        self.due = due

    def does(self) -> list[str]:
        """What was done since it was last asked."""
        found, self.done = self.done, []
        return found

    def ask(self, work: Work) -> list[str]:
        self.core.ask(work)
        return self.does()

    def hear(self, key: int, *lines: str) -> list[str]:
        """Answers of a session one after another; what is done at last. A session that is opened is welcomed first."""
        for line in lines:
            self.core.received(key, line.encode() + (b"\n" if line else b""))
            last = self.does()
        return last

    def opens(self, key: int) -> list[str]:
        self.core.opened(key)
        (hello,) = self.does()
        return self.hear(key, hello.replace(f"{key} HELLO", "WELCOME"))

    def waits(self, seconds: float) -> list[str]:
        """Until so much later; all that is done meanwhile."""
        end, found = self.now + seconds, list[str]()
        while self.due <= end:
            self.now = max(self.now, self.due)
            self.core.tick()
            found += self.does()
        self.now = end
        return found


def test_a_core_that_is_closed_takes_nothing() -> None:
    hand = Hand()
    hand.core.close()
    with pytest.raises(Closed):
        hand.ask(Question(1, OPENING))


@pytest.mark.parametrize("how", ["the other side ends", "silence"])
def test_a_session_that_ends_without_an_answer_is_over(how: str) -> None:
    hand = Hand(sessions=1)
    assert hand.ask(Question(2, OPENING)) == ["open 1"] and hand.opens(1) == [f"1 ASK 2 {OPENING}"]
    assert hand.hear(1, "JOB 1") == ["1 GET 1"]
    hand.hear(1, "DONE 1 5 d3", "TABLE 1 d3=5")
    hand.core.close()
    assert hand.does() == ["1 BYE"] and not hand.core.has_ended
    assert (hand.hear(1, "") if how == "the other side ends" else hand.waits(2)) == ["shut 1"]
    assert hand.core.has_ended


def test_trouble_is_over_with_those_who_had_it() -> None:
    for model, options, least in ((Model(), {"outage": 0}, 1.0), (Model(most=0), {"patience": 5}, 4.9)):
        model.away = [(0, 10**6)] if model.most else []
        stage = Stage(model, **options)
        for begin in (0.0, 100.0):  # the second question has as long as the first
            stage.run(begin - stage.now)
            stage.ask(Question(2, OPENING))
            stage.run(60)
            when, work = stage.ended[-1]
            assert isinstance(work.fault, (Unreachable, Refused)) and begin + least <= when <= begin + least + 2, (begin, when)
        assert len(stage.ended) == 2


def test_a_session_with_jobs_takes_no_errand_and_none_that_goes_alone() -> None:
    hand = Hand(sessions=1, ahead=3)
    hand.ask(Question(2, OPENING))
    hand.opens(1)
    errand = Errand(ping)
    assert hand.hear(1, "JOB 1") == ["1 GET 1"] and hand.ask(errand) == [] and hand.hear(1, "PENDING 1") == []
    assert hand.waits(0.0002) == ["1 GET 1"]
    assert hand.hear(1, "DONE 1 5 d3") == ["1 TABLE 1"] and hand.hear(1, "TABLE 1 d3=5") == ["1 QUOTA"]
    hand.hear(1, "QUOTA 1 2 3")
    assert errand.ended and not errand.fault


def test_what_is_refused_to_a_session_in_use() -> None:
    """A session whose room is used up is raised, and left at the greatest."""
    for number in (10, 11):
        hand = Hand(sessions=1)
        hand.ask(Question(2, OPENING))
        hand.ask(Question(3, OPENING))
        hand.opens(1)
        hand.hear(1, "JOB 1")
        assert hand.hear(1, "DONE 1 5 d3", "TABLE 1 d3=5") == [f"1 ASK 3 {OPENING}"]
        assert hand.hear(1, f"ERR {number}") == ["1 RESERVE 512 16384"]
        for raised in ("512 16384", "1024 32768", "1024 65536"):
            assert hand.hear(1, f"RESERVED {raised}") == [f"1 ASK 3 {OPENING}"]
            last = hand.hear(1, f"ERR {number}")
        assert last[:1] == ["1 BYE"]
        assert not any(work.fault for work in hand.ended)


def test_what_a_look_is_refused_for() -> None:
    hand = Hand(sessions=1)
    hand.ask(Question(2, OPENING))
    hand.opens(1)
    assert hand.hear(1, "JOB 1") == ["1 GET 1"] and hand.hear(1, "ERR 31") == []
    assert hand.waits(0.09) == [] and hand.waits(0.02) == ["1 GET 1"]  # too fast: later, and the job is kept
    assert hand.hear(1, "ERR 17") == ["shut 1", "open 2"]  # no such job: this session can't be believed
    assert hand.opens(2) == [f"2 ASK 2 {OPENING}"] and not hand.ended


def test_what_is_reserved_by_hand_knows_no_depth() -> None:
    hand = Hand(sessions=1, levels=(Reservation(64, 100),))
    hand.ask(question := Question(9, OPENING))
    hand.opens(1)
    hand.hear(1, "JOB 1", "SPENT 1")
    assert isinstance(question.fault, TooDeep) and (question.fault.depth, question.fault.greatest) == (9, 0)


def test_what_an_errand_is_refused_for() -> None:
    hand = Hand(sessions=1)
    errand = Errand(ping)
    hand.ask(errand)
    assert hand.opens(1) == ["1 QUOTA"]
    hand.hear(1, "ERR 31")
    assert not errand.ended and hand.waits(0.09) == [] and hand.waits(0.02) == ["1 QUOTA"]
    hand.hear(1, "ERR 28")
    assert isinstance(errand.fault, Refused) and errand.fault.number == 28


def asked(hand: Hand, *questions: Question) -> None:
    """Each question by a session of its own, which looks at its job."""
    for key, question in enumerate(questions, 1):
        assert hand.ask(question) == [f"open {key}"] and hand.opens(key) == [f"{key} ASK {question.depth} {question.position}"]
        assert hand.hear(key, "JOB 1") == [f"{key} GET 1"]


def test_what_lost_sessions_had_is_asked_again_in_its_order() -> None:
    hand = Hand(sessions=2)
    asked(hand, Question(1, OPENING), Question(2, OPENING))
    hand.ask(Question(3, OPENING))
    for key in (1, 2):
        hand.core.failed(key, "reset")
        assert hand.does() == [f"shut {key}", f"open {key + 2}"]
    assert hand.opens(3) == [f"3 ASK 1 {OPENING}"] and hand.opens(4) == [f"4 ASK 2 {OPENING}"]


@pytest.mark.parametrize("answer", ["PENDING 1", "ERR 17"])
def test_a_job_that_is_done_has_a_table(answer: str) -> None:
    hand = Hand(sessions=1)
    asked(hand, Question(2, OPENING))
    assert hand.hear(1, "DONE 1 5 d3") == ["1 TABLE 1"] and hand.hear(1, answer) == ["shut 1", "open 2"] and not hand.ended


def test_where_others_go_on_no_session_is_tried_for_a_while() -> None:
    hand = Hand(sessions=2)
    asked(hand, Question(2, OPENING))
    assert hand.ask(Question(2, OPENING)) == ["open 2"]
    hand.core.failed(2, "nobody is there")
    assert hand.does() == ["shut 2"]
    hand.core.failed(2, "nobody is there")  # (of one that is over nothing is heard)
    assert hand.does() == [] and "open 3" not in hand.waits(0.95) and "open 3" in hand.waits(0.1)


def test_a_session_that_has_too_little_stays_where_there_is_room_for_another() -> None:
    hand = Hand(sessions=2)
    asked(hand, Question(2, OPENING))
    hand.hear(1, "DONE 1 5 d3", "TABLE 1 d3=5")
    hand.core._needs[9] = 1
    assert hand.ask(Question(9, OPENING)) == ["open 2"]
    assert hand.opens(2) == [f"2 ASK 9 {OPENING}"] and hand.ask(Question(2, OPENING)) == [f"1 ASK 2 {OPENING}"]


def test_what_waits_goes_on_when_its_depth_is_known_to_need_more() -> None:
    hand = Hand(sessions=2)
    hand.ask(Question(9, OPENING))
    hand.opens(1)
    assert hand.hear(1, "JOB 1", "SPENT 1") == ["1 BYE", "open 2"] and hand.hear(1, "BYE") == ["shut 1"]
    assert hand.opens(2) == [f"2 ASK 9 {OPENING}"] and hand.hear(2, "JOB 1") == ["2 GET 1"]
    assert hand.ask(Question(3, OPENING)) == ["open 3"] and hand.opens(3) == [f"3 ASK 3 {OPENING}"]
    hand.hear(3, "JOB 1")
    for at in (1, 2, 3):
        hand.ask(Question(9, POSITIONS[at]))
    assert hand.hear(2, "DONE 1 5 d3", "TABLE 1 d3=5") == [f"2 ASK 9 {POSITIONS[1]}"]
    assert hand.hear(3, "DONE 1 5 d3", "TABLE 1 d3=5") == []  # it has too little for the others
    hand.hear(2, "JOB 2")
    assert hand.hear(2, "DONE 2 5 d3", "TABLE 2 d3=5") == [f"2 ASK 9 {POSITIONS[2]}"] and hand.ask(Question(3, OPENING)) == [f"3 ASK 3 {OPENING}"]


@pytest.mark.parametrize("outage, told", [(0, 0), (1, 1)])
def test_a_server_that_is_away_for_a_moment_is_no_loss(outage: int, told: int) -> None:
    """Also where no outage is endured; where one is, that is told."""
    model = Model(job=0.1)
    model.away = [(1.0, 1.5)]
    stage = Stage(model, sessions=1, outage=outage)
    stage.ask(Question(2, OPENING))
    stage.run(1.1)
    stage.ask(work := Question(2, POSITIONS[1]))
    stage.run(5)
    assert results([work]) == [value_of(POSITIONS[1])] and sum("it is tried again for 1 s" in text for text in stage.told) == told


def test_who_waits_for_what_the_server_is_is_told_that_it_can_t_be_found_out() -> None:
    hand = Hand(sessions=1)
    hand.ask(errand := Errand(hand.core.learns, alone=True))
    for key in range(1, 5):
        assert not errand.ended and hand.opens(key) == [f"{key} INFO"]
        hand.core.failed(key, "reset")
        hand.does()
    assert isinstance(errand.fault, Unreachable) and "reset" in str(errand.fault) and not hand.core.closed


def test_who_answers_hello_by_something_else_is_tried_again_after_a_pause() -> None:
    hand = Hand(sessions=1)
    hand.ask(Question(2, OPENING))
    hand.core.opened(1)
    assert hand.does() == ["1 HELLO 256 8192"] and hand.hear(1, "HTTP/1.1 400 Bad Request") == ["shut 1"]
    assert hand.waits(0.09) == [] and hand.waits(0.02) == ["open 2"]


@pytest.mark.parametrize("answer, then", [("DONE 1 5 d3", [f"1 ASK 3 {OPENING}"]), ("SPENT 1", ["1 BYE"])])
def test_a_job_that_ends_while_it_is_given_up(answer: str, then: list[str]) -> None:
    """A session is kept, but where a job was spent in it."""
    hand = Hand(sessions=1)
    asked(hand, given := Question(2, OPENING))
    hand.core.give_up(given, Closed("not wanted"))
    assert hand.ask(Question(3, OPENING)) == [] and hand.hear(1, answer) == then


def test_for_what_is_given_up_nothing_is_found_out() -> None:
    hand = Hand(sessions=1)
    hand.core._needs[9] = 1
    asked(hand, given := Question(9, OPENING))
    hand.core.give_up(given, Closed("not wanted"))
    assert hand.hear(1, "SPENT 1") == ["1 BYE"] and hand.hear(1, "BYE") == ["shut 1"] and hand.waits(5) == []


def test_how_a_server_is_found_out() -> None:
    """Line by line; a probe that takes 50 nodes is within a ply of the grain, and one of 51 is not."""
    hand = Hand(sessions=1)
    hand.ask(errand := Errand(hand.core.learns, alone=True))
    assert hand.opens(1) == ["1 INFO"] and hand.hear(1, "ERR 21") == ["1 QUOTA"] and hand.hear(1, "QUOTA 1 8000 1") == [f"1 ASK 2 {PROBES[0]}"]
    assert hand.hear(1, "JOB 1") == ["1 GET 1"] and hand.hear(1, "PENDING 1") == [] and hand.waits(0.0003) == ["1 GET 1"]
    assert hand.hear(1, "DONE 1 0 d3") == ["1 QUOTA"] and hand.hear(1, "QUOTA 1 7950 1") == [f"1 ASK 3 {PROBES[0]}"]
    hand.hear(1, "JOB 2", "DONE 2 0 d3")
    assert hand.hear(1, "QUOTA 1 7899 1") == [f"1 ASK 2 {PROBES[1]}"]
    hand.hear(1, "JOB 3")
    assert hand.hear(1, "SPENT 3") == ["1 QUOTA"] and hand.hear(1, "QUOTA 1 7899 1") == ["1 BYE"]
    assert errand.found == Info(0) and [(info.sure, info.mostly) for info in (Info(0), Info(7), Info(9))] == [(4, 5), (11, 12), (12, 12)]


def test_how_long_a_server_is_tried_that_was_never_there() -> None:
    """For as long as silence says, however many tries that takes; who asks behind that begins at once."""
    hand = Hand(sessions=1, outage=0)
    hand.ask(question := Question(2, OPENING))
    hand.now += 1
    hand.core.failed(1, "nobody is there")
    assert hand.does() == ["shut 1"] and hand.waits(0.45) == ["open 2"] and hand.waits(0.06) == ["shut 2"]
    assert isinstance(question.fault, Unreachable) and "no connection in" in str(question.fault)
    hand = Hand(sessions=2)
    hand.ask(Question(2, OPENING))
    hand.ask(Question(3, OPENING))
    hand.core.failed(1, "nobody is there")
    hand.core.failed(2, "there is no such host", True)
    assert hand.does() == ["shut 1", "shut 2"] and len(hand.ended) == 2 and hand.ask(Question(2, OPENING)) == ["open 3"]


def test_how_long_it_is_asked_too_fast() -> None:
    hand = Hand(sessions=1, patience=1)
    hand.ask(question := Question(2, OPENING))
    hand.opens(1)
    for _ in range(10):
        assert hand.hear(1, "ERR 31") == [] and not question.ended and hand.waits(0.1) == [f"1 ASK 2 {OPENING}"]
    hand.waits(0.01)
    hand.hear(1, "ERR 31")
    assert isinstance(question.fault, Refused) and question.fault.number == 31


def test_what_is_given_up_while_its_session_is_raised() -> None:
    hand = Hand(sessions=1)
    hand.ask(Question(2, OPENING))
    hand.ask(given := Question(3, OPENING))
    hand.opens(1)
    hand.hear(1, "JOB 1", "DONE 1 5 d3", "TABLE 1 d3=5")
    assert hand.hear(1, "ERR 10") == ["1 RESERVE 512 16384"]
    hand.core.give_up(given, Closed("not wanted"))
    assert hand.hear(1, "RESERVED 512 16384") == [] and hand.ask(Question(4, OPENING)) == [f"1 ASK 4 {OPENING}"]


@pytest.mark.parametrize("answer, fault", [("CANCELLED 1", Late), ("DONE 1 5 d3", type(None))])
def test_a_job_that_ends_while_it_is_cancelled(answer: str, fault: type) -> None:
    """Its time was over, and the server says that it has ended: how, is asked once more."""
    hand = Hand(sessions=1)
    asked(hand, question := Question(2, OPENING, timeout=0.5))
    hand.hear(1, "PENDING 1")
    while (done := hand.waits(0.01)) != ["1 CANCEL 1"]:
        assert not done or hand.hear(1, "PENDING 1") == []
    assert hand.hear(1, "ERR 17") == ["1 GET 1"]
    hand.hear(1, answer, *(["TABLE 1 d3=5"] if fault is not Late else []))
    assert question.ended and isinstance(question.fault, fault) and getattr(question.fault, "seconds", 0.5) == 0.5


def test_a_second_question_of_a_session_waits_while_others_come() -> None:
    hand = Hand(sessions=2, ahead=3)
    asked(hand, Question(2, OPENING))
    assert hand.hear(1, "PENDING 1") == [] and hand.ask(Question(3, OPENING)) == ["open 2"]
    assert hand.ask(Question(4, OPENING)) == [f"1 ASK 3 {OPENING}"]  # one of the two is for the session that comes


def test_how_long_an_answer_may_be() -> None:
    """With its LF 1115 bytes: one that comes to an end is taken, and what has none by then isn't waited for."""
    words = "INFO 4 " + "w" * 1107
    assert parse("INFO", f"{words}\n".encode()).more == ("w" * 1107,)
    with pytest.raises(Broken, match="was answered by"):
        parse("INFO", f"{words}w\n".encode())
    wire = Wire()
    wire.send("INFO")
    assert not list(wire.receive(words.encode()))
    with pytest.raises(Broken, match="more than 1115 bytes"):
        list(wire.receive(b"w"))


def test_how_long_a_server_that_is_full_is_asked() -> None:
    """Until patience is over, to the moment; one that was welcomed meanwhile begins anew."""
    hand = Hand(sessions=1, patience=1)
    hand.ask(question := Question(2, OPENING))
    hand.core.opened(1)
    hand.does()
    for key, moment in ((1, 1000.0), (2, 1000.5)):
        hand.now = moment
        assert hand.hear(key, "ERR 14") == [f"shut {key}"] and hand.waits(0.11) == [f"open {key + 1}"]
        hand.core.opened(key + 1)
        hand.does()
    hand.now = 1001.0
    hand.hear(3, "ERR 14")
    assert isinstance(question.fault, Refused) and question.fault.number == 14


def test_nodes_are_counted_where_more_is_reserved() -> None:
    hand = Hand(sessions=1, counts=True)
    hand.ask(Question(2, OPENING))
    hand.ask(Question(3, OPENING))
    hand.opens(1)
    hand.hear(1, "JOB 1", "DONE 1 5 d3", "TABLE 1 d3=5", "QUOTA 1 8000 1")
    hand.hear(1, "ERR 11", "RESERVED 512 16384", "JOB 2", "DONE 2 5 d3", "TABLE 2 d3=5", "QUOTA 1 16000 1")
    assert [work.found.nodes for work in hand.ended] == [192, 192]


def test_what_no_answer_is_told_as() -> None:
    for answer, told in ((b"y" * 119 + b"\n", repr("y" * 119 + "\n")), (b"y" * 120 + b"\n", repr("y" * 120) + "..")):
        with pytest.raises(Broken) as fault:
            parse("BYE", answer)
        assert str(fault.value) == f"'BYE' was answered by {told}"


def test_how_long_a_job_is_left_alone() -> None:
    assert [pause_after(seconds) for seconds in (0.0, 0.04, 0.08, 9.0)] == [0.0002, 0.01, 0.02, 0.02]
