"""Client, AsyncClient and Session against servers that answer as they are told; what callers see of results, faults and options."""
from __future__ import annotations

import asyncio
import concurrent.futures
import copy
import importlib.util
import logging
import os
import pathlib
import pickle
import subprocess
import sys
import threading
import time

import coluwen
import pytest
from coluwen import AsyncClient, Broken, Client, Closed, ColuwenError, Entry, Late, Outcome, Position, Progress, Refused, Result, Score, Session, Silent, TooDeep, Unreachable
from coluwen.client import url_of
from told import sound, told, value_of

OPENING = Position.opening()
LINE = []  # positions of a game
for _ in range(12):
    LINE.append((LINE[-1] if LINE else OPENING).play((LINE[-1] if LINE else OPENING).legal[0]))


def test_result() -> None:
    with told(sound()) as server, Client("127.0.0.1", server.port) as client:
        found = client.analyse(OPENING, 6)
        value = value_of(OPENING.text)
        assert (found.score, found.best, found.table) == (Score(value), "d3", (Entry("d3", Score(value)), Entry("c4", Score(-1, "<"))))
        assert client.analyse(OPENING.text, 3).depth == 3 and found.seconds > 0 and found.nodes is None
        white = client.analyse(LINE[0], 6)
        assert white.score.side == "O" and white.score.mover == value_of(LINE[0].text) and white.score.black == -white.score.mover == -white.score.white
    with told(sound()) as server, Client("127.0.0.1", server.port, counts=True) as client:
        assert client.analyse(OPENING, 6).nodes == 60 and client.analyse(OPENING, 6).nodes == 60


def test_each_move_in_the_order_of_its_value() -> None:
    with told(sound()) as server, Client("127.0.0.1", server.port) as client:
        entries = client.analyse_all(OPENING, 4)
        wanted = {move: -value_of(OPENING.play(move).text) for move in OPENING.legal}
        assert {entry.move: entry.score.value for entry in entries} == wanted and len(set(wanted.values())) == 4
        assert [entry.score.value for entry in entries] == sorted(wanted.values(), reverse=True) != list(wanted.values())
        assert all(entry.score.is_exact and entry.score.side == "X" for entry in entries)


def test_many_stream() -> None:
    """The first is there while the last isn't asked; each has its own; progress is told; the question is what was given."""
    taken: list[int] = []

    def source():  # type: ignore[no-untyped-def]
        for at in range(500):
            taken.append(at)
            yield (LINE[at % 12], 3) if at % 3 else LINE[at % 12].text

    told_of: list[Progress] = []
    with told(sound()) as server, Client("127.0.0.1", server.port, sessions=2) as client:
        answers = client.analyse_many(source(), 4, window=10, on_progress=told_of.append)
        first = next(answers)
        assert len(taken) <= 10 and first.number == 0 and first.question == LINE[0].text
        outcomes = [first, *answers]
        assert [one.number for one in outcomes] == list(range(500))
        for one in outcomes:
            question, answer = one
            assert isinstance(answer, Result) and answer.score.value == value_of(LINE[one.number % 12].text) and answer.depth == (3 if one.number % 3 else 4)
            assert question == ((LINE[one.number % 12], 3) if one.number % 3 else LINE[one.number % 12].text)
        assert [one.done for one in told_of] == list(range(1, 501)) and told_of[-1] == Progress(500, 0)
        assert sum(line.startswith("HELLO") for line in server.heard) <= 4
        known = list(client.analyse_many(LINE, 2, order="known", on_progress=told_of.append))
        assert sorted(one.number for one in known) == list(range(12)) and told_of[-1] == Progress(12, 0, 12)
        for wrong in ({"order": "any"}, {"window": 0}):
            with pytest.raises(ValueError):
                next(client.analyse_many(LINE, 2, **wrong))  # type: ignore[arg-type]


def test_what_the_source_raises_is_raised() -> None:
    def source():  # type: ignore[no-untyped-def]
        yield OPENING
        raise KeyError("mine")

    with told(sound()) as server, Client("127.0.0.1", server.port) as client, pytest.raises(KeyError, match="mine"):
        list(client.analyse_many(source(), 2))


@pytest.mark.parametrize("depth", [6.0, "6", True, None, -1, 13])
def test_a_depth_is_tested_before_anything_is_sent(depth: object) -> None:
    with told(sound()) as server, Client("127.0.0.1", server.port) as client:
        for call in (client.analyse, client.analyse_all, client.submit):
            with pytest.raises((ValueError, TypeError), match="a depth is a whole number"):
                call(OPENING, depth)  # type: ignore[operator]
        with pytest.raises(TypeError):
            client.analyse(7, 3)  # type: ignore[arg-type]
        assert not server.heard
        with pytest.raises(TypeError):
            Client("127.0.0.1", 4711, None)  # type: ignore[misc]


@pytest.mark.parametrize("fault", [Refused(14), TooDeep(9, 7), TooDeep(5), Late(0.5), Unreachable("here: nobody"), Silent("no answer"), Broken("x"), Closed("y"), coluwen.IllegalMove("a1"),
                                   coluwen.FormatError("no", "a.obf", 3, 4)])  # fmt: skip
def test_faults_can_be_pickled(fault: ColuwenError) -> None:
    for again in (pickle.loads(pickle.dumps(fault)), copy.copy(fault), copy.deepcopy(fault)):
        assert type(again) is type(fault) and str(again) == str(fault) and vars(again) == vars(fault) and isinstance(again, ColuwenError)


def too_deep(number: int) -> Result:
    raise TooDeep(number, number - 2)


def test_faults_of_a_process_pool() -> None:
    with concurrent.futures.ProcessPoolExecutor(1) as pool, pytest.raises(TooDeep) as fault:
        pool.submit(too_deep, 9).result()
    assert (fault.value.depth, fault.value.greatest) == (9, 7) and str(fault.value) == "depth 9 can't be had at this server's grain; depth 7 surely can"
    result = Result(OPENING, 3, Score(-4), "d3", (Entry("d3", Score(-4)),))
    assert pickle.loads(pickle.dumps(result)) == result


def test_scores() -> None:
    low, exact, high = Score(-4, "<"), Score(-4), Score(-4, ">")
    assert low < exact < high < Score(5) and max([Score(-9), Score(12), Score(3)]) == Score(12) and sorted([high, exact, low]) == [low, exact, high]
    assert low.flip() == Score(4, ">", False, "O") and -Score(6000) == Score(-6000, side="O") and exact.flip().flip() == exact
    won = Score(24000, side="O")
    assert (won.mover, won.white, won.black, won.unit, won.ends, won.discs) == (12, 12, -12, "discs", True, 12.0)
    assert (exact.mover, exact.black, exact.white, exact.unit, exact.discs) == (-4, -4, 4, "points", -0.04)
    assert Score(-6000).mover == -3 and Score(0, ends=True).is_draw and not Score(0).is_draw and not Score(0, "<", True).is_draw
    assert Score.of(0, Position("X" * 60 + "O" * 2 + "--"), 2).ends and not Score.of(0, Position("X" * 60 + "O" * 2 + "--"), 1).ends
    for wrong in ((128001,), (0, "~"), (0, "=", False, "B")):
        with pytest.raises(ValueError):
            Score(*wrong)  # type: ignore[arg-type]


def test_addresses(monkeypatch: pytest.MonkeyPatch, tmp_path) -> None:  # type: ignore[no-untyped-def]
    token = tmp_path / "token"
    token.write_text("secret\n")
    assert url_of("othello://there:9") == {"host": "there", "port": 9} and url_of("there") == {"host": "there", "port": 4711} == url_of("othello://there/")
    assert url_of(f"othello://[::1]:7?sessions=3&silence=2.5&token={token}") == {"host": "::1", "port": 7, "sessions": 3, "silence": 2.5, "token": "secret"}
    assert url_of("there:8?tls=1")["tls"] is True and url_of("othellos://there")["tls"] is True and url_of("othello://there?tls=0")["tls"] is False
    for wrong in ("http://there", "othello://there:port", "othello://there?colour=red", "othello://there/path", "othello://a@b"):
        with pytest.raises(ValueError):
            url_of(wrong)
    with told(sound()) as server:
        with coluwen.connect(f"othello://127.0.0.1:{server.port}?sessions=2", silence=3) as client:
            assert client.address == f"127.0.0.1:{server.port}" and client.parallel == 2 and client.analyse(OPENING, 1).best == "d3"
        monkeypatch.setenv("COLUWEN_URL", f"othello://127.0.0.1:{server.port}")
        for one in (Client(), coluwen.connect()):
            with one as client:
                assert client.ping() >= 0
        assert Client("there").address == "there:4711"
    monkeypatch.delenv("COLUWEN_URL")
    assert Client().address == "127.0.0.1:4711"
    for wrong_one in ({"sessions": 0}, {"ahead": 1.5}, {"silence": -1}, {"token": "two words"}, {"nodes": True}):
        with pytest.raises(ValueError):
            Client(**wrong_one)  # type: ignore[arg-type]


def test_what_happens_is_logged(caplog: pytest.LogCaptureFixture) -> None:
    ended = [False]

    def answers():  # type: ignore[no-untyped-def]
        answer_of, is_old = sound()(), not ended[0]
        return lambda line: None if is_old and ended[0] else answer_of(line)

    with told(answers) as server, Client("127.0.0.1", server.port, sessions=1) as client, caplog.at_level(logging.WARNING, "coluwen"):
        client.ping()
        ended[0] = True
        assert client.analyse(OPENING, 2).best == "d3"
    assert [one.name for one in caplog.records] == ["coluwen"] and "asked again" in caplog.text and str(server.port) in caplog.text


def test_info_is_found_out_once() -> None:
    """By whoever asks first, and for all who ask meanwhile; what is cancelled isn't the others'."""
    async def trial(port: int) -> None:
        async with AsyncClient("127.0.0.1", port) as client:
            first = asyncio.ensure_future(client.info())
            await asyncio.sleep(0)
            first.cancel()
            found = await asyncio.gather(*(client.info() for _ in range(5)), client.info())
            assert len(set(found)) == 1 and found[0].grain == 0 and (found[0].sure, found[0].mostly, found[0].version) == (4, 5, "")

    with told(sound()) as server:
        asyncio.run(asyncio.wait_for(trial(server.port), 20))
        assert server.heard.count("INFO") == 1
    right = sound()

    def answers():  # type: ignore[no-untyped-def]
        answer_of = right()
        return lambda line: "INFO 6 1024 65536 256 8192 1.2.3\n" if line == "INFO" else answer_of(line)

    with told(answers) as server, Client("127.0.0.1", server.port) as client:
        info = client.info()
        assert (info.grain, info.sure, info.mostly, info.version) == (6, 10, 11, "1.2.3") and client.info() is info and server.heard.count("INFO") == 1


@pytest.mark.parametrize("again", [False, True])
def test_a_depth_that_is_too_great_where_it_can_t_be_found_out_what_can(again: bool) -> None:
    """Who asked hears why; who asks later has it found out again; where a client is closed meanwhile both who wait hear that."""
    right, is_there, goes_on = sound(state=lambda depth, nodes: "SPENT" if depth == 9 else "DONE"), [again], threading.Event()

    def answers():  # type: ignore[no-untyped-def]
        answer_of = right()
        return lambda line: answer_of(line) if line != "INFO" or is_there[0] and goes_on.wait(20) else None

    with told(answers) as server, Client("127.0.0.1", server.port, outage=0) as client:
        questions = [client.submit(OPENING, 9), client.submit(LINE[0], 9)]
        if again:
            while "INFO" not in server.heard:
                time.sleep(0.01)
            client.close()
            goes_on.set()
        for question in questions:
            with pytest.raises(Closed if again else Unreachable):
                question.result(20)
        if not again:
            is_there[0] = True
            goes_on.set()
            with pytest.raises(TooDeep) as fault:
                client.analyse(OPENING, 9)
            assert (fault.value.depth, fault.value.greatest) == (9, 4)


def test_threads_share_a_client() -> None:
    with told(sound()) as server, Client("127.0.0.1", server.port, sessions=3) as client:
        with concurrent.futures.ThreadPoolExecutor(16) as pool:
            found = list(pool.map(lambda at: client.analyse(LINE[at % 12], at % 5), range(200)))
        assert [one.score.value for one in found] == [value_of(LINE[at % 12].text) for at in range(200)]
        assert sum(line.startswith("HELLO") for line in server.heard) <= 3


def test_asyncio_cancels() -> None:
    async def trial(port: int) -> None:
        async with AsyncClient("127.0.0.1", port, sessions=1) as client:
            for _ in range(3):
                with pytest.raises(TimeoutError):
                    async with asyncio.timeout(0.1):
                        await client.analyse(OPENING, 4)
            with pytest.raises(Late):
                await client.analyse(OPENING, 4, timeout=0.1)
            with pytest.raises(TimeoutError):
                async with asyncio.timeout(0.1):
                    await client.analyse_all(OPENING, 4)

    with told(sound(state=lambda depth, nodes: "PENDING")) as server:
        asyncio.run(asyncio.wait_for(trial(server.port), 20))
        assert sum(line.startswith("CANCEL") for line in server.heard) >= 4 and sum(line.startswith("HELLO") for line in server.heard) == 1


def test_session() -> None:
    with told(sound()) as server, Session("127.0.0.1", server.port, 8, 800) as session:
        job = session.ask(3, OPENING)
        value = value_of(OPENING.text)
        assert session.get(job) == session.wait(job) == session.poll(job) == coluwen.Done(value, "d3")
        assert session.table(job) == (Entry("d3", Score(value)), Entry("c4", Score(-1, "<")))
        assert session.quota() == coluwen.Quota(1, 740, 1) and session.jobs == 1
        session.reserve(9, 900)
        assert session.reserved == coluwen.Reservation(9, 900)
        with pytest.raises(ValueError):
            session.ask_line("two\nlines")
    with pytest.raises(Broken, match="closed"):
        session.quota()
    with told(sound(state=lambda depth, nodes: "PENDING")) as server, Session("127.0.0.1", server.port, 8, 8) as session:
        with pytest.raises(Late):
            session.poll(session.ask(3, OPENING), 0.05)
        assert session.get(1) == coluwen.Cancelled()
        threading.Timer(0.1, session.drop).start()
        with pytest.raises(Broken):
            session.poll(session.ask(3, OPENING))
    with told(lambda: lambda line: time.sleep(1)) as server, pytest.raises(Silent):  # type: ignore[arg-type, return-value]
        Session("127.0.0.1", server.port, 8, 8, silence=0.1)


@pytest.mark.parametrize("cut", ["DONE 1 5 d3", "DONE 1 5 d", "DONE 1 5 z9\n", "DONE 1 x d3\n", "DONE 2 5 d3\n", "JOB 1\n", "y" * 5000, ""])
def test_what_is_no_answer(cut: str) -> None:
    right = sound()

    def answers():  # type: ignore[no-untyped-def]
        answer_of = right()
        return lambda line: cut if line.startswith("GET") else answer_of(line)

    with told(answers) as server:
        with Client("127.0.0.1", server.port) as client, pytest.raises(Unreachable, match=str(server.port)):
            client.analyse(OPENING, 6)
        with Session("127.0.0.1", server.port, 8, 8) as session:
            job = session.ask(1, OPENING)
            for _ in range(2):
                with pytest.raises(Broken):
                    session.get(job)


def test_a_host_that_isn_t_there() -> None:
    with Client("no-such-host.invalid", 1) as client, pytest.raises(Unreachable):
        client.analyse(OPENING, 1)


def test_what_is_public_is_documented() -> None:
    for name in coluwen.__all__:
        one = getattr(coluwen, name)
        assert isinstance(one, (str, list, dict)) or one.__doc__ and len(one.__doc__) > 20, name
        for part, value in vars(one).items() if isinstance(one, type) else ():
            if not part.startswith("_") and callable(value) and part not in ("conjugate",):
                assert any(getattr(getattr(base, part, None), "__doc__", None) for base in one.__mro__), f"{name}.{part}"
    assert not [name for name in vars(Client("127.0.0.1", 1)) if not name.startswith("_") and name not in ("parallel",)]


def test_a_client_says_its_address_and_no_token() -> None:
    for client in (Client("host.example", 5, token="secret"), AsyncClient("host.example", 5, token="secret")):
        assert repr(client) == f"{type(client).__name__}('host.example:5')"


def test_a_pair_of_many_has_its_types(tmp_path: pathlib.Path) -> None:
    """As mypy --strict sees a caller's program: what is asked comes back by its own type, and the answer is a result or a fault."""
    mypy = importlib.util.find_spec("mypy")
    outcome = Outcome("x", Closed("it was"), 7)
    question, answer = outcome
    assert (question, answer, outcome.question, outcome.number) == ("x", outcome.answer, "x", 7)
    assert (copy := pickle.loads(pickle.dumps(outcome))).number == 7 and copy.question == "x"
    if not mypy:
        pytest.skip("mypy isn't here")
    (tmp_path / "own.py").write_text("""
from typing import assert_type
from coluwen import AsyncClient, ColuwenError, Engine, Move, Outcome, Position, Result
places: list[Position] = [Position.opening().play(19), Position.opening().play("d3"), Position.opening().play(Move("d3"))]
with Engine() as engine:
    for place, answer in engine.analyse_many(places, 4):
        assert_type(place, Position)
        assert_type(answer, Result | ColuwenError)
    for one in engine.analyse_many([("x", 4)]):
        assert_type(one, Outcome[tuple[str, int]])
        assert_type(one.question, tuple[str, int])
        assert_type(one.number, int)
    for found in engine.deepen(places[0], timeout=1):
        assert_type(found, Result)
async def other(client: AsyncClient) -> None:
    async for word, answer in client.analyse_many(["x"], 4):
        assert_type(word, str)
        assert_type(answer, Result | ColuwenError)
""")
    words = [sys.executable, "-m", "mypy", "--strict", "--cache-dir", str(tmp_path / "cache"), "own.py"]
    run = subprocess.run(words, cwd=tmp_path, env={**os.environ, "MYPYPATH": str(pathlib.Path(coluwen.__file__).parents[1])}, capture_output=True, text=True, check=False)
    assert run.returncode == 0, run.stdout
