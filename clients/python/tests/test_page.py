"""The page's parts without a browser: turns, what is asked once, what is cancelled, what is read, whom it answers."""
import asyncio
import dataclasses
import importlib
import json
import re
import types

import pytest
from coluwen import Position, Result
from coluwen.errors import Refused, TooDeep, Unreachable
from coluwen.page import library as page_library
from coluwen.page import rooms as page_rooms
from coluwen.page import web as page_web
from coluwen.page.files import Site, names_of
from coluwen.page.library import Library, Turns, steps_of
from coluwen.page.rooms import Rooms
from coluwen.page.service import Service, pupil_of, score_of, state_of
from coluwen.page.web import Answer, Fault, Request, head_of, noted, plain, request_of
from coluwen.score import Entry, Score

OPENING = Position.opening()
page_command = importlib.import_module("coluwen.page.command")  # the package has a call of that name


class Engine:
    """A source of values that are the depth, each when it is let go; it notes what is asked and what is given up."""

    def __init__(self, free=True):
        self.asked, self.given_up, self.faults, self.go = [], [], [], asyncio.Event()
        if free:
            self.go.set()

    async def analyse(self, position, depth):
        self.asked.append((position.text, depth))
        try:
            await self.go.wait()
        except asyncio.CancelledError:
            self.given_up.append((position.text, depth))
            raise
        if self.faults:
            raise self.faults.pop(0)
        moves = position.legal_moves()
        table = tuple(Entry(move, Score(depth - at, "=" if at == 0 else "<")) for at, move in enumerate(moves))
        return Result(position, depth, Score(depth), moves[0] if moves else "-", table)


async def lines_of(service, position, depth, exact=()):
    return [json.loads(line) async for line in service.analyse(position, depth, list(exact))]


def test_steps():
    assert steps_of(OPENING, 8) == [4, 6, 8]
    assert steps_of(OPENING, 5) == [4, 5]
    assert steps_of(OPENING, 3) == [3]
    near = Position("X" * 40 + "O" * 19 + "-" * 5, "X")
    assert steps_of(near, 12) == [4, 5]
    assert steps_of(Position("X" * 64, "O"), 4) == [0]
    assert [steps_of(Position("X" * 63 + "-", "O"), 4), steps_of(OPENING, 14), steps_of(OPENING, 4)] == [[1], [4, 6, 8, 10, 12], [4]]


async def test_each_is_asked_once_for_all_who_wait():
    engine = Engine(free=False)
    library = Library(engine, 4)
    told = [[] for _ in range(9)]
    waiting = [asyncio.ensure_future(library.find(OPENING, 4, one.append)) for one in told]
    await asyncio.sleep(0.01)
    engine.go.set()
    found = await asyncio.gather(*waiting)
    assert engine.asked == [(OPENING.text, 4)] and len({id(one) for one in found}) == 1
    assert all(one == [{"kind": "searching"}] for one in told)
    await library.find(OPENING, 4, told[0].append)
    assert len(engine.asked) == 1


async def test_a_question_is_given_up_with_the_last_who_waits():
    engine = Engine(free=False)
    library = Library(engine, 1)
    waiting = [asyncio.ensure_future(library.find(OPENING, 4, lambda _: None)) for _ in range(2)]
    await asyncio.sleep(0.01)
    waiting[0].cancel()
    await asyncio.sleep(0.01)
    assert not engine.given_up
    waiting[1].cancel()
    await asyncio.sleep(0.01)
    assert engine.given_up == [(OPENING.text, 4)] and library.turns.taken == 0 and not library.flights
    engine.go.set()
    assert (await library.find(OPENING, 4, lambda _: None)).result.depth == 4


async def test_turns_are_in_order_and_none_is_lost():
    turns, order = Turns(2), []

    async def one(number):
        async with turns.turn(told[number].append):
            order.append(number)
            await asyncio.sleep(0.001)

    told = [[] for _ in range(20)]
    tasks = [asyncio.ensure_future(one(number)) for number in range(20)]
    await asyncio.sleep(0)
    tasks[5].cancel()  # one who waits
    await asyncio.gather(*tasks, return_exceptions=True)
    assert order == [number for number in range(20) if number != 5]
    assert turns.taken == 0 and not turns.waiting
    assert [event["ahead"] for event in told[9]] == [8, *range(7, 0, -1)]


async def test_a_lost_server_is_asked_again(monkeypatch):
    monkeypatch.setattr(page_library, "FIRST_PAUSE", 0.001)
    engine, told = Engine(), []
    engine.faults = [Unreachable("gone"), ConnectionResetError(), TimeoutError()]
    found = await Library(engine, 1).find(OPENING, 4, told.append)
    assert found.result.depth == 4 and [event["kind"] for event in told] == ["searching", "lost"] * 3 + ["searching"]


async def test_too_deep_is_said_and_not_asked_again():
    engine = Engine()
    library = Library(engine, 1)
    service = Service(library, [4, 6, 8], True)
    engine.faults = []
    await lines_of(service, OPENING, 6)
    engine.faults = [TooDeep(8, 7)]
    told = await lines_of(service, OPENING, 8)
    assert [line["kind"] for line in told] == ["step", "searching", "deepest", "done"] and told[2]["depth"] == 6
    count = len(engine.asked)
    assert [line["kind"] for line in await lines_of(service, OPENING, 8)] == ["step", "deepest", "done"] and len(engine.asked) == count
    with pytest.raises(TooDeep) as fault:
        await library.find(OPENING, 8, told.append)
    assert (fault.value.depth, fault.value.greatest, len(engine.asked)) == (8, 7, count)


async def test_without_steps_the_greatest_depth_alone_is_asked():
    engine = Engine()
    service = Service(Library(engine, 1), [4, 6, 8], True)
    told = [json.loads(line) async for line in service.analyse(OPENING, 8, [], False)]
    assert [line["depth"] for line in told if line["kind"] == "step"] == [8] and len(engine.asked) == 1
    engine.faults = [TooDeep(8, 7)]
    told = [json.loads(line) async for line in service.analyse(OPENING.play("d3"), 8, [], False)]
    assert [(line["kind"], line.get("depth")) for line in told if line["kind"] != "searching"] == [("step", 6), ("deepest", 6), ("done", None)]


async def test_exact_values_are_those_of_the_positions_behind():
    engine = Engine()
    told = await lines_of(Service(Library(engine, 1), [4], True), OPENING, 4, OPENING.legal_moves())
    exact = {line["move"]: line["score"] for line in told if line["kind"] == "exact"}
    assert exact == {move: {"sign": "=", "points": -3} for move in OPENING.legal_moves()[1:]}  # the best one's is known


def test_scores():
    assert score_of(Score(-3, "<")) == {"sign": "<", "points": -3}
    assert score_of(Score(6000), 5) == {"sign": "=", "discs": 8, "empty": 5}
    assert score_of(Score(-6000), 5) == {"sign": "=", "discs": -8, "empty": 5}
    assert score_of(Score(0, "=", True), 2) == {"sign": "=", "discs": 0, "empty": 2}
    assert score_of(Score(-4000, ">")) == {"sign": ">", "discs": -2}


@pytest.mark.parametrize("host, known", [("localhost:8047", True), ("localhost", True), ("board.example", True), ("board.example:443", True), ("10.0.0.1:8047", True), ("10.0.0.1", True),
                                         ("[::1]:8047", True), ("10.0.0.1:80", False), ("evil.example:8047", False), ("", False), (":8047", False), ("board.example:x", False)])  # fmt: skip
def test_names(host, known):
    assert names_of(host, 8047, {"localhost", "board.example"}) == known


async def test_classes():
    rooms = Rooms()
    opened = rooms.open("here", "#a")
    pupil = rooms.follow(opened["room"])
    assert json.loads(await anext(pupil)) == {"state": "#a"}
    with pytest.raises(Fault, match="another teacher"):
        rooms.show(opened["room"], "key", "#b")
    rooms.show(opened["room"], opened["key"], "#b")
    rooms.show(opened["room"], opened["key"], "#c")
    assert json.loads(await anext(pupil)) == {"state": "#c"} == json.loads(await anext(rooms.follow(opened["room"])))  # the last one counts, also for who comes later
    rooms.show(opened["room"], opened["key"], None)
    assert json.loads(await anext(pupil)) == {"state": None}
    with pytest.raises(StopAsyncIteration):
        await anext(pupil)
    with pytest.raises(Fault, match="no such class"):
        rooms.find(opened["room"])


def told_of(name, follows=True, alone=False, state=None):
    return {"name": name, "follows": follows, "alone": alone, "state": state}


async def test_a_teacher_hears_who_follows_and_whose_hands_are_raised():
    rooms = Rooms()
    opened = rooms.open("here", "#a")
    with pytest.raises(Fault, match="another teacher"):
        rooms.pupils(opened["room"], "key")
    heads = rooms.pupils(opened["room"], opened["key"])
    assert json.loads(await anext(heads)) == {"followers": 0, "pupils": []}
    nameless = rooms.follow(opened["room"])
    await anext(nameless)
    assert json.loads(await anext(heads)) == {"followers": 1, "pupils": []}
    rooms.tell_of(opened["room"], "one", "Anna", False, None)
    pupil = rooms.follow(opened["room"], "one")
    await anext(pupil)
    assert json.loads(await anext(heads)) == {"followers": 2, "pupils": [told_of("Anna")]}
    rooms.tell_of(opened["room"], "one", "Anna", True, "#b")
    assert json.loads(await anext(heads))["pupils"] == [told_of("Anna", alone=True, state="#b")]
    rooms.tell_of(opened["room"], "one", "Ann", False, None)
    assert json.loads(await anext(heads))["pupils"] == [told_of("Ann")]
    waiting = asyncio.ensure_future(anext(heads))
    await asyncio.sleep(0.01)
    await pupil.aclose()
    assert json.loads(await waiting) == {"followers": 1, "pupils": [told_of("Ann", follows=False)]}  # who has followed stays known
    for number in range(600):
        rooms.tell_of(opened["room"], str(number), "", False, "#")
    pupils = json.loads(await anext(heads))["pupils"]
    assert len(pupils) == 500 and told_of("Ann", follows=False) not in pupils
    rooms.show(opened["room"], opened["key"], None)
    with pytest.raises(StopAsyncIteration):
        await anext(heads)


@pytest.mark.parametrize("target, path, query", [("//[", "//[", {}), ("/a%00b?name=%00", "/a\0b", {"name": "\0"}), ("/?a=1#b", "/", {"a": "1"}), ("/http://[::1", "/http://[::1", {})])
def test_any_target_is_read(target, path, query):
    found = request_of(f"GET {target} HTTP/1.1\r\nHost: here\r\n\r\n".encode(), "")
    assert (found.path, found.query, found.target) == (path, query, target)


def site():
    return Site(Service(Library(Engine(), 1), [4], True), lambda host, port: True)


async def test_an_older_address_leads_on_in_one_line():
    answer = await site().answer(Request("GET", "/review?moves=f5\n\rSet-Cookie: a", "/review", {}, {"host": "here"}, ""))
    assert answer.status == 302 and answer.headers["Location"] == "/?moves=f5%0A%0DSet-Cookie:%20a"
    assert (await site().answer(Request("GET", "/review?moves=f5d6&depth=4", "/review", {}, {"host": "here"}, ""))).headers["Location"] == "/?moves=f5d6&depth=4"
    with pytest.raises(ValueError):
        head_of(Answer(headers={"Location": "/\nA: b"}), close=True)


async def test_the_page_and_its_engine_are_served():
    for path, kind in (("/", "text/html; charset=utf-8"), ("/js/main.js", "text/javascript; charset=utf-8"), ("/engine/page64.wasm", "application/wasm")):
        answer = await site().answer(Request("GET", path, path, {}, {"host": "here"}, ""))
        assert answer.status == 200 and answer.kind == kind and answer.body
    told = await site().answer(Request("GET", "/about.json", "/about.json", {}, {"host": "here"}, ""))
    assert json.loads(told.body) == {"service": True, "depths": [4], "places": 1, "settled": True, "addresses": []}


async def test_without_a_server_there_are_classes():
    alone = Site(Service(None, [], True), lambda host, port: True)
    told = await alone.answer(Request("GET", "/about.json", "/about.json", {}, {"host": "here"}, ""))
    assert json.loads(told.body) == {"service": True, "depths": [], "places": 0, "settled": True, "addresses": []}
    question, kind = json.dumps({"position": OPENING.text, "depth": 4}).encode(), {"host": "here", "content-type": "application/json"}
    with pytest.raises(Fault, match="the page has its own"):
        await alone.answer(Request("POST", "/analyse", "/analyse", {}, kind, "", question))
    assert (await alone.answer(Request("POST", "/class", "/class", {}, kind, "", b'{"state": "#"}'))).status == 200


def test_the_log_is_one_line_in_the_common_form(caplog):
    page_web.LOG.propagate = True
    page_web.LOG.setLevel("INFO")
    noted("10.0.0.1", 'GET /"\n HTTP/1.1', Answer(404, body=b"12345"))
    (line,) = caplog.messages
    assert re.fullmatch(r'10\.0\.0\.1 - - \[\d\d/\w{3}/\d{4}:\d\d:\d\d:\d\d \+0000\] "GET /\\x22\\x0a HTTP/1\.1" 404 5', line)
    assert plain("a\0\\b") == "a\\x00\\x5cb"


async def test_what_goes_wrong_here_is_a_500():
    async def broken(request):
        raise KeyError("no such thing")

    server = await (web := page_web.Web(broken, lambda method, path: 0)).start("127.0.0.1", 0)
    reader, writer = await asyncio.open_connection(*server.sockets[0].getsockname())
    writer.write(b"GET /\0%00 HTTP/1.1\r\nHost: here\r\nConnection: close\r\n\r\n")
    assert (await reader.read()).startswith(b"HTTP/1.1 500 ")
    writer.close()
    server.close()
    await web.end()


# What a question, a class and a hand are.

NEAR = Position("X" * 40 + "O" * 12 + "-" * 12, "X")  # 12 empty squares


@pytest.mark.parametrize("asked, status, code", [
    ([], 400, "position"), ({}, 400, "position"), ({"position": 5}, 400, "position"), ({"position": OPENING.text + " " * 200}, 400, "position"), ({"position": "x"}, 400, "position"),
    ({"position": OPENING.text}, 400, "depth"), ({"position": OPENING.text, "depth": True}, 400, "depth"), ({"position": OPENING.text, "depth": "4"}, 400, "depth"),
    ({"position": OPENING.text, "depth": 0}, 400, "depth"), ({"position": OPENING.text, "depth": 9}, 400, "depth"), ({"position": OPENING.text, "depth": 13}, 400, "depth"),
    ({"position": NEAR.text, "depth": 13}, 400, "depth"), ({"position": OPENING.text, "depth": 4, "exact": "d3"}, 400, "exact"), ({"position": OPENING.text, "depth": 4, "exact": ["a1"]}, 400, "exact"),
    ({"position": OPENING.text, "depth": 4, "exact": [3]}, 400, "exact"), ({"position": OPENING.text, "depth": 4, "steps": 1}, 400, "steps"),
])  # fmt: skip
def test_what_is_no_question(asked, status, code):
    with pytest.raises(Fault) as fault:
        Service(Library(Engine(), 1), [4, 6, 8], True).question_of(asked)
    assert (fault.value.status, fault.value.code) == (status, code)


def test_what_is_a_question():
    service = Service(Library(Engine(), 1), [4, 6, 8], True)
    moves = OPENING.legal_moves()
    assert service.question_of({"position": OPENING.text, "depth": 8}) == (OPENING, 8, [], True)
    assert service.question_of({"position": OPENING.text + " " * 134, "depth": 1, "exact": "all", "steps": False}) == (OPENING, 1, moves, False)
    assert service.question_of({"position": OPENING.text, "depth": 1, "exact": moves[:2]})[2] == moves[:2]
    assert [service.question_of({"position": NEAR.text, "depth": depth})[1] for depth in (9, 12)] == [9, 12]  # to the end
    learning = Service(Library(Engine(), 1), [4])
    assert learning.question_of({"position": OPENING.text, "depth": 4})[1] == 4
    for depth, status in ((5, 503), (12, 503), (13, 400)):
        with pytest.raises(Fault) as fault:
            learning.question_of({"position": OPENING.text, "depth": depth})
        assert fault.value.status == status


def request(method, path, asked=None, **headers):
    return Request(method, path, path, {}, {"content-type": "application/json", **headers}, "10.0.0.7", json.dumps(asked).encode())


async def test_the_services_paths():
    service = Service(Library(Engine(), 3), [4], True)
    assert service.most("POST", "/class") == 65536 and service.most("GET", "/class") == 0
    assert await service.answer(request("GET", "/other")) is None
    for method, path in (("POST", "/about.json"), ("GET", "/analyse"), ("GET", "/class"), ("GET", "/class/a/pupils"), ("GET", "/class/a/pupil"), ("GET", "/class/a/follow"), ("PUT", "/class/a")):
        with pytest.raises(Fault) as fault:
            await service.answer(request(method, path))
        assert fault.value.status == 405, path
    for path in ("/class/A", "/class/" + "a" * 33, "/class/a/other", "/class/b/"):
        with pytest.raises(Fault) as fault:
            await service.answer(request("GET", path))
        assert (fault.value.status, fault.value.code) == (404, "class")
    told = await service.answer(request("POST", "/analyse", {"position": OPENING.text, "depth": 4, "steps": False}))
    assert told.kind == "application/x-ndjson" and [json.loads(line)["kind"] async for line in told.lines] == ["searching", "step", "done"]
    opened = json.loads((await service.answer(request("POST", "/class", {"state": "#a"}))).body)
    room, key = opened["room"], opened["key"]
    assert re.fullmatch("[a-z2-9]{10}", room) and service.rooms.rooms[room].address == "10.0.0.7" and len(key) == 32
    follows = await service.answer(request("GET", f"/class/{room}"))
    assert follows.kind == "application/x-ndjson" and json.loads(await anext(follows.lines)) == {"state": "#a"}
    pupils = await service.answer(request("POST", f"/class/{room}/pupils", {"key": key}))
    assert pupils.kind == "application/x-ndjson" and json.loads(await anext(pupils.lines)) == {"followers": 1, "pupils": []}
    for asked in ({}, [key], {"key": key[:-1]}, {"key": 5}):
        with pytest.raises(Fault) as fault:
            await service.answer(request("POST", f"/class/{room}/pupils", asked))
        assert (fault.value.status, fault.value.code) == (403, "key")
    assert (await service.answer(request("POST", f"/class/{room}/pupil", {"pupil": "p", "name": "Anna", "state": "#b"}))).body == b"{}"
    assert json.loads(await anext(pupils.lines))["pupils"] == [told_of("Anna", follows=False, state="#b")]
    named = await service.answer(request("POST", f"/class/{room}/follow", {"pupil": "p", "name": "Anna", "alone": False, "state": None}))
    assert named.kind == "application/x-ndjson" and json.loads(await anext(named.lines)) == {"state": "#a"}
    assert json.loads(await anext(pupils.lines)) == {"followers": 2, "pupils": [told_of("Anna")]}
    assert (await service.answer(request("POST", f"/class/{room}", {"key": key, "state": "#c"}))).body == b"{}"
    assert json.loads(await anext(follows.lines)) == {"state": "#c"}
    await service.answer(request("POST", f"/class/{room}", {"key": key, "state": None}))
    assert json.loads(await anext(follows.lines)) == {"state": None}
    with pytest.raises(Fault, match="no such class"):
        await service.answer(request("GET", f"/class/{room}"))


@pytest.mark.parametrize("asked, ends, wanted", [
    ({"state": "#a"}, False, "#a"), ({"state": ""}, False, ""), ({"state": "a" * 65536}, False, "a" * 65536), ({"state": None}, True, None), ({}, True, None), ({"state": None}, False, 400),
    ([], True, 400), ({"state": 5}, True, 400), ({"state": "a" * 65537}, True, 400),
])  # fmt: skip
def test_states(asked, ends, wanted):
    if wanted == 400:
        with pytest.raises(Fault) as fault:
            state_of(asked, ends)
        assert (fault.value.status, fault.value.code) == (400, "state")
    else:
        assert state_of(asked, ends) == wanted


@pytest.mark.parametrize("asked, is_one", [
    ({"pupil": "p", "name": "", "state": "#"}, True), ({"pupil": "p" * 40, "name": "n" * 40, "alone": True, "state": None}, True), ({"pupil": "", "name": "n", "state": "#"}, False),
    ({"pupil": "p" * 41, "name": "n", "state": "#"}, False), ({"pupil": "p", "name": "n" * 41, "state": "#"}, False), ({"pupil": "p", "state": "#"}, False), ({"name": "n", "state": "#"}, False), ([], False),
    ({"pupil": "p", "name": "n", "alone": 1, "state": "#"}, False),
])  # fmt: skip
def test_pupils(asked, is_one):
    if is_one:
        assert pupil_of(asked) == (asked["pupil"], asked["name"], asked.get("alone", False), asked["state"])
        return
    with pytest.raises(Fault) as fault:
        pupil_of(asked)
    assert (fault.value.status, fault.value.code) == (400, "pupil")


async def test_so_many_classes(monkeypatch):
    now = [1000.0]
    monkeypatch.setattr(page_rooms, "time", types.SimpleNamespace(monotonic=lambda: now[0]))
    rooms = Rooms()
    first = rooms.open("a", "#")
    now[0] += 1
    for _ in range(9):
        rooms.open("a", "#")
    for address in ("a", "b"):
        if address == "a":
            with pytest.raises(Fault) as fault:
                rooms.open("a", "#")
            assert (fault.value.status, fault.value.code) == (429, "classes")
        else:
            rooms.open("b", "#")
    for number in range(189):
        rooms.open(str(number), "#")
    assert len(rooms.rooms) == 200
    with pytest.raises(Fault, match="too many classes"):
        rooms.open("c", "#")
    follower = rooms.follow(first["room"])
    assert json.loads(await anext(follower)) == {"state": "#"}
    now[0] += 4 * 3600 - 1  # the first one, and it alone, shows nothing for four hours; at that moment it isn't over yet
    with pytest.raises(Fault):
        rooms.open("c", "#")
    now[0] += 0.5
    rooms.open("c", "#")
    assert json.loads(await anext(follower)) == {"state": None} and first["room"] not in rooms.rooms and len(rooms.rooms) == 200


async def test_what_shows_something_is_no_idle_class(monkeypatch):
    now = [1000.0]
    monkeypatch.setattr(page_rooms, "time", types.SimpleNamespace(monotonic=lambda: now[0]))
    rooms = Rooms()
    opened = rooms.open("a", "#")
    now[0] += 3 * 3600
    rooms.show(opened["room"], opened["key"], "#b")
    now[0] += 3 * 3600
    rooms.open("b", "#")
    assert rooms.find(opened["room"]).state == "#b"
    await asyncio.sleep(0.01)
    assert not rooms.telling


async def test_so_many_follow(monkeypatch):
    rooms = Rooms()
    opened = rooms.open("a", "#")
    followers = [rooms.follow(opened["room"]) for _ in range(400)]
    for one in followers:
        await anext(one)
    with pytest.raises(Fault) as fault:
        rooms.follow(opened["room"])
    assert (fault.value.status, fault.value.code) == (429, "followers")
    await followers[0].aclose()
    await anext(rooms.follow(opened["room"]))
    with pytest.raises(Fault) as fault:
        Rooms().find("none")
    assert (fault.value.status, fault.value.code) == (404, "class")


async def test_a_pupil_has_a_class():
    with pytest.raises(Fault):
        Rooms().tell_of("none", "one", "", False, "#")


def test_addresses_that_others_reach(monkeypatch):
    networks, names = ["10.1.2.3", "127.0.0.1", "192.168.4.5", "169.254.1.1"], ["127.0.1.1", "10.1.2.3"]
    monkeypatch.setattr(page_command, "of_networks", lambda: networks)
    monkeypatch.setattr(page_command, "of_name", lambda name: names)
    monkeypatch.setattr(page_command.socket.socket, "connect", lambda *_: (_ for _ in ()).throw(OSError()))
    assert page_command.own_addresses() == ["10.1.2.3", "192.168.4.5"]
    asked = page_command.options().parse_args(["--address", "0.0.0.0", "--name", "board.example"])
    assert page_command.addresses_of(asked, 80) == ["http://board.example:80/", "http://10.1.2.3:80/", "http://192.168.4.5:80/"]
    networks.clear()
    names.clear()
    assert page_command.own_addresses() == [page_command.socket.gethostname()]
    assert page_command.addresses_of(page_command.options().parse_args([]), 80) == []


# The library.


class Book:
    """Values that are given: by position and depth a value, whether it is the end's, and the best move; or a fault."""

    def __init__(self, rows):
        self.rows, self.asked = rows, []

    async def analyse(self, position, depth):
        self.asked.append((position.text, depth))
        row = self.rows.get((position.text, depth), TooDeep(depth, 0))
        if isinstance(row, Exception):
            raise row
        value, ends, best, *table = row
        return Result(position, depth, Score(value, "=", ends, position.side), best, tuple(Entry(move, Score(worth, sign, ends, position.side)) for move, sign, worth in table))


LAST = Position.parse("-" * 50 + "XO" + "-" * 12 + " X")  # c7 ends it, with 61 squares empty
AFTER = LAST.play("a7") if "a7" in LAST.legal_moves() else LAST.play(LAST.legal_moves()[0])


async def test_the_line_to_the_end_is_followed():
    move = LAST.legal_moves()[0]
    over = Book({(LAST.text, 4): (6000, True, move), (AFTER.text, 3): (-6000, True, None)})
    found = await Library(over, 1).find(LAST, 4, lambda _: None)
    assert (found.line, found.empty, AFTER.is_over) == ((move,), AFTER.empties, True) and over.asked == [(LAST.text, 4), (AFTER.text, 3)]
    for rows in ({(LAST.text, 4): (6000, True, move)}, {(LAST.text, 4): (6000, True, move), (AFTER.text, 3): (-4000, True, None)}):  # too deep, or another value
        found = await Library(Book(rows), 1).find(LAST, 4, lambda _: None)
        assert (found.line, found.empty) == ((move,), None)
    found = await Library(Book({(LAST.text, 4): (6000, True, None)}), 1).find(LAST, 4, lambda _: None)
    assert (found.line, found.empty) == ((), None)
    found = await Library(Book({(LAST.text, 4): (5, False, move)}), 1).find(LAST, 4, lambda _: None)
    assert (found.line, found.empty) == ((), None)


async def test_a_pass_takes_no_ply():
    place = Position.parse("XO" + "-" * 62 + " O")
    after = place.play("pass")
    last = after.play("c1")
    book = Book({(place.text, 4): (-6000, True, "pass"), (after.text, 4): (6000, True, "c1"), (last.text, 3): (-6000, True, None)})
    found = await Library(book, 1).find(place, 4, lambda _: None)
    assert (found.line, found.empty) == (("pass", "c1"), 61)
    told = await lines_of(Service(Library(book, 1), [4], True), place, 4, ["pass"])
    assert [line["kind"] for line in told if line["kind"] != "searching"] == ["step", "done"]


async def test_so_many_are_kept():
    engine = Engine()
    library = Library(engine, 1, most=2)
    for depth in (1, 2, 1, 3):  # 2 is the one that wasn't used for longest
        await library.find(OPENING, depth, lambda _: None)
    assert [depth for _, depth in library.kept] == [1, 3] and library.asked == 3 and library.known(OPENING, 2) is None
    await library.find(OPENING, 1, lambda _: None)
    assert len(engine.asked) == 3 and library.cancelled == 0 and not library.flights


async def test_a_full_server_is_asked_again_and_another_refusal_told(monkeypatch):
    monkeypatch.setattr(page_library, "FIRST_PAUSE", 0.001)
    monkeypatch.setattr(page_library, "LONGEST_PAUSE", 0.003)
    engine, told = Engine(), []
    engine.faults = [Refused(number) for number in (10, 11, 14, 19)]
    await Library(engine, 1).find(OPENING, 4, told.append)
    assert [(event["kind"], event.get("again")) for event in told if event["kind"] != "searching"] == [("full", 0.001), ("full", 0.002), ("full", 0.003), ("full", 0.003)]
    engine.faults = [Refused(30)]
    library = Library(engine, 1)
    with pytest.raises(Refused):
        await library.find(OPENING, 4, told.append)
    assert not library.flights and library.turns.taken == 0
    engine.faults = [Refused(30)]
    lines = await lines_of(Service(Library(engine, 1), [4], True), OPENING, 4)
    assert [(line["kind"], line.get("code")) for line in lines] == [("searching", None), ("fault", "server")]


async def test_who_comes_later_hears_what_was_told_last():
    engine = Engine(free=False)
    library, heard = Library(engine, 1), [[], []]
    first = asyncio.ensure_future(library.find(OPENING, 4, heard[0].append))
    await asyncio.sleep(0.01)
    second = asyncio.ensure_future(library.find(OPENING, 4, heard[1].append))
    third = asyncio.ensure_future(library.find(OPENING, 5, heard[1].append))
    await asyncio.sleep(0.01)
    assert heard[1] == [{"kind": "searching"}, {"kind": "waiting", "ahead": 1}]
    first.cancel()
    await asyncio.sleep(0.01)
    assert library.cancelled == 0
    engine.go.set()
    await asyncio.gather(second, third)
    assert library.cancelled == 0


async def test_a_place_that_comes_with_the_end_is_passed_on():
    turns = Turns(1)
    told = [[], []]

    async def hold(number):
        async with turns.turn(told[number].append):
            pass

    async with turns.turn(lambda _: None):
        waits = [asyncio.ensure_future(hold(number)) for number in range(2)]
        await asyncio.sleep(0)
    waits[0].cancel()  # it has the place already, and hasn't run
    await asyncio.gather(*waits, return_exceptions=True)
    assert waits[0].cancelled() and not waits[1].cancelled() and turns.taken == 0 and not turns.waiting


async def test_what_is_left_is_given_up():
    engine = Engine(free=False)
    service = Service(Library(engine, 1), [4], True)
    lines = service.analyse(OPENING, 4, [])
    assert json.loads(await anext(lines))["kind"] == "searching"
    begun = asyncio.get_running_loop().time()
    await lines.aclose()
    await asyncio.sleep(0.01)
    assert asyncio.get_running_loop().time() - begun < 10 and engine.given_up == [(OPENING.text, 4)] and not service.known.flights


async def test_a_lost_server_is_asked_again_after_a_pause(monkeypatch):
    monkeypatch.setattr(page_library, "FIRST_PAUSE", 0.1)
    engine, begun = Engine(), asyncio.get_running_loop().time()
    engine.faults = [Unreachable("lost"), Unreachable("lost")]
    await Library(engine, 1).find(OPENING, 4, lambda _: None)
    assert asyncio.get_running_loop().time() - begun >= 0.29  # 0.1 and 0.2 s


async def test_where_the_best_move_wins_another_may_be_worth_points():
    class Winning(Engine):
        async def analyse(self, position, depth):
            result = await super().analyse(position, depth)
            return dataclasses.replace(result, score=Score(8000 if position == OPENING else 3))
    told = await lines_of(Service(Library(Winning(), 1), [4]), OPENING, 4, ["c4"])
    assert [one["score"] for one in told if one["kind"] == "exact"] == [{"sign": "=", "points": -3}]


async def test_steps_that_are_known_are_not_told_again():
    engine = Engine()
    service = Service(Library(engine, 1), [4, 6, 8], True)
    first = await lines_of(service, OPENING, 8)
    assert [line["depth"] for line in first if line["kind"] == "step"] == [4, 6, 8] and all(line["depth"] for line in first if line["kind"] == "searching")
    assert [line["depth"] for line in await lines_of(service, OPENING, 8) if line["kind"] == "step"] == [8]
    step = first[1]
    assert step == {"kind": "step", "depth": 4, "ends": False, "score": {"sign": "=", "points": 4}, "best": "d3", "line": ["d3"],
                    "table": {"d3": {"sign": "=", "points": 4}, "c4": {"sign": "<", "points": 3}, "f5": {"sign": "<", "points": 2}, "e6": {"sign": "<", "points": 1}}}


async def test_exact_values_at_the_end_count_the_empty_squares():
    place = Position.parse("-" * 48 + "OX--" + "OX--" + "-" * 8 + " O")
    moves = place.legal_moves()
    behind = {move: place.play(move) for move in moves}
    rows = {(place.text, 4): (2000, True, moves[0], (moves[0], "=", 2000), *((move, "=", 2000) for move in moves[1:]))}
    rows |= {(after.text, 3): (-2000, True, None) for after in behind.values()}
    told = await lines_of(Service(Library(Book(rows), 1), [4], True), place, 4, moves)
    assert [line["move"] for line in told if line["kind"] == "exact"] == moves[1:]
    assert all(line["score"]["discs"] == 1 and line["depth"] == 4 for line in told if line["kind"] == "exact")
    rows[place.text, 4] = (5, False, moves[0], (moves[0], "=", 5), *((move, "=", 4) for move in moves[1:]))  # exact already, and no end: nothing is asked
    told = await lines_of(Service(Library(Book(rows), 1), [4], True), place, 4, moves)
    assert [line for line in told if line["kind"] == "exact"] == []
    rows[place.text, 4] = (5, False, moves[0], (moves[0], "=", 5), *((move, "<", 4) for move in moves[1:]))
    rows |= {(after.text, 3): (5, False, None) for after in list(behind.values())[1:2]}  # the others are too deep
    for after in list(behind.values())[2:]:
        del rows[after.text, 3]
    told = await lines_of(Service(Library(Book(rows), 1), [4], True), place, 4, moves)
    assert [(line["move"], line["score"]) for line in told if line["kind"] == "exact"] == [(moves[1], {"sign": "=", "points": -5})]


# Files.


async def test_files_and_their_tags():
    page = site()
    page.port = 8047
    answer = await page.answer(Request("GET", "/style.css", "/style.css", {}, {"host": "here"}, ""))
    tag = answer.headers["ETag"]
    assert answer.status == 200 and re.fullmatch('"[0-9a-f]{20}"', tag) and answer.headers["Cache-Control"] == "no-cache"
    again = await page.answer(Request("HEAD", "/style.css", "/style.css", {}, {"host": "here", "if-none-match": tag}, ""))
    assert (again.status, again.body, again.headers["ETag"]) == (304, b"", tag)
    for method, path, status in (("POST", "/style.css", 405), ("GET", "/none", 404)):
        with pytest.raises(Fault) as fault:
            await page.answer(Request(method, path, path, {}, {"host": "here"}, ""))
        assert fault.value.status == status
    old = await page.answer(Request("GET", "/review", "/review", {}, {"host": "here"}, ""))
    assert (old.status, old.headers["Location"]) == (302, "/")
    asked = []
    named = Site(Service(None, [], True), lambda host, port: asked.append((host, port)))
    named.port = 8047
    with pytest.raises(Fault) as fault:
        await named.answer(Request("GET", "/", "/", {}, {"host": "a"}, ""))
    assert fault.value.status == 403 and asked == [("a", 8047)]
