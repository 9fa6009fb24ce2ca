"""The description of the interface by HTTP, held to the server by requests through sockets: each answer is one that it names, and each status, code, kind and field
that it names is seen."""
from __future__ import annotations

import asyncio
import functools
import hashlib
import importlib
import json
import pathlib
import re
from typing import Any

import pytest
from coluwen import Position, Result
from coluwen.errors import Refused, TooDeep, Unreachable
from coluwen.page import customers as page_customers
from coluwen.page import library as page_library
from coluwen.page.customers import Customers
from coluwen.page.files import Site, names_of
from coluwen.page.library import Library
from coluwen.page.service import Service
from coluwen.page.web import Web
from coluwen.score import Entry, Score

page_command: Any = importlib.import_module("coluwen.page.command")  # (the package names its function so)
OPENING = Position.opening().text
API = json.loads((pathlib.Path(page_command.__file__).with_name("openapi.json")).read_text())
TYPES: dict[str, Any] = {"object": dict, "array": list, "string": str, "boolean": bool, "integer": int, "number": (int, float)}
END = "XXXXXXXXXXXXXXXXXXXXXXXXXXXXXXXXXXXXXXXXXXXXXXXXXXXXXXXXXXOOOOO- X"
SEEN: set[str] = set()  # the properties and words of the description that were met


def fits(schema: dict[str, Any], value: Any, path: str = "") -> list[str]:
    """What of a value isn't as a schema says."""
    if "$ref" in schema:
        name = schema["$ref"].rpartition("/")[2]
        return fits(API["components"]["schemas"][name], value, name)
    if "oneOf" in schema:
        tries = [fits(one, value, f"{path}/{(one.get('properties') or {}).get('kind', {}).get('enum', [''])[0]}") for one in schema["oneOf"]]
        return [] if sum(not one for one in tries) == 1 else [f"{path}: {value!r} is none of these"]
    wanted = TYPES[schema["type"]]
    if not isinstance(value, wanted) or isinstance(value, bool) and schema["type"] != "boolean":
        return [f"{path}: {value!r} is no {schema['type']}"]
    wrong = [f"{path}: {value!r}" for holds in (value in schema.get("enum", [value]), re.search(schema.get("pattern", ""), str(value)), schema.get("minimum", value) <= value <= schema.get("maximum", value) if wanted is int else True) if not holds]
    if "enum" in schema and not wrong:
        SEEN.add(f"{path}={value}")
    if isinstance(value, list) and "items" in schema:
        wrong += [fault for one in value for fault in fits(schema["items"], one, path)]
    if isinstance(value, dict):
        known, more = schema.get("properties", {}), schema.get("additionalProperties", True)
        wrong += [f"{path}: without {name}" for name in schema.get("required", []) if name not in value]
        for name, one in value.items():
            if name in known:
                found = fits(known[name], one, f"{path}.{name}")
                wrong += found
                if not found:
                    SEEN.add(f"{path}.{name}")
            elif isinstance(more, dict):
                wrong += fits(more, one, path)
            elif not more:
                wrong.append(f"{path}: {name} isn't known")
    return wrong


class Source:
    """Values that are the depth; of white's positions it is spent at depth 8, and first it is full, and then lost."""

    def __init__(self) -> None:
        self.faults: list[Exception] = []
        self.go = asyncio.Event()
        self.go.set()
        self.asked, self.pings, self.is_closed = 0, list[Exception](), False

    async def ping(self) -> float:
        """As a client does: who is refused or closed says so."""
        await asyncio.sleep(0.01)
        if self.pings:
            raise self.pings.pop(0)
        return 0.0

    async def close(self) -> None:
        self.is_closed = True

    async def analyse(self, position: str | Position, depth: int) -> Result:
        assert isinstance(position, Position) and not self.is_closed
        self.asked += 1
        await self.go.wait()
        if self.faults:
            raise self.faults.pop(0)
        if position.side == "O" and depth == 8:
            raise TooDeep(8, 7)
        moves = position.legal_moves()
        signs = ["=", "<", ">", "<"]
        table = tuple(Entry(move, Score.of(-depth if at else depth, position, depth, signs[at % 4])) for at, move in enumerate(moves))
        return Result(position, depth, Score.of(12 if position.empties > 12 else 12000 if position.side == "X" else -12000, position, depth), moves[0] if moves else None, table)


class Served:
    def __init__(self, tokens: frozenset[str] = frozenset(), customers: Customers | None = None):
        self.source = Source()
        self.service = Service(None if customers else Library(self.source, 1), [4, 6, 8], True, tokens, customers)

    async def __aenter__(self) -> Served:
        self.site = Site(self.service, functools.partial(names_of, names={"localhost"}))
        self.web = Web(self.site.answer, self.service.most)
        self.server = await self.web.start("127.0.0.1", 0)
        self.port = self.site.port = self.server.sockets[0].getsockname()[1]
        return self

    async def __aexit__(self, *_: object) -> None:
        self.server.close()
        await self.web.end()

    async def ask(self, body: bytes | str | dict[str, Any], line: str = "POST /analyse", **headers: str) -> tuple[int, list[dict[str, Any]]]:
        """The status, and the objects that came; each as the description says."""
        data = body if isinstance(body, bytes) else body.encode() if isinstance(body, str) else json.dumps(body).encode()
        named = {"Host": "localhost", "Accept": "application/x-ndjson", "Content-Type": "application/json", "Content-Length": str(len(data)), "Connection": "close", **{name.replace("_", "-"): text for name, text in headers.items()}}
        reader, writer = await asyncio.open_connection("127.0.0.1", self.port)
        writer.write((f"{line} HTTP/1.1\r\n" + "".join(f"{name}: {text}\r\n" for name, text in named.items() if text)).encode() + b"\r\n" + data)
        head, _, told = (await asyncio.wait_for(reader.read(), 30)).partition(b"\r\n\r\n")
        writer.close()
        status = int(head.split(b" ")[1])
        if b"chunked" in head:
            told = b"".join(part for part in re.split(rb"(?:^|\r\n)[0-9a-f]+\r\n", told))
        objects = [json.loads(one) for one in (told.split(b"\n") if b"x-ndjson" in head else [told]) if one.strip()]
        method, path = line.lower().split(" ")[:2]
        described = API["paths"][path][method if method in API["paths"][path] else "post"]["responses"]
        assert str(status) in described, (status, told)
        schema = described[str(status)]["content"]["application/x-ndjson" if b"x-ndjson" in head else "application/json"]["schema"]
        for one in objects:
            assert not fits(schema, one), (one, fits(schema, one))
        SEEN.add(f"{path} {status}")
        self.headers = {name.lower(): text for name, _, text in (line.partition(": ") for line in head.decode().split("\r\n")[1:])}
        if status != 200:
            assert objects[0]["code"] in described[str(status)]["description"]
        return status, objects


def kinds(objects: list[dict[str, Any]]) -> list[str]:
    return [one["kind"] for one in objects if one["kind"] != "searching"]


async def trial_of_values(monkeypatch: pytest.MonkeyPatch) -> None:
    monkeypatch.setattr(page_library, "FIRST_PAUSE", 0.001)
    async with Served() as one:
        status, told = await one.ask({"position": OPENING, "depth": 6, "exact": "all"})
        assert status == 200 and kinds(told) == ["step", "step", "exact", "exact", "exact", "done"] and [line["depth"] for line in told if line["kind"] == "step"] == [4, 6]
        assert kinds((await one.ask({"position": OPENING, "depth": 8, "steps": False, "exact": ["c4"]}))[1]) == ["step", "exact", "done"]
        one.source.faults = [Refused(14), Unreachable("gone")]
        white = Position.opening().play("d3").text
        assert kinds((await one.ask({"position": white, "depth": 8}))[1]) == ["full", "lost", "step", "step", "deepest", "done"]
        status, told = await one.ask({"position": END, "depth": 6})
        assert status == 200 and "discs" in told[-2]["score"]
        one.source.faults = [Refused(30)]
        status, told = await one.ask({"position": Position.opening().play("c4").text, "depth": 4})
        assert told[-1] == {"kind": "fault", "code": "server", "number": 30, "text": str(Refused(30))}
        one.source.go.clear()
        asked = [asyncio.ensure_future(one.ask({"position": Position.opening().play(move).text, "depth": 4, "exact": "all"})) for move in ("f5", "e6")]
        while not (one.service.known and one.service.known.turns.waiting):
            await asyncio.sleep(0.02)
        await asyncio.sleep(0.1)
        one.source.go.set()
        assert "waiting" in {line["kind"] for _, lines in await asyncio.gather(*asked) for line in lines}
        status, told = await one.ask({"game": "1. f5 d6 2. c3", "depth": 4, "exact": "all"})
        steps = {line["ply"]: line for line in told if line["kind"] == "step"}
        assert sorted(steps) == [0, 1, 2] and kinds(told)[-1] == "done" and sum(line["kind"] == "exact" for line in told) > 3
        one.source.faults = [Refused(30)]
        assert kinds((await one.ask({"game": "f5f6", "depth": 6}))[1])[-1] == "fault"
        assert (await one.ask("", "GET /about.json"))[0] == (await one.ask("", "GET /openapi.json"))[0] == 200
        assert (await one.ask("", "GET /openapi.json"))[1] == [API]


async def trial_of_whole_answers(monkeypatch: pytest.MonkeyPatch) -> None:
    """Where no lines are asked for there is one answer: of a position, of a game; a fault has its status."""
    monkeypatch.setattr(page_library, "FIRST_PAUSE", 0.001)
    white = Position.opening().play("d3").text
    async with Served() as one:
        status, (told,) = await one.ask({"position": OPENING, "depth": 6, "exact": "all"}, Accept="*/*")
        assert status == 200 and (told["position"], told["depth"], told["score"], told["best"]) == (OPENING, 6, {"sign": "=", "points": 12}, "d3")
        assert {move: score["sign"] for move, score in told["table"].items()} == dict.fromkeys(("d3", "c4", "f5", "e6"), "=")
        assert one.source.asked == 4 and one.headers["content-length"]  # its own depth alone, and the other moves'
        status, (told,) = await one.ask({"position": OPENING, "depth": 1}, Accept="")
        assert status == 200 and told["table"]["c4"]["sign"] == "<"
        assert (await one.ask({"position": white, "depth": 8}, Accept=""))[1][0]["depth"] == 6  # as deep as the server looks
        status, (told,) = await one.ask({"game": "1. f5 d6 2. c3", "depth": 4}, Accept="")
        assert [position["ply"] for position in told["positions"]] == [0, 1, 2] and told["positions"][1]["position"].endswith("O")
        status, (told,) = await one.ask({"position": END, "depth": 12}, Accept="")  # deeper than the end of the game is as far as that
        assert status == 200 and told["ends"] and "discs" in told["score"]
        for fault, status, word in ((Refused(27), 502, "ERR 27"), (Unreachable("gone"), 200, "")):
            one.source.faults = [fault]
            found, (told,) = await one.ask({"position": Position.opening().play("c4").text, "depth": 4}, Accept="")
            assert found == status and (status == 200 or (told["code"], word in told["text"]) == ("server", True))
        monkeypatch.setattr(page_library, "FIRST_PAUSE", 4.0)
        for fault in (Refused(14), Unreachable("gone")):
            one.source.faults = [fault]
            assert (await one.ask({"position": Position.opening().play("e6").text, "depth": 4}, Accept=""))[0] == 503 and one.headers["retry-after"]
        assert not one.service.known.flights and not one.service.asking  # type: ignore[union-attr]
        one.source.go.clear()
        reader, writer = await asyncio.open_connection("127.0.0.1", one.port)
        body = json.dumps({"position": OPENING, "depth": 8}).encode()
        writer.write(b"POST /analyse HTTP/1.1\r\nHost: localhost\r\nContent-Type: application/json\r\nContent-Length: %d\r\n\r\n" % len(body) + body)
        await asyncio.sleep(0.2)
        assert one.service.known and one.service.known.flights
        writer.close()  # who leaves gives the question up
        for _ in range(200):
            await asyncio.sleep(0.02)
            if not one.service.known.flights:
                break
        assert not one.service.known.flights and one.service.known.cancelled


async def trial_of_progress(monkeypatch: pytest.MonkeyPatch) -> None:
    """Of many who ask at once each is told how it stands once a second at most."""
    async with Served() as one:
        one.source.go.clear()
        games = [Position.opening().play(move).play(other).text for move in ("d3", "c4", "f5", "e6") for other in Position.opening().play(move).legal_moves()]
        asked = [asyncio.ensure_future(one.ask({"position": text, "depth": 4, "steps": False})) for text in games for _ in range(2)]
        await asyncio.sleep(0.5)
        one.source.go.set()
        lines = [line for _, told in await asyncio.gather(*asked) for line in told]
        assert len(games) == 12 and sum(line["kind"] in ("waiting", "searching") for line in lines) <= 2 * len(asked)


async def trial_of_origins() -> None:
    """A page of elsewhere may ask where its origin is named, and nothing but values."""
    good, shop = {"position": OPENING, "depth": 4}, "https://shop.example"
    for origins, status in (((), 403), ((shop,), 200), (("*",), 200), (("https://other.example",), 403)):
        async with Served() as one:
            one.site.origins = frozenset(origins)
            assert (await one.ask(good, Origin=shop, Accept=""))[0] == status
            assert one.headers.get("access-control-allow-origin", "") == (shop if status == 200 else "")
            if status == 200:
                assert (await one.ask({**good, "depth": 99}, Origin=shop, Accept=""))[0] == 400 and one.headers["access-control-allow-origin"] == shop
                reader, writer = await asyncio.open_connection("127.0.0.1", one.port)
                writer.write(f"OPTIONS /analyse HTTP/1.1\r\nHost: localhost\r\nOrigin: {shop}\r\nAccess-Control-Request-Method: POST\r\nConnection: close\r\n\r\n".encode())
                head = (await asyncio.wait_for(reader.read(), 10)).decode()
                assert head.startswith("HTTP/1.1 204") and "Access-Control-Allow-Headers: accept, authorization, content-type" in head
                writer.close()
                for path, wanted in (("/about.json", "200"), ("/", "403"), ("/class", "403")):
                    reader, writer = await asyncio.open_connection("127.0.0.1", one.port)
                    writer.write(f"GET {path} HTTP/1.1\r\nHost: localhost\r\nOrigin: {shop}\r\nConnection: close\r\n\r\n".encode())
                    assert (await asyncio.wait_for(reader.read(), 10)).split(b" ")[1].decode() == wanted, path
                    writer.close()


async def trial_of_faults() -> None:
    good = {"position": OPENING, "depth": 4}
    async with Served() as one:
        for body, status, code, number in (({**good, "position": "x"}, 400, "position", 24), ({**good, "position": 5}, 400, "position", 24), ({"depth": 4}, 400, "position", 24), ([], 400, "position", 24), ({**good, "depth": 9}, 400, "depth", 27),
                                           ({**good, "depth": True}, 400, "depth", 27), ({**good, "exact": ["a1"]}, 400, "exact", 400), ({**good, "steps": 1}, 400, "steps", 400), ("{", 400, "json", 400), ({"game": "f5a1", "depth": 4}, 400, "game", 400),
                                           ({"game": "f5", **good}, 400, "game", 400), ({"game": "f5", "depth": 4, "exact": ["d3"]}, 400, "exact", 400), ({"game": "f5", "depth": 9}, 400, "depth", 27), ({"game": 5, "depth": 4}, 400, "game", 400), ({**good, "dpeth": 4}, 400, "field", 400), ({**good, "depth": 13}, 400, "depth", 27), ({"position": END, "depth": 13}, 400, "depth", 27)):  # fmt: skip
            found, (told,) = await one.ask(body)  # type: ignore[arg-type]
            assert (found, told["code"], told["number"]) == (status, code, number), (body, told)
            assert "dpeth" in told["text"] or code != "field"
        for headers, status, code in (({"Content_Type": "text/plain"}, 415, "type"), ({"Host": "evil.example"}, 403, "name"), ({"Origin": "http://evil.example"}, 403, "origin"), ({"Content_Length": "x"}, 400, "length"), ({"Content_Length": "99999"}, 413, "size"),
                                      ({"Transfer_Encoding": "chunked"}, 411, "length"), ({"Expect": "100-continue"}, 417, "expect"), ({"Bad Name ": "x"}, 400, "header"), ({"X": "y" * 20000}, 431, "head")):  # fmt: skip
            found, (told,) = await one.ask(good, **headers)
            assert (found, told["code"]) == (status, code), told
        assert (await one.ask(b"", "PUT /analyse", Content_Length="0"))[0] == 405
        assert (await one.ask(good, "POST /analyse or"))[1][0]["code"] == "request"
        one.service.settled = False
        assert (await one.ask({**good, "depth": 9}))[1][0]["code"] == "learning"
        one.service.known = None
        assert (await one.ask(good))[1][0]["code"] == "server"
        one.site.service = None  # type: ignore[assignment]
        assert (await one.ask(good))[1][0]["code"] == "fault"
        one.web.limits = type(one.web.limits)(connections=0)
        assert (await one.ask(good))[:1] == (503,)
    tokens = frozenset({hashlib.sha256(b"secret").hexdigest()})
    async with Served(tokens) as one:
        for word, status in (("", 401), ("Bearer secre", 401), ("Basic secret", 401), ("secret", 401), ("Bearer secret", 200), ("bearer  secret", 200)):
            assert (await one.ask(good, Authorization=word))[0] == status
        one.source.go.clear()
        other = {"position": Position.opening().play("d3").text, "depth": 4}
        asked = [asyncio.ensure_future(one.ask(other, Authorization="Bearer secret")) for _ in range(8)]
        await asyncio.sleep(0.3)
        assert (await one.ask(other, Authorization="Bearer secret"))[1][0]["code"] == "busy"
        one.source.go.set()
        assert {status for status, _ in await asyncio.gather(*asked)} == {200} and one.service.asking.total() == 0


async def trial_of_customers(monkeypatch: pytest.MonkeyPatch) -> None:
    """Each token's questions go to a client that has it, and to no other's; what the server says of a token comes before an answer begins."""
    monkeypatch.setattr(page_library, "FIRST_PAUSE", 0.001)
    good, there = {"position": OPENING, "depth": 4}, dict[str, list[Source]]()
    refusals: dict[str, Exception] = {"guess": Refused(30), "hasty": Refused(31), "full": Refused(14), "lost": Unreachable("gone")}

    def client_of(token: str) -> Source:
        there.setdefault(token, []).append(one := Source())
        one.pings = [refusals[token]] if token in refusals else []
        return one

    customers = Customers(client_of, 2, most=3)
    async with Served(customers=customers) as one:
        for word, status, number in (("", 401, 30), ("Bearer", 401, 30), ("Bearer a b", 401, 30), (f"Bearer {'x' * 65}", 401, 30), ("Basic school", 401, 30), ("Bearer guess", 401, 30), ("Bearer hasty", 429, 429)):
            found, (told,) = await one.ask(good, Authorization=word)
            assert (found, told["number"]) == (status, number), (word, told)
        assert set(there) == {"guess", "hasty"} and all(client.is_closed for clients in there.values() for client in clients) and not customers.there
        assert (await one.ask("", "GET /about.json"))[1][0]["places"] == 2
        for token in ("school", "shop", "school", "full", "lost"):
            assert kinds((await one.ask(good, Authorization=f"Bearer {token}"))[1]) == ["step", "done"], token
        assert {token: [client.asked for client in clients] for token, clients in there.items()} == {"guess": [0], "hasty": [0], "school": [1], "shop": [1], "full": [1], "lost": [1]}
        await asyncio.sleep(0.05)  # of four the one that asked longest ago has ended
        assert list(customers.there) == ["school", "full", "lost"] and there["shop"][0].is_closed and not there["school"][0].is_closed
        for token in customers.there:
            there[token][0].go.clear()
        other = {"position": Position.opening().play("d3").text, "depth": 4}
        asked = [asyncio.ensure_future(one.ask(other, Authorization=f"Bearer {token}")) for token in ("school", "school", "full", "lost")]
        await asyncio.sleep(0.2)
        assert (await one.ask(good, Authorization="Bearer shop"))[0] == 503  # all three are asking
        monkeypatch.setattr(page_customers, "IDLE", 0.1)
        customers.look("full", customers.there["full"])
        for clients in there.values():
            clients[0].go.set()
        assert {status for status, _ in await asyncio.gather(*asked)} == {200} and [client.asked for client in there["school"]] == [2] and not one.service.asking
        await one.ask(good, Authorization="Bearer full")
        customers.there["full"].until = 0.0
        customers.look("full", customers.there["full"])
        await asyncio.sleep(0.01)
        assert there["full"][0].is_closed and "full" not in customers.there
        there["lost"][0].faults = [Refused(30)]
        assert kinds((await one.ask({"position": Position.opening().play("c4").text, "depth": 4}, Authorization="Bearer lost"))[1]) == ["fault"] and "lost" not in customers.there
        refusals["lost"] = Refused(30)
        assert (await one.ask(good, Authorization="Bearer lost"))[0] == 401 and [client.is_closed for client in there["lost"]] == [True, True]
        several = await asyncio.gather(*(one.ask(good, Authorization="Bearer new") for _ in range(4)))
        assert {status for status, _ in several} == {200} and [client.asked for client in there["new"]] == [1]
        await customers.close()
        assert all(client.is_closed for clients in there.values() for client in clients) and not customers.there


def named() -> set[str]:
    """All that the description promises that may come."""
    found = {f"{path} {status}" for path, one in API["paths"].items() for call in one.values() for status in call["responses"]}

    def walk(schema: dict[str, Any], path: str) -> None:
        for one in schema.get("oneOf", []):
            walk(one, f"{path}/{one['properties']['kind']['enum'][0]}")
        if "items" in schema:
            walk(schema["items"], path)
        found.update(f"{path}={word}" for word in schema.get("enum", []))
        for name, one in schema.get("properties", {}).items():
            found.add(f"{path}.{name}")
            walk(one, f"{path}.{name}")

    for name in ("Score", "Line", "Fault", "About", "Answer", "Answers"):
        walk(API["components"]["schemas"][name], name)
    return found


def test_the_description_is_what_the_server_does(monkeypatch: pytest.MonkeyPatch) -> None:
    asyncio.run(asyncio.wait_for(trial_of_values(monkeypatch), 120))
    asyncio.run(asyncio.wait_for(trial_of_whole_answers(monkeypatch), 120))
    asyncio.run(asyncio.wait_for(trial_of_progress(monkeypatch), 120))
    asyncio.run(asyncio.wait_for(trial_of_origins(), 120))
    asyncio.run(asyncio.wait_for(trial_of_faults(), 120))
    asyncio.run(asyncio.wait_for(trial_of_customers(monkeypatch), 120))
    assert sorted(named() - SEEN) == []


def test_customers_are_those_of_a_server(capsys: pytest.CaptureFixture[str]) -> None:
    for words in ([], ["--server", "localhost", "--tokens", "file"], ["--server", "localhost", "--fallback", "engine"]):
        with pytest.raises(SystemExit) as end:
            page_command.command(["--customers", *words])
        assert end.value.code == 2 and "--customers are those of a --server" in capsys.readouterr().err


def test_a_file_of_tokens(tmp_path: pathlib.Path) -> None:
    token = hashlib.sha256(b"secret").hexdigest()
    (tmp_path / "t").write_text(f"# those of the shop\n{token.upper()}  shop\n\n")
    assert page_command.tokens_in(str(tmp_path / "t")) == {token} and page_command.tokens_in(None) == frozenset()
    for text in ("", "secret\n", f"{token}x\n"):
        (tmp_path / "t").write_text(text)
        with pytest.raises(ValueError, match="names no tokens"):
            page_command.tokens_in(str(tmp_path / "t"))
