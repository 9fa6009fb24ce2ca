"""The page's server of HTTP, by sockets: what it takes is limited in number, size and time, and what it sends is whole."""
from __future__ import annotations

import asyncio
import contextlib
import gc
import json
import logging
import pathlib
import re
from collections.abc import AsyncGenerator, AsyncIterator, Awaitable, Callable
from typing import Any

import pytest
from coluwen.page import web as page_web
from coluwen.page.web import Answer, Fault, Limits, Request, Web, head_of, log_to, noted, plain, request_of, said

SOON = 20.0
Dial = Callable[[bytes], Awaitable[bytes]]


async def echo(request: Request) -> Answer:
    """What was asked, as JSON; by path other things."""
    if request.path == "/fault":
        raise Fault(429, "classes", "too many")
    return Answer.json([request.method, request.path, request.query, request.body.decode(), request.address, request.headers.get("x", "")])


@contextlib.asynccontextmanager
async def served(handler: Any = echo, most: int = 10, **limits: Any) -> AsyncIterator[tuple[Web, Callable[[], Awaitable[tuple[asyncio.StreamReader, asyncio.StreamWriter]]]]]:
    web = Web(handler, lambda method, path: most if method == "POST" else 0, Limits(**limits) if limits else None)
    server = await web.start("127.0.0.1", 0)
    port = server.sockets[0].getsockname()[1]
    opened: list[asyncio.StreamWriter] = []

    async def dial() -> tuple[asyncio.StreamReader, asyncio.StreamWriter]:
        reader, writer = await asyncio.open_connection("127.0.0.1", port)
        opened.append(writer)
        return reader, writer

    yield web, dial
    for writer in opened:
        writer.close()
    server.close()
    await web.end()
    assert (web.count, dict(web.of_address), web.tasks) == (0, {}, set())


async def answer_to(reader: asyncio.StreamReader) -> tuple[int, dict[str, str], bytes]:
    """An answer by its Content-Length."""
    head = (await asyncio.wait_for(reader.readuntil(b"\r\n\r\n"), SOON)).decode().split("\r\n")
    headers = {name.lower(): value for name, _, value in (line.partition(": ") for line in head[1:-2])}
    return int(head[0].split(" ")[1]), headers, await reader.readexactly(int(headers.get("content-length", "0")))


def run(coroutine: Any) -> None:
    asyncio.run(asyncio.wait_for(coroutine, 60))


def question(line: str = "GET /a HTTP/1.1", *headers: str, body: bytes = b"") -> bytes:
    return "\r\n".join([line, "Host: here", *headers, "", ""]).encode() + body


async def test_a_connection_has_requests_one_after_another_until_it_says_close() -> None:
    async with served() as (web, dial):
        reader, writer = await dial()
        writer.write(question("GET /a%20b?c=d&e=f HTTP/1.1", "X:  y ") + question("POST /p HTTP/1.1", "Content-Length: 10", body=b"0123456789") + question("HEAD /h HTTP/1.1"))
        status, headers, body = await answer_to(reader)
        assert (status, json.loads(body)) == (200, ["GET", "/a b", {"c": "d", "e": "f"}, "", "127.0.0.1", "y"])
        assert headers["content-type"] == "application/json" and "connection" not in headers and "default-src 'none'" in headers["content-security-policy"]
        assert json.loads((await answer_to(reader))[2])[3] == "0123456789"
        head = await asyncio.wait_for(reader.readuntil(b"\r\n\r\n"), SOON)
        assert b"Content-Length: 34\r\n" in head and head.startswith(b"HTTP/1.1 200 OK\r\n")
        assert web.count == 1 and dict(web.of_address) == {"127.0.0.1": 1} and len(web.tasks) == 1
        writer.write(question("GET /fault HTTP/1.1", "Connection: CLOSE"))
        status, headers, body = await answer_to(reader)
        assert (status, headers["connection"], headers["retry-after"], json.loads(body)) == (429, "close", "2", {"code": "classes", "number": 429, "text": "too many"})
        assert await asyncio.wait_for(reader.read(), SOON) == b""


@pytest.mark.parametrize("sent, status, code", [
    (question("POST / HTTP/1.1", "Content-Length: 11", body=b"01234567890"), 413, "size"), (question("GET / HTTP/1.1", "Content-Length: 1", body=b"0"), 413, "size"),
    (question("POST / HTTP/1.1", "Content-Length: +1", body=b"0"), 400, "length"), (question("POST / HTTP/1.1", "Content-Length: " + "0" * 12), 400, "length"),
    (question("POST / HTTP/1.1", "Content-Length: \u0661"), 400, "length"), (question("POST / HTTP/1.1", "Transfer-Encoding: chunked"), 411, "length"),
    (question("POST / HTTP/1.1", "Content-Length: 1", "Expect: 100-continue"), 417, "expect"), (question("GET / HTTP/1.1", "X: " + "y" * 300), 431, "head"),
    (question("GET / HTTP/2"), 400, "request"), (question("GET /"), 400, "request"), (question("GET  / HTTP/1.1"), 400, "request"), (question("GET a HTTP/1.1"), 400, "request"),
    (question("GET / HTTP/1.1", "no header"), 400, "header"), (question("GET / HTTP/1.1", ": x"), 400, "header"), (question("GET / HTTP/1.1", "X : y"), 400, "header"),
    (question("GET / HTTP/1.1", "Host: there"), 400, "header"), (question("POST / HTTP/1.1", "Content-Length: 0", "Content-Length: 0"), 400, "header"),
])  # fmt: skip
async def test_what_is_refused_ends_the_connection(sent: bytes, status: int, code: str) -> None:
    async with served(head=256) as (_, dial):
        reader, writer = await dial()
        writer.write(sent + question())
        given, headers, body = await answer_to(reader)
        assert (given, json.loads(body)["code"], headers["connection"]) == (status, code, "close")
        with contextlib.suppress(ConnectionError):
            assert await asyncio.wait_for(reader.read(), SOON) == b""


async def test_what_may_stand_twice_and_how_long_a_length_is() -> None:
    async with served() as (_, dial):
        reader, writer = await dial()
        writer.write(question("POST / HTTP/1.1", "X: 1", "X: 2", "Content-Length: " + "0" * 10 + "1", body=b"z") + question("GET / HTTP/1.0"))
        assert json.loads((await answer_to(reader))[2])[3:] == ["z", "127.0.0.1", "2"]
        status, headers, _ = await answer_to(reader)
        assert (status, headers["connection"]) == (200, "close")
        assert await asyncio.wait_for(reader.read(), SOON) == b""
    assert request_of(question("GET /?" + "&".join(f"a{at}=1" for at in range(50)) + " HTTP/1.1"), "").query["a49"] == "1"
    assert request_of(question("GET /?" + "&".join(f"a{at}=1" for at in range(51)) + " HTTP/1.1"), "").query == {}


@pytest.mark.parametrize("limits", [{"connections": 3}, {"per_address": 3}])
async def test_so_many_connections(limits: dict[str, int]) -> None:
    async with served(**limits) as (web, dial):
        for number in range(3):
            reader, writer = await dial()
            writer.write(question())
            assert (await answer_to(reader))[0] == 200
        reader, _ = await dial()
        status, headers, body = await answer_to(reader)
        assert (status, headers["connection"], headers["retry-after"] if "retry-after" in headers else "", json.loads(body)["code"]) == (503, "close", "2", "busy")
        assert await asyncio.wait_for(reader.read(), SOON) == b""
        writer.close()
        for _ in range(500):
            if web.count < 3:
                break
            await asyncio.sleep(0.01)
        reader, writer = await dial()
        writer.write(question())
        assert (await answer_to(reader))[0] == 200


async def test_so_many_requests_of_a_connection() -> None:
    async with served(requests=2) as (_, dial):
        reader, writer = await dial()
        writer.write(question() * 3)
        assert [(await answer_to(reader))[0] for _ in range(2)] == [200, 200]
        with contextlib.suppress(ConnectionError):
            assert await asyncio.wait_for(reader.read(), SOON) == b""


@pytest.mark.parametrize("limits, sent, answers", [
    ({"head_seconds": 0.1, "idle_seconds": 99, "body_seconds": 99}, b"GET / HT", 0), ({"head_seconds": 99, "idle_seconds": 0.1, "body_seconds": 99}, question(), 1),
    ({"head_seconds": 99, "idle_seconds": 99, "body_seconds": 0.1}, question("POST / HTTP/1.1", "Content-Length: 2", body=b"0"), 0),
])  # fmt: skip
async def test_who_is_slow_is_left(limits: dict[str, float], sent: bytes, answers: int) -> None:
    async with served(**limits) as (_, dial):
        reader, writer = await dial()
        writer.write(sent)
        for _ in range(answers):
            assert (await answer_to(reader))[0] == 200
        assert await asyncio.wait_for(reader.read(), SOON) == b""


async def test_a_browser_that_takes_nothing_is_left() -> None:
    async def great(request: Request) -> Answer:
        return Answer(body=bytes(1 << 25))
    async with served(great, write_seconds=0.2, idle_seconds=1000) as (web, dial):
        _, writer = await dial()
        writer.write(question())
        for _ in range(1500):
            await asyncio.sleep(0.01)
            if not web.count:
                return
        raise AssertionError("it is still there")


def streaming(log: list[str], pause: float = 0.0, fault: bool = False) -> Any:
    async def lines() -> AsyncGenerator[bytes, None]:
        try:
            yield b"one\n"
            if fault:
                raise KeyError("no such thing")
            await asyncio.sleep(pause)
            yield b"two, which is longer\n"
            await asyncio.sleep(pause)
        finally:
            log.append("closed")

    async def handler(request: Request) -> Answer:
        return Answer(kind="application/x-ndjson", lines=lines())

    return handler


async def test_lines_are_sent_as_they_come_and_end_the_connection() -> None:
    log: list[str] = []
    async with served(streaming(log)) as (_, dial):
        reader, writer = await dial()
        writer.write(question())
        head, _, body = (await asyncio.wait_for(reader.read(), SOON)).partition(b"\r\n\r\n")
        assert b"Transfer-Encoding: chunked" in head and b"Content-Length" not in head and b"Connection: close" in head
        assert body == b"4\r\none\n\r\n15\r\ntwo, which is longer\n\r\n0\r\n\r\n" and log == ["closed"]


async def test_where_no_line_comes_an_empty_one_does(monkeypatch: pytest.MonkeyPatch) -> None:
    monkeypatch.setattr(page_web, "HEARTBEAT", 0.05)
    async with served(streaming([], 0.4)) as (_, dial):
        reader, writer = await dial()
        writer.write(question())
        body = (await asyncio.wait_for(reader.read(), SOON)).partition(b"\r\n\r\n")[2]
        assert re.fullmatch(rb"4\r\none\n\r\n(1\r\n\n\r\n){2,}15\r\ntwo, which is longer\n\r\n(1\r\n\n\r\n){2,}0\r\n\r\n", body), body


async def test_where_the_browser_leaves_its_lines_end() -> None:
    log: list[str] = []
    async with served(streaming(log, 600)) as (web, dial):
        reader, writer = await dial()
        writer.write(question() + b"what follows is dropped")
        await asyncio.wait_for(reader.readuntil(b"one\n"), SOON)
        writer.close()
        for _ in range(1500):
            await asyncio.sleep(0.01)
            if log and not web.count:
                return
        raise AssertionError("its lines go on")


async def test_lines_that_go_wrong_are_told_and_end(caplog: pytest.LogCaptureFixture) -> None:
    faults: list[Any] = []
    asyncio.get_running_loop().set_exception_handler(lambda _, context: faults.append(context.get("exception")))
    log: list[str] = []
    async with served(streaming(log, fault=True)) as (_, dial):
        reader, writer = await dial()
        writer.write(question())
        assert (await asyncio.wait_for(reader.read(), SOON)).endswith(b"4\r\none\n\r\n") and log == ["closed"]
    for _ in range(100):
        gc.collect()
        await asyncio.sleep(0.01)
        if faults:
            break
    assert [type(fault) for fault in faults] == [KeyError]


async def test_end_ends_what_goes_on() -> None:
    log: list[str] = []
    async with served(streaming(log, 600)) as (web, dial):
        reader, writer = await dial()
        writer.write(question())
        await asyncio.wait_for(reader.readuntil(b"one\n"), SOON)
        await asyncio.wait_for(web.end(), SOON)
        assert log == ["closed"] and not web.count


def test_a_question_is_json() -> None:
    request = Request("POST", "/", "/", {}, {"content-type": "application/json; charset=utf-8"}, "", b'{"a": 1}')
    assert request.json() == {"a": 1}
    for headers, body, status, code in (({"content-type": "text/plain"}, b"{}", 415, "type"), ({}, b"{}", 415, "type"), (request.headers, b"{", 400, "json"), (request.headers, b"[" * 99999, 400, "json")):
        with pytest.raises(Fault) as fault:
            Request("POST", "/", "/", {}, headers, "", body).json()
        assert (fault.value.status, fault.value.code) == (status, code)


def test_heads() -> None:
    assert Answer.json([1]).status == 200 and Answer.json([1], 201, A="b").headers == {"A": "b"} and Answer.json([1, 2]).body == b"[1,2]"
    assert head_of(Answer(304), close=False).count(b"Content-Length") == 0 and head_of(Answer(body=b"abc"), close=False).endswith(b"Content-Length: 3\r\n\r\nabc")
    assert head_of(Answer(body=b"abc"), close=True, bare=True).endswith(b"Content-Length: 3\r\nConnection: close\r\n\r\n")
    for text in ("a\nB: c", "a\rB: c"):
        with pytest.raises(ValueError):
            head_of(Answer(headers={"A": text}), close=False)
    assert [said(Fault(status, "a", "b")).headers for status in (429, 503, 400, 404)] == [{"Retry-After": "2"}, {"Retry-After": "2"}, {}, {}]


def test_the_log(caplog: pytest.LogCaptureFixture, tmp_path: pathlib.Path, capsys: pytest.CaptureFixture[str]) -> None:
    before = page_web.LOG.handlers[:], page_web.LOG.level, page_web.LOG.propagate
    try:
        async def main() -> None:
            async with served() as (_, dial):
                reader, writer = await dial()
                writer.write(question("GET /a HTTP/1.1") + b"x\r\n\r\n")
                await asyncio.wait_for(reader.read(), SOON)

        log_to(str(tmp_path / "log"))
        run(main())
        noted("", "GET / HTTP/1.1", Answer())
        log_to("-")
        noted("a", "GET / HTTP/1.1", Answer(body=b"12"))
        assert page_web.LOG.propagate is False and page_web.LOG.level == logging.INFO
        log_to("")
        assert page_web.LOG.level == logging.CRITICAL
        noted("b", "GET / HTTP/1.1", Answer())
    finally:
        for handler in page_web.LOG.handlers[len(before[0]):]:
            page_web.LOG.removeHandler(handler)
            handler.close()
        page_web.LOG.level, page_web.LOG.propagate = before[1:]
    lines = [re.sub(r"\[.*?\]", "[]", line) for line in (tmp_path / "log").read_text().splitlines()]
    assert lines == ['127.0.0.1 - - [] "GET /a HTTP/1.1" 200 33', '127.0.0.1 - - [] "-" 400 51', '- - - [] "GET / HTTP/1.1" 200 -', 'a - - [] "GET / HTTP/1.1" 200 2']
    assert re.sub(r"\[.*?\]", "[]", capsys.readouterr().err) == 'a - - [] "GET / HTTP/1.1" 200 2\n'
    assert len(plain("a" * 2000)) == 1000 and plain('"\\\u00b5\x7f~') == "\\x22\\x5c\\xb5\\x7f~"
