"""The rows of clients/behaviour, by `Client` and by `AsyncClient`."""
from __future__ import annotations

import asyncio
import concurrent.futures
import threading
from collections.abc import Callable, Iterator
from typing import Any

import pytest
from coluwen import AsyncClient, Client, Closed, ColuwenError, Late, Refused, Result, TooDeep, Unreachable
from rows import TIMES, Player, Row, play, rows

ROWS = rows()


def options_of(options: dict[str, str]) -> dict[str, Any]:
    return {name: text if name == "token" else int(text) / 1000 if name in TIMES else int(text) for name, text in options.items()}


def text_of_fault(fault: BaseException) -> str:
    if isinstance(fault, TooDeep):
        return f"fault TooDeep depth={fault.depth} greatest={fault.greatest}"
    if isinstance(fault, Refused):
        return f"fault Refused number={fault.number}"
    if isinstance(fault, (concurrent.futures.CancelledError, asyncio.CancelledError)):
        return "fault Stopped"
    if isinstance(fault, (ValueError, TypeError)):
        return "fault Argument"
    for kind in (Unreachable, Late, Closed):
        if isinstance(fault, kind):
            return f"fault {kind.__name__}"
    raise fault


def text_of(result: Result) -> str:
    return " ".join(["result", str(result.score.value), result.best or "-", *map(str, result.table)])


class Blocking(Player):
    """Makes the calls of a row by `Client`."""

    def __init__(self, port: int, options: dict[str, str]):
        super().__init__()
        self.client = Client("127.0.0.1", port, **options_of(options))
        self.taken = 0

    def close(self) -> None:
        self.client.close()

    def endless(self, position: str) -> Iterator[str]:
        while True:
            self.taken += 1
            yield position

    def make(self, words: str) -> list[str]:
        word, _, rest = words.partition(" ")
        try:
            return getattr(self, "shut" if word == "close" else word)(rest)  # type: ignore[no-any-return]
        except (ColuwenError, ValueError, TypeError, concurrent.futures.CancelledError, asyncio.CancelledError) as fault:
            return [text_of_fault(fault)]

    def analyse(self, rest: str) -> list[str]:
        depth, position, how = question_of(rest)
        if "abort" in how:
            future = self.client.submit(position, depth)
            threading.Timer(how["abort"], future.cancel).start()
            return [text_of(future.result())]
        return [text_of(self.client.analyse(position, depth, **how))]

    def analyse_all(self, rest: str) -> list[str]:
        depth, position, how = question_of(rest)
        return [" ".join(["moves", *map(str, self.client.analyse_all(position, depth, **how))])]

    def analyse_many(self, rest: str) -> list[str]:
        depth, positions, how = many_of(rest)
        if "take" in how:
            source = self.client.analyse_many(self.endless(positions[0]), depth)
            found = [next(source) for _ in range(how["take"])]
            assert all(isinstance(one.answer, Result) and one.number == number for number, one in enumerate(found))
            source.close()  # type: ignore[attr-defined]
            return [f"taken {self.taken}"]
        return [item_of(one) for one in self.client.analyse_many(positions, depth, **how)]

    def info(self, _: str) -> list[str]:
        info = self.client.info()
        return [f"info grain={info.grain} sure={info.sure} mostly={info.mostly}"]

    def ping(self, _: str) -> list[str]:
        assert self.client.ping() >= 0
        return ["done"]

    def shut(self, _: str) -> list[str]:
        self.client.close()
        return ["done"]


class Facade:
    """An `AsyncClient`, whose loop has a thread of its own, as a `Client` is called."""

    def __init__(self, port: int, options: dict[str, Any]):
        self.loop = asyncio.new_event_loop()
        self.thread = threading.Thread(target=self.loop.run_forever, daemon=True)
        self.thread.start()
        self.client = AsyncClient("127.0.0.1", port, **options)

    def submit(self, position: str, depth: int, **how: Any) -> concurrent.futures.Future[Result]:
        return asyncio.run_coroutine_threadsafe(self.client.analyse(position, depth, **how), self.loop)

    def analyse(self, position: str, depth: int, **how: Any) -> Result:
        return self.submit(position, depth, **how).result()

    def do(self, call: Any) -> Any:
        return asyncio.run_coroutine_threadsafe(call, self.loop).result()

    def __getattr__(self, name: str) -> Any:
        return lambda *words, **how: self.do(getattr(self.client, name)(*words, **how))

    def analyse_many(self, *words: Any, **how: Any) -> Iterator[Any]:
        async def next_of(source: Any) -> Any:
            return await anext(source, None)

        source = self.client.analyse_many(*words, **how)
        try:
            while outcome := self.do(next_of(source)):
                yield outcome
        finally:
            self.do(source.aclose())  # type: ignore[attr-defined]


class Asynchronous(Blocking):
    """Makes them by `AsyncClient`."""

    def __init__(self, port: int, options: dict[str, str]):
        Player.__init__(self)
        self.client, self.taken = Facade(port, options_of(options)), 0  # type: ignore[assignment]

    def close(self) -> None:
        facade: Any = self.client
        facade.close()
        facade.loop.call_soon_threadsafe(facade.loop.stop)
        facade.thread.join()
        facade.loop.close()


def question_of(rest: str) -> tuple[int, str, dict[str, float]]:
    depth, *words = rest.split(" ")
    how = {name: int(text) / 1000 for name, text in (word.split("=") for word in words if "=" in word)}
    return int(depth), " ".join(word for word in words if "=" not in word), how


def many_of(rest: str) -> tuple[int, list[str], dict[str, Any]]:
    depth, _, text = rest.partition(" ")
    words = text.split(" ")
    how: dict[str, Any] = dict(word.split("=") for word in words if word.startswith(("take=", "order=")))
    if "take" in how:
        how["take"] = int(how["take"])
    text = " ".join(word for word in words if word != "endless" and word.split("=")[0] not in how)
    return int(depth), text.split(", "), how


def item_of(one: Any) -> str:
    return f"item {one.number} {text_of(one.answer) if isinstance(one.answer, Result) else text_of_fault(one.answer)}"


@pytest.mark.parametrize("row", ROWS, ids=[row.name for row in ROWS])
@pytest.mark.parametrize("player", [Blocking, Asynchronous])
def test_row(row: Row, player: Callable[[int, dict[str, str]], Blocking]) -> None:
    play(row, player)
