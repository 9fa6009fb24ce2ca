"""The same as `Client` for asyncio.

    async with AsyncClient() as client:                       # 127.0.0.1:4711
        result = await client.analyse(position, 6)
        entries = await client.analyse_all(position, 6)       # each move's value, exactly
        async for question, answer in client.analyse_many(positions, 6): ..

A task that is cancelled, as by `asyncio.timeout`, cancels its job at the server.
"""

import asyncio
import contextlib
from collections.abc import AsyncIterable, AsyncIterator, Callable, Iterable
from typing import Self

from ._core import Info
from .analyst import END, Many, Order, Outcome, Progress, Q, Result, all_of, checked, deepening, moves_of, parts_of
from .board import Position
from .client import Served
from .score import Entry


class AsyncClient(Served):
    """Answers any number of positions; the tasks of one loop may share it. Its options are those of `Client`."""

    async def __aenter__(self) -> Self:
        return self

    async def __aexit__(self, *fault: object) -> None:
        await self.close()

    async def analyse(self, position: str | Position, depth: int, *, timeout: float | None = None) -> Result:
        """As `Client.analyse`."""
        return await self._answer(self._driving(), checked(position, depth), depth, timeout)

    async def analyse_all(self, position: str | Position, depth: int, *, timeout: float | None = None) -> list[Entry]:
        """As `Client.analyse_all`."""
        place = checked(position, depth, 1)
        tasks = [asyncio.ensure_future(self.analyse(after, left, timeout=timeout)) for after, left in parts_of(place, depth)]
        with all_of(depth, tasks):
            return moves_of(place, depth, await asyncio.gather(*tasks))

    async def deepen(self, position: str | Position, depth: int | None = None, *, timeout: float | None = None) -> AsyncIterator[Result]:
        """As `Client.deepen`."""
        with deepening(position, depth, timeout) as (steps, found):
            for step, left in steps:
                found.append(await self.analyse(position, step, timeout=left))
                yield found[-1]

    async def analyse_many(self, positions: Iterable[Q] | AsyncIterable[Q], depth: int | None = None, *, order: Order = "asked", timeout: float | None = None,
                           window: int | None = None, on_progress: Callable[[Progress], object] | None = None) -> AsyncIterator[Outcome[Q]]:  # fmt: skip
        """As `Client.analyse_many`; the positions may come from an asynchronous source."""
        ended: asyncio.Queue[Callable[[], None]] = asyncio.Queue()
        many = Many(positions, depth, order, 64 * self.parallel if window is None else window, on_progress,
                    lambda position, wanted: asyncio.ensure_future(self.analyse(position, wanted, timeout=timeout)), ended.put_nowait)  # fmt: skip
        source = aiter(positions) if isinstance(positions, AsyncIterable) else _slowly(positions)
        with contextlib.closing(many):
            while True:
                for outcome in many.ready():
                    yield outcome
                if many.has_room and -1 not in many.begun:  # the next of the source
                    many.begun[-1] = coming = asyncio.ensure_future(anext(source, END))
                    coming.add_done_callback(lambda _: ended.put_nowait(lambda: many.take(many.begun.pop(-1).result())))
                if not many.begun:
                    return
                (await ended.get())()

    async def info(self) -> Info:
        """As `Client.info`."""
        return await self._driving().info()

    async def ping(self) -> float:
        """As `Client.ping`."""
        return await self._driving().ping()

    async def close(self) -> None:
        """Ends the sessions. Calls that wait, and later ones, raise `Closed`."""
        self._closed = True
        if self._driver:
            await self._driver.close()


async def _slowly(positions: Iterable[Q]) -> AsyncIterator[Q]:
    for position in positions:
        yield position
