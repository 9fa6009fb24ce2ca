"""What is known of positions, and who asks for it: each question of a position and depth is put to the server once, however many
browsers wait for it, in turn, and is cancelled when none of them does any more.

Turns: so many questions are with the server at once; others wait in the order in which they came. A browser's next step comes behind
those who wait, so that a class gets its first values soon, all of it.
"""

import asyncio
import collections
import contextlib
import dataclasses
from collections.abc import AsyncIterator, Callable
from typing import Any, Protocol

from .._core import DEEPEST
from ..analyst import Result
from ..board import PASS, Position
from ..errors import Refused, TooDeep

Told = Callable[[dict[str, Any]], None]
FIRST_PAUSE, LONGEST_PAUSE = 1.0, 8.0  # seconds between two tries of a server that can't be reached


class Source(Protocol):
    """What values come from: `AsyncClient`, or another for a trial."""

    async def analyse(self, position: str | Position, depth: int) -> Result: ...


@dataclasses.dataclass(frozen=True)
class Found:
    """A result, and where it is the end of the game, the line that leads there and how many squares stay empty."""

    result: Result
    line: tuple[str, ...] = ()
    empty: int | None = None


class Turns:
    """So many places; who waits is told how many are before."""

    def __init__(self, places: int):
        self.places, self.taken = places, 0
        self.waiting: collections.deque[tuple[asyncio.Future[None], Told]] = collections.deque()

    @contextlib.asynccontextmanager
    async def turn(self, told: Told) -> AsyncIterator[None]:
        if self.taken < self.places and not self.waiting:
            self.taken += 1
        else:
            await self.wait(told)
        try:
            yield
        finally:
            self.pass_on()

    async def wait(self, told: Told) -> None:
        place: asyncio.Future[None] = asyncio.get_running_loop().create_future()
        self.waiting.append((place, told))
        told({"kind": "waiting", "ahead": len(self.waiting)})
        try:
            await place
        except asyncio.CancelledError:
            if place.done() and not place.cancelled():  # it was given the place in the same moment
                self.pass_on()
            else:
                self.waiting = collections.deque(one for one in self.waiting if one[0] is not place)
                self.say()
            raise

    def pass_on(self) -> None:
        """Gives a place to the first who waits."""
        while self.waiting:
            place, _ = self.waiting.popleft()
            if not place.done():
                place.set_result(None)
                self.say()
                return
        self.taken -= 1

    def say(self) -> None:
        for number, (_, told) in enumerate(self.waiting, 1):
            told({"kind": "waiting", "ahead": number})


class Flight:
    """A question that is with the server or waits for it, and those who wait for its answer."""

    def __init__(self) -> None:
        self.task: asyncio.Task[Found] | None = None
        self.heard: list[Told] = []
        self.last: dict[str, Any] | None = None

    def told(self, event: dict[str, Any]) -> None:
        self.last = event
        for heard in list(self.heard):
            heard(event)


class Library:
    """Answers by position and depth, the last ones that were used, and the questions that are on their way."""

    def __init__(self, engine: Source, places: int, most: int = 20000):
        self.engine, self.turns, self.most = engine, Turns(places), most
        self.kept: collections.OrderedDict[tuple[str, int], Found] = collections.OrderedDict()
        self.spent: collections.OrderedDict[tuple[str, int], None] = collections.OrderedDict()
        self.flights: dict[tuple[str, int], Flight] = {}
        self.asked = self.cancelled = 0

    def known(self, position: Position, depth: int) -> Found | None:
        key = position.text, depth
        if key in self.kept:
            self.kept.move_to_end(key)
        return self.kept.get(key)

    async def find(self, position: Position, depth: int, told: Told) -> Found:
        """What a position is worth, so many plies deep. `told` is called with what happens meanwhile: {kind: waiting, searching or lost}.
        `TooDeep` where the server's grain doesn't let it through."""
        key = position.text, depth
        if found := self.known(position, depth):
            return found
        if key in self.spent:
            raise TooDeep(depth, depth - 1)
        flight = self.flights.get(key)
        if not flight:
            flight = self.flights[key] = Flight()
            flight.task = asyncio.ensure_future(self.fly(flight, position, depth))
            flight.task.add_done_callback(lambda _: self.flights.pop(key, None) if self.flights.get(key) is flight else None)
        flight.heard.append(told)
        if flight.last:
            told(flight.last)
        assert flight.task
        try:
            return await asyncio.shield(flight.task)
        finally:
            flight.heard.remove(told)
            if not flight.heard and not flight.task.done():
                self.cancelled += 1
                if self.flights.get(key) is flight:
                    del self.flights[key]
                flight.task.cancel()

    async def fly(self, flight: Flight, position: Position, depth: int) -> Found:
        """Asks in turn, and again where the server is lost, until it answers."""
        pause = FIRST_PAUSE
        while True:
            try:
                async with self.turns.turn(flight.told):
                    flight.told({"kind": "searching"})
                    return await self.ask(position, depth)
            except TooDeep:
                self.remember(self.spent, (position.text, depth), None)
                raise
            except Refused as refusal:
                if refusal.number not in (10, 11, 14, 19):
                    raise
                flight.told({"kind": "full", "again": pause})
            except OSError:
                flight.told({"kind": "lost", "again": pause})
            await asyncio.sleep(pause)
            pause = min(2 * pause, LONGEST_PAUSE)

    async def ask(self, position: Position, depth: int) -> Found:
        """One question; where its value is the end of the game the line to there is followed, from best move to best move."""
        if found := self.known(position, depth):
            return found
        self.asked += 1
        result = await self.engine.analyse(position, depth)
        found = Found(result)
        if result.score.ends:
            found = await self.to_the_end(result)
        self.remember(self.kept, (position.text, depth), found)
        return found

    async def to_the_end(self, result: Result) -> Found:
        position = result.position
        if position.is_over:
            return Found(result, (), position.empties)
        if not result.best:
            return Found(result)
        after = position.play(result.best)
        try:
            behind = await self.ask(after, result.depth if result.best == PASS else result.depth - 1)
        except TooDeep:
            return Found(result, (result.best,))
        if behind.result.score.value != -result.score.value:  # the line isn't known then, and nothing is said of it
            return Found(result, (result.best,))
        return Found(result, (result.best, *behind.line), behind.empty)

    def remember(self, where: collections.OrderedDict[tuple[str, int], Any], key: tuple[str, int], what: Any) -> None:
        where[key] = what
        while len(where) > self.most:
            where.popitem(last=False)


def steps_of(position: Position, depth: int, least: int = 4) -> list[int]:
    """The depths by which a position is looked at one after another, up to this one: 4, 6, 8 and so on, and at last the depth itself."""
    aim = min(depth, position.empties, DEEPEST)
    return [*range(least, aim, 2), aim]
