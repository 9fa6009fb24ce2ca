"""Who asks by HTTP as a customer of the server: each by its own token, in sessions of its own, so that what it uses is of its budget there and of nobody else's.

Whether the server knows a token is told with its first question, before an answer begins; until then it takes nobody's place. Who asks nothing for a minute has no
sessions any more; where `most` customers have some, who asked longest ago gives them up for another.
"""

import asyncio
import re
from collections.abc import Callable
from typing import Protocol

from ..errors import ColuwenError, Refused
from .library import Library, Source
from .web import Fault

IDLE = 60.0  # seconds
TOKEN = "[!-~]{1,64}"  # of the protocol
UNKNOWN, TOO_FAST = 30, 31  # what HELLO is refused for


class Connected(Source, Protocol):
    """What a customer's values come from: `AsyncClient` with its token, or another for a trial."""

    async def ping(self) -> float: ...
    async def close(self) -> None: ...


class Customer:
    """A customer: its client, what it was told, and until when it is kept without a question."""

    def __init__(self, client: Connected, places: int):
        self.client, self.library, self.until = client, Library(client, places), 0.0
        self.met: asyncio.Future[None]  # whether the server knows it


class Customers:
    """Those who ask, by their tokens; of each so many questions are with the server at once."""

    def __init__(self, client_of: Callable[[str], Connected], places: int, most: int = 256):
        self.client_of, self.places, self.most = client_of, places, most
        self.there: dict[str, Customer] = {}  # who asked longest ago is the first
        self.coming: dict[str, Customer] = {}  # of whom the server was asked
        self.ending: set[asyncio.Future[None]] = set()

    async def library(self, token: str) -> Library:
        """What the customer is told who has this token; `Fault` where nobody has it."""
        if not re.fullmatch(TOKEN, token):
            raise Fault(401, "token", "a question has a token: Authorization: Bearer TOKEN")
        if token not in self.there:
            if token not in self.coming:
                self.coming[token] = Customer(self.client_of(token), self.places)
                self.coming[token].met = asyncio.ensure_future(self.meet(token, self.coming[token]))
            await asyncio.shield(self.coming[token].met)
        if not (one := self.there.pop(token, None)):  # it has gone for another in the same moment
            raise Fault(503, "busy", "too many customers ask at once")
        self.there[token] = one
        one.until = asyncio.get_running_loop().time() + IDLE
        return one.library

    async def meet(self, token: str, one: Customer) -> None:
        """Takes one in whom the server knows, in the place of another where there is no other; `Fault` where it can't. A server that is full or lost is told to
        each question."""
        fault = None
        try:
            await one.client.ping()
        except ColuwenError as refusal:
            number = refusal.number if isinstance(refusal, Refused) else 0
            fault = {UNKNOWN: Fault(401, "token", "nobody has this token"), TOO_FAST: Fault(429, "busy", "too many sessions were begun in a time")}.get(number)
        finally:
            del self.coming[token]
        if not fault and len(self.there) >= self.most:
            idle = next((name for name, other in self.there.items() if not other.library.flights), None)
            if idle is None:
                fault = Fault(503, "busy", "too many customers ask at once")
            else:
                self.end(self.there.pop(idle))
        if fault:
            self.end(one)
            raise fault
        self.there[token] = one
        asyncio.get_running_loop().call_later(IDLE, self.look, token, one)

    def look(self, token: str, one: Customer) -> None:
        """Ends the sessions of one who asks nothing any more; else looks again."""
        loop = asyncio.get_running_loop()
        if self.there.get(token) is one:
            if loop.time() >= one.until and not one.library.flights:
                self.end(self.there.pop(token))
            else:
                loop.call_at(max(one.until, loop.time() + IDLE / 10), self.look, token, one)

    def forget(self, library: Library) -> None:
        """One whose token the server doesn't know any more: its next question is told so before an answer begins."""
        for token, one in list(self.there.items()):
            if one.library is library:
                self.end(self.there.pop(token))

    def end(self, one: Customer) -> None:
        ending = asyncio.ensure_future(one.client.close())
        self.ending.add(ending)
        ending.add_done_callback(self.ending.discard)

    async def close(self) -> None:
        """Ends all."""
        for one in [*self.there.values(), *self.coming.values()]:
            self.end(one)
        self.there.clear()
        await asyncio.gather(*self.ending, return_exceptions=True)
