"""What the page asks, and any program by HTTP: `/analyse` and its kin, as answers of `Web`. `openapi.json` describes /analyse for programs, word by word.

    POST /analyse  {"position": 66 letters, "depth": 8, "exact": "all" or ["f5", ..]}    one answer; with "game": "f5d6c3" in place of a position
                   each position of that game, whose number is its `ply`. Where `Accept: application/x-ndjson` asks for it, or the field
                   "steps": true or false, lines of JSON, as things become known: each step, or the greatest depth alone
    GET  /openapi.json
    GET  /about.json   {"service": true, "depths": [4, 6, 8], "places": 8, "settled": true, "addresses": ["http://192.168.1.5:8047/"]}
    POST /class        and POST, GET /class/ROOM: a teacher's board and those who follow it; POST /class/ROOM/pupils: who these are;
                       POST /class/ROOM/follow: one of them follows, by {"pupil": a number, "name": "Kim", "alone": false, "state": null};
                       POST /class/ROOM/pupil: how he stands now; a state is the board with which he raises a hand

The page itself reads and writes games, and knows values by an engine in the browser; deeper ones it asks here.

Scores are seen by the player to move: {"sign": "=", "points": -3}, or at the game's end {"sign": "=", "discs": 10, "empty": 1}, where the
empty squares are counted to the winner; without `empty` they aren't known, and not counted.
"""

import asyncio
import collections
import contextlib
import hashlib
import json
import pathlib
import re
from collections.abc import AsyncGenerator, Iterable
from typing import Any, Protocol

from .._core import DEEPEST
from ..board import PASS, Position
from ..errors import ColuwenError, Refused, TooDeep
from ..formats import transcript
from ..score import EXACT, Score
from .customers import UNKNOWN, Customers
from .library import Found, Library, Told, steps_of
from .rooms import Rooms
from .web import Answer, Fault, Request

LONGEST_QUESTION = 65536  # bytes: a game with variations and comments
FIELDS = ("position", "game", "depth", "exact", "steps")  # of a question
PROGRESS = 1.0  # seconds between two lines at least that tell nothing but how a question stands
STANDS = ("waiting", "searching")  # the kinds of these (a server that is full or lost is told once for each try, a second apart and more)
PATIENCE = 4.0  # where a server that is full or lost is asked again no sooner, one answer is a fault
MOST_OF_TOKEN = 8  # questions of a token at once
DONE = b'{"kind":"done"}\n'
Events = asyncio.Queue[dict[str, Any] | None]  # None is the last
Ask = tuple[Position, int, list[str], bool]  # a position, its depth, the moves whose values are to be exact, and whether each step is told


def score_of(score: Score, empty: int | None = None) -> dict[str, Any]:
    """A score as the page takes it."""
    if not score.ends:
        return {"sign": score.sign, "points": score.value}
    discs = score.mover
    if empty is None:
        return {"sign": score.sign, "discs": discs}
    return {"sign": score.sign, "discs": discs + empty * ((discs > 0) - (discs < 0)), "empty": empty}


def step_of(found: Found) -> dict[str, Any]:
    """What a step tells: the score, the best move, the line, and what is known of each move. The best one's is the position's."""
    result = found.result
    table = {entry.move: score_of(entry.score, found.empty if entry.move == result.best else None) for entry in result.table}
    line = found.line or ((result.best,) if result.best else ())
    ends = result.score.ends
    return {"kind": "step", "depth": result.depth, "ends": ends, "score": score_of(result.score, found.empty), "best": result.best or "-", "table": table, "line": line}


class Heard(Protocol):
    """What hears events."""

    def put_nowait(self, event: dict[str, Any]) -> None: ...


class Given(Exception):
    """The server is full, or can't be reached, for longer than one answer waits."""


class Whole:
    """The events of a question as one answer: the step, with the exact values in its table."""

    def __init__(self, position: Position):
        self.said: dict[str, Any] = {"position": position.text}
        self.trouble: asyncio.Future[None] = asyncio.get_running_loop().create_future()

    def put_nowait(self, event: dict[str, Any]) -> None:
        if event["kind"] == "step":
            self.said |= {name: value for name, value in event.items() if name != "kind"}
        elif event["kind"] == "exact":
            self.said["table"][event["move"]] = event["score"]
        elif event.get("again", 0) >= PATIENCE and not self.trouble.done():
            self.trouble.set_exception(Given("the server is full" if event["kind"] == "full" else "the server can't be reached"))


def telling(events: Heard, **more: object) -> Told:
    """What puts an event among others, with these words."""
    return lambda event: events.put_nowait({**event, **more})


class Service:
    """Answers the page's questions from a library of what is known, or from those of customers; without either there are classes alone."""

    def __init__(self, library: Library | None, depths: list[int], settled: bool = False, tokens: frozenset[str] = frozenset(), customers: Customers | None = None):
        self.known, self.depths, self.settled, self.customers = library, depths, settled, customers
        self.tokens = tokens  # their SHA-256 sums; where there are none everybody may ask
        self.asking: collections.Counter[str] = collections.Counter()  # questions of each at once
        self.addresses: list[str] = []  # by which browsers of other hosts come in
        self.rooms = Rooms()

    @property
    def library(self) -> Library:
        if not self.known:
            raise Fault(404, "server", "no server gives values here; the page has its own")
        return self.known

    @property
    def deepest(self) -> int:
        return self.depths[-1]

    async def answer(self, request: Request) -> Answer | None:
        """The answer of one of the paths above; None where it is none of them."""
        path = request.path
        if path == "/about.json" and self.allowed(request, "GET"):
            places = self.known.turns.places if self.known else self.customers.places if self.customers else 0
            return Answer.json({"service": True, "depths": self.depths, "places": places, "settled": self.settled, "addresses": self.addresses})
        if path == "/openapi.json" and self.allowed(request, "GET"):
            return Answer(body=pathlib.Path(__file__).with_name("openapi.json").read_bytes())
        if path == "/analyse" and self.allowed(request, "POST"):
            token = self.token_of(request)
            library = await self.customers.library(token) if self.customers else self.library
            asked = request.json()
            questions, is_game = self.questions_of(asked)
            if "steps" in asked or "application/x-ndjson" in request.headers.get("accept", ""):
                return Answer(kind="application/x-ndjson", lines=self.counted(token, self.analyse_game(questions, library) if is_game else self.analyse(*questions[0], library)))
            return Answer(later=self.whole(token, questions, is_game, library))
        if path == "/class" or path.startswith("/class/"):
            return self.of_class(request, path.removeprefix("/class").removeprefix("/"))
        return None

    def allowed(self, request: Request, *methods: str) -> bool:
        if request.method not in methods:
            raise Fault(405, "method", f"this is asked by {' or '.join(methods)}")
        return True

    def most(self, method: str, path: str) -> int:
        """How many bytes a request's body may have."""
        return LONGEST_QUESTION if method == "POST" else 0

    # /analyse

    def token_of(self, request: Request) -> str:
        """A request's token, which must be one of those that there are; without any it is nothing. Whether a server knows it `Customers` says."""
        kind, _, said = request.headers.get("authorization", "").partition(" ")
        token = said.strip() if kind.lower() == "bearer" and (self.tokens or self.customers) else ""
        if self.tokens and hashlib.sha256(token.encode("latin-1")).hexdigest() not in self.tokens:
            raise Fault(401, "token", "nobody has this token")
        if token and self.asking[token] >= MOST_OF_TOKEN:
            raise Fault(429, "busy", f"this token has {MOST_OF_TOKEN} questions already")
        return token

    async def counted(self, token: str, lines: AsyncGenerator[bytes, None]) -> AsyncGenerator[bytes, None]:
        """The lines, while which a token has one question more."""
        self.asking[token] += 1
        try:
            async with contextlib.aclosing(lines):
                async for line in lines:
                    yield line
        finally:
            self.asking -= collections.Counter([token])  # (which leaves out those that have none)

    def questions_of(self, asked: Any) -> tuple[list[Ask], bool]:
        """What is asked: a position, or each position of a game; and whether it is a game."""
        if isinstance(asked, dict) and (unknown := [name for name in asked if name not in FIELDS]):
            raise Fault(400, "field", f"there is no field {unknown[0]!r}: a question has {', '.join(FIELDS)}")
        if not isinstance(asked, dict) or "game" not in asked:
            return [self.question_of(asked)], False
        if "position" in asked or not isinstance(asked["game"], str):
            raise Fault(400, "game", "a question has a position or a game")
        try:
            game = transcript.read(asked["game"])
        except ValueError as fault:
            raise Fault(400, "game", str(fault)) from None
        if asked.get("exact", "all") != "all":
            raise Fault(400, "exact", "of a game the exact values of all moves are had, or of none")
        words = {name: value for name, value in asked.items() if name != "game"}
        return [self.question_of({**words, "position": position.text}) for position, _ in game.positions()], True

    async def whole(self, token: str, questions: list[Ask], is_game: bool, library: Library) -> Answer:
        """One answer, once all of it is known; a fault where the server refuses it, or was full or lost for seconds."""
        wholes = [Whole(position) for position, *_ in questions]
        tasks = [asyncio.ensure_future(self.once(library, *question[:3], whole)) for whole, question in zip(wholes, questions)]
        self.asking[token] += 1
        try:
            left = {*tasks, *(whole.trouble for whole in wholes)}
            while not all(task.done() for task in tasks):
                done, left = await asyncio.wait(left, return_when=asyncio.FIRST_COMPLETED)
                for one in done:
                    one.result()
        except (ColuwenError, Given) as fault:
            if self.customers and isinstance(fault, Refused) and fault.number == UNKNOWN:
                self.customers.forget(library)
                raise Fault(401, "token", "nobody has this token") from None
            raise Fault(503 if isinstance(fault, Given) else 502, "server", str(fault)) from None
        finally:
            self.asking -= collections.Counter([token])
            for task in tasks:
                task.cancel()
            for whole in wholes:
                whole.trouble.cancel()
            await asyncio.gather(*tasks, *(whole.trouble for whole in wholes), return_exceptions=True)
        found = [whole.said for whole in wholes]
        return Answer.json({"positions": [{"ply": ply, **one} for ply, one in enumerate(found)]} if is_game else found[0])

    async def once(self, library: Library, position: Position, depth: int, exact: list[str], whole: Whole) -> None:
        if not (found := await self.at_once(library, position, depth, whole)):
            raise Fault(400, "depth", f"the server can't look {depth} plies deep at this position")
        await self.exactly(library, found, exact, whole)

    async def analyse_game(self, questions: list[Ask], library: Library | None) -> AsyncGenerator[bytes, None]:
        """The lines of several positions, each with its number, as they come; `done` once."""
        lines: asyncio.Queue[bytes] = asyncio.Queue()

        async def ask(ply: int, question: Ask) -> None:
            try:
                async with contextlib.aclosing(self.analyse(*question, library)) as found:
                    async for line in found:
                        if line != DONE:
                            lines.put_nowait(b'{"ply":%d,' % ply + line[1:])
            finally:
                lines.put_nowait(b"")

        tasks = [asyncio.ensure_future(ask(ply, question)) for ply, question in enumerate(questions)]
        try:
            left = len(tasks)
            while left:
                if line := await lines.get():
                    yield line
                left -= not line
                if b'"kind":"fault"' in line:
                    return
            yield DONE
        finally:
            for task in tasks:
                task.cancel()
            await asyncio.gather(*tasks, return_exceptions=True)

    def question_of(self, asked: Any) -> Ask:
        """A question's position, depth, the moves whose values are to be exact, and whether it is to be answered step by step. Each word
        of it is tested."""
        if not isinstance(asked, dict) or not isinstance(asked.get("position"), str) or len(asked["position"]) > 200:
            raise Fault(400, "position", "a question has a position")
        try:
            position = Position.parse(asked["position"])
        except ValueError as fault:
            raise Fault(400, "position", str(fault)) from None
        depth, exact, steps = asked.get("depth"), asked.get("exact", []), asked.get("steps", True)
        if not isinstance(depth, int) or isinstance(depth, bool) or not 1 <= depth <= DEEPEST:
            raise Fault(400, "depth", f"the depth is a number of plies from 1 to {DEEPEST}")
        if not self.settled and self.deepest < depth:
            raise Fault(503, "learning", "how deep the server looks isn't known yet")
        if depth > self.deepest and position.empties > DEEPEST:
            raise Fault(400, "depth", f"this page looks {self.deepest} plies deep, and to the end where {DEEPEST} squares are empty")
        moves = position.legal_moves()
        exact = moves if exact == "all" else exact
        if not isinstance(exact, list) or not all(isinstance(move, str) and move in moves for move in exact):
            raise Fault(400, "exact", "exact values are of legal moves")
        if not isinstance(steps, bool):
            raise Fault(400, "steps", "with steps or without")
        return position, depth, exact, steps

    async def analyse(self, position: Position, depth: int, exact: list[str], steps: bool = True, library: Library | None = None) -> AsyncGenerator[bytes, None]:
        """What is learnt, line by line: each step, and then the exact values that are wanted of other moves than the best."""
        events: Events = asyncio.Queue()
        worker = asyncio.ensure_future(self.learn(library or self.library, position, depth, exact, steps, events))
        loop, last, held = asyncio.get_running_loop(), -PROGRESS, None
        try:
            while True:
                try:
                    event = await asyncio.wait_for(events.get(), None if held is None else max(last + PROGRESS - loop.time(), 0))
                except TimeoutError:
                    event, held = held, None
                    last = -PROGRESS
                if event is None:
                    return
                if event["kind"] in STANDS:
                    if loop.time() < last + PROGRESS:  # a later one takes its place
                        held = event
                        continue
                    last = loop.time()
                held = None
                yield json.dumps(event, separators=(",", ":")).encode() + b"\n"
        finally:
            worker.cancel()
            with contextlib.suppress(asyncio.CancelledError):
                await worker

    async def learn(self, library: Library, position: Position, depth: int, exact: list[str], steps: bool, events: Events) -> None:
        try:
            found = await (self.by_steps if steps else self.at_once)(library, position, depth, events)
            if found:
                await self.exactly(library, found, exact, events)
            events.put_nowait({"kind": "done"})
        except (ColuwenError, Refused) as fault:
            number = fault.number if isinstance(fault, Refused) else 502
            events.put_nowait({"kind": "fault", "code": "server", "number": number, "text": str(fault)})
            if self.customers and number == UNKNOWN:
                self.customers.forget(library)
        finally:
            events.put_nowait(None)

    async def by_steps(self, library: Library, position: Position, depth: int, events: Events) -> Found | None:
        """The steps; the last one that could be had. What is known of a deeper one already isn't asked less deep."""
        found = None
        steps = steps_of(position, depth)
        known = [step for step in steps if library.known(position, step)]
        for step in steps[steps.index(known[-1]) :] if known else steps:
            try:
                found = await library.find(position, step, telling(events, depth=step))
            except TooDeep:
                events.put_nowait({"kind": "deepest", "depth": found.result.depth if found else 0})
                break
            events.put_nowait(step_of(found))
        return found

    async def at_once(self, library: Library, position: Position, depth: int, events: Heard) -> Found | None:
        """The last step alone; where it can't be had, the one before it."""
        steps = steps_of(position, depth)
        for step in reversed(steps):
            try:
                found = await library.find(position, step, telling(events, depth=step))
            except TooDeep:
                continue
            events.put_nowait(step_of(found))
            if step != steps[-1]:
                events.put_nowait({"kind": "deepest", "depth": step})
            return found
        return None

    async def exactly(self, library: Library, found: Found, exact: Iterable[str], events: Heard) -> None:
        """The exact values of these moves, each by a question of the position behind it. At the game's end also those that are exact
        in the table are asked, as only their lines tell how many squares stay empty."""
        result = found.result
        table = {entry.move: entry.score for entry in result.table}
        for move in exact:
            score = table.get(move)
            if move == result.best or (score and score.sign == EXACT and not score.ends):
                continue
            left = result.depth if move == PASS else result.depth - 1
            try:
                behind = await library.find(result.position.play(move), left, telling(events, depth=result.depth, exact=True))
            except TooDeep:
                continue
            worth = Score(-behind.result.score.value, EXACT, result.depth >= result.position.empties or behind.result.score.ends, result.position.side)
            events.put_nowait({"kind": "exact", "depth": result.depth, "move": move, "score": score_of(worth, behind.empty)})

    # /class

    def of_class(self, request: Request, room: str) -> Answer:
        if not room:
            self.allowed(request, "POST")
            return Answer.json(self.rooms.open(request.address, state_of(request.json())))
        room, _, what = room.partition("/")
        if not re.fullmatch("[a-z0-9]{1,32}", room) or what not in ("", "pupils", "follow", "pupil"):
            raise Fault(404, "class", "there is no such class")
        if what:
            self.allowed(request, "POST")
            asked = request.json()
            if what == "pupils":
                return Answer(kind="application/x-ndjson", lines=self.rooms.pupils(room, asked.get("key") if isinstance(asked, dict) else None))
            number, called, alone, state = pupil_of(asked)
            self.rooms.tell_of(room, number, called, alone, state)
            return Answer(kind="application/x-ndjson", lines=self.rooms.follow(room, number)) if what == "follow" else Answer.json({})
        if request.method == "POST":
            asked = request.json()
            self.rooms.show(room, asked.get("key") if isinstance(asked, dict) else None, state_of(asked, ends=True))
            return Answer.json({})
        self.allowed(request, "GET")
        return Answer(kind="application/x-ndjson", lines=self.rooms.follow(room))


def state_of(asked: Any, ends: bool = False) -> str | None:
    """The state of a teacher's board: the part of an address behind `#`; None ends the class."""
    state = asked.get("state") if isinstance(asked, dict) else 0
    if state is None and ends:
        return None
    if not isinstance(state, str) or len(state) > LONGEST_QUESTION:
        raise Fault(400, "state", "a class has a state")
    return state


def pupil_of(asked: Any) -> tuple[str, str, bool, str | None]:
    """A pupil: the number of his browser, the name, whether he looks alone, and the board with which he raises a hand."""
    if not isinstance(asked, dict) or not all(isinstance(asked.get(name), str) for name in ("pupil", "name")) or not isinstance(asked.get("alone", False), bool):
        raise Fault(400, "pupil", "a pupil has a number and a name")
    number, name = asked["pupil"], asked["name"]
    if not 1 <= len(number) <= 40 or len(name) > 40:
        raise Fault(400, "pupil", "a number and a name have at most 40 letters")
    return number, name, asked.get("alone", False), state_of(asked, ends=True)
