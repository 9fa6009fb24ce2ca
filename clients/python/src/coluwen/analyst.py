"""What values come from: `Analyst` is what a `Client` of a server and an engine on this computer have in common, and what the commands use."""

import abc
import concurrent.futures
import contextlib
import dataclasses
import functools
import queue
import time
from collections.abc import Callable, Iterable, Iterator, Sequence, Sized
from typing import Any, Literal, Self, TypeVar

from ._core import DEEPEST, Found, Info
from .board import PASS, Position
from .errors import ColuwenError, FormatError, Late, TooDeep
from .score import EXACT, Entry, Score

Order = Literal["asked", "known"]
Asked = str | Position | tuple[str | Position, int]
Q = TypeVar("Q", bound=Asked)
END: Any = object()  # of a source


@dataclasses.dataclass(frozen=True)
class Result:
    """What a search found: the score of the position, its first best move (None at depth 0 and in a finished game), and what is known of
    each move in the order in which they were tried: the best one's value exactly, of most others a bound (`Entry`). `seconds`: from when it
    was asked to when it was known; `nodes`: what it took of a server's reservation, where that is counted."""

    position: Position
    depth: int
    score: Score
    best: str | None
    table: tuple[Entry, ...] = ()
    seconds: float = 0.0
    nodes: int | None = None


class Outcome(tuple[Q, Result | ColuwenError]):
    """What became of one of many: a pair of the `question` as it was given and its `answer`, a `Result` or a fault; and its `number`, from 0."""

    number: int

    def __new__(cls, question: Q, answer: Result | ColuwenError, number: int) -> Self:
        self = super().__new__(cls, (question, answer))  # type: ignore[arg-type]
        self.number = number
        return self

    @property
    def question(self) -> Q:
        return self[0]

    @property
    def answer(self) -> Result | ColuwenError:
        return self[1]

    def __getnewargs__(self) -> tuple[Q, Result | ColuwenError, int]:
        return (*self, self.number)


@dataclasses.dataclass(frozen=True)
class Progress:
    """How many of many are done, of these at fault; and how many there are, where the source says it."""

    done: int
    faults: int
    total: int | None = None


class Unfit(FormatError, TypeError):
    """A question that is none, by its depth or its position: it isn't sent."""


def checked(position: str | Position, depth: int, least: int = 0) -> Position:
    """The position of a question. `Unfit`, a ValueError and TypeError, where it is none, or the depth isn't a whole number of plies."""
    if isinstance(depth, bool) or not isinstance(depth, int) or not least <= depth <= DEEPEST:
        raise Unfit(f"a depth is a whole number from {least} to {DEEPEST}, and not {depth!r}")
    if not isinstance(position, (str, Position)):
        raise Unfit(f"a position is a Position or a text of 66 letters, and not {position!r}")
    try:
        return position if isinstance(position, Position) else Position.parse(position)
    except FormatError as fault:
        raise Unfit(*fault.args) from None


@contextlib.contextmanager
def deepening(position: str | Position, depth: int | None, timeout: float | None) -> Iterator[tuple[Iterator[tuple[int, float | None]], list[Result]]]:
    """The depths of a search that deepens, each with the seconds that are left, and where its results go: no further than there are empty squares, as that is
    the game's end. `Late` has the last result; where no depth was named `TooDeep` ends it."""
    most, begun, found = DEEPEST if depth is None else depth, time.monotonic(), list[Result]()
    aim = min(most, checked(position, most).empties)
    try:
        yield ((step, None if timeout is None else max(begun + timeout - time.monotonic(), 0.001)) for step in (*range(2, aim, 2), aim)), found
    except Late:
        raise Late(timeout or 0.0, found[-1] if found else None) from None
    except TooDeep:
        if depth is not None:
            raise


def settle(future: concurrent.futures.Future[Result], outcome: Result | BaseException) -> None:
    """Ends a future, where nobody has cancelled it."""
    if future.set_running_or_notify_cancel():
        if isinstance(outcome, Result):
            future.set_result(outcome)
        else:
            future.set_exception(outcome)


def result_of(position: Position, depth: int, found: Found) -> Result:
    """What the core found, as a result."""
    ends, side = depth >= position.empties, position.side
    entries = tuple([Entry(move, Score.told(value, sign, ends, side)) for move, sign, value in found.entries])
    return Result(position, depth, Score.told(found.value, EXACT, ends, side), None if found.move == "-" else found.move, entries, found.seconds, found.nodes)


def parts_of(position: Position, depth: int) -> list[tuple[Position, int]]:
    """The position that each legal move leads to, and how deep it is to be searched: a pass uses no ply."""
    return [(position.play(move), depth if move == PASS else depth - 1) for move in position.legal_moves()]


def moves_of(position: Position, depth: int, results: Iterable[Result]) -> list[Entry]:
    """Each move's value from the results of what they lead to: the best first, of equals the one from a1 on."""
    entries = [Entry(move, Score.of(-result.score.value, position, depth)) for move, result in zip(position.legal_moves(), results)]
    return sorted(entries, key=lambda entry: -entry.score.value)


@contextlib.contextmanager
def all_of(depth: int, futures: Sequence[Any]) -> Iterator[None]:
    """Waits for the futures of all moves: `TooDeep` is said of the position itself, and what isn't wanted any more is cancelled."""
    try:
        yield
    except TooDeep as fault:
        raise TooDeep(depth, fault.greatest and min(fault.greatest + 1, depth - 1)) from None
    finally:
        for future in futures:
            future.cancel()


class Many:
    """The bookkeeping of `analyse_many`: what was taken from the source and isn't given on yet, in order or as it is known. `begin` gives a question's
    future, and `tell` is called once that has ended, with what takes it in."""

    def __init__(self, source: Any, depth: int | None, order: Order, window: int, on_progress: Callable[[Progress], object] | None, begin: Callable[[Position, int], Any],
                 tell: Callable[[Callable[[], None]], object]):  # fmt: skip
        if order not in ("asked", "known"):
            raise ValueError(f"results come in the order 'asked' or 'known', and not {order!r}")
        if depth is not None:
            checked(Position.opening(), depth)
        if window < 1:
            raise ValueError(f"a window has at least one place, and not {window}")
        self.depth, self.in_order, self.window, self.on_progress, self.begin, self.tell = depth, order == "asked", window, on_progress, begin, tell
        self.total = len(source) if isinstance(source, Sized) else None
        self.is_over = False  # the source has no more
        self.taken = self.given = self.faults = 0
        self.begun: dict[int, Any] = {}  # futures by their numbers
        self.known: dict[int, Outcome[Any]] = {}

    @property
    def has_room(self) -> bool:
        return not self.is_over and self.taken - self.given < self.window

    def take(self, asked: Any) -> None:
        """Begins one more of the source, at the depth of all where it names none; what is at fault is known at once. END ends it."""
        if asked is END:
            self.is_over = True
            return
        number, self.taken = self.taken, self.taken + 1
        position, own = asked if isinstance(asked, tuple) and len(asked) == 2 else (asked, None)
        depth: Any = self.depth if own is None else own
        try:
            self.begun[number] = future = self.begin(checked(position, depth), depth)
        except Unfit as fault:
            self.known[number] = Outcome(asked, fault, number)
        else:
            future.add_done_callback(lambda one: self.tell(lambda: self.ended(number, asked, one)))

    def ended(self, number: int, asked: Any, future: Any) -> None:
        """A question's future has ended. A fault that isn't of this package is raised."""
        del self.begun[number]
        fault = future.exception()
        if fault and not isinstance(fault, ColuwenError):
            raise fault
        self.known[number] = Outcome(asked, fault or future.result(), number)

    def ready(self) -> Iterator[Outcome[Any]]:
        """What may be given on."""
        while self.known and (not self.in_order or self.given in self.known):
            outcome = self.known.pop(self.given if self.in_order else next(iter(self.known)))
            self.given += 1
            self.faults += isinstance(outcome.answer, ColuwenError)
            if self.on_progress:
                self.on_progress(Progress(self.given, self.faults, self.total))
            yield outcome

    def close(self) -> None:
        for future in self.begun.values():
            future.cancel()


class Analyst(abc.ABC):
    """Answers any number of positions; threads may share it. `submit`, `info`, `close` and `parallel` are what a kind of it has of its own."""

    parallel = 4  # how many questions it works on at once

    @abc.abstractmethod
    def submit(self, position: str | Position, depth: int, *, timeout: float | None = None) -> concurrent.futures.Future[Result]:
        """Begins to analyse a position; the future gives its result, or raises its fault, and its `cancel` gives it up."""

    @abc.abstractmethod
    def info(self) -> Info:
        """What depths can be had: `grain`, `sure` and `mostly`, and a `version`, where one is told."""

    @abc.abstractmethod
    def close(self) -> None:
        """Ends it. Calls that wait, and later ones, raise `Closed`."""

    def ping(self) -> float:
        """Whether it answers: the seconds that a question at depth 0 takes."""
        begun = time.monotonic()
        self.analyse(Position.opening(), 0)
        return time.monotonic() - begun

    def __enter__(self) -> Self:
        return self

    def __exit__(self, *fault: object) -> None:
        self.close()

    def analyse(self, position: str | Position, depth: int, *, timeout: float | None = None) -> Result:
        """The score of a position, so many plies deep (0 to 12), its best move, and its table. `TooDeep` where that can't be had, and says
        what can; `Late` after `timeout` seconds of work, for which the job is cancelled."""
        future = self.submit(position, depth, timeout=timeout)
        try:
            return future.result()
        finally:  # after Ctrl-C nobody waits for it any more
            future.cancel()

    def analyse_all(self, position: str | Position, depth: int, *, timeout: float | None = None) -> list[Entry]:
        """Each move's value, exactly: one question for each of the positions that they lead to, a ply less deep. The best come first, of
        equals the one from a1 on; `pass` alone where the player must pass, and none where the game is over."""
        place = checked(position, depth, 1)
        futures = [self.submit(after, left, timeout=timeout) for after, left in parts_of(place, depth)]
        with all_of(depth, futures):
            return moves_of(place, depth, [future.result() for future in futures])

    def deepen(self, position: str | Position, depth: int | None = None, *, timeout: float | None = None) -> Iterator[Result]:
        """The results of a position 2, 4, 6 .. plies deep and at last `depth` (the greatest that can be had, where none is named), each as soon as it is known, by
        searches of their own. `Late` after `timeout` seconds in all: its `deepest` is the last result, None where there is none."""
        with deepening(position, depth, timeout) as (steps, found):
            for step, left in steps:
                found.append(self.analyse(position, step, timeout=left))
                yield found[-1]

    def analyse_many(self, positions: Iterable[Q], depth: int | None = None, *, order: Order = "asked", timeout: float | None = None, window: int | None = None,
                     on_progress: Callable[[Progress], object] | None = None) -> Iterator[Outcome[Q]]:  # fmt: skip
        """The same of any number of positions, or pairs of a position and a depth, also without end: an `Outcome` (question, result or fault)
        for each, as soon as it is known, in the order in which they are `asked`, or as they are `known`.

        Positions are taken as they are wanted: no more than `window` (64 for each that is worked on at once) are taken and not given on.
        `on_progress` is called with a `Progress` for each that is given on. What isn't wanted any more, as the loop was left, is cancelled."""
        ended: queue.SimpleQueue[Callable[[], None]] = queue.SimpleQueue()
        begin = functools.partial(self.submit, timeout=timeout)
        return self._many(Many(positions, depth, order, 64 * self.parallel if window is None else window, on_progress, begin, ended.put), ended, iter(positions))

    @staticmethod
    def _many(many: Many, ended: queue.SimpleQueue[Callable[[], None]], source: Iterator[Q]) -> Iterator[Outcome[Q]]:
        with contextlib.closing(many):
            while True:
                yield from many.ready()
                if many.begun and not (many.has_room and ended.empty()):
                    ended.get()()
                elif many.has_room:
                    many.take(next(source, END))
                elif not many.known:
                    return
