"""What files of Othello give: problems, games, and where each was read."""

import contextlib
import dataclasses
from collections.abc import Iterable, Iterator
from typing import Any, TypeVar

from ..board import BIT, BLACK, INDEX, NAMES, OTHER, PASS, SQUARES, WHITE, Board, Position, can_move, cells_of, changes, discs_of
from ..errors import FormatError

Tag = tuple[str, str, "Place"]  # a name, what is written behind it in brackets, and where that stands
SIDES = {"B": BLACK, "W": WHITE}  # the tags of moves
Item = TypeVar("Item")


@dataclasses.dataclass(frozen=True)
class Place:
    """Where something was read: the file's name, line and column, from 1; 0 where it has none."""

    file: str = ""
    line: int = 0
    column: int = 0

    def fault(self, text: str, at: int | None = None) -> FormatError:
        """A fault here, or of the letter or byte that is so many (from 1) of those that stand here."""
        return FormatError(text, self.file, self.line, self.column if at is None else max(self.column, 1) + at - 1)

    def of(self, text: str, at: int, begin: int = 0) -> "Place":
        """The place of a letter of a text, of which the one at `begin` stands here."""
        end = text.rfind("\n", begin, at)
        column = at - end if end >= 0 else at - begin + max(self.column, 1)
        return Place(self.file, max(self.line, 1) + text.count("\n", begin, at), column)

    def __str__(self) -> str:
        return str(self.fault("")).removesuffix(": ")


@dataclasses.dataclass(frozen=True)
class Expected:
    """A move that a problem expects, with its score in discs, if one is given."""

    move: str
    discs: int | None = None


@dataclasses.dataclass(frozen=True)
class Problem:
    """A position, how deep it is to be searched, if that is said, and what is expected: the best moves first."""

    position: Position
    depth: int | None = None
    expected: tuple[Expected, ...] = ()
    comment: str = ""
    place: Place = Place()

    def best(self) -> tuple[str, ...]:
        """The moves that are expected as best: those of the greatest score, or all where none has one."""
        return tuple(one.move for one in self.expected if one.discs == self.discs())

    def discs(self) -> int | None:
        """The score that is expected of the position."""
        return max((one.discs for one in self.expected if one.discs is not None), default=None)


@dataclasses.dataclass(frozen=True)
class Played:
    """A move of a game (`pass` among them), with what its player said of it: an evaluation in discs, and seconds."""

    move: str
    evaluation: float | None = None
    seconds: float | None = None


PLAYED = {move: Played(move) for move in (*SQUARES, PASS)}  # of which nothing was said: one object for all games


@dataclasses.dataclass(frozen=True)
class Game:
    """A start and the moves from it, passes among them, and what else a format tells: names, place, date, result.

    A result is how many discs black has more than white. `is_whole`: nothing of it was at fault; else the moves are those before the fault."""

    start: Position = Position()
    moves: tuple[Played, ...] = ()
    black: str = ""
    white: str = ""
    event: str = ""
    date: str = ""
    result: float | None = None
    theoretical: int | None = None
    tags: tuple[tuple[str, str], ...] = ()
    place: Place = Place()
    is_whole: bool = True

    def words(self) -> list[str]:
        """The moves without passes."""
        return [played.move for played in self.moves if played.move != PASS]

    def board(self) -> Board:
        """The game as it was played."""
        return Board(self.start, tuple(played.move for played in self.moves))

    def positions(self) -> Iterator[tuple[Position, str]]:
        """Each position with the move that was played at it, passes left out."""
        return ((position, move) for position, move in self.board().positions() if move != PASS)

    def final(self) -> Position:
        return self.board().position

    def problems(self) -> Iterator[Problem]:
        """Each of its positions; expected is what was played."""
        for number, (position, move) in enumerate(self.positions(), 1):
            yield Problem(position, None, (Expected(move),), f"move {number}", self.place)


def strictly(found: Iterable[Item | FormatError]) -> Iterator[Item]:
    """What a reader found, up to the first fault, which is raised."""
    for one in found:
        if isinstance(one, FormatError):
            raise one
        yield one


def with_fault(found: Iterator[Item | FormatError]) -> Iterator[Item | FormatError]:
    """What a reader finds, and behind it the fault that ends it."""
    try:
        yield from found
    except FormatError as fault:
        yield fault


class Builder(contextlib.AbstractContextManager["Builder"]):
    """Makes a game's moves one after another, and says where one can't be made. Passes that aren't written are put in. As a context it keeps the
    fault that ends what is made; `fault`: one that was there before."""

    def __init__(self, start: Position, fault: FormatError | None = None):
        self.start, self.discs, self.side = start, discs_of(start.cells), start.side
        self.fault, self.count = fault, 0  # the count is without passes
        self.moves: list[Played] = []

    @property
    def position(self) -> Position:
        """What the moves lead to."""
        return Position(cells_of(self.discs), self.side)

    def __exit__(self, kind: object, fault: object, trace: object) -> bool:
        self.fault = fault if isinstance(fault, FormatError) else self.fault
        return isinstance(fault, FormatError)

    def game(self, **more: Any) -> Iterator[Game | FormatError]:
        """The game that was made, with what else is known of it; and behind it the fault."""
        yield Game(self.start, tuple(self.moves), is_whole=not self.fault, **more)
        if self.fault:
            yield self.fault

    def play(self, played: Played, place: Place, side: str | None = None) -> None:
        """Makes a move; with a side it must be that one's."""
        at, said = INDEX.get(played.move), f"move {self.count + 1}, {played.move}"
        flips = changes(self.discs, self.side, at)
        if not flips and not can_move(self.discs, self.side):
            if not can_move(self.discs, OTHER[self.side]):
                raise place.fault(f"{said}: the game is over")
            if at is not None:
                if side == self.side:
                    raise place.fault(f"{said}: that player can't move")
                self.play(PLAYED[PASS], place)
                flips = changes(self.discs, self.side, at)
        elif at is None:
            raise place.fault(f"a pass before move {self.count + 1}, and the player can move")
        if side not in (None, self.side):
            raise place.fault(f"{said}: it is the other player's turn")
        if at is not None:
            if not flips:
                raise place.fault(f"{said}: {NAMES[self.side]} can't play there")
            self.discs, self.count = self.discs ^ flips | BIT[self.side][at], self.count + 1
        self.moves.append(played)
        self.side = OTHER[self.side]
