"""What a position or a move is worth: points of the evaluation or discs at the game's end, exactly or as a bound.

The server's values lie between -128,000 and 128,000, seen by the player to move. In a finished game a value is 2,000 for each disc more
than the opponent's; the evaluation of any other position lies between -1,184 and 1,184. So a value beyond that is the end of the
game, as one is whose search reached the end in every line, where 0 is a draw.
"""
from __future__ import annotations

import dataclasses
import re

from .board import BLACK, OTHER, Position

GREATEST_EVALUATION, A_DISC, GREATEST = 1184, 2000, 128000
EXACT, AT_MOST, AT_LEAST = "=", "<", ">"
SIGNS = {EXACT: "", AT_MOST: "at most ", AT_LEAST: "at least "}
TURNED = {EXACT: EXACT, AT_MOST: AT_LEAST, AT_LEAST: AT_MOST}


@dataclasses.dataclass(frozen=True, order=True)
class Score:
    """A value as the player to move sees it; the greater, the better for that player, and of equals `at most` before exact before `at least`.

    `value`: the server's; `sign`: = exactly, < at most, > at least; `ends`: it is known to be the game's end, and counts discs; `side`: who
    is to move. `mover`, `black` and `white` have it in its `unit`, as that player sees it."""

    value: int
    sign: str = EXACT
    ends: bool = False
    side: str = BLACK

    def __post_init__(self) -> None:
        if self.sign not in SIGNS or abs(self.value) > GREATEST or self.side not in OTHER:
            raise ValueError(f"{self.sign}{self.value} of {self.side!r} is no score")
        if abs(self.value) > GREATEST_EVALUATION:
            object.__setattr__(self, "ends", True)

    @classmethod
    def of(cls, value: int, position: Position, depth: int, sign: str = EXACT) -> Score:
        """A value of a position that was searched so deep: where no cell would be left then, it is the end of the game."""
        return cls(value, sign, depth >= position.empties, position.side)

    @classmethod
    def told(cls, value: int, sign: str, ends: bool, side: str) -> "Score":
        """A score of what a server's grammar lets through, and so isn't tested again: a value has many, one for each move."""
        made = cls.__new__(cls)
        made.__dict__.update(value=value, sign=sign, ends=ends or not -GREATEST_EVALUATION <= value <= GREATEST_EVALUATION, side=side)
        return made

    @property
    def is_exact(self) -> bool:
        return self.sign == EXACT

    @property
    def is_draw(self) -> bool:
        return self.ends and self.value == 0 and self.is_exact

    @property
    def unit(self) -> str:
        """`discs` at the game's end, else `points`."""
        return "discs" if self.ends else "points"

    @property
    def mover(self) -> int:
        """How many of the unit, as the player to move sees it."""
        return (abs(self.value) // A_DISC) * (1 if self.value > 0 else -1) if self.ends else self.value

    @property
    def black(self) -> int:
        """The same as black sees it: of a bound, the sign is turned too where white is to move (`flip`)."""
        return self.mover if self.side == BLACK else -self.mover

    @property
    def white(self) -> int:
        return -self.black

    @property
    def discs(self) -> float:
        """As boards show it: discs at the game's end, else the evaluation's points divided by a hundred, so less than 12."""
        return self.value / A_DISC if self.ends else self.value / 100

    def flip(self) -> Score:
        """The same, as the opponent sees it."""
        return Score(-self.value, TURNED[self.sign], self.ends, OTHER[self.side])

    __neg__ = flip

    def __str__(self) -> str:
        """`-3`, `+12 discs`, `draw`, `at most -4`."""
        unit = f" disc{'s' * (abs(self.mover) != 1)}" if self.ends else ""
        return SIGNS[self.sign] + (f"{self.mover:+d}{unit}" if self.value else "draw" if self.ends else "0")

    def words(self) -> str:
        """The same as a sentence's end: `wins by 12 discs`, `a draw`, `-3`, `at most a draw`."""
        said = {"+": "wins by ", "-": "loses by ", "draw": "a draw"}
        return re.sub(r"[+-]|draw", lambda found: said[found[0]], str(self)) if self.ends else str(self)


@dataclasses.dataclass(frozen=True)
class Entry:
    """What is known of a move: it is worth its score, one ply less deep than the position."""

    move: str
    score: Score

    def __str__(self) -> str:
        return f"{self.move}{self.score.sign}{self.score.value}"
