"""The rules of Othello: positions, legal moves, what a move flips; and a game that is being played.

A position is written with 66 letters: 64 cells from a1 to h8, row by row from the top (X a black disc, O a white one, - an empty
cell), a space, and the side to move. A move is a square, `d3`, or `pass`; each call takes it as that word, as a `Move`, or as a number, 0 to 63 for a1 to h8
and 64 for a pass.

    position = Position.opening()
    position.legal_moves()                 # ['d3', 'c4', 'f5', 'e6']
    position.play("d3").text               # '-------------------X-------XX------XO--------------------------- O'
"""
from __future__ import annotations

import dataclasses
import functools
import itertools
import re
from collections.abc import Iterator

from .errors import FormatError, IllegalMove

BLACK, WHITE, EMPTY = "X", "O", "-"
OTHER = {BLACK: WHITE, WHITE: BLACK}
NAMES = {BLACK: "black", WHITE: "white"}
PASS = "pass"
SQUARES = [column + row for row in "12345678" for column in "abcdefgh"]
INDEX = {square: at for at, square in enumerate(SQUARES)}
START = "-" * 27 + "OX" + "-" * 6 + "XO" + "-" * 27
CELLS = {"X": BLACK, "x": BLACK, "*": BLACK, "O": WHITE, "o": WHITE, "-": EMPTY, ".": EMPTY}
LENGTH = 66  # letters of a position's text

# The discs of a board as one number: bit n for a black disc on square n (0 to 63), bit 64 + n for a white one.
BIT = {BLACK: [1 << at for at in range(64)], WHITE: [1 << at + 64 for at in range(64)]}
EITHER = BIT[BLACK][0] | BIT[WHITE][0]  # both bits of square 0
WORDS = [*SQUARES, PASS]  # of a move's number
_BLACKS, _WHITES, _CELLS = str.maketrans("XO-", "100"), str.maketrans("XO-", "010"), str.maketrans("012", "-XO")
_TEXT = re.compile("[XO-]{64} [XO]")


def word_of(move: str | int) -> str:
    """A move's word. `IllegalMove` where it is none by its kind or number; whether a word is one the rules say."""
    if isinstance(move, str):
        return move.lower()
    if isinstance(move, bool) or not isinstance(move, int) or not 0 <= move < len(WORDS):
        raise IllegalMove(f"{move!r} is no move: a word, or a number from 0 to 64")
    return WORDS[move]


class Move(str):
    """A move, which is its word: `Move("D3") == Move(19) == "d3"`. `IllegalMove` where there is no such square."""

    def __new__(cls, move: str | int) -> Move:
        word = word_of(move)
        if word not in WORDS:
            raise IllegalMove(f"{move!r} is no move: a square, or pass")
        return super().__new__(cls, word)

    @property
    def square(self) -> int:
        """Its number: 0 to 63, and 64 of a pass."""
        return INDEX.get(self, len(SQUARES))


# The ways from a square to its neighbours, up or down the numbers, with the squares from which and to which a run of discs goes on: none of the first and last
# column but straight up and down. Of a step up and down the bits of a word of 64 are shifted.
_INNER, _ALL = 0x7E7E7E7E7E7E7E7E, (1 << 64) - 1
_WAYS = ((1, _INNER), (7, _INNER), (8, _ALL), (9, _INNER))


_AROUND = [sum(1 << 8 * row + column for row in range(8) for column in range(8) if 0 < max(abs(row - at // 8), abs(column - at % 8)) < 2) for at in range(64)]


def legal_word(own: int, opp: int) -> int:
    """The squares on which the player with the discs `own` may put one, bit 0 for a1: an empty one from which a run of the opponent's ends at one of its own."""
    found = 0
    for step, inner in _WAYS:
        along = opp & inner
        two = 2 * step
        up = along & own << step
        up |= along & up << step
        pair = along & along << step
        up |= pair & up << two
        up |= pair & up << two
        down = along & own >> step
        down |= along & down >> step
        pair = along & along >> step
        down |= pair & down >> two
        down |= pair & down >> two
        found |= up << step | down >> step
    return found & ~(own | opp) & _ALL


def flips_word(own: int, opp: int, disc: int) -> int:
    """What a disc on an empty square flips, all three as words of 64 bits: nothing where it isn't legal."""
    found = 0
    for step, inner in _WAYS:
        along = opp & inner
        run = along & disc << step
        for _ in range(5):
            run |= along & run << step
        if run and run << step & own:
            found |= run
        run = along & disc >> step
        for _ in range(5):
            run |= along & run >> step
        if run and run >> step & own:
            found |= run
    return found


def words_of(discs: int, side: str) -> tuple[int, int]:
    """The discs of a side and of its opponent, as words of 64 bits."""
    black, white = discs & _ALL, discs >> 64
    return (black, white) if side == BLACK else (white, black)


def changes(discs: int, side: str, square: int | None) -> int:
    """What a move of the side on a square flips, in the bits of both colours: nothing where it isn't legal."""
    if square is None or discs >> square & EITHER:
        return 0
    own, opp = words_of(discs, side)
    flipped = flips_word(own, opp, 1 << square) if opp & _AROUND[square] else 0
    return flipped | flipped << 64


def can_move(discs: int, side: str) -> bool:
    """Whether the side has a legal move."""
    return legal_word(*words_of(discs, side)) > 0


def discs_of(cells: str) -> int:
    """64 cells as a number."""
    return int(cells[::-1].translate(_BLACKS), 2) | int(cells[::-1].translate(_WHITES), 2) << 64


def cells_of(discs: int) -> str:
    """The number as 64 cells."""
    return str(int(f"{discs & _ALL:b}") + 2 * int(f"{discs >> 64:b}")).zfill(64)[::-1].translate(_CELLS)  # (of each cell a decimal digit)


@dataclasses.dataclass(frozen=True)
class Position:
    """64 cells and the side to move. It can't be changed: `play` gives another."""

    cells: str = START
    side: str = BLACK

    def __post_init__(self) -> None:
        if len(self.cells) != 64 or set(self.cells) - {BLACK, WHITE, EMPTY} or self.side not in OTHER:
            raise ValueError(f"{self.cells!r} and {self.side!r} are no position")

    @classmethod
    def opening(cls) -> Position:
        """Where a game begins: black is to move."""
        return cls()

    @classmethod
    def parse(cls, text: str) -> Position:
        """The position of a text of 66 letters: X, x or * is black, O or o white, - or . empty. Spaces and line ends may stand
        anywhere between them. `FormatError` says which column is at fault."""
        if _TEXT.fullmatch(text):
            return cls(text[:64], text[65])
        found = ""
        for column, letter in ((column, letter) for column, letter in enumerate(text, 1) if not letter.isspace()):
            if letter not in CELLS:
                raise FormatError(f"{letter!r} spells no cell", column=column)
            if len(found) == 64 and CELLS[letter] == EMPTY:
                raise FormatError("behind the 64 cells stands no side to move, X or O", column=column)
            if len(found) == 65:
                raise FormatError("behind the side to move stands more", column=column)
            found += CELLS[letter]
        if len(found) != 65:
            raise FormatError(f"a position has 64 cells and the side to move, and here are {len(found)} signs", column=len(text) + 1)
        return cls(found[:64], found[64])

    @property
    def text(self) -> str:
        """The 66 letters that a server reads."""
        return f"{self.cells} {self.side}"

    def __str__(self) -> str:
        return self.text

    @functools.cached_property
    def _discs(self) -> int:
        return discs_of(self.cells)

    @property
    def empties(self) -> int:
        """How many squares are empty."""
        return self.cells.count(EMPTY)

    def discs(self, side: str) -> int:
        """How many discs a side has."""
        return self.cells.count(side)

    def squares(self) -> list[str]:
        """The squares on which the side to move may put a disc, from a1 to h8."""
        word, found = legal_word(*words_of(self._discs, self.side)), list[str]()
        while word:
            lowest = word & -word
            found.append(SQUARES[lowest.bit_length() - 1])
            word ^= lowest
        return found

    def legal_moves(self) -> list[str]:
        """The same; `pass` alone where only the opponent can move; none where the game is over."""
        return self.squares() or ([PASS] if can_move(self._discs, OTHER[self.side]) else [])

    @property
    def legal(self) -> tuple[str, ...]:
        """`legal_moves`, to ask `move in position.legal`."""
        return tuple(self.legal_moves())

    @property
    def must_pass(self) -> bool:
        """Whether only the opponent can move."""
        return not can_move(self._discs, self.side) and can_move(self._discs, OTHER[self.side])

    @property
    def is_over(self) -> bool:
        """Whether neither player can move."""
        return not can_move(self._discs, self.side) and not can_move(self._discs, OTHER[self.side])

    def flips(self, move: str | int) -> list[str]:
        """The squares whose discs a move flips: none where it isn't legal."""
        flipped = changes(self._discs, self.side, INDEX.get(word_of(move)))
        return [one for at, one in enumerate(SQUARES) if flipped >> at & 1]

    def is_legal(self, move: str | int) -> bool:
        """Whether the player to move may make this move."""
        return bool(self.flips(move)) if word_of(move) != PASS else self.must_pass

    def play(self, move: str | int) -> Position:
        """The position after a move. `IllegalMove` where the rules don't allow it; a player who can't move must `pass`."""
        word = word_of(move)
        if word == PASS:
            if not self.must_pass:
                raise IllegalMove(f"a pass, and {'the game is over' if self.is_over else NAMES[self.side] + ' can move'}")
            return Position(self.cells, OTHER[self.side])
        if word not in INDEX:
            raise IllegalMove(f"{move!r} is no move: a square, or pass")
        if not (flipped := changes(self._discs, self.side, INDEX.get(word))):
            raise IllegalMove(f"{move}: {NAMES[self.side]} can't play there")
        return Position(cells_of(self._discs ^ flipped | BIT[self.side][INDEX[word]]), OTHER[self.side])

    def flip(self) -> Position:
        """The same with the colours exchanged, discs and side to move alike: its value is the same."""
        return Position(self.cells.translate(str.maketrans("XO", "OX")), OTHER[self.side])

    def final_discs(self, side: str | None = None) -> int:
        """How many discs a side (the one to move) has more than its opponent, an empty square being the winner's."""
        side = side or self.side
        more = self.discs(side) - self.discs(OTHER[side])
        return more + self.empties * ((more > 0) - (more < 0))

    def drawn(self, marks: dict[str, str] | None = None) -> str:
        """The board for a terminal, with what stands in `marks` for the empty squares that it names; a pass stands below it."""
        marks = marks or {}
        width = max([1, *map(len, marks.values())]) + 1
        words = [marks.get(square, cell.replace(EMPTY, ".")).rjust(width) for square, cell in zip(SQUARES, self.cells)]
        rows = [f"{row + 1} {''.join(words[8 * row : 8 * row + 8])}" for row in range(8)]
        below = [f"{PASS} {marks[PASS]}"] if PASS in marks else []
        return "\n".join(["  " + "".join(column.rjust(width) for column in "abcdefgh"), *rows, *below])

    def _repr_svg_(self) -> str:
        """The board as a notebook shows it; a dot on each legal square, in the colour of the player to move."""
        colour, legal = {BLACK: "#111", WHITE: "#fff"}, self.squares()
        text = ['<svg xmlns="http://www.w3.org/2000/svg" viewBox="0 0 340 340" width="340" height="340" font-family="sans-serif" font-size="12">',
                '<rect x="20" y="20" width="320" height="320" fill="#2a7a4b"/>']  # fmt: skip
        for at, column in enumerate("abcdefgh"):
            text.append(f'<text x="{40 + 40 * at}" y="14" text-anchor="middle">{column}</text>')
            text.append(f'<text x="10" y="{44 + 40 * at}" text-anchor="middle">{at + 1}</text>')
        text += [f'<path d="M{20 + 40 * at} 20V340M20 {20 + 40 * at}H340" stroke="#174"/>' for at in range(9)]
        for at, (square, cell) in enumerate(zip(SQUARES, self.cells)):
            if cell != EMPTY or square in legal:
                radius, fill = (4, self.side) if cell == EMPTY else (16, cell)
                text.append(f'<circle cx="{40 + 40 * (at % 8)}" cy="{40 + 40 * (at // 8)}" r="{radius}" fill="{colour[fill]}"/>')
        return "".join([*text, "</svg>"])


@dataclasses.dataclass(frozen=True)
class Board:
    """A game that is being played: a start and the moves made from it, passes among them. It can't be changed: `push` and `pop` give others.
    Two are equal if their starts and moves are."""

    start: Position = Position()
    moves: tuple[str, ...] = ()

    _past: tuple[Position, ...] = dataclasses.field(default=(), repr=False, compare=False)  # the positions, where they are known

    def __post_init__(self) -> None:
        if not self._past:
            object.__setattr__(self, "moves", tuple(map(word_of, self.moves)))
            object.__setattr__(self, "_past", (*itertools.accumulate(self.moves, Position.play, initial=self.start),))

    @classmethod
    def parse(cls, text: str) -> Board:
        """A board that begins with the position of a text (`Position.parse`)."""
        return cls(Position.parse(text))

    @property
    def position(self) -> Position:
        """What the moves lead to."""
        return self._past[-1]

    def positions(self) -> Iterator[tuple[Position, str]]:
        """Each position with the move that was played at it, passes among them."""
        return zip(self._past, self.moves)

    @property
    def side(self) -> str:
        return self.position.side

    @property
    def is_over(self) -> bool:
        return self.position.is_over

    @property
    def legal(self) -> tuple[str, ...]:
        """What `push` takes without a pass before it."""
        return self.position.legal

    def push(self, move: str | int) -> Board:
        """The board after a move, with a pass before it where the player to move has none but that. `IllegalMove` where it isn't allowed."""
        word = word_of(move)
        if word != PASS and self.position.must_pass:
            return self.push(PASS).push(word)
        return Board(self.start, (*self.moves, word), (*self._past, self.position.play(word)))

    def pop(self) -> Board:
        """The board before the last move, and before a pass that stands before it; itself at the start."""
        count = max(len(self.moves) - 1, 0)
        while count and self.moves[count - 1] == PASS:
            count -= 1
        return Board(self.start, self.moves[:count], self._past[: count + 1])

    def flip(self) -> Board:
        """The same game with the colours exchanged."""
        return Board(self.start.flip(), self.moves)

    def __str__(self) -> str:
        return self.position.drawn()

    def _repr_svg_(self) -> str:
        return self.position._repr_svg_()
