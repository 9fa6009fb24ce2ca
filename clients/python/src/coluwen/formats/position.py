"""Positions as texts: the 66 letters that a server reads, and a form like chess's FEN.

66 letters: 64 cells from a1 to h8 (X, x, * black; O, o white; -, . empty), a space, and the side to move. A line may name a depth
before them, as `othello solve` reads it: `6 ------..- X`.

FEN-like: eight rows from the top, parted by /, then the side: `8/8/8/3OX3/3XO3/8/8/8 X`. A digit counts empty cells, X, x, *, B and b are
black, O, o, W and w white, and so the side.

A board of 8 lines of 8 cells, with or without numbers, letters and spaces as boards are printed; who is to move stands behind it (`X`, `white`, `black to
move`), and where it doesn't, it is who has the move after so many discs without passes.

No description of the FEN-like form is at hand; chess's was taken over, with the rows from the top as Othello names them.
"""

import itertools
import re

from ..board import CELLS, EMPTY, Position
from ..errors import FormatError
from .records import Place, Problem

ROW = re.compile(r"\s*(?:[1-8][\s|]*)?((?:[-.*XxOo][\s|]*){8})(?:[1-8])?\s*")
HEAD = re.compile(r"\s*(?:[aA]\s*[bB]\s*[cC]\s*[dD]\s*[eE]\s*[fF]\s*[gG]\s*[hH])?\s*")
TO_MOVE = re.compile(r"\s*(?:side|turn|player)?\s*[:=]?\s*(?P<side>[Xx*]|[Oo]|(?i:black|white))\s*(?:(?:is )?to (?:move|play))?[\s.]*", re.IGNORECASE)
DISCS = {**{letter: cell for letter, cell in CELLS.items() if cell != EMPTY}, "B": "X", "b": "X", "W": "O", "w": "O"}
FEN_CELLS = {**DISCS, **{str(count): count * EMPTY for count in range(1, 9)}}


def read_line(text: str, place: Place = Place()) -> Problem:
    """A line of 66 letters, or of a depth and 66 letters."""
    depth, space, rest = text.partition(" ") if re.match(r"\d{1,8} ", text) else ("", "", text)
    begin = len(depth + space)
    if not re.fullmatch(".{64} .", rest):
        raise place.fault(f"a position has 64 cells, a space and the side to move, and here are {len(rest)} letters", begin + 1)
    try:
        return Problem(Position.parse(rest), int(depth) if depth else None, place=place)
    except FormatError as fault:
        raise place.fault(fault.text, fault.column + begin) from None


def read_fen(text: str, place: Place = Place()) -> Problem:
    """A line of the FEN-like form."""
    cells, row, column = "", 1, 0
    board, _, side = text.partition(" ")
    for at, letter in enumerate(board, 1):
        if letter == "/":
            if column != 8 or row == 8:
                raise place.fault(f"row {row} has {column} cells" if column != 8 else "there are more than 8 rows", at)
            row, column = row + 1, 0
        elif letter in FEN_CELLS and column + len(FEN_CELLS[letter]) <= 8:
            cells, column = cells + FEN_CELLS[letter], column + len(FEN_CELLS[letter])
        else:
            raise place.fault(f"{letter!r} doesn't fit in row {row}", at)
    if row != 8 or column != 8:
        raise place.fault(f"the text ends in row {row} behind {column} cells", len(board) + 1)
    if side.strip() not in DISCS:
        raise place.fault(f"{side.strip()!r} is no side to move: X or O", len(board) + 2)
    return Problem(Position(cells, DISCS[side.strip()]), place=place)


def fen(position: Position) -> str:
    rows = [position.cells[at : at + 8] for at in range(0, 64, 8)]
    return "/".join(re.sub("-+", lambda found: str(len(found[0])), row) for row in rows) + f" {position.side}"


def read_board(lines: list[str], at: int, place: Place = Place()) -> tuple[Problem, int] | None:
    """The board that begins at a line (from 0), and behind which line it ends; None where none begins there."""
    first = at
    while first < len(lines) and HEAD.fullmatch(lines[first]):
        first += 1
    rows = [row for row in itertools.takewhile(bool, map(ROW.fullmatch, lines[first : first + 8])) if row]
    if len(rows) < 8:
        return None
    here = first + 8
    while here < len(lines) and HEAD.fullmatch(lines[here]) and here - at < 12:
        here += 1
    cells = "".join(CELLS[letter] for row in rows for letter in row[1] if letter in CELLS)
    told = TO_MOVE.fullmatch(lines[here]) if here < len(lines) else None
    side = DISCS[told["side"][0]] if told else "XO"[(64 - cells.count("-")) % 2]
    return Problem(Position(cells, side), place=Place(place.file, first + 1, 1)), here + 1 if told else here
