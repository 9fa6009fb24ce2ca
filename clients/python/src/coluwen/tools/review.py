"""Reviews a game over a server, on a terminal: for each move its value, the best move of its position, and what was lost by it.

usage: coluwen-review [--depth 6] [--boards last|worst|all] [--start POSITION] [--server HOST:PORT] [..] MOVES ..
       coluwen-review [..] --file FILE [--game 1]

MOVES is a transcript, `f5d6c3d3c4..`; passes need not be written. FILE has games of any format. A game with a move that isn't legal isn't reviewed: what is
wrong is said with file, line and column, and the status is 1. It is 3 where some move has no value. A start has 64 squares from a1 to h8, a space, and who moves.

Values are seen by the player who moves, so many plies deep (6). A value of 1,184 at most is the evaluation's, in its
points; a greater one is the end of the game: 'wins by 12 discs'. A loss is what the best move is worth more.
"""

import dataclasses
import os
import sys
from collections.abc import Iterator, Sequence

from .. import formats
from ..analyst import Analyst, Result
from ..board import NAMES, PASS, SQUARES, Board, Position
from ..errors import ColuwenError, FormatError, Late, TooDeep
from ..formats import Game, transcript
from ..score import A_DISC, GREATEST_EVALUATION, Score
from .command import LONG_OUTAGE, NO_VALUE, analyst_of, ending, parser, say

NAME = "coluwen-review"
COLOURS = {"X": "\033[30m●", "O": "\033[97m●", ".": "\033[32m·", "*": "\033[93m*", "!": "\033[93m!"}


@dataclasses.dataclass(frozen=True)
class Row:
    """What is known of a move of a game; or its fault."""

    number: int
    move: str
    before: Position
    after: Position
    fault: str = ""
    value: Score | None = None  # of the move, and of the best one
    best_value: Score | None = None
    best: str = ""
    squares: dict[str, Score] = dataclasses.field(default_factory=dict)

    @property
    def lost(self) -> int:
        return self.best_value.value - self.value.value if self.best_value and self.value else 0


def review(analyst: Analyst, board: Board, depth: int) -> Iterator[Row]:
    """Of each move a row, as soon as it is known."""
    made = [(position, move) for position, move in board.positions() if move != PASS]
    questions = [one for position, move in made for one in ((position, depth), (position.play(move), depth - 1))]
    answers = (outcome.answer for outcome in analyst.analyse_many(questions))
    for number, ((position, move), at_best, after) in enumerate(zip(made, answers, answers), 1):
        row = Row(number, move, position, position.play(move))
        faults = [one for one in (at_best, after) if isinstance(one, ColuwenError)]
        for fault in faults:
            if not isinstance(fault, (TooDeep, Late)):
                raise fault
        if isinstance(at_best, Result) and isinstance(after, Result):
            value = Score(-after.score.value, "=", at_best.score.ends or after.score.ends, position.side)
            known = {entry.move: entry.score for entry in at_best.table} | {move: value}
            yield dataclasses.replace(row, value=value, best_value=at_best.score, best=at_best.best or "", squares=known)
        else:
            yield dataclasses.replace(row, fault=str(faults[0]))


def drawn(position: Position, marks: dict[str, str], colours: bool) -> str:
    """A board for the terminal; marks are written where the cells are empty."""
    lines = [line[:2] + line[3:] for line in position.drawn(marks).split("\n")[:9]]
    if colours:
        lines[1:] = [f"{line[:2]}\033[42m{''.join(COLOURS.get(cell, cell) for cell in line[2:])} \033[0m" for line in lines[1:]]
    return "\n".join(f"  {line}" for line in lines)


def shown(row: Row, colours: bool) -> str:
    """The board before a move, with what was played (!) and what is best (*), if that is another square; and beside each
    line of it what is known of its other squares."""
    lines = drawn(row.before, {row.best: "*", row.move: "!"}, colours).split("\n")
    for square, score in row.squares.items():
        if square in SQUARES:
            lines[int(square[1])] += f"   {square} {score.words()}"
    return "\n".join([f"\nbefore move {row.number}, {NAMES[row.before.side]} to move: ! is what was played, * what is best", *lines])


def summary(rows: list[Row]) -> Iterator[str]:
    """What each player lost in all, in points, while the game wasn't decided."""
    for side in "XO":
        theirs = [row for row in rows if row.before.side == side and row.value]
        points = sum(row.lost for row in theirs if row.value and row.best_value and max(abs(row.best_value.value), abs(row.value.value)) <= GREATEST_EVALUATION)
        yield f"{NAMES[side]}: {sum(row.lost == 0 for row in theirs)} of {len(theirs)} moves were best; {points} points lost by the others"


def loss_of(best: Score, score: Score) -> str:
    """What was lost by a move of this score where another has the best one, in words; nothing where they are the same."""
    if best.value == score.value:
        return ""
    if not best.ends and not score.ends:
        return str(best.value - score.value)
    if best.ends and score.ends:
        discs = (best.value - score.value) // A_DISC
        return f"{discs} disc{'s' * (discs != 1)}"
    if best.ends:
        return "a sure win" if best.value > 0 else "a sure draw"
    return "the game" if score.value < 0 else str(best.value - score.value)


def game_of(file: str, number: int) -> Game:
    """The game of a number of a file. What is at fault in it, or in the file where there is no such game, is raised."""
    count, faults = 0, list[FormatError]()
    for one in formats.games(file):
        if isinstance(one, Game):
            count += 1
            if count == number and one.is_whole:
                return one
        elif count == number:  # (a game's fault comes behind it)
            raise one
        else:
            faults.append(one)
    raise faults[0] if faults and not count else ColuwenError(f"{file} has {count} games")


def main(words: Sequence[str] | None = None) -> int:
    options = parser(__doc__, NAME, LONG_OUTAGE)
    options.add_argument("moves", nargs="*", metavar="MOVES")
    options.add_argument("--file", metavar="FILE", help="a file of games, in place of MOVES")
    options.add_argument("--game", type=int, default=1, metavar="N", help="which of the file's games (%(default)d)")
    options.add_argument("--depth", type=int, default=6, choices=range(1, 13), metavar="1..12", help="how many plies (%(default)d)")
    options.add_argument("--boards", choices=("last", "worst", "all"), default="worst", help="which positions are drawn (%(default)s)")
    options.add_argument("--start", default="", metavar="POSITION", help="where the game begins (the opening)")
    asked = options.parse_args(words)
    if bool(asked.moves) == bool(asked.file):
        options.error("a game is named by its MOVES or by --file")
    colours = sys.stdout.isatty() and "NO_COLOR" not in os.environ
    start = Position.parse(asked.start) if asked.start.strip() else None
    game = game_of(asked.file, asked.game) if asked.file else transcript.read(" ".join(asked.moves), start)
    rows: list[Row] = []
    with analyst_of(asked, NAME) as client:
        client.ping()
        say(f"{'':>3} {'player':6} {'move':5}{'value':20}{'best':5}{'its value':20}lost")
        for row in review(client, game.board(), asked.depth):
            rows.append(row)
            if asked.boards == "all":
                say(shown(row, colours))
            told = row.fault
            if row.value and row.best_value:
                told = f"{row.value.words():20}{row.best:5}{row.best_value.words():20}{loss_of(row.best_value, row.value)}"
            say(f"{row.number:>3} {NAMES[row.before.side]:6} {row.move:5}{told}".rstrip())
    if asked.boards == "worst":
        for row in sorted((row for row in rows if row.lost), key=lambda row: -row.lost)[:2]:
            say(shown(row, colours))
    say("\nafter the last move\n" + drawn(game.final(), {}, colours))
    say("\n".join(summary(rows)))
    return NO_VALUE if any(row.fault for row in rows) else 0


command = ending(NAME, main)

if __name__ == "__main__":
    command()
