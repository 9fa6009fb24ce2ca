"""An engine by the Go Text Protocol, version 2, as boards and referees of Othello use it; its values come from a server of `othello serve`.

usage: coluwen-gtp [--depth 6] [--server HOST:PORT] [..]     (commands come by standard input)

A board starts it as its engine, with this line as the command. By hand:

    $ printf 'play black f5\\ngenmove white\\nquit\\n' | coluwen-gtp
    =
    = F6
    =

Squares are named as in Othello, A1 at the top left. `play COLOUR SQUARE` and `genmove COLOUR`: where that colour isn't to move and the
other one can't, the pass between them is made (gtp-rhino, quarry); a pass may be played too. `genmove` of a player who can't move
answers PASS, also where the game is over. Where `time_settings` or `time_left` give a time, `genmove` looks 2, 4, 6 .. plies deep, up to the depth that is set, for
its part of that: the time for so many moves by their number, else nine tenths of the time by half of the empty squares.

| Command | |
|---|---|
| protocol_version, name, version, known_command, list_commands, quit | as the protocol says |
| list_games, set_game Othello | of quarry |
| boardsize 8, clear_board, komi n | 8 lines alone; komi must be a number, and isn't heeded |
| time_settings n n n, time_left COLOUR n n | as above |
| loadsgf FILE [n] | a game of any format, before its n-th move or at its end |
| play, genmove, reg_genmove, undo | as above; undo takes back a move and the passes before it |
| showboard, final_score | `B+12`, `W+2` or `0` once the game is over, an empty square being the winner's |
| final_status_list alive, dead or seki | every disc is alive |
| gogui-analyze_commands, coluwen-values | what GoGui shows: the exact value of each move on its square |
| coluwen-depth n, coluwen-score, coluwen-position [66 letters] | how deep it looks; the last score; sets up a position, or shows it |
"""

import re
import sys
import time
from collections.abc import Callable, Sequence

from .. import __version__
from .._core import DEEPEST
from ..analyst import Result
from ..board import BLACK, EMPTY, OTHER, PASS, SQUARES, WHITE, Board, Position
from ..errors import ColuwenError, FormatError, IllegalMove
from .command import analyst_of, ending, parser, say, teller
from .player import Player, Unfit
from .review import game_of

NAME = "coluwen-gtp"
COLOURS = {"b": BLACK, "black": BLACK, "w": WHITE, "white": WHITE}


def colour_of(word: str) -> str:
    if word.lower() not in COLOURS:
        raise Unfit("invalid color")
    return COLOURS[word.lower()]


def numbers_of(words: list[str], count: int) -> list[int]:
    """So many whole numbers, not less than 0."""
    if len(words) != count or not all(re.fullmatch("[0-9]{1,9}", word) for word in words):
        raise Unfit("syntax error")
    return [int(word) for word in words]


def final_score(position: Position) -> str:
    """The result of a finished game: empty squares are the winner's."""
    discs = position.final_discs(BLACK)
    return f"{'B' if discs > 0 else 'W'}+{abs(discs)}" if discs else "0"


class Gtp:
    """The commands, each a method; the game that is played."""

    def __init__(self, player: Player):
        self.player, self.board = player, Board()
        self.last: Result | None = None
        self.commands: dict[str, Callable[[list[str]], str]] = {
            "protocol_version": lambda _: "2", "name": lambda _: "Coluwen", "version": lambda _: __version__, "known_command": self.known_command,
            "list_commands": lambda _: "\n".join(self.commands), "quit": lambda _: "", "list_games": lambda _: "Othello", "set_game": self.set_game,
            "boardsize": self.boardsize, "clear_board": self.clear_board, "komi": self.komi, "play": self.play, "genmove": self.genmove,
            "reg_genmove": self.reg_genmove, "undo": self.undo, "time_settings": self.time_settings, "time_left": self.time_left, "loadsgf": self.load,
            "showboard": self.showboard, "final_score": self.final_score, "final_status_list": self.final_status_list,
            "gogui-analyze_commands": lambda _: "gfx/Values/coluwen-values\nstring/Score/coluwen-score\nnone/Depth/coluwen-depth %s",
            "coluwen-depth": self.set_depth, "coluwen-score": self.score, "coluwen-position": self.set_position, "coluwen-values": self.values,
        }  # fmt: skip
        self.overtime: tuple[float, int] = (0.0, 0)  # behind the main time: seconds for so many moves
        self.clocks: dict[str, tuple[float, int]] = {}  # of each colour: seconds, and for how many moves; 0 for all

    def heard(self, line: str) -> tuple[str, bool]:
        """The response to a line, with the empty line behind it; none to an empty line. Whether more are wanted."""
        line = re.sub(r"[\x00-\x08\x0b-\x1f\x7f]", "", line.split("#")[0]).replace("\t", " ")
        words = line.split()
        number = words.pop(0) if words and words[0].isdecimal() else ""
        if not words:
            return "", True
        command = self.commands.get(words[0])
        try:
            if not command:
                raise Unfit("unknown command")
            text, sign = command(words[1:]), "="
        except Unfit as fault:
            text, sign = str(fault), "?"
        return f"{sign}{number} {text}".rstrip(" ") + "\n", words[0] != "quit"

    def known_command(self, words: list[str]) -> str:
        return "true" if words and words[0] in self.commands else "false"

    def set_game(self, words: list[str]) -> str:
        if " ".join(words).lower() not in ("othello", "reversi"):
            raise Unfit("only Othello is played")
        return self.clear_board([])

    def boardsize(self, words: list[str]) -> str:
        if words != ["8"]:
            raise Unfit("unacceptable size")
        return self.clear_board([])

    def clear_board(self, _: list[str]) -> str:
        self.board = Board()
        return ""

    def komi(self, words: list[str]) -> str:
        if len(words) != 1 or not re.fullmatch(r"[+-]?\d+(\.\d*)?", words[0]):
            raise Unfit("komi not a float")
        return ""

    def time_settings(self, words: list[str]) -> str:
        main, seconds, moves = numbers_of(words, 3)
        self.overtime, self.clocks = (seconds, moves), {}
        if main or seconds and moves:  # (seconds for no moves are GTP's way to say that there is no limit)
            self.clocks = {colour: (main, 0) if main else self.overtime for colour in (BLACK, WHITE)}
        return ""

    def time_left(self, words: list[str]) -> str:
        seconds, moves = numbers_of(words[1:], 2)
        self.clocks[colour_of(words[0])] = seconds, moves
        return ""

    def time_for(self, colour: str) -> float | None:
        """How many seconds a move of this colour may take; None where there is no limit."""
        if colour not in self.clocks:
            return None
        seconds, moves = self.clocks[colour]
        return max(0.9 * seconds / (moves or max(self.board.position.empties / 2, 1)), 0.05)

    def used(self, colour: str, seconds: float) -> None:
        """A colour's clock goes on, as the controller's does: behind the main time comes the other, anew after so many moves."""
        left, moves = self.clocks[colour]
        left, moves = (left - seconds, moves) if not moves else (left - seconds, moves - 1) if moves > 1 else self.overtime
        self.clocks[colour] = (left, moves) if left > 0 or not self.overtime[1] else self.overtime

    def load(self, words: list[str]) -> str:
        if not words or len(words) > 2 or words[1:] and not words[1].isdecimal():
            raise Unfit("syntax error")
        try:
            game = game_of(words[0], 1).board()
        except (OSError, ColuwenError) as fault:
            raise Unfit(f"cannot load file: {fault}") from None
        self.board = Board(game.start, game.moves[: int(words[1]) - 1 if words[1:] and int(words[1]) else None])
        return ""

    def final_status_list(self, words: list[str]) -> str:
        if words not in (["alive"], ["dead"], ["seki"]):
            raise Unfit("invalid status")
        return " ".join(square.upper() for square, cell in zip(SQUARES, self.board.position.cells) if cell != EMPTY) if words == ["alive"] else ""

    def values(self, _: list[str]) -> str:
        """What GoGui shows on the board: each move's exact value, and the best ones green."""
        if self.board.is_over or self.board.position.must_pass:
            return ""
        depth = max(self.player.limit(self.board.position, self.player.depth), 1)
        entries = self.player.analyst.analyse_all(self.board.position, depth)
        best = " ".join(entry.move.upper() for entry in entries if entry.score == entries[0].score)
        labels = " ".join(f"{entry.move.upper()} {entry.score.mover:+d}" for entry in entries)
        return f"LABEL {labels}\nCOLOR green {best}\nTEXT {entries[0].score} by {depth} plies"

    def turned_to(self, colour: str) -> None:
        """Makes the pass that must stand before a move of this colour, if one must."""
        if self.board.side != colour and self.board.position.must_pass:
            self.board = self.board.push(PASS)

    def play(self, words: list[str]) -> str:
        if len(words) != 2:
            raise Unfit("syntax error")
        colour, move = colour_of(words[0]), words[1].lower()
        self.turned_to(colour)
        if move == PASS and self.board.side != colour and self.board.moves[-1:] == (PASS,):
            return ""  # it was made already
        try:
            if self.board.side != colour:
                raise IllegalMove("")
            self.board = self.board.push(move)
        except IllegalMove:
            raise Unfit("illegal move") from None
        return ""

    def reg_genmove(self, words: list[str]) -> str:
        colour, position = colour_of(words[0] if words else ""), self.board.position
        if position.is_over:
            return "PASS"
        if position.side != colour:
            if not position.must_pass:
                return "PASS" if not Position(position.cells, OTHER[position.side]).squares() else self.out_of_turn(colour)
            position = position.play(PASS)
        return self.best(position)

    def out_of_turn(self, colour: str) -> str:
        """A move of the player whose turn it isn't: GTP lets a board ask for it."""
        return self.best(Position(self.board.position.cells, colour))

    def best(self, position: Position, seconds: float | None = None) -> str:
        self.last = self.player.search(position) if seconds is None else self.player.search_for(position, seconds)
        return (self.last.best or PASS).upper()

    def genmove(self, words: list[str]) -> str:
        colour = colour_of(words[0] if words else "")
        if not self.board.is_over and self.board.side != colour and not self.board.position.must_pass:
            raise Unfit("it is the other player's turn")
        self.turned_to(colour)
        begun, seconds = time.monotonic(), self.time_for(colour)
        move = self.reg_genmove(words) if seconds is None or self.board.is_over or self.board.side != colour else self.best(self.board.position, seconds)
        if seconds is not None:
            self.used(colour, time.monotonic() - begun)
        if not self.board.is_over:
            self.board = self.board.push(move)
        return move

    def undo(self, _: list[str]) -> str:
        if not self.board.moves:
            raise Unfit("cannot undo")
        self.board = self.board.pop()
        return ""

    def showboard(self, _: list[str]) -> str:
        return f"\n{self.board.position.drawn()}\n{'black' if self.board.side == BLACK else 'white'} to move"

    def final_score(self, _: list[str]) -> str:
        if not self.board.is_over:
            raise Unfit("cannot score")
        return final_score(self.board.position)

    def set_depth(self, words: list[str]) -> str:
        if len(words) != 1 or not words[0].isdecimal() or not 1 <= int(words[0]) <= DEEPEST:
            raise Unfit(f"a depth is from 1 to {DEEPEST}")
        self.player.depth = int(words[0])
        return ""

    def score(self, _: list[str]) -> str:
        if not self.last:
            raise Unfit("nothing was searched")
        return f"{self.last.score} by {self.last.depth} plies"

    def set_position(self, words: list[str]) -> str:
        if not words:
            return self.board.position.text
        try:
            self.board = Board.parse(" ".join(words))
        except FormatError as fault:
            raise Unfit(str(fault)) from None
        return ""


def main(words: Sequence[str] | None = None) -> int:
    options = parser(__doc__, NAME, outage=0)
    options.add_argument("--depth", type=int, default=6, choices=range(1, DEEPEST + 1), metavar="1..12", help="how many plies it looks (%(default)d)")
    asked = options.parse_args(words)
    with analyst_of(asked, NAME) as client:
        client.info()  # a wrong port is said at once, and how deep the server looks is known
        gtp = Gtp(Player(client, asked.depth, teller(NAME)))
        for line in sys.stdin:
            text, more = gtp.heard(line)
            if text:
                say(text)
            if not more:
                break
    return 0


command = ending(NAME, main)

if __name__ == "__main__":
    command()
