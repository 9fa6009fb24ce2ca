"""A match of two engines over a list of openings, each played in both colours: a table with the error of the score, and Elo.

usage: coluwen-match [--openings FILE [--moves 8]] [--games FILE [--resume]] [--seconds 60] [--at-once 2] [--sprt elo0=0,elo1=20] ONE OTHER

ONE and OTHER are each `depth:6` (the server of --server, so many plies), `gtp:COMMAND` or `nboard:COMMAND` (a program, with its
words, as 'gtp:gtp-rhino -l 2'), with `NAME=` before it if it is to have a name. FILE of --openings has games or positions of any format, transcripts a
line for example, or a year of WTHOR's; --moves takes so many of each game's moves, and what is the same then is played once. Without it each pair of games
begins from one of the four first moves and their replies. --games keeps the games as GGF in UTF-8, each as it ends; a match that is stopped has kept those
that were played, and goes on behind the last pair of them with --resume. --at-once plays so many openings at the same
time, each by programs of its own. After each round (an opening in both colours) the score is told.

    $ coluwen-match --openings openings.txt depth:4 'gtp:gtp-rhino -l 1 -b 0'

The referee keeps the rules itself: an engine that plays what isn't legal, says nothing for --seconds or ends loses that game by 64 discs,
and is told; one that doesn't start ends the match. Passes are made by the referee, and are told to engines that take them. The score is
wins and half the draws; its error is that of the mean of the pairs (both colours of an opening), one standard deviation, with the variance of a
fair pair added to theirs: so it isn't 0 where each pair was shared. Elo is the difference of ratings that such a score stands for, with what the score less and more its error
stand for; where one side has won all, a bound.

--sprt ends the match as soon as the results decide whether ONE is stronger by elo0 or by elo1 (0 and 20), with the errors alpha and beta (0.05 each), as cutechess does; a pair
counts as one result, with the variance of pairs: `--sprt elo0=0,elo1=20,alpha=0.05,beta=0.05`. Without a decision it ends with the openings.
"""

import concurrent.futures
import contextlib
import dataclasses
import functools
import math
import os
import pathlib
import queue
import re
import shlex
import statistics
import subprocess
import sys
import threading
from collections.abc import Callable, Iterable, Iterator, Mapping, Sequence

from .. import formats
from ..analyst import Analyst
from ..board import BLACK, NAMES, PASS, WHITE, Board, Position
from ..errors import ColuwenError, IllegalMove
from ..formats import Game, Played, ggf
from .command import LONG_OUTAGE, analyst_of, count, ending, parser, say, teller
from .player import Player as Searcher

NAME = "coluwen-match"
LOST = 64  # discs by which a game is lost that isn't played to its end


class Player:
    """One side of a match."""

    def __init__(self, name: str):
        self.name = name

    def start(self) -> None:
        """Before the first game: `ColuwenError` where it can't play."""

    def begin(self, board: Board) -> None:
        """A game begins, with what was played already."""

    def told(self, move: str, side: str) -> None:
        """A move of either side, or a pass."""

    def move(self, board: Board) -> str:
        """What this side plays."""
        raise NotImplementedError

    def close(self) -> None:
        pass


class Forfeit(ColuwenError):
    """An engine has lost a game otherwise than on the board."""

    def __init__(self, player: Player, text: str):
        super().__init__(f"{player.name} {text}")
        self.player = player


class Plies(Player):
    """So many plies of the server."""

    def __init__(self, name: str, analyst: Analyst, depth: int):
        super().__init__(name)
        self.searcher = Searcher(analyst, depth, teller(NAME))

    def move(self, board: Board) -> str:
        return self.searcher.search(board.position).best or PASS


class Program(Player):
    """An engine that is spoken to by its standard input and output."""

    def __init__(self, name: str, command: str, seconds: float):
        super().__init__(name)
        self.seconds, self.heard = seconds, queue.Queue[str | None]()
        self.process = subprocess.Popen(shlex.split(command), stdin=subprocess.PIPE, stdout=subprocess.PIPE, text=True, bufsize=1)
        threading.Thread(target=self.listen, daemon=True).start()

    def start(self) -> None:
        try:
            self.greet()
        except Forfeit as forfeit:
            raise ColuwenError(f"{self.name} doesn't start: it {str(forfeit).removeprefix(f'{self.name} ')}") from None

    def greet(self) -> None:
        """A word that each engine of its protocol answers."""
        raise NotImplementedError

    def listen(self) -> None:
        assert self.process.stdout
        for line in self.process.stdout:
            self.heard.put(line.rstrip("\r\n"))
        self.heard.put(None)

    def say(self, line: str) -> None:
        assert self.process.stdin
        try:
            self.process.stdin.write(f"{line}\n")
        except OSError:
            raise Forfeit(self, "has ended") from None

    def line(self) -> str:
        try:
            found = self.heard.get(timeout=self.seconds)
        except queue.Empty:
            raise Forfeit(self, f"says nothing for {self.seconds:g} seconds") from None
        if found is None:
            raise Forfeit(self, "has ended")
        return found

    def close(self) -> None:
        try:
            self.say("quit")
            self.process.wait(2)
        except (Forfeit, subprocess.TimeoutExpired):
            self.process.kill()
        self.process.wait()


class GtpProgram(Program):
    """An engine by the Go Text Protocol."""

    takes_passes = True  # until it has refused one

    def ask(self, line: str) -> tuple[bool, str]:
        """Whether a command was carried out, and its response."""
        self.say(line)
        found = self.line()
        while not found.startswith(("=", "?")):
            found = self.line()
        lines = [found[1:].strip()]
        while text := self.line():
            lines.append(text)
        return found.startswith("="), "\n".join(lines).strip()

    def greet(self) -> None:
        self.ask("protocol_version")

    def begin(self, board: Board) -> None:
        if board.start != Position.opening():
            raise ColuwenError("a game by GTP begins at the opening")
        if self.ask("known_command set_game")[1] == "true":
            self.ask("set_game Othello")
        self.ask("boardsize 8")
        self.ask("clear_board")
        for position, move in board.positions():
            self.told(move, position.side)

    def told(self, move: str, side: str) -> None:
        if move == PASS and not self.takes_passes:
            return
        done, text = self.ask(f"play {NAMES[side]} {move.upper()}")
        if not done and move == PASS:
            self.takes_passes = False
        elif not done:
            raise Forfeit(self, f"doesn't take {move}: {text}")

    def move(self, board: Board) -> str:
        done, text = self.ask(f"genmove {NAMES[board.side]}")
        if not done:
            raise Forfeit(self, f"has no move: {text}")
        return text.lower()


class NBoardProgram(Program):
    """An engine by NBoard's protocol: each position is set up as a game."""

    def move(self, board: Board) -> str:
        game = Game(board.start, tuple(Played(move) for move in board.moves))
        self.say("set game " + ggf.write_game(game))
        self.say("go")
        while not (found := self.line()).startswith("==="):
            pass
        word = found[3:].split("/")[0].strip().lower()
        return PASS if word == "pa" else word

    def greet(self) -> None:
        self.say("nboard 1")
        self.say("ping 1")
        while self.line().strip() != "pong 1":
            pass


def name_of(word: str) -> str:
    """A player's name: what stands before `=`, else the word."""
    return (word.partition("=")[0] if word.split(":")[0].count("=") else "") or word.removeprefix("=")


def player_of(word: str, analyst: Analyst, seconds: float) -> Player:
    """The player that a word of the command line says."""
    name, rest = name_of(word), word.partition("=")[2] if word.split(":")[0].count("=") else word
    kind, _, command = rest.partition(":")
    if kind == "depth" and command.isdecimal() and 1 <= int(command) <= 12:
        return Plies(name, analyst, int(command))
    if kind in ("gtp", "nboard") and command.strip():
        return (GtpProgram if kind == "gtp" else NBoardProgram)(name, command, seconds)
    raise ColuwenError(f"{word!r} is no player: depth:1..12, gtp:COMMAND or nboard:COMMAND")


@dataclasses.dataclass(frozen=True)
class Outcome:
    """A game as it was played: black's discs more than white's, an empty square being the winner's, and what ended it otherwise."""

    game: Game
    discs: int
    fault: str = ""


def play(black: Player, white: Player, opening: Board, number: int) -> Outcome:
    """One game, by the referee's rules."""
    board, players, fault, discs = opening, {BLACK: black, WHITE: white}, "", 0
    try:
        for player in players.values():
            player.begin(board)
        while not board.is_over:
            side, move = board.side, PASS if board.position.must_pass else moved(players[board.side], board)
            board = board.push(move)
            for at, player in players.items():
                if at != side or move == PASS:
                    player.told(move, side)
        discs = board.position.final_discs(BLACK)
    except Forfeit as forfeit:
        fault, discs = str(forfeit), -LOST if forfeit.player is black else LOST
    moves = tuple(Played(move) for move in board.moves)
    return Outcome(Game(board.start, moves, black.name, white.name, f"{NAME} {number}", result=float(discs)), discs, fault)


def moved(player: Player, board: Board) -> str:
    """A player's move, which must be legal."""
    move = player.move(board)
    try:
        board.position.play(move)
    except IllegalMove as illegal:
        raise Forfeit(player, f"plays {move!r}: {illegal}") from None
    return move


def boards_of(data: bytes, path: str, moves: int | None) -> Iterator[Board]:
    """The games of a file, with so many of their moves, and the positions of an .obf or of lines."""
    if formats.kind_of(path, data) == "obf":
        yield from (Board(problem.position) for problem in formats.strictly(formats.problems_of(data, path)))
    elif formats.kind_of(path, data) != "lines":
        yield from (functools.reduce(Board.push, game.words()[:moves], Board(game.start)) for game in formats.strictly(formats.games(path)))
    else:
        for number, line in enumerate(formats.lines_of(data), 1):
            found = list(formats.strictly(formats.read_line(line, formats.Place(path, number))))
            if found and found[0].comment == "move 1":  # a game's positions, each with its move
                yield functools.reduce(Board.push, (one.expected[0].move for one in found[:moves]), Board(found[0].position))
            else:
                yield from (Board(one.position) for one in found)


def openings_of(path: str | None, moves: int | None = None) -> list[Board]:
    """The openings of a file; else the four first moves with each reply."""
    if path:
        data = pathlib.Path(path).read_bytes()
        return list(dict.fromkeys(board for board in boards_of(data, path, moves) if not board.is_over))
    return [Board().push(first).push(reply) for first in Board().legal for reply in Board().push(first).legal]


class Table:
    """The results, by pairs of games of an opening."""

    def __init__(self, one: str, other: str):
        self.one, self.other = one, other
        self.discs: list[tuple[str, int]] = []  # of each game the colour of the first, and its discs more

    def add(self, side: str, outcome: Outcome) -> None:
        self.discs.append((side, outcome.discs if side == BLACK else -outcome.discs))

    @property
    def pairs(self) -> list[list[int]]:
        return [[discs for _, discs in self.discs[at : at + 2]] for at in range(0, len(self.discs), 2)]

    def score(self) -> tuple[float, float]:
        """The first one's score, from 0 to 1, and its error."""
        return score_and_error(self.pairs)

    def llr(self, sprt: "Sprt") -> float:
        """The logarithm of how much likelier the results are by elo1 than by elo0, each pair being one result (the generalized test of Van den Bergh, 2017)."""
        score, error = self.score()
        low, high = expected(sprt.elo0), expected(sprt.elo1)
        return (high - low) * (2 * score - low - high) / (2 * error**2) if self.discs else 0.0

    def lines(self) -> list[str]:
        rows = [f"{'':24}{'games':>6}{'won':>6}{'drawn':>6}{'lost':>6}{'score':>9}{'error':>8}{'discs':>8}{'error':>8}"]
        for label, colour in ((f"{self.one} as black", BLACK), ("as white", WHITE)):
            rows.append(row_of(label, [[discs] for side, discs in self.discs if side == colour]))
        return [*rows, row_of("in all", self.pairs), f"Elo {elo_text(*self.score())}"]

    def round(self) -> str:
        """How it stands, in a line."""
        score, error = self.score()
        return f"round {len(self.discs) // 2}: {self.one} {100 * score:.1f}% +- {100 * error:.1f}% of {len(self.discs)} games; Elo {elo_text(score, error)}"


@dataclasses.dataclass(frozen=True)
class Sprt:
    """A sequential test between two differences of ratings, and the errors that it may make."""

    elo0: float = 0.0
    elo1: float = 20.0
    alpha: float = 0.05
    beta: float = 0.05

    @classmethod
    def of(cls, text: str) -> "Sprt":
        found = {name: float(number) for name, _, number in (word.partition("=") for word in re.split("[, ]+", text.strip()))}
        if set(found) - {"elo0", "elo1", "alpha", "beta"} or not (one := cls(**found)).elo0 < one.elo1 or not (0 < one.alpha < 0.5 and 0 < one.beta < 0.5):
            raise ValueError(f"{text!r} is no test: elo0=0,elo1=20,alpha=0.05,beta=0.05, and elo0 is under elo1")
        return one

    @property
    def bounds(self) -> tuple[float, float]:
        return math.log(self.beta / (1 - self.alpha)), math.log((1 - self.beta) / self.alpha)

    def is_over(self, table: Table) -> bool:
        return not self.bounds[0] < table.llr(self) < self.bounds[1]

    def verdict(self, table: Table) -> str:
        """How the test stands: which hypothesis is accepted, or none yet."""
        (low, high), llr = self.bounds, table.llr(self)
        told = "undecided" if low < llr < high else f"elo1={self.elo1:g} is accepted" if llr >= high else f"elo0={self.elo0:g} is accepted"
        return f"SPRT: LLR {llr:+.2f} ({low:.2f} to {high:.2f}), {told}"


def expected(difference: float) -> float:
    """The score that a difference of ratings stands for."""
    return float(1 / (1 + 10 ** (-difference / 400)))


def points_of(discs: int) -> float:
    return (discs > 0) + (discs == 0) / 2


def row_of(label: str, groups: list[list[int]]) -> str:
    """The results of games, each group of which counts once in the errors."""
    every = [discs for group in groups for discs in group]
    score, error = score_and_error(groups)
    mean, spread = mean_and_error([sum(group) / len(group) for group in groups])
    won, drawn = sum(discs > 0 for discs in every), sum(discs == 0 for discs in every)
    return f"{label[:24]:24}{len(every):>6}{won:>6}{drawn:>6}{len(every) - won - drawn:>6}{100 * score:>8.1f}%{100 * error:>7.1f}%{mean:>+8.2f}{spread:>8.2f}"


def mean_and_error(numbers: list[float]) -> tuple[float, float]:
    """The mean, and the standard deviation of the mean; that of one number isn't known, and is written as 0."""
    mean = statistics.fmean(numbers) if numbers else 0.0
    return mean, statistics.stdev(numbers) / math.sqrt(len(numbers)) if len(numbers) > 1 else 0.0


def score_and_error(groups: list[list[int]]) -> tuple[float, float]:
    """The mean score of groups of games, and its error: to their variance that of one group of fair games is added, as few results don't tell it."""
    scores = [statistics.fmean(map(points_of, group)) for group in groups]
    mean, fair = statistics.fmean(scores) if scores else 0.0, 0.25 / max((len(group) for group in groups), default=1)
    return mean, math.sqrt(sum((one - mean) ** 2 for one in scores) + fair) / max(len(scores), 1)


def elo(score: float) -> float:
    """The difference of ratings that a score (over 0, under 1) stands for."""
    return 400 * math.log10(score / (1 - score))


def elo_text(score: float, error: float) -> str:
    """The same in words, with what the score less and more its error stand for."""
    if not 0 < score < 1:
        least = abs(score - error)
        return f"{'more' if score else 'less'} than {elo(least):+.0f}: one side has won all games" if 0 < least < 1 else "isn't known: one side has won all games"
    low, high = (f"{elo(at):+.0f}" if 0 < at < 1 else "unknown" for at in (score - error, score + error))
    return f"{elo(score):+.0f} ({low} to {high})"


Pair = Callable[[], contextlib.AbstractContextManager[tuple[Player, Player]]]


def match(pair: Pair, openings: Iterable[Board], tell: Callable[[str], None], at_once: int = 1,
          keep: Callable[[Outcome], None] = lambda outcome: None, played: Mapping[int, list[Outcome]] | None = None,
          sprt: Sprt | None = None) -> tuple[Table, list[Outcome]]:  # fmt: skip
    """Each opening in both colours, so many openings at the same time; `pair` gives two players of their own to each of these. `keep` has each game as it
    ends, one after another. `played`: of openings, by their numbers, what was played before; `sprt` ends the match."""
    before, is_over = played or {}, threading.Event()
    keeping = threading.Lock()
    begun = list(openings)
    spare: queue.SimpleQueue[tuple[Player, Player]] = queue.SimpleQueue()
    with contextlib.ExitStack() as stack, concurrent.futures.ThreadPoolExecutor(at_once) as pool:
        pairs = [stack.enter_context(pair()) for _ in range(min(at_once, max(len(begun), 1)))]
        for one in pairs:
            for player in one:
                player.start()
            spare.put(one)

        def both(number: int) -> list[Outcome]:
            if number in before or is_over.is_set():
                return before.get(number, [])
            one, other = players = spare.get()
            found = list[Outcome]()
            try:
                for at, (black, white) in enumerate(((one, other), (other, one)), 1):
                    found.append(play(black, white, begun[number], 2 * number + at))
                    with keeping:
                        keep(found[-1])
            finally:
                spare.put(players)
            return found

        table, outcomes = Table(pairs[0][0].name, pairs[0][1].name), list[Outcome]()
        for found in pool.map(both, range(len(begun))):
            for side, outcome in zip((BLACK, WHITE), found):
                outcomes.append(outcome)
                table.add(side, outcome)
                passes = sum(played.move == PASS for played in outcome.game.moves)
                told = outcome.fault or f"{len(outcome.game.words())} moves, {passes} passes"
                tell(f"{len(outcomes)}: {outcome.game.black} {outcome.discs:+d} {outcome.game.white} ({told})")
            tell(table.round() + (f"; {sprt.verdict(table)}" if sprt else ""))
            if sprt and sprt.is_over(table):
                is_over.set()
                break
    return table, outcomes


def played_in(path: pathlib.Path, names: tuple[str, str]) -> dict[int, list[Outcome]]:
    """The pairs that a file of --games has, by the numbers of their openings; one of which a game is missing is none. Games of other players are a fault."""
    found: dict[int, dict[int, Outcome]] = {}
    for game in formats.strictly(formats.games(str(path))) if path.exists() and path.stat().st_size else ():
        number = game.event.removeprefix(f"{NAME} ")
        if not number.isdecimal() or (game.black, game.white) != (names if int(number) % 2 else names[::-1]) or game.result is None:
            raise ColuwenError(f"{path} has games of another match: {game.black} and {game.white}")
        found.setdefault((int(number) - 1) // 2, {})[int(number)] = Outcome(game, round(game.result))
    return {opening: [games[at] for at in sorted(games)] for opening, games in found.items() if len(games) == 2}


def main(words: Sequence[str] | None = None) -> int:
    options = parser(__doc__, NAME, LONG_OUTAGE)
    options.add_argument("one", metavar="ONE")
    options.add_argument("other", metavar="OTHER")
    options.add_argument("--openings", metavar="FILE", help="games or positions of any format that each pair begins with")
    options.add_argument("--moves", type=count, metavar="N", help="so many moves of each game of --openings (all)")
    options.add_argument("--games", metavar="FILE", help="keeps the games, each as it ends, as GGF")
    options.add_argument("--resume", action="store_true", help="go on behind the pairs that the file of --games has")
    options.add_argument("--sprt", metavar="WORDS", help="end by a sequential test: elo0=0,elo1=20,alpha=0.05,beta=0.05 (what isn't named is as here)")
    options.add_argument("--seconds", type=float, default=60, metavar="S", help="after which an engine that says nothing has lost (%(default)g)")
    options.add_argument("--at-once", type=int, default=1, metavar="N", help="how many openings are played at the same time (%(default)d)")
    asked = options.parse_args(words)
    openings, sprt = openings_of(asked.openings, asked.moves), Sprt.of(asked.sprt) if asked.sprt else None
    played = played_in(pathlib.Path(asked.games), (name_of(asked.one), name_of(asked.other))) if asked.resume and asked.games else {}
    with analyst_of(asked, NAME) as client, open(asked.games or os.devnull, "w", encoding="utf-8", buffering=1) as games:
        for outcome in (outcome for pair in played.values() for outcome in pair):
            print(ggf.write_game(outcome.game), file=games)

        @contextlib.contextmanager
        def pair() -> Iterator[tuple[Player, Player]]:
            with contextlib.ExitStack() as stack:
                one, other = (stack.enter_context(contextlib.closing(player_of(word, client, asked.seconds))) for word in (asked.one, asked.other))
                yield one, other

        table, outcomes = match(pair, openings, say, max(asked.at_once, 1), lambda outcome: print(ggf.write_game(outcome.game), file=games), played, sprt)
    say("\n".join([*table.lines(), *([sprt.verdict(table)] if sprt else [])]))
    faults = [outcome.fault for outcome in outcomes if outcome.fault]
    if faults:
        print(f"{NAME}: {len(faults)} games were lost otherwise than on the board", file=sys.stderr)
    return 3 if faults else 0


command = ending(NAME, main)

if __name__ == "__main__":
    command()
