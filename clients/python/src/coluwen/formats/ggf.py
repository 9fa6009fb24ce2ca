"""GGF, the format of games of the server GGS and of NBoard: one game or many in a file.

    (;GM[Othello]PC[GGS/os]DT[2003.12.15]PB[one]PW[other]RE[+4.000]TI[15:00]TY[8]BO[8 ---..---- *]B[d3//0.01]W[c5/-1.20/3.5];)

Tags are NAME[value]; BO is the board: its size, 64 cells and the side to move, with spaces anywhere; B and W are moves, in their
order, as square/evaluation/seconds, of which the last two may be missing; PA is a pass. Before the games of one match stands how many
there are: `2 (;..;)(;..;)`. Only othello of 8 lines is read. GGF's own description wasn't at hand: the tags are those that NBoard and
the archives of GGS are known to write; others are kept as they stand.
"""

import re
from collections.abc import Iterable, Iterator

from ..board import PASS, WHITE, Position
from ..errors import FormatError
from .records import SIDES, Builder, Game, Place, Played, Tag, strictly, with_fault

BEGIN = re.compile(r"\s*(?P<other>.*?)\s*(?P<count>\d+\s+)?(?P<game>\(;|\Z)", re.DOTALL)
TAG, END = re.compile(r"\s*([A-Za-z]+)\s*\[([^\]]*)\]"), re.compile(r"\s*;\s*\)")
MOVE = re.compile(r"\s*(?P<move>[a-hA-H][1-8]|(?i:pass|pa)|--)\s*(?:/\s*(?P<eval>[^/]*?)\s*(?:/\s*(?P<time>[^/]*?)\s*)?)?")
BOARD = re.compile(r"\s*8\s+((?:[-.*XxOo]\s*){64})([*XxOo])\s*")
FIELDS = {"PB": "black", "PW": "white", "PC": "event", "DT": "date"}


def read(text: str, file: str = "") -> Iterator[Game | FormatError]:
    """The games of a text, and its faults. A game that has one, or is cut, is there with the moves before that, and its fault behind it; what can't
    be read as a game is passed over to the next `(;`."""
    text, at, expected = text.removeprefix("\ufeff"), 0, 0  # `expected`: games that a count before them announced
    while begun := BEGIN.match(text, at):
        if begun["other"]:
            yield Place(file).of(text, begun.start("other")).fault("no game begins here: (;")
        if expected and (begun["count"] or not begun["game"]):
            yield Place(file).of(text, begun.start("count" if begun["count"] else "game")).fault(f"{expected} games are missing")
        if not begun["game"]:
            return
        place = Place(file).of(text, begun.start("game"))
        tags, at, fault = tags_of(text, begun.start("game"), place)
        yield from with_fault(game_of(tags, place, fault))
        expected = max(int(begun["count"] or expected) - 1, 0)


def read_game(text: str, file: str = "") -> Game:
    """The one game of a text; `FormatError` where it has a fault, or more stands there."""
    found = list(strictly(read(text, file)))
    if len(found) != 1:
        raise FormatError(f"{len(found)} games stand there, and not one", file)
    return found[0]


def tags_of(text: str, begin: int, place: Place) -> tuple[list[Tag], int, FormatError | None]:
    """The tags of the game that begins at a letter, where the next may begin, and what is at fault."""
    at, tags = begin + 2, list[Tag]()
    while found := TAG.match(text, at):
        tags.append((found[1].upper(), found[2], place.of(text, found.start(2), begin)))
        at = found.end()
    here = place.of(text, at, begin)
    if end := END.match(text, at):
        return tags, end.end(), None if tags else here.fault("this game has no tags")
    after = text.find("(;", at)
    return tags, len(text) if after < 0 else after, here.fault("here is no tag, NAME[value], and no end of the game, ;)")


def game_of(tags: list[Tag], place: Place, fault: FormatError | None) -> Iterator[Game | FormatError]:
    """The game of tags, and what is at fault in them or behind them; the moves are those before that."""
    named, places = {name: value for name, value, _ in tags}, {name: here for name, _, here in tags}
    if fault and not tags:
        raise fault
    if named.get("GM", "Othello").strip().lower() not in ("othello", "reversi"):
        raise places["GM"].fault(f"this is a game of {named['GM']}")
    if named.get("TY", "8").strip()[:1] not in ("8", "s") or "anti" in named.get("TY", ""):
        raise places["TY"].fault(f"its type is {named['TY']}")
    start = board_of(named["BO"]) if "BO" in named else Position.opening()
    if not start:
        raise places["BO"].fault("its board isn't one of 8 lines: 8, 64 cells and the side to move")
    with Builder(start, fault) as builder:
        for name, value, here in tags:
            if name in SIDES:
                builder.play(move_of(value, here), here, SIDES[name])
    others = tuple((name, value) for name, value, _ in tags if name not in (*SIDES, *FIELDS, "BO", "GM", "RE", "TY"))
    heads = {FIELDS[name]: value for name, value in named.items() if name in FIELDS}
    yield from builder.game(result=number_of(named.get("RE", "").strip()), tags=others, place=place, **heads)


def move_of(value: str, place: Place) -> Played:
    if not (found := MOVE.fullmatch(value)):
        raise place.fault(f"{value!r} is no move")
    move = found["move"].lower()
    return Played(move if move[1] in "12345678" else PASS, number_of(found["eval"]), number_of(found["time"]))


def board_of(text: str) -> Position | None:
    """The position of BO: 8, 64 cells and the side to move; None where it is none."""
    found = BOARD.fullmatch(text)
    return Position.parse(f"{found[1]} {found[2]}") if found else None


def number_of(text: str | None) -> float | None:
    """A number, behind which other signs may stand, as what ended a game does: `-64.000:r`; None where there is none, as of `?`."""
    found = re.match(r"[+-]?\d+(\.\d*)?", text or "")
    return float(found[0]) if found else None


def write(games: Iterable[Game]) -> str:
    """A game a line."""
    return "".join(f"{write_game(game)}\n" for game in games)


def write_game(game: Game) -> str:
    cells = f"{game.start.cells}{game.start.side}".replace("X", "*")
    tags = [("GM", "Othello"), ("PC", game.event), ("DT", game.date), ("PB", game.black), ("PW", game.white)]
    tags += [("RE", "?" if game.result is None else f"{game.result:+.3f}"), *game.tags, ("TY", "8")]
    tags.append(("BO", " ".join(["8", *(cells[at : at + 8] for at in range(0, 72, 8))])))
    for number, played in enumerate(game.moves):
        numbers = ["" if one is None else f"{one:.2f}" for one in (played.evaluation, played.seconds)]
        words = "/".join(["PA" if played.move == PASS else played.move.upper(), *numbers]).rstrip("/")
        tags.append(("BW"[(number + (game.start.side == WHITE)) % 2], words))
    written = (f"{name}[{value.replace(']', ')')}]".replace("\n", " ") for name, value in tags if value or name not in FIELDS)
    return f"(;{''.join(written)};)"
