"""SGF, the Smart Game Format, of games of Othello (`GM[2]`), as quarry saves them.

    (;GM[2]FF[4]SZ[8]PB[one]PW[other]RE[B+12];B[f5];W[d6])

A node has properties, NAME[value] or several values; `\\` before a letter takes its meaning away. Read are B and W (a square as `f5`, or as two
letters with the row's number as a letter, `fe`; nothing or `pass` is a pass), AB, AW and AE (discs that are set up before the first move), PL (who is to move),
SZ (8 alone), PB, PW, EV, DT and RE (`B+12`, `W+2`, `0`, `Draw`). Of a tree of variations the first is read. Described by the SGF specification, FF[4], of
Arno Hollosi; other properties are kept as they stand.
"""

import itertools
import re
from collections.abc import Iterator

from ..board import BLACK, EMPTY, INDEX, PASS, WHITE, Position
from ..errors import FormatError
from .records import PLAYED, SIDES, Builder, Game, Place, Tag, with_fault

PROPERTY = re.compile(r"\s*([A-Za-z]+)((?:\s*\[(?:\\.|[^\]\\])*\])+)", re.DOTALL)
VALUE = re.compile(r"\[((?:\\.|[^\]\\])*)\]", re.DOTALL)
SIGN = re.compile(r"\s*([;()])")
RESULT = re.compile(r"(?i:([BW])\+(\d+(?:\.\d+)?))")
SETUP = {"AB": BLACK, "AW": WHITE, "AE": EMPTY}
FIELDS = {"PB": "black", "PW": "white", "EV": "event", "DT": "date"}


def read(text: str, file: str = "") -> Iterator[Game | FormatError]:
    """The games of a text, and its faults. A game that has one, or is cut, is there with the moves before that."""
    at, text = 0, text.removeprefix("\ufeff")
    while (begun := text.find("(", at)) >= 0:
        place = Place(file).of(text, begun)
        tags, at, fault = tags_of(text, begun, place)
        yield from with_fault(game_of(tags, place, fault))
    if at == 0:
        yield Place(file, 1, 1).fault("no game begins here: (;")


def tags_of(text: str, begin: int, place: Place) -> tuple[list[Tag], int, FormatError | None]:
    """The values of the tree that begins at a letter, of its first variation alone; where it ends, and what is at fault."""
    at, depth, is_first, tags = begin, 0, True, list[Tag]()
    while found := SIGN.match(text, at) or PROPERTY.match(text, at):
        at = found.end()
        if found.re is SIGN:
            depth += {"(": 1, ")": -1}.get(found[1], 0)
            is_first = is_first and found[1] != ")"
            if depth == 0:
                return tags, at, None
        elif is_first:
            here = place.of(text, found.start(2) + 1, begin)
            tags += [(found[1].upper(), re.sub(r"\\(.)", r"\1", value, flags=re.DOTALL), here) for value in VALUE.findall(found[2])]
    fault = place.of(text, at, begin).fault("here is no property, NAME[value], and no end of the game, )")
    after = text.find("(;", at)
    return tags, len(text) if after < 0 else after, fault


def game_of(tags: list[Tag], place: Place, fault: FormatError | None) -> Iterator[Game | FormatError]:
    named, places = {name: value for name, value, _ in reversed(tags)}, {name: here for name, _, here in reversed(tags)}
    if named.get("GM", "").strip() != "2":
        raise places.get("GM", place).fault(f"this is no game of Othello, GM[2]: {named.get('GM', 'it says no GM')}")
    if named.get("SZ", "8").strip() not in ("8", "8:8"):
        raise places["SZ"].fault(f"its board has {named['SZ']} lines")
    with Builder(start_of(tags), fault) as builder:
        for name, value, here in tags:
            if name in SIDES:
                is_pass = value.strip().lower() in ("", "pass", "pa", "tt")
                builder.play(PLAYED[PASS if is_pass else square_of(value, here)], here, SIDES[name])
    others = tuple((name, value) for name, value, _ in tags if name not in (*SIDES, *FIELDS, *SETUP, "GM", "RE", "SZ", "FF", "PL", "CA"))
    heads = {FIELDS[name]: value for name, value in named.items() if name in FIELDS}
    yield from builder.game(result=result_of(named.get("RE", "")), tags=others, place=place, **heads)


def start_of(tags: list[Tag]) -> Position:
    """The opening, or what is set up before the first move: squares and rectangles, `c3:f6`."""
    cells, side = list(Position.opening().cells), BLACK
    for name, value, here in itertools.takewhile(lambda tag: tag[0] not in SIDES, tags):
        if name in SETUP:
            ends = [square_of(word, here) for word in value.split(":", 1)]
            columns, rows = ("".join(sorted(letters)) for letters in zip(ends[0], ends[-1]))
            for square, at in INDEX.items():
                if columns[0] <= square[0] <= columns[1] and rows[0] <= square[1] <= rows[1]:
                    cells[at] = SETUP[name]
        elif name == "PL":
            side = WHITE if value.strip().upper()[:1] == "W" else BLACK
    return Position("".join(cells), side)


def square_of(value: str, place: Place) -> str:
    word = value.strip().lower()
    if re.fullmatch("[a-h][a-h]", word):
        return f"{word[0]}{'abcdefgh'.index(word[1]) + 1}"
    if not re.fullmatch("[a-h][1-8]", word):
        raise place.fault(f"{value!r} is no square")
    return word


def result_of(text: str) -> float | None:
    """Black's discs more than white's; None where it isn't known."""
    if text.strip().lower() in ("0", "draw"):
        return 0.0
    found = RESULT.match(text.strip())
    return float(found[2]) * (1 if found[1].upper() == "B" else -1) if found else None
