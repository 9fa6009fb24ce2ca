"""Games as people write them: `F5d6C3`, `1. f5 2. d6`, `f5-d6-c3`, `f5, d6; c3`, `f5d6c3 .. 33-31`.

Squares in letters of either size; between them spaces, line ends, commas, semicolons, a hyphen, and numbers with a point or bracket
behind them, which must count the moves (`1.`, `2)`) or the pairs of moves. A pass may be written (`pass`, `pa`, `ps`, `--`), and is put
in where it isn't. Behind the moves may stand the result: black's discs and white's (`33-31`, `33:31`), or how many more (`+2`, `B+2`, `W+10`,
`0`). Letters and digits of full width are read as the others. Anything else is a fault, with its column.
"""

import re
from collections.abc import Iterator

from ..board import BLACK, PASS, Position
from ..errors import FormatError
from .records import PLAYED, Builder, Game, Place, strictly

TOKEN = re.compile(r"(?P<space>[\s,;]+|-(?!-))|(?P<number>\d{1,3}\s*[.)]+)|(?P<move>[a-hA-H][1-8])|(?P<pass>(?i:pass|pa|ps)|--)")
SCORE = re.compile(r"[\s,;:(\[]*(?:(?P<black>\d{1,2})\s*[-:]\s*(?P<white>\d{1,2})|(?P<side>[BbWw])?(?P<more>[+-]\d{1,2}|(?<![a-hA-H])0))(?:\.0+)?[\s,;.)\]]*")
WIDE = {code: chr(code - 0xFEE0) for code in range(0xFF01, 0xFF5F)} | {0x3000: " ", 0x2212: "-", 0x2010: "-", 0x2013: "-", 0x30FC: "-"}


def narrow(text: str) -> str:
    """A text with its signs of full width as those of half."""
    return text if text.isascii() else text.translate(WIDE)


def read(text: str, start: Position | None = None, place: Place = Place()) -> Game:
    """The game of a text, from the opening with black to begin if no start is given. `FormatError` where anything is at fault."""
    [game] = strictly(parts(text, start, place))
    return game


def parts(text: str, start: Position | None = None, place: Place = Place()) -> Iterator[Game | FormatError]:
    """The game of a text; where it has a fault, the game of what stands before that, if there are moves, and the fault. A line's end counts a
    line further."""
    text, at, numbers, result = narrow(text), 0, list[int](), None
    with Builder(start or Position.opening()) as builder:
        while at < len(text):
            here = place.of(text, at)
            if builder.moves and (score := SCORE.fullmatch(text, at)):
                result = result_of(score, builder.position, here)
                break
            if not (found := TOKEN.match(text, at)):
                raise here.fault(f"{text[at:].split()[0][:20]!r} is no move")
            if found["move"] or found["pass"]:
                builder.play(PLAYED[found["move"].lower() if found["move"] else PASS], here)
            elif found["number"]:
                numbers.append(int(re.sub(r"\D", "", found["number"])))
                if numbers[-1] not in (builder.count + 1, (builder.count + 2) // 2) or numbers != sorted(set(numbers)):
                    raise here.fault(f"the number {numbers[-1]} stands before move {builder.count + 1}")
            at = found.end()
    if builder.moves:
        yield from builder.game(result=result, place=place)
    else:
        yield builder.fault or place.fault("there are no moves")


def result_of(score: re.Match[str], final: Position, place: Place) -> float:
    """What a score behind the moves says; a fault where the game is over otherwise."""
    sign = -1 if score["side"] in ("W", "w") else 1
    result = int(score["black"]) - int(score["white"]) if score["black"] else sign * int(score["more"])
    played = final.final_discs(BLACK)
    if final.is_over and result not in (played, final.discs(BLACK) - final.discs("O")):
        raise place.fault(f"the score is said to be {result:+d} for black, and is {played:+d}")
    if abs(result) > 64:
        raise place.fault(f"a score of {result:+d} discs")
    return float(result)


def write(game: Game, form: str = "plain") -> str:
    """A game's moves without passes: `plain` f5d6c3, `spaced` f5 d6, `hyphens` f5-d6, `numbered` 1. f5 2. d6, `capitals` F5d6C3 (black's
    in capitals)."""
    words = game.words()
    if form == "capitals":
        return "".join(move.upper() if position.side == BLACK else move for position, move in game.positions())
    if form == "numbered":
        return " ".join(f"{number}. {word}" for number, word in enumerate(words, 1))
    return {"plain": "", "spaced": " ", "hyphens": "-"}[form].join(words)
