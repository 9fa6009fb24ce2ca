"""Edax's .obf: a problem a line.

    --XXXXX--OOOXX-O-OOOXXOX-OXOXOXXOXXXOXXX--XOXOXX-XXXOOO--OOOOO-- X; A1:+38; H4:+12; C2:+10; % a comment

A board of 64 cells, the side to move, then fields, each ended or parted by a semicolon: a move with its score in discs, or a move
alone. What follows a % or # is a comment. A line that is empty but for a comment is none. Edax's documents weren't at hand: this is
what its files of problems look like, as they are described by its users; so a field that is neither is refused.
"""

import re
from collections.abc import Iterable, Iterator

from ..board import PASS, Position
from ..errors import FormatError
from .records import Expected, Place, Problem

FIELD = re.compile(r"\s*(?P<move>[a-hA-H][1-8]|(?i:pass|pa|ps)|--)\s*(?::\s*(?P<score>[+-]?\d{1,2})\s*)?")


def read(lines: Iterable[str], file: str = "") -> Iterator[Problem | FormatError]:
    """The problems of lines, and the faults of those that can't be read."""
    for number, line in enumerate(lines, 1):
        try:
            if problem := read_line(line.rstrip("\r\n"), Place(file, number)):
                yield problem
        except FormatError as fault:
            yield fault


def read_line(line: str, place: Place = Place()) -> Problem | None:
    """The problem of a line; None where it has none."""
    text, _, comment = re.sub("[%#]", "\n", line, count=1).partition("\n")
    if not text.strip():
        return None
    head, *fields = text.split(";")
    try:
        position = Position.parse(head)
    except FormatError as fault:
        raise place.fault(fault.text, fault.column) from None
    expected, at = [], len(head) + 1
    for field in fields:
        here, at = at + len(field) - len(field.lstrip()) + 1, at + len(field) + 1
        if found := FIELD.fullmatch(field):
            move = found["move"].lower() if found["move"][1] in "12345678" else PASS
            score = int(found["score"]) if found["score"] else None
            if not position.is_legal(move):
                raise place.fault(f"{found['move']} isn't legal here", here)
            if abs(score or 0) > 64:
                raise place.fault(f"a score of {score} discs", here)
            expected.append(Expected(move, score))
        elif field.strip():
            raise place.fault(f"{field.strip()!r} is no move with a score", here)
    return Problem(position, None, tuple(expected), comment.strip(), place)


def write(problems: Iterable[Problem]) -> str:
    text = ""
    for problem in problems:
        scores = ["" if one.discs is None else f":{one.discs:+d}" for one in problem.expected]
        fields = [("PA" if one.move == PASS else one.move.upper()) + score for one, score in zip(problem.expected, scores)]
        text += "; ".join([problem.position.text, *fields]) + (f"; % {problem.comment}\n" if problem.comment else ";\n")
    return text
