"""The rows of clients/conformance.txt, as the clients of the other languages have them too."""
import pathlib

import pytest
from coluwen import Broken, IllegalMove, Position, Refused, Reservation, Score, enough
from coluwen._answers import Answer, parse
from rows import bytes_of

FILE = pathlib.Path(__file__).resolve().parents[2] / "conformance.txt"


ROWS = [line.rstrip("\n").split("\t") for line in FILE.open(encoding="ascii") if not line.startswith("#")]


def rows(kind: str) -> list[list[str]]:
    found = [row[1:] for row in ROWS if row[0] == kind]
    assert len(found) > 10
    return found


def words_of(answer: Answer) -> str:
    done = [str(answer.value), answer.move] if answer.state == "DONE" else []
    entries = [f"{move}{sign}{value}" for move, sign, value in answer.entries]
    return " ".join([answer.state, *map(str, answer.numbers), *done, *entries, *answer.more])


@pytest.mark.parametrize("jobs, line, answer, result", rows("answer"))
def test_answer(jobs: str, line: str, answer: str, result: str) -> None:
    try:
        found = words_of(parse(line, bytes_of(answer), int(jobs)))
    except Refused as fault:
        found = f"REFUSED {fault.number}"
    except Broken:
        found = "BROKEN"
    assert found == result


@pytest.mark.parametrize("text, moves", rows("legal"))
def test_legal(text: str, moves: str) -> None:
    assert Position.parse(text).legal_moves() == moves.split()


@pytest.mark.parametrize("text, move, after", rows("play"))
def test_play(text: str, move: str, after: str) -> None:
    try:
        found = Position.parse(text).play(move).text
    except IllegalMove:
        found = "ILLEGAL"
    assert found == after


@pytest.mark.parametrize("value, sign, ends, text", rows("score"))
def test_score(value: str, sign: str, ends: str, text: str) -> None:
    assert str(Score(int(value), sign, ends == "1")) == text


@pytest.mark.parametrize("text, depth, grain, segments, nodes", rows("enough"))
def test_enough(text: str, depth: str, grain: str, segments: str, nodes: str) -> None:
    assert enough(Position.parse(text), int(depth), int(grain)) == (Reservation(int(segments), int(nodes)) if nodes != "-" else None)
