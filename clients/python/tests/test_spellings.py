"""How people write games: the rows that the board's page reads too."""
import pathlib

import pytest
from coluwen import FormatError, formats
from coluwen.formats import transcript

ROWS = [line.split("\t") for line in pathlib.Path(__file__).parents[2].joinpath("spellings.txt").read_text(encoding="utf-8").splitlines() if line and line[0] != "#"]


@pytest.mark.parametrize("text, moves, result", ROWS, ids=[row[0] for row in ROWS])
def test_a_spelling(text: str, moves: str, result: str) -> None:
    text = text.replace("\\n", "\n")
    kind = formats.kind_of("", text.encode())
    found = list(formats.games_of(text.encode(), "", kind) if kind == "pgn" else transcript.parts(text))
    games = [one for one in found if not isinstance(one, FormatError)]
    if moves == "fault":
        assert len(found) > len(games)
    else:
        assert [("".join(game.words()), "" if game.result is None else f"{game.result:g}") for game in found] == [(moves, result)]
