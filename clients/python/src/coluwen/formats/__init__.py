"""The formats of the Othello world.

    from coluwen import FormatError, formats
    for one in formats.games("WTH_2020.wtb", "WTH_2021.wtb"):    # of any format: by the file's name, else by what stands in it
        if isinstance(one, FormatError):
            print("not read:", one)                               # with file, line and column; the games behind it come all the same
        else:
            print(one.black, one.white, one.result, formats.transcript.write(one))
    for problem in formats.strictly(formats.problems("fforum.obf")):     # the first fault is raised
        print(problem.place, problem.position, problem.best())

| Format | Module | Read | Written |
|---|---|---|---|
| 66 letters, with a depth before them or not; FEN-like; a board of 8 lines of 8 | `position` | `read_line`, `read_fen`, `read_board` | `Position.text`, `fen` |
| transcripts: `F5d6..`, `1. f5 2. d6`, `f5-d6`, with the score behind it | `transcript` | `read`, `parts` | `write` |
| Edax's .obf | `obf` | `read` | `write` |
| GGF, and its board alone | `ggf` | `read`, `board_of` | `write` |
| SGF of Othello, GM[2] | `sgf` | `read` | |
| transcripts with heads as PGN's | `pgn` | `read` | |
| WTHOR's .wtb, with names from .jou and .trn | `wthor` | `read`, `read_names` | `write`, `write_names` |

Readers of games and problems give what they can read and what they can't: a `Game` or `Problem`, or a `FormatError` with file, line and column. A game with a
fault is there with the moves before it (`is_whole` is false), and the fault behind it; nothing is cut silently. Each module says how its format is described.
"""

import contextlib
import pathlib
import re
from collections.abc import Iterable, Iterator

from ..board import Position
from ..errors import FormatError
from . import ggf, obf, pgn, position, sgf, transcript, wthor
from .records import Expected, Game, Place, Played, Problem, strictly

__all__ = ["KINDS", "Expected", "Game", "Place", "Played", "Problem", "games", "games_of", "ggf", "kind_of", "lines_of", "obf", "pgn", "position", "problems", "problems_of",
           "read_line", "sgf", "strictly", "text_of", "transcript", "wthor"]  # fmt: skip
KINDS = ("lines", "obf", "ggf", "sgf", "pgn", "wtb")
BEGINNINGS = {"sgf": rb"\(\s*;[^)]*?GM\s*\[\s*\d", "ggf": rb"(\d+\s+)?\(;", "pgn": rb"\[\s*\w+\s*\""}
READERS = {"ggf": ggf.read, "sgf": sgf.read, "pgn": pgn.read}


def kind_of(name: str, data: bytes) -> str:
    """The format of a file: by the end of its name, else by its beginning."""
    if (kind := pathlib.PurePath(name).suffix.lower()[1:]) in KINDS[1:]:
        return kind
    text = data[:4096].removeprefix(b"\xef\xbb\xbf").lstrip()
    return next((kind for kind, begin in BEGINNINGS.items() if re.match(begin, text)), "lines")


def text_of(data: bytes) -> str:
    """The text of a file: UTF-8 where it is that, else Japanese (CP932) where letters of full width stand in it, else Latin-1. Lines end with LF, CR LF, or CR
    alone as they did once; here with LF."""
    data = data.replace(b"\r\n", b"\n").replace(b"\r", b"\n")
    with contextlib.suppress(UnicodeDecodeError):
        return data.decode("utf-8-sig")
    is_wide = re.search(rb"(?:\x82[\x4f-\x58\x60-\x79\x81-\x9a]){2}", data)
    return data.decode("cp932" if is_wide else "latin-1", "replace")


def lines_of(data: bytes) -> list[str]:
    """The lines of a text without their ends, each as its own bytes say; a last one that is empty is none."""
    lines = data.replace(b"\r\n", b"\n").replace(b"\r", b"\n").split(b"\n")
    return [text_of(line) for line in (lines[:-1] if not lines[-1] else lines)]


def problems(*paths: str, kind: str | None = None) -> Iterator[Problem | FormatError]:
    """The positions of files: of games each position at which a move was made, with that move as what is expected."""
    for path in paths:
        yield from problems_of(pathlib.Path(path).read_bytes(), str(path), kind)


def problems_of(data: bytes, name: str = "", kind: str | None = None) -> Iterator[Problem | FormatError]:
    """The same of what a file has."""
    kind = kind or kind_of(name, data)
    if kind == "obf":
        yield from obf.read(lines_of(data), name)
    elif kind != "lines":
        yield from _positions_of(games_of(data, name, kind))
    else:
        lines, at = lines_of(data), 0
        while at < len(lines):
            if board := position.read_board(lines, at, Place(name)):
                problem, at = board
                yield problem
            else:
                at += 1
                yield from read_line(lines[at - 1], Place(name, at))


def _positions_of(games: Iterator[Game | FormatError]) -> Iterator[Problem | FormatError]:
    for one in games:
        found: Iterable[Problem | FormatError] = [one] if isinstance(one, FormatError) else one.problems()
        yield from found


def read_line(line: str, place: Place = Place()) -> Iterator[Problem | FormatError]:
    """The positions of a line of any format that has a line for each: 66 letters, FEN-like, .obf, a game or a board of GGF, or a transcript. An
    empty line, or a comment behind # or %, has none."""
    text = transcript.narrow(line).strip()
    if not text or text[0] in "#%":
        return
    try:
        if text.startswith("(;"):
            for one in _positions_of(ggf.read(line, place.file)):
                yield FormatError(one.text, place.file, place.line, one.column) if isinstance(one, FormatError) else one
        elif ";" in text and re.match(r"[-.*XxOo\s]{64}", text):
            if problem := obf.read_line(line, place):
                yield problem
        elif start := ggf.board_of(text.removeprefix("BO[").removesuffix("]")):
            yield Problem(start, place=place)
        elif re.match(r"[1-8XxOo*BbWw]+/", text):
            yield position.read_fen(text, place)
        elif re.match(r"(?:\d+[.)]\s*)?[a-hA-H][1-8]", text):
            yield from _positions_of(transcript.parts(line, None, place))
        else:
            yield position.read_line(line, place)
    except FormatError as fault:
        yield fault


def games(*paths: str, kind: str | None = None) -> Iterator[Game | FormatError]:
    """The games of files: GGF, SGF, PGN, .wtb, or a transcript a line. Among .wtb files those of .jou and .trn may be named; else the one of each
    that lies beside them is taken for the names."""
    suffixes = [(str(path), pathlib.PurePath(path).suffix.lower()) for path in paths]
    named = {suffix: wthor.read_names(path) for path, suffix in suffixes if suffix in wthor.NAME_BYTES}
    for path in (path for path, suffix in suffixes if suffix not in named):
        data = pathlib.Path(path).read_bytes()
        if (kind or kind_of(path, data)) == "wtb":
            players, tournaments = wthor.names_beside(path)
            yield from wthor.read(data, path, named.get(".jou", players), named.get(".trn", tournaments))
        else:
            yield from games_of(data, path, kind)


def games_of(data: bytes, name: str = "", kind: str | None = None) -> Iterator[Game | FormatError]:
    """The same of what a file has."""
    kind = kind or kind_of(name, data)
    if kind == "wtb":
        yield from wthor.read(data, name)
    elif kind in READERS:
        yield from READERS[kind](text_of(data), name)
    elif kind == "obf":
        yield Place(name).fault("an .obf has positions, and no games")
    else:
        for number, line in enumerate(lines_of(data), 1):
            if line.strip() and line.strip()[0] not in "#%":
                yield from transcript.parts(line, Position.opening(), Place(name, number))
