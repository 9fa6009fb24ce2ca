"""Transcripts with heads as PGN has them, of one game or many.

    [Event "a place"]
    [Black "one"]
    [White "other"]
    [Result "33-31"]

    1. f5 d6 2. c3 d3 33-31

PGN is chess's; its heads were taken over for Othello by programs and sites. Heads are [Name "value"] with \\" and \\\\ in them; Event, Black, White, Date and Result are
read, FEN (the FEN-like form of `position`) is where the game begins, and others are kept. Behind them stands a transcript; comments in {}, behind ; to a line's
end, and variations in () are passed over; `*` is no result, and 1-0, 0-1 and 1/2-1/2 say who won and no discs.
"""

import dataclasses
import re
from collections.abc import Iterator
from typing import Any

from ..errors import FormatError
from . import position, transcript
from .records import Game, Place, with_fault

HEADS = re.compile(r"(?:[ \t]*\[\s*\w+\s*\"(?:\\.|[^\"\\])*\"\s*\][ \t]*\r?\n?\s*)+")
HEAD = re.compile(r"\[\s*(\w+)\s*\"((?:\\.|[^\"\\])*)\"\s*\]")
SAID = re.compile(r"\{[^}]*\}|;[^\n]*|\([^()]*\)|\s(?:\*|1-0|0-1|1/2-1/2)\s*\Z")
SCORE = re.compile(r"(\d{1,2})\s*[-:]\s*(\d{1,2})")


def read(text: str, file: str = "") -> Iterator[Game | FormatError]:
    """The games of a text, and its faults."""
    begins = [*HEADS.finditer(text)]
    ends = [found.start() for found in begins] + [len(text)]
    if text[: ends[0]].strip("\ufeff \t\r\n"):
        yield Place(file, 1, 1).fault('here is no head, [Event ".."]')
    for found, end in zip(begins, ends[1:]):
        yield from with_fault(game_of(text, found, end, file))


def game_of(text: str, found: re.Match[str], end: int, file: str) -> Iterator[Game | FormatError]:
    """The game of the heads that were found, and of what stands behind them."""
    heads = {head[1].lower(): head for head in HEAD.finditer(text, found.start(), found.end())}
    said = {name: re.sub(r"\\(.)", r"\1", head[2]) for name, head in heads.items()}
    start = position.read_fen(said["fen"], Place(file).of(text, heads["fen"].start(2))).position if "fen" in said else None
    score = SCORE.fullmatch(said.get("result", "").strip())
    result = float(int(score[1]) - int(score[2])) if score and score[0] not in ("1-0", "0-1") else None
    others: dict[str, Any] = {name: said.pop(name, "") for name in ("black", "white", "event", "date")}
    others["tags"] = tuple((name, value) for name, value in said.items() if name not in ("result", "fen"))
    others["place"] = Place(file).of(text, found.start())
    moves = SAID.sub(lambda one: re.sub(r"[^\n]", " ", one[0]), text[found.end() : end].rstrip() + " ")
    for one in transcript.parts(moves.rstrip(), start, Place(file).of(text, found.end())):
        yield dataclasses.replace(one, result=result if one.result is None else one.result, **others) if isinstance(one, Game) else one
