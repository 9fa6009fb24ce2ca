"""WTHOR's .wtb, the data base of tournament games, with the names that its .jou (players) and .trn (tournaments) have.

Each file begins with 16 bytes: the century, year, month and day on which it was made (one byte each); how many games it has (N1, 4
bytes); how many names (N2, 2 bytes; 0 in a .wtb); the year of its games (2 bytes); the board's size (one byte: 0 or 8, or 10), the kind of
file (one byte), to what depth the theoretical score was searched (one byte), and a byte that is 0. Numbers have the low byte first.

A game has 68 bytes: the numbers of its tournament, of black and of white (2 bytes each), black's discs at the end and those that were
to be had with the theoretical depth's squares empty (a byte each), and 60 moves (a byte each): ten times the row and the column, from 1,
so that f5 is 56; 0 behind the last. Passes aren't written. An empty square at the end counts for the winner, in black's discs too.
A name of a .jou has 20 bytes, of a .trn 26, ended by a 0.

This is the description of the French Othello federation ("Format de la base WTHOR") as it is known by its users; its text wasn't
at hand. The header's counts are compared with the file's length, and each move is played.
"""

import pathlib
import struct
from collections.abc import Iterable, Iterator

from ..board import BLACK, SQUARES, Position
from ..errors import FormatError
from .records import PLAYED, Builder, Game, Place

HEAD = struct.Struct("<BBBBIHHBBBB")
RECORD = struct.Struct("<HHHBB60s")
NAME_BYTES = {".jou": 20, ".trn": 26}
OPENING = Position.opening()
CODES = {10 * int(square[1]) + "abcdefgh".index(square[0]) + 1: PLAYED[square] for square in SQUARES}


def head_of(data: bytes, file: str = "") -> tuple[int, ...]:
    """How many games and names a file has, of which year the games are, and the board's size."""
    if len(data) < HEAD.size:
        raise FormatError(f"a head has {HEAD.size} bytes, and here are {len(data)}", file, column=len(data) + 1)
    return HEAD.unpack_from(data)[4:8]


def head_for(made: tuple[int, int, int], games: int = 0, names: int = 0, year: int = 0, size: int = 0, depth: int = 0) -> bytes:
    return HEAD.pack(*divmod(made[0], 100), *made[1:], games, names, year, size, 0, depth, 0)


def read(data: bytes, file: str = "", players: list[str] | None = None, tournaments: list[str] | None = None) -> Iterator[Game | FormatError]:
    """The games of a .wtb, one after another, and its faults. Where names aren't given they stand as `player 12`. A game with a fault is there with
    the moves before that, and the fault behind it; what a cut file has of its games is there, and a fault of the file comes first."""
    try:
        games, names, year, size = head_of(data, file)
        if size not in (0, 8):
            raise FormatError(f"its boards have {size} lines", file, column=13)
    except FormatError as fault:
        yield fault
        return
    if names:
        yield FormatError(f"its head counts {names} names, as no .wtb has", file, column=9)
    wanted = HEAD.size + games * RECORD.size
    if len(data) != wanted:
        yield FormatError(f"its head counts {games} games, which take {wanted} bytes, and the file has {len(data)}", file, column=5)
    for number in range(min(games, (len(data) - HEAD.size) // RECORD.size)):
        yield from game_of(data, HEAD.size + number * RECORD.size, file, number + 1, str(year), players, tournaments)


def game_of(data: bytes, at: int, file: str, number: int, year: str, players: list[str] | None, tournaments: list[str] | None) -> Iterator[Game | FormatError]:
    tournament, black, white, discs, theoretical, codes = RECORD.unpack_from(data, at)
    place = Place(file, 0, at + 1)
    with Builder(OPENING) as builder:
        for code in codes.rstrip(b"\0"):
            if code not in CODES:
                raise place.fault(f"{code} is no square")
            builder.play(CODES[code], place)
    if builder.fault:
        builder.fault = place.fault(f"game {number}: {builder.fault.text}", 9 + builder.count)
    elif discs > 64 or theoretical > 64:
        builder.fault = place.fault(f"game {number}: {max(discs, theoretical)} discs", 7)
    elif (final := builder.position).is_over and discs != black_discs(final):
        builder.fault = place.fault(f"game {number}: black is said to have {discs} discs, and has {black_discs(final)}", 7)
    yield from builder.game(black=named(players, black, "player"), white=named(players, white, "player"), event=named(tournaments, tournament, "tournament"),
                            date=year, result=float(2 * discs - 64), theoretical=theoretical, place=place)  # fmt: skip


def black_discs(final: Position) -> int:
    """Black's discs at the end, with the empty squares the winner's, or half of them."""
    return 32 + final.final_discs(BLACK) // 2


def named(names: list[str] | None, number: int, kind: str) -> str:
    return names[number] if names and number < len(names) else f"{kind} {number}"


def read_names(path: str) -> list[str]:
    """The names of a .jou or .trn."""
    suffix = pathlib.PurePath(path).suffix.lower()
    if suffix not in NAME_BYTES:
        raise FormatError("names are in .jou and .trn files", path)
    data, size = pathlib.Path(path).read_bytes(), NAME_BYTES[suffix]
    count = head_of(data, path)[1]
    if len(data) != HEAD.size + count * size:
        raise FormatError(f"its head counts {count} names of {size} bytes, and the file has {len(data)} bytes", path, column=9)
    return [data[at : at + size].split(b"\0")[0].decode("latin-1") for at in range(HEAD.size, len(data), size)]


def names_beside(path: str) -> list[list[str] | None]:
    """The players and tournaments that the folder of a .wtb names, where it has one .jou and one .trn."""
    paths = [[str(one) for one in pathlib.Path(path).parent.glob("*") if one.suffix.lower() == suffix] for suffix in NAME_BYTES]
    return [read_names(found[0]) if len(found) == 1 else None for found in paths]


def write(games: Iterable[Game], year: int, made: tuple[int, int, int] = (2000, 1, 1), depth: int = 0, players: list[str] | None = None,
          tournaments: list[str] | None = None) -> bytes:  # fmt: skip
    """A .wtb of finished games from the opening. Names are written by their numbers in these lists, which grow by those that they lack."""
    players, tournaments, records = [] if players is None else players, [] if tournaments is None else tournaments, list[bytes]()
    codes = {played.move: code for code, played in CODES.items()}
    for game in games:
        words, final = game.words(), game.final()
        if game.start != OPENING or len(words) > 60:
            raise ValueError("a .wtb has games from the opening alone")
        for names, name in ((tournaments, game.event), (players, game.black), (players, game.white)):
            if name not in names:
                names.append(name)
        numbers = tournaments.index(game.event), players.index(game.black), players.index(game.white)
        discs = black_discs(final) if final.is_over else (64 + int(game.result or 0)) // 2
        theoretical = discs if game.theoretical is None else game.theoretical
        records.append(RECORD.pack(*numbers, discs, theoretical, bytes(codes[word] for word in words)))
    return head_for(made, len(records), 0, year, 8, depth) + b"".join(records)


def write_names(names: list[str], suffix: str, made: tuple[int, int, int] = (2000, 1, 1)) -> bytes:
    """A .jou or .trn."""
    size = NAME_BYTES[suffix]
    written = (name.encode("latin-1", "replace")[: size - 1].ljust(size, b"\0") for name in names)
    return head_for(made, names=len(names)) + b"".join(written)
