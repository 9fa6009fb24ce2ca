"""How the results of two runs differ: of `coluwen-batch`, of another engine, or of what an .obf expects.

Tables are as other programs write them: in UTF-8 with or without its mark, or in Latin-1; lines end with LF or CR LF; fields are parted by commas, semicolons
or tabs, and may be empty; a number may have a point or a comma (-4.0 is -4)."""
from __future__ import annotations

import csv
import dataclasses
import io
import math
import pathlib
import re
import statistics

from .. import formats
from ..board import PASS, Position
from ..errors import FormatError
from ..score import A_DISC, GREATEST_EVALUATION

SHOWN = 20  # rows that differ


@dataclasses.dataclass(frozen=True)
class Row:
    """What a run says of a position: the value (as a text, empty where it says none), the moves (any of them, where there are several) and
    how long it took."""

    position: str
    depth: str
    value: str
    moves: tuple[str, ...]
    milliseconds: float = 0.0

    @classmethod
    def of(cls, row: list[str]) -> Row:
        """A row of `coluwen-batch`."""
        return cls(row[0], row[1], row[2], (row[3],), float(row[4] or 0))


def csv_rows(path: pathlib.Path) -> list[list[str]]:
    """The rows of a file of this program that have their end."""
    text = formats.text_of(path.read_bytes())
    return list(csv.reader(io.StringIO(text[: text.rfind("\n") + 1], newline="")))


def table_of(path: str) -> list[list[str]]:
    """The rows of a table of any program; none of them is cut, or is empty but for its commas."""
    text = formats.text_of(pathlib.Path(path).read_bytes())
    head, _, rest = text.partition("\n")
    parted = max(",;\t", key=head.count)
    rows = list(csv.reader(io.StringIO(text, newline=""), delimiter=parted))
    if rest and not text.endswith("\n") and len(rows[-1]) < len(rows[0]):
        rows.pop()  # a run that is under way, or was stopped in a row
    return [row if any(map(str.strip, row)) else [] for row in rows]


def whole(text: str) -> str:
    """A whole number that is written as another program writes it; of a fault its number; any other text as it stands, and nothing for what isn't a number."""
    text = text.strip()
    if fault := re.match(r"ERR \d+", text):
        return fault[0]
    if re.fullmatch(r"[+-]?\d+([.,]0*)?", text):
        return str(int(re.split("[.,]", text)[0]))
    return "" if text.lower() == "nan" else text


def rows_of(path: str) -> list[Row]:
    """The rows of a CSV with a head, or of an .obf."""
    if pathlib.PurePath(path).suffix.lower() == ".obf":
        return [Row(problem.position.text, "", "" if problem.discs() is None else str(A_DISC * (problem.discs() or 0)), problem.best())
                for problem in formats.strictly(formats.problems(path)) if problem.expected]  # fmt: skip
    rows = table_of(path)
    if not rows:
        return []
    head = [name.strip().lower() for name in rows[0]]
    if "position" not in head or not {"move", "best"} & set(head):
        raise FormatError("its head doesn't name `position` and `move`", path, 1)
    for number, row in enumerate(rows[1:], 2):
        if row and len(row) < len(head):
            raise FormatError(f"it has {len(row)} of the {len(head)} fields that the head names", path, number)
    return [row_of(dict(zip(head, row)), path, number) for number, row in enumerate(rows[1:], 2) if row]


def row_of(named: dict[str, str], path: str, line: int) -> Row:
    """A row of any engine: a move may be in capitals, a value in discs."""
    move = (named.get("move") or named.get("best") or "").strip().lower()
    value, discs = whole(named.get("value", "")), whole(named.get("discs", ""))
    if not value and discs:
        value = str(round(A_DISC * number_of(discs, "discs", path, line)))
    milliseconds = number_of(whole(named.get("milliseconds", "")) or "0", "milliseconds", path, line)
    position = named["position"].removeprefix("'")  # (of a row for Excel)
    try:
        position = Position.parse(position).text
    except FormatError:
        pass  # a line that is at fault in both
    return Row(position, whole(named.get("depth", "")), value, (PASS if move in ("pa", "ps", "--") else move,), milliseconds)


def number_of(text: str, unit: str, path: str, line: int) -> float:
    try:
        found = float(text.replace(",", "."))
    except ValueError:
        found = math.nan
    if not math.isfinite(found):
        raise FormatError(f"{text!r} is no number of {unit}", path, line)
    return found


def differ(one: Row, other: Row) -> bool:
    """Whether two rows have no move in common, or other values. An evaluation is compared with no end of the game."""
    if not set(one.moves) & set(other.moves):
        return True
    if not one.value or not other.value or one.value == other.value:
        return False
    numbers = [int(value) if value.lstrip("-").isdecimal() else None for value in (one.value, other.value)]
    are_ends = None not in numbers and all(abs(number or 0) > GREATEST_EVALUATION or not number for number in numbers)
    return are_ends or bool(one.depth and other.depth)


def compare(one: str, other: str, shown: int | None = SHOWN) -> bool:
    """Tells how two runs differ, so many rows (None: all). Whether they don't."""
    runs = [rows_of(one), rows_of(other)]
    by_depth = all(row.depth for run in runs for row in run)
    depths = [{row.depth for row in run if row.depth} for run in runs]
    if by_depth and all(depths) and not depths[0] & depths[1]:
        print(f"the depths are unlike: {one} has {' '.join(sorted(depths[0]))}, and {other} {' '.join(sorted(depths[1]))}; so nothing can be compared")
        return False
    keyed = [{(row.position, row.depth if by_depth else ""): row for row in run} for run in runs]
    both = [key for key in keyed[0] if key in keyed[1]]
    different = [key for key in both if differ(keyed[0][key], keyed[1][key])]
    print(f"{len(both)} positions in both, {len(different)} with another value or move")
    for key in different[:shown]:
        rows = [run[key] for run in keyed]
        told = [" ".join([row.value, " or ".join(row.moves)]).strip() for row in rows]
        print(f"  {rows[0].depth or rows[1].depth} {key[0]}: {told[0]} and {told[1]}")
    if shown is not None and len(different) > shown:
        print(f"  and {len(different) - shown} more (--all shows them)")
    for path, found, there in ((one, keyed[0], keyed[1]), (other, keyed[1], keyed[0])):
        times = [found[key].milliseconds for key in both] or [0.0]
        taken = f"milliseconds: median {statistics.median(times):.1f}, most {max(times):.1f}, sum {sum(times):.0f}"
        print(f"{path}: {sum(key not in there for key in found)} positions alone; {taken}")
    return not different and len(both) == len(keyed[0]) == len(keyed[1])
