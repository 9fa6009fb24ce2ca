"""Values of any number of positions as a CSV file, by many sessions of a server at once, for testers of engines.

usage: coluwen-batch [--depth 6] [--sessions 8] [..] RESULTS [POSITIONS ..]
       coluwen-batch --compare RESULTS OTHERS

POSITIONS (standard input where none is named) are of any format that `coluwen.formats` reads: a line of 66 letters or `depth position`, an
.obf, GGF, SGF, WTHOR's .wtb, transcripts; of a game each position is asked at which a move was made. RESULTS has a row for each, in their
order: position, depth, value, move, milliseconds. The value is SPENT where the server's grain doesn't let it through; where a line is at fault it is
`ERR number`, with file, line and column and what is wrong, and the run goes on. RESULTS are UTF-8; with --excel as Excel reads them: with a mark
of UTF-8 before them, and points for empty squares, as it takes what begins with - for a formula. The milliseconds are those from the ASK to the
DONE, with what other sessions had the server do.

RESULTS is at each moment a beginning of the answers. Where it is there already the run goes on behind it, once its rows have been
found to be those of the first positions; a row that was cut off is made again. Where fewer sessions are granted than --sessions says, as
by a customer's budget, it goes on with those that it has; a server that is silent or lost is asked again for --outage seconds, and nothing
is lost meanwhile. Progress and a summary go to standard error: how many are done, spent and at fault, seconds, positions a second, and how
often the first best move is one that was expected. --plot FILE draws times and values (SVG).

Without a server this computer's own engine searches, by a process for each processor; with --dask the engines of a cluster's workers, each of which
has this package and the program: what a lost worker had is searched by another. Where this Python hasn't Dask, Debian's runs the command.

The status is 0 where all rows are done, 3 where one isn't, 1 where the server can't be reached or was lost for too long, a file can't be read
(with its line and column) or the rows are others, 130 after Ctrl-C.

--compare tells which rows of two runs have other values or moves (the first twenty, or with --all each), which stand in one alone, and how long each run's jobs took; OTHERS may
be an .obf too, whose expected moves the results must be among, or another engine's CSV with a head that names `position` and `move` (and
`value` or `discs`). The status is 0 where nothing differs but the times, and else 1.

    $ coluwen-batch --depth 4 --server 127.0.0.1:4711 one.csv positions        # Ctrl-C, and the same again: it goes on
    $ coluwen-batch --depth 4 --server 127.0.0.1:4712 two.csv positions && coluwen-batch --compare one.csv two.csv
"""

import argparse
import collections
import csv
import dataclasses
import fcntl
import importlib.util
import io
import os
import pathlib
import stat
import sys
import time
from collections.abc import Iterator, Sequence

from .. import formats
from ..analyst import Analyst, Result
from ..board import CELLS, LENGTH, Position
from ..cluster import Cluster
from ..errors import FAULTS, ColuwenError, FormatError, Refused, TooDeep
from .command import LONG_OUTAGE, NO_VALUE, analyst_of, ending, parser, teller
from .compare import SHOWN, Row, compare, csv_rows
from .lines import grain_for, question_of
from .plot import draw

NAME = "coluwen-batch"
DEBIAN = pathlib.Path("/usr/lib/python3/dist-packages")  # of Debian's Python, whose prefix is /usr
HEAD = ["position", "depth", "value", "move", "milliseconds"]


class Fault(ColuwenError):
    """What ends the run, in words."""


@dataclasses.dataclass(frozen=True)
class Asked:
    """A position that is to be asked: its depth and text as its row has them, and the moves that are expected. Where it can't be asked,
    `fault` is the number by which the server would refuse it, and `why` says where it stands and what is wrong."""

    depth: str
    position: str
    expected: tuple[str, ...] = ()
    fault: int = 0
    why: str = ""


def unread(line: str, depth: int, why: FormatError) -> Asked:
    """A line that is of no format: what is wrong with it, and by which number as a line `depth position`."""
    first, space, rest = line.partition(" ")
    asked = Asked(str(depth), line) if len(line) == 66 else Asked(first, rest) if space else Asked("", line)
    try:
        question_of(f"{asked.depth} {asked.position}" if asked.depth else line)
    except Refused as refusal:
        return dataclasses.replace(asked, fault=refusal.number, why=str(why))
    return dataclasses.replace(asked, fault=24, why=str(why))


class Source:
    """The positions of files, and of lines that can't be read where and why."""

    def __init__(self, paths: Sequence[str], depth: int, kind: str | None):
        self.paths, self.depth, self.kind = paths, depth, kind
        self.faults: list[FormatError] = []
        self.total: int | None = None
        self.data = b""  # of standard input, where it is a file
        if paths or stat.S_ISREG(os.fstat(0).st_mode):
            self.data = b"" if paths else sys.stdin.buffer.read()
            self.total = sum(1 for _ in self.all())
            self.faults.clear()

    def all(self) -> Iterator[Asked]:
        for path in self.paths:
            yield from self.parts(pathlib.Path(path).read_bytes(), path)
        if not self.paths and (self.data or self.kind not in (None, "lines")):
            yield from self.parts(self.data or sys.stdin.buffer.read(), "standard input")
        elif not self.paths:
            lines = (line for block in sys.stdin.buffer for line in formats.lines_of(block))
            for number, line in enumerate(lines, 1):
                yield from self.line(line, formats.Place("standard input", number))

    def parts(self, data: bytes, name: str) -> Iterator[Asked]:
        kind = self.kind or formats.kind_of(name, data)
        lines = formats.lines_of(data) if kind in ("lines", "obf") else []
        for one in formats.problems_of(data, name, kind):
            if isinstance(one, FormatError):
                self.faults.append(one)
                if lines:
                    yield unread(lines[one.line - 1], self.depth, one)
            else:
                yield self.of(one)

    def line(self, line: str, place: formats.Place) -> Iterator[Asked]:
        for one in formats.read_line(line, place):
            if isinstance(one, FormatError):
                self.faults.append(one)
                yield unread(line, self.depth, one)
            else:
                yield self.of(one)

    def of(self, problem: formats.Problem) -> Asked:
        depth = self.depth if problem.depth is None else problem.depth
        return Asked(str(depth), problem.position.text, problem.best(), 0 if depth <= 12 else 27, f"{problem.place}: {FAULTS[27]}")


class Progress:
    """What is told of a run: on a terminal one line that changes twice a second, else a line each ten seconds."""

    def __init__(self, total: int | None, first: int):
        self.total, self.first, self.begun = total, first, time.monotonic()
        self.terminal = sys.stderr.isatty()
        self.told = self.begun if not self.terminal else 0.0

    def at(self, count: int) -> None:
        now = time.monotonic()
        if now - self.told < (0.5 if self.terminal else 10):
            return
        self.told = now
        rate = (count - self.first) / max(now - self.begun, 0.001)
        text = f"{count} positions" if self.total is None else f"{count} of {self.total} positions ({100 * count // max(self.total, 1)} %)"
        text += f", {rate:.0f} a second"
        if self.total is not None and rate:
            text += f", {(self.total - count) / rate:.0f} s to go"
        print(("\r\033[K" if self.terminal else "") + text, end="" if self.terminal else "\n", file=sys.stderr, flush=True)


def answered(analyst: Analyst, source: Iterator[Asked]) -> Iterator[tuple[Asked, Result | ColuwenError]]:
    """Each that is asked and what it came to, in order; what is at fault isn't asked."""
    waiting: collections.deque[Asked] = collections.deque()

    def questions() -> Iterator[tuple[Position, int]]:
        for asked in source:
            waiting.append(asked)
            if not asked.fault:
                yield Position.parse(asked.position), int(asked.depth)

    def faults() -> Iterator[tuple[Asked, ColuwenError]]:
        while waiting and waiting[0].fault:
            asked = waiting.popleft()
            yield asked, Refused(asked.fault)

    for outcome in analyst.analyse_many(questions()):
        yield from faults()
        yield waiting.popleft(), outcome.answer
    yield from faults()


def row_of(asked: Asked, answer: Result | ColuwenError) -> list[object]:
    """The row of a position. A fault that is the server's, and not the position's, ends the run."""
    if isinstance(answer, Result):
        return [asked.position, asked.depth, answer.score.value, answer.best or "-", round(1000 * answer.seconds, 3)]
    if isinstance(answer, TooDeep):
        return [asked.position, asked.depth, "SPENT", "", ""]
    if isinstance(answer, Refused) and answer.number > 20 and answer.number < 30:
        return [asked.position, asked.depth, f"ERR {answer.number} {asked.why}".rstrip(), "", ""]
    raise answer


MARK = b"\xef\xbb\xbf"  # of UTF-8, by which Excel knows it


def spelled(position: str, for_excel: bool) -> str:
    """A position as its row has it."""
    if not for_excel:
        return position
    if len(position) == LENGTH and not set(position) - {*CELLS, " "}:
        return position.replace("-", ".")
    return f"'{position}" if position[:1] in ("=", "+", "-", "@") else position


def text_of(row: list[object] | list[str]) -> bytes:
    """A row as it is written, at once and whole."""
    text = io.StringIO()
    csv.writer(text, lineterminator="\n").writerow(row)
    return text.getvalue().encode("utf-8", "replace")


def rows_of(path: pathlib.Path) -> list[list[str]]:
    """The rows of a run's file that have their end, without the head."""
    rows = csv_rows(path)
    if rows and rows[0] != HEAD:
        raise Fault(f"{path} isn't a file of this command")
    return rows[1:]


def taken_up(path: pathlib.Path, file: io.FileIO, asked: Iterator[Asked], for_excel: bool) -> int:
    """Goes on behind the rows of a file, which must be of the first positions; gives how many there are."""
    rows = rows_of(path)
    for number, row in enumerate(rows, 1):
        one = next(asked, None)
        if not one or [spelled(one.position, for_excel), one.depth] != row[:2]:
            raise Fault(f"row {number} of {path} is of another position or depth than position {number}")
    text = path.read_bytes()
    file.truncate(text.rfind(b"\n") + 1)  # a row that was cut off
    file.seek(0, os.SEEK_END)
    if not file.tell():
        file.write(MARK * for_excel + text_of(HEAD))
    return len(rows)


def kept_moves(source: Iterator[Asked], expected: list[tuple[str, ...]]) -> Iterator[Asked]:
    """The positions as they come; what is expected of each is kept."""
    for asked in source:
        expected.append(asked.expected)
        yield asked


def summary(path: pathlib.Path, source: Source, expected: list[tuple[str, ...]], count: int, taken: float) -> int:
    """Tells how the run ended; the status."""
    rows = rows_of(path)
    done = [row for row in rows if row[3]]
    spent = collections.Counter(row[1] for row in rows if row[2] == "SPENT")
    faults = len(rows) - len(done) - sum(spent.values())
    tell = teller(NAME)
    rate = count / max(taken, 0.001)
    print(f"{len(rows)} positions: {len(done)} done, {sum(spent.values())} spent, {faults} at fault; {count} in {taken:.1f} s, {rate:.0f} a second", file=sys.stderr)
    for depth, times in sorted(spent.items()):
        tell(f"depth {depth} can't be had of {times} at this server's grain: {grain_for(int(depth))}")
    for fault in source.faults[:20]:
        tell(str(fault))
    if len(source.faults) > 20:
        tell(f"and {len(source.faults) - 20} more that can't be read")
    compared = [(row[3], moves) for row, moves in zip(rows, expected) if moves and row[3]]
    if compared:
        agreed = sum(move in moves for move, moves in compared)
        print(f"{agreed} of {len(compared)} moves are among those expected ({100 * agreed / len(compared):.1f} %)", file=sys.stderr)
    return NO_VALUE if len(done) < len(rows) or source.faults else 0


def answer_all(asked: argparse.Namespace) -> int:
    """Answers the positions, and writes their rows."""
    source = Source(asked.positions, asked.depth, asked.format)
    expected: list[tuple[str, ...]] = []
    positions = kept_moves(source.all(), expected)
    path = pathlib.Path(asked.results)
    with open(path, "r+b" if path.exists() else "w+b", buffering=0) as file:
        try:
            fcntl.flock(file, fcntl.LOCK_EX | fcntl.LOCK_NB)
        except BlockingIOError:
            raise Fault(f"{path} is written by another run") from None
        for_excel = asked.excel or path.read_bytes()[:3] == MARK
        first = written = taken_up(path, file, positions, for_excel)
        if first:
            print(f"{first} positions were done earlier", file=sys.stderr)
        progress = Progress(source.total, first)
        with Cluster(asked.dask) if asked.dask else analyst_of(asked, NAME, sessions=asked.sessions) as client:
            client.ping()
            try:
                for one, answer in answered(client, positions):
                    file.write(text_of(row_of(dataclasses.replace(one, position=spelled(one.position, for_excel)), answer)))
                    written += 1
                    progress.at(written)
            finally:
                if progress.terminal:
                    print(file=sys.stderr)
    if asked.plot:
        pathlib.Path(asked.plot).write_text(draw([Row.of(row) for row in rows_of(path)], path.name), encoding="utf-8")
    return summary(path, source, expected, written - first, time.monotonic() - progress.begun)


def main(words: Sequence[str] | None = None) -> int:
    options = parser(__doc__, NAME, LONG_OUTAGE)
    options.add_argument("--compare", action="store_true", help="tell how RESULTS and OTHERS differ, and ask nothing")
    options.add_argument("--all", action="store_true", help="with --compare: show all rows that differ, and not the first twenty alone")
    options.add_argument("--depth", type=int, default=6, help="of the positions that name none (%(default)d)")
    options.add_argument("--sessions", type=int, default=8, metavar="N", help="how many at once (%(default)d); the server has 64 at most")
    options.add_argument("--dask", metavar="ADDRESS", help="by the engines of a Dask cluster's workers, whose scheduler has this address: tcp://HOST:8786")
    options.add_argument("--format", choices=formats.KINDS, help="of POSITIONS: by its name's end and its beginning where it isn't said")
    options.add_argument("--excel", action="store_true", help="write RESULTS as Excel reads them")
    options.add_argument("--plot", metavar="FILE", help="draw the times and values of RESULTS, as SVG")
    options.add_argument("results", metavar="RESULTS")
    options.add_argument("positions", nargs="*", metavar="POSITIONS")
    asked = options.parse_args(words)
    if asked.dask and words is None and not importlib.util.find_spec("distributed") and sys.prefix != DEBIAN.parents[2].as_posix() and (DEBIAN / "distributed").is_dir():
        source = pathlib.Path(__file__).resolve().parents[2]
        os.execve("/usr/bin/python3", ["/usr/bin/python3", "-m", "coluwen.tools.batch", *sys.argv[1:]], {**os.environ, "PYTHONPATH": str(source)})
    if asked.compare:
        if len(asked.positions) != 1:
            options.error("two files are compared: RESULTS and OTHERS")
        return 0 if compare(asked.results, asked.positions[0], None if asked.all else SHOWN) else 1
    return answer_all(asked)


command = ending(NAME, main)

if __name__ == "__main__":
    command()
