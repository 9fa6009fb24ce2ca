"""Answers lines `depth position` by a server of `othello serve`.

The answers come in order, each in the place of its line and as soon as it is known: `DONE value move`, `SPENT`, `CANCELLED` or
`ERR number` with what it means. With --tables each is followed by the board with what is known of each choice. What comes in is
asked at once, so many lines at a time as --ahead says:

    (echo "2 $O"; sleep 6) | coluwen             # answers at the beginning, and ends after 6 s

Where a depth can't be had at the server's grain, standard error says so and which can. A server that isn't there, or says nothing
where it answers at once, is given up after --silence seconds: one line, and status 1. The status is 3 where a line has no value.
"""

import concurrent.futures
import queue
import re
import sys
import threading
import time
from collections.abc import Iterator, Sequence

from .._core import DEEPEST
from ..analyst import Analyst, Result
from ..board import CELLS, EMPTY, LENGTH, Position
from ..errors import FAULTS, Late, Refused, TooDeep
from .command import NO_VALUE, analyst_of, ending, parser, say, teller

NAME = "coluwen"
LONGEST = 128  # bytes of a line
BEHIND = 48  # lines that are read ahead of those that are asked: their lines are sent many at once
Asked = concurrent.futures.Future[Result]


def question_of(line: str) -> tuple[Position, int]:
    """The position and depth of a line, by the tests of the server in their order; `Refused` has its number."""
    depth, space, position = line.partition(" ")
    faults = ((22, len(f"ASK {line}") > LONGEST), (21, not space), (23, not re.fullmatch("[0-9]{1,8}", depth)), (27, not re.fullmatch("0*([0-9]|1[0-2])", depth)),
              (24, len(position) != LENGTH), (25, any(cell not in CELLS for cell in position[:64])),
              (26, position[64:65] != " " or position[65:] not in CELLS or CELLS.get(position[65:]) == EMPTY))  # fmt: skip
    for number, is_so in faults:
        if is_so:
            raise Refused(number)
    return Position.parse(position), int(depth)


def text_of(answer: Result | BaseException) -> str:
    """An answer as the command writes it."""
    if isinstance(answer, Result):
        return f"DONE {answer.score.value} {answer.best or '-'}"
    if isinstance(answer, Refused):
        return f"ERR {answer.number} {FAULTS.get(answer.number, '')}".rstrip()
    if isinstance(answer, (TooDeep, Late)):
        return "SPENT" if isinstance(answer, TooDeep) else "CANCELLED"
    raise answer


def board_of(result: Result) -> str:
    """The board as lines of a terminal, with what is known of each legal square in its place and a star before the best one; a pass stands
    below it."""
    return result.position.drawn({entry.move: f"{'*' if entry.move == result.best else ''}{entry.score.sign}{entry.score.value}" for entry in result.table})


def lines_of(descriptor: int = 0) -> Iterator[str]:
    """The lines of standard input without their ends, as `othello solve` cuts them."""
    return (line.rstrip("\n").removesuffix("\r") for line in open(descriptor, encoding="latin-1", newline="\n"))


def answers(analyst: Analyst, lines: Iterator[str], ahead: int, timeout: float | None) -> Iterator[Result | BaseException]:
    """Of each line what is known of it, as soon as that and what is before it is known. Lines are read by a thread of its own, so that an
    answer doesn't wait for the next line; so many are asked at once."""
    begun: queue.SimpleQueue[Asked | Exception | None] = queue.SimpleQueue()
    places = threading.Semaphore(ahead + BEHIND)

    def begin() -> None:
        try:
            for line in lines:
                places.acquire()
                try:
                    begun.put(analyst.submit(*question_of(line), timeout=timeout))
                except Refused as refusal:
                    begun.put(refusal)
            begun.put(None)
        except Exception as fault:  # told where answers are awaited
            begun.put(fault)

    threading.Thread(target=begin, daemon=True).start()
    while (one := begun.get()) is not None:
        found = one if isinstance(one, Exception) else one.exception() or one.result()
        places.release()
        yield found


def main(words: Sequence[str] | None = None) -> int:
    options = parser(__doc__, NAME, outage=0)
    options.add_argument("--ahead", type=int, default=16, metavar="N", help="how many lines are asked at a time at most (%(default)d)")
    options.add_argument("--timeout", type=float, metavar="S", help="seconds that a line may take; its job is cancelled then")
    options.add_argument("--tables", action="store_true", help="show what is known of each choice")
    asked = options.parse_args(words)
    tell, told, begun = teller(NAME), set[int](), time.monotonic()
    count = without = 0
    with analyst_of(asked, NAME, sessions=1, ahead=max(asked.ahead, 1)) as client:
        client.ping()  # a wrong port is said before any line comes
        for count, answer in enumerate(answers(client, lines_of(), max(asked.ahead, 1), asked.timeout), 1):
            say(text_of(answer) + (f"\n{board_of(answer)}" if asked.tables and isinstance(answer, Result) else ""))
            without += not isinstance(answer, Result)
            if isinstance(answer, TooDeep) and answer.depth not in told:
                told.add(answer.depth)
                tell(f"line {count}: {answer} ({grain_for(answer.depth)})" if answer.greatest else f"line {count}: {answer}")
    taken = max(time.monotonic() - begun, 0.001)
    print(f"{count} lines, {count / taken:.0f} a second", file=sys.stderr)
    return NO_VALUE if without else 0


def grain_for(depth: int) -> str:
    """Which server has a depth, in words."""
    if depth - 4 <= 6:
        return f"a server of --grain {max(depth - 4, 0)} has it"
    return f"a server of --grain {depth - 5} has it mostly" if depth - 5 <= 6 else f"no server has it but near the end of a game, from {DEEPEST} empty squares on"


command = ending(NAME, main)

if __name__ == "__main__":
    command()
