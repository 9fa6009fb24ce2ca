"""What can go wrong, each by an exception of its own; all are a `ColuwenError`. They can be pickled and copied, and what they tell in numbers
is an attribute."""

from typing import Any

FAULTS = {
    10: "no segment is left",
    11: "no node is left",
    13: "256 jobs were asked",
    14: "64 tenants are there, or what is asked for isn't left",
    17: "there is no such job",
    19: "there was no memory",
    20: "fewer segments or nodes than are reserved, or no more of either",
    21: "an unknown word, or another number of words",
    22: "the line is too long",
    23: "not a number, or outside the limits",
    24: "the position hasn't 66 bytes",
    25: "a byte of the position spells no cell",
    26: "no space and side follow the cells",
    27: "the depth is over 12",
    28: "no HELLO yet",
    29: "HELLO again",
    30: "nobody has this token",
    31: "too many lines in a time",
}


class ColuwenError(Exception):
    """Whatever this package raises of its own."""


class Refused(ColuwenError):
    """The server answered `ERR number`: `number`, and what it means by `str`."""

    def __init__(self, number: int):
        super().__init__(number)
        self.number = number

    def __str__(self) -> str:
        return f"ERR {self.number}: {FAULTS.get(self.number, 'a fault that this client does not know')}"


class Unreachable(ColuwenError, ConnectionError):
    """The server can't be reached, or was lost, and trying again didn't help."""


class Broken(ColuwenError, ConnectionError):
    """What a session would read next isn't known to be the answer to what it asks: a new session is needed."""


class Silent(ColuwenError, TimeoutError):
    """The server didn't answer in time what it answers at once: a new session is needed."""


class Late(ColuwenError, TimeoutError):
    """A job took longer than it was given, `seconds`, and was cancelled. `deepest`: the last `Result` of those that `deepen` has given; else None."""

    def __init__(self, seconds: float, deepest: Any = None):
        super().__init__(seconds, deepest)
        self.seconds, self.deepest = seconds, deepest

    def __str__(self) -> str:
        return f"the job was cancelled after {self.seconds:g} s"


class Closed(ColuwenError):
    """The client was closed: it asks nothing more."""


class TooDeep(ColuwenError):
    """A position can't be searched `depth` plies deep at the server's grain: alone in a session with all that one may reserve it was
    spent. `greatest` is a lesser depth that the server surely has; 0 where none is known (the caller said what to reserve)."""

    def __init__(self, depth: int, greatest: int = 0):
        super().__init__(depth, greatest)
        self.depth, self.greatest = depth, greatest

    def __str__(self) -> str:
        if not self.greatest:
            return f"depth {self.depth} takes more than is reserved"
        return f"depth {self.depth} can't be had at this server's grain; depth {self.greatest} surely can"


class IllegalMove(ColuwenError, ValueError):
    """A move that the rules don't allow at its position."""


class FormatError(ColuwenError, ValueError):
    """A text or file that can't be read: `text` says why, and `file`, `line` and `column` where (from 1; a binary file's column is its byte; 0
    where there is none)."""

    def __init__(self, text: str, file: str = "", line: int = 0, column: int = 0):
        super().__init__(text, file, line, column)
        self.text, self.file, self.line, self.column = text, file, line, column

    def __str__(self) -> str:
        return ":".join([self.file or "text", *(str(number) for number in (self.line, self.column) if number)]) + f": {self.text}"
