"""The one grammar of a server's answers. clients/conformance.txt has rows of it that the clients of all languages are tried by.

A line ends with its LF, and what has none is no line. Words are parted by one space. FORMS has for each line what may answer it, beside `ERR n`, n from 10
to 99. There N is a number: it has 1 to 8 digits, and no 0 before others; V a value: a number of up to 6 digits, with - before it if it is less than 0, from
-128000 to 128000; P a move: a1 to h8, `pass`, or, of DONE alone, `-`. No move stands twice in a table.
"""

import re
from typing import NamedTuple

from .errors import Broken, Refused

LONGEST = 1115  # bytes of an answer, with its LF
SIGNS = {"N": "(?:0|[1-9][0-9]{0,7})", "P": "(?:[a-h][1-8]|pass)",
         "V": "(?:0|-?(?:[1-9][0-9]{0,4}|1[01][0-9]{4}|12[0-7][0-9]{3}|128000))"}  # fmt: skip
FORMS = {
    word: re.compile(re.sub(r"\b[NVP]\b", lambda sign: SIGNS[str(sign[0])], form))
    for word, form in {
        "HELLO": "WELCOME N N",  # the same segments and nodes
        "RESERVE": "RESERVED N N",  # the same
        "ASK": "JOB N",  # one more than the jobs that were asked
        "GET": "DONE N V (?:P|-)|(?:PENDING|SPENT|CANCELLED) N",
        "WAIT": "DONE N V (?:P|-)|(?:SPENT|CANCELLED) N",
        "TABLE": "TABLE N(?: P[=<>]V)*|(?:PENDING|SPENT|CANCELLED) N",
        "CANCEL": "CANCELLED N",
        "QUOTA": "QUOTA N N N",
        "LIVE": "LIVE N N",
        "INFO": "INFO N(?: [!-~]+)*",  # the grain; what stands behind it is any words
        "BYE": "BYE",
    }.items()
}


class Answer(NamedTuple):
    """An answer that fits its line. `state`: its first word; `numbers`: first a job's; `more`: the words behind the grain of INFO."""

    state: str
    numbers: tuple[int, ...]
    value: int
    move: str
    entries: tuple[tuple[str, str, int], ...]
    more: tuple[str, ...]


DONE = re.compile(re.sub(r"\b[NVP]\b", lambda sign: SIGNS[str(sign[0])], "DONE N (V) (P|-)\n"))
TABLE = re.compile(re.sub(r"\b[NVP]\b", lambda sign: SIGNS[str(sign[0])], "TABLE N((?: P[=<>]V)+)\n"))
ENTRY = re.compile(r" (\w+)([=<>])(\S+)")


def parse(line: str, answer: bytes, jobs: int = 0) -> Answer:
    """The answer to a line (without its LF), where so many jobs were asked before. `Refused` where it is an `ERR`, and `Broken` where it
    is none to that line."""
    return quick(line, answer.decode("latin-1"), jobs) or parse_any(line, answer, jobs)


def quick(line: str, answer: str, jobs: int) -> Answer | None:
    """The same of what comes most; nothing of all else."""
    if line.startswith("ASK"):
        return Answer("JOB", (jobs + 1,), 0, "", (), ()) if answer == f"JOB {jobs + 1}\n" else None
    word, _, number = line.partition(" ")
    if word in ("WAIT", "GET") and answer.startswith(f"DONE {number} ") and (done := DONE.fullmatch(answer)):
        return Answer("DONE", (int(number),), int(done[1]), done[2], (), ())
    if word == "TABLE" and answer.startswith(f"TABLE {number} ") and len(answer) <= LONGEST and (table := TABLE.fullmatch(answer)):
        entries = tuple([(move, sign, int(worth)) for move, sign, worth in ENTRY.findall(table[1])])
        return Answer("TABLE", (int(number),), 0, "", entries, ()) if len(dict.fromkeys([entry[0] for entry in entries])) == len(entries) else None
    return None


def parse_any(line: str, answer: bytes, jobs: int) -> Answer:
    text = answer.removesuffix(b"\n").decode("latin-1")
    (word, *rest), (state, *told) = line.split(" "), text.split(" ")
    is_line = answer.endswith(b"\n") and len(answer) <= LONGEST
    if is_line and re.fullmatch("ERR [1-9][0-9]", text):
        raise Refused(int(told[0]))
    wanted = [str(jobs + 1)] if word == "ASK" else rest
    entries = re.findall(r"(\w+)([=<>])(\S+)", text) if state == "TABLE" else []
    is_twice = len({move for move, *_ in entries}) < len(entries)
    if not is_line or is_twice or not FORMS[word].fullmatch(text) or told[: len(wanted)] != wanted:
        shown = answer[:120].decode("latin-1")
        raise Broken(f"{line!r} was answered by {shown!r}{'..' if len(answer) > 120 else ''}" if answer.endswith(b"\n")
                     else f"an answer to {line!r} has more than {LONGEST} bytes" if len(answer) >= LONGEST
                     else "the server ended the session")  # fmt: skip
    numbers = tuple(map(int, told[: 1 if state in ("DONE", "TABLE", "INFO") else 3]))
    value, best = (int(told[1]), told[2]) if state == "DONE" else (0, "")
    table = tuple((move, sign, int(worth)) for move, sign, worth in entries)
    return Answer(state, numbers, value, best, table, tuple(told[1:]) if state == "INFO" else ())
