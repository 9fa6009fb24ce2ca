"""Reads the behaviour rows, is the server of each, and has a client play it. README.md beside it has the format, and what is said to a client of another language.

usage: python3 rows.py --names      the rows, a line for each
       python3 rows.py              plays rows with the client whose tests have started it, by lines of its input and output
"""
from __future__ import annotations

import concurrent.futures
import contextlib
import dataclasses
import itertools
import os
import pathlib
import re
import socket
import sys
import threading
import time
from collections.abc import Callable

PATIENCE = 60  # seconds in which a client of another language has answered a call, whatever else its host does
FOLDER = pathlib.Path(__file__).resolve().parent
TIMES = ("silence", "patience", "outage", "timeout")
DEFAULTS = {"sessions": "1", "ahead": "1", "silence": "1000", "patience": "2000", "outage": "0"}


@dataclasses.dataclass
class Row:
    name: str
    options: dict[str, str] = dataclasses.field(default_factory=lambda: dict(DEFAULTS))
    scripts: list[list[tuple[str, str]]] = dataclasses.field(default_factory=list)
    steps: list[tuple[str, list[str]]] = dataclasses.field(default_factory=list)  # a call, and what it gives
    is_sound: bool = False
    is_nobody: bool = False
    times: int = 1  # its times, and how long the server waits, are so many times those that are written

    def slower(self, times: int) -> Row:
        """The same with all its times so much longer."""

        def longer(text: str) -> str:
            return re.sub(r"^(sleep )(\d+)|\b((?:timeout|abort|before|after)=)(\d+)", lambda one: f"{one[1] or one[3]}{int(one[2] or one[4]) * times}", text)

        options = {name: str(int(text) * times) if name in TIMES else text for name, text in self.options.items()}
        scripts = [[(word, str(int(text) * times) if word == "pause" else text) for word, text in script] for script in self.scripts]
        return dataclasses.replace(self, times=times, options=options, scripts=scripts, steps=[(longer(words), [*map(longer, wanted)]) for words, wanted in self.steps])


def bytes_of(text: str) -> bytes:
    """A text in which \\n, \\r, \\t, \\\\ and \\xNN stand for bytes."""
    spelled = {"n": b"\n", "r": b"\r", "t": b"\t", "\\": b"\\"}
    return b"".join(spelled[part[1]] if part[:1] == "\\" and part[1] != "x" else bytes([int(part[2:], 16)]) if part[:1] == "\\" else part.encode()
                    for part in re.findall(r"\\x..|\\.|[^\\]+", text))  # fmt: skip


def rows() -> list[Row]:
    found: list[Row] = []
    for path in sorted(FOLDER.glob("*.txt")):
        names: dict[str, str] = {}
        for line in path.read_text(encoding="ascii").split("\n"):
            if not line.strip() or line.startswith("#"):
                continue
            word, _, rest = re.sub(r"\{(\w+)\}", lambda one: names[one[1]], line).partition(" ")
            if word == "let":
                name, _, text = rest.partition(" ")
                names[name] = text
            elif word == "row":
                found.append(Row(rest))
            elif word == "client":
                found[-1].options |= dict(one.split("=", 1) for one in rest.split())
            elif word == "connection":
                found[-1].scripts.append([])
            elif word in (">", "*", "<", "<|", "pause", "cut", "gone"):
                found[-1].scripts[-1].append((word, rest))
            elif word == "sound":
                found[-1].is_sound = True
            elif word == "nobody":
                found[-1].is_nobody = True
            elif word in ("call", "start", "join", "sleep", "sent", "connections"):
                found[-1].steps.append((f"{word} {rest}", []))
            else:
                found[-1].steps[-1][1].append(f"{word} {rest}".strip())
    return found


class Server:
    """Plays a row's scripts; what doesn't fit is in `faults`."""

    def __init__(self, row: Row):
        self.row, self.faults, self.heard = row, list[str](), list[str]()
        self.accepted, self.played = 0, 0
        self.listener = socket.create_server(("127.0.0.1", 0))
        self.port: int = self.listener.getsockname()[1]
        self.threads: list[threading.Thread] = []
        if row.is_nobody:
            self.listener.close()
        else:
            threading.Thread(target=self.accept, daemon=True).start()

    def accept(self) -> None:
        while True:
            try:
                stream, _ = self.listener.accept()
            except OSError:
                return
            number, self.accepted = self.accepted, self.accepted + 1
            thread = threading.Thread(target=self.serve, args=(stream, number), daemon=True)
            thread.start()
            self.threads.append(thread)  # (begun: `ended` joins it)

    def serve(self, stream: socket.socket, number: int) -> None:
        with stream:
            try:
                if number < len(self.row.scripts):
                    Conversation(self, stream).play(self.row.scripts[number])
                    self.played += 1
                elif self.row.is_sound:
                    with contextlib.suppress(ConnectionError):  # what isn't wanted any more is dropped
                        Conversation(self, stream).sound()
                else:
                    self.faults.append(f"connection {number + 1} has no script")
            except Exception as fault:
                self.faults.append(f"connection {number + 1}: {fault!r}")

    def ended(self) -> list[str]:
        """What didn't fit, once nothing more comes."""
        heard, end = -1, time.monotonic() + 3 * self.row.times
        while heard < len(self.heard) and time.monotonic() < end:  # what was on its way comes
            heard = len(self.heard)
            time.sleep(0.15)
        time.sleep(0.3)
        self.faults += [f"{line} was sent after the end" for line in self.heard[heard:]]
        self.listener.close()
        for thread in self.threads:
            thread.join(6 * self.row.times)
        missing = len(self.row.scripts) - self.played
        return self.faults + ([f"{missing} scripts weren't played to their ends"] if missing else [])


class Conversation:
    def __init__(self, server: Server, stream: socket.socket):
        self.server, self.stream, self.rest = server, stream, b""
        stream.settimeout(8 * server.row.times)

    def line(self) -> str | None:
        """The next line; none at the end."""
        while b"\n" not in self.rest:
            try:
                block = self.stream.recv(4096)
            except ConnectionError:
                block = b""
            if not block:
                if self.rest:
                    raise ValueError(f"{self.rest!r} has no end")
                return None
            self.rest += block
        line, _, self.rest = self.rest.partition(b"\n")
        self.server.heard.append(line.decode())
        return line.decode()

    def play(self, script: list[tuple[str, str]]) -> None:
        ready: str | None = None
        at = 0
        while at < len(script):
            word, text = script[at]
            if word == "*":
                came = ready if ready is not None else self.line()
                ready = None
                if came == text:
                    self.stream.sendall(bytes_of(script[at + 1][1]) + b"\n")
                    continue
                ready, at = came if came is not None else "", at + 2
                continue
            if word == ">":
                came, ready = ready if ready is not None else self.line(), None
                if came != text:
                    raise ValueError(f"{came!r} came, and {text!r} was to come")
            elif word == "<":
                self.stream.sendall(bytes_of(text) + b"\n")
            elif word == "<|":
                self.stream.sendall(bytes_of(text))
            elif word == "pause":
                time.sleep(int(text) / 1000)
            elif word == "gone":
                self.stream.settimeout(5 * self.server.row.times)
                if came := ready if ready is not None else self.line():
                    raise ValueError(f"{came!r} came, and the connection was to end")
            at += 1
        if script[-1][0] not in ("cut", "gone"):
            self.stream.shutdown(socket.SHUT_WR)
            if came := self.line():
                raise ValueError(f"{came!r} came behind the end")

    def sound(self) -> None:
        jobs: list[int] = []
        while (line := self.line()) is not None:
            word, *rest = line.split(" ")
            answer = {"HELLO": f"WELCOME {' '.join(rest[:2])}", "RESERVE": f"RESERVED {' '.join(rest)}", "QUOTA": "QUOTA 1 8192 1", "LIVE": "LIVE 0 0", "INFO": "ERR 21",
                      "CANCEL": "ERR 17", "BYE": "BYE"}.get(word, "")  # fmt: skip
            if word == "ASK":
                if len(jobs) == 256:
                    raise ValueError("a 257th job was asked for in a session")
                jobs.append(value_of(line.split(" ", 2)[2]))
                answer = f"JOB {len(jobs)}"
            elif word in ("GET", "WAIT"):
                answer = f"DONE {rest[0]} {jobs[int(rest[0]) - 1]} d3"
            elif word == "TABLE":
                answer = f"TABLE {rest[0]} d3={jobs[int(rest[0]) - 1]}"
            self.stream.sendall(answer.encode() + b"\n")
            if word == "BYE":
                return


def value_of(position: str) -> int:
    """The sound server's value of a position."""
    cells = sum(at * {"X": 1, "O": 2}.get(cell, 0) for at, cell in enumerate(position[:64]))
    return (cells + 7 * (position[65] == "O")) % 1000 - 500


class Player:
    """A client that makes the calls of a row."""

    def __init__(self) -> None:
        self.started: dict[str, tuple[float, concurrent.futures.Future[list[str]]]] = {}

    def make(self, words: str) -> list[str]:
        """What a call gives, by README's words."""
        raise NotImplementedError

    def begin(self, name: str, words: str) -> None:
        future = concurrent.futures.Future[list[str]]()
        threading.Thread(target=lambda: future.set_result(self.make(words)), daemon=True).start()
        self.started[name] = time.monotonic(), future

    def close(self) -> None:
        self.make("close")


def compare(wanted: list[str], found: list[str], taken: float, in_any_order: bool = False) -> None:
    """What a call gave, and what it was to give."""
    plain, limits = [], {}
    for line in wanted:
        plain.append(" ".join(word for word in line.split() if not word.startswith(("before=", "after="))))
        limits |= dict(word.split("=") for word in line.split() if word.startswith(("before=", "after=")))
    if plain and plain[0].startswith("taken "):
        assert int(found[0].split()[1]) <= int(plain[0].split()[1]), found
        return
    assert (sorted(found) if in_any_order else found) == plain, f"{plain} was wanted, and there is {found}"
    assert float(limits.get("after", 0)) / 1000 <= taken < float(limits.get("before", 1e9)) / 1000, f"{plain} after {taken} s"


def play(row: Row, player: Callable[[int, dict[str, str]], Player]) -> None:
    server = Server(row)
    client = player(server.port, row.options)
    try:
        for words, wanted in row.steps:
            word, _, rest = words.partition(" ")
            name, _, text = rest.partition(" ")
            begun = time.monotonic()
            if word == "call":
                compare(wanted, client.make(rest), time.monotonic() - begun, "order=known" in rest)
            elif word == "start":
                client.begin(name, text)
            elif word == "join":
                compare(wanted, client.started[rest][1].result(10 * row.times), time.monotonic() - client.started[rest][0])
            elif word == "sleep":
                time.sleep(int(rest) / 1000)
            elif word == "sent":
                assert sum(line.startswith(name) for line in server.heard) == int(text), server.heard
            elif word == "connections":
                assert server.accepted == int(rest), server.accepted
    except AssertionError as fault:
        raise AssertionError(f"{fault}; the server: {server.faults}, {server.heard[-20:]}") from None
    finally:
        client.close()
        faults = server.ended()
    assert not faults, faults


class Remote(Player):
    """The client of another language: it is told its calls by lines, and tells what each gave."""

    answers: dict[str, concurrent.futures.Future[str]] = {}  # by a call's number
    numbers = itertools.count(1)

    def __init__(self, row: int, port: int, options: dict[str, str]):
        super().__init__()
        self.row = row
        words = "&".join(f"{name}={int(text) / 1000 if name in TIMES else text}" for name, text in options.items() if name != "token")
        self.make(f"client othello://127.0.0.1:{port}?{words} {options.get('token', '')}")

    def make(self, words: str) -> list[str]:
        number = str(next(self.numbers))
        self.answers[number] = future = concurrent.futures.Future[str]()
        say(f"{self.row} {number} {words}")
        return future.result(PATIENCE).split("\t")


def say(line: str) -> None:
    sys.stdout.write(f"{line}\n")  # (in one piece: threads share it)
    sys.stdout.flush()


def play_remote(at: int, row: Row) -> None:
    """Plays a row, and where it fails, as on a busy host it may, twice more, with its times twice and four times as long: a wrong body fails each
    time (COLUWEN_ONCE: once is enough)."""
    for times in (1,) if os.environ.get("COLUWEN_ONCE") else (1, 2, 4):
        try:
            play(row.slower(times), lambda port, options: Remote(at, port, options))
            return say(f"{at} 0 end")
        except Exception as fault:
            said = repr(fault).replace("\n", " ")
    say(f"{at} 0 end {said}")


def main(words: list[str]) -> None:
    found = rows()
    if words == ["--names"]:
        print(*(row.name for row in found), sep="\n")
        return
    for line in sys.stdin:
        number, _, text = line.rstrip("\n").partition(" ")
        if text == "play":
            threading.Thread(target=play_remote, args=(int(number), found[int(number)]), daemon=True).start()
        else:
            Remote.answers.pop(number).set_result(text)


if __name__ == "__main__":
    main(sys.argv[1:])
