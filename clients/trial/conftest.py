"""Trials of the clients with servers and engines: `pytest clients/trial` (-k WORD for some, --timeout SECONDS, --junitxml FILE for a report; --positions, --endings and
--deepest for more than the smallest trial of engines: 2000, 300 and 8 for a release). The variable OTHELLO names the program; else
`./othello --ready` gives the proved one, or builds an unproved one, which checks memory as it runs and is some 80 times slower."""
from __future__ import annotations

import contextlib
import functools
import os
import pathlib
import random
import signal
import subprocess
import sys
import time
from collections.abc import Callable, Iterator

import pytest

TOP = pathlib.Path(__file__).resolve().parents[2]
sys.path[:0] = [str(TOP / "clients" / "python" / "src"), str(TOP / "clients" / "python" / "tests")]
from coluwen import Board, Position  # noqa: E402


def pytest_addoption(parser: pytest.Parser) -> None:
    for name, number, about in (("positions", 60, "of games, at each depth"), ("endings", 20, "searched to the end"), ("deepest", 4, "plies")):
        parser.addoption(f"--{name}", type=int, default=number, help=f"how many {about}, in trials of engines")


def positions(count: int, seed: int, least: int = 8, most: int = 50) -> list[Position]:
    """Positions of random games."""
    chance, found = random.Random(seed), list[Position]()
    while len(found) < count:
        board = Board()
        for _ in range(chance.randint(least, most)):
            if not board.is_over:
                board = board.push(chance.choice(board.legal))
        found.append(board.position)
    return found


def until(holds: Callable[[], object], seconds: float, what: str) -> None:
    """Waits for something, by a clock of its own."""
    end = time.monotonic() + seconds
    while not holds():
        assert time.monotonic() < end, f"{what}: not within {seconds} s"
        time.sleep(0.02)


@functools.cache
def program() -> str:
    return os.environ.get("OTHELLO") or subprocess.run([TOP / "othello", "--ready"], stdout=subprocess.PIPE, text=True, check=True).stdout.strip()


class Othello:
    """A server of the program, which can be stopped, ended and begun anew at its port."""

    def __init__(self, *words: str):
        self.words, self.port = words, 0
        self.process: subprocess.Popen[str] | None = None
        self.begin()

    def begin(self) -> None:
        at = ("--port", str(self.port)) if self.port else ()
        self.process = subprocess.Popen([program(), "serve", *self.words, *at], stdout=subprocess.PIPE, text=True)
        assert self.process.stdout
        self.port = int(self.process.stdout.readline().rsplit(":", 1)[1])

    def say(self, number: signal.Signals) -> None:
        assert self.process
        self.process.send_signal(number)
        if number == signal.SIGKILL:
            self.process.wait()

    @property
    def address(self) -> str:
        return f"127.0.0.1:{self.port}"


@contextlib.contextmanager
def served(*words: str) -> Iterator[Othello]:
    one = Othello(*words)
    try:
        yield one
    finally:
        assert one.process
        one.process.kill()
        one.process.wait()


@pytest.fixture(scope="session")
def server() -> Iterator[Othello]:
    with served("--sessions", "1000", "--workers", "2", "--segments", "65536", "--nodes", "4194304", "--grain", "2") as one:
        yield one


def solved(lines: list[str]) -> list[tuple[int, str]]:
    """What `othello solve` answers to lines `depth position`: the value and the move of each."""
    run = subprocess.run([program(), "solve"], input="".join(f"{line}\n" for line in lines), capture_output=True, text=True, check=True)
    return [(int(words[0]), words[1]) for words in map(str.split, run.stdout.splitlines())]
