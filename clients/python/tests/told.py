"""A server that answers each line as a function says; None ends the connection, and so does an answer without LF."""
from __future__ import annotations

import contextlib
import socket
import threading
import zlib
from collections.abc import Callable, Iterator

from coluwen import Position


class Told:
    def __init__(self, answers: Callable[[], Callable[[str], str | None]]):
        self.answers, self.heard = answers, list[str]()
        self.listener = socket.create_server(("127.0.0.1", 0))
        self.port: int = self.listener.getsockname()[1]
        threading.Thread(target=self.accept, daemon=True).start()

    def accept(self) -> None:
        with contextlib.suppress(OSError):
            while True:
                threading.Thread(target=self.serve, args=(self.listener.accept()[0],), daemon=True).start()

    def serve(self, stream: socket.socket) -> None:
        answer_of = self.answers()
        with contextlib.suppress(OSError), stream, stream.makefile("rb") as lines:
            for line in lines:
                self.heard.append(line.decode().rstrip("\n"))
                answer = answer_of(self.heard[-1])
                if answer is None:
                    return
                stream.sendall(answer.encode())
                if not answer.endswith("\n"):
                    return


def value_of(position: str) -> int:
    """A value of its own for each position."""
    return zlib.crc32(position.encode()) % 2001 - 1000


def sound(value: int | None = None, state: Callable[[int, int], str] = lambda depth, nodes: "DONE") -> Callable[[], Callable[[str], str]]:
    """A server that is right in its form, each position having a value of its own; `state` says of a depth and the session's nodes how a job ends."""

    def answers() -> Callable[[str], str]:
        jobs: list[str] = []
        values: list[int] = []
        moves: list[tuple[str, ...]] = []
        nodes = [0]

        def answer_of(line: str) -> str:
            word, *rest = line.split(" ")
            if word in ("HELLO", "RESERVE"):
                nodes[0] = int(rest[1])
                return f"{'WELCOME' if word == 'HELLO' else 'RESERVED'} {rest[0]} {rest[1]}\n"
            if word == "ASK":
                jobs.append(state(int(rest[0]), nodes[0]))
                values.append(value_of(" ".join(rest[1:])) if value is None else value)
                moves.append((*Position.parse(" ".join(rest[1:])).legal, "-"))
                return f"JOB {len(jobs)}\n"
            if word == "CANCEL":
                jobs[int(rest[0]) - 1] = "CANCELLED"
                return f"CANCELLED {rest[0]}\n"
            if word in ("GET", "WAIT"):
                ended = jobs[int(rest[0]) - 1]
                return f"{ended} {rest[0]} {values[int(rest[0]) - 1]} {moves[int(rest[0]) - 1][0]}\n" if ended == "DONE" else f"{ended} {rest[0]}\n"
            if word == "TABLE":
                one, other, *_ = (*moves[int(rest[0]) - 1], "-", "-")
                return f"TABLE {rest[0]}" + f" {one}={values[int(rest[0]) - 1]}" * (one != "-") + f" {other}<-1" * (other != "-") + "\n"
            if word == "QUOTA":
                nodes[0] -= 60
                return f"QUOTA 1 {nodes[0]} 1\n"
            return "ERR 21\n" if word == "INFO" else "BYE\n"

        return answer_of

    return answers


@contextlib.contextmanager
def told(answers: Callable[[], Callable[[str], str | None]]) -> Iterator[Told]:
    server = Told(answers)
    try:
        yield server
    finally:
        server.listener.close()
