"""Lines of any kind, cut anywhere, through HAProxy and by the entrance behind it, are answered as by `othello serve` alone, byte for byte but for what
only a site knows. With --length 100 some 300,000 lines."""
from __future__ import annotations

import concurrent.futures
import contextlib
import functools
import random
import socket
import subprocess
import time
from collections.abc import Iterator

import pytest
from place import LINES, Site, address_of, ended_after, header_of, program

MOST = 1000  # sessions that a server alone takes before it ends
LAST = b"BYE\nQUOTA\n"


@contextlib.contextmanager
def server() -> Iterator[int]:
    """The port of a server of the specified protocol alone."""
    words = ["--sessions", str(MOST), "--workers", "1", "--segments", "65536", "--nodes", "4194304", "--grain", "4"]
    with ended_after(subprocess.Popen([program("OTHELLO", "--ready"), "serve", *words], stdout=subprocess.PIPE, text=True)) as process:
        assert process.stdout
        yield int(process.stdout.readline().rsplit(":", 1)[1])


def pieces_of(chance: random.Random) -> list[bytes]:
    """Lines of all kinds, some of them no lines, cut anywhere. Each job is waited for at once, so that answers don't depend on when it ends; none asks
    for more than a guest may have, and none has what a site alone knows (INFO, PING, a token)."""
    position = LINES[0].split(" ", 1)[1].encode()
    words = [b"HELLO 64 4096", b"HELLO 64 4096\r", b"HELLO 64 4096\r\r", b"HELLO 0 1", b"HELLO 5000 1", b"HELLO  64", b"QUOTA", b"LIVE", b"LIVE ", b"", b"\r", b"RESERVE 64 4096", b"RESERVE 64 4097",
             b"RESERVE 65 9000\r", b"RESERVE 65 9000\r\r", b"RESERVE 63 9999", b"RESERVE 5000 1", b"RESERVE 00000128 00009999", b"RESERVE 1 1 1", b" RESERVE 900 9999", b"GET 2", b"TABLE 1", b"CANCEL 9",
             b"\n".join([b"ASK 0 " + position, *(b"WAIT %d" % number for number in range(1, 61))]), b"ASK 13 " + position, b"hello 1 1", b"x" * 127, b"x" * 128, b"x" * 129, b"RESERVE 1 65536" * 40,
             b"x" * 5000, chance.randbytes(50).replace(b"\n", b"").replace(b"INFO", b"").replace(b"PING", b""), b"SOMETHING NEW", b"\xff\0", b"INF", b"INFO\0", b"PING ", b"ping"]  # fmt: skip
    data = b"\n".join(chance.choice(words) for _ in range(chance.randint(1, 60))) + (b"\n" if chance.random() < 0.7 else b"")
    cuts = sorted(chance.randrange(len(data) + 1) for _ in range(chance.randint(0, 6)))
    data += LAST if chance.random() < 0.3 else b""
    return [piece for piece in (data[start:end] for start, end in zip([0, *cuts], [*cuts, len(data)])) if piece]


def conversation(port: int, first: bytes, pieces: list[bytes], pause: float, address: str = "127.0.0.1") -> bytes:
    with socket.create_connection(("127.0.0.1", port), 60, (address, 0)) as stream:
        stream.sendall(first)
        for piece in pieces:
            with contextlib.suppress(ConnectionError):
                stream.sendall(piece)
            time.sleep(pause)
        with contextlib.suppress(OSError):
            stream.shutdown(socket.SHUT_WR)
        found = b""
        with contextlib.suppress(ConnectionError):
            while piece := stream.recv(65536):
                found += piece
        return found


def are_alike(alone: bytes, site: bytes, ends: bool) -> bool:
    """Whether both are the same. Where a client says something behind its BYE, the system may reset a connection that is closed before that was read, and what
    the client hasn't read yet is lost: there one is a beginning of the other."""
    return alone == site or ends and (alone.startswith(site) or site.startswith(alone))


def test_lines_are_answered_as_by_a_server_alone(made: dict[str, str], length: int, capsys: pytest.CaptureFixture[str]) -> None:
    terms = [("rate = 10\nburst = 100", "rate = 100000\nburst = 60000\nconnections = 1000")]
    with Site(made, terms=terms) as site, concurrent.futures.ThreadPoolExecutor(4) as many:

        def one(alone: int, number: int) -> int:
            chance = random.Random(number)
            pieces, pause = pieces_of(chance), chance.choice([0, 0, 0.002])
            with concurrent.futures.ThreadPoolExecutor(2) as both:
                first = both.submit(conversation, alone, b"", pieces, pause)
                address = address_of(number % 4000)
                second = both.submit(conversation, site.clear, b"", pieces, pause, address) if number % 2 else both.submit(conversation, site.inner, header_of(address), pieces, pause)
                assert are_alike(first.result(), second.result(), pieces[-1].endswith(LAST)), (number, pieces)
                cut.extend([number] if first.result() != second.result() else [])
            return b"".join(pieces).count(b"\n")

        lines, cut = 0, list[int]()
        for begun in range(0, 100 * length, MOST):
            with server() as alone:
                lines += sum(many.map(functools.partial(one, alone), range(begun, min(begun + MOST, 100 * length))))
        assert lines > 2000 * length and len(cut) <= length, (lines, cut)
        with capsys.disabled():
            print(f"\n{lines} lines; {len(cut)} of {100 * length} conversations lost what stood before a reset")


def test_a_ping_is_answered_by_a_site_alone(made: dict[str, str]) -> None:
    """Before HELLO and behind it; a server without a site knows no PING."""
    lines = b"PING\nPING \nHELLO 4 8\nPING\nQUOTA\nBYE\n"
    with Site(made) as site, server() as alone:
        assert site.said(address_of(1), lines) == b"PONG\nERR 21\nWELCOME 4 8\nPONG\nQUOTA 4 8 128\nBYE\n"
        assert conversation(alone, b"", [lines], 0) == b"ERR 21\nERR 21\nWELCOME 4 8\nERR 21\nQUOTA 4 8 128\nBYE\n"
