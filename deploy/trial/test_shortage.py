"""Where descriptors or threads run out: the site goes on, says how many it closed for want of them, and its operator is answered."""
from __future__ import annotations

import contextlib
import os
import re
import resource
import signal
import socket
import subprocess
import threading
import time
from collections.abc import Iterator

import pytest
from place import LEFT, LONG, LONGEST, SCHOOL, SLOW, SMALL, Answer, From, Site, address_of, program, until

KEPT = 64  # descriptors that the site keeps for all but its connections


@pytest.fixture(autouse=True)
def many_descriptors() -> None:
    """The trial itself has as many as it may."""
    most = resource.getrlimit(resource.RLIMIT_NOFILE)[1]
    resource.setrlimit(resource.RLIMIT_NOFILE, (most, most))


def silent(site: Site, address: str, most: int, end: float) -> None:
    """As many connections as it gets that say nothing, opened again where they are closed."""
    with contextlib.ExitStack() as open_ones:
        for _ in range(most):
            if time.monotonic() > end:
                return
            with contextlib.suppress(OSError):
                open_ones.enter_context(socket.create_connection(("127.0.0.1", site.plain), 2, (address, 0)))
        time.sleep(max(0.0, end - time.monotonic()))


@contextlib.contextmanager
def crowd(site: Site, addresses: int, each: int, seconds: float) -> Iterator[float]:
    """Silent connections from these addresses, for so long. Gives their end."""
    end = time.monotonic() + seconds
    threads = [threading.Thread(target=silent, args=(site, f"127.5.0.{number + 1}", each, end)) for number in range(addresses)]
    for thread in threads:
        thread.start()
    yield end
    for thread in threads:
        thread.join()


def answered(site: Site, seconds: float) -> None:
    """Asks for health and as the operator for so long: each is answered within a second."""
    end = time.monotonic() + seconds
    while time.monotonic() < end:
        for ask in (lambda: site.get("/health") == (200, "ok\n"), lambda: site.ask("STATS")[0].startswith("connections=")):
            begun = time.monotonic()
            assert ask() and time.monotonic() - begun < 1, time.monotonic() - begun
        assert site.process and site.process.poll() is None, site.log.read_text()
        time.sleep(0.2)


def test_fewer_descriptors_than_connections(wanted: list[Answer]) -> None:
    """60 addresses with 78 silent connections each, where the process may have 1,024 descriptors."""
    with Site(before=("prlimit", "--nofile=1024:1024")) as site, site.opened(address_of(1), *SMALL) as session:
        assert f"connections = 8192: lowered to {1024 - KEPT}" in site.log.read_text()
        with crowd(site, 60, 78, 12):
            answered(site, 11)
            assert session.is_answered(1, wanted), "who is there goes on"
        assert site.count('refused_total{reason="full"}') > 1000
        until(lambda: int(re.findall(r"connections=(\d+)", site.ask("STATS")[0])[0]) == 1, 20, "they have left")
        with site.opened(address_of(2), *SMALL) as other:
            assert other.is_answered(2, wanted)
        assert site.count('refused_total{reason="descriptor"}') == 0
        site.file.write_text(site.file.read_text().replace("connections = 8192 ", "connections = 4096 "))
        assert site.ask("RELOAD") == ["OK"], "it is lowered again"


def test_too_few_descriptors() -> None:
    site = Site()
    with site.folder:
        told = subprocess.run(["prlimit", f"--nofile={KEPT}:{KEPT}", program("SITE", "--ready-site"), site.file], capture_output=True, text=True, timeout=20)
        assert told.returncode == 1 and f"{KEPT} descriptors are too few" in told.stderr, told


def test_descriptors_run_out_while_it_runs(wanted: list[Answer]) -> None:
    """The limit is taken from under the site, and health is asked meanwhile: by two ports and two threads beside them that want what is left."""
    with Site() as site, site.opened(address_of(1), *SMALL) as session:
        assert site.process
        number, now = site.process.pid, len(os.listdir(f"/proc/{site.process.pid}/fd"))
        most = resource.prlimit(number, resource.RLIMIT_NOFILE)
        resource.prlimit(number, resource.RLIMIT_NOFILE, (now + 6, most[1]))
        end = time.monotonic() + 6
        with crowd(site, 8, 20, 6):
            while time.monotonic() < end:
                for port in (site.health, site.inner):
                    with contextlib.suppress(OSError), socket.create_connection(("127.0.0.1", port), 1) as asked:
                        asked.settimeout(0.1)
                        asked.sendall(b"GET /health HTTP/1.0\r\n\r\n")
                        asked.recv(100)
                assert site.process.poll() is None, site.log.read_text()
        resource.prlimit(number, resource.RLIMIT_NOFILE, most)
        assert session.is_answered(1, wanted), "who is there goes on"
        until(lambda: site.get("/health") == (200, "ok\n"), 5, "health is said again")
        with site.opened(address_of(2), *SMALL) as other:
            assert other.is_answered(2, wanted)
        closed = site.count('refused_total{reason="descriptor"}')
        assert closed > 0 and "event=refused reason=descriptor\n" in site.log.read_text(), closed


@pytest.mark.skipif(os.geteuid() != 0, reason="only root may take another user, who may have few threads")
def test_threads_run_out(wanted: list[Answer]) -> None:
    """Its user may have 60 threads: who comes beyond them is closed, counted and said, and health is said."""
    site = Site(before=("prlimit", "--nproc=60:60", "setpriv", "--reuid=47110", "--regid=47110", "--clear-groups"))
    os.chmod(site.folder.name, 0o777)
    with site, contextlib.ExitStack() as open_ones:
        session = open_ones.enter_context(site.opened(address_of(1), *SMALL))
        assert session.is_answered(1, wanted), "its workers are there"
        for _ in range(60):
            open_ones.enter_context(socket.create_connection(("127.0.0.1", site.plain), 2, (address_of(2), 0)))
        answered(site, 2)
        assert session.is_answered(1, wanted)
        assert site.count('refused_total{reason="thread"}') > 0 and "event=refused reason=thread address=127.1.0.3\n" in site.log.read_text()


# A position with fourteen moves, whose table is long.
TABLED = "1 XXX---X-XO-XXO----OOOX---XO-OOX---OOO----OXO-O--X-XX--X--X--XXXX X"


def stuffed(session: From, line: bytes, seconds: float) -> int:
    """Sends a line again and again until no byte more is taken for so long, as nobody reads the answers. Returns how many lines were sent, the last one whole."""
    sent, data = 0, line * 1000
    for name in (socket.SO_SNDBUF, socket.SO_RCVBUF):
        session.socket.setsockopt(socket.SOL_SOCKET, name, 4096)
    session.socket.settimeout(seconds)
    with contextlib.suppress(OSError):
        while True:
            sent += session.socket.send(data[sent % len(line) :])
    session.socket.settimeout(30)
    if sent % len(line):
        threading.Thread(target=session.socket.sendall, args=(line[sent % len(line) :],), daemon=True).start()
    return -(-sent // len(line))


def test_stopped_and_continued(length: int) -> None:
    """SIGSTOP and SIGCONT lose nothing: neither who waits, nor who is silent, nor the operator; nor in a longer trial who hasn't taken its answers yet."""
    with Site(terms=SLOW) as site, contextlib.ExitStack() as open_ones:
        assert site.process
        waiting, slow, quiet = (open_ones.enter_context(site.opened(address_of(number), *(LONGEST if number == 1 else SMALL))) for number in range(1, 4))
        slow.wait(slow.ask_line(TABLED))
        operator = open_ones.enter_context(socket.socket(socket.AF_UNIX))
        operator.connect(site.control)
        operator.sendall(b"ST")
        first = open_ones.enter_context(socket.create_connection(("127.0.0.1", site.plain)))
        waiting.socket.sendall(f"ASK {LONG}\nWAIT 1\n".encode())
        lines = stuffed(slow, b"TABLE 1\n", 2) if length > 1 else 0
        for _ in range(20):
            site.process.send_signal(signal.SIGSTOP)
            time.sleep(0.03)
            site.process.send_signal(signal.SIGCONT)
            time.sleep(0.03)
        operator.sendall(b"ATS\n")
        assert operator.recv(100).startswith(b"connections=")
        first.sendall(b"QUOTA\n")
        assert first.recv(10) == b"ERR 28\n" and quiet.quota()[0] == SMALL[0]
        reader, found = slow.socket.makefile("rb"), set[bytes]()
        for _ in range(lines):
            found.add(reader.readline())
        assert len(found) == min(lines, 1) and all(line.startswith(b"TABLE 1 ") for line in found), found
        rows = [line for line in site.ask("STATS") if line.startswith("session=")]
        assert len(rows) == 3 and sum(" waits=1 " in row for row in rows) == 1, rows


def test_lines_that_come_without_end_are_slowed() -> None:
    """Three thousand at once: a thousand are answered at once, and then one in two milliseconds; none is refused."""
    with Site() as site, site.opened(address_of(1), *SMALL) as session:
        begun, found = time.monotonic(), b""
        session.socket.sendall(b"QUOTA\n" * 3000)
        while found.count(b"\n") < 3000:
            found += session.socket.recv(65536)
        assert set(found.splitlines()) == {b"QUOTA 64 2048 32768"} and time.monotonic() - begun > 2.5


def test_the_log_is_not_drowned() -> None:
    with Site(terms=LEFT, more=SCHOOL) as site, site.opened("127.6.0.1", 4096, 65536), site.opened("127.6.0.1", 4096, 65536):
        assert site.said(address_of(1), b"HELLO 1 1 guess\n" * 40).count(b"ERR 30\n") == 40
        assert site.told("127.6.0.1", 4096, 65536)[1] == 14
        until(lambda: 'event=refused reason=budget address=127.6.0.1 customer="school"\n' in site.log.read_text(), 5, "the school's refusal is logged")
        said = site.log.read_text().count("reason=token address=127.1.0.2 ")
        assert 0 < said < 20 and site.count('refused_total{reason="token"}') == 40
        assert site.count('customer_refused_total{customer="school"}') == 1


def test_what_is_no_token_is_no_guess() -> None:
    with Site() as site:
        lines = b"HELLO 1 1 \nHELLO 1 1 a\tb\nHELLO 1 1 \x7f\nHELLO 1 1 \x01\nHELLO 1 1  a\n"
        assert site.said(address_of(1), lines + b"HELLO 1 1 \x80\n") == b"ERR 21\n" * 5 + b"ERR 30\n"
        assert site.count('refused_total{reason="token"}') == 1


def test_a_crowded_address_is_not_told_of_a_budget() -> None:
    """A guest's connection beyond its number is heard, and closed in place of an answer to HELLO; a named customer's own number is its own."""
    terms = [*LEFT, ("rate = 10\nburst = 100", "rate = 10\nburst = 100\nconnections = 3")]
    with Site(terms=terms, more=SCHOOL + "connections = 3\n") as site, contextlib.ExitStack() as open_ones:
        for address, answer in ((address_of(1), b""), ("127.6.0.1", b"ERR 14\n")):
            streams = [open_ones.enter_context(socket.create_connection(("127.0.0.1", site.plain), 5, (address, 0))) for _ in range(4)]
            found = list[bytes]()
            for stream in streams:
                stream.sendall(b"QUOTA\n")
                found.append(stream.recv(100))
            assert found == [b"ERR 28\n"] * 4
            late = open_ones.enter_context(socket.create_connection(("127.0.0.1", site.plain), 5, (address, 0)))
            late.sendall(b"HELLO 1 1\n")
            assert late.recv(100) == answer, address
