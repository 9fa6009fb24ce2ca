"""Limits in time: first lines, silence, answers that nobody takes, clients that are gone."""
from __future__ import annotations

import concurrent.futures
import contextlib
import ctypes
import os
import socket
import threading
import time

from coluwen import Refused
from place import GREAT, LONG, LONGEST, OPENING, SLOW, SMALL, Answer, Site, address_of, header_of, until

TERMS = [("welcome = 10 ", "welcome = 3 "), ("idle = 3600 ", "idle = 6 "), ("write = 60 ", "write = 3 "), ("hangup = 60 ", "hangup = 3 ")]


def closed_after(port: int, first: bytes, data: bytes, step: float, most: float = 20) -> float:
    """After how many seconds a connection is closed that says this first, and then a byte every so many seconds."""
    with socket.create_connection(("127.0.0.1", port), 20, ("127.9.8.1", 0)) as stream:
        stream.sendall(first)
        stream.settimeout(step)
        begun, at = time.monotonic(), 0
        with contextlib.suppress(ConnectionError):
            while time.monotonic() < begun + most:
                with contextlib.suppress(TimeoutError):
                    stream.sendall(data[at : at + 1])
                    at += 1
                    if not stream.recv(100):
                        break
        return time.monotonic() - begun


def test_a_connection_has_so_long_until_it_is_welcomed() -> None:
    with Site(terms=TERMS) as site, concurrent.futures.ThreadPoolExecutor(5) as many:
        ways = [(site.plain, b"", b""), (site.plain, b"", b"HELLO 1 1" + b" " * 40), (site.inner, header_of("127.9.9.1"), b"x" * 40), (site.inner, b"", header_of("127.9.9.3")), (site.inner, b"", b"")]
        found = list(many.map(lambda way: closed_after(*way, 0.5), ways))
        assert all(2.5 < seconds < 5 for seconds in found), found


def test_a_session_may_be_slow_and_ends_when_it_is_idle(wanted: list[Answer]) -> None:
    with Site(terms=TERMS) as site, site.opened(address_of(1), *SMALL) as session, site.opened(address_of(2), *SMALL) as other:
        for _ in range(4):
            time.sleep(2)
            assert session.is_answered(1, wanted)
        begun = time.monotonic()
        until(lambda: list(site.has().values()) == [(1, *SMALL)] or not site.has(), 8, "the idle one is ended")
        del other
        assert session.is_answered(2, wanted) and time.monotonic() - begun < 8


def test_who_takes_no_answer_is_ended() -> None:
    with Site(terms=[*TERMS, ("rate = 10\nburst = 100", "rate = 1000000\nburst = 60000")]) as site:
        session = site.opened(address_of(1), *SMALL)
        session.wait(session.ask_line(f"2 {OPENING}"))
        session.socket.setsockopt(socket.SOL_SOCKET, socket.SO_RCVBUF, 4096)
        session.socket.settimeout(1)
        with contextlib.suppress(OSError):
            session.socket.sendall(b"TABLE 1\n" * 400000)
        until(lambda: not site.has(), 400, "what it had is given back")  # 500 lines a second, until the kernel's buffers are full
        session.socket.close()


def test_a_wait_goes_on_behind_an_end_of_input_for_a_while() -> None:
    with Site(terms=[*TERMS, *SLOW]) as site:
        found = site.said(address_of(1), f"HELLO 64 2048\nASK 3 {OPENING}\nWAIT 1\n".encode())
        assert found.splitlines()[2].startswith(b"DONE 1 "), found
        begun = time.monotonic()
        site.said(address_of(2), f"HELLO 1024 65536\nASK {LONG}\nWAIT 1\n".encode())
        assert 2 < time.monotonic() - begun < 6
        until(lambda: not site.has(), 3, "what it had is given back")


def test_a_reset_ends_a_wait_at_once() -> None:
    with Site(terms=SLOW) as site, socket.create_connection(("127.0.0.1", site.plain), 10) as stream:
        stream.sendall(f"HELLO 1024 65536\nASK {LONG}\nWAIT 1\n".encode())
        until(lambda: site.has(), 5, "the session is there")
        time.sleep(0.5)
        stream.setsockopt(socket.SOL_SOCKET, socket.SO_LINGER, b"\1\0\0\0\0\0\0\0")
        stream.close()
        until(lambda: not site.has(), 3, "what it had is given back")


def test_a_header_that_is_not_understood_closes_the_connection_and_is_never_read_elsewhere() -> None:
    with Site() as site:
        for bad in (b"PROXY UDP4 1.2.3.4 1.2.3.4 1 1\r\nHELLO 1 1\n", b"HELLO 1 1\n", header_of("127.6.0.1")[:-3] + b"\nHELLO 1 1\n"):
            with socket.create_connection(("127.0.0.1", site.inner), 15) as stream:
                stream.sendall(bad)
                stream.shutdown(socket.SHUT_WR)
                with contextlib.suppress(ConnectionError):
                    assert b"WELCOME" not in b"".join(iter(lambda: stream.recv(100), b""))
        with socket.create_connection(("127.0.0.1", site.plain), 15) as stream:
            stream.sendall(header_of("127.6.0.1") + b"\nHELLO 1 1\nBYE\n")
            found = b"".join(iter(lambda: stream.recv(100), b""))
        assert found.endswith(b"WELCOME 1 1\nBYE\n") and found.startswith(b"ERR 21\n"), found


def other_end(process: int, stream: socket.socket) -> socket.socket:
    """The other end of a connection, which a child process of this one has."""
    handle, call = os.pidfd_open(process), ctypes.CDLL(None).syscall
    try:
        for name in os.listdir(f"/proc/{process}/fd"):
            if os.readlink(f"/proc/{process}/fd/{name}").startswith("socket:"):
                found = socket.socket(fileno=call(438, handle, int(name), 0))  # pidfd_getfd
                with contextlib.suppress(OSError):
                    if found.family == socket.AF_INET and found.getpeername() == stream.getsockname():
                        return found
                found.close()
    finally:
        os.close(handle)
    raise AssertionError("the process has no such connection")


def test_an_answer_waits_for_no_acknowledgement() -> None:
    with Site() as site, site.opened(address_of(1), *SMALL) as session:
        assert site.process
        with other_end(site.process.pid, session.socket) as end:
            assert end.getsockopt(socket.IPPROTO_TCP, socket.TCP_NODELAY) == 1


def test_who_was_served_much_is_served_again_where_new_ones_keep_coming() -> None:
    """One worker, leaves of six plies: a guest is answered again and again beside 50 sessions that ask, cancel, leave and come anew."""
    with Site(terms=SLOW) as site, concurrent.futures.ThreadPoolExecutor(50) as many:
        over, begun = threading.Event(), [0] * 50

        def come_and_go(number: int) -> None:
            while not over.is_set():
                with contextlib.suppress(Refused, OSError), site.opened(address_of(number), *GREAT) as session:
                    job = session.ask_line(LONG)
                    over.wait(0.05)
                    session.cancel(job)
                    begun[number] += 1

        crowd = [many.submit(come_and_go, number) for number in range(50)]
        try:
            until(lambda: all(begun), 60, "all have come once")
            with site.opened(address_of(60), *LONGEST) as guest:
                for _ in range(5):
                    asked = time.monotonic()
                    assert guest.wait(guest.ask_line(f"10 {OPENING}"))[0] == "DONE"
                    assert time.monotonic() - asked < 20, f"{time.monotonic() - asked:.0f} s beside {sum(begun)} sessions"
        finally:
            over.set()
            for each in crowd:
                each.result()
