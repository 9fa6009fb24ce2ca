"""Who may have how much: guests, customers by token, certificate and address, rates, and what comes back."""
from __future__ import annotations

import concurrent.futures
import contextlib
import socket
import time

import pytest
from place import GREAT, LEFT, OPENING, SCHOOL, SMALL, TOKEN, Answer, From, Site, address_of, header_of, until
from coluwen import Refused


def fault(session: From, *reserve: int) -> int:
    """The number of the refusal of a RESERVE, or 0."""
    try:
        session.reserve(*reserve)
    except Refused as refusal:
        return int(refusal.number)
    return 0


def test_a_budget_is_ones_own(wanted: list[Answer]) -> None:
    with Site(terms=LEFT, more=SCHOOL) as site, contextlib.ExitStack() as open_ones:
        guests = [site.told(address_of(1), *SMALL) for _ in range(5)]
        assert [number for _, number in guests] == [0] * 4 + [14], "a guest has four sessions"
        school = [site.told("127.6.0.1" if at % 2 else address_of(1), *SMALL, **({} if at % 2 else {"token": TOKEN})) for at in range(9)]
        assert [number for _, number in school] == [0] * 8 + [14], "a customer has its own budget, also behind a guest's address"
        for session, _ in guests + school:
            if session:
                open_ones.callback(session.close)
        there = [session for session, _ in guests + school if session]
        assert all(session.is_answered(at, wanted) for at, session in enumerate(there))
        assert fault(there[0], 4096 - 3 * SMALL[0] + 1, SMALL[1]) == 14 and fault(there[0], 4096 - 3 * SMALL[0], SMALL[1]) == 0
        assert site.has()["school"][:2] == (8, 8 * SMALL[0])


def test_what_a_session_had_is_there_when_bye_is_answered() -> None:
    with Site() as site:
        for number in range(60):
            sessions = [site.opened(address_of(number // 20), *SMALL) for _ in range(4)]
            for session in sessions:
                session.close()
        assert site.has() == {}


def test_a_session_that_is_gone_gives_all_back() -> None:
    with Site() as site:
        for by_reset in (True, False):
            for number in range(30):
                session = site.opened(address_of(number), *GREAT)
                session.ask_line(f"12 {'-' * 27}OX------XO{'-' * 27} X")
                session.reset() if by_reset else session.socket.close()
            until(lambda: site.has() == {}, 10, "all is given back")


def test_tokens_and_certificates(made: dict[str, str], wanted: list[Answer]) -> None:
    with Site(made, terms=LEFT, more=SCHOOL) as site, contextlib.ExitStack() as open_ones:
        session, number = site.told(address_of(1), *SMALL, token="guess")
        assert (session, number) == (None, 30), "a token that nobody has"
        for more in ({"token": TOKEN}, {"certificate": "site.example"}):
            session = open_ones.enter_context(site.opened(address_of(2), *SMALL, **more))
            assert session.is_answered(1, wanted)
        open_ones.enter_context(site.opened(address_of(2), *SMALL, certificate="stranger"))
        assert {name: has[0] for name, has in site.has().items()}.items() >= {("school", 2)}


def test_a_rate() -> None:
    with Site(terms=[("rate = 10\nburst = 100", "rate = 2\nburst = 6")]) as site:
        numbers, begun = list[int](), time.monotonic()
        for _ in range(8):
            session, number = site.told(address_of(1), 1, 1)
            numbers.append(number)
            if session:
                session.close()
        assert numbers[:6] == [0] * 6 and 31 in numbers, numbers
        assert site.told(address_of(2), 1, 1)[1] == 0 and time.monotonic() - begun < 3, "another guest waits for nothing"
        time.sleep(1.2)
        assert site.told(address_of(1), 1, 1)[1] == 0, "it isn't let in again after a while"


def test_the_line_that_is_judged_is_the_line_that_is_served() -> None:
    with Site() as site:
        found = site.said(address_of(1), b"HELLO 4 8\nRESERVE 4096 65536\r\nRESERVE 4096 65536\r\r\nQUOTA\n")
        assert found.splitlines()[:3] == [b"WELCOME 4 8", b"RESERVED 4096 65536", b"ERR 23"], found
        found = site.said(address_of(2), b"HELLO 4 8\nRESERVE 4097 8\nRESERVE 4096 65536\r\r\nQUOTA\n")
        assert found.splitlines()[2:] == [b"ERR 23", b"QUOTA 4 8 128"], found


def test_info() -> None:
    with Site(terms=LEFT, more=SCHOOL) as site:
        found = site.said(address_of(1), b"INFO\nHELLO 4 8\nINFO\nBYE\n").decode().splitlines()
        assert found[0] == "ERR 28" and found[2].startswith("INFO 6 4096 131072 4 8 "), found


def test_the_idlest_guest_is_ended_for_one_that_comes(wanted: list[Answer]) -> None:
    terms = [("guest = 60", "guest = 2"), ("[guests.together]          # in each hall\nsessions = 64", "[guests.together]\nsessions = 6")]
    with Site(terms=terms) as site, contextlib.ExitStack() as open_ones:
        sessions = [site.opened(address_of(number), *SMALL) for number in range(6)]
        for session in sessions:
            open_ones.callback(session.socket.close)
        assert site.told(address_of(9), *SMALL)[1] == 14, "nobody has been idle so long yet"
        time.sleep(2.5)
        for session in sessions[1:]:
            session.quota()
        begun = time.monotonic()
        later = open_ones.enter_context(site.opened(address_of(9), *SMALL))
        assert time.monotonic() - begun < 2 and later.is_answered(3, wanted)
        with pytest.raises(OSError):
            sessions[0].quota()
        assert all(session.is_answered(at, wanted) for at, session in enumerate(sessions) if at)


def test_connections_beyond_a_guests_number_are_closed_but_for_a_token(wanted: list[Answer]) -> None:
    with Site(terms=[*LEFT, ("rate = 10\nburst = 100", "rate = 10\nburst = 100\nconnections = 20")], more=SCHOOL) as site, contextlib.ExitStack() as open_ones:
        for _ in range(60):
            stream = open_ones.enter_context(socket.create_connection(("127.0.0.1", site.plain), 5, (address_of(1), 0)))
            with contextlib.suppress(OSError):
                stream.sendall(b"QUOTA\n")
        with site.opened(address_of(1), *SMALL, token=TOKEN) as session:
            assert session.is_answered(4, wanted)


def test_connections_beyond_the_sites_number_are_closed() -> None:
    with Site(terms=[("connections = 8192 ", "connections = 12 ")]) as site, contextlib.ExitStack() as open_ones:

        def heard(number: int) -> bytes:
            stream = open_ones.enter_context(socket.create_connection(("127.0.0.1", site.plain), 10, (address_of(number), 0)))
            try:
                stream.sendall(b"QUOTA\n")
                return stream.recv(100)
            except ConnectionError:
                return b""

        until(lambda: site.ask("STATS")[0] == "connections=0 heard=0", 10, "nobody is there")
        assert [heard(number) for number in range(12)] == [b"ERR 28\n"] * 12
        assert [heard(number) for number in range(12, 20)] == [b""] * 8
        open_ones.close()
        until(lambda: site.ask("STATS")[0] == "connections=0 heard=0", 10, "all have gone")
        assert heard(20) == b"ERR 28\n"


def test_a_file_may_have_many_customers_addresses_and_connections() -> None:
    names = [f"c{number}" for number in range(1, 41)]
    more = "".join(f"""
[[customer]]
name = "{name}"
address = [{", ".join(f'"127.{100 + number}.0.{place}"' for place in range(25))}]
sessions = 1
segments = 64
nodes = 2048
connections = 20000
""" for number, name in enumerate(names))  # fmt: skip
    less = [(old, new.replace("sessions = 56", "sessions = 24")) for old, new in LEFT]
    with Site(terms=[*less, ("connections = 8192 ", "connections = 100000 ")], more=more) as site, contextlib.ExitStack() as open_ones:
        for number in (0, 8, 39):
            open_ones.enter_context(site.opened(f"127.{100 + number}.0.24", *SMALL))
            assert site.told(f"127.{100 + number}.0.1", *SMALL)[1] == 14, "it has one session"
        open_ones.enter_context(site.opened("127.139.0.25", *SMALL))
        assert site.has().keys() >= {"c1", "c9", "c40"}, site.has()


def test_a_network_of_48_bits() -> None:
    with Site(terms=[("[guests.network]           # the guests of the first 48 bits of an address of IPv6; of IPv4 of one address\nsessions = 8", "[guests.network]\nsessions = 3")]) as site:
        streams = [socket.create_connection(("127.0.0.1", site.inner), 10) for _ in range(5)]
        found = list[bytes]()
        for stream, address in zip(streams, [*(f"2001:db8:1:{number}::9" for number in range(4)), "2001:db8:2:1::9"]):
            stream.sendall(header_of(address) + b"HELLO 4 400\n")
            found.append(stream.recv(100))
        assert found == [b"WELCOME 4 400\n"] * 3 + [b"ERR 14\n", b"WELCOME 4 400\n"], found
        for stream in streams:
            stream.close()


def test_many_sessions_leave_nothing(length: int) -> None:
    """With --length 1000 some 200,000 sessions."""
    with Site() as site, concurrent.futures.ThreadPoolExecutor(8) as many:

        def visit(number: int) -> int:
            return sum(b"WELCOME" in site.said(address_of(number * 25 + at), f"HELLO 1 100\nASK 0 {OPENING}\nBYE\n".encode()) for at in range(25))

        assert sum(many.map(visit, range(8))) == 200
        before = site.resident()
        for _ in range(length - 1):
            sum(many.map(visit, range(8)))
        until(lambda: site.has() == {}, 5, "all is given back")
        assert site.resident() < before + 8
