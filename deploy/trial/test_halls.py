"""Guests in several halls: each comes to the emptiest, and an address and a network have their limits over the whole site."""
from __future__ import annotations

import contextlib
import socket

from place import SLOW, Site, header_of


def home(number: int) -> str:
    """An address of IPv6 in the first network of 64 bits of its home, which has one of 56; 256 homes are in one of 48."""
    return f"2001:db8:{number // 256:x}:{number % 256 * 256:x}::1"


class Homes(contextlib.ExitStack):
    """Sessions of homes, each by a connection that a proxy hands on."""

    def __init__(self, site: Site):
        super().__init__()
        self.site = site

    def come(self, address: str) -> bytes:
        """What is answered to a small session's HELLO."""
        stream = self.enter_context(socket.create_connection(("127.0.0.1", self.site.inner), 30))
        stream.sendall(header_of(address) + b"HELLO 8 256\n")
        return stream.recv(100)


def halls(many: int, network: int) -> list[tuple[str, str]]:
    wide = ("[guests.network]           # the guests of the first 48 bits of an address of IPv6; of IPv4 of one address\nsessions = 8\nsegments = 8192\nnodes = 262144",
            f"[guests.network]\nsessions = {network}\nsegments = 65536\nnodes = 4194304")
    return [*SLOW, ("# halls = 1 ", f"halls = {many} "), wide]


def test_500_homes_have_places() -> None:
    """Five hundred IPv6 homes, at as many halls as hold them."""
    with Site(terms=halls(8, 512)) as site, Homes(site) as homes:
        answers = [homes.come(home(number)) for number in range(500)]
        assert answers.count(b"WELCOME 8 256\n") == 500, len([answer for answer in answers if answer.startswith(b"WELCOME")])


def test_chosen_addresses_shut_nobody_out() -> None:
    """Sixteen addresses that are alike modulo the halls take 64 places; one more that is alike comes in."""
    with Site(terms=halls(4, 64)) as site, Homes(site) as homes:
        for number in range(16):
            for _ in range(4):
                assert homes.come(f"10.0.{number}.4") == b"WELCOME 8 256\n"
        assert homes.come("10.1.0.4") == b"WELCOME 8 256\n"


def test_limits_hold_over_the_whole_site() -> None:
    with Site(terms=halls(4, 8)) as site, Homes(site) as homes:
        assert [homes.come("10.0.0.1") for _ in range(5)] == [b"WELCOME 8 256\n"] * 4 + [b"ERR 14\n"], "an address"
        assert [homes.come(home(number)) for number in range(9)] == [b"WELCOME 8 256\n"] * 8 + [b"ERR 14\n"], "a network"
        assert homes.come("2001:db8:1::1") == b"WELCOME 8 256\n", "another network"
