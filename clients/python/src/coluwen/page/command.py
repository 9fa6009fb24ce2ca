"""The analysis board for browsers on this host, or for a class: http://127.0.0.1:8047/

The page has values by an engine in the browser; deeper ones come from a server of `othello serve`, where --server (or COLUWEN_URL) names
one, and those by HTTP from there alone. For a class, `--address 0.0.0.0` lets other hosts of the network in, and `--certificate FILE` (certificate and key) has their browsers
speak https; each address by which they come in is printed. They name this host by its address, by its own name, or by one that --name gives;
any other name is refused, so that no foreign page reads this one.

Any program may ask values by HTTP, as /openapi.json says: `curl --json '{"position": "..", "depth": 6}' ADDRESS/analyse` gives one answer, and with
`-H 'Accept: application/x-ndjson'` lines as things become known. With --origin a page of elsewhere may ask too.
With --tokens FILE only those may that have a token (`Authorization: Bearer TOKEN`); FILE has the SHA-256 sum of each in a line, as `printf %s TOKEN | sha256sum`
says it, and behind it a name or nothing. With --customers only those may whose token the server itself knows (`token_sha256` in a site's file): each is that customer there, in
--sessions sessions of his own, within his budget.

So many questions as --sessions says are with the server at once; who comes when all are taken waits in turn, and is told how many are
before. Where the server that was named can't be reached at the beginning, one line says so within 2 seconds, and the status is 1; where it
is lost later the page says so and asks again.
"""

import argparse
import asyncio
import contextlib
import functools
import ipaddress
import re
import signal
import socket
import ssl
import struct
from collections.abc import Sequence

from .._core import DEEPEST, Info
from ..aio import AsyncClient
from ..engine import AsyncEngine
from ..errors import ColuwenError
from ..tools import command as commands
from .customers import Customers
from .files import Site, names_of
from .library import Library
from .service import Service
from .web import Limits, Web, log_to

NAME = "coluwen-page"
LEAST = 4  # plies, of the first step


def offered(info: Info, most: int) -> list[int]:
    """The depths that a page offers: those that the server's grain surely lets through."""
    sure = max(min(info.sure, most), 1)
    return [*range(LEAST, sure, 2), sure] if sure > LEAST else [sure]


def options() -> argparse.ArgumentParser:
    words = commands.parser(__doc__, NAME, outage=0, without="without one the page has them by its own engine in each browser, and nobody else is told any")
    words.add_argument("--port", type=int, default=8047, help="where browsers come in (8047)")
    words.add_argument("--address", default="127.0.0.1", help="of which address; 0.0.0.0 for browsers of other hosts (127.0.0.1)")
    words.add_argument("--name", action="append", default=[], help="a name that browsers have for this host")
    words.add_argument("--origin", action="append", default=[], metavar="ORIGIN", help="of a page of elsewhere that may ask values, https://shop.example, or * for any (CORS)")
    words.add_argument("--certificate", metavar="FILE", help="certificate and key, by which browsers speak https")
    words.add_argument("--most-depth", type=int, default=DEEPEST, help="offer no more plies (as many as the server's grain lets through)")
    words.add_argument("--sessions", type=int, default=4, help="how many sessions of the server are used at once; others wait (4)")
    words.add_argument("--connections", type=int, default=Limits.connections, help="of browsers at once (%(default)s)")
    words.add_argument("--tokens", metavar="FILE", help="only who has a token that this file names may ask values")
    words.add_argument("--customers", action="store_true", help="only who has a token of the server may ask values, as the customer that he is there")
    words.add_argument("--log", metavar="FILE", default="-", help="where a line for each request is written, in the common log format (standard error); '' for nowhere")
    words.add_argument("--per-address", type=int, default=Limits.per_address, help="of these for one address (%(default)s)")
    return words


def addresses_of(asked: argparse.Namespace, port: int) -> list[str]:
    """By which addresses browsers of other hosts come in: the names that were given, and this host's own; none where only this host is let in."""
    try:
        if ipaddress.ip_address(asked.address).is_loopback:
            return []
    except ValueError:
        pass  # a name
    hosts = [*asked.name, *([asked.address] if asked.address not in ("0.0.0.0", "::") else own_addresses())]
    return [f"http{'s' * bool(asked.certificate)}://{f'[{host}]' if ':' in host else host}:{port}/" for host in hosts]


def own_addresses() -> list[str]:
    """The addresses of this host, but those that only it reaches: first the ones by which it speaks to others (no packet is sent for that), then those of
    its other networks; where it has none its name."""
    found = []
    for family, other in ((socket.AF_INET, "192.0.2.1"), (socket.AF_INET6, "2001:db8::1")):
        with contextlib.suppress(OSError), socket.socket(family, socket.SOCK_DGRAM) as one:
            one.connect((other, 9))
            found.append(str(one.getsockname()[0]))
    found += [*of_networks(), *of_name(socket.gethostname())]
    reached = [one for one in dict.fromkeys(found) if not (ipaddress.ip_address(one).is_loopback or ipaddress.ip_address(one).is_link_local)]
    return reached or [socket.gethostname()]


def of_networks() -> list[str]:
    """The IPv4 address of each network that this host is in, where its system tells (SIOCGIFADDR, Linux)."""
    found = []
    with contextlib.suppress(ImportError, OSError), socket.socket(socket.AF_INET, socket.SOCK_DGRAM) as one:
        import fcntl

        for _, name in socket.if_nameindex():
            with contextlib.suppress(OSError):
                found.append(socket.inet_ntoa(fcntl.ioctl(one, 0x8915, struct.pack("256s", name.encode()[:15]))[20:24]))
    return found


def tokens_in(path: str | None) -> frozenset[str]:
    """The sums of tokens that a file names, which must have one where it is named."""
    if path is None:
        return frozenset()
    with open(path, encoding="utf-8") as file:
        sums = [line.split()[0].lower() for line in file if line.strip() and not line.startswith("#")]
    if not sums or not all(re.fullmatch("[0-9a-f]{64}", one) for one in sums):
        raise ValueError(f"{path} names no tokens: a SHA-256 sum a line, and a name behind it")
    return frozenset(sums)


def of_name(name: str) -> list[str]:
    """The IPv4 addresses that this host's name has."""
    with contextlib.suppress(OSError):
        return [str(where[0]) for *_, where in socket.getaddrinfo(name, None, socket.AF_INET, socket.SOCK_STREAM)]
    return []


async def serve(asked: argparse.Namespace) -> None:
    """Serves the page until it is ended."""
    if not commands.names_server(asked):
        await serve_by(asked, Service(None, [], True))
        return
    if asked.customers:
        await serve_customers(asked)
        return
    async with AsyncEngine(analyst=commands.analyst_of(asked, NAME, patience=0, sessions=max(asked.sessions, 1))) as client:
        await client.ping()
        service = Service(Library(client, client.parallel), [LEAST], tokens=tokens_in(asked.tokens))
        learning = asyncio.ensure_future(learn(service, client, asked.most_depth))
        try:
            await serve_by(asked, service)
        finally:
            learning.cancel()


async def serve_customers(asked: argparse.Namespace) -> None:
    """Serves the server's customers; how deep it looks is learnt first, by a session that then ends."""
    commands.tell_by_log(NAME)
    options = {**commands.server_options(asked), "sessions": max(asked.sessions, 1)}
    async with AsyncClient(**options) as client:
        depths = offered(await client.info(), asked.most_depth)
    customers = Customers(lambda token: AsyncClient(**dict(options, patience=0, token=token)), options["sessions"])
    try:
        await serve_by(asked, Service(None, depths, True, customers=customers))
    finally:
        await customers.close()


async def serve_by(asked: argparse.Namespace, service: Service) -> None:
    context = None
    if asked.certificate:
        context = ssl.create_default_context(ssl.Purpose.CLIENT_AUTH)
        context.load_cert_chain(asked.certificate)
    site = Site(service, functools.partial(names_of, names={"localhost", socket.gethostname(), *asked.name}), asked.origin)
    web = Web(site.answer, service.most, Limits(connections=asked.connections, per_address=asked.per_address))
    server = await web.start(asked.address, asked.port, context)
    site.port = server.sockets[0].getsockname()[1]
    service.addresses = addresses_of(asked, site.port)
    print(*(service.addresses or [f"http{'s' * bool(context)}://{asked.address}:{site.port}/"]), sep="\n", flush=True)
    stop = asyncio.Event()
    for number in (signal.SIGINT, signal.SIGTERM):
        asyncio.get_running_loop().add_signal_handler(number, stop.set)
    async with server:
        await stop.wait()
        await web.end()


async def learn(service: Service, client: AsyncClient, most: int) -> None:
    """Finds out how deep the server looks, and offers so much."""
    while True:
        with contextlib.suppress(ColuwenError, OSError):
            service.depths, service.settled = offered(await client.info(), most), True
            return
        await asyncio.sleep(2)


def command(words: Sequence[str] | None = None) -> int:
    """The command `coluwen-page`; its exit status."""
    asked = (parser := options()).parse_args(words)
    if asked.customers and (asked.tokens or asked.fallback or not commands.names_server(asked)):
        parser.error("--customers are those of a --server, without --tokens or --fallback")
    log_to(asked.log)
    return commands.run(NAME, lambda: asyncio.run(serve(asked)))
