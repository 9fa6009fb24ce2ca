"""What the commands of this package share: the options by which a server is named, and how each ends.

| Status | When |
|---|---|
| 0 | all was answered by values |
| 1 | the server can't be reached, or was lost; a file can't be read or written; the output's pipe was closed (and nothing is said) |
| 2 | the command line was refused |
| 3 | some line or row has no value: it is at fault, was spent, or was cancelled |
| 130 | Ctrl-C |
"""

import argparse
import logging
import os
import sys
from collections.abc import Callable, Sequence
from typing import Any

from .. import __version__
from ..analyst import Analyst
from ..client import OUTAGE, PATIENCE, SILENCE, URL, Client, tls_context, token_in, url_of
from ..engine import Engine, Fallback
from ..errors import ColuwenError, Unreachable

NO_VALUE = 3
LONG_OUTAGE = 600.0  # seconds: of a command that has much to lose


class OutputClosed(Exception):
    """Nobody reads what is written any more."""


def parser(text: str | None, name: str, outage: float = OUTAGE, without: str = "else processes of the program `othello` on this computer") -> argparse.ArgumentParser:
    """A command's options: how a server is spoken to, how long it is waited for, and what is reserved. `text` is its manual: the first paragraph
    says what it is for; `without`: what gives values where no server is named."""
    words = argparse.ArgumentParser(prog=name, description=text, formatter_class=argparse.RawDescriptionHelpFormatter)
    words.add_argument("--version", action="version", version=f"{name} (coluwen) {__version__}")
    group = words.add_argument_group("what gives the values", f"A server, where one is named; {without}.")
    group.add_argument("--server", metavar="HOST:PORT", help=f"or othello://HOST:PORT?tls=1&token=FILE; else that of the variable {URL}, if it is set")
    group.add_argument("--fallback", choices=("engine",), help="what the server can't give, as it is too deep for its grain, an engine of this computer gives")
    group.add_argument("--workers", type=count, metavar="N", help="how many processes an engine of this computer has (one for each processor)")
    group.add_argument("--tls", action="store_true", help="speak TLS, and check the host's certificate")
    group.add_argument("--authority", metavar="FILE", help="with --tls: the authorities to check it by")
    group.add_argument("--token", metavar="FILE", help="a file that has the customer's token")
    group.add_argument("--silence", type=seconds, default=SILENCE, metavar="S", help="seconds after which a server that says nothing is given up (%(default)g)")
    group.add_argument("--patience", type=seconds, default=PATIENCE, metavar="S", help="seconds for which a server that is full is asked again (%(default)g)")
    group.add_argument("--outage", type=seconds, default=outage, metavar="S", help="seconds for which a server that was there and is silent or lost is asked again (%(default)g)")
    group.add_argument("--segments", type=int, metavar="N", help="for experts: what each session reserves, 1 to 4096")
    group.add_argument("--nodes", type=int, metavar="N", help="for experts: the same, 1 to 65536")
    return words


def count(text: str) -> int:
    found = int(text)
    if found < 1:
        raise ValueError(text)
    return found


def seconds(text: str) -> float:
    found = float(text)
    if not found >= 0:
        raise ValueError(text)
    return found


def server_options(asked: argparse.Namespace) -> dict[str, Any]:
    """What they say, as `Client` takes it."""
    named = url_of(asked.server or os.environ.get(URL, ""))
    if asked.tls:
        named["tls"] = tls_context(asked.authority)
    if asked.token:
        named["token"] = token_in(asked.token)
    own = {"silence": asked.silence, "patience": asked.patience, "outage": asked.outage, "segments": asked.segments, "nodes": asked.nodes}
    return {**own, **named}


def names_server(asked: argparse.Namespace) -> bool:
    """Whether a command line names a server, or the variable does."""
    return bool(asked.server or asked.tls or asked.token or os.environ.get(URL))


def analyst_of(asked: argparse.Namespace, name: str, **more: Any) -> Analyst:
    """What gives the values that a command line asks for: the server that it names, with `more` of `Client`'s options; else an engine of its own. What
    it tells goes to standard error."""
    tell_by_log(name)
    if not names_server(asked):
        try:
            return Engine(asked.workers)
        except Unreachable as fault:
            raise Unreachable(f"no server is named (--server HOST:PORT), and {fault}") from None
    client = Client(**{**server_options(asked), **more})
    return Fallback(client, Engine(asked.workers)) if asked.fallback else client


def tell_by_log(name: str) -> None:
    """Has what the package logs written to standard error, under the command's name."""
    log = logging.getLogger("coluwen")
    if not log.handlers:
        handler = logging.StreamHandler()
        handler.setFormatter(logging.Formatter(f"{name}: %(message)s"))
        log.addHandler(handler)


def teller(name: str) -> Callable[[str], None]:
    """Writes lines to standard error, under a command's name."""
    return lambda text: print(f"{name}: {text}", file=sys.stderr, flush=True)


def say(text: str) -> None:
    """Writes a line, at once."""
    try:
        print(text, flush=True)
    except BrokenPipeError:
        raise OutputClosed from None


def run(name: str, main: Callable[[], int | None], *faults: type[Exception]) -> int:
    """A command from its begin to its status: a fault is said in one line."""
    try:
        return main() or 0
    except (OutputClosed, BrokenPipeError):
        os.dup2(os.open(os.devnull, os.O_WRONLY), 1)  # what Python still has to write goes there
        return 1
    except KeyboardInterrupt:
        return 130
    except Exception as fault:
        if not isinstance(fault, (OSError, ColuwenError, ValueError, *faults)) or os.environ.get("COLUWEN_TRACE"):
            raise
        print(f"{name}: {fault}", file=sys.stderr, flush=True)
        return 1


def leave(status: int) -> None:
    """Ends the process with this status, without waiting for threads that may wait for the server."""
    try:
        sys.stdout.flush()
        sys.stderr.flush()
    except OSError:
        pass
    os._exit(status)


def ending(name: str, main: Callable[[Sequence[str] | None], int | None]) -> Callable[[], None]:
    """A command as an entry point of the package."""
    return lambda: leave(run(name, lambda: main(None)))
