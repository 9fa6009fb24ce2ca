"""Each attack of hostile.py, by 54 addresses (60 of those that only look) at once over TLS, in a control group of one processor: everybody else is served beside it,
and all comes back. HAProxy and the site have the other processors, in groups of the weights that their units have. With --length 60 ten minutes of all, and of those
that only look: then 99.9 of 100 of a customer's calls take 100 ms at most. Calls during which this machine itself stood still (see stood.py) are left out, and counted."""
from __future__ import annotations

import contextlib
import os
import pathlib
import statistics
import subprocess
import sys
import tempfile
import threading
import time
from collections.abc import Iterator

import pytest
from place import LEFT, LINES, SCHOOL, SMALL, Answer, Group, Site, solve, until
from coluwen import Refused

HERE = pathlib.Path(__file__).resolve().parent
sys.path.insert(0, str(HERE.parent))
import hostile  # noqa: E402

LAST = max(os.sched_getaffinity(0))  # a processor: of those who aren't the host's
KINDS = [each.__name__ for each in hostile.KINDS]
LONG, IN_HALLS = ("", "drum"), ("", "drum", "choose")  # those with a longer trial, and those at a site with two halls
FOUR = [f"4 {line.split(' ', 1)[1]}" for line in LINES]
ONE_EACH = ("[guests.each]\nsessions = 4\nsegments = 4096\nnodes = 131072", "[guests.each]\nsessions = 1\nsegments = 1024\nnodes = 65536")


class Beside:
    """A named customer and guests, each of whom opens a session, asks what is left and for a value, and leaves, again and again. They are where
    the attackers are, and go before them. The attackers are guests too, so they share the guests' budget."""

    def __init__(self, site: Site, wanted: list[Answer]):
        self.site, self.wanted, self.stop = site, wanted, threading.Event()
        self.calls, self.faults = {f"{name} of {whom}": list[tuple[float, float]]() for whom in ("a customer", "guests") for name in ("WELCOME", "QUOTA", "ASK")}, list[str]()
        whom = {"127.6.1.1": "a customer", "127.6.1.2": "a customer", "127.3.1.1": "guests", "127.3.1.2": "guests"}
        self.threads = [threading.Thread(target=self.ask, args=each, daemon=True) for each in whom.items()]

    def ask(self, address: str, whom: str) -> None:
        number = 0
        os.sched_setaffinity(0, {LAST})  # (of this thread)
        with contextlib.suppress(PermissionError):
            os.setpriority(os.PRIO_PROCESS, threading.get_native_id(), -10)
        while not self.stop.is_set():
            moments = [time.monotonic()]
            try:
                with self.site.opened(address, *SMALL, timeout=20) as session:
                    moments.append(time.monotonic())
                    session.quota()
                    moments.append(time.monotonic())
                    if session.wait(session.ask_line(FOUR[number % len(FOUR)])) != self.wanted[number % len(FOUR)]:
                        self.faults.append("a wrong value")
                    moments.append(time.monotonic())
                for name, begun, ended in zip(("WELCOME", "QUOTA", "ASK"), moments, moments[1:]):
                    self.calls[f"{name} of {whom}"].append((begun, ended))
            except (OSError, Refused) as reason:
                self.faults.append(f"{address} after {time.monotonic() - moments[0]:.2f} s: {reason!r}")
            number += 1
            self.stop.wait(0.1)

    def __enter__(self) -> Beside:
        for each in self.threads:
            each.start()
        return self

    def __exit__(self, *_: object) -> None:
        self.stop.set()
        for each in self.threads:
            each.join(30)

    def took(self, stood: list[tuple[float, float]]) -> dict[str, list[float]]:
        """The seconds of each kind of call, from the shortest, without those during which this machine stood still."""
        return {name: sorted(to - since for since, to in calls if not any(since < end and to > begin for begin, end in stood)) for name, calls in self.calls.items()}


@contextlib.contextmanager
def standing() -> Iterator[list[tuple[float, float]]]:
    """When this machine stands still, known behind the block; nothing where nobody may ask for priority in real time."""
    found = list[tuple[float, float]]()
    with tempfile.TemporaryFile("w+") as told:
        with subprocess.Popen([sys.executable, str(HERE / "stood.py")], stdin=subprocess.PIPE, stdout=told, stderr=subprocess.DEVNULL):
            yield found
        told.seek(0)
        found += [(float(begin), float(end)) for begin, end in map(str.split, told)]


def of_1000(took: list[float]) -> float:
    """The seconds within which 999 of 1,000 were."""
    return took[len(took) * 999 // 1000]


@pytest.fixture(scope="module")
def answers() -> list[Answer]:
    return solve(FOUR)


@pytest.mark.parametrize("kind", ["", *KINDS])
def test_everybody_else_is_served(kind: str, made: dict[str, str], answers: list[Answer], length: int, capsys: pytest.CaptureFixture[str]) -> None:
    seconds = 10 * length if kind in LONG else 4
    terms = [*LEFT, ONE_EACH, *([("# halls = 1 ", "halls = 2 ")] if kind in IN_HALLS else [])]
    with standing() as stood, Site(made, terms=terms, more=SCHOOL, apart=True) as site, Beside(site, answers) as beside:
        command = [sys.executable, str(pathlib.Path(hostile.__file__)), str(site.port), "60" if kind == "drum" else "54", str(seconds), *([kind] if kind else [])]
        one = ["taskset", "--cpu-list", str(LAST)]
        attackers = Group("attackers")
        with subprocess.Popen([*one, *command], stdout=subprocess.PIPE, text=True, env={**os.environ, "TLS": "yes"}) as process:
            attackers.add(process.pid)
            said = process.communicate()[0]
        attackers.close()
        assert process.returncode == 0
        time.sleep(0.5)
        beside.stop.set()
        for each in beside.threads:
            each.join(30)
        until(lambda: not site.has(), 90, "all is given back")  # (a WAIT goes on for 60 seconds behind an end of input, if its job lasts)
    took = beside.took(stood)
    counted, whole = (sum(map(len, each.values())) for each in (took, beside.calls))
    figures = ", ".join(f"{name} {statistics.median(them) * 1000:.1f} ms, 99.9 of 100 below {of_1000(them) * 1000:.0f}, at most {them[-1] * 1000:.0f}" for name, them in took.items() if them)
    with capsys.disabled():
        print(f"\n{kind or 'all'}: {said.strip()}\n  beside it: {figures}")
        print(f"  left out: {whole - counted} of {whole} calls, in {len(stood)} moments in which a processor was away, {sum(end - begin for begin, end in stood):.2f} s")
    assert not beside.faults, beside.faults[:3]
    assert all(len(them) > 3 and them[-1] < 2 for them in took.values()), figures
    if length >= 60 and kind in LONG:
        assert all(of_1000(them) <= 0.1 for name, them in took.items() if name.endswith("a customer")), figures
