"""Jobs with as much reserved as `enough` says, beside 59 sessions of deep searches, with one worker and with many: none is SPENT, and each value is that of `othello solve`."""
from __future__ import annotations

import concurrent.futures
import contextlib
import random

import stage
from coluwen import Position, enough
from place import LONG, From, Site, address_of, solve

GRAIN, ASKERS, DEEP, BATCH = 2, 5, 59, 40
RATE = [("rate = 10\nburst = 100", "rate = 1000\nburst = 60000")]


class Deep:
    """A tenant whose searches take all that it has reserved, one session after another, until it is to end."""

    def __init__(self, site: Site, number: int):
        self.site, self.number, self.ended = site, number, False
        self.session: From | None = None

    def run(self) -> None:
        while not self.ended:
            with contextlib.suppress(Exception), self.site.opened(address_of(100 + self.number), 500, 60000) as self.session:
                while not self.ended:
                    self.session.wait(self.session.ask_line(LONG))

    def end(self) -> None:
        self.ended = True
        if self.session:
            self.session.drop()


def ends(site: Site, number: int, line: str) -> object:
    """How a job ends that is the only one of a session with just what suffices."""
    depth, _, position = line.partition(" ")
    reserved = enough(Position.parse(position), int(depth), GRAIN)
    assert reserved
    session = None
    while session is None:  # until who ended before has left
        session, _ = site.told(address_of(number), reserved.segments, reserved.nodes)
    with session:
        return session.wait(session.ask_line(line))


def batch(workers: int, seed: int) -> None:
    drawn = random.Random(seed)
    lines = [f"{drawn.randint(0, GRAIN + 2)} {position}" for position in stage.positions(BATCH, seed)]
    wanted = solve(lines)
    terms = [("grain = 6 ", f"grain = {GRAIN} "), ("# workers = 4 ", f"workers = {workers} "), *RATE]
    with Site(terms=terms) as site, concurrent.futures.ThreadPoolExecutor(DEEP) as others, concurrent.futures.ThreadPoolExecutor(ASKERS) as askers:
        deep = [Deep(site, number) for number in range(DEEP)]
        running = [others.submit(each.run) for each in deep]
        try:
            found = list(askers.map(lambda number: ends(site, number, lines[number]), range(BATCH)))
        finally:
            for each in deep:
                each.end()
        for one in running:
            one.result()
    assert found == wanted, (workers, seed)


def test_enough_is_never_spent(length: int) -> None:
    """2,000 jobs where --length is 10."""
    for seed in range(5 * length):
        batch((1, 32, 4, 2, 16, 8)[seed % 6], seed)
