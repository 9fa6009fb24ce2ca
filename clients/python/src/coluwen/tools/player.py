"""What the bridges and the match ask of an analyst for a position, by a depth that can be had of it.

In the middle of a game a server looks as many plies deep as its grain lets it (`Analyst.info`); near the end, from 12 empty squares on, to
the end. A depth that is set beyond that is taken for the greatest that can be had, and `tell` says so once.
"""

import concurrent.futures
import contextlib
from collections.abc import Callable, Iterator

from .._core import DEEPEST
from ..analyst import Analyst, Result
from ..board import Position
from ..errors import Late, TooDeep
from ..score import Score

SURE = 4  # plies that a server of any grain looks deep


class Stopped(Exception):
    """What was looked for isn't wanted any more."""


class Unfit(ValueError):
    """What a board says that can't be carried out, in words."""


class Player:
    """Searches; another thread may stop it. `tell` is called with a line of text."""

    def __init__(self, analyst: Analyst, depth: int = 6, tell: Callable[[str], None] | None = None):
        self.analyst, self.depth = analyst, depth
        self.tell = tell or (lambda text: None)
        self.is_stopped = False
        self.under_way: concurrent.futures.Future[Result] | None = None
        self.told: set[int] = set()
        self.nodes = 0  # that were used, where the analyst counts them

    def stop(self) -> None:
        """Ends what is looked for, and what is begun until `begin`."""
        self.is_stopped = True
        if self.under_way:
            self.under_way.cancel()

    def begin(self) -> None:
        self.is_stopped, self.nodes = False, 0

    def analyse(self, position: Position, depth: int) -> Result:
        """What is known of a position; `Stopped` where it isn't wanted any more."""
        self.under_way = future = self.analyst.submit(position, depth)
        if self.is_stopped:
            future.cancel()
        try:
            result = future.result()
        except concurrent.futures.CancelledError:
            raise Stopped from None
        except BaseException:
            future.cancel()
            raise
        self.nodes += result.nodes or 0
        return result

    def limit(self, position: Position, depth: int) -> int:
        """How deep a position is looked at where so many plies are wanted."""
        depth = min(depth, DEEPEST)
        if depth <= SURE or position.empties <= DEEPEST:
            return depth
        most = self.analyst.info().mostly
        if depth > most and depth not in self.told:
            self.told.add(depth)
            self.tell(f"depth {depth} can't be had at this server's grain; {most} plies it is, and to the end from {DEEPEST} empty squares on")
        return min(depth, most)

    def search(self, position: Position, depth: int | None = None) -> Result:
        """What is known of a position: so deep as is set, or, where that can't be had of it, as deep as can."""
        wanted = self.limit(position, self.depth if depth is None else depth)
        while True:
            try:
                return self.analyse(position, wanted)
            except TooDeep:
                self.tell(f"depth {wanted} can't be had of this position")
                wanted -= 1

    def search_for(self, position: Position, seconds: float) -> Result:
        """What is known of a position after so many seconds, by searches that deepen up to the depth that is set; one ply at least."""
        found = self.analyse(position, 1)
        with contextlib.suppress(Late, TooDeep):
            for found in self.analyst.deepen(position, self.limit(position, self.depth), timeout=seconds):
                pass
        return found

    def deepening(self, position: Position) -> Iterator[Result]:
        """The same of 1, 2, .. plies, up to the depth that is set, once each."""
        for depth in range(1, self.limit(position, self.depth) + 1):
            try:
                found = self.analyse(position, depth)
            except TooDeep:
                self.tell(f"depth {depth} can't be had of this position")
                return
            yield found


def in_discs(score: Score) -> str:
    """A score as boards have it: discs at the end of the game, else points divided by a hundred."""
    return f"{score.discs:+.2f}"
