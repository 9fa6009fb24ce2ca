"""Values of positions by the computers of a Dask cluster, each with engines of its own (`coluwen.Engine`).

    with Cluster("tcp://scheduler:8786") as cluster:          # of `dask-scheduler`, with `dask-worker`s that have this package and the program
        for question, answer in cluster.analyse_many(positions, 8):
            ..                                                # as by a `Client`

It needs Debian's python3-distributed. What a worker searched that is lost another one searches again; what begins it can't be cancelled there.
"""

import concurrent.futures
import functools
import importlib
import threading
from typing import Any

from ._core import DEEPEST, Info
from .analyst import Analyst, Result, checked, settle
from .board import Position
from .engine import Engine
from .errors import Broken, Closed, ColuwenError, Unreachable

TOGETHER = {4: 64, 6: 16, 8: 4}  # how many questions up to which depth are one task of the cluster, whose tasks take about a millisecond each
MOMENT = 0.005  # seconds, for which a task waits for more questions
Asked = tuple[str, int, float | None]
_lock = threading.Lock()


@functools.cache
def engine_here() -> Engine:
    """A worker's engine, which is made once, under the lock: as many processes as the worker has threads."""
    distributed: Any = importlib.import_module("distributed")
    return Engine(distributed.get_worker().nthreads)


def answer_here(asked: list[Asked]) -> list[Result | BaseException]:
    """What a worker answers to the questions of a task: of each its result or fault."""
    with _lock:
        engine = engine_here()
    futures = [engine.submit(position, depth, timeout=timeout) for position, depth, timeout in asked]
    return [future.exception() or future.result() for future in futures]


class Task:
    """Questions that are sent together."""

    def __init__(self) -> None:
        self.asked: dict[concurrent.futures.Future[Result], Asked] = {}
        self.sent: Any = None  # the cluster's future

    def fail(self, fault: ColuwenError) -> None:
        for future in self.asked:
            settle(future, fault)


class Cluster(Analyst):
    """Answers any number of positions by a cluster's workers; threads may share it. `timeout`: the seconds that a question may take from when its
    search begins."""

    def __init__(self, scheduler: str, *, timeout: float | None = None, patience: float = 10.0):
        try:
            distributed: Any = importlib.import_module("distributed")
            self._client: Any = distributed.Client(scheduler, timeout=patience, set_as_default=False)
            self._client.wait_for_workers(1, timeout=patience)
        except ImportError as fault:
            raise Unreachable("the cluster's package isn't here: Debian's python3-distributed") from fault
        except (OSError, TimeoutError, ValueError, distributed.TimeoutError) as fault:
            raise Unreachable(f"{scheduler}: {fault}") from fault
        self.address, self._timeout = scheduler, timeout
        self._lock = threading.Lock()
        self._gathered: dict[int, Task] = {}  # by how many questions go together
        self._sent: set[Task] = set()
        self._closed = False

    @property
    def parallel(self) -> int:  # type: ignore[override]
        """How many threads the cluster's workers have now."""
        threads: dict[str, int] = self._client.nthreads()
        return max(sum(threads.values()), 1)

    def submit(self, position: str | Position, depth: int, *, timeout: float | None = None) -> concurrent.futures.Future[Result]:
        place = checked(position, depth)
        most = next((count for deepest, count in TOGETHER.items() if depth <= deepest), 1)
        future = concurrent.futures.Future[Result]()
        with self._lock:
            if self._closed:
                raise Closed("the cluster is closed")
            task = self._gathered.setdefault(most, Task())
            if not task.asked and most > 1:
                threading.Timer(MOMENT, self._send, (most, task)).start()
            task.asked[future] = (place.text, depth, self._timeout if timeout is None else timeout)
        future.add_done_callback(lambda one: self._give_up(task) if one.cancelled() else None)
        if len(task.asked) >= most:
            self._send(most, task)
        return future

    def _send(self, most: int, task: Task) -> None:
        """Sends a task, if it isn't sent yet."""
        with self._lock:
            if self._gathered.get(most) is not task or self._closed:
                return
            del self._gathered[most]
            self._sent.add(task)
        task.sent = self._client.submit(answer_here, list(task.asked.values()), pure=False)
        task.sent.add_done_callback(lambda sent: self._take(task, sent))
        self._give_up(task)

    def _take(self, task: Task, sent: Any) -> None:
        """Takes what the cluster says, unless the cluster was closed before."""
        with self._lock:
            if task not in self._sent:
                return
            self._sent.remove(task)
        try:
            for future, answer in zip(task.asked, sent.result(), strict=True):
                settle(future, answer)
        except concurrent.futures.CancelledError:
            task.fail(Broken("the cluster's scheduler was lost"))
        except Exception as fault:
            task.fail(Broken(f"the cluster failed: {fault}"))

    def _give_up(self, task: Task) -> None:
        """Takes a task back of which nothing is wanted any more."""
        if task.sent and all(future.cancelled() for future in task.asked):
            task.sent.cancel()

    def info(self) -> Info:
        """Every depth can be had."""
        return Info(DEEPEST)

    def close(self) -> None:
        """Leaves the cluster. Calls that wait, and later ones, raise `Closed`; the workers keep their engines."""
        with self._lock:
            if self._closed:
                return
            self._closed = True
            left = [*self._gathered.values(), *self._sent]
            self._sent.clear()
        for task in left:
            task.fail(Closed("the cluster is closed"))
            if task.sent:
                task.sent.cancel()
        self._client.close()
