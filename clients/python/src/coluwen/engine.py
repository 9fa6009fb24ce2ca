"""Values of positions without a server, by processes of the program `othello` on this computer.

An `Engine` is an `Analyst`, as a `Client` is: the same calls, results and faults. Each question is searched by one process, and to give it up ends
that process; another is begun in its place.
"""

import asyncio
import concurrent.futures
import contextlib
import functools
import math
import os
import pathlib
import queue
import re
import select
import shutil
import subprocess
import threading
import time
import weakref

from ._core import DEEPEST, Found, Info
from .aio import AsyncClient
from .analyst import Analyst, Result, checked, result_of, settle
from .board import Position
from .client import Client
from .errors import Broken, Closed, ColuwenError, Late, Refused, TooDeep, Unreachable
from .score import AT_MOST, EXACT

PROGRAM = "COLUWEN_OTHELLO"  # the variable that names the program
MODULE = "othello-wasm"  # the page's module as a program, which node runs
SEARCH = ("solve", "--ordered")  # one ordered search for each line: the fastest of what `solve` has
SERVE = ("serve", "--sessions", "1000", "--segments", "65536", "--nodes", "4194304")
WATCH = '"$@" < /dev/null & cat > /dev/null; kill $!'  # of sh: a server ends with the input that whoever began it holds, however that ends
GRAINS = range(4, 7)  # of an engine's own servers: as deep as is fastest, and as deep as they go
TRIES = 3  # of a question whose processes end
LONGEST = 64  # bytes of an answer
ANSWER = re.compile(rb"(0|-?[1-9][0-9]{0,5}) ([a-h][1-8]|pass|-)\n")
REFUSAL = re.compile(rb"ERR ([1-9][0-9])\n")
CORNERS = ("a1", "h1", "a8", "h8")
HERE = pathlib.Path(__file__).resolve()


def program_of(named: str | None = None, serves: bool = False) -> tuple[str, str]:
    """The program, and its version: what is named, else by the variable COLUWEN_OTHELLO, else on PATH, else the package's own, else this archive's, or
    this checkout's, if it is proved; else the page's module, by node; else this checkout's that isn't proved. `Unreachable` where there is none.
    `serves`: it is to be a server too."""
    named = named or os.environ.get(PROGRAM)
    for path in [shutil.which(named) or ""] if named else programs_here():
        if not (serves and path.endswith(MODULE)) and (version := version_of(path)):
            return path, version
    raise Unreachable(f"{named} isn't the program `othello`" if named else
                      f"the program `othello` isn't there: install node, which has the same search by WebAssembly, or name the program by the variable {PROGRAM}")  # fmt: skip


def programs_here() -> list[str]:
    """Where the program may be, the first to be tried first: beside `othello` may lie `othello-v3`, built for processors with AVX2, and in a checkout one that
    isn't proved, and so is slower than the page's module by node."""
    own, by_node = HERE.parent / "program", HERE.parent / "page/static/engine" / MODULE
    names = ["othello-v3", "othello"] if runs_v3() else ["othello"]
    places, slow = [own / name for name in names], list[pathlib.Path]()
    if HERE.parts[-5:-1] == ("clients", "python", "src", "coluwen"):  # of an archive, or of a checkout, whose own `othello` is a script
        top, by_node = HERE.parents[4], HERE.parents[3] / "bin" / MODULE
        built = top / "crates/othello_server/out"
        is_checkout = (top / "crates").exists()
        places += [built / name for name in (*["othello_server-x86-64-v3"] * runs_v3(), "othello_server")] if is_checkout else [top / name for name in names]
        slow = [built / "unproved/othello"] * is_checkout
    places += [by_node] * bool(shutil.which("node")) + slow
    there = [str(path) for path in places if os.access(path, os.X_OK)]
    return [found, *there] if (found := shutil.which("othello")) else there


def runs_v3(about: str = "/proc/cpuinfo") -> bool:
    """Whether this computer's processor is an x86-64-v3."""
    with contextlib.suppress(OSError):
        return {"avx2", "bmi1", "bmi2", "f16c", "fma", "abm", "movbe"} <= set(pathlib.Path(about).read_text().split())
    return False


@functools.cache
def version_of(path: str) -> str:
    """What version of the program this is; nothing where it is another."""
    with contextlib.suppress(OSError, subprocess.TimeoutExpired):
        told = subprocess.run([path, "--version"], stdin=subprocess.DEVNULL, stdout=subprocess.PIPE, stderr=subprocess.DEVNULL, timeout=10, check=False).stdout
        if found := re.fullmatch(rb"othello ([0-9][!-~]{0,30})\n", told):
            return found[1].decode()
    return ""


class Question:
    """One that is asked, and the process that searches it."""

    def __init__(self, position: Position, depth: int, timeout: float | None):
        self.position, self.depth, self.timeout = position, depth, timeout
        self.future = concurrent.futures.Future[Result]()
        self.process: subprocess.Popen[bytes] | None = None  # changed under the pool's lock alone
        self.asked = 0.0  # when its search began


class Pool:
    """The threads and processes of an engine: a process is begun when there is something to ask and none is spare."""

    def __init__(self, program: str, workers: int):
        self.program, self.workers = program, workers
        self.lock = threading.RLock()  # of all below but what waits
        self.waiting = queue.SimpleQueue[Question | None]()  # None ends a thread
        self.threads: list[threading.Thread] = []
        self.running: set[Question] = set()
        self.spare: list[subprocess.Popen[bytes]] = []
        self.closed = False

    def ask(self, question: Question) -> None:
        question.future.add_done_callback(lambda future: self.give_up(question) if future.cancelled() else None)
        with self.lock:
            if self.closed:
                raise Closed("the engine is closed")
            self.waiting.put(question)
            if len(self.threads) < self.workers:
                self.threads.append(threading.Thread(target=self.run, name="coluwen-engine", daemon=True))
                self.threads[-1].start()

    def run(self) -> None:
        while question := self.waiting.get():
            outcome: Result | ColuwenError
            try:
                outcome = self.answer(question)
            except BaseException as fault:  # of this package's own too: nobody is to wait for an answer that never comes
                self.end(question)
                outcome = fault if isinstance(fault, ColuwenError) else Broken(f"the engine failed: {fault!r}")
            with self.lock:
                self.running.discard(question)
                self.spare += [question.process] if question.process else []
                question.process = None
            settle(question.future, outcome)

    def answer(self, question: Question) -> Result:
        """What a process finds, where of the other moves is known that none is worth more; one that ends without an answer is replaced, and one that was
        asked for too long or in vain is ended."""
        question.asked = time.monotonic()
        until = None if question.timeout is None else question.asked + question.timeout
        for _ in range(TRIES):
            answer = self.ask_process(question, until)
            if found := ANSWER.fullmatch(answer):
                value, move = int(found[1]), found[2].decode()
                moves = [] if move == "-" else sorted(question.position.legal_moves(), key=lambda one: one not in CORNERS)
                entries = tuple((one, EXACT if one == move else AT_MOST, value) for one in moves)
                return result_of(question.position, question.depth, Found(value, move, entries, time.monotonic() - question.asked))
            if refused := REFUSAL.fullmatch(answer):
                raise Refused(int(refused[1]))
            self.end(question)
            if self.closed:
                raise Closed("the engine is closed")
            if question.future.done():
                raise ColuwenError("it was given up")
            if until is not None and time.monotonic() >= until:
                raise Late(question.timeout or 0.0)
        raise Broken(f"the program {self.program} ended without an answer {TRIES} times")

    def ask_process(self, question: Question, until: float | None) -> bytes:
        """What a process says to it; less than a line where that has ended, the time is over, or it was given up before that began."""
        with self.lock:
            if self.closed or question.future.done():
                return b""
            try:  # in a process group of its own: Ctrl-C at the terminal is this program's matter
                question.process = process = self.spare.pop() if self.spare else subprocess.Popen(
                    [self.program, *SEARCH], bufsize=0, process_group=0, stdin=subprocess.PIPE, stdout=subprocess.PIPE, stderr=subprocess.DEVNULL)  # fmt: skip
            except OSError as fault:
                raise Unreachable(f"{self.program}: {fault.strerror or fault}") from fault
            self.running.add(question)
        assert process.stdin and process.stdout
        answer = b""
        with contextlib.suppress(BrokenPipeError):
            os.write(process.stdin.fileno(), f"{question.depth} {question.position.text}\n".encode())
            while not answer.endswith(b"\n") and len(answer) < LONGEST:
                if until is not None and not select.select([process.stdout], [], [], max(until - time.monotonic(), 0))[0]:
                    break
                if not (part := os.read(process.stdout.fileno(), LONGEST)):
                    break
                answer += part
        return answer

    def end(self, question: Question) -> None:
        """Ends the process that searches it, and waits until it has."""
        with self.lock:
            process, question.process = question.process, None
        if process:
            with process:
                process.kill()

    def give_up(self, question: Question) -> None:
        """Kills the process that searches it, which its thread notices; one that waits is passed over."""
        with self.lock:
            if question.process:
                question.process.kill()

    def close(self) -> None:
        with self.lock:
            self.closed = True
            for question in self.running:
                self.give_up(question)
        for _ in self.threads:
            self.waiting.put(None)
        for thread in {*self.threads} - {threading.current_thread()}:
            thread.join()
        for process in self.spare:
            with process:
                process.kill()


class Server:
    """A server that is this process's own, and its client: all its threads search a position together."""

    def __init__(self, program: str, threads: int, grain: int):
        words = ["sh", "-c", WATCH, "sh", program, *SERVE, "--workers", str(threads), "--grain", str(grain)]
        self.process = subprocess.Popen(words, process_group=0, stdin=subprocess.PIPE, stdout=subprocess.PIPE, stderr=subprocess.DEVNULL)
        assert self.process.stdout
        if not (told := re.fullmatch(rb"listening 127\.0\.0\.1:(\d+)\n", self.process.stdout.readline())):
            self.process.communicate()
            raise Unreachable(f"{program} serves nothing")
        self.client = Client("127.0.0.1", int(told[1]), silence=60.0, outage=0.0)

    def close(self) -> None:
        self.client.close()
        self.process.communicate()


class Servers:
    """Those of an engine by their grain, each begun when it is first asked for, and again where it has ended."""

    def __init__(self, program: str, threads: int):
        self.program, self.threads, self.lock = program, threads, threading.Lock()
        self.begun: dict[int, Server] = {}
        self.closed = False

    def client_for(self, depth: int) -> Client:
        grain = min(max(depth - 4, GRAINS[0]), GRAINS[-1])
        with self.lock:
            if self.closed:
                raise Closed("the engine is closed")
            if grain in self.begun and self.begun[grain].process.poll() is not None:
                self.begun.pop(grain).close()
            if grain not in self.begun:
                self.begun[grain] = Server(self.program, self.threads, grain)
            return self.begun[grain].client

    def close(self) -> None:
        with self.lock:
            self.closed = True
            for server in self.begun.values():
                server.close()
            self.begun.clear()


class Engine(Analyst):
    """Answers any number of positions by processes of the program `othello`, `workers` of them (one for each processor where nothing is said);
    threads may share it. No depth is beyond it. `program` names it, where it isn't found by itself (`program_of`). `timeout`: the seconds that a
    question may take from when its search begins.

    `threads`: so many search each position together, by a server of its own (`othello serve`), which begins with the first question and ends with the
    engine; what is too deep for such a server one process searches."""

    def __init__(self, workers: int | None = None, *, threads: int | None = None, program: str | None = None, timeout: float | None = None):
        workers = len(os.sched_getaffinity(0)) if workers is None else workers
        for name, number, most in (("workers", workers, math.inf), ("threads", 1 if threads is None else threads, 32)):
            if isinstance(number, bool) or not isinstance(number, int) or not 1 <= number <= most:
                raise ValueError(f"{name} is a whole number from 1 {'on' if most == math.inf else f'to {most}'}, and not {number!r}")
        if timeout is not None and not timeout >= 0:
            raise ValueError(f"timeout is a number of seconds, and not {timeout!r}")
        self.program, self.version = program_of(program, serves=threads is not None)
        self.parallel, self._timeout = workers, timeout
        self._pool, self._servers = Pool(self.program, workers), Servers(self.program, threads or 0)
        self._lone = Engine(workers, program=self.program, timeout=timeout) if threads else None
        self._ended = weakref.finalize(self, lambda *all_of_them: [one.close() for one in all_of_them], self._pool, self._servers)  # also where the interpreter ends

    def __repr__(self) -> str:
        return f"Engine({self.parallel}, threads={self._servers.threads or None}, program={self.program!r})"

    def submit(self, position: str | Position, depth: int, *, timeout: float | None = None) -> concurrent.futures.Future[Result]:
        place, timeout = checked(position, depth), self._timeout if timeout is None else timeout
        if self._lone:
            return Fallback(self._servers.client_for(depth), self._lone).submit(place, depth, timeout=timeout)
        question = Question(place, depth, timeout)
        self._pool.ask(question)
        return question.future

    def info(self) -> Info:
        """Every depth can be had."""
        return Info(DEEPEST, self.version)

    def close(self) -> None:
        """Ends the processes, and waits until they have. Calls that wait, and later ones, raise `Closed`."""
        self._ended()
        if self._lone:
            self._lone.close()


class Fallback(Analyst):
    """What one analyst can't give, as it is too deep for it (`TooDeep`), another one gives: `Fallback(client, engine)`. It closes both."""

    def __init__(self, first: Analyst, second: Analyst):
        self.first, self.second = first, second
        self.parallel = first.parallel

    def submit(self, position: str | Position, depth: int, *, timeout: float | None = None) -> concurrent.futures.Future[Result]:
        future = concurrent.futures.Future[Result]()

        def begin(analyst: Analyst) -> None:
            asked = analyst.submit(position, depth, timeout=timeout)
            future.add_done_callback(lambda _: asked.cancel())
            asked.add_done_callback(lambda one: ended(one, analyst))

        def ended(one: concurrent.futures.Future[Result], analyst: Analyst) -> None:
            fault = Closed("it was given up") if one.cancelled() else one.exception()
            if isinstance(fault, TooDeep) and analyst is self.first:
                try:
                    return begin(self.second)
                except ColuwenError as other:
                    fault = other
            return settle(future, fault or one.result())

        begin(self.first)
        return future

    def info(self) -> Info:
        return self.second.info()

    def ping(self) -> float:
        return self.first.ping()

    def close(self) -> None:
        with self.second:
            self.first.close()


class AsyncEngine(AsyncClient):
    """The same as `Engine` for asyncio, or as another analyst, where one is given. A task that is cancelled gives its question up."""

    def __init__(self, workers: int | None = None, *, threads: int | None = None, program: str | None = None, timeout: float | None = None, analyst: Analyst | None = None):
        self._analyst = analyst or Engine(workers, threads=threads, program=program, timeout=timeout)
        self.parallel = self._analyst.parallel

    def __repr__(self) -> str:
        return f"{type(self).__name__}(analyst={self._analyst!r})"

    async def analyse(self, position: str | Position, depth: int, *, timeout: float | None = None) -> Result:
        return await asyncio.wrap_future(self._analyst.submit(position, depth, timeout=timeout))

    async def info(self) -> Info:
        return await asyncio.to_thread(self._analyst.info)

    async def ping(self) -> float:
        return await asyncio.to_thread(self._analyst.ping)

    async def close(self) -> None:
        await asyncio.to_thread(self._analyst.close)
