"""An engine on this computer: values, faults, what becomes of processes that end, hang or answer nonsense, and that none is left.

The program here does as the test says; what the program itself answers clients/trial tries."""
import asyncio
import concurrent.futures
import contextlib
import os
import pathlib
import pickle
import subprocess
import sys
import time

import pytest

from coluwen import AsyncEngine, Broken, Closed, Engine, Late, Position, Result, Score, TooDeep, Unreachable
from coluwen.analyst import Analyst
from coluwen import engine as engine_module
from coluwen.engine import Fallback, programs_here, runs_v3

OPENING = Position.opening()
SOON = 30.0  # seconds that are ample for what needs a hundredth of one, on a busy host
# Answers `depth * 10 c1` to each position of black, and to white's: depth 12 hangs, 11 ends each time, 10 ends the first time, 9 is nonsense.
FALSE = """#!{python} -uSB
import os, sys, time
if sys.argv[1:] == ["--version"]:
    print("othello 9.9.9")
    sys.exit()
if sys.argv[1] == "serve":
    sys.path[:0] = ["{here}", "{source}"]
    from told import Told, sound
    print(f"listening 127.0.0.1:{{Told(sound(int(sys.argv[-1]), lambda depth, nodes: 'SPENT' if depth > 10 else 'PENDING' if depth == 9 else 'DONE')).port}}", flush=True)
    time.sleep(600)
assert sys.argv[1:] == ["solve", "--ordered"]
for line in sys.stdin:
    depth, side = int(line.split()[0]), line.split()[2]
    if side == "O":
        if depth == 12:
            time.sleep(600)
        once = os.path.join(os.path.dirname(sys.argv[0]), "once")
        if depth == 11 or depth == 10 and not os.path.exists(once):
            open(once, "w").close()
            sys.exit(3)
        if depth == 9:
            print("what?", flush=True)
            continue
    print(10 * depth, "d3" if depth else "-", flush=True)
"""
WHITE = OPENING.flip()


@pytest.fixture
def false(tmp_path: pathlib.Path) -> str:
    program = tmp_path / "othello"
    here = pathlib.Path(__file__).resolve().parent
    program.write_text(FALSE.format(python=sys.executable, here=here, source=here.parent / "src"))
    program.chmod(0o755)
    return str(program)


def children() -> dict[int, str]:
    """The processes that this one has begun and not waited for, and the state of each."""
    found = {}
    for place in pathlib.Path("/proc").glob("[0-9]*/stat"):
        try:
            words = place.read_text().rpartition(")")[2].split()
        except OSError:
            continue
        if int(words[1]) == os.getpid():
            found[int(place.parent.name)] = words[0]
    return found


def until(holds: object, seconds: float = SOON) -> bool:
    end = time.monotonic() + seconds
    while not holds():  # type: ignore[operator]
        if time.monotonic() > end:
            return False
        time.sleep(0.002)
    return True


def test_the_program_for_the_processor(tmp_path: pathlib.Path, monkeypatch: pytest.MonkeyPatch) -> None:
    about = tmp_path / "cpuinfo"
    for flags, holds in (("sse2 abm avx avx2 bmi1 bmi2 f16c fma movbe", True), ("sse2 abm avx bmi1 bmi2 f16c fma movbe", False), ("avx2 bmi1 bmi2 f16c fma movbe", False), ("", False)):
        about.write_text(f"processor\t: 0\nflags\t\t: {flags}\nbugs\t\t: spectre_v1\n")
        assert runs_v3(str(about)) is holds
    assert not runs_v3(str(tmp_path / "none"))
    here = tmp_path / "a/python3/dist-packages/coluwen/engine.py"
    (here.parent / "program").mkdir(parents=True)
    for name in ("othello", "othello-v3"):
        (here.parent / "program" / name).write_text("#!/bin/sh\n")
        (here.parent / "program" / name).chmod(0o755)
    monkeypatch.setattr(engine_module, "HERE", here)
    monkeypatch.setenv("PATH", str(tmp_path))
    for runs, wanted in ((True, ["othello-v3", "othello"]), (False, ["othello"])):
        monkeypatch.setattr(engine_module, "runs_v3", lambda runs=runs: runs)
        assert [pathlib.Path(one).name for one in programs_here()] == wanted
    (tmp_path / "othello").write_text("#!/bin/sh\n")
    (tmp_path / "othello").chmod(0o755)
    assert programs_here()[0] == str(tmp_path / "othello")
    monkeypatch.setenv("PATH", "")
    assert [pathlib.Path(one).parent.name for one in programs_here()] == ["program"]  # what lies above a package that is installed isn't its own
    monkeypatch.setattr(engine_module, "HERE", tmp_path / "clients/python/src/coluwen/engine.py")
    assert programs_here() == [str(tmp_path / "othello")]  # an archive's
    (tmp_path / "crates").mkdir()
    assert not programs_here()  # a checkout's is a script that builds


def test_processes_that_end_are_begun_anew_and_nothing_is_lost(false: str) -> None:
    with Engine(1, program=false) as engine:
        assert engine.version == "9.9.9"
        assert engine.analyse(WHITE, 10).score.value == 100  # its first process ended
        futures = [engine.submit(OPENING, 1), engine.submit(WHITE, 11), engine.submit(OPENING, 2), engine.submit(WHITE, 9), engine.submit(OPENING, 3)]
        assert [futures[at].result(SOON).score.value for at in (0, 2, 4)] == [10, 20, 30]
        for at in (1, 3):
            with pytest.raises(Broken):
                futures[at].result(SOON)
    assert children() == {}


def test_what_is_given_up_ends_its_process_at_once(false: str) -> None:
    with Engine(1, program=false) as engine:
        engine.analyse(OPENING, 1)
        before = set(children())
        hanging, behind = engine.submit(WHITE, 12), engine.submit(OPENING, 4)
        time.sleep(0.05)
        assert hanging.cancel()
        assert until(lambda: not before & set(children()))
        assert behind.result(SOON).score.value == 40
        waits = engine.submit(WHITE, 12)
        never = engine.submit(OPENING, 5)
        assert never.cancel() and waits.cancel()
        assert engine.analyse(OPENING, 6).score.value == 60
        assert "Z" not in children().values()


def test_a_question_that_takes_too_long_is_late(false: str) -> None:
    with Engine(1, program=false) as engine:
        with pytest.raises(Late) as fault:
            engine.analyse(WHITE, 12, timeout=0.2)
        assert fault.value.seconds == 0.2
        assert engine.analyse(OPENING, 7, timeout=SOON).score.value == 70
    with Engine(1, program=false, timeout=0.2) as engine, pytest.raises(Late):
        engine.analyse(WHITE, 12)


def test_close_ends_what_waits_and_leaves_no_process(false: str) -> None:
    engine = Engine(2, program=false)
    futures = [engine.submit(WHITE, 12) for _ in range(5)]
    time.sleep(0.1)
    begun = time.monotonic()
    engine.close()
    assert time.monotonic() - begun < SOON
    for future in futures:
        with pytest.raises(Closed):
            future.result(SOON)
    with pytest.raises(Closed):
        engine.submit(OPENING, 1)
    engine.close()
    assert children() == {}


def test_a_loop_that_is_left_gives_up_what_it_asked(false: str) -> None:
    with Engine(2, program=false) as engine:
        for _question, answer in engine.analyse_many([(OPENING, 1), *[(WHITE, 12)] * 9], order="known"):
            assert isinstance(answer, Result)
            break
        assert engine.analyse(OPENING, 2).score.value == 20


def test_threads_share_it(false: str) -> None:
    with Engine(3, program=false) as engine, concurrent.futures.ThreadPoolExecutor(9) as threads:
        values = list(threads.map(lambda number: engine.analyse(OPENING, number % 9).score.value, range(200)))
    assert values == [10 * (number % 9) for number in range(200)]


def test_a_program_that_is_none_is_told(tmp_path: pathlib.Path, monkeypatch: pytest.MonkeyPatch) -> None:
    with pytest.raises(Unreachable):
        Engine(program=str(tmp_path / "nothing"))
    other = tmp_path / "othello"
    other.write_text("#!/bin/sh\necho a game\n")
    other.chmod(0o755)
    with pytest.raises(Unreachable):
        Engine(program=str(other))
    monkeypatch.setenv("COLUWEN_OTHELLO", str(other))
    with pytest.raises(Unreachable):
        Engine()
    for workers in (0, True, 1.5):
        with pytest.raises(ValueError):
            Engine(workers)  # type: ignore[arg-type]


def test_a_program_that_is_taken_away_is_told(false: str) -> None:
    with Engine(1, program=false) as engine:
        os.unlink(false)
        with pytest.raises(Unreachable):
            engine.analyse(OPENING, 1)


def test_an_interpreter_that_ends_without_close_leaves_no_process(false: str) -> None:
    script = "import sys, os\nfrom coluwen import Engine, Position\ne = Engine(2, program=sys.argv[1])\nf = e.submit(Position.opening().flip(), 12)\ne.analyse(Position.opening(), 1)\nprint(*[p.pid for p in [*e._pool.spare, *[q.process for q in e._pool.running]]])"
    begun = time.monotonic()
    told = subprocess.run([sys.executable, "-c", script, false], stdout=subprocess.PIPE, text=True, timeout=SOON, check=True, env={**os.environ, "PYTHONPATH": os.pathsep.join(sys.path)})
    pids = told.stdout.split()
    assert len(pids) == 2 and time.monotonic() - begun < SOON
    assert until(lambda: not any(os.path.exists(f"/proc/{pid}") for pid in pids))


def test_results_and_faults_can_be_pickled(false: str) -> None:
    with Engine(1, program=false) as engine:
        result = engine.analyse(OPENING, 3)
    for one in (result, Broken("lost"), Late(0.5), TooDeep(9, 8)):
        copy = pickle.loads(pickle.dumps(one))
        assert repr(copy) == repr(one)


class Shallow(Analyst):
    """Has depth 3 at most."""

    def __init__(self) -> None:
        self.closed = False

    def submit(self, position: str | Position, depth: int, *, timeout: float | None = None) -> concurrent.futures.Future[Result]:
        future = concurrent.futures.Future[Result]()
        if depth == 5:
            future.set_exception(Broken("lost"))
        elif depth > 3:
            future.set_exception(TooDeep(depth, 3))
        return future

    def info(self) -> object: ...  # type: ignore[override]
    def ping(self) -> float: ...  # type: ignore[empty-body]

    def close(self) -> None:
        self.closed = True


def test_what_one_cannot_give_another_one_gives(false: str) -> None:
    first = Shallow()
    with Fallback(first, Engine(1, program=false)) as both:
        assert both.analyse(OPENING, 4).score.value == 40
        with pytest.raises(Broken):
            both.analyse(OPENING, 5)
        waits = both.submit(WHITE, 12)
        time.sleep(0.05)
        assert waits.cancel()
        assert both.analyse(OPENING, 6).score.value == 60
        assert both.submit(OPENING, 2).cancel()
        assert both.info().sure == 12
    assert first.closed and children() == {}


def test_the_same_for_asyncio(false: str) -> None:
    async def asks() -> None:
        async with AsyncEngine(1, program=false) as engine:
            assert (await engine.analyse(OPENING, 3)).score.value == 30
            assert [outcome.answer.score.value async for outcome in engine.analyse_many([(OPENING, 1), (OPENING, 2)])] == [10, 20]
            assert len(await engine.analyse_all(OPENING, 2)) == 4
            with pytest.raises(TimeoutError):
                async with asyncio.timeout(0.1):
                    await engine.analyse(WHITE, 12)
            assert (await engine.analyse(OPENING, 4)).score.value == 40  # so the hanging process is gone
            assert (await engine.info()).sure == 12 and await engine.ping() >= 0
        with pytest.raises(Closed):
            await engine.analyse(OPENING, 1)

    asyncio.run(asks())
    assert children() == {}


def command(module: str, *words: str, false: str, text: str = "", **env: str) -> subprocess.CompletedProcess[str]:
    """A command of the package, where no server is named."""
    env = {"PATH": "/usr/bin:/bin", "PYTHONPATH": os.pathsep.join(sys.path), "COLUWEN_OTHELLO": false, **env}
    return subprocess.run([sys.executable, "-m", module, *words], input=text, capture_output=True, text=True, timeout=SOON, check=False, env=env)


def test_commands_need_no_server(false: str, tmp_path: pathlib.Path) -> None:
    lines = command("coluwen.tools.lines", false=false, text=f"3 {OPENING.text}\n13 {OPENING.text}\n")
    assert (lines.returncode, lines.stdout) == (3, "DONE 30 d3\nERR 27 the depth is over 12\n")
    rows = tmp_path / "rows.csv"
    batch = command("coluwen.tools.batch", "--depth", "4", "--workers", "2", str(rows), false=false, text=f"{OPENING.text}\n{OPENING.play('d3').text}\n")
    assert batch.returncode == 0, batch.stderr
    assert [row.split(",")[1:4] for row in rows.read_text().splitlines()[1:]] == [["4", "40", "d3"]] * 2
    gtp = command("coluwen.tools.gtp", "--depth", "2", false=false, text="genmove b\nquit\n")
    assert gtp.stdout.startswith("= D3")
    review = command("coluwen.tools.review", "f5d6", "--depth", "2", false=false)
    assert review.returncode == 0, review.stderr


def test_commands_say_that_nothing_gives_values(tmp_path: pathlib.Path) -> None:
    told = command("coluwen.tools.lines", false=str(tmp_path / "none"))
    assert told.returncode == 1 and "no server is named" in told.stderr
    told = command("coluwen.tools.lines", "--server", "127.0.0.1:9", "--silence", "0.1", false=str(tmp_path / "none"))
    assert told.returncode == 1 and "127.0.0.1:9" in told.stderr
    told = command("coluwen.tools.lines", "--server", "127.0.0.1:9", "--fallback", "engine", false=str(tmp_path / "none"))
    assert told.returncode == 1 and "isn't the program" in told.stderr


def descendants(pid: int) -> list[int]:
    found = [int(word) for task in pathlib.Path(f"/proc/{pid}/task").glob("*/children") for word in task.read_text().split()]
    return found + [one for child in found for one in descendants(child)]


def test_threads_search_together_by_a_server_of_the_engine(false: str) -> None:
    """Each depth by a server whose grain suits it (the value that this one gives), what is too deep for any by one process; none is left."""
    with Engine(1, threads=3, program=false) as engine:
        assert not descendants(os.getpid()) and engine.info().sure == 12 and "threads=3" in repr(engine)
        assert [engine.analyse(OPENING, depth).score.value for depth in (4, 8, 10, 11)] == [4, 4, 6, 110]
        with pytest.raises(Late):
            engine.analyse(OPENING, 9, timeout=0.2)
        begun = descendants(os.getpid())
        assert len(begun) >= 6
        for pid in begun:  # each server is lost, and begun again
            with contextlib.suppress(ProcessLookupError):
                os.kill(pid, 9)
        assert until(lambda: children() == {} or all(state == "Z" for state in children().values()))
        assert engine.analyse(OPENING, 7).score.value == 4
    assert children() == {} and until(lambda: not descendants(os.getpid()))
    with pytest.raises(Closed):
        engine.analyse(OPENING, 1)
    for threads in (0, 33, 1.5, True):
        with pytest.raises(ValueError):
            Engine(threads=threads, program=false)  # type: ignore[arg-type]


def test_a_server_ends_with_a_program_that_is_killed(false: str) -> None:
    script = f"import os; from coluwen import Engine, Position; Engine(threads=2, program={false!r}).analyse(Position.opening(), 4); print(1, flush=True); os.kill(os.getpid(), 9)"
    around = {**os.environ, "PYTHONPATH": str(pathlib.Path(__file__).resolve().parents[1] / "src")}
    subprocess.run([sys.executable, "-c", script], env=around, capture_output=True, check=False, timeout=60)
    assert until(lambda: not [path for path in pathlib.Path("/proc").glob("[0-9]*/cmdline") if false.encode() in read_or_nothing(path)])


def read_or_nothing(path: pathlib.Path) -> bytes:
    try:
        return path.read_bytes()
    except OSError:
        return b""


class Four(Shallow):
    """Has depth 4 at most."""

    def submit(self, position: str | Position, depth: int, *, timeout: float | None = None) -> concurrent.futures.Future[Result]:
        future = concurrent.futures.Future[Result]()
        if depth > 4:
            future.set_exception(TooDeep(depth, 4))
        else:
            future.set_result(Result(OPENING, depth, Score(depth), "d3"))
        return future


class Slow(Four):
    """Takes a while, and notes how long it may."""

    def __init__(self) -> None:
        super().__init__()
        self.given: list[float | None] = []

    def submit(self, position: str | Position, depth: int, *, timeout: float | None = None) -> concurrent.futures.Future[Result]:
        self.given.append(timeout)
        time.sleep(0.1)
        return super().submit(position, depth)


def test_a_step_has_what_is_left_of_the_time() -> None:
    async def by_asyncio(slow: Slow) -> None:
        async with AsyncEngine(analyst=slow) as engine:
            assert [found.depth async for found in engine.deepen(OPENING, 4, timeout=60)] == [2, 4]

    slow, other, endless = Slow(), Slow(), Slow()
    assert len(list(slow.deepen(OPENING, 4, timeout=60))) == 2 and len(list(endless.deepen(OPENING, 4))) == 2 and endless.given == [None, None]
    asyncio.run(by_asyncio(other))
    for one in (slow, other):
        first, second = one.given
        assert first and second and 59 < first <= 60 and second <= first - 0.09


def test_values_as_they_deepen(false: str) -> None:
    """2, 4, 6 .. and the depth itself, no deeper than squares are empty; a time for all, whose fault has the deepest; also by asyncio."""
    late = OPENING.flip()
    near = Position("X" * 40 + "O" * 19 + "-" * 5)

    async def by_asyncio(position: Position, depth: int | None) -> list[int]:
        async with AsyncEngine(1, program=false) as other:
            return [found.depth async for found in other.deepen(position, depth)]

    with Engine(1, program=false) as engine:
        for position, depth, wanted in ((OPENING, 7, [2, 4, 6, 7]), (OPENING, None, [2, 4, 6, 8, 10, 12]), (near, None, [2, 4, 5]), (near, 4, [2, 4]), (OPENING, 1, [1]), (OPENING, 0, [0])):
            results = list(engine.deepen(position, depth))
            assert [result.depth for result in results] == wanted and [result.score.value for result in results] == [10 * one for one in wanted]
            assert asyncio.run(by_asyncio(position, depth)) == wanted
        given = []
        with pytest.raises(Late) as fault:
            for result in engine.deepen(late, 12, timeout=1.5):  # (its twelfth ply hangs)
                given.append(result)
        assert fault.value.deepest is given[-1] and given[-1].depth == 10 and fault.value.seconds == 1.5
        assert pickle.loads(pickle.dumps(fault.value)).deepest == given[-1]
        with pytest.raises(Late) as fault:
            engine.analyse(late, 12, timeout=0.1)
        assert fault.value.deepest is None
    assert [result.depth for result in Four().deepen(OPENING)] == [2, 4]
    with pytest.raises(TooDeep):
        list(Four().deepen(OPENING, 6))
