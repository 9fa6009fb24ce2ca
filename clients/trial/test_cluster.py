"""`coluwen-batch --dask` by a scheduler and four workers on this computer (Debian's python3-distributed), of which one is killed while rows are written: every row is
there, in order, with the values of this computer's own engine; and the same run taken up once it was ended."""
from __future__ import annotations

import contextlib
import csv
import os
import pathlib
import shutil
import signal
import socket
import subprocess
import sys
from collections.abc import Callable, Iterator

import pytest
from conftest import TOP, positions, program, until
from coluwen import Engine, Result

Begin = Callable[..., "subprocess.Popen[bytes]"]
COUNT = 400


@pytest.fixture
def begin(tmp_path: pathlib.Path) -> Iterator[Begin]:
    """Begins processes that end with the test."""
    begun, env = [], {**os.environ, "PYTHONPATH": str(TOP / "clients/python/src"), "COLUWEN_OTHELLO": program()}

    def one(*words: object) -> subprocess.Popen[bytes]:
        begun.append(subprocess.Popen([str(word) for word in words], cwd=tmp_path, env=env, start_new_session=True, stdout=subprocess.DEVNULL, stderr=subprocess.DEVNULL))
        return begun[-1]

    yield one
    for process in begun:
        with contextlib.suppress(ProcessLookupError):
            os.killpg(process.pid, signal.SIGKILL)
        process.wait()


@pytest.mark.skipif(not (shutil.which("dask-scheduler") and shutil.which("dask-worker")), reason="dask isn't here (Debian's python3-distributed)")
def test_a_worker_is_killed_and_a_run_taken_up(begin: Begin, tmp_path: pathlib.Path, request: pytest.FixtureRequest) -> None:
    depth = request.config.getoption("--deepest")
    wanted = positions(COUNT, 4, 14, 44)
    with Engine(program=program()) as engine:
        expected = [[place.text, str(depth), str(found.score.value), found.best or "-"] for place, found in engine.analyse_many(wanted, depth) if isinstance(found, Result)]
    with socket.create_server(("127.0.0.1", 0)) as free:
        address = f"tcp://127.0.0.1:{free.getsockname()[1]}"
    begin("dask-scheduler", "--host", "127.0.0.1", "--port", address.rpartition(":")[2], "--no-dashboard")
    workers = [begin("dask-worker", address, "--nthreads", 1, "--no-dashboard", "--no-nanny", "--local-directory", tmp_path / str(number)) for number in range(4)]
    (tmp_path / "positions").write_text("".join(f"{place.text}\n" for place in wanted))
    batch = [sys.executable, "-m", "coluwen.tools.batch", "--depth", depth, "--dask", address, "rows.csv", "positions"]

    def rows() -> list[list[str]]:
        path = tmp_path / "rows.csv"
        return list(csv.reader(path.open(newline="")))[1:] if path.exists() else []

    one = begin(*batch)
    until(lambda: len(rows()) > COUNT // 10, 120, "the first rows")
    os.killpg(workers[0].pid, signal.SIGKILL)
    until(lambda: len(rows()) > COUNT // 2, 240, "rows behind a lost worker")
    one.send_signal(signal.SIGINT)
    assert one.wait(60) in (130, 0)
    again = begin(*batch)
    assert again.wait(240) == 0
    assert [row[:4] for row in rows()] == expected
