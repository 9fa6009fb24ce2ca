"""What `test_units.py` tries in its container, one after another: a site is started, its file is read again, its program is replaced and killed, and it stops."""
from __future__ import annotations

import contextlib
import json
import os
import pathlib
import signal
import ssl
import subprocess
import threading
import time
from collections.abc import Iterator

import pytest
from place import SMALL, Answer, From, address_of, until
from coluwen import Refused

FILE, SCRIPTS = pathlib.Path("/etc/othello/site.toml"), pathlib.Path("/opt/othello")
WANTED: list[Answer] = [tuple(each) for each in json.loads(pathlib.Path("/wanted").read_text())]
BACK = 2.0  # seconds from a kill until who comes is welcomed


def control(*words: str) -> subprocess.CompletedProcess[str]:
    return subprocess.run(["systemctl", *words], capture_output=True, text=True)


def shown(colour: str, name: str) -> str:
    return control("show", "-P", name, f"othello-site@{colour}").stdout.strip()


def is_active(colour: str) -> bool:
    return shown(colour, "ActiveState") == "active"


def opened(number: int) -> From:
    """A session of a guest, through HAProxy with TLS."""
    return From(address_of(number), "localhost", 4700, *SMALL, tls=ssl.create_default_context(cafile="/authority"))


def opened_within(number: int, seconds: float) -> From:
    end = time.monotonic() + seconds
    while True:
        try:
            return opened(number)
        except (OSError, Refused):
            assert time.monotonic() < end, f"no session within {seconds} s; {control('status', '--no-pager', 'othello-site@blue', 'othello-site@green', 'haproxy').stdout}"
            time.sleep(0.02)


@pytest.fixture(scope="module", autouse=True)
def site() -> Iterator[None]:
    begun = control("start", "othello-site@blue", "haproxy")
    assert begun.returncode == 0 and is_active("blue"), control("status", "--no-pager", "othello-site@blue", "haproxy").stdout
    opened_within(0, 30).close()
    yield


def test_it_is_its_own_user() -> None:
    process = pathlib.Path(f"/proc/{shown('blue', 'MainPID')}")
    assert process.owner() == "othello" and FILE.stat().st_mode & 0o777 == 0o640
    assert os.stat("/run/othello-site-blue/control").st_mode & 0o777 == 0o660


def test_handshakes_go_before_searches() -> None:
    assert control("show", "-P", "CPUWeight", "haproxy").stdout == "1000\n"


def test_a_reload_loses_no_session() -> None:
    right = FILE.read_text()
    with opened(1) as session:
        FILE.write_text(right.replace("rate = 10\n", "rate = -1\n"))
        assert control("reload", "othello-site@blue").returncode != 0 and session.is_answered(1, WANTED), "a file with a fault"
        FILE.write_text(right.replace("sessions = 4\nsegments = 4096", "sessions = 1\nsegments = 4096"))
        assert control("reload", "othello-site@blue").returncode == 0 and session.is_answered(2, WANTED)
        with pytest.raises(Refused):
            opened(1)
    FILE.write_text(right)
    assert control("reload", "othello-site@blue").returncode == 0
    with opened(1) as session, opened(1):
        assert session.is_answered(3, WANTED)


class Coming:
    """Guests who come, ask and leave, one after another, until it is told to end."""

    def __init__(self) -> None:
        self.stop, self.faults, self.count = threading.Event(), list[str](), 0
        self.thread = threading.Thread(target=self.come, daemon=True)

    def come(self) -> None:
        while not self.stop.wait(0.05):
            try:
                with opened(100 + self.count % 100) as session:
                    if not session.is_answered(self.count, WANTED):
                        self.faults.append("a wrong value")
            except (OSError, Refused) as reason:
                self.faults.append(f"guest {self.count}: {reason!r}")
            self.count += 1

    def __enter__(self) -> Coming:
        self.thread.start()
        return self

    def __exit__(self, *_: object) -> None:
        self.stop.set()
        self.thread.join(60)


@pytest.mark.parametrize("old, new", [("blue", "green"), ("green", "blue")])
def test_an_upgrade_loses_no_session(old: str, new: str) -> None:
    with contextlib.ExitStack() as open_ones, Coming() as coming:
        sessions = [open_ones.enter_context(opened(number)) for number in range(10)]
        upgrading = subprocess.Popen([SCRIPTS / "upgrade", "120"])
        until(lambda: is_active(new) and "503" in health(old), 60, "the old one drains")
        time.sleep(2)
        assert all(session.is_answered(at, WANTED) for at, session in enumerate(sessions)), "a session of the old one"
        assert upgrading.poll() is None and is_active(old), "it doesn't wait for the sessions of the old one"
        open_ones.close()
        assert upgrading.wait(60) == 0
        until(lambda: not is_active(old), 10, "the old one ends")
        coming.stop.set()
        coming.thread.join(60)
        assert not coming.faults and coming.count > 5, (coming.count, coming.faults[:3])
    assert shown(old, "Result") == "success" and control("is-enabled", f"othello-site@{new}").stdout.strip() == "enabled"


def health(colour: str) -> str:
    """The first line that a program says of its health."""
    import http.client

    asked = http.client.HTTPConnection("127.0.0.1", {"blue": 4719, "green": 4729}[colour], timeout=10)
    try:
        asked.request("GET", "/health")
        return str(asked.getresponse().status)
    except OSError:
        return ""


def killed(old: int = 0) -> int:
    """Kills the program as soon as it is another one than this, and returns which one it was."""
    until(lambda: int(shown("blue", "MainPID")) not in (0, old), 10, "it is started again")
    number = int(shown("blue", "MainPID"))
    os.kill(number, signal.SIGKILL)
    return number


@pytest.mark.parametrize("moment", ["a job runs", "it is idle", "it starts", "it reads its file again", "guests come"])
def test_killed_and_back(moment: str) -> None:
    found = list[float]()
    for turn in range(3):
        with contextlib.ExitStack() as meanwhile:
            lost = opened_within(200 + turn, 10)
            meanwhile.callback(lost.socket.close)
            if moment == "a job runs":
                lost.ask_line(f"12 {'-' * 27}OX------XO{'-' * 27} X")
            if moment == "it reads its file again":
                meanwhile.callback(subprocess.Popen(["systemctl", "reload", "othello-site@blue"], stderr=subprocess.DEVNULL).wait)
                time.sleep(0.1 * turn)
            if moment == "guests come":
                meanwhile.enter_context(Coming())
                time.sleep(0.3)
            number = killed()
            if moment == "it starts":
                number = killed(number)
            begun = time.monotonic()
            with pytest.raises(OSError):
                lost.quota()
            with opened_within(210 + turn, 20) as session:
                found.append(time.monotonic() - begun)
                assert session.is_answered(turn, WANTED) and int(shown("blue", "MainPID")) not in (0, number)
    assert min(found) < BACK and max(found) < 2 * BACK, found  # (on a busy machine one may take longer)


def test_a_port_of_one_program_is_refused_while_an_upgrade_could_still_fail() -> None:
    right = FILE.read_text()
    FILE.write_text('plain = "127.0.0.1:4711"\n' + right)
    with opened(1) as session:
        assert control("reload", "othello-site@blue").returncode != 0 and session.is_answered(1, WANTED)
        upgrading = subprocess.run([SCRIPTS / "upgrade", "5"], capture_output=True, text=True, timeout=60)
        assert upgrading.returncode == 1 and "othello-site@green doesn't serve" in upgrading.stderr, upgrading
        assert is_active("blue") and session.is_answered(2, WANTED) and shown("green", "ActiveState") in ("inactive", "failed")
    assert "`plain` is one program's" in subprocess.run(["journalctl", "-u", "othello-site@*"], capture_output=True, text=True).stdout
    FILE.write_text(right)
    time.sleep(2)
    assert shown("green", "ActiveState") in ("inactive", "failed"), "the other colour comes up later by itself"
    control("reset-failed", "othello-site@green")


def test_stop_waits_for_who_is_there() -> None:
    with opened(1) as session:
        stopping = subprocess.Popen(["systemctl", "stop", "othello-site@blue"])
        time.sleep(3)
        assert stopping.poll() is None and session.is_answered(1, WANTED), "a session was lost by a stop"
    assert stopping.wait(20) == 0 and shown("blue", "Result") == "success"


def test_a_file_that_is_refused_is_not_tried_again() -> None:
    FILE.write_text(FILE.read_text().replace("rate = 10\n", "rate = -1\n"))
    control("start", "othello-site@green")
    until(lambda: shown("green", "ActiveState") == "failed", 20, "it ends")
    time.sleep(2)
    assert (shown("green", "ExecMainStatus"), shown("green", "NRestarts")) == ("2", "0")
