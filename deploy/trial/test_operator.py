"""What an operator sees, ends and replaces."""
from __future__ import annotations

import collections
import contextlib
import hashlib
import os
import pathlib
import re
import socket
import stat
import subprocess
import threading
import time

import pytest
from place import LEFT, LONG, LONGEST, SCHOOL, SLOW, SMALL, TOKEN, TOP, Answer, From, Site, address_of, free_port, is_there, program, until


def test_stats_and_ends(wanted: list[Answer]) -> None:
    with Site(terms=LEFT, more=SCHOOL) as site, contextlib.ExitStack() as open_ones:
        assert stat.S_IMODE(os.stat(site.control).st_mode) == 0o660
        sessions = [site.opened(address_of(number), *SMALL) for number in range(4)] + [site.opened("127.6.0.1", *SMALL) for _ in range(3)]
        for session in sessions:
            open_ones.callback(session.socket.close)
        rows = [line for line in site.ask("STATS") if line.startswith("session=")]
        assert len(rows) == 7 and sum(" address=127.1.0." in row for row in rows) == 4 and sum(' customer="school" ' in row for row in rows) == 3, rows
        assert site.ask("END CUSTOMER school") == ["OK 3"] and site.ask(f"END ADDRESS {address_of(2)}") == ["OK 1"]
        until(lambda: sum(has[0] for has in site.has().values()) == 3, 5, "they have ended")
        for at, session in enumerate(sessions):
            if at in (0, 1, 3):
                assert session.is_answered(at, wanted)
            else:
                with pytest.raises(OSError):
                    session.quota()
        assert site.ask("END CUSTOMER nobody") != ["OK 1"] and site.ask("SOMETHING")[0].startswith("ERR")
        rows = [line for line in site.ask("STATS") if f" address={address_of(1)} " in line]
        number = rows[0].split()[0].removeprefix("session=")
        for line in (f"END SESSION 0 {number}", f"END SESSION 2 {number}", "END SESSION 1 999", f"END SESSION {number}", f"END SESSION 1 {number} 1"):
            assert site.ask(line) != ["OK 1"] and sessions[1].is_answered(1, wanted), line
        assert site.ask(f"END SESSION 1 {number}") == ["OK 1"]
        until(lambda: sum(has[0] for has in site.has().values()) == 2, 5, "it has ended")
        with pytest.raises(OSError):
            sessions[1].quota()


def test_an_end_wakes_a_wait() -> None:
    with Site(terms=SLOW) as site, site.opened(address_of(1), *LONGEST) as session:
        session.socket.sendall(f"ASK {LONG}\nWAIT 1\n".encode())
        time.sleep(0.5)
        begun = time.monotonic()
        site.ask(f"END ADDRESS {address_of(1)}")
        until(lambda: not site.has(), 3, "it has ended")
        assert time.monotonic() - begun < 2


def test_reload(wanted: list[Answer]) -> None:
    with Site(terms=LEFT, more=SCHOOL) as site, contextlib.ExitStack() as open_ones:
        sessions = [open_ones.enter_context(site.opened("127.6.0.1", *SMALL)) for _ in range(6)]
        right = site.file.read_text()
        for old, new in (("sessions = 56", "sessions = 57"), ("rate = 10\n", "rate = -1\n"), ('name = "school"\n', 'name = "school"\nmore = 1\n'), ("[guests.together]", "[guests.all]")):
            assert old in right
            site.file.write_text(right.replace(old, new, 1))
            assert site.ask("RELOAD")[0].startswith("ERR "), new
        site.file.write_text(right.replace("sessions = 8\nsegments = 8192", "sessions = 4\nsegments = 8192"))
        refused = " ".join(site.ask("RELOAD"))
        assert refused.startswith("ERR ") and "school" in refused, refused
        assert all(session.is_answered(at, wanted) for at, session in enumerate(sessions)), "a session was lost by a reload that was refused"
        assert site.ask("RELOAD END")[0].startswith("OK")
        until(lambda: site.has()["school"][0] == 4, 5, "the latest two have ended")
        assert all(session.is_answered(at, wanted) for at, session in enumerate(sessions[:4]))
        assert site.told("127.6.0.1", *SMALL)[1] == 14
        site.file.write_text(right)
        assert site.ask("RELOAD")[0].startswith("OK") and site.told(address_of(7), *SMALL, token=TOKEN)[1] == 0


def thread_count(site: Site) -> int:
    assert site.process
    return len(os.listdir(f"/proc/{site.process.pid}/task"))


def test_drain(wanted: list[Answer]) -> None:
    with Site() as site, site.opened(address_of(1), *SMALL) as session:
        assert site.get("/health")[0] == 200
        assert site.ask("DRAIN 4")[0].startswith("OK") and site.get("/health")[0] == 503
        assert session.is_answered(1, wanted), "who is there goes on"
        with pytest.raises(OSError):
            site.opened(address_of(2), *SMALL)
        assert site.process and site.process.wait(8) == 0


def test_health_metrics_and_the_operator_are_answered_beside_idle_connections(wanted: list[Answer]) -> None:
    with Site() as site, contextlib.ExitStack() as open_ones:
        for _ in range(300):
            open_ones.enter_context(socket.create_connection(("127.0.0.1", site.health), 5))
        assert site.get("/health") == (200, "ok\n")
        for _ in range(300):
            open_ones.enter_context(socket.socket(socket.AF_UNIX)).connect(site.control)
        assert site.ask("STATS")[0].startswith("connections=") and thread_count(site) < 560
        with site.opened(address_of(1), *SMALL) as session:
            assert session.is_answered(1, wanted) and site.told(address_of(1), 4096, 65536)[1] == 14
        assert site.get("/health") == (200, "ok\n")
        status, text = site.get("/metrics")
        assert status == 200 and len(text) < 20000 and "sessions" in text
        assert site.get("/other")[0] == 404


def test_killed_and_there_again(wanted: list[Answer]) -> None:
    with Site() as site:
        sessions = [site.opened(address_of(number), *SMALL) for number in range(8)]
        site.kill()
        begun = time.monotonic()
        site.start()
        with site.opened(address_of(1), *SMALL) as session:
            assert session.is_answered(1, wanted) and time.monotonic() - begun < 2
        for session in sessions:
            session.socket.close()


@pytest.mark.parametrize("name", ["listen", "plain", "health"])
def test_an_address_that_is_taken_is_told_by_its_name(name: str) -> None:
    site = Site()
    port = {"listen": site.inner, "plain": site.plain, "health": site.health}[name]
    with site.folder, socket.create_server(("127.0.0.1", port)):
        taken = subprocess.run([program("SITE", "--ready-site"), site.file], capture_output=True, text=True, timeout=20)
    assert taken.returncode == 1 and f'{name} = "127.0.0.1:{port}": ' in taken.stderr, taken


def test_faults_are_told() -> None:
    with Site() as site:
        command = program("SITE", "--ready-site")
        told = subprocess.run([command, "--check", site.file], capture_output=True, text=True)
        assert told.returncode == 0 and "64 sessions" in told.stdout, told
        taken = subprocess.run([command, site.file], capture_output=True, text=True, timeout=20)
        assert taken.returncode == 1 and str(site.inner) in taken.stderr + taken.stdout, taken
        site.file.write_text(site.file.read_text().replace(site.control, "/nothing/control"))
        for port in (site.inner, site.plain, site.health):
            site.file.write_text(site.file.read_text().replace(f":{port}\"", f":{free_port()}\""))
        taken = subprocess.run([command, site.file], capture_output=True, text=True, timeout=20)
        assert taken.returncode == 1 and "othello_site: control: " in taken.stderr, taken
        site.file.write_text(site.file.read_text().replace("rate = 10\n", "rate = 0\n"))
        for words in ([site.file], ["--check", site.file], ["/nothing"], ["--what"]):
            refused = subprocess.run([command, *words], capture_output=True, text=True, timeout=20)
            assert refused.returncode == 2 and refused.stderr, words


def test_without_a_file(wanted: list[Answer]) -> None:
    if is_there(4711):
        pytest.skip("port 4711 is taken")
    process = subprocess.Popen([program("SITE", "--ready-site")], stdout=subprocess.DEVNULL, stderr=subprocess.DEVNULL)
    try:
        until(lambda: is_there(4711), 60, "it listens")
        with contextlib.ExitStack() as open_ones:
            sessions = [open_ones.enter_context(From("127.0.0.1", "127.0.0.1", 4711, 1024, 65536)) for _ in range(64)]
            assert all(session.is_answered(at, wanted) for at, session in enumerate(sessions)), "everybody may take what is free"
    finally:
        process.terminate()
        process.wait(20)


def test_the_log_says_what_ended_each_session() -> None:
    terms = [*LEFT, ("guest = 60", "guest = 1"), ("sessions = 56", "sessions = 6"), *SLOW]
    with Site(terms=terms, more=SCHOOL) as site, contextlib.ExitStack() as open_ones:

        def opened(address: str, reserve: tuple[int, int] = SMALL) -> From:
            session = site.opened(address, *reserve)
            open_ones.callback(session.socket.close)
            return session

        opened(address_of(1)).close()
        opened(address_of(2)).socket.close()
        waits = opened(address_of(3), LONGEST)
        waits.socket.sendall(f"ASK {LONG}\nWAIT 1\n".encode())
        until(lambda: any(" waits=1 " in line for line in site.ask("STATS")), 5, "it waits")
        waits.reset()
        told = [opened(address_of(4), LONGEST) for _ in range(2)]
        told[1].socket.sendall(f"ASK {LONG}\nWAIT 1\n".encode())
        assert site.ask(f"END ADDRESS {address_of(4)}") == ["OK 2"]
        until(lambda: not site.has(), 5, "they have ended")
        idle = [opened(address_of(number)) for number in range(5, 11)]
        time.sleep(1.5)
        opened(address_of(11)).close()
        opened("127.6.0.1")
        opened("127.6.0.1")
        site.file.write_text(site.file.read_text().replace("sessions = 8\nsegments = 8192", "sessions = 1\nsegments = 8192"))
        assert site.ask("RELOAD END") == ["OK"]
        del idle
        wanted = {"bye": 2, "input": 1, "gone": 1, "operator": 2, "another": 1, "reload": 1}
        until(lambda: ends(site) == wanted, 5, f"{wanted}")


def ends(site: Site) -> dict[str, int]:
    """How many sessions ended by which word of the log."""
    return dict(collections.Counter(re.findall(r"^event=session .* end=(\w+)$", site.log.read_text(), re.M)))


def test_a_log_line_can_not_be_forged() -> None:
    with Site() as site:
        site.said(address_of(1), b"HELLO 1 1 x\x1b[31m\revent=session\n")
        site.said(address_of(1), b"HELLO 1 1\nBYE\n")
        until(lambda: "address=127.1.0.2" in site.log.read_text(), 5, "the session is logged")
        assert site.ask('END \x1b[31m\revent=session "\\\x7f\xe9 \tx')[0].startswith("ERR")
        until(lambda: "event=command" in site.log.read_text(), 5, "the command is logged")
        text = site.log.read_bytes()
        assert b"\x1b" not in text and b"\r" not in text
        assert b'event=command line="END ?[31m?event=session ????? ?x"\n' in text, text


def with_customer(text: str, name: str) -> str:
    """A site's file with one customer more, whose token is its name."""
    digest = hashlib.sha256(name.encode()).hexdigest()
    return text + f'\n[[customer]]\nname = "{name}"\ntoken_sha256 = ["{digest}"]\nsessions = 1\nsegments = 64\nnodes = 2048\n'


def test_two_reloads_at_once_keep_customers_apart() -> None:
    """Two files, each with a customer more, are read at the same time: the first while it waits for who has to end for it."""
    less = ("sessions = 56\nsegments = 57344\nnodes = 3670016", "sessions = 54\nsegments = 57216\nnodes = 3665920")
    with Site(terms=LEFT, more=SCHOOL) as site:
        for turn in range(3):
            text = site.file.read_text().replace(*less)
            names = [f"{letter}{turn}" for letter in "ab"]
            first, second = (with_customer(text, name) for name in names)
            guests = [site.opened("127.6.0.1", *SMALL) for _ in range(8)]  # (the school has eight, and one in the first file)
            site.file.write_text(first.replace("sessions = 8\nsegments = 8192", "sessions = 1\nsegments = 8192"))
            told = list[list[str]]()
            thread = threading.Thread(target=lambda: told.append(site.ask("RELOAD END")))
            thread.start()
            time.sleep(0.03)
            site.file.write_text(second)
            told.append(site.ask("RELOAD"))
            session, number = site.told(address_of(5), *SMALL, token=names[1])
            thread.join()
            assert told == [["OK"], ["OK"]], told
            site.file.write_text(with_customer(second, names[0]))
            assert site.ask("RELOAD") == ["OK"]
            session = session or site.opened(address_of(5), *SMALL, token=names[1])
            with session, site.opened(address_of(6), *SMALL, token=names[0]):
                assert {name: site.has()[name][0] for name in names} == {names[0]: 1, names[1]: 1}, number
                assert site.ask(f"END CUSTOMER {names[0]}") == ["OK 1"]
                session.quota()
            for guest in guests:
                guest.socket.close()
            site.file.write_text(text)
            until(lambda: site.ask("RELOAD") == ["OK"], 5, "all have left")


class Colour(threading.Thread):
    """A socket that stands for a colour's: it notes the lines, and says OK to each."""

    def __init__(self, folder: pathlib.Path, colour: str):
        super().__init__(daemon=True)
        self.lines = list[str]()
        place = folder / f"othello-site-{colour}"
        place.mkdir()
        self.listener = socket.socket(socket.AF_UNIX)
        self.listener.bind(str(place / "control"))
        self.listener.listen()
        self.start()

    def run(self) -> None:
        with contextlib.suppress(OSError):
            while True:
                with self.listener.accept()[0] as asked:
                    self.lines.append(asked.recv(100).decode().strip())
                    asked.sendall(b"OK\n")

    def heard(self) -> list[str]:
        found, self.lines = self.lines, []
        return found


def test_the_operator_speaks_to_those_that_run_and_writes_their_files_first(tmp_path: pathlib.Path) -> None:
    for name in ("operator", "colour"):
        text = (TOP / "deploy" / name).read_text().replace("/run/", f"{tmp_path}/").replace("/etc/othello", str(tmp_path))
        (tmp_path / name).write_text(text)
        (tmp_path / name).chmod(0o755)

    def said(*words: str) -> tuple[int, str]:
        run = subprocess.run([tmp_path / "operator", *words], capture_output=True, text=True, timeout=30)
        return run.returncode, run.stdout

    file, delivered = tmp_path / "site.toml", (TOP / "deploy/site.toml").read_text()
    file.write_text(delivered)
    assert said("STATS")[0] == 1, "nobody runs"
    blue = Colour(tmp_path, "blue")
    assert said("STATS") == (0, "OK\n") and blue.heard() == ["STATS"]
    file.write_text(delivered.replace("rate = 10\n", "rate = 11\n"))
    assert said("RELOAD") == (0, "OK\n") and blue.heard() == ["RELOAD"]
    assert "rate = 11\n" in (tmp_path / "othello-site-blue/site.toml").read_text(), "the file that is read is that of /etc"
    file.write_text(delivered.replace("# plain =", "plain ="))
    status, told = said("RELOAD", "END")
    assert status == 1 and told.startswith("ERR ") and blue.heard() == [], told
    file.write_text(delivered)
    green = Colour(tmp_path, "green")
    assert said("END", "CUSTOMER", "school") == (0, "blue:\nOK\ngreen:\nOK\n")
    assert blue.heard() == green.heard() == ["END CUSTOMER school"]
    assert said("DRAIN", "600")[0] == 2 and "DRAIN 600" not in blue.heard() + green.heard()
    assert said("green", "DRAIN", "600") == (0, "OK\n") and (blue.heard(), green.heard()) == ([], ["DRAIN 600"])


def test_an_address_ends_with_all_its_sessions() -> None:
    """A named customer's too, and those of its guest that come by another token's name."""
    with Site(terms=LEFT, more=SCHOOL) as site, contextlib.ExitStack() as open_ones:
        sessions = [site.opened(address_of(3), *SMALL), site.opened(address_of(3), *SMALL, token=TOKEN), site.opened(address_of(4), *SMALL, token=TOKEN)]
        for session in sessions:
            open_ones.callback(session.socket.close)
        shown = sum(f" address={address_of(3)} " in line for line in site.ask("STATS"))
        assert shown == 2 and site.ask(f"END ADDRESS {address_of(3)}") == [f"OK {shown}"]
        until(lambda: sum(has[0] for has in site.has().values()) == 1, 5, "they have ended")
        assert sessions[2].quota()[0] == SMALL[0] and site.ask("END ADDRESS nobody")[0].startswith("ERR ")


def test_a_drain_closes_who_says_hello() -> None:
    """It isn't told that its own budget is used up."""
    with Site() as site, site.opened(address_of(1), *SMALL), socket.create_connection(("127.0.0.1", site.plain), 5) as early:
        early.sendall(b"QUOTA\n")
        assert early.recv(100) == b"ERR 28\n"
        assert site.ask("DRAIN 4") == ["OK"]
        early.sendall(b"HELLO 1 1\n")
        assert early.recv(100) == b""
