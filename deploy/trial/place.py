"""What the trials of a site share: the program at free ports, alone or behind HAProxy, and clients from many addresses of this host."""
from __future__ import annotations

import contextlib
import functools
import http.client
import os
import pathlib
import re
import signal
import socket
import ssl
import struct
import subprocess
import sys
import tempfile
import time
from collections.abc import Callable
from typing import Any, Union

TOP = pathlib.Path(__file__).resolve().parents[2]
sys.path.insert(0, str(TOP / "deploy"))
import stage  # noqa: E402
from coluwen import Refused  # noqa: E402
from stage import OPENING, address_of, certificates, ended_after, free_port, header_of, is_there, replaced  # noqa: E402, F401

Answer = Union["tuple[str, int, str]", "tuple[str]"]
TOKEN, DIGEST = "secret", "2bb80d537b1da3e38bd30361aa855686bde0eacd7162fef6a25fe97bf527a25b"  # its SHA-256
SCHOOL = f"""
[[customer]]
name = "school"
token_sha256 = ["{DIGEST}"]
certificate = ["site.example"]
address = ["127.6.0.0/16"]
sessions = 8
segments = 8192
nodes = 524288
rate = 100
burst = 1000
"""
# What is left for the guests beside the school.
LEFT = [("[guests.together]          # in each hall\nsessions = 64\nsegments = 65536\nnodes = 4194304", "[guests.together]\nsessions = 56\nsegments = 57344\nnodes = 3670016")]
DEPTH, SMALL, GREAT = 3, (64, 2048), (256, 20000)
# A job that lasts for seconds where these terms hold, and what it takes.
LONG, LONGEST = "12 ----------OX--O----O-OO-O-OXOOO--OXXOXOXO-OX-XO--OXXXXO--XO-X--O X", (1024, 65536)
SLOW = [("# workers = 4 ", "workers = 1 ")]
LINES = [f"{DEPTH} {position}" for position in stage.positions(50, 1)]


@functools.cache
def program(name: str, word: str) -> str:
    return os.environ.get(name) or subprocess.run([TOP / "othello", word], stdout=subprocess.PIPE, text=True, check=True).stdout.strip()


def solve(lines: list[str]) -> list[Answer]:
    """What `othello solve` answers, as a session gives it."""
    os.environ["OTHELLO"] = program("OTHELLO", "--ready")
    return list(stage.solve(lines))


def until(holds: Callable[[], object], seconds: float, what: str) -> None:
    end = time.monotonic() + seconds
    while not holds():
        assert time.monotonic() < end, f"{what}: not within {seconds} s"
        time.sleep(0.02)


def weight_of(unit: str) -> int:
    """What a delivered unit says."""
    found = re.search(r"^CPUWeight=(\d+)$", (TOP / "deploy" / unit).read_text(), re.M)
    assert found, unit
    return int(found[1])


class Group:
    """A control group as systemd makes one for each unit: processes in it have the processors by this weight against all others. None where this host's aren't ours to make."""

    def __init__(self, name: str, weight: int = 100):
        first = pathlib.Path("/sys/fs/cgroup")  # (the unified hierarchy, or the older one of this controller)
        told, tree = ("cpu.weight", first) if (first / "cgroup.controllers").exists() else ("cpu.shares", first / "cpu")
        self.folder: pathlib.Path | None = tree / f"othello-trial-{os.getpid()}-{name}"
        try:
            self.folder.mkdir()
            (self.folder / told).write_text(str(weight if told == "cpu.weight" else weight * 1024 // 100))
        except OSError:
            self.close()

    def add(self, pid: int) -> None:
        if self.folder:
            (self.folder / "cgroup.procs").write_text(str(pid))

    def close(self) -> None:
        """Once all its processes have ended."""
        if self.folder:
            with contextlib.suppress(OSError):
                self.folder.rmdir()
        self.folder = None


class From(stage.From):  # type: ignore[misc]
    """A session from another address of this host."""

    def reset(self) -> None:
        """Ends the connection by a reset, without a BYE."""
        self._socket.setsockopt(socket.SOL_SOCKET, socket.SO_LINGER, struct.pack("ii", 1, 0))
        self._socket.close()

    def is_answered(self, number: int, wanted: list[Answer]) -> bool:
        """Whether the session gives the right value of one of the trial's positions."""
        return bool(self.wait(self.ask_line(LINES[number % len(LINES)])) == wanted[number % len(LINES)])


class Site:
    """`othello_site` with deploy/site.toml at free ports. Sessions come to `port`: by HAProxy with TLS where `made` has its certificates, else as they are;
    `inner` is where a proxy hands connections on, and `clear` HAProxy's entrance without TLS. `terms` are changes of the file, `more` stands behind it. The variable `name` names the program.
    The words `before` start it. With `apart` site and HAProxy have all of this host's processors but the last, where others can be as if at a host of their own.
    `page`: the port of the page's server, to which HAProxy hands HTTP on that comes to `web`."""

    def __init__(self, made: dict[str, str] | None = None, terms: list[tuple[str, str]] | None = None, more: str = "", bare: bool = False, name: str = "SITE", apart: bool = False, before: tuple[str, ...] = (), page: int = 0):
        self.made, self.bare, self.name, self.page = made, bare, name, page
        self.on = ["taskset", "--cpu-list", ",".join(map(str, sorted(os.sched_getaffinity(0))[:-1]))] if apart and len(os.sched_getaffinity(0)) > 1 else []
        self.on += before
        self.folder = tempfile.TemporaryDirectory()
        root = pathlib.Path(self.folder.name)
        self.file, self.log, self.control = root / "site.toml", root / "log", f"{root}/control"
        self.inner, self.health, self.plain, self.outer, self.clear, self.metrics_port, self.web = (free_port() for _ in range(7))
        moved = [("127.0.0.1:4720", f"127.0.0.1:{self.inner}"), ("127.0.0.1:4719", f"127.0.0.1:{self.health}"), ("/run/othello-site/control", self.control)]
        moved += [('# plain = "127.0.0.1:4711"', f'plain = "127.0.0.1:{self.plain}"')]
        self.file.write_text(replaced((TOP / "deploy/site.toml").read_text(), [*moved, *(terms or [])]) + more)
        self.contexts: dict[str, ssl.SSLContext] = {}
        self.process: subprocess.Popen[Any] | None = None
        self.proxy: subprocess.Popen[Any] | None = None
        units = {"site": "othello-site@.service", "proxy": "haproxy.service.conf"} if made else {}
        self.groups = {each: Group(f"{each}-{self.inner}", weight_of(unit)) for each, unit in units.items()}

    @property
    def port(self) -> int:
        return self.outer if self.made else self.plain

    def __enter__(self) -> Site:
        self.start()
        if self.made:
            path = pathlib.Path(self.folder.name, "haproxy.cfg")
            (path.parent / "named.lst").write_text("127.6.0.0/16\n")
            (path.parent / "othello.pem").write_text(pathlib.Path(self.made["host"] + ".pem").read_text())
            (path.parent / "customers.pem").write_text(pathlib.Path(self.made["authority"]).read_text())
            more = f" ca-file {path.parent}/customers.pem verify optional"
            moved = [("bind :4700 ssl crt /etc/haproxy/othello.pem", f"bind 127.0.0.1:{self.outer} ssl crt {path.parent}/othello.pem{more}"),
                     ("bind [::]:4700 v6only ssl crt /etc/haproxy/othello.pem", f"bind [::1]:{self.outer} v6only ssl crt {path.parent}/othello.pem{more}"),
                     ("# For clients of this host without TLS: bind 127.0.0.1:4711", f"bind 127.0.0.1:{self.clear}"),
                     ("/etc/haproxy/named.lst", f"{path.parent}/named.lst"), ("127.0.0.1:8404", f"127.0.0.1:{self.metrics_port}"),
                     ("/run/haproxy/admin.sock", f"{path.parent}/admin"), ("127.0.0.1:4723", f"127.0.0.1:{free_port()}"),
                     ("127.0.0.1:4720 port 4719", f"127.0.0.1:{self.inner} port {self.health}"), ("127.0.0.1:4730 port 4729", f"127.0.0.1:{free_port()} port {free_port()}")]
            if os.geteuid() != 0:  # only root may take another user and another root
                moved += [(f"  {line}\n", "") for line in ("user haproxy", "group haproxy", "chroot /var/lib/haproxy")]
            path.write_text(replaced((TOP / "deploy/haproxy.cfg").read_text(), moved))
            if self.page:
                moved = [("bind :443", f"bind 127.0.0.1:{self.web}"), ("bind [::]:443", f"bind [::1]:{self.web}"), ("/etc/haproxy", str(path.parent)), ("127.0.0.1:8047", f"127.0.0.1:{self.page}")]
                path.with_name("web.cfg").write_text(replaced((TOP / "deploy/web.cfg").read_text(), moved))
            files = ["-f", str(path), *(["-f", str(path.with_name("web.cfg"))] if self.page else [])]
            with self.log.open("a") as log:
                self.proxy = subprocess.Popen([*self.on, "haproxy", "-db", *files], stdout=log, stderr=log)
                self.groups["proxy"].add(self.proxy.pid)
            until(lambda: is_there(self.outer), 10, "HAProxy listens")
            time.sleep(1)  # until it has looked whether the site serves
        return self

    def start(self) -> None:
        """Starts the program, at first or after its end."""
        with self.log.open("a") as log:
            self.process = subprocess.Popen([*self.on, program(self.name, "--ready-site"), *([] if self.bare else [self.file])], stdout=log, stderr=log)
            if self.groups:
                self.groups["site"].add(self.process.pid)
        until(lambda: self.process and self.process.poll() is not None or is_there(4711 if self.bare else self.plain) and os.path.exists(self.control), 60, "the site listens")
        assert self.process.poll() is None, self.log.read_text()

    def __exit__(self, *_: object) -> None:
        for process in (self.proxy, self.process):
            if process:
                process.terminate()
                try:
                    process.wait(10)
                except subprocess.TimeoutExpired:
                    process.kill()
                    process.wait()
        for group in self.groups.values():
            group.close()
        self.folder.cleanup()

    def context(self, certificate: str = "") -> ssl.SSLContext | None:
        """What a client needs for TLS, perhaps with a certificate: made once, as reading an authority takes some milliseconds."""
        if self.made and certificate not in self.contexts:
            context = ssl.create_default_context(cafile=self.made["authority"])
            if certificate:
                context.load_cert_chain(self.made[certificate], self.made[certificate] + ".key")
            self.contexts[certificate] = context
        return self.contexts.get(certificate)

    def opened(self, address: str, *reserve: int, certificate: str = "", **more: Any) -> From:
        """A session from an address."""
        context = self.context(certificate)
        return From(address, "localhost" if context else "127.0.0.1", self.port, *reserve, **({"tls": context} if context else {}), **more)

    def told(self, address: str, *reserve: int, **more: Any) -> tuple[From | None, int]:
        """A session, or none and the number of the refusal."""
        try:
            return self.opened(address, *reserve, **more), 0
        except Refused as refusal:
            return None, refusal.number

    def said(self, address: str, data: bytes, seconds: float = 20, ends: bool = True) -> bytes:
        """All that is answered to these bytes from an address, by the entrance of a proxy."""
        with socket.create_connection(("127.0.0.1", self.inner), seconds) as stream:
            stream.sendall(header_of(address) + data)
            if ends:
                stream.shutdown(socket.SHUT_WR)
            return b"".join(iter(lambda: stream.recv(65536), b""))

    def ask(self, line: str) -> list[str]:
        """What the operator is answered, without the empty line at its end."""
        with socket.socket(socket.AF_UNIX) as asked:
            asked.settimeout(20)
            asked.connect(self.control)
            asked.sendall(line.encode() + b"\n")
            found = b""
            while not (found == b"\n" or found.endswith(b"\n\n")) and (piece := asked.recv(65536)):
                found += piece
        return found.decode().strip("\n").splitlines()

    def get(self, path: str) -> tuple[int, str]:
        """The status and the text of a page of `health`."""
        asked = http.client.HTTPConnection("127.0.0.1", self.health, timeout=10)
        asked.request("GET", path)
        answer = asked.getresponse()
        return answer.status, answer.read().decode()

    def has(self) -> dict[str, tuple[int, ...]]:
        """What each customer with a session has: sessions, segments and nodes."""
        rows = [re.match(r'customer="([^"]*)" hall=\d+ sessions=(\d+) segments=(\d+) nodes=(\d+) ', line) for line in self.ask("STATS")]
        return {row[1]: tuple(map(int, row.groups()[1:])) for row in rows if row}

    def count(self, name: str) -> int:
        """What a line of the metrics says, named with its labels."""
        found = re.search(rf"^othello_site_{re.escape(name)} (\d+)$", self.get("/metrics")[1], re.M)
        assert found, name
        return int(found[1])

    def resident(self) -> float:
        """The memory that the program holds, in MB."""
        assert self.process
        return int(re.search(r"VmRSS:\s+(\d+)", pathlib.Path(f"/proc/{self.process.pid}/status").read_text())[1]) / 1024  # type: ignore[index]

    def kill(self) -> None:
        assert self.process
        self.process.send_signal(signal.SIGKILL)
        self.process.wait()
