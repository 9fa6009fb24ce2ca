"""What the trials of this folder, of clients/, bench/, tools/ and release/ share: servers on loopback, their clients, and a container.

The program is the one that the variable OTHELLO names, and else the one that `./othello` at the top of the repository
has built: it is started itself, since the time that `./othello` takes to look at the sources would be added to each start.
"""
import contextlib
import functools
import os
import pathlib
import random
import socket
import struct
import subprocess
import sys
import time

HERE = pathlib.Path(__file__).resolve().parent
TOP = HERE.parent
sys.path.insert(0, str(TOP / "clients" / "python" / "src"))
import coluwen  # noqa: E402
from coluwen import START, Refused  # noqa: E402, F401
from coluwen.board import BIT, OTHER, cells_of, changes, discs_of  # noqa: E402
from coluwen.board import can_move as discs_can_move  # noqa: E402

OPENING = START + " X"
kept = []  # a lock for each port that this trial was given


class Session(coluwen.Session):
    """A session whose `wait` gives what `solve` below gives: ("DONE", value, move), ("SPENT",) or ("CANCELLED",)."""

    @property
    def socket(self):
        return self._socket

    def wait(self, job):
        return words_of(super().wait(job))

    def quota(self):
        left = super().quota()
        return left.segments, left.nodes, left.steps


def words_of(state):
    return ("DONE", state.value, state.move) if isinstance(state, coluwen.Done) else (type(state).__name__.upper(),)


def flips(cells, side, square):
    """The squares (0 to 63) whose discs a move flips."""
    changed = changes(discs_of(cells), side, square)
    return [at for at in range(64) if changed >> at & 1]


def can_move(cells, side):
    return discs_can_move(discs_of(cells), side)


def played(cells, side, square):
    """The cells after a move."""
    discs = discs_of(cells)
    return cells_of(discs ^ changes(discs, side, square) | BIT[side][square])


def fail(text):
    sys.exit(f"{pathlib.Path(sys.argv[0]).name}: {text}")


@functools.cache
def program():
    """The program. Where `./othello` is to build it and hasn't yet, it is proved and built now: by the first who asks, and not by an import."""
    return os.environ.get("OTHELLO") or subprocess.run([TOP / "othello", "--build"], stdout=subprocess.PIPE, text=True, check=True).stdout.strip()


def __getattr__(name):
    """`PROGRAM` for those who import this file, as a name of it: it is looked for when it is used."""
    if name == "PROGRAM":
        return program()
    raise AttributeError(f"module {__name__!r} has no attribute {name!r}")


def check(told, text):
    if not told:
        fail(text)


def free_port():
    """A port that nobody listens at, below those that the system gives to connections. No other is given it until this trial's end:
    two that find it free at once would both take it."""
    for port in random.sample(range(20000, 32000), 100):
        lock = socket.socket(socket.AF_UNIX)
        try:
            lock.bind(f"\0othello {port}")
        except OSError:
            lock.close()
            continue
        kept.append(lock)
        if not is_there(port):
            return port
    return fail("no port is free")


def until(what, told, seconds=180):
    """Waits until something is so."""
    end = time.monotonic() + seconds
    while not told():
        if time.monotonic() > end:
            fail(f"{what}: not after {seconds} seconds")
        time.sleep(0.02)


def solve(lines, *words):
    """Of each line `depth position` what `othello solve` answers, as a client gives it."""
    run = subprocess.run([program(), "solve", *words], input="".join(f"{line}\n" for line in lines), capture_output=True, text=True, check=True)
    parted = [line.split() for line in run.stdout.splitlines()]
    return [("ERR", int(second)) if first == "ERR" else ("DONE", int(first), second) for first, second, *_ in parted]


def positions(count, seed, least=8, most=50):
    """Positions of random games, so many plies after the opening, with the side to move, from a seed."""
    chance, found = random.Random(seed), []
    while len(found) < count:
        cells, side = START, "X"
        for _ in range(chance.randint(least, most)):
            if not can_move(cells, side):
                side = OTHER[side]
            squares = [at for at in range(64) if cells[at] == "-" and flips(cells, side, at)]
            if not squares:
                break
            cells, side = played(cells, side, chance.choice(squares)), OTHER[side]
        found.append(f"{cells} {side}")
    return found


class From(Session):
    """A session from another address of this host, as another customer's."""

    def __init__(self, address, *words, **more):
        self.address = address
        super().__init__(*words, **more)

    def _connect(self, host, port, timeout):
        return socket.create_connection((host, port), timeout, (self.address, 0))


def opened(address, port, reserve, again):
    """A session. Where no WELCOME comes it is opened once more, as a client must, for 20 seconds: on a busy machine the next
    server of a port may take a while to come. How often is added up in a list."""
    end = time.monotonic() + 20
    while time.monotonic() < end:
        try:
            return From(address, "127.0.0.1", port, *reserve)
        except OSError:
            again.append(address)
            time.sleep(0.2)
    return fail(f"no session for {address}")


@contextlib.contextmanager
def ended_after(process):
    """A process that is ended with the block."""
    try:
        yield process
    finally:
        if process.poll() is None:
            process.terminate()
            try:
                process.wait(20)
            except subprocess.TimeoutExpired:
                process.kill()
        process.wait()


@contextlib.contextmanager
def server(*words):
    """A server; gives its process and the port that it says it listens at."""
    process = subprocess.Popen([program(), "serve", *words], stdout=subprocess.PIPE, text=True)
    with ended_after(process), process.stdout:
        said = process.stdout.readline()
        if not said.startswith("listening "):
            fail("the server doesn't listen")
        yield process, int(said.rsplit(":", 1)[1])


def replaced(text, changes):
    """A text with these parts changed; each must be there."""
    for old, new in changes:
        if old not in text:
            fail(f"nothing to change: {old!r}")
        text = text.replace(old, new)
    return text


def is_there(port):
    """Whether somebody listens at a port."""
    with socket.socket() as probe:
        return probe.connect_ex(("127.0.0.1", port)) == 0


@contextlib.contextmanager
def kept_groups():
    """What systemd-nspawn makes in this process's control groups is taken away again."""
    yield
    for line in pathlib.Path("/proc/self/cgroup").read_text().splitlines():
        number, names, path = line.split(":", 2)
        base = pathlib.Path("/sys/fs/cgroup", {"name=systemd": "systemd", "": "unified" if pathlib.Path("/sys/fs/cgroup/unified").exists() else ""}.get(names, names))
        for made in ("payload", "supervisor"):
            place = base / path.lstrip("/") / made
            for folder in sorted((each for each in place.rglob("*") if each.is_dir()), reverse=True) + [place]:
                with contextlib.suppress(OSError):
                    folder.rmdir()


def boot(root, unit, *words, seconds=300):
    """Boots systemd with a unit on a folder's tree, in a container with a network of its own. Gives what the unit has written to /told,
    and else what the container said."""
    command = ["systemd-nspawn", "--quiet", "--register=no", "--keep-unit", "--private-network", "-D", str(root), *words, "-b", f"systemd.unit={unit}"]
    # Control groups of the second version: those of the first don't tell a container when a unit has no process left.
    around = dict(os.environ, SYSTEMD_NSPAWN_UNIFIED_HIERARCHY="1")
    with kept_groups():
        booted = subprocess.run(command, env=around, capture_output=True, text=True, timeout=seconds, errors="replace", stdin=subprocess.DEVNULL)
    return (root / "told").read_text() if (root / "told").exists() else booted.stdout + booted.stderr


def address_of(number):
    """An address of this host, as another customer's."""
    return f"127.1.{number // 200}.{number % 200 + 1}"


def header_of(address):
    """What a proxy says in front of a connection from an address (version 2 of the PROXY protocol)."""
    start, family, size = b"\r\n\r\n\0\r\nQUIT\n\x21", socket.AF_INET6 if ":" in address else socket.AF_INET, 36 if ":" in address else 12
    ours = socket.inet_pton(family, "::1" if ":" in address else "127.0.0.1")
    return start + (b"\x21" if ":" in address else b"\x11") + struct.pack("!H", size) + socket.inet_pton(family, address) + ours + struct.pack("!HH", 1000, 4700)


def certificates(folder):
    """An authority, and certificates of the host and of a customer that it signed: their paths."""
    made = {name: f"{folder}/{name}" for name in ("authority", "host", "site.example", "stranger")}
    for name, path in made.items():
        signed = [] if name == "authority" else ["-CA", made["authority"], "-CAkey", f"{made['authority']}.key"]
        subprocess.run(["openssl", "req", "-x509", "-newkey", "ec", "-pkeyopt", "ec_paramgen_curve:prime256v1", "-nodes", "-days", "2", "-subj", f"/CN={name}",
                        "-addext", "subjectAltName=DNS:localhost,IP:127.0.0.1,IP:::1", "-keyout", f"{path}.key", "-out", path, *signed],
                       check=True, capture_output=True)  # fmt: skip
        pathlib.Path(f"{path}.pem").write_text(pathlib.Path(path).read_text() + pathlib.Path(f"{path}.key").read_text())
    return made
