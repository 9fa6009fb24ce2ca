"""Customers that mean the others no good, each from an address of its own: what deploy/trial sets on a site.

usage: deploy/hostile.py PORT CUSTOMERS SECONDS [KIND]      (KIND: all do this, and else each kind is done by some. In a process of
                                                        its own, so that it takes no time of those who measure. With the
                                                        variable TLS each connection is one of TLS)

It prints how often they were welcomed, refused and cut off.
"""
import contextlib
import os
import random
import socket
import ssl
import struct
import sys
import threading
import time

HOST = "127.0.0.1"
TLS = ssl._create_unverified_context() if os.environ.get("TLS") else None
GREAT = "---------------------------OX------XO--------------------------- X"
counts = {"connections": 0, "WELCOME": 0, "RESERVED": 0, "ERR 14": 0, "cut off": 0}
lock = threading.Lock()


def count(name):
    with lock:
        counts[name] = counts.get(name, 0) + 1


class Line:
    """A connection from an address, by which lines are sent with and without reading what is answered."""

    def __init__(self, address, port):
        self.socket = socket.create_connection((HOST, port), 10, (address, 0))
        if TLS:
            self.socket = TLS.wrap_socket(self.socket)
        self.lines = self.socket.makefile("rb")
        count("connections")

    def ask(self, line):
        """A line's answer; none where the connection is lost."""
        self.socket.sendall(line.encode() + b"\n")
        answer = self.lines.readline().decode("latin-1").strip()
        for name in ("WELCOME", "RESERVED", "ERR 14"):
            if answer.startswith(name):
                count(name)
        if not answer:
            raise ConnectionError("cut off")
        return answer

    def send(self, data):
        self.socket.sendall(data)

    def close(self, by_reset=False):
        if by_reset:
            self.socket.setsockopt(socket.SOL_SOCKET, socket.SO_LINGER, struct.pack("ii", 1, 0))
        self.lines.close()
        self.socket.close()

    def __enter__(self):
        return self

    def __exit__(self, *_):
        self.close()


def hold(address, port, _, hold_on):
    """Opens as many sessions as it gets, the greatest first, and says no more."""
    with contextlib.ExitStack() as open_ones:
        for number in range(40):
            with contextlib.suppress(OSError):
                open_ones.enter_context(Line(address, port)).ask("HELLO 1024 65536" if number % 2 else "HELLO 1 1")
        hold_on(5)


def climb(address, port, _, hold_on):
    """Small sessions that reserve all there is, by RESERVE."""
    with contextlib.ExitStack() as open_ones:
        for _ in range(16):
            with contextlib.suppress(OSError):
                line = open_ones.enter_context(Line(address, port))
                line.ask("HELLO 1 1")
                line.ask("RESERVE 1 65536")
                line.ask("RESERVE 4096 65536")
        hold_on(2)


def hog(address, port, _, hold_on):
    """A small session that becomes a great one and asks for the deepest job."""
    with Line(address, port) as line:
        line.ask("HELLO 64 1")
        line.ask("RESERVE 512 60000")
        line.ask(f"ASK 12 {GREAT}")
        line.socket.settimeout(30)
        line.ask("WAIT 1")


def crowd(address, port, _, hold_on):
    """All quick sessions that it gets, with as many deep jobs as they take."""
    with contextlib.ExitStack() as open_ones:
        lines = []
        for _ in range(4):
            with contextlib.suppress(OSError):
                line = open_ones.enter_context(Line(address, port))
                if line.ask("HELLO 512 9999").startswith("WELCOME"):
                    lines.append(line)
        for line in lines:
            line.send(f"ASK 12 {GREAT}\n".encode() * 250)
        for line in lines:
            line.socket.settimeout(30)
            for _ in range(250):
                line.lines.readline()
            line.ask("WAIT 1")


def churn(address, port, chance, hold_on):
    """Sessions that end as soon as they begin, one after another, half of them by a reset."""
    for _ in range(100):
        line = Line(address, port)
        with contextlib.suppress(OSError):
            line.ask("HELLO 1 1")
        line.close(by_reset=chance.random() < 0.5)


def leave(address, port, chance, hold_on):
    """Sessions that wait for a great job and are gone before it ends."""
    line = Line(address, port)
    line.ask("HELLO 512 9999" if chance.random() < 0.5 else "HELLO 512 65536")
    line.send(f"ASK 12 {GREAT}\nWAIT 1\nWAIT 1\n".encode())
    hold_on(chance.random())
    line.close(by_reset=chance.random() < 0.5)


def flood(address, port, _, hold_on):
    """Lines without end, and no answer is read."""
    with Line(address, port) as line:
        line.ask("HELLO 1 1")
        line.socket.settimeout(1)
        for _ in range(200):
            line.send(b"QUOTA\n" * 1000)


def babble(address, port, chance, hold_on):
    """What is no line: random bytes, lines that are too long, half a line, tokens that are guessed."""
    with Line(address, port) as line:
        for _ in range(10):
            line.ask(f"HELLO 1 1 guess{chance.randrange(10**9)}")
        line.send(chance.randbytes(20000) + b"\n" + b"RESERVE " * 10000 + b"\nHELLO 1 1\nRESER")
        hold_on(1)
        line.send(b"VE 1 65536\n")
        hold_on(1)


def be_silent(address, port, _, hold_on):
    """Connections that say nothing, or a byte now and then."""
    with contextlib.ExitStack() as open_ones:
        lines = [open_ones.enter_context(Line(address, port)) for _ in range(60)]
        for _ in range(10):
            hold_on(1)
            with contextlib.suppress(OSError):
                lines[0].send(b"H")


def storm(address, port, _, hold_on):
    """40,000 lines with long answers, and more by RESERVE behind them; nothing is read, and the end is a reset."""
    line = Line(address, port)
    line.ask("HELLO 64 1000")
    line.ask(f"ASK 2 {GREAT}")
    line.ask("WAIT 1")
    line.socket.settimeout(5)
    with contextlib.suppress(OSError):
        line.send(b"TABLE 1\n" * 40000 + b"RESERVE 65 1001\n")
    hold_on(0.5)
    line.close(by_reset=True)


def drip(address, port, _, hold_on):
    """First lines that come a byte at a time, and never end."""
    with contextlib.ExitStack() as open_ones:
        lines = [open_ones.enter_context(Line(address, port)) for _ in range(25)]
        for byte in b"HELLO 1 1 " + b"x" * 100:
            for line in lines:
                line.send(bytes([byte]))
            hold_on(1)


def sip(address, port, _, hold_on):
    """Long answers that are taken a byte at a time."""
    with Line(address, port) as line:
        line.ask("HELLO 64 1000")
        line.ask(f"ASK 2 {GREAT}")
        line.ask("WAIT 1")
        line.send(b"TABLE 1\n" * 5000)
        for _ in range(20):
            line.socket.recv(1)
            hold_on(0.2)


def guess(address, port, chance, _):
    """Tokens that are guessed, as fast as they are answered."""
    with contextlib.ExitStack() as open_ones:
        lines = [open_ones.enter_context(Line(address, port)) for _ in range(25)]
        for line in lines * 4:
            line.send(f"HELLO 1 1 {chance.randrange(10**15)}\n".encode())
        for line in lines * 4:
            count(line.lines.readline().decode().strip() or "cut off")


def pretend(address, port, _, hold_on):
    """Headers of the PROXY protocol that name another customer's address."""
    for header in (b"PROXY TCP4 127.6.0.1 127.0.0.1 1000 4700\r\n", b"\r\n\r\n\0\r\nQUIT\n\x21\x11\0\x0c\x7f\x06\0\x01\x7f\0\0\x01\x03\xe8\x12\x5c"):
        with contextlib.ExitStack() as open_ones:
            for _ in range(8):
                line = open_ones.enter_context(Line(address, port))
                line.send(header + b"\nHELLO 1 1\n")
            hold_on(0.5)


def raise_on(address, port, _, hold_on):
    """A session that reserves more by each line, as fast as it is answered, then QUOTA likewise."""
    with Line(address, port) as line:
        line.ask("HELLO 1 1")
        for nodes in range(2, 400):
            line.ask(f"RESERVE 1 {nodes}")
        for _ in range(2000):
            line.ask("QUOTA")


def drum(address, port, chance, _):
    """Lines that only look, without end: half read no answer, and half read all."""
    with Line(address, port) as line:
        line.ask("HELLO 64 1000")
        line.ask(f"ASK 2 {GREAT}")
        line.ask("WAIT 1")
        line.socket.settimeout(10)
        reads = chance.random() < 0.5
        for _ in range(100):
            line.send(b"TABLE 1\nQUOTA\nLIVE\nINFO\nGET 1\n" * 200)
            for _ in range(1000 if reads else 0):
                line.lines.readline()


def choose(address, port, _, hold_on):
    """Sessions that are held by addresses of which a number of halls leaves the same rest."""
    with contextlib.ExitStack() as open_ones:
        for number in (64, 128):
            with contextlib.suppress(OSError):
                open_ones.enter_context(Line(f"127.8.{address.split('.')[3]}.{number}", port)).ask("HELLO 1024 65536")
        hold_on(5)


def cut(address, port, chance, _):
    """Sessions that end at any byte, by an end or a reset."""
    data = f"HELLO 64 1000\nASK 2 {GREAT}\nRESERVE 65 1001\nRESERVE 65 20000\nWAIT 1\nTABLE 1\nBYE\n".encode()
    for _ in range(30):
        line = Line(address, port)
        with contextlib.suppress(OSError):
            line.send(data[: chance.randrange(len(data) + 1)])
            line.socket.recv(chance.randrange(1, 60))
        line.close(by_reset=chance.random() < 0.5)


KINDS = (hold, climb, hog, crowd, churn, leave, flood, babble, be_silent, storm, drip, sip, guess, pretend, raise_on, drum, choose, cut)


def customer(number, port, end, kind):
    chance, kind = random.Random(number), kind or KINDS[number % len(KINDS)]

    def hold_on(seconds):
        time.sleep(max(0.0, min(seconds, end - time.monotonic())))

    while time.monotonic() < end:
        try:
            kind(f"127.5.{number // 200}.{number % 200 + 1}", port, chance, hold_on)
        except OSError:
            count("cut off")
        hold_on(0.05)


def main(port, customers, seconds, kind=None):
    end = time.monotonic() + seconds
    threads = [threading.Thread(target=customer, args=(number, port, end, kind), daemon=True) for number in range(customers)]
    for thread in threads:
        thread.start()
    for thread in threads:
        thread.join(max(0.1, end + 2 - time.monotonic()))
    with lock:
        print(f"{customers} hostile customers for {seconds} s:", ", ".join(f"{value} {name}" for name, value in counts.items()), flush=True)


if __name__ == "__main__":
    main(*map(int, sys.argv[1:4]), *(each for each in KINDS if each.__name__ in sys.argv[4:]))
    os._exit(0)  # (threads that are still in TLS while Python takes itself down have crashed it)
