"""The Python client and its commands with servers: every value is compared with `othello solve`."""
from __future__ import annotations

import asyncio
import contextlib
import csv
import json
import os
import pathlib
import shutil
import signal
import socket
import ssl
import subprocess
import sys
import threading
import time
from collections.abc import Iterator

import pytest
from coluwen import AsyncClient, Board, Client, Done, Position, Refused, Result, Session, Unreachable, formats
from conftest import TOP, Othello, positions, served, solved, until

BIN = TOP / "clients" / "bin"
FIXTURES = TOP / "clients" / "python" / "tests" / "fixtures"
OPENING = Position.opening()


def answer_of(result: Result) -> tuple[int, str]:
    return result.score.value, result.best or "-"


def command(name: str, *words: object, stdin: str = "", seconds: float = 300) -> subprocess.CompletedProcess[str]:
    return subprocess.run([sys.executable, BIN / name, *map(str, words)], input=stdin, capture_output=True, text=True, timeout=seconds, check=False)


def test_values(server: Othello) -> None:
    """Of games' positions at each small depth, by both clients, by a session, and each entry of each table is true of the position behind it."""
    asked = [(position, depth) for position in positions(12, 1) for depth in range(4)] + [(position, 8) for position in positions(6, 2, 53, 60)]
    wanted = solved([f"{depth} {position}" for position, depth in asked])
    with Client("127.0.0.1", server.port, silence=20) as client:
        results = [one.answer for one in client.analyse_many(asked)]
        assert [answer_of(one) for one in results if isinstance(one, Result)] == wanted

        async def trial() -> list[tuple[int, str]]:
            async with AsyncClient("127.0.0.1", server.port, silence=20, sessions=2, ahead=3) as other:
                return [answer_of(one.answer) async for one in other.analyse_many(asked)]

        assert asyncio.run(trial()) == wanted
        for (position, depth), one in zip(asked, results):
            if isinstance(one, Result) and depth and position.legal:
                exact = {entry.move: entry.score for entry in client.analyse_all(position, depth)}
                assert max(exact.values()).value == one.score.value and set(exact) == {entry.move for entry in one.table} == set(position.legal)
                for entry in one.table:
                    worth = exact[entry.move].value
                    assert {"=": worth == entry.score.value, "<": worth <= entry.score.value, ">": worth >= entry.score.value}[entry.score.sign]
    with Session("127.0.0.1", server.port, 64, 60000) as session:
        for (position, depth), (value, move) in list(zip(asked, wanted))[:9]:
            assert session.wait(session.ask(depth, position)) == Done(value, move)
        with pytest.raises(Refused) as fault:
            session.ask_line(f"13 {OPENING}")
        assert fault.value.number == 27


JAVASCRIPT = """
import { connect, Position } from "%(clients)s/javascript/src/index.mjs";
const client = connect(), lines = %(lines)s;
for await (const { question, result, fault } of client.analyseMany(lines.map(([depth, text]) => [Position.parse(text), depth])))
  console.log(fault ? String(fault) : `${result.score.value} ${result.best ?? "-"}`);
await client.close();
"""
JAVA = """
import coluwen.Client;
import coluwen.Position;
import java.util.Scanner;
class Trial {
  public static void main(String[] words) {
    try (var client = Client.connect(); var lines = new Scanner(System.in)) {
      while (lines.hasNextLine()) {
        var line = lines.nextLine();
        var found = client.analyse(Position.parse(line.substring(line.indexOf(' ') + 1)), Integer.parseInt(line.substring(0, line.indexOf(' '))));
        System.out.println(found.score().value() + " " + found.best().orElse("-"));
      }
    }
  }
}
"""


@pytest.mark.parametrize("language", ["javascript", "java"])
def test_values_of_the_other_languages(server: Othello, tmp_path: pathlib.Path, language: str) -> None:
    lines = [f"{depth} {position}" for position in positions(12, 9) for depth in range(4)]
    env = dict(os.environ, COLUWEN_URL=f"othello://{server.address}?silence=20")
    if language == "javascript":
        if not shutil.which("node"):
            pytest.skip("node isn't here")
        script = JAVASCRIPT % {"clients": TOP / "clients", "lines": json.dumps([[int(line[0]), line[2:]] for line in lines])}
        words = ["node", "--input-type=module", "-e", script]
    else:
        if not shutil.which("javac"):
            pytest.skip("javac isn't here")
        subprocess.run(["javac", "-d", tmp_path, *(TOP / "clients/java/src/main/java/coluwen").glob("*.java")], check=True)
        (tmp_path / "Trial.java").write_text(JAVA)
        words = ["java", "-cp", str(tmp_path), str(tmp_path / "Trial.java")]
    found = subprocess.run(words, input="".join(f"{line}\n" for line in lines), capture_output=True, text=True, timeout=250, env=env, check=False)
    assert found.stdout.splitlines() == [f"{value} {move}" for value, move in solved(lines)], found.stderr


def test_what_a_line_is_refused_for(server: Othello) -> None:
    """The command says of faulty lines what the server says."""
    faulty = ["nonsense", "x y", f"13 {OPENING}", f"3 {OPENING}X", f"3 {OPENING.text.replace('O', 'Q', 1)}", f"3 {OPENING.cells}XX", f"3 {OPENING.cells} -", f"3 {'-' * 200}", "", f"123456789 {OPENING}", "3", f"03 {OPENING.text.lower()}"]
    wanted = []
    with Session("127.0.0.1", server.port, 8, 60000) as session:
        for line in faulty:
            try:
                wanted.append(f"DONE {session.wait(session.ask_line(line)).value}")  # type: ignore[union-attr]
            except Refused as refusal:
                wanted.append(f"ERR {refusal.number}")
    said = command("coluwen", "--server", server.address, stdin="".join(f"{line}\n" for line in faulty)).stdout.splitlines()
    assert [line[: len(one)] for line, one in zip(said, wanted)] == wanted


def test_the_grain() -> None:
    for grain in (0, 2):
        with served("--sessions", "1000", "--segments", "65536", "--nodes", "4194304", "--grain", str(grain)) as server, Client("127.0.0.1", server.port, silence=30) as client:
            info = client.info()
            assert (info.grain, info.sure, info.mostly) == (grain, grain + 4, grain + 5)


def test_a_batch_outlives_a_server(tmp_path: pathlib.Path) -> None:
    """One that is stopped for longer than silence, and one that is killed and begun anew: each row is there, and right."""
    asked = positions(300, 7)
    (tmp_path / "p").write_text("".join(f"{one}\n" for one in asked))
    with served("--sessions", "1000", "--segments", "65536", "--nodes", "4194304") as server:

        def disturb() -> None:
            until(lambda: (tmp_path / "r.csv").exists() and (tmp_path / "r.csv").read_text().count("\n") > 20, 200, "the first rows")
            server.say(signal.SIGSTOP)
            time.sleep(3)
            server.say(signal.SIGCONT)
            time.sleep(1)
            server.say(signal.SIGKILL)
            time.sleep(1)
            server.begin()

        thread = threading.Thread(target=disturb)
        thread.start()
        found = command("coluwen-batch", "--depth", 2, "--server", server.address, "--sessions", 4, tmp_path / "r.csv", tmp_path / "p")
        thread.join()
        assert found.returncode == 0, found.stderr
        assert "asked again" in found.stderr or "tried again" in found.stderr
    rows = list(csv.reader((tmp_path / "r.csv").open()))[1:]
    assert [(int(row[2]), row[3]) for row in rows] == solved([f"2 {one}" for one in asked]) and [row[0] for row in rows] == [one.text for one in asked]


def test_formats_by_a_batch(server: Othello, tmp_path: pathlib.Path) -> None:
    for path in sorted(FIXTURES.glob("*.*")):
        if path.suffix in (".md", ".jou", ".trn"):
            continue
        found = command("coluwen-batch", "--depth", 1, "--server", server.address, tmp_path / f"{path.name}.csv", path)
        problems = list(formats.strictly(formats.problems(str(path))))
        rows = list(csv.reader((tmp_path / f"{path.name}.csv").open()))[1:]
        assert found.returncode == 0 and [row[0] for row in rows] == [one.position.text for one in problems]
        assert [(int(row[2]), row[3]) for row in rows] == solved([f"{row[1]} {row[0]}" for row in rows])


def test_a_server_that_is_lost() -> None:
    with served("--sessions", "1000") as server, Client("127.0.0.1", server.port, outage=0) as client:
        assert client.analyse(OPENING, 1).best == "d3"
        server.say(signal.SIGSTOP)
        begun = time.monotonic()
        with pytest.raises(Unreachable):
            client.analyse(OPENING, 1)
        assert time.monotonic() - begun < 4
        server.say(signal.SIGKILL)
        with pytest.raises(Unreachable):
            client.analyse(OPENING, 1)


@pytest.mark.skipif(not shutil.which("gtp-rhino", path="/usr/games:/usr/bin"), reason="gtp-rhino isn't here")
def test_a_match_with_another_engine(server: Othello, tmp_path: pathlib.Path) -> None:
    (tmp_path / "openings").write_text("f5d6c3d3\n")
    env = dict(os.environ, PATH=f"{os.environ['PATH']}:/usr/games")
    words = [sys.executable, BIN / "coluwen-match", "--server", server.address, "--silence", "20", "--openings", tmp_path / "openings", "--games", tmp_path / "games.ggf", "depth:1", "gtp:gtp-rhino -l 1 -b 0"]
    found = subprocess.run([str(word) for word in words], capture_output=True, text=True, timeout=280, env=env, check=False)
    assert found.returncode == 0 and "Elo" in found.stdout, found
    games = list(formats.strictly(formats.games(str(tmp_path / "games.ggf"))))
    assert len(games) == 2 and all(one.final().is_over and one.final().final_discs("X") == one.result for one in games)


def test_a_review(server: Othello) -> None:
    found = command("coluwen-review", "--server", server.address, "--depth", 2, "f5d6c3d3c4")
    assert found.returncode == 0
    board = Board()
    for number, move in enumerate(("f5", "d6", "c3", "d3", "c4"), 1):
        (best, best_move), (after, _) = solved([f"2 {board.position}", f"1 {board.position.play(move)}"])
        row = next(line for line in found.stdout.splitlines() if line.startswith(f"{number:>3} "))
        assert row.split()[2] == move and row.split()[3] in (f"{-after:+d}", "0") and row.split()[4] == best_move and (str(best - -after) in row.split() or best == -after)
        board = board.push(move)


@pytest.mark.skipif(not shutil.which("openssl"), reason="openssl isn't here")
def test_tls(server: Othello, tmp_path: pathlib.Path) -> None:
    """Through a TLS proxy: the certificate is checked, and a wrong one is told at once."""
    key, certificate = tmp_path / "key.pem", tmp_path / "cert.pem"
    subprocess.run(["openssl", "req", "-x509", "-newkey", "rsa:2048", "-nodes", "-keyout", key, "-out", certificate, "-days", "2", "-subj", "/CN=localhost", "-addext", "subjectAltName=DNS:localhost"],
                   check=True, capture_output=True)  # fmt: skip
    with proxied(server.port, key, certificate) as port:
        with Client("localhost", port, tls=ssl.create_default_context(cafile=certificate), silence=20) as client:
            assert answer_of(client.analyse(OPENING, 2)) == solved([f"2 {OPENING}"])[0]
        found = command("coluwen", "--server", f"othello://localhost:{port}?tls={certificate}", "--silence", 20, stdin=f"1 {OPENING}\n")
        assert found.stdout == "DONE {} {}\n".format(*solved([f"1 {OPENING}"])[0])
        begun = time.monotonic()
        with Client("localhost", port, tls=True, silence=20) as client, pytest.raises(Unreachable, match="certificate"):
            client.ping()
        assert time.monotonic() - begun < 10


@contextlib.contextmanager
def proxied(port: int, key: pathlib.Path, certificate: pathlib.Path) -> Iterator[int]:
    """A port that speaks TLS for another one."""
    context = ssl.SSLContext(ssl.PROTOCOL_TLS_SERVER)
    context.load_cert_chain(certificate, key)
    loop, told = asyncio.new_event_loop(), list[int]()
    ready = threading.Event()

    async def pump(reader: asyncio.StreamReader, writer: asyncio.StreamWriter) -> None:
        with contextlib.suppress(OSError):
            while block := await reader.read(4096):
                writer.write(block)
        writer.close()

    async def serve(reader: asyncio.StreamReader, writer: asyncio.StreamWriter) -> None:
        there, back = await asyncio.open_connection("127.0.0.1", port)
        await asyncio.gather(pump(reader, back), pump(there, writer))

    async def begin() -> None:
        listening = await asyncio.start_server(serve, "127.0.0.1", 0, ssl=context)
        told.append(listening.sockets[0].getsockname()[1])
        ready.set()

    def work() -> None:
        loop.run_until_complete(begin())
        loop.run_forever()

    threading.Thread(target=work, daemon=True).start()
    assert ready.wait(10)
    yield told[0]
    loop.call_soon_threadsafe(loop.stop)


def test_a_port_of_another_program(tmp_path: pathlib.Path) -> None:
    """What isn't a server of this protocol gives no value, and is told in one line."""
    with socket.create_server(("127.0.0.1", 0)) as listener:
        def answer() -> None:
            with contextlib.suppress(OSError):
                while True:
                    stream, _ = listener.accept()
                    stream.sendall(b"HTTP/1.1 400 Bad Request\r\n\r\n")
                    stream.close()

        threading.Thread(target=answer, daemon=True).start()
        found = command("coluwen", "--server", f"127.0.0.1:{listener.getsockname()[1]}", "--silence", 0.5, stdin=f"1 {OPENING}\n")
        assert found.returncode == 1 and not found.stdout and found.stderr.count("\n") == 1
