"""Engines with the program itself: Python's, by its processes, and every command without a server; the page's, as WebAssembly, in node and in each browser that is here, over http under a strict
Content-Security-Policy and from a file. Values and moves are compared with `othello solve`; a search that is given up ends at once."""
from __future__ import annotations

import base64
import concurrent.futures
import http.server
import json
import os
import pathlib
import re
import shutil
import signal
import statistics
import subprocess
import sys
import tempfile
import threading
import urllib.request
from typing import Any

import pytest
from conftest import TOP, Othello, positions, program, solved
from coluwen import Analyst, Engine, Position, Result
from coluwen.board import OTHER, PASS, SQUARES

OPENING = Position.opening()
ENGINE = TOP / "clients/page/engine"
POLICY = ("default-src 'none'; script-src 'self' 'wasm-unsafe-eval'; style-src 'self'; img-src 'self'; connect-src 'self'; worker-src 'self'; base-uri 'none'; form-action 'none'; "
          "frame-ancestors 'none'; require-trusted-types-for 'script'; trusted-types engine")
LONG = Position.parse("--------X--------XOOOOO---XOX-----OOXO----XOOOO--XXX---O--X----- X")  # many seconds at depth 12
AT_ONCE, STOPS, WORKERS = 64, 50, 4
MOMENT = 50  # milliseconds, within which a search that is given up is over
PATIENCE = 1800  # seconds that a browser may take for all
KINDS = {".js": "text/javascript", ".wasm": "application/wasm", ".html": "text/html; charset=utf-8", ".json": "application/json"}
# What the page and node do: answers in the order of the questions, then how soon a given-up search is over and the next is answered.
ASKER = """
async function answered(engine, questions, long) {
  const found = [];
  for (let at = 0; at < questions.length; at += %(at_once)d) {
    const part = questions.slice(at, at + %(at_once)d);
    found.push(...(await Promise.all(part.map(([own, opp, depth]) => engine.ask(BigInt(own), BigInt(opp), depth).then(({ value, choice }) => [value, choice], (fault) => [String(fault)])))));
  }
  const wait = (ms) => new Promise((done) => setTimeout(done, ms)), stops = [];
  const idle = async () => { while (engine.hands.some(({ task, isReady }) => task || !isReady)) await wait(5); };
  for (let turn = 0; turn < %(stops)d; turn += 1) {
    const stop = new AbortController(), how = { signal: stop.signal };
    await idle();
    const all = Array.from({ length: engine.places }, () => engine.ask(BigInt(long[0]), BigInt(long[1]), 12, how).then(() => "answered", (fault) => fault.name));
    await wait(150);
    const began = performance.now();
    stop.abort();
    const ends = await Promise.all(all), over = performance.now() - began;
    await engine.ask(BigInt(questions[0][0]), BigInt(questions[0][1]), 1);
    stops.push([ends.every((end) => end === "AbortError"), over, performance.now() - began]);
  }
  await idle();
  return { found, stops };
}
""" % {"at_once": AT_ONCE, "stops": STOPS}
PAGE = """import { Engine } from "./engine/pool.js";
import { moduleName } from "./engine/module.js";
%s
(async () => {
  let told;
  try {
    const { questions, long, workers } = await (await fetch("questions.json")).json();
    told = { ...(await answered(await Engine.start({ workers }), questions, long)), module: moduleName() };
  } catch (fault) { told = { fault: String(fault) }; }
  await fetch("answers", { method: "POST", body: JSON.stringify(told) });
})();
""" % ASKER
NODE = """import { readFileSync } from "node:fs";
import { Worker } from "node:worker_threads";
import { Rules } from "%(engine)s/module.js";
import { Engine } from "%(engine)s/pool.js";
%(asker)s
const { questions, long, workers } = JSON.parse(readFileSync(0, "utf8")), bytes = readFileSync("%(engine)s/page32.wasm");
const ends = []; // how long each worker takes to end, from when it is told to
const begin = () => {
  const worker = new Worker("%(engine)s/worker.js", { execArgv: [] });
  const terminate = async (from = performance.now()) => (await worker.terminate(), ends.push(performance.now() - from));
  const hand = { postMessage: (told) => worker.postMessage(told), terminate };
  worker.on("message", (data) => hand.onmessage({ data })).on("error", (fault) => hand.onerror(fault));
  return hand;
};
const engine = new Engine(await Rules.load(bytes), begin, bytes, workers);
const told = await answered(engine, questions, long);
engine.close();
process.on("exit", () => process.stdout.write(JSON.stringify({ ...told, ends, module: "page32.wasm" })));
"""


def children() -> set[int]:
    """The processes that this one has begun and not waited for."""
    found = set()
    for place in pathlib.Path("/proc").glob("[0-9]*/stat"):
        try:
            words = place.read_text().rpartition(")")[2].split()
        except OSError:
            continue
        if int(words[1]) == os.getpid():
            found.add(int(place.parent.name))
    return found


@pytest.fixture(autouse=True)
def named(monkeypatch: pytest.MonkeyPatch) -> None:
    monkeypatch.setenv("COLUWEN_OTHELLO", program())


def test_it_is_an_analyst_whose_values_are_the_programs() -> None:
    with Engine(2) as engine:
        assert isinstance(engine, Analyst)
        result = engine.analyse(OPENING, 2)
        assert (result.score.value, result.best, result.depth, result.position) == (-4, "d3", 2, OPENING)
        assert [str(entry) for entry in result.table] == ["d3=-4", "c4<-4", "f5<-4", "e6<-4"]
        assert engine.analyse(OPENING.text, 0).best is None
        assert engine.info().sure == 12
        assert [(entry.move, entry.score.value) for entry in engine.analyse_all(OPENING, 2)] == [("d3", -4), ("c4", -4), ("f5", -4), ("e6", -4)]
        after = OPENING.play("f5").play("d6")
        best = engine.analyse(after, 5)
        values = engine.analyse_all(after, 5)
        assert values[0].score.value == best.score.value and best.best in [entry.move for entry in values if entry.score.value == best.score.value]


def command(name: str, *words: object, stdin: str = "") -> str:
    """What a command writes, with no server named."""
    env = {name: value for name, value in os.environ.items() if name not in ("COLUWEN_URL", "COLUWEN_SERVER")}
    run = subprocess.run([sys.executable, TOP / "clients/bin" / name, *map(str, words)], input=stdin, capture_output=True, text=True, timeout=300, check=False, env=env)
    assert run.returncode == 0, run.stderr
    return run.stdout


def test_no_command_needs_a_server(tmp_path: pathlib.Path) -> None:
    assert command("coluwen", stdin=f"2 {OPENING}\n0 {OPENING}\n") == "DONE -4 d3\nDONE 0 -\n"
    command("coluwen-batch", "--depth", 2, tmp_path / "rows.csv", stdin=f"{OPENING}\n{OPENING.play('f5')}\n")
    ((value, move),) = solved([f"2 {OPENING.play('f5')}"])
    assert [row.split(",")[1:4] for row in (tmp_path / "rows.csv").read_text().splitlines()[1:]] == [["2", "-4", "d3"], ["2", str(value), move]]
    (tmp_path / "openings").write_text("f5d6c3d3\n")
    assert "Elo" in command("coluwen-match", "--openings", tmp_path / "openings", "depth:2", "depth:1")
    assert "best" in command("coluwen-review", "--depth", 2, "f5d6c3")
    assert command("coluwen-gtp", "--depth", 2, stdin="genmove b\nquit\n").startswith("= D3")
    assert "\nsearch D3 " in command("coluwen-nboard", stdin="nboard 1\nset depth 2\nhint 1\n")
    page = subprocess.Popen([sys.executable, TOP / "clients/bin/coluwen-page", "--port", "0", "--log", ""], stdout=subprocess.PIPE, text=True)
    try:
        assert page.stdout
        with urllib.request.urlopen(f"{page.stdout.readline().strip()}about.json", timeout=20) as about:
            assert json.load(about) == {"service": True, "depths": [], "places": 0, "settled": True, "addresses": []}
    finally:
        page.kill()
        page.wait()


@pytest.mark.parametrize("name", ["gtp", "nboard"])
def test_the_example_that_a_bridge_names(name: str) -> None:
    """What its help shows is what it says, but for seconds."""
    shown = (TOP / f"clients/python/src/coluwen/tools/{name}.py").read_text().split('"""')[1].replace("\\\\", "\\")
    found = re.search(r"    \$ printf '(.*)' \| coluwen-\w+\n((?:    .*\n)+)", shown)
    assert found
    said = command(f"coluwen-{name}", stdin=found[1].replace("\\n", "\n"))
    untimed = [re.sub(r"(nodestats \d+) .*", r"\1", text) for text in (said, found[2].replace("\n    ", "\n").strip() + "\n")]
    assert untimed[0].replace("\n\n", "\n").strip() == untimed[1].strip()


def test_what_a_server_cannot_give_an_engine_gives(server: Othello) -> None:
    """A session of few nodes has no room for a search of five plies."""
    line = f"5 {positions(1, 5, 20, 20)[0]}"
    words = [sys.executable, TOP / "clients/bin/coluwen", "--server", server.address, "--silence", "30", "--segments", "64", "--nodes", "100"]
    for more, wanted in (([], "SPENT\n"), (["--fallback", "engine"], "DONE {} {}\n".format(*solved([line])[0]))):
        run = subprocess.run([*map(str, words), *more], input=f"{line}\n", capture_output=True, text=True, timeout=300, check=False)
        assert run.stdout == wanted, run.stderr


def test_ten_thousand_positions_while_processes_are_killed() -> None:
    game, asked = OPENING, list[Position]()
    while len(asked) < 10000:
        asked.append(game)
        moves = game.legal_moves()
        game = game.play(moves[len(asked) * 7 % len(moves)]) if moves else OPENING.play(OPENING.legal_moves()[len(asked) % 4])
    killed, over = 0, threading.Event()

    def kill() -> None:
        nonlocal killed
        while not over.wait(0.05):
            for pid in children() - before:
                os.kill(pid, signal.SIGKILL)
                killed += 1
                break

    before = children()
    with Engine(4) as engine:
        wanted = {place: engine.analyse(place, 1) for place in set(asked[:50])}
        killer = threading.Thread(target=kill)
        killer.start()
        try:
            outcomes = list(engine.analyse_many(asked, 1))
        finally:
            over.set()
            killer.join()
    assert [outcome.question for outcome in outcomes] == asked
    assert all(isinstance(outcome.answer, Result) for outcome in outcomes)
    assert killed > 2
    assert all((wanted[place].score, wanted[place].best) == (outcome.answer.score, outcome.answer.best) for place, outcome in zip(asked[:50], outcomes))
    assert children() == before


def one_file(questions: dict[str, Any], back: str) -> str:
    """A page that has all in itself, as board.html has: a classic script, and the worker's text for a Blob."""
    scripts = [re.sub(r"^(import .*|export (?=const|function|async|class))", "", (ENGINE / name).read_text(), flags=re.M) for name in ("modules.js", "module.js", "pool.js")]
    start = f"""(async () => {{ let told; try {{
      const bytes = Uint8Array.from(atob({json.dumps(base64.b64encode((ENGINE / "page32.wasm").read_bytes()).decode())}), (letter) => letter.charCodeAt(0));
      const {{ questions, long, workers }} = {json.dumps(questions)};
      const engine = await Engine.start({{ bytes, script: {json.dumps((ENGINE / "worker.js").read_text())}, workers }});
      told = {{ ...(await answered(engine, questions, long)), module: "page32.wasm" }}; }} catch (fault) {{ told = {{ fault: String(fault) }}; }}
      await fetch({json.dumps(back)}, {{ method: "POST", mode: "no-cors", body: JSON.stringify(told) }}); }})();"""
    return "<!doctype html><meta charset=utf-8><script>\n" + "\n".join([*scripts, ASKER, start]).replace("</script", "<\\/script") + "\n</script>"


class Asker(http.server.BaseHTTPRequestHandler):
    """Gives the page, and takes its answers."""

    server: Any

    def do_GET(self) -> None:
        name = self.path.partition("?")[0].lstrip("/") or "index.html"
        self.server.asked.append(name)
        body = self.server.files.get(name) or ((ENGINE / name.removeprefix("engine/")).read_bytes() if re.fullmatch(r"engine/[a-z0-9]+\.(js|wasm)", name) else None)
        self.send_response(200 if body else 404)
        self.send_header("Content-Type", KINDS.get(pathlib.Path(name).suffix, "text/plain"))
        self.send_header("Content-Security-Policy", POLICY)
        self.end_headers()
        self.wfile.write(body or b"")

    def do_POST(self) -> None:
        self.server.told = json.loads(self.rfile.read(int(self.headers["Content-Length"])))
        self.send_response(204)
        self.end_headers()
        self.server.is_told.set()

    def log_message(self, *_: object) -> None:
        pass


def by_browser(name: str, questions: dict[str, Any], is_file: bool) -> dict[str, Any]:
    """What a browser's page answers."""
    server: Any = http.server.ThreadingHTTPServer(("127.0.0.1", 0), Asker)
    server.asked, server.told, server.is_told = [], None, threading.Event()
    here = f"http://127.0.0.1:{server.server_address[1]}/"
    server.files = {"index.html": b'<!doctype html><meta charset=utf-8><title>engine</title><script type="module" src="page.js"></script>', "page.js": PAGE.encode(), "questions.json": json.dumps(questions).encode()}
    threading.Thread(target=server.serve_forever, daemon=True).start()
    with tempfile.TemporaryDirectory(ignore_cleanup_errors=True) as folder:
        page = pathlib.Path(folder) / "page.html"
        page.write_text(one_file(questions, f"{here}answers"))
        address = page.as_uri() if is_file else here
        if name == "chromium":
            words = ["chromium", "--headless=new", "--no-sandbox", "--disable-gpu", "--disable-dev-shm-usage", f"--user-data-dir={folder}/profile", "--remote-debugging-port=0", address]
        else:
            words = ["firefox-esr", "--headless", "--no-remote", "--profile", f"{folder}/profile", address]
            os.mkdir(f"{folder}/profile")
        browser = subprocess.Popen(words, stdin=subprocess.DEVNULL, stdout=subprocess.DEVNULL, stderr=subprocess.DEVNULL, start_new_session=True, env={**os.environ, "HOME": folder})
        try:
            server.is_told.wait(PATIENCE)
        finally:
            os.killpg(browser.pid, 15)
            browser.wait()
            server.shutdown()
    if not server.told:
        return {"fault": f"{name} told nothing in {PATIENCE} s; it asked for {server.asked}"}
    told: dict[str, Any] = server.told
    return {**told, "asked": server.asked}


def words_of(position: Position) -> tuple[str, str]:
    own = sum(1 << at for at, cell in enumerate(position.cells) if cell == position.side)
    other = sum(1 << at for at, cell in enumerate(position.cells) if cell == OTHER[position.side])
    return str(own), str(other)


def by_node(questions: dict[str, Any]) -> dict[str, Any]:
    script = NODE % {"engine": ENGINE, "asker": ASKER}
    told = subprocess.run(["node", "--input-type=module", "-e", script], input=json.dumps(questions), capture_output=True, text=True, check=False, timeout=PATIENCE)
    return json.loads(told.stdout) if told.returncode == 0 else {"fault": told.stderr[-500:]}  # type: ignore[no-any-return]


@pytest.fixture(scope="module")
def questions(request: pytest.FixtureRequest) -> list[tuple[Position, int]]:
    count, endings, deepest = (request.config.getoption(f"--{name}") for name in ("positions", "endings", "deepest"))
    asked = [(position, depth) for position in positions(count, 84, 0, 60) for depth in range(1, deepest + 1)]
    return asked + [(position, max(position.empties, 1)) for position in positions(endings, 85, 48, 60)]


@pytest.fixture(scope="module")
def expected(questions: list[tuple[Position, int]]) -> list[list[int | None]]:
    """What the program answers, by four of its processes."""

    def part(first: int) -> list[str]:
        lines = "".join(f"{depth} {position.text}\n" for position, depth in questions[first::4])
        return subprocess.run([program(), "solve", "--visited"], input=lines, capture_output=True, text=True, check=True).stdout.splitlines()

    found: list[list[int | None]] = [[] for _ in questions]
    with concurrent.futures.ThreadPoolExecutor(4) as threads:
        for first, told in enumerate(threads.map(part, range(4))):
            found[first::4] = [[int(value), None if move == "-" else 64 if move == PASS else SQUARES.index(move)] for value, move, _ in map(str.split, told)]
    return found


@pytest.mark.parametrize("where", ["node", "chromium", "chromium-file", "firefox-esr", "firefox-esr-file"])
def test_the_pages_engine(where: str, questions: list[tuple[Position, int]], expected: list[list[int | None]]) -> None:
    name = where.removesuffix("-file")
    if not shutil.which(name):
        pytest.skip(f"{name} isn't here")
    sent = {"questions": [[*words_of(position), depth] for position, depth in questions], "long": words_of(LONG), "workers": WORKERS}
    told = by_node(sent) if name == "node" else by_browser(name, sent, where.endswith("-file"))
    assert "fault" not in told, told["fault"]
    differ = [f"{depth} {position}: {one}, and the program has {other}" for (position, depth), one, other in zip(questions, told["found"], expected, strict=True) if one != other]
    assert not differ, differ[:5]
    # a page asks for its own files alone, and one from a disk for none
    own = set() if where.endswith("-file") else {"index.html", "page.js", "questions.json", "favicon.ico", *(f"engine/{path.name}" for path in ENGINE.iterdir())}
    assert set(told.get("asked", ())) <= own, told["asked"]
    over, after, ends = (sorted(times) for times in ([stop[1] for stop in told["stops"]], [stop[2] for stop in told["stops"]], told.get("ends", [])))
    print(f"{where}: {len(expected)} agree, by {told['module']}; {spread('a search that is given up is over', over)}; {spread('the next is answered', after)}; {spread('a worker has ended', ends)}")
    assert len(over) == STOPS and all(stop[0] for stop in told["stops"])
    assert statistics.median(over) < MOMENT and over[STOPS * 9 // 10] < MOMENT, over  # (the slowest may have waited for a processor)
    if name == "node":  # each turn ends the workers that search, and `close` all; where others have the processors, each ends once it gets one
        assert len(ends) == WORKERS * (STOPS + 1) + 1 and ends[0] < MOMENT, ends


def spread(what: str, times: list[float]) -> str:
    return f"{what} after {statistics.median(times):.1f} ms, the slowest of {len(times)} after {times[-1]:.1f}" if times else f"{what}: nobody says when"
