"""What the trials of the board share: servers and pages that they start, and what a page of the browser shows."""
import contextlib
import functools
import http.server
import json
import os
import pathlib
import random
import re
import shutil
import subprocess
import sys
import threading
import urllib.error
import urllib.request

TOP = pathlib.Path(__file__).resolve().parents[3]
SOURCE = pathlib.Path(os.environ.get("COLUWEN", TOP / "clients/python/src"))
sys.path[:0] = [str(SOURCE), str(TOP / "deploy"), str(TOP / "clients/trial")]
import stage  # noqa: E402
from coluwen.board import OTHER, Position  # noqa: E402
from patience import until  # noqa: E402
from stage import check, fail, free_port  # noqa: E402, F401

OPENING = Position.opening()
PAGE = pathlib.Path(os.environ.get("COLUWEN_FILES", TOP / "clients/page"))
# Widths, heights, languages and schemes, the last one 1280 x 900 at 200 percent, in Chromium; in Firefox each width by the other scheme and in the other language (`forms`).
FORMS = ((320, 640, "de", "dark"), (390, 844, "en", "light"), (768, 1024, "de", "light"), (1280, 900, "en", "dark"), (1920, 1080, "de", "dark"), (640, 450, "ja", "light"))
TURNED = {"de": "en", "en": "de", "ja": "en", "dark": "light", "light": "dark"}
TEXTS = {path.stem: json.loads(path.read_text().partition(" = ")[2].rstrip().rstrip(";")) for path in (PAGE / "js/languages").glob("*.js")}
PATIENT = ("--silence", 30)  # of a page: on a busy machine an answer may take more than 1.5 seconds
SQUARES = "[...document.querySelectorAll('.square')]"
CELLS = SQUARES + ".map((one) => { const disc = one.querySelector('.disc'); return !disc ? '-' : disc.classList.contains('black') ? 'X' : 'O' }).join('')"
NAMES = "Object.fromEntries(" + SQUARES + ".map((one) => [one.dataset.square, one.getAttribute('aria-label')]))"
SCORES = "Object.fromEntries(" + SQUARES + ".filter((one) => one.querySelector('.score')).map((one) => [one.dataset.square, one.querySelector('.score').textContent]))"
TEXT = "(new URLSearchParams(location.hash.slice(1)).get('moves') ?? '')"
HERE = "(document.querySelector('#moves [aria-current] .what')?.textContent ?? '')"
GAME = "f5d6c3d3c4f4f6g5e3f3g4h5g6g3h6f7"


class Quiet(http.server.SimpleHTTPRequestHandler):
    """The page's files, of which the browser's cache keeps nothing, and nothing said of it."""

    def end_headers(self):
        self.send_header("Cache-Control", "no-store")
        super().end_headers()

    def log_message(self, *words):
        pass


class Server(http.server.ThreadingHTTPServer):
    """One whose browser may leave at any time."""

    daemon_threads = True

    def handle_error(self, request, client_address):
        if not isinstance(sys.exc_info()[1], ConnectionError):
            super().handle_error(request, client_address)


@contextlib.contextmanager
def files(port=0, folder=PAGE):
    """The page's files by a web server that knows nothing of them; gives its address."""
    server = Server(("127.0.0.1", port), functools.partial(Quiet, directory=folder))
    thread = threading.Thread(target=server.serve_forever, daemon=True)
    thread.start()
    try:
        yield f"http://127.0.0.1:{server.server_port}/"
    finally:
        server.shutdown()
        server.server_close()


def on_disk(folder):
    """The page as one file in a folder; gives its address."""
    shutil.copy(PAGE / "board.html", folder / "board.html")
    (folder / "none").touch()
    return f"file://{folder}/board.html"


@contextlib.contextmanager
def page(port, *words, https=False):
    """The page's program; gives its process and address."""
    command = [sys.executable, "-m", "coluwen.page", "--port", 0, "--log", "", *PATIENT, *words, "--server", f"127.0.0.1:{port}"]
    surroundings = os.environ | {"PYTHONPATH": str(SOURCE), "PYTHONDONTWRITEBYTECODE": "1"}
    process = subprocess.Popen([*map(str, command)], stdout=subprocess.PIPE, text=True, env=surroundings)
    with stage.ended_after(process), process.stdout:
        address = process.stdout.readline().strip()
        if "0.0.0.0" in words:  # the address that is printed is one for others
            address = f"http://127.0.0.1:{address.rpartition(':')[2]}"
        if not address.startswith("http"):
            fail("the page doesn't begin")
        if not https:
            until("how deep the server looks", lambda: about(address)["settled"], 600)
        yield process, address


def said(language, name, **words):
    """A text of the page in a language, as a pattern: what of its words isn't given may be anything, and it may begin a sentence."""
    text = TEXTS[language][name]
    if isinstance(text, dict):
        text = text.get("one" if words.get("n") == 1 else "other", text["other"])
    if text[0].islower():
        text, start = text[1:], f"[{text[0]}{text[0].upper()}]"
    else:
        start = ""
    parts = re.split(r"\{(\w+)\}", text)
    return start + "".join(re.escape(part) if at % 2 == 0 else re.escape(str(words[part])) if part in words else ".*" for at, part in enumerate(parts))


def forms(name):
    """What a browser tries: each width by day in one browser and by night in the other, and in each language."""
    return FORMS if name == "chromium" else tuple((width, height, TURNED[language], TURNED[scheme]) for width, height, language, scheme in FORMS)


def chosen(only, *trials):
    """The trials of a part that are wanted: all, or the one of that name."""
    return [trial for trial in trials if only in ("", trial.__name__)]


def reason(fault):
    """What a fault says, without the driver's own list of calls."""
    return str(fault).partition("\n  (Session info")[0].partition("\nStacktrace:")[0] or repr(fault)


@contextlib.contextmanager
def faults_of(name):
    """Gives what makes a trial: where one fails, the others are tried all the same, and all faults are told at the end."""
    faults = []

    def tried(what, trial, *words, **more):
        try:
            trial(*words, **more)
        except (SystemExit, Exception) as fault:
            faults.append(f"{what}: {reason(fault)}")
            print(f"{name}: {faults[-1]}", flush=True)

    yield tried
    check(not faults, "\n".join(faults))


def about(address):
    return json.loads(asked(f"{address}about.json")[1])


def asked(address, body=None, method=None, headers=None):
    """The status and the text of an answer, and its headers."""
    data = json.dumps(body).encode() if body is not None and not isinstance(body, bytes) else body
    kind = {"Content-Type": "application/json"} if data is not None else {}
    request = urllib.request.Request(address, data, {**kind, **(headers or {})}, method=method)
    try:
        with urllib.request.urlopen(request, timeout=900) as answer:
            return answer.status, answer.read().decode(), answer.headers
    except urllib.error.HTTPError as fault:
        return fault.code, fault.read().decode(), fault.headers


def analysed(address, position, depth, exact=()):
    """What the service says of a position: its lines."""
    body = {"position": position if isinstance(position, str) else position.text, "depth": depth, "exact": exact if exact == "all" else list(exact)}
    status, text, _ = asked(f"{address}analyse", body)
    return [json.loads(line) for line in text.splitlines() if line.strip()] if status == 200 else fail(f"/analyse: {status} {text}")


def random_moves(seed, count=60, start=OPENING):
    """The moves of a random game, passes left out, and the position after each."""
    chance, position, found = random.Random(seed), start, []
    while not position.is_over and len(found) < count:
        if position.must_pass:
            position = position.play("pass")
        move = chance.choice(position.squares())
        position = position.play(move)
        found.append((move, position))
    return found


def settled(position):
    """The position with the move of a player who can move."""
    return position.play("pass") if position.must_pass else position


def values(asked_for):
    """Of each pair of a position and a depth its value by `othello solve`."""
    pairs = list(asked_for)
    return [value for _, value, _ in stage.solve([f"{depth} {position.text}" for position, depth in pairs])] if pairs else []


def worths(position, depth):
    """What each move is worth, so many plies deep, by `othello solve`: the value of the position behind it, turned."""
    moves = position.legal_moves()
    behind = values((position.play(move), depth if move == "pass" else depth - 1) for move in moves)
    return {move: -value for move, value in zip(moves, behind)}


def ended(position, depth):
    """The result for the player to move of the line that `othello solve` plays to the game's end, empty squares to the winner, and
    how many these are. The depth reaches the end."""
    side, discs = position.side, None
    while not position.is_over:
        (_, _, move), *_ = stage.solve([f"{depth} {position.text}"])
        position, depth = position.play(move), depth - (move != "pass")
    discs, empty = position.discs(side) - position.discs(OTHER[side]), position.empties
    return discs + empty * ((discs > 0) - (discs < 0)), empty


def sentence(language, discs):
    """A result as black sees it, in the page's words."""
    n, side = abs(discs), TEXTS[language]["black" if discs > 0 else "white"]
    amount = TEXTS[language]["unit.discs"].get("one" if n == 1 else "other", TEXTS[language]["unit.discs"]["other"]).replace("{n}", str(n))
    return TEXTS[language]["value.wins"].replace("{side}", side).replace("{n}", amount) if n else TEXTS[language]["value.draw"]


def play(shown, moves):
    for move in moves:
        shown.click(f'[data-square="{move}"]')


def whole_game(seed):
    """The moves of a random game to its end, as a text."""
    return "".join(move for move, _ in random_moves(seed, 70))
