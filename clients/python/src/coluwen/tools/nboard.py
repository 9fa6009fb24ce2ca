"""An engine for boards that speak NBoard's protocol, which has its values from a server of `othello serve`.

usage: coluwen-nboard [--depth 6] [--server HOST:PORT] [..]     (what the board sends comes by standard input)

A board starts it as its engine, with this line as the command. By hand:

    $ printf 'nboard 1\\nset depth 1\\nmove F5\\nhint 2\\n' | coluwen-nboard
    set myname Coluwen
    search F6 +0.04 0 1
    search F4 +0.04 0 1 at most
    nodestats 4 0.296
    status

| From the board | What the bridge does, and answers |
|---|---|
| `nboard 1` | `set myname Coluwen` |
| `set depth n` | looks n plies deep from now on; as many as the server's grain lets through: `status` says so |
| `set game GGF` | takes the position at the end of that game: its board (BO, 8 lines), its moves (B, W), passes (PA) |
| `move m/eval/time` | makes a move at that position; eval and time may be missing, a pass is PA |
| `hint n` | looks 1, 2, .. plies deep; for each depth a `search` line for each of the n best moves, then `nodestats` |
| `go` | looks as deep as is set, and answers `=== m/eval/time`; then `nodestats`. It plays nothing by itself: the board sends `move` |
| `analyze` | values the positions of the game from the last to the first: `analysis moves eval`, moves counted without passes |
| `ping n` | stops what it looks for, then `pong n` |
| `quit`, or the input's end | ends; at the input's end what was begun is finished first |

`search m eval 0 depth [at most|at least]`: hints come from the server's table of root bounds (TABLE, docs/PROTOCOL.md). The best
move's value is exact. Of most others only a bound is known, and then the number is that bound and the words behind the depth say so;
they stand in the order of their numbers. The line of play (`pv`) is the move alone, as a table has no more.

`eval` is in discs, seen by the player to move: where the line of play reaches the end of the game, its discs; else the evaluation's
points divided by a hundred (so less than 12), which are no discs. `nodestats nodes seconds`: nodes are frames of a search that the
server opened (by QUOTA), not positions: what a worker searches alone isn't counted. Time left (TI in GGF) isn't heeded: the depth
alone says how long a move takes. A sentence that can't be carried out (a move that isn't legal, a GGF that can't be read) is told by
`status`, and leaves the position as it was; one that isn't known is passed over, with a line on standard error. A server that can't be
reached or was lost is told by `status` and by one line on standard error, within 2 seconds; the status is 1 then.

What is known here of the protocol is the list of sentences above, from its users' descriptions; its own text was not at hand. So not
taken from it, but chosen here: whose view `analysis` takes (the player's to move), what `go` answers where the game is over (`=== PA`),
and that `hint` ends at the depth that is set, where some engines go on until the next `ping`. `learn`, `set contempt` and the
`book` sentences aren't spoken. It was tried by our own conversation alone, and with no board's program.
"""

import queue
import sys
import threading
import time
from collections.abc import Callable, Sequence

from .._core import DEEPEST
from ..board import PASS, Board
from ..errors import ColuwenError, FormatError, IllegalMove, Refused, Unreachable
from ..formats import ggf
from .command import OutputClosed, analyst_of, ending, parser, say
from .player import Player, Stopped, Unfit, in_discs

NAME = "coluwen-nboard"


def move_of(word: str) -> str:
    return "PA" if word == PASS else word.upper()


def played(board: Board, text: str) -> Board:
    """The board after a move, `F5/eval/time` or `PA`."""
    word = text.strip().split("/")[0].lower()
    try:
        return board.push(PASS if word in ("pa", "pass", "--") else word)
    except IllegalMove as fault:
        raise Unfit(str(fault)) from None


class Searcher(threading.Thread):
    """Carries out one search after another; the board's thread stops them."""

    def __init__(self, player: Player, tell: Callable[[str], None]):
        super().__init__(daemon=True)
        self.player, self.tell = player, tell
        self.asked: queue.Queue[tuple[Callable[..., None], tuple[object, ...]]] = queue.Queue()
        self.idle = threading.Event()
        self.lost: Exception | None = None
        self.idle.set()

    def begin(self, search: Callable[..., None], *words: object) -> None:
        self.idle.clear()
        self.player.begin()
        self.asked.put((search, words))

    def stop(self) -> None:
        """Stops what is looked for, and returns when nothing more will be said of it."""
        self.player.stop()
        self.idle.wait()

    def run(self) -> None:
        while True:
            search, words = self.asked.get()
            begun = time.monotonic()
            try:
                search(*words)
                self.tell(f"nodestats {self.player.nodes} {time.monotonic() - begun:.3f}")
                self.tell("status")
            except Stopped:
                self.tell("status")
            except (OSError, Refused) as fault:
                self.lost = fault if isinstance(fault, ColuwenError) else Unreachable(str(fault))
                self.tell(f"status {self.lost}")
            except OutputClosed as fault:
                self.lost = fault
            finally:
                self.idle.set()

    def go(self, board: Board) -> None:
        begun = time.monotonic()
        if board.is_over:
            self.tell("=== PA")
            return
        self.tell(f"status looking {self.player.limit(board.position, self.player.depth)} plies deep")
        found = self.player.search(board.position)
        self.tell(f"=== {move_of(found.best or PASS)}/{in_discs(found.score)}/{time.monotonic() - begun:.2f}")

    def hint(self, board: Board, count: int) -> None:
        for found in self.player.deepening(board.position) if not board.is_over else ():
            best_first = sorted(found.table, key=lambda entry: (entry.move != found.best, -entry.score.value, not entry.score.is_exact))  # noqa: B023
            for entry in best_first[:count]:
                said = {"=": "", "<": " at most", ">": " at least"}[entry.score.sign]
                self.tell(f"search {move_of(entry.move)} {in_discs(entry.score)} 0 {found.depth}{said}")

    def analyze(self, board: Board) -> None:
        positions = [*(position for position, move in board.positions() if move != PASS), board.position]
        for number in range(len(positions) - 1, -1, -1):
            self.tell(f"status analyzing: {number} moves made")
            self.tell(f"analysis {number} {in_discs(self.player.search(positions[number]).score)}")


class Bridge:
    """What the board says, sentence by sentence."""

    def __init__(self, searcher: Searcher, tell: Callable[[str], None]):
        self.searcher, self.tell, self.board = searcher, tell, Board()

    def heard(self, line: str) -> bool:
        """Carries out one sentence. Whether more are wanted."""
        word, _, rest = line.strip().partition(" ")
        if word == "set":
            what, _, rest = rest.partition(" ")
            word = f"set {what}"
        act = {"nboard": self.begun, "set depth": self.set_depth, "set game": self.set_game, "move": self.move, "hint": self.hint,
               "go": self.go, "analyze": self.analyze, "ping": self.ping}.get(word)  # fmt: skip
        if word == "quit":
            return False
        if act:
            self.searcher.stop()
            try:
                act(rest.strip())
            except Unfit as fault:
                self.tell(f"status {fault}")
        elif word:
            print(f"{NAME}: {word!r} isn't known", file=sys.stderr)
        return True

    def number(self, text: str) -> int:
        if not text.isdecimal():
            raise Unfit(f"{text!r} is no number")
        return int(text)

    def begun(self, _: str) -> None:
        self.tell("set myname Coluwen")

    def set_depth(self, text: str) -> None:
        depth = max(self.number(text), 1)
        self.searcher.player.depth = min(depth, DEEPEST)
        if depth > DEEPEST:
            self.tell(f"status the server looks {DEEPEST} plies deep at most")

    def set_game(self, text: str) -> None:
        try:
            self.board = ggf.read_game(text.strip()).board()
        except FormatError as fault:
            raise Unfit(str(fault)) from None

    def move(self, text: str) -> None:
        self.board = played(self.board, text)

    def hint(self, text: str) -> None:
        self.searcher.begin(self.searcher.hint, self.board, self.number(text))

    def go(self, _: str) -> None:
        self.searcher.begin(self.searcher.go, self.board)

    def analyze(self, _: str) -> None:
        self.searcher.begin(self.searcher.analyze, self.board)

    def ping(self, text: str) -> None:
        self.tell(f"pong {text}")


def main(words: Sequence[str] | None = None) -> int:
    options = parser(__doc__, NAME, outage=0)
    options.add_argument("--depth", type=int, default=6, choices=range(1, DEEPEST + 1), metavar="1..12", help="how many plies it looks at first (%(default)d)")
    asked = options.parse_args(words)
    client = analyst_of(asked, NAME, counts=True)
    lock = threading.Lock()
    heard: queue.Queue[str | None] = queue.Queue()

    def tell(line: str) -> None:
        with lock:
            say(line)

    def hear() -> None:
        for line in sys.stdin:
            heard.put(line)
        heard.put(None)

    client.info()  # a wrong port is said at once, and how deep the server looks is known
    searcher = Searcher(Player(client, asked.depth, lambda text: tell(f"status {text}")), tell)
    searcher.start()
    threading.Thread(target=hear, daemon=True).start()
    bridge = Bridge(searcher, tell)
    while True:
        try:
            line = heard.get(timeout=0.1)
        except queue.Empty:
            line = ""
        if line is None:
            searcher.idle.wait()
        if searcher.lost:
            raise searcher.lost
        if line is None or (line and not bridge.heard(line)):
            client.close()
            return 0


command = ending(NAME, main)

if __name__ == "__main__":
    command()
