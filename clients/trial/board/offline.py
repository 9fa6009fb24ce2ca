"""The board without a network: one file from a disk, and a page that was loaded once. Values are compared with `othello solve`."""
import shutil
import subprocess

from browsers import opened
from player import brief
from stand import GAME, NAMES, PAGE, SCORES, TEXT, TOP, check, chosen, faults_of, files, free_port, play, random_moves, settled, until, whole_game, worths

# Whether each script and style that the page has asked for is kept.
KEPT = """(caches.open('board').then(async (kept) => {
    const there = new Set((await kept.keys()).map((one) => one.url));
    window.left = performance.getEntriesByType('resource').filter(({ name }) => /[.](js|css)$/.test(name) && !there.has(name)).length + (there.size < 2);
  }), window.left === 0)"""


def try_file(name, folder):
    """board.html alone in a folder: it asks nothing of anybody, and its values are those of `othello solve`."""
    shutil.copy(PAGE / "board.html", folder / "board.html")
    with opened(name) as shown:
        for seed, count, depth in ((2, 12, 2), (3, 24, 4), (4, 54, 6)):
            game = random_moves(seed, count)
            position = settled(game[-1][1])
            shown.open(f"file://{folder}/board.html#moves={''.join(move for move, _ in game)}&depth={depth}&view=mover")
            shown.check("#game", False)
            shown.known()
            depth = position.empties if position.empties <= 12 else depth
            wanted = {move: brief("en", position.side, value, depth >= position.empties) for move, value in worths(position, depth).items() if move != "pass"}
            check(shown.evaluate(SCORES) == wanted, f"{name}: values from a disk: {shown.evaluate(SCORES)}, not {wanted}")
        asked = shown.evaluate("performance.getEntriesByType('resource').map((one) => one.name).filter((one) => !one.startsWith('blob:'))")
        check(asked == [] and not shown.faults(), f"{name}: the page from a disk asks {asked}")
        check(shown.says("#computed", "computed.local", module="page32.wasm") and shown.says("#computed", "computed.lowered") and shown.says("#class-help", "class.none"), f"{name}: {shown.text('#computed')}")
        shown.open(f"file://{folder}/board.html#moves={GAME}&at=3&depth=2")
        shown.click("[data-square=c4]")
        check(len(shown.evaluate(NAMES)) == 64 and shown.text("#faults") == "", f"{name}: a move from a disk")
    print(f"board: {name}: one file from a disk, its values right, nobody asked")


def try_again(name):
    """A page that was loaded opens without its server."""
    port = free_port()
    with opened(name) as shown:
        with files(port) as address:
            shown.open(f"{address}#moves=f5d6&depth=2")
            shown.until("the page is kept", KEPT, 60)
        shown.open(f"{address}#moves={whole_game(2)[:40]}&depth=2")
        shown.known()
        check(shown.evaluate(f"Object.keys({SCORES}).length") > 0, f"{name}: no values without the server")
    print(f"board: {name}: without its server, once it was loaded")


def try_changed(name, folder):
    """A module one byte of which was changed isn't run: the page says so, and the board goes on without values."""
    copy = folder / f"changed-{name}"
    shutil.copytree(PAGE, copy)
    for path in copy.glob("engine/*.wasm"):
        data = bytearray(path.read_bytes())
        data[len(data) // 2] ^= 1
        path.write_bytes(data)
    with files(folder=copy) as address, opened(name) as shown:
        shown.open(f"{address}#moves={GAME}&depth=2")
        until("the fault", lambda: shown.says("#state", "fault.engine"))
        play(shown, [shown.evaluate("document.querySelector('.square.legal').dataset.square")])
        check(shown.evaluate(SCORES) == {} and len(shown.evaluate(TEXT)) == len(GAME) + 2, f"{name}: values of a changed module: {shown.evaluate(SCORES)}")
    print(f"board: {name}: a changed module isn't run")


def try_made():
    """board.html is what the script makes of the files."""
    check(subprocess.run([PAGE / "bundle", "--check"], check=False).returncode == 0, "board.html isn't up to date")
    check(subprocess.run(["node", "--test", PAGE / "test.mjs"], check=False, cwd=TOP, stdout=subprocess.DEVNULL).returncode == 0, "clients/page/test.mjs")


def try_all(folder, name, only=""):
    with faults_of(name) as tried:
        for trial in chosen(only, try_made, try_file, try_again, try_changed):
            tried(trial.__name__, trial, *{try_made: (), try_again: (name,)}.get(trial, (name, folder)))
