"""Nothing jumps, a click is answered at once at any length of game, and the first values are there soon.

Other programs may have this machine's processors, so what the page takes is measured in the time that its process had a processor.
"""
import statistics

from browsers import main_thread, opened
from stand import check, chosen, faults_of, forms, play, whole_game

MOVES = ("f5", "d6", "c3", "d3", "c4", "f4", "f6", "g5", "e3", "f3", "g4", "h5")
SHIFTS = "new PerformanceObserver((list) => { for (const one of list.getEntries()) window.shifts = (window.shifts ?? 0) + one.value; }).observe({ type: 'layout-shift', buffered: true });"
# Where the parts of the page are, from its own corner.
PLACES = """Object.fromEntries(["bar", "board", "first", "fresh", "turn", "value", "state", "graph", "slide", "tab-moves", "tab-options", "moves"].map((name) => {
  const box = document.getElementById(name).getBoundingClientRect(); return [name, [box.left + scrollX, box.top + scrollY, box.width].map(Math.round)] }))"""
# A click with all that follows from it: handlers, style, layout, and the next picture.
CLICK = "return new Promise((done) => { document.querySelector(arguments[0])?.click(); requestAnimationFrame(() => setTimeout(done)); })"
CLICKED = ("#last", "#back", "#first", "#forward", "[data-square].legal", "#undo", "#last", "#moves .pair:nth-child(20) .move", "#tab-mistakes", "#tab-moves", "#tab-play")
FIRST = "performance.getEntriesByName('values')[0]?.startTime"
AT_ONCE, SHIFT, FIRST_VALUES = 50, 0.1, 500


def try_shifts(name, address, shapes):
    """Each part keeps its place while a game is played; Chromium also counts all shifts, those behind a click with the others."""
    counted = []
    for width, height, language, scheme in shapes:
        with opened(name, language, scheme, (width, height)) as shown:
            if name == "chromium":
                shown.driver.execute_cdp_cmd("Page.addScriptToEvaluateOnNewDocument", {"source": SHIFTS})
            shown.open(f"{address}#depth=6")
            there = shown.evaluate(PLACES)
            for move in (*MOVES, ""):
                play(shown, [move] if move else [])
                shown.known() if not move else shown.until("a value", "!!document.querySelector('.score')")
                moved = {part: place for part, place in shown.evaluate(PLACES).items() if any(abs(one - other) > 1 for one, other in zip(place, there[part]))}
                check(not moved, f"{name} at {width}: behind {move or 'all moves'} these jump: {moved}, from {there}")
            counted.append(shown.evaluate("window.shifts ?? 0"))
            check(counted[-1] < SHIFT, f"layout shift {counted[-1]:.3f} after 12 moves at {width}")
    print(f"board: {name}: nothing jumps at {len(shapes)} widths" + (f"; layout shift {max(counted):.4f} at most" if name == "chromium" else ""))


def try_clicks(name, address, shapes):
    slowest = {}
    for width, height, language, scheme in shapes:
        with opened(name, language, scheme, (width, height)) as shown:
            shown.open(f"{address}#moves={whole_game(3)}&at=0&depth=4")
            shown.known()
            renderer, taken = shown.renderer(), {}
            for _ in range(5):
                for selector in CLICKED:
                    before = main_thread(renderer)
                    shown.driver.execute_script(CLICK, selector)
                    taken.setdefault(selector, []).append(main_thread(renderer) - before)
            middle = {selector: statistics.median(found) for selector, found in taken.items()}
            slow = max(middle, key=middle.get)
            check(1 < middle[slow] < AT_ONCE, f"{name} at {width}: a click at {slow} takes {middle[slow]:.1f} ms")
            slowest[width] = f"{middle[slow]:.0f} ({slow})"
    print(f"board: {name}: milliseconds of the slowest click, with the picture behind it, by widths: {slowest}")


def try_first(name, address):
    """The first values behind the first paint, without the time in which the page waited for a processor that others had."""
    with opened(name) as shown:
        shown.open(f"{address}#depth=2")
        renderer, taken = shown.renderer(), []
        for _ in range(6):
            before = main_thread(renderer, 1)
            shown.open(f"{address}#moves=f5d6c3&depth=2")
            shown.until("a value", FIRST)
            behind = shown.evaluate(f"{FIRST} - performance.getEntriesByName('first-contentful-paint')[0].startTime")
            taken.append((behind - min(main_thread(renderer, 1) - before, behind / 2), behind))
        soon, clock = min(taken)
        check(soon < FIRST_VALUES, f"{name}: first values {soon:.0f} ms behind the first paint, {clock:.0f} by the clock")
        print(f"board: {name}: first values {soon:.0f} ms behind the first paint, {clock:.0f} by the clock")


def try_all(address, name, only=""):
    with faults_of(name) as tried:
        for trial in chosen(only, try_shifts, try_clicks, try_first):
            tried(trial.__name__, trial, name, address, *([] if trial is try_first else [forms(name)[3:4] if only else forms(name)]))
