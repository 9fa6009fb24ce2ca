"""Playing, going through a game, undoing, notes, addresses, what is read and written, the shelf, and a game against the program."""
import pathlib
import re
import statistics
import tempfile

from browsers import main_thread, opened
from stand import CELLS, FORMS, GAME, HERE, NAMES, SCORES, TEXT, check, chosen, ended, faults_of, forms, play, random_moves, said, sentence, settled, until, whole_game

KEY = {"Left": "\ue012", "Up": "\ue013", "Right": "\ue014", "Down": "\ue015", "Home": "\ue011", "End": "\ue010", "PageUp": "\ue00e", "PageDown": "\ue00f", "Enter": "\ue007", "Tab": "\ue004", "Escape": "\ue00c"}
WIPED_OUT = "e6f4e3f6g5d6e7f5c5"  # black has all discs, and 51 squares are empty
FOCUSED = "document.activeElement?.dataset.square"
CURVE = """(() => { const of = (selector, name) => [...document.querySelectorAll(`#graph ${selector}`)].map((one) => one.getAttribute(name)), numbers = (path) => [...(path ?? "").matchAll(/[ML]([\\d.]+) ([\\d.-]+)/g)].map(([, x, y]) => [Number(x), Number(y)]);
  return { points: numbers(of(".curve:not(.end)", "d")[0]), discs: numbers(of(".curve.end", "d")[0]), border: of(".border", "x1").map(Number), zero: of(".zero", "y1").map(Number), rows: of(".grid", "y1").map(Number),
    texts: [...document.querySelectorAll("#graph text")].map((one) => one.textContent) } })()"""


def try_moves(shown, address):
    """Each position of a game is the one of the Python package's rules, by a module's rules and by the page's own."""
    def same(move, position):
        legal = sorted(name for name, told in shown.evaluate(NAMES).items() if shown.says(told, "square.legal"))
        check(shown.evaluate(CELLS) == position.cells and legal == sorted(settled(position).squares()), f"{shown.name}: the position behind {move}")

    for seed in (1, 4):
        shown.open(f"{address}#depth=2")
        shown.check("#game", False)
        for move, position in random_moves(seed, 24):
            play(shown, [move])
            same(move, position)
    game = random_moves(2, 70)  # both players pass near its end
    shown.open(f"{address}#moves={''.join(move for move, _ in game)}&at=50&depth=2")
    for move, position in game[50:]:
        shown.press(KEY["Right"])
        same(move, position)


def try_tree(shown, address):
    shown.open(f"{address}#moves={GAME}&at=16&depth=2")
    for key, here in (("Left", "h6"), ("Left", "g3"), ("Home", ""), ("Right", "f5"), ("End", "f7")):
        shown.press(KEY[key])
        check(shown.evaluate(HERE) == here, f"{shown.name}: {key} leads to {shown.evaluate(HERE)}")
    shown.press(KEY["Left"])
    shown.evaluate("document.querySelector('.square.legal:not([data-square=f7])').click()")
    check("(" in shown.evaluate(TEXT), f"{shown.name}: no variation: {shown.evaluate(TEXT)}")
    shown.press(KEY["Up"])
    check(shown.evaluate(HERE) == "f7", f"{shown.name}: another variation")
    shown.press(KEY["Down"])
    shown.click("#promote")
    check(shown.evaluate(TEXT).endswith("(f7)"), f"{shown.name}: the main line")
    shown.click("#undo")
    check(not shown.evaluate(TEXT).endswith("(f7)"), f"{shown.name}: undone")
    shown.click("#redo")
    shown.click("#remove")
    check(shown.evaluate(TEXT) == GAME, f"{shown.name}: removed: {shown.evaluate(TEXT)}")
    shown.driver.execute_script("history.back()")
    shown.until("the browser's Back", f"{TEXT}.endsWith('(f7)')")


def try_seen(shown, address):
    """Values are seen: by the bar, tints, the best move's star, the last move, arrows of the best line; what is switched off isn't."""
    shown.open(f"{address}#moves={GAME}&at=11&depth=6")
    shown.check("#game", False)
    shown.known()
    shown.until("the best line", "document.querySelectorAll('.marks .knob').length === 2")
    found = shown.evaluate("['.square.best .star', '.disc .last', '.square .next'].map((one) => document.querySelectorAll(one).length)")
    check(found == [1, 1, 1] and shown.says("#value-note", "note.points", n=6) and shown.says("#line", "line.best"), f"{shown.name}: what is marked: {found}, {shown.text('#value-note')}")
    told = shown.evaluate("[...document.querySelectorAll('.square .score')].map((one) => [Number(one.textContent), Number(/tint(\\d)/.exec(one.parentElement.className)[1]), one.parentElement.matches('.best')])")
    told.sort(reverse=True)  # values are the mover's
    tints = [tint for _, tint, _ in told]
    check(told[0][2] and tints == sorted(tints) and tints[0] == 0 < tints[-1], f"{shown.name}: values and tints: {told}")
    best = told[0][0]
    share = shown.evaluate("Number(getComputedStyle(document.getElementById('bar')).getPropertyValue('--share'))")
    check((share < 0.5) == (best > 0) and shown.says(shown.evaluate("document.getElementById('bar').getAttribute('aria-label')"), "bar.known"), f"{shown.name}: the bar: {share} of {best}")
    shown.tab("options")
    for option, part in (("values", ".square .score"), ("tints", "[class*=tint]"), ("line", ".marks .knob"), ("bar", "#bar:not([hidden])")):
        shown.check(f"#show-{option}", False)
        check(shown.evaluate(f"document.querySelectorAll('.play {part}').length") == 0, f"{shown.name}: {option} are seen though switched off")
        shown.check(f"#show-{option}", True)
    shown.tab("moves")


def try_ends(shown, address):
    """Discs are facts, and say how empty squares count: of endings what `othello solve` plays to the end, with its empty squares for nobody and as in tournaments."""
    kinds = set()
    for seed, count in ((1, 52), (13, 54), (32, 50), (169, 52)):
        game = random_moves(seed, count)
        position = settled(game[-1][1])
        whole, empty = ended(position, position.empties)
        whole = whole if position.side == "X" else -whole
        discs = whole - empty * ((whole > 0) - (whole < 0))
        kinds.add((bool(empty), (whole > 0) - (whole < 0)))
        shown.open(f"{address}#moves={''.join(move for move, _ in game)}&depth=2")
        shown.check("#game", False)
        shown.known()
        note = ("note.empty", {"n": empty, "text": sentence(shown.language, whole)}) if empty and discs else ("note.end" if empty else "note.full", {})
        shown.until("the line to the end", f"/{said(shown.language, note[0], **note[1])}/.test(document.getElementById('value-note').textContent)")
        check(shown.text("#value") == sentence(shown.language, discs) and shown.says("#state", "state.end"), f"{shown.name}: {game[-1]} ends with {discs}, {empty} empty: {shown.text('#value')}")
    check({empty for empty, _ in kinds} == {False, True} and len({sign for _, sign in kinds}) == 3, f"{shown.name}: not all kinds of endings: {kinds}")
    shown.open(f"{address}#moves={WIPED_OUT}&depth=2")
    check(sentence(shown.language, 13) in shown.text("#value") and shown.says("#value-note", "note.over", n=51, text=sentence(shown.language, 64)), f"{shown.name}: a finished game: {shown.text('#value')} {shown.text('#value-note')}")


def try_graph(shown, address):
    """Points and discs have scales of their own, and a line stands where discs begin."""
    shown.open(f"{address}#moves={whole_game(6)}&at=52&depth=4")
    shown.known()
    shown.until("the graph", "document.querySelectorAll('#graph .curve.end').length === 1 && document.querySelector('#graph .curve.end').getAttribute('d').length > 99")
    found, end = shown.evaluate(CURVE), random_moves(6, 70)[-1][1]
    (middle,), rows, heights = found["zero"], sorted(set(found["rows"])), [y for _, y in found["points"] + found["discs"]]
    check(len(rows) == 6 and rows[0] - 0.1 <= min(heights) and max(heights) <= rows[-1] + 0.1, f"{shown.name}: a value leaves the graph: {rows} {heights}")
    by = [int(text[2:]) for text in found["texts"] if re.fullmatch(r"\S\+\d+", text)]
    check(len(by) == 2 and by[0] == by[1], f"{shown.name}: the graph's scales: {found['texts']}")
    discs = (middle - found["discs"][-1][1]) / (middle - rows[0]) * by[0]
    check(abs(discs - end.discs("X") + end.discs("O")) < 0.5, f"{shown.name}: the game ends with {discs} discs on the graph's scale of {by[0]}")
    check(len(found["points"]) + len(found["discs"]) == 61 and found["points"][-1][0] < found["border"][0] < found["discs"][0][0], f"{shown.name}: where discs begin: {found['border']}")


def try_help(shown, address):
    """Where nothing is there yet it is said, once, what to do; the legend opens when it is asked for."""
    shown.open(f"{address}#depth=2")
    for tab, place, name in (("moves", "#moves-panel", "moves.none"), ("mistakes", "#mistakes", "mistakes.none"), ("class", "#class-panel", "class.none")):
        shown.tab(tab)
        shown.until(f"what {tab} says", f"document.querySelector('{place}').innerText.trim()")
        text = shown.evaluate(f"document.querySelector('{place}').innerText.trim()")
        check(re.fullmatch(said(shown.language, name), text), f"{shown.name}: {tab} says {text!r}")
    shown.tab("moves")
    check(not shown.evaluate("document.getElementById('legend').open"), f"{shown.name}: the legend is open")
    shown.click("#help")
    names = shown.evaluate("[...document.querySelectorAll('#legend[open] dt')].map((one) => one.textContent)")
    check(len(names) == 8 and "≤+10" in names[0] and shown.evaluate("document.querySelectorAll('#legend dd:not(:empty)').length") == 8, f"{shown.name}: the legend: {names}")
    shown.press(KEY["Escape"])
    shown.until("the legend is closed", "!document.getElementById('legend').open")


def try_keys(shown, address):
    """A game by keys alone, as it is told to one who hears it: a square is reached, played, said with its value, and gone back from."""
    shown.open(f"{address}#depth=2")
    shown.known()
    shown.evaluate("document.getElementById('help').focus()")
    for key, square in (("Tab", "d3"), ("Left", "c3"), ("Down", "c4")):
        shown.press(KEY[key])
        check(shown.evaluate(FOCUSED) == square, f"{shown.name}: {key} leads to {shown.evaluate(FOCUSED)}")
    check(shown.says(shown.evaluate(f"{NAMES}.c4"), "square.legal"), f"{shown.name}: a square says {shown.evaluate(NAMES)['c4']}")
    shown.press(KEY["Enter"])
    check(shown.evaluate(TEXT) == "c4" and shown.says("#live", "said.move", ply=1, move="c4") and shown.evaluate(FOCUSED) == "c4", f"{shown.name}: Enter on c4: {shown.text('#live')}")
    until("its value is said", lambda: shown.says("#live-value", "said.value", n=2))
    shown.press(KEY["PageUp"])
    check(shown.evaluate(HERE) == "" and shown.says("#live", "said.start"), f"{shown.name}: Page Up: {shown.text('#live')}")
    shown.press(KEY["PageDown"])
    check(shown.evaluate(HERE) == "c4", f"{shown.name}: Page Down")


LABEL = "document.querySelector('[data-square={}]').getAttribute('aria-label')"
ROWS = "[...document.querySelectorAll('.mistake')].map((one) => one.dataset.sign)"
GAME_SEEN = """({ moves: [...document.querySelectorAll('.pair .what')].map((one) => one.textContent), mistakes: [...document.querySelectorAll('.mistake')].map((one) => one.dataset.sign),
  curve: [...document.querySelectorAll('#graph .curve:not(.beside)')].map((one) => one.getAttribute('d')) })"""


def try_mistake(shown, address):
    """A mistake opens the position before it, with what was played and what is better; a key tries the better move, and the game stays."""
    whole = whole_game(6)
    shown.open(f"{address}#moves={whole}&depth=4")
    shown.known()
    shown.tab("mistakes")
    at = shown.evaluate(f"{ROWS}.findIndex((row) => row.startsWith('??'))")
    row, pick = shown.evaluate(f"{ROWS}[{at}]"), f"document.querySelectorAll('.mistake')[{at}].click()"
    ply, move = int(re.search(r"(\d+)\. ", row)[1]), re.search(r"[a-h][1-8]", row)[0]
    best = re.findall(r"[a-h][1-8]", row)[1]
    shown.evaluate(pick)
    check(shown.evaluate(TEXT) == whole and shown.evaluate(HERE) == whole[2 * ply - 4:2 * ply - 2], f"{shown.name}: the mistake {move} opens {shown.evaluate(HERE)}")
    check(shown.says(shown.evaluate(LABEL.format(move)), "square.mistake") and shown.says(shown.evaluate(LABEL.format(best)), "square.best"), f"{shown.name}: the board doesn't show {move} and {best}")
    check(shown.evaluate("document.querySelectorAll('.square.slip').length") == 1 and move in shown.text("#strip-text") and best in shown.text("#strip-text"), f"{shown.name}: what is said of it: {shown.text('#strip-text')}")
    shown.evaluate("document.activeElement?.blur()")
    shown.press("n")
    other = shown.evaluate(f"{ROWS}[{at + 1}]")
    check(re.search(r"[a-h][1-8]", other)[0] in shown.text("#strip-text"), f"{shown.name}: N opens {shown.text('#strip-text')}, not {other}")
    shown.evaluate(pick)
    shown.press("t")
    check(f"({best})" in shown.evaluate(TEXT) and shown.evaluate("document.querySelector('.square .last')?.closest('.square').dataset.square") == best, f"{shown.name}: T tries {shown.evaluate(TEXT)}")
    shown.press(KEY["Escape"])
    check(shown.evaluate(HERE) == whole[2 * ply - 4:2 * ply - 2], f"{shown.name}: back in the game")
    shown.tab("moves")


def try_game(shown, address):
    """In a variation graph, list and mistakes are the game's; it is left at both its ends, by a button and by a key."""
    whole = whole_game(6)
    shown.open(f"{address}#moves={whole}&at=40&depth=4")
    shown.tab("mistakes")
    shown.known()
    shown.until("all rows", "document.querySelectorAll('#graph .curve.end').length === 1")
    before = shown.evaluate(GAME_SEEN)
    check(len(before["moves"]) == len(whole) // 2 and len(before["mistakes"]) > 3, f"{shown.name}: the game: {before}")
    other = shown.evaluate("document.querySelector('.square.legal:not(.next)').dataset.square")
    play(shown, [other])
    shown.known()
    shown.until("the variation's curve", "(document.querySelector('#graph .curve.beside')?.getAttribute('d') ?? '').length > 9")
    there = shown.evaluate(GAME_SEEN)
    check(there == before, f"{shown.name}: in a variation the game isn't the same: {[(name, there[name], before[name]) for name in before if there[name] != before[name]]}")
    check(shown.says("#strip-text", "strip.variation", ply=40) and shown.evaluate("document.querySelector('#moves .variations [aria-current]').textContent") == other, f"{shown.name}: the variation: {shown.text('#strip-text')}")
    for way in ("#forward", "#back", "#strip-buttons [data-does=game]"):
        shown.click(way)
        check(shown.evaluate(HERE) == whole[78:80] and not shown.evaluate("document.getElementById('strip-buttons').querySelector('[data-does=game]')"), f"{shown.name}: {way} leads to {shown.evaluate(HERE)}")
        shown.click("#forward")
        check(shown.evaluate(HERE) == whole[80:82], f"{shown.name}: behind {way} the game goes on at {shown.evaluate(HERE)}")
        shown.click("#back")
        shown.evaluate("document.querySelector('#moves .variations button').click()")
        check(shown.evaluate(HERE) == "", f"{shown.name}: the variation again")
    shown.press(KEY["Escape"])
    check(shown.evaluate(HERE) == whole[78:80], f"{shown.name}: Escape leads to {shown.evaluate(HERE)}")
    shown.tab("moves")


def try_saved(shown, address):
    """What is saved is the game, also where a variation is looked at; what a format can't have is said. Moves, a position and a link are copied."""
    shown.open(f"{address}#moves=f5d6!{{Good}}(f4c3)c3d3&at=4&depth=2")  # at f4's answer
    shown.driver.execute_script("document.addEventListener('click', (event) => event.target.download && event.preventDefault(), true)")
    check(shown.evaluate("document.querySelectorAll('#moves .variations [aria-current]').length") == 1, f"{shown.name}: not in the variation")
    position = shown.evaluate(CELLS)
    shown.tab("files")
    given = "document.getElementById('given').value"
    for kind, wanted in (("ggf", "B[f5]W[d6]B[c3]W[d3]"), ("sgf", "B[f5](;W[d6]TE[1]C[Good];B[c3];W[d3])(;W[f4];B[c3])"), ("txt", "f5 d6!{Good} (f4 c3) c3 d3")):
        shown.fill("#save-as", kind)
        shown.click("#save")
        check(wanted in shown.evaluate(given), f"{shown.name}: {kind} is {shown.evaluate(given)}")
        lost = shown.says("#live", "export.lost", kind="GGF", variations=said(shown.language, "export.variations", n=1).replace(".*", "1").replace("\\", ""), notes=said(shown.language, "export.notes", n=1).replace(".*", "1").replace("\\", ""))
        check(lost == (kind == "ggf"), f"{shown.name}: of {kind} it says {shown.text('#live')}")
    shown.click("#copy-text")
    check(shown.evaluate(given) == "f5d6c3d3", f"{shown.name}: moves are copied as {shown.evaluate(given)}")
    shown.click("#copy-position")
    check(shown.evaluate(given) == f"{position} O", f"{shown.name}: the position is copied as {shown.evaluate(given)}")
    own = address
    if address.startswith("file:"):  # a link that others can open, or none
        own = "https://board.example/"
        check(shown.says("#link-told", "export.nolink") and shown.evaluate("document.getElementById('copy-link').getAttribute('aria-disabled')") == "true", f"{shown.name}: a link to a disk is offered")
        shown.fill("#address", own)
    shown.click("#copy-link")
    check(shown.evaluate(given).startswith(f"{own}#moves=f5d6"), f"{shown.name}: the link is {shown.evaluate(given)}")
    shown.fill("#address", "")
    shown.tab("moves")


def try_sign(shown, address):
    """Points of squares and lists are the mover's, or Black's where that is chosen, and that is kept; discs and the graph stay what they are."""
    whole, told = whole_game(6), {}
    for sign in ("mover", "black"):
        shown.open(f"{address}#moves={whole}&at=41&depth=4")
        shown.tab("options")
        shown.fill("#sign", sign)
        shown.known()
        shown.tab("mistakes")
        told[sign] = {"squares": shown.evaluate(SCORES), "list": shown.evaluate("[...document.querySelectorAll('.pair .move .value')].map((one) => one.textContent)"), "graph": shown.evaluate(CURVE)["points"], "address": shown.evaluate("location.hash")}
        check(shown.says("#mistakes", f"sign.{sign}"), f"{shown.name}: whose points these are isn't said")
    turned = {move: text if text == "0" else {"+": "-", "-": "+"}[text[0]] + text[1:] for move, text in told["mover"]["squares"].items()}
    check(told["black"]["squares"] == turned and turned, f"{shown.name}: with White to move the squares are {told['black']['squares']}, and the mover's {told['mover']['squares']}")
    pairs = list(zip(told["mover"]["list"], told["black"]["list"]))
    check(all(one == other for one, other in pairs[::2]) and any(one != other for one, other in pairs[1:40:2]) and all(one == other for one, other in pairs[48:]), f"{shown.name}: the list's signs: {pairs}")
    check(told["mover"]["graph"] == told["black"]["graph"] and "view=black" in told["black"]["address"] and "view" not in told["mover"]["address"], f"{shown.name}: the graph, or the address: {told['black']['address']}")
    shown.open(f"{address}#depth=2")
    check(shown.evaluate("document.getElementById('sign').value") == "black", f"{shown.name}: the sign isn't kept")
    shown.tab("options")
    shown.fill("#sign", "mover")
    shown.tab("moves")


def try_states(shown, address):
    """What is said is so: no pass behind a last move, lists that say why nothing comes, and counts that end."""
    seed = next(one for one in range(1, 60) if settled(random_moves(one, 70)[-2][1]).side == "X")  # the last move is Black's
    shown.open(f"{address}#moves={whole_game(seed)}&depth=2")
    last = shown.evaluate("[...document.querySelectorAll('.pair')].at(-1).textContent")
    check(not shown.says(last, "pass"), f"{shown.name}: behind the last move stands {last}")
    shown.known()
    shown.tab("options")
    shown.check("#analyse", False)
    for tab in ("moves", "mistakes"):
        shown.tab(tab)
        check(shown.says(f"#{tab}-panel", "state.off"), f"{shown.name}: with its analysis off {tab} says {shown.text(f'#{tab}-panel')[:80]}")
        check(not shown.says(f"#{tab}-panel", "mistakes.wait"), f"{shown.name}: {tab} counts on")
    shown.open(f"{address}#moves={whole_game(seed)}&at=20&depth=12")
    shown.tab("options")
    shown.check("#analyse", False)
    check(shown.says("#state", "state.off") and shown.evaluate("document.getElementById('stop').getAttribute('aria-disabled')") == "true", f"{shown.name}: with its analysis off there is something to stop: {shown.text('#state')}")
    shown.tab("play")
    shown.click("#play-begin")
    shown.evaluate("document.querySelector('[data-square=f5]').click()")
    shown.until("the program's move", "document.querySelectorAll('.disc').length === 6")
    shown.click("#play-end")
    shown.open(f"{address}#depth=2")


def try_paste(shown, address):
    """A game is pasted anywhere; what has too many lines is refused at once."""
    shown.open(f"{address}#depth=2")
    paste = """((text) => { const data = new DataTransfer(); data.setData('text/plain', text); // (Firefox takes a text alone)
      document.querySelector('main').dispatchEvent(new ClipboardEvent('paste', { clipboardData: data, data: text, dataType: 'text/plain', bubbles: true, cancelable: true })); })"""
    shown.evaluate(f"{paste}('1.F5 D6 2.C3 D3')")
    check(shown.evaluate(TEXT) == "f5d6c3d3", f"{shown.name}: pasted: {shown.evaluate(TEXT)}")
    shown.evaluate(f"{paste}('[Black \"Anna\"]\\n\\nf5 d6 33-31')")
    check(shown.evaluate(TEXT) == "f5d6" and shown.text("#names") == "Anna, 2".replace("Anna", "Anna – ?"), f"{shown.name}: a PGN: {shown.text('#names')}")
    renderer = shown.renderer()
    before = main_thread(renderer)
    shown.evaluate(f"{paste}('f5d6\\n'.repeat(140000))")
    taken = main_thread(renderer) - before  # of a processor, as others may have this machine's
    check(shown.evaluate(TEXT) == "f5d6" and shown.says("#live", "read.many", number=140001) and taken < 2000, f"{shown.name}: 140,000 lines: {shown.text('#live')} in {taken:.0f} ms")


def try_history(shown, address):
    """A step through the game is one entry of the browser's list, and the current move is in sight."""
    shown.open(f"{address}#moves={whole_game(3)}&at=0&depth=2")
    shown.driver.execute_script("window.entries = 0; const push = history.pushState; history.pushState = (...words) => { window.entries += 1; push.apply(history, words); }")  # (a browser's list ends at 50)
    for _ in range(20):
        shown.click("#forward")
    for _ in range(10):
        shown.press(KEY["Right"])
    check(shown.evaluate("window.entries") == 1, f"{shown.name}: 30 steps are {shown.evaluate('window.entries')} entries")
    shown.tab("files")
    shown.press(KEY["End"]) if shown.evaluate("document.activeElement === document.body") else shown.click("#last")
    shown.tab("moves")
    shown.until("the last move is in sight", """(() => { const one = document.querySelector('#moves [aria-current]').getBoundingClientRect(), list = document.getElementById('moves-panel').getBoundingClientRect();
      return matchMedia('(max-width: 700px), (orientation: portrait) and (max-width: 1100px)').matches || (one.top >= list.top - 1 && one.bottom <= list.bottom + 1) })()""", 10)


def try_notes(shown, address):
    shown.open(f"{address}#moves={GAME}&at=2&depth=2")
    shown.click("#glyphs button:nth-child(4)")
    shown.fill("#comment", "A {diagonal} one")
    check(shown.evaluate(TEXT).startswith("f5d6?!{A diagonal one}c3") and "A diagonal one" in shown.text("#moves"), f"{shown.name}: a note: {shown.evaluate(TEXT)}")
    address_there = shown.evaluate("location.href")
    shown.open(address_there)
    check("A diagonal one" in shown.text("#moves") and "?!" in shown.text("#moves [aria-current]"), f"{shown.name}: a note in an address")
    check(shown.text("#strip-text") != "", f"{shown.name}: no name of an opening")


def try_reading(shown, address, folder):
    """What is pasted and opened; faults are said once, with their places; names go on."""
    whole = whole_game(5)
    shown.open(f"{address}#depth=2")
    shown.tab("files")
    moves = "".join("BW"[at % 2] + f"[{GAME[2 * at:2 * at + 2]}]" for at in range(8))
    ggf = f"(;GM[Othello]PB[Anna]PW[Bo]DT[2026.11.27]RE[+4]TY[8]{moves};)"
    board = "\n".join(["--------"] * 3 + ["---OX---", "---XO---"] + ["--------"] * 3)
    for text, moves, faults in (("f5d6c3", "f5d6c3", 0), ("1. f5 2. d6", "f5d6", 0), (ggf, GAME[:16], 0), (board, "", 0), ("f5d6c3a1", "f5d6c3", 1), ("f5d6\nxx", "f5d6", 1), (f"{ggf}\n{ggf}", GAME[:16], 0)):
        shown.fill("#pasted", text)
        shown.click("#import")
        found = shown.evaluate("[...document.querySelectorAll('#faults li')].map((one) => one.textContent)")
        check(shown.evaluate(TEXT) == moves and len(found) == faults, f"{shown.name}: {text[:30]!r} is read as {shown.evaluate(TEXT)} {found}")
    check(shown.text("#names") == "Anna – Bo, 2026-11-27, 4" and shown.evaluate("document.getElementById('games').options.length") == 2, f"{shown.name}: names: {shown.text('#names')}")
    link = shown.evaluate("location.href")
    shown.open(link)
    check(shown.text("#names") == "Anna – Bo, 2026-11-27, 4", f"{shown.name}: names in an address")
    shown.tab("files")
    for kind in ("ggf", "sgf"):
        shown.fill("#save-as", kind)
        shown.driver.execute_script("document.addEventListener('click', (event) => event.target.download && event.preventDefault(), true)")
        shown.click("#save")
        shown.fill("#pasted", shown.evaluate("document.getElementById('given').value"))
        shown.click("#fresh")
        shown.click("#import")
        check(shown.text("#names") == "Anna – Bo, 2026-11-27, 4" and shown.evaluate(TEXT) == GAME[:16], f"{shown.name}: {kind}: {shown.text('#names')}")
    shown.driver.execute_script("window.saved = []; const given = URL.createObjectURL; URL.createObjectURL = (one) => { saved.push([one.type, one.size]); return given.call(URL, one); }")
    for kind, many in (("svg", 1), ("png", 2), ("wtb", 5)):
        shown.fill("#save-as", kind)
        shown.click("#save")
        shown.until(kind, f"window.saved.length === {many}")
    kinds = shown.evaluate("window.saved.map(([kind, size]) => kind.split('/')[1] + (size > 15 ? '' : ' ' + size))")
    check(kinds == ["svg+xml", "png", *["octet-stream"] * 3], f"{shown.name}: saved: {kinds}")
    for number, text in enumerate((whole, GAME)):
        (folder / f"{number}.txt").write_text(text)
    shown.keys("#file", "\n".join(str(folder / f"{number}.txt") for number in range(2)))
    shown.until("two files", "document.getElementById('games').options.length === 2")
    check(shown.evaluate(TEXT) == whole, f"{shown.name}: the first of two files")
    check(not (faults := shown.faults()), f"{shown.name} complains: {faults}")


def try_markup(shown, address):
    """What is typed, read or opened is never markup, and no other origin is asked."""
    bad = "<img src=x onerror=\"document.title='bad'\"><script>document.title='bad'</script>"
    shown.open(f"{address}?lang={bad}#moves={bad}&start={bad}&at={bad}&black={bad}&follow=%3Cb%3E&view={bad}")
    shown.tab("files")
    shown.fill("#pasted", f"(;GM[2]PB[{bad}];B[f5]C[{bad}])")
    shown.click("#import")
    check("<img" in shown.text("#names") and "<img" in shown.text("#moves"), f"{shown.name}: the names aren't shown as they are")
    check(not shown.evaluate("document.querySelectorAll('img, main script').length") and shown.evaluate("document.title") != "bad", f"{shown.name}: what is typed is markup")
    check(shown.evaluate("(() => { try { document.body.innerHTML = '<b>x</b>'; return document.querySelectorAll('b').length === 1 && !document.querySelector('main') } catch { return false } })()") is False, f"{shown.name}: a script may write markup")
    check(shown.name != "chromium" or any("TrustedHTML" in fault for fault in shown.faults()), f"{shown.name}: the policy says nothing")


def try_shelf(shown, address):
    shown.open(f"{address}#moves=f5d6c3&at=3&black=Anna&depth=2")
    shown.tab("files")
    check(shown.says("#shelf", "shelf.none"), f"{shown.name}: an empty shelf says what to do")
    shown.fill("#shelf-name", "First")
    shown.click("#shelf-keep")
    shown.click("#fresh")
    shown.open(f"{address}#depth=2")
    shown.tab("files")
    shown.click("#shelf li button")
    check(shown.evaluate(TEXT) == "f5d6c3" and "Anna" in shown.text("#names"), f"{shown.name}: the shelf")
    shown.click("#shelf li button:nth-child(2)")
    check(shown.says("#shelf", "shelf.none"), f"{shown.name}: the shelf isn't emptied")


def try_program(shown, address):
    """The program answers; values are hidden; a move is taken back, a hint is given."""
    shown.open(f"{address}#")
    shown.tab("play")
    shown.fill("#level", "3")
    shown.click("#play-begin")
    check(shown.evaluate(SCORES) == {}, f"{shown.name}: values are shown in a game")
    shown.evaluate("document.querySelector('[data-square=f5]').click()")
    shown.until("the program's move", "document.querySelectorAll('.disc').length === 6")
    shown.click("#hint")
    shown.until("a hint", "document.querySelectorAll('.square.hint').length === 1")
    shown.click("#take-back")
    check(shown.evaluate("document.querySelectorAll('.disc').length") == 4 and shown.says("#names", "play.program.name", n=4), f"{shown.name}: taken back")
    shown.fill("#play-side", "O")
    shown.click("#play-begin")
    shown.until("the program's first move", "document.querySelectorAll('.disc').length === 5")
    shown.click("#play-end")
    shown.until("values again", f"Object.keys({SCORES}).length")


def try_quiz(shown, address):
    """Mistakes become questions: values are hidden until there is an answer."""
    shown.open(f"{address}#moves={whole_game(6)}&depth=4")
    shown.known()
    shown.tab("play")
    shown.click("#quiz-begin")
    check(shown.evaluate(SCORES) == {} and shown.says("#quiz-told", "quiz.ask", n=1), f"{shown.name}: a question: {shown.text('#quiz-told')}")
    discs = shown.evaluate("document.querySelectorAll('.disc').length")
    for square in shown.evaluate("[...document.querySelectorAll('.square.legal')].map((one) => one.dataset.square)")[:2]:
        if shown.says("#quiz-told", "quiz.ask") or shown.says("#quiz-told", "quiz.again"):
            shown.click(f'[data-square="{square}"]')
    check(shown.evaluate("document.querySelectorAll('.disc').length") == discs and shown.evaluate(f"Object.keys({SCORES}).length"), f"{shown.name}: an answer")
    check(shown.says("#quiz-told", "quiz.score", n=1), f"{shown.name}: {shown.text('#quiz-told')}")
    shown.click("#quiz-next")
    check(shown.says("#quiz-told", "quiz.ask", n=2), f"{shown.name}: the next question")


def try_stop(shown, address):
    shown.open(f"{address}#moves={whole_game(8)[:60]}&depth=12")
    shown.until("something to stop", "document.getElementById('stop').getAttribute('aria-disabled') === 'false'")
    seen = set()
    until(f"{shown.name}: how far it is", lambda: seen.update(name for name in ("state.searching", "state.game") if shown.says("#state", name)) or len(seen) == 2)
    renderer, taken = shown.renderer(), []
    for _ in range(5):
        before = main_thread(renderer)
        shown.evaluate("document.getElementById('stop').click()")
        taken.append(main_thread(renderer) - before)
        check(shown.says("#state", "state.stopped"), f"{shown.name}: stop: {shown.text('#state')}")
        shown.click("#stop")
        until("it goes on", lambda: not shown.says("#state", "state.stopped"))
    check(statistics.median(taken) < 50, f"{shown.name}: stop takes {taken} ms of a processor")


def try_all(address, name, only=""):
    """Each in both browsers and at each width."""
    trials = chosen(only, try_moves, try_tree, try_keys, try_seen, try_ends, try_graph, try_mistake, try_game, try_saved, try_sign, try_states, try_paste, try_history, try_help, try_notes, try_shelf, try_program, try_quiz, try_stop, try_markup, try_reading)
    with faults_of(name) as tried:
        for at, (width, height, language, scheme) in enumerate(forms(name)):
            if only and at != 3:
                continue  # (one that is named alone is tried at one width)
            with opened(name, language, scheme, (width, height)) as shown, tempfile.TemporaryDirectory() as folder:
                for trial in trials:
                    tried(f"{trial.__name__} at {width}", trial, shown, address, *([pathlib.Path(folder)] if trial is try_reading else []))
    print(f"board: {name}: moves, variations, keys, values, endings, graph, mistakes, what is saved, signs, states, notes, addresses, formats, shelf, program, questions, stop, at {1 if only else len(FORMS)} widths")
