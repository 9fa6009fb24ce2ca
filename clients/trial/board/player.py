"""The board as a player meets it: one sign for all values, why a game was lost, what an opinion is worth, the loop through mistakes, a first minute,
zoom, what is pasted, and states that are true. Values are those of the page's module by node, which `othello solve` is compared with elsewhere.
"""
import json
import re
import shutil
import subprocess
import tempfile
import time

from browsers import main_thread, opened
from playing import CURVE, KEY
from stand import GAME, HERE, OPENING, PAGE, SCORES, TEXT, TEXTS, TOP, check, chosen, faults_of, files, forms, on_disk, play, random_moves, said, sentence, settled, until, whole_game

LAST = 12  # empty squares from which on all is a fact
SIDES = {"X": "black", "O": "white"}
PASTE = """((text) => { const data = new DataTransfer(); data.setData('text/plain', text); // (Firefox takes a text alone)
  document.querySelector('main').dispatchEvent(new ClipboardEvent('paste', { clipboardData: data, data: text, dataType: 'text/plain', bubbles: true, cancelable: true })); })"""
LISTED = "[...document.querySelectorAll('.pair .move')].map((one) => ({ move: one.querySelector('.what').textContent, value: one.querySelector('.value').textContent, told: `${one.ariaLabel} ${one.title}` }))"
ROWS = "[...document.querySelectorAll('.mistake')].map((one) => one.dataset.sign)"
BARE = "document.getElementById('bar').textContent.replace('\\u200b', '')"
# Every text that may show a value, by its place.
SHOWN = """Object.fromEntries([...document.querySelectorAll(".square, #strip-text, #bar, #value, #value-note, #line, #graph, #why-text, .move, .mistake, #mistakes, #quiz-told, #live-value, #live, #sheet, #legend-list")]
  .map((one, at) => [`${at} ${one.id || one.className}`, [one.textContent, one.ariaLabel ?? "", one.title ?? "", one.ariaValueText ?? "", ...[...one.querySelectorAll("[aria-label]")].map((inner) => inner.getAttribute("aria-label"))].join(" | ")]))"""


MODULE = """import { readFileSync } from "node:fs"; const told = JSON.parse(readFileSync(0)), engine = (await WebAssembly.instantiate(readFileSync(told.module), {})).instance.exports;
  console.log(JSON.stringify(told.boards.map(([own, opp, depth]) => Number(engine.analyse(BigInt(own), BigInt(opp), depth) >> 7n))));"""


def values(pairs):
    """Of each pair of a position and a depth its value for the player to move."""
    def word(position, disc):
        return str(sum(1 << at for at, cell in enumerate(position.cells) if cell == disc))

    boards = [(word(one, one.side), word(one, {"X": "O", "O": "X"}[one.side]), depth) for one, depth in pairs]
    told = json.dumps({"module": str(PAGE / "engine/page32.wasm"), "boards": boards})
    return json.loads(subprocess.run(["node", "--input-type=module", "-e", MODULE], input=told, check=True, stdout=subprocess.PIPE, text=True).stdout)


def worths(position, depth):
    """What each move is worth, so many plies deep: the value of the position behind it, turned."""
    moves = position.legal_moves()
    return {move: -worth for move, worth in zip(moves, values([(position.play(move), depth if move == "pass" else depth - 1) for move in moves]))}


def letters(language):
    return {side: TEXTS[language][f"letter.{side}"] for side in "XO"}


def discs_text(language, side, discs):
    """So many discs for a side, as a square shows them: the winner's letter and how many."""
    if not discs:
        return TEXTS[language]["brief.draw"]
    return f"{letters(language)[side if discs > 0 else {'X': 'O', 'O': 'X'}[side]]}+{abs(discs)}"


def brief(language, side, value, ends):
    """A value as a square shows it: a number for the player who moves, or a letter and a number."""
    if ends or abs(value) > 1184:
        return discs_text(language, side, int(value / 2000))
    return f"{value:+d}" if value else "0"


def in_words(language, side, value, ends):
    """The same as it is said."""
    table = TEXTS[language]
    if ends or abs(value) > 1184:
        discs = int(value / 2000)
        winner = side if discs > 0 else {"X": "O", "O": "X"}[side]
        amount = table["unit.discs"].get("one" if abs(discs) == 1 else "other", table["unit.discs"]["other"]).replace("{n}", str(abs(discs)))
        return table["by.side"].replace("{side}", table[SIDES[winner]]).replace("{n}", amount) if discs else table["draw"]
    form = table["points"].get("one" if abs(value) == 1 else "other", table["points"]["other"])
    return form.replace("{text}", f"{value:+d}" if value else "0").replace("{side}", table[SIDES[side]])


def positions(moves):
    """The positions of a game, from its start on, each with the player who can move."""
    found = [OPENING]
    for move in re.findall("..", moves):
        found.append(settled(found[-1].play(move)))
    return found


def truth(position, depth):
    """What each move of a position is worth: {move: value}, and whether these are results."""
    ends = position.empties <= LAST
    return {move: value for move, value in worths(position, position.empties if ends else depth).items() if move != "pass"}, ends


def results(moves):
    """Of each position of a game that is searched to the end the result for Black by best play, from the first on: its number and they."""
    played = positions(moves)
    first = next(at for at, one in enumerate(played) if one.empties <= LAST)
    behind = [(one, one.empties) for one in played[first:]]
    return first, [worth // 2000 * (1 if one.side == "X" else -1) for (one, _), worth in zip(behind, values(behind))]


def turn_of(moves):
    """The number of the move after which a game was lost for certain; None where it was lost before."""
    first, found = results(moves)
    sign = (found[-1] > 0) - (found[-1] < 0)
    same = [((one > 0) - (one < 0)) == sign for one in found]
    at = max((at for at in range(1, len(found)) if same[at] and not same[at - 1]), default=None)
    return (first + at, found[at - 1], found[at]) if at else (None, found[0], found[-1])


def strange(language, text):
    """What in a text shows a value otherwise than by the rule: another's win as a loss, discs without their side, or a letter without its sign."""
    one, other = letters(language).values()
    losses = {"en": r"\b[WL]\d|\b(?:win|loss|lose[sd]?|wins) by \d|\bB\d", "de": r"\b[NS]\d|\b(?:Sieg|Niederlage|gewinnt) mit \d", "ja": r"[勝負]\d"}[language]
    return re.findall(losses, re.sub(rf"(?:{re.escape(TEXTS[language]['black'])}|{re.escape(TEXTS[language]['white'])}) (?:wins by|gewinnt mit|by|mit|の) \d+", "", text)) + re.findall(rf"(?:^|\s)[{one}{other}]-\d+", text)


def try_sign(shown, address):
    """One rule for every text that shows a value: the mover's points, and discs by their winner's letter, with White to move and with Black."""
    language, whole = shown.language, whole_game(6)
    told = positions(whole)
    facts = [at for at in range(len(told) - 1) if told[at].empties <= LAST and not told[at].must_pass]
    for at in (next(one for one in facts if told[one].side == "O"), next(one for one in facts if told[one].side == "X"), 21, 30):
        here = told[at]
        moves, ends = truth(here, 2)
        shown.open(f"{address}#moves={whole}&at={at}&depth=2")
        shown.known()
        wanted = {move: brief(language, here.side, value, ends) for move, value in moves.items()}
        check(shown.evaluate(SCORES) == wanted, f"{shown.name}: with {here.side} to move squares are {shown.evaluate(SCORES)}, not {wanted}")
        names = shown.evaluate("Object.fromEntries([...document.querySelectorAll('.square')].map((one) => [one.dataset.square, one.ariaLabel ?? one.getAttribute('aria-label')]))")
        wrong = [move for move, value in moves.items() if in_words(language, here.side, value, ends) not in names[move]]
        check(not wrong, f"{shown.name}: {wrong[:3]} are said as {[names[move] for move in wrong[:3]]}")
        best = max(moves.values())
        discs = int(best / 2000) * (1 if here.side == "X" else -1)
        if ends:
            check(shown.text("#value") == sentence(language, discs) and shown.evaluate(BARE) == discs_text(language, "X", discs), f"{shown.name}: the title {shown.text('#value')!r} and the bar {shown.evaluate(BARE)!r} of {discs} for Black")
        else:
            check(not re.search(r"\d", shown.evaluate(BARE)), f"{shown.name}: points in the bar: {shown.evaluate(BARE)}")
        shown.evaluate("document.getElementById('last').click()")
        until("the position's value is said", lambda: shown.evaluate("document.documentElement.dataset.known === 'yes'"))
    listed = shown.evaluate(LISTED)
    for number, (one, position) in enumerate(zip(listed, told)):
        moves, ends = truth(position, 2) if number > 40 or number < 12 else (None, None)
        if moves:
            wanted = brief(language, position.side, moves[one["move"]], ends)
            check(one["value"] == wanted and in_words(language, position.side, moves[one["move"]], ends) in one["told"], f"{shown.name}: move {number + 1} is {one}, not {wanted}")
    shown.tab("mistakes")
    for row in shown.evaluate(ROWS):
        ply, (move, best) = int(re.search(r"(\d+)\. ", row)[1]), re.findall(r"[a-h][1-8]", row)[:2]
        moves, ends = truth(told[ply - 1], 2)
        values_ = [brief(language, told[ply - 1].side, moves[one], ends) for one in (best, move)]
        check(all(one in row.split(best)[1] for one in values_), f"{shown.name}: {row!r} has not {values_}")
    shown.evaluate("document.querySelector('.mistake').click()")
    strip = shown.text("#strip-text")
    check(re.search(r"[a-h][1-8] (?:[+-]?\d+|\S\+\d+)", strip), f"{shown.name}: the line below the board: {strip}")
    shown.evaluate("window.dispatchEvent(new Event('beforeprint'))")
    for place, text in shown.evaluate(SHOWN).items():
        check(not (found := strange(language, text)), f"{shown.name}: {place} says {found} in {text[:120]!r}")
    shown.tab("moves")


def try_right(shown, address):
    """A right answer, its square and the title have one sign, where White answers."""
    language, whole = shown.language, whole_game(6)
    shown.open(f"{address}#moves={whole}&depth=2")
    shown.known()
    shown.tab("play")
    shown.fill("#quiz-side", "O")
    shown.click("#quiz-begin")
    here = shown.evaluate(f"{TEXT}") and shown.evaluate("[...document.querySelectorAll('#moves .pair .move')].findIndex((one) => one.getAttribute('aria-current')) + 1")
    position = positions(whole)[here]
    moves, ends = truth(position, 2)
    check(position.side == "O" and ends, f"{shown.name}: a question of White's at {here}")
    best = max(moves, key=moves.get)
    shown.click(f'[data-square="{best}"]')
    check(shown.says("#quiz-told", "quiz.right", move=best) and in_words(language, "O", moves[best], ends) in shown.text("#quiz-told") and shown.evaluate(SCORES)[best] == brief(language, "O", moves[best], ends), f"{shown.name}: {shown.text('#quiz-told')} over {shown.evaluate(SCORES)}")
    shown.click("#quiz-end")
    shown.fill("#quiz-side", "")
    shown.tab("moves")


def try_why(shown, address):
    """The first thing that is said of a game is where it was lost, with one mark on the graph; the list has the game's order and one player's, if that is chosen."""
    language = shown.language
    games = {"turn": 6, "before": next(seed for seed in range(1, 40) if turn_of(whole_game(seed))[0] is None and results(whole_game(seed))[1][-1])}
    for kind, seed in games.items():
        whole = whole_game(seed)
        ply, before, after = turn_of(whole)
        shown.open(f"{address}#moves={whole}&depth=4")
        shown.known()
        shown.until("why", f"!/{said(language, 'why.waits')}/.test(document.getElementById('why-text').textContent)")
        text = shown.text("#why-text")
        if kind == "turn":
            side = TEXTS[language][SIDES["O" if after > 0 else "X"]]
            words = {"side": side, "move": f"{ply}. {whole[2 * ply - 2:2 * ply]}", "before": in_words(language, "X", 2000 * before, True), "after": in_words(language, "X", 2000 * after, True)}
            check(shown.says("#why-text", "why.turn", **words), f"{shown.name}: why: {text!r}, not {words}")
        else:
            check(shown.says("#why-text", "why.before", after=in_words(language, "X", 2000 * before, True)) or shown.says("#why-text", "why.never"), f"{shown.name}: why, lost before: {text!r}")
            ply = int(re.search(r"(\d+)\. [a-h][1-8]", text)[1])
        marks = shown.evaluate("[...document.querySelectorAll('#graph .turn')].map((one) => Number(/^M([\\d.]+)/.exec(one.getAttribute('d'))[1]))")
        shown.click("#why-show")
        check(len(marks) == 1 and shown.evaluate("document.querySelector('.square.slip')?.dataset.square") == whole[2 * ply - 2:2 * ply], f"{shown.name}: {kind}: one mark, and Show: {marks}, {shown.evaluate(HERE)}")
        here = shown.evaluate("Number(document.querySelector('#graph .here').getAttribute('x1'))")
        check(marks[0] > here and marks[0] - here < 12, f"{shown.name}: the mark isn't at move {ply}: {marks} beside {here}")
        shown.tab("mistakes")
        rows = shown.evaluate(ROWS)
        plies = [int(re.search(r"(\d+)\. ", row)[1]) for row in rows]
        check(plies == sorted(plies) and {"discs", "points"} <= set(shown.evaluate("[...document.querySelectorAll('.mistake')].map((one) => one.classList[1])")), f"{shown.name}: the list's order: {plies}")
        check([row.startswith("??⚑") or row.split()[0].endswith("⚑") for row in rows].count(True) == 1 and plies[[("⚑" in row) for row in rows].index(True)] == ply, f"{shown.name}: the turn in the list")
        shown.fill("#list-side", "O")
        some = [int(re.search(r"(\d+)\. ", row)[1]) for row in shown.evaluate(ROWS)]
        told = positions(whole)
        check(some == [one for one in plies if told[one - 1].side == "O"] and len(some) < len(plies), f"{shown.name}: White's mistakes: {some} of {plies}")
        shown.fill("#list-side", "")
        first, found = results(whole)
        words = {"before": in_words(language, "X", 2000 * found[0], True), "after": in_words(language, "X", 2000 * found[-1], True)}
        check(shown.says("#mistakes", "totals.changed", **words) and str(abs(found[-1] - found[0])) in shown.text("#mistakes p"), f"{shown.name}: what the result changed by: {shown.text('#mistakes p')}, {words}")
        shown.tab("moves")
    shown.open(f"{address}#moves={GAME}&depth=8")
    shown.known()
    shown.until("why", f"!/{said(language, 'why.waits')}/.test(document.getElementById('why-text').textContent)")
    check(shown.says("#why-text", "why.open") or shown.says("#why-text", "why.calm"), f"{shown.name}: of a game that isn't certain yet: {shown.text('#why-text')}")


def measured():
    """The stars of docs/VALUES.md: {(empty squares, plies): of 100}."""
    rows = re.findall(r"(?m)^\| (\d+) \| (\d+) \| (\d+) of (\d+), [\d.]+ \|", (TOP / "docs/VALUES.md").read_text())
    return {(int(empty), int(plies)): round(100 * int(right) / int(of)) for empty, plies, right, of in rows}


def try_opinion(shown, address):
    """An opinion's star is hollow and says how often such a one is right; from 12 empty squares on it is full, and a fact."""
    whole, stars = whole_game(6), measured()
    played = positions(whole)
    for empty, depth in ((14, 8), (16, 4), (12, 2), (9, 2), (40, 4)):
        at = next(number for number, one in enumerate(played) if one.empties == empty)
        shown.open(f"{address}#moves={whole[:2 * at]}&depth={depth}")
        shown.check("#game", False)
        shown.known()
        best = "document.querySelector('.square.best')"
        star, thought, label = shown.evaluate(f"[{best}.querySelector('.star').textContent, {best}.matches('.thought'), {best}.getAttribute('aria-label')]")
        if empty <= LAST:
            check(star == "★" and not thought and shown.says(label, "square.best") and not shown.says(label, "square.thought") and shown.evaluate("document.querySelectorAll('.score').length"), f"{shown.name}: a fact's star: {star} {label}")
            note = shown.text("#value-note")
            check(not shown.says(note, "note.points") and any(shown.says(note, name) for name in ("note.full", "note.end", "note.empty")), f"{shown.name}: a fact: {note}")
            continue
        check(star == "☆" and thought and shown.says(label, "square.thought"), f"{shown.name}: an opinion's star: {star} {label}")
        row = min(empty, max(one for one, _ in stars))
        check(shown.says("#value-note", "note.star" if empty == row else "note.star.early", share=stars[row, depth], empty=row), f"{shown.name}: {empty} empty, {depth} plies: {shown.text('#value-note')}, not {stars[row, depth]}")
    shown.open(f"{address}#moves={whole}&depth=4")
    shown.known()
    shown.tab("mistakes")
    check(shown.says("#mistakes", "mistakes.help") and len(re.findall(r"\b\d\d\b", shown.text("#mistakes p:last-child"))) >= 4, f"{shown.name}: what opinions are worth: {shown.text('#mistakes p:last-child')}")
    shown.tab("moves")


def try_scale(shown, address):
    """The graph has words for points, each step a third of its height, and discs by their side; a title says the same step."""
    language, whole = shown.language, whole_game(6)
    steps = [int(one) for one in re.search(r"STEPS = \[(\d+), (\d+)\]", (PAGE / "js/scores.js").read_text()).groups()]
    shown.open(f"{address}#moves={whole}&at=40&depth=2")
    shown.known()
    found, played = shown.evaluate(CURVE), positions(whole)
    check(not [text for text in found["texts"] if re.fullmatch(r"[+-]\d+", text)], f"{shown.name}: points are numbers on the graph: {found['texts']}")
    names = [TEXTS[language][f"step.{step}"] for step in (0, 1, 2)]
    check([found["texts"].count(name) for name in names] == [1, 2, 2], f"{shown.name}: the steps: {found['texts']}")
    (middle,), rows = found["zero"], sorted(set(found["rows"]))
    third = (middle - rows[0]) / 3
    known = values((one, 2) for one in played[:len(found["points"])])
    for (_, y), one, value in zip(found["points"], played, known):
        black = value if one.side == "X" else -value
        if abs(value) > 1184:
            continue
        band, step = (middle - y) / third, sum(abs(black) >= least for least in steps)
        check(step - 0.03 <= abs(band) <= step + 1.03 and (band > -0.03 if black > 0 else band < 0.03), f"{shown.name}: {black} points stand {band:.2f} bands above the middle")
    for at in (5, 28, 40, 46):
        shown.evaluate(f"(() => {{ const one = document.getElementById('slide'); one.value = {at}; one.dispatchEvent(new Event('input', {{ bubbles: true }})); }})()")
        black = known[at] if played[at].side == "X" else -known[at]
        step = sum(abs(black) >= least for least in steps)
        check(shown.says("#value", f"value.{step}", side=TEXTS[language][SIDES["X" if black > 0 else "O"]]), f"{shown.name}: {black} points are {shown.text('#value')}")


STRIP = "({ marks: document.querySelectorAll('.square.slip').length, text: document.getElementById('strip-text').textContent, next: Boolean(document.querySelector('#strip-buttons [data-does=next]')) })"


def try_loop(shown, address):
    """Mistake, try, back, next; arrow keys step the game also behind a click on a tab; Esc leads back to the game from anywhere."""
    whole = whole_game(6)
    shown.open(f"{address}#moves={whole}&depth=4")
    shown.known()
    shown.tab("mistakes")
    shown.evaluate("document.querySelector('.mistake.discs').click()")
    shown.evaluate("document.activeElement?.blur()")
    before, game = shown.evaluate(STRIP), shown.evaluate(HERE)
    check(before["marks"] == 1 and before["next"], f"{shown.name}: a mistake: {before}")
    for way in ("Escape", "Left"):  # both ends of the variation
        shown.press("t")
        check(shown.evaluate(STRIP)["marks"] == 0 and "(" in shown.evaluate(TEXT), f"{shown.name}: T tries nothing: {shown.evaluate(STRIP)}")
        shown.press(KEY[way])
        check(shown.evaluate(STRIP) == before and shown.evaluate(HERE) == game, f"{shown.name}: behind {way} it is {shown.evaluate(STRIP)} at {shown.evaluate(HERE)}")
    shown.press("n")
    check(shown.evaluate(STRIP)["marks"] == 1 and shown.evaluate(STRIP)["text"] != before["text"], f"{shown.name}: the next mistake: {shown.evaluate(STRIP)}")
    shown.press(KEY["Escape"])
    check(shown.evaluate(STRIP)["marks"] == 0, f"{shown.name}: Esc leaves a mistake")
    for tab in ("play", "options", "moves"):
        shown.evaluate("document.getElementById('first').click()")
        shown.click(f"#tab-{tab}")
        shown.press(KEY["Right"])
        shown.press(KEY["Right"])
        check(shown.evaluate(HERE) == whole[2:4] and shown.evaluate("document.querySelector('[role=tab][aria-selected=true]').id") == f"tab-{tab}", f"{shown.name}: arrows behind a click on {tab} lead to {shown.evaluate(HERE)}")
    play(shown, [shown.evaluate("document.querySelector('.square.legal:not(.next)').dataset.square")])
    for field in ("#comment", "#tab-moves", "#level"):
        shown.tab("play" if field == "#level" else "moves")
        shown.evaluate(f"document.querySelector('{field}').focus()")
        shown.press(KEY["Escape"])
        check(shown.evaluate(HERE) == whole[2:4] and "(" in shown.evaluate(TEXT), f"{shown.name}: Esc in {field} leads to {shown.evaluate(HERE)}")
        shown.evaluate("document.querySelector('.move.small').click()")
    shown.press(KEY["Escape"])
    shown.tab("moves")


def try_first_minute(shown, address):
    """An empty board says how to begin, and a sample game is there; numbers say what they are and can be hidden; no panel is blank."""
    shown.open(f"{address}#depth=4")
    shown.known()
    check(shown.says("#why-text", "why.begin"), f"{shown.name}: an empty board says {shown.text('#why-text')!r}")
    live = "[...document.querySelectorAll('button:not(.square)')].filter((one) => one.checkVisibility()).map((one) => one.getAttribute('aria-disabled') === 'true')"
    for tab in ("moves", "mistakes", "play", "files", "class", "options"):
        shown.tab(tab)
        states = shown.evaluate(live)
        check(shown.evaluate(f"document.getElementById('{tab}-panel').innerText.trim().length > 10"), f"{shown.name}: {tab} is blank")
        check(2 * states.count(True) < len(states), f"{shown.name}: in {tab} {states.count(True)} of {len(states)} buttons do nothing")
    shown.tab("moves")
    shown.until("the line", "document.querySelectorAll('.marks .knob').length === 2")
    numbers = shown.evaluate("[...document.querySelectorAll('.marks .knob title')].map((one) => one.textContent)")
    check(all(shown.says(text, "line.number", n=at + 2) for at, text in enumerate(numbers)), f"{shown.name}: numbers say {numbers}")
    shown.evaluate("document.querySelector('.marks .knob').dispatchEvent(new MouseEvent('click', { bubbles: true }))")
    check(shown.says("#live", "line.number", n=2) and shown.evaluate(TEXT) == "", f"{shown.name}: a tap on 2 says {shown.text('#live')!r}")
    shown.check("#show-line", False)
    check(shown.evaluate("document.querySelectorAll('.marks .knob').length") == 0, f"{shown.name}: the numbers stay")
    shown.check("#show-line", True)
    shown.driver.execute_script("window.asked = 0; document.getElementById('file').addEventListener('click', (event) => { window.asked += 1; event.preventDefault(); })")
    shown.click("#why-open")
    check(shown.evaluate("window.asked") == 1, f"{shown.name}: no file is asked for")
    shown.click("#why-sample")
    shown.until("the sample's game", "document.querySelectorAll('.pair .what').length === 60")
    shown.known()
    check(shown.says("#why-text", "why.turn") and not shown.evaluate("document.getElementById('why-sample').checkVisibility()"), f"{shown.name}: of the sample game: {shown.text('#why-text')}")
    shown.click("#undo")
    check(shown.says("#why-text", "why.begin"), f"{shown.name}: the sample isn't taken away")


SEEN = """((one) => { const box = one.getBoundingClientRect(), top = document.elementFromPoint(box.left + box.width / 2, box.top + box.height / 2);
  return box.width > 20 && box.left >= -1 && box.right <= innerWidth + 1 && box.top >= -1 && box.bottom <= innerHeight + 1 && one.scrollHeight <= one.clientHeight + 2 && one.scrollWidth <= one.clientWidth + 2 && (one === top || one.contains(top)) })"""


def try_zoom(shown, address):
    """A mistake's sentence is seen whole, and its buttons aren't cut, at this width and at 200 percent; forced colours underline nothing."""
    shown.open(f"{address}#moves={whole_game(6)}&depth=4")
    shown.known()
    shown.tab("mistakes")
    for kind in ("discs", "points"):
        shown.evaluate(f"document.querySelector('.mistake.{kind}').click()")
        shown.driver.execute_script("scrollTo(0, 0)")
        for part in ("#strip-text", "[data-does=try]", "[data-does=next]"):
            check(shown.evaluate(f"{SEEN}(document.querySelector('{part}'))"), f"{shown.name}: {part} of a mistake in {kind} is cut: {shown.evaluate(f'JSON.stringify(document.querySelector({json.dumps(part)}).getBoundingClientRect())')}")
    if shown.evaluate("innerWidth === 1280"):
        cut = "[...document.querySelectorAll('body *')].filter((one) => one.checkVisibility() && one.closest('.play, .side') && getComputedStyle(one).textOverflow === 'ellipsis' && one.scrollWidth > one.clientWidth + 1).map((one) => one.id || one.className)"
        for state in (f"moves={GAME}&at=11&black=Anna&white=Bo&depth=8", f"moves={whole_game(6)}&depth=2", f"moves={whole_game(6)[:100]}&depth=2"):
            shown.open(f"{address}#{state}")
            shown.known()
            check(not (found := shown.evaluate(cut)), f"{shown.name}: at 1280 these end in …: {found}")
    sizes = set(shown.evaluate("[...document.querySelectorAll('.play *, .side *')].filter((one) => one.checkVisibility() && one.children.length === 0 && one.textContent.trim() && !one.closest('svg, #board, [role=tab], .unseen, kbd')).map((one) => getComputedStyle(one).fontSize)"))
    check(sizes <= {"12px", "14px", "16px", "20px"}, f"{shown.name}: letters of {sizes}")
    if shown.name == "chromium":
        shown.driver.execute_cdp_cmd("Emulation.setEmulatedMedia", {"features": [{"name": "forced-colors", "value": "active"}]})
        shown.tab("moves")
        lines = shown.evaluate("[...document.querySelectorAll('.pair .value')].filter((one) => parseFloat(getComputedStyle(one).borderBottomWidth) > 0).length")
        shown.scheme("light")
        check(lines == 0, f"{shown.name}: forced colours underline {lines} values")
    shown.tab("moves")


HEADED = (("Taro (B) vs Jiro (W)\nf5d6c3d3c4", "Taro", "Jiro"), ("Jiro (W) vs. Taro (B)\n1. f5 2. d6 3. c3", "Taro", "Jiro"), ("黒：太郎　白：次郎\n対局日：2026/11/27\nＦ５Ｄ６Ｃ３Ｄ３", "太郎", "次郎"), ("先手: 太郎\n後手: 次郎\n結果: 34-30\nf5 d6 c3 d3", "太郎", "次郎"),
          ("<!doctype html><html><head><title>x</title></head><body><p>Black: Ann</p><p>White: Bo</p><div>f5 d6 c3 <b>d3</b> c4</div></body></html>", "Ann", "Bo"))  # fmt: skip


def try_pastes(shown, address):
    """What is too large is refused by its size; many games come in slices; links, HTML and heads are read, or named in a sentence."""
    shown.open(f"{address}#depth=2")
    renderer = shown.renderer()
    before = main_thread(renderer)
    shown.evaluate(f"{PASTE}('f5d6c3'.repeat(2_000_000))")
    taken = main_thread(renderer) - before
    check(shown.evaluate(TEXT) == "" and shown.says("#live", "read.wide", number=12000000) and taken < 700, f"{shown.name}: a line of 12 MB: {shown.text('#live')} in {taken:.0f} ms")
    for text, black, white in HEADED:
        shown.evaluate(f"{PASTE}({json.dumps(text)})")
        check(shown.evaluate(TEXT).startswith("f5d6c3") and shown.text("#names").startswith(f"{black} – {white}") and not shown.evaluate("document.querySelectorAll('#faults li').length"), f"{shown.name}: {text[:30]!r}: {shown.evaluate(TEXT)}, {shown.text('#names')!r}, {shown.text('#faults')}")
    for text, name, moves in (("https://example.org/game/12345", "read.link", None), ("https://example.org/?t=f5d6c3d3c4", None, "f5d6c3d3c4"), ("<html><body>Nothing here</body></html>", "read.html", None)):
        shown.evaluate(f"{PASTE}('f5')")
        shown.evaluate(f"{PASTE}({json.dumps(text)})")
        check(shown.says("#live", name) if name else shown.evaluate(TEXT) == moves, f"{shown.name}: {text[:30]!r}: {shown.text('#live')!r} {shown.evaluate(TEXT)}")
    games = [whole_game(seed) for seed in range(1, 6)]
    shown.driver.execute_script("window.ticks = []; const tick = () => { window.ticks.push(performance.now()); window.ticking = setTimeout(tick); }; tick();")
    shown.driver.execute_script(f"const games = {json.dumps(games)}; {PASTE}(Array.from({{ length: 19999 }}, (_, at) => games[at % 5]).join('\\n'))")
    check(shown.says("#live", "said.reading"), f"{shown.name}: what is read isn't told: {shown.text('#live')}")
    shown.until("19,999 games", "document.getElementById('games').options.length === 19999", 300)
    check(shown.evaluate(TEXT) == games[0], f"{shown.name}: the first of 19,999 games: {shown.evaluate(TEXT)[:20]}")
    pauses = shown.evaluate("(clearTimeout(window.ticking), window.ticks.slice(1).map((one, at) => Math.round(one - window.ticks[at])).sort((one, two) => two - one))")
    check(pauses[len(pauses) // 20] < 250, f"{shown.name}: others wait for 19,999 games: {pauses[:9]}, of {len(pauses)} pauses 19 in 20 at most {pauses[len(pauses) // 20]} ms")  # (on a busy machine some take longer)


def try_true(shown, address):
    """Without an engine nothing is said to be none or 0; a search is done when its line is there as deep as it."""
    with tempfile.TemporaryDirectory() as folder:
        copy = shutil.copytree(PAGE, f"{folder}/page")
        for path in (PAGE / "engine").glob("*.wasm"):
            (type(PAGE)(copy) / "engine" / path.name).write_bytes(b"nothing")
        with files(folder=copy) as broken:
            shown.open(f"{broken}#moves={whole_game(6)}&at=40&depth=2")
            until("the fault", lambda: shown.says("#state", "fault.engine"))
            for tab in ("moves", "mistakes", "play"):
                shown.tab(tab)
                text = shown.evaluate(f"document.getElementById('{tab}-panel').innerText")
                zero = TEXTS[shown.language]["unit.discs"]["other"].replace("{n}", "0")
                check(zero not in text and not shown.says(text, "mistakes.no"), f"{shown.name}: without an engine {tab} says {text[:200]!r}")
            check(shown.says("#mistakes", "fault.engine") and shown.says("#why-text", "fault.engine"), f"{shown.name}: why there is nothing: {shown.text('#why-text')!r}")
            shown.tab("moves")
    shown.open(f"{address}#moves={GAME}&at=11&depth=2")
    shown.check("#game", False)
    shown.known()
    shown.driver.execute_script("window.told = []; new MutationObserver(() => window.told.push([document.getElementById('state').textContent, document.getElementById('line').textContent])).observe(document.getElementById('state'), { childList: true, characterData: true, subtree: true });")
    for depth in (6, 8):
        shown.fill("#depth", str(depth))
        done = said(shown.language, "state.done", n=depth)
        shown.until("done", f"window.told.some(([state]) => /{done}/.test(state))")
        lines = [re.findall(r"[a-h][1-8]", line) for state, line in shown.evaluate("window.told") if re.search(done, state)]
        check(all(len(line) == depth for line in lines), f"{shown.name}: {depth} plies deep and done, and the line is {lines}")


def try_questions(shown, address):
    """A wrong answer may be followed by another; the three best moves are shown with their lines where that is asked for."""
    whole = whole_game(6)
    shown.open(f"{address}#moves={whole}&depth=4")
    shown.known()
    shown.tab("play")
    shown.click("#quiz-begin")
    here = shown.evaluate("[...document.querySelectorAll('#moves .pair .move')].findIndex((one) => one.getAttribute('aria-current')) + 1")
    moves, _ = truth(positions(whole)[here], 4)
    best, worst = max(moves, key=moves.get), min(moves, key=moves.get)
    shown.click(f'[data-square="{worst}"]')
    check(shown.says("#quiz-told", "quiz.again", move=worst) and shown.evaluate(SCORES) == {} and not shown.says("#quiz-told", "quiz.score"), f"{shown.name}: a wrong answer: {shown.text('#quiz-told')!r} {shown.evaluate(SCORES)}")
    shown.click(f'[data-square="{best}"]')
    check(shown.says("#quiz-told", "quiz.right", move=best) and shown.says("#quiz-told", "quiz.score", right=1, n=1), f"{shown.name}: a second try: {shown.text('#quiz-told')!r}")
    check(shown.text("#toast") != shown.text("#strip-text"), f"{shown.name}: what is said twice: {shown.text('#toast')!r}")
    shown.click("#quiz-end")
    shown.open(f"{address}#moves={GAME}&at=11&depth=6")
    shown.tab("options")
    shown.check("#show-three", True)
    shown.known()
    shown.until("three lines", f"document.getElementById('line').textContent.split('\\n').filter((line) => line.split(' ').length === 7).length === 3")
    lines, scores = shown.text("#line").split("\n"), shown.evaluate(SCORES)
    check(all(scores[line.split()[1]] == line.split()[0].rstrip(":") for line in lines) and [int(line.split(":")[0]) for line in lines] == sorted((int(one) for one in scores.values()), reverse=True)[:3], f"{shown.name}: lines {lines} of {scores}")
    shown.check("#show-three", False)
    shown.tab("moves")


def try_busy(name, address):
    """While a game of 60 moves is analysed no task takes more than 100 ms (of a processor, as others may have this machine's), and a value is there within a second."""
    with opened(name, traced=name == "chromium") as shown:
        rounds = []
        for _ in range(4):
            if name == "chromium":
                shown.longest()
            shown.open(f"{address}#moves={whole_game(6)}&depth=8")
            shown.known(600)
            first = shown.evaluate("Math.round(performance.getEntriesByName('values')[0]?.startTime - (performance.getEntriesByName('first-contentful-paint')[0]?.startTime ?? 0))")
            rounds.append((round(shown.longest()) if name == "chromium" else 0, first))
        longest, first = sorted(one for one, _ in rounds)[2], min(two for _, two in rounds)  # (of four the second longest, as a busy machine's caches are cold)
        check(longest <= 100 and first < 1000, f"{name}: the longest task {longest} ms, first values behind {first} ms: {rounds}")
        print(f"board: {name}: a game of 60 moves: the longest task {longest} ms of a processor, first values behind {first} ms: {rounds}", flush=True)


def try_all(address, name, only=""):
    """Each in both browsers, at each width and at 200 percent."""
    trials = chosen(only, try_sign, try_right, try_why, try_opinion, try_scale, try_loop, try_first_minute, try_zoom, try_pastes, try_true, try_questions)
    with faults_of(name) as tried:
        for at, (width, height, language, scheme) in enumerate(forms(name)):
            if only and at != 3:
                continue  # (one that is named alone is tried at one width)
            with opened(name, language, scheme, (width, height)) as shown:
                for trial in trials:
                    begun = time.monotonic()
                    tried(f"{trial.__name__} at {width}", trial, shown, address)
                    print(f"  {name} {trial.__name__} at {width}: {time.monotonic() - begun:.0f} s", flush=True) if time.monotonic() - begun > 60 else None
        for trial in chosen(only, try_busy):
            tried(trial.__name__, trial, name, address)
    print(f"board: {name}: one sign, why, opinions, the scale, the loop, a first minute, zoom, pastes, true states, questions")
