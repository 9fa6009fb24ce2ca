"""What the board looks like, and what assistive programs are told of it, at widths from 320 to 1920, by day and night, in both languages.

Debian has no axe-core; these checks and the names and roles that the driver gives stand for it. Each is one of the Web Content Accessibility
Guidelines 2.2, level AA, by its number.
"""
import itertools

from browsers import opened
from stand import GAME, check, chosen, fail, faults_of

WIDTHS = (320, 360, 390, 412, 768, 1280, 1920)
HEIGHTS = {320: 640, 360: 740, 390: 844, 412: 915, 768: 1024, 1280: 800, 1920: 1080}
# The colour and the ground of each text that is shown, and its size: ground is the nearest one behind it that isn't transparent.
PAINTED = """(() => {
  const canvas = document.createElement("canvas").getContext("2d", { willReadFrequently: true });
  const rgb = (text) => { canvas.clearRect(0, 0, 1, 1); canvas.fillStyle = text; canvas.fillRect(0, 0, 1, 1); const [r, g, b, a] = canvas.getImageData(0, 0, 1, 1).data; return [r, g, b, a / 255]; };
  const over = (top, below) => top.slice(0, 3).map((each, at) => each * top[3] + below[at] * (1 - top[3])).concat(1);
  const ground = (one) => { if (!one) return [255, 255, 255, 1]; const own = rgb(getComputedStyle(one).backgroundColor); return own[3] === 1 ? own : over(own, ground(one.parentElement)); };
  const light = ([r, g, b]) => [r, g, b].map((each) => each / 255).map((each) => (each <= 0.04045 ? each / 12.92 : ((each + 0.055) / 1.055) ** 2.4)).reduce((sum, each, at) => sum + each * [0.2126, 0.7152, 0.0722][at], 0);
  const contrast = (one, other) => { const [a, b] = [light(one), light(other)]; return (Math.max(a, b) + 0.05) / (Math.min(a, b) + 0.05); };
  const seen = (one) => one.checkVisibility() && one.getBoundingClientRect().width > 1;
  const found = [], texts = document.createTreeWalker(document.body, NodeFilter.SHOW_TEXT);
  for (let node = texts.nextNode(); node; node = texts.nextNode()) {
    const one = node.parentElement;
    if (!node.data.trim() || !seen(one) || one.closest("#bar, .marks, .unseen, option, [aria-disabled=true]:not(.square)")) continue; // the bar's texts stand on its parts, the line's on their knobs; what is disabled needs no contrast
    const style = getComputedStyle(one), inGraph = one.namespaceURI.includes("svg"), large = parseFloat(style.fontSize) >= 24 || (parseFloat(style.fontSize) >= 18.66 && Number(style.fontWeight) >= 700);
    found.push({ what: `${one.tagName.toLowerCase()}.${one.className.baseVal ?? one.className} ${node.data.trim().slice(0, 20)}`, ratio: contrast(over(rgb(inGraph ? style.fill : style.color), ground(one)), ground(one)), least: large ? 3 : 4.5 });
  }
  const part = (selector, property, least = 3) => { for (const one of document.querySelectorAll(selector)) if (seen(one)) {
    const style = getComputedStyle(one), colour = rgb(style[property]);
    if (colour[3] > 0) found.push({ what: `${selector} ${property}`, ratio: contrast(over(colour, ground(one.parentElement)), ground(one.parentElement)), least }); } };
  part(".dot", "borderTopColor"); part("button:not(.square, .move, .mistake, [role=tab], [aria-disabled=true])", "borderTopColor"); part("select", "borderTopColor"); part("textarea", "borderTopColor");
  for (const kind of ["curve", "here", "zero", "border"]) part(`#graph .${kind}`, "stroke");
  for (const kind of ["weak", "grave"]) part(`#graph .${kind}`, "fill");
  for (const one of document.querySelectorAll(".disc")) { // a disc is told from the felt by itself or by its edge
    const style = getComputedStyle(one), felt = ground(one.parentElement);
    found.push({ what: one.className, ratio: Math.max(contrast(rgb(style.backgroundColor), felt), contrast(rgb(style.borderTopColor), felt)), least: 3 });
  }
  for (const one of document.querySelectorAll(".last")) found.push({ what: "last move", ratio: contrast(rgb(getComputedStyle(one).borderTopColor), ground(one.parentElement)), least: 3 });
  for (const one of document.querySelectorAll(".square.best")) found.push({ what: "frame of the best", ratio: contrast(rgb(getComputedStyle(one).boxShadow.match(/^rgba?\\([^)]*\\)/)[0]), ground(one)), least: 3 });
  return found.filter(({ ratio, least }) => ratio < least).map(({ what, ratio }) => `${what}: ${ratio.toFixed(2)}`);
})()"""
# What leaves its place, or the page.
CUT = """[...document.querySelectorAll("h1, h2, p, button, label, select, textarea, input, li, dt, dd, #graph text")].filter((one) => {
  const box = one.getBoundingClientRect();
  if (!one.checkVisibility() || box.width <= 1 || one.closest(".unseen, .skip") || one.matches(".unseen, .skip")) return false;
  return box.left < -0.5 || box.right > innerWidth + 0.5 || (one.clientWidth && one.scrollWidth > one.clientWidth + 1 && !one.matches("textarea, input, #names, h1"));
}).map((one) => `${one.tagName} ${one.id} ${one.textContent.slice(0, 30)}`).concat(document.documentElement.scrollWidth > innerWidth ? ["the page"] : [])"""
# Texts of squares that are wider than the square's inside, by the browser's own measure.
SCORES_CUT = """[...document.querySelectorAll(".score")].filter((one) => { const text = document.createRange(); text.selectNodeContents(one);
  return text.getBoundingClientRect().width > one.parentElement.clientWidth - 2; }).map((one) => `${one.textContent} in ${one.parentElement.clientWidth}`)"""
# Targets less than 24 pixels wide or high (2.5.8).
SMALL = """(() => { const all = [...document.querySelectorAll("button, select, input, a, textarea")].filter((one) => one.checkVisibility() && !one.closest(".unseen, .skip, .variations") && !one.matches(".unseen, .skip"));
  const boxes = all.map((one) => (one.closest("label") ?? one).getBoundingClientRect());
  return all.filter((one, at) => boxes[at].width < 24 || boxes[at].height < 23.9).map((one) => `${one.tagName} ${one.id} ${one.textContent.slice(0, 20)}`) })()"""
# Buttons of one row that lie over one another.
OVER = """[...document.querySelectorAll(".controls, [role=tablist], .buttons")].flatMap((row) => { const all = [...row.querySelectorAll("button, select, .file")].filter((one) => one.checkVisibility()), boxes = all.map((one) => one.getBoundingClientRect());
  return all.filter((one, at) => boxes.some((box, other) => other < at && box.left < boxes[at].right - 1 && box.right > boxes[at].left + 1 && box.top < boxes[at].bottom - 1 && box.bottom > boxes[at].top + 1)).map((one) => one.id || one.textContent); })"""
# What the document itself must have.
FORM = """(() => { const found = [], ids = [...document.querySelectorAll("[id]")].map((one) => one.id);
  if (new Set(ids).size !== ids.length) found.push("an id stands twice");
  if (!document.documentElement.lang || !document.title) found.push("no language or title");
  for (const name of ["aria-labelledby", "for", "aria-controls"]) for (const one of document.querySelectorAll(`[${name}]`)) if (!document.getElementById(one.getAttribute(name))) found.push(`${name} of nothing`);
  if (document.querySelectorAll("main").length !== 1 || document.querySelectorAll("h1").length !== 1) found.push("not one main part and title");
  if (document.querySelectorAll("[tabindex]:not([tabindex='0']):not([tabindex='-1'])").length) found.push("an order of its own for Tab");
  for (const one of document.querySelectorAll("[aria-hidden=true] button, [aria-hidden=true][tabindex='0']")) found.push("focus in what is hidden");
  if (document.querySelectorAll("[role=tab][aria-selected=true]").length !== 1) found.push("not one tab is chosen");
  if (document.body.innerText.includes("⟨") || [...document.querySelectorAll("[aria-label], [title], [placeholder]")].some((one) => `${one.ariaLabel}${one.title}${one.placeholder}`.includes("⟨"))) found.push("a text is missing");
  return found })()"""
USED = "[...document.querySelectorAll('button, select, input, textarea, [role=img], [role=group], [role=tab], [role=tabpanel]')].filter((one) => one.checkVisibility())"
TABS = ("moves", "mistakes", "play", "files", "class", "options")
SEEN = {"en": ("legal", "value"), "de": ("erlaubt", "Wert"), "ja": ("着手可能", "値")}
NARROW = "(() => { const order = ['#board', '#value', '#moves'].map((name) => document.querySelector(name).getBoundingClientRect().top); return order[0] < order[1] && order[1] < order[2] })()"


# Targets for fingers: less than 44 pixels high or wide, but squares, where eight stand in 320 pixels, and what is narrow in a row of eight.
FINGERS = """[...document.querySelectorAll("button:not(.square), select, input[type=text], .file")].filter((one) => one.checkVisibility() && !one.closest(".unseen, .skip, .pair") && !one.matches(".skip"))
  .map((one) => [one, one.getBoundingClientRect()]).filter(([one, box]) => box.height < 43.5 || (box.width < 43.5 && !one.closest(".controls, [role=tablist]"))).map(([one, box]) => `${one.id || one.textContent} ${Math.round(box.width)}x${Math.round(box.height)}`)"""
# The lines between squares, in pixels: each is one.
LINES = """(() => { const boxes = [...document.querySelectorAll(".square")].map((one) => one.getBoundingClientRect()), gaps = [];
  boxes.forEach((box, at) => { if (at % 8 < 7) gaps.push(boxes[at + 1].left - box.right); if (at < 56) gaps.push(boxes[at + 8].top - box.bottom); });
  return gaps.filter((gap) => Math.abs(gap - 1) > 0.05).concat(boxes.filter((box) => Math.abs(box.width - Math.round(box.width)) > 0.05).map((box) => box.width)) })()"""
# What is reached by a key while it lies behind the board: it has to come out (2.4.11).
BEHIND = """[...document.querySelectorAll("[role=tabpanel] :is(button, select, input, textarea, a)")].filter((one) => one.checkVisibility()).filter((one) => { scrollTo(0, document.documentElement.scrollHeight);
  one.focus(); const [box, board] = [one, document.querySelector(".play")].map((each) => each.getBoundingClientRect()); return box.bottom < board.bottom + 8 && box.bottom > board.top && box.left < board.right - 1 && box.right > board.left + 1; }).map((one) => one.id || one.textContent)"""
IN_VIEW = "(() => { const box = document.getElementById('board').getBoundingClientRect(); return box.top >= -1 && box.bottom <= innerHeight + 1 })()"


def try_sight(name, address):
    """The board stays in view above its lists, a phone that lies has two columns, fingers find their targets, lines have one thickness, and forced colours leave black and white."""
    with opened(name) as shown:
        for width, height in ((320, 640), (390, 844), (768, 1024), (844, 390), (1280, 800), (1920, 1080)):
            if name == "firefox" and width < 500:
                continue  # (its frame has no such window of its own)
            shown.size(width, height)
            shown.open(f"{address}#moves={GAME}&at=11&depth=2")
            shown.known()
            what = f"{name} at {width} x {height}"
            check(not (found := shown.evaluate(LINES)), f"{what}: lines: {found[:4]}")
            check(shown.evaluate("new Set([...document.querySelectorAll('[role=tab]')].map((one) => Math.round(one.getBoundingClientRect().top))).size") == 1, f"{what}: tabs in two rows")
            for tab in TABS:
                shown.tab(tab)
                shown.driver.execute_script("scrollTo(0, document.documentElement.scrollHeight)")
                check(shown.evaluate(IN_VIEW), f"{what}: {tab} takes the board out of view")
                check(not (found := shown.evaluate(BEHIND)), f"{what}: {tab}: what a key reaches stays behind the board: {found[:5]}")
                if width < 700 or height < 500:
                    check(not (found := shown.evaluate(FINGERS)), f"{what}: {tab}: small for fingers: {found[:5]}")
            shown.tab("files")
            shown.click("#copy-text")
            over = "(() => { const toast = document.getElementById('toast').getBoundingClientRect(); return [...document.querySelectorAll('button')].filter((one) => one.checkVisibility()).some((one) => { const box = one.getBoundingClientRect(), top = document.elementFromPoint(box.left + box.width / 2, box.top + box.height / 2); return one.contains(top) && box.left < toast.right && box.right > toast.left && box.top < toast.bottom && box.bottom > toast.top }) })()"
            check(not shown.evaluate(over), f"{what}: what is said covers a button")
            if width > height:
                check(shown.evaluate("document.getElementById('value').getBoundingClientRect().left >= document.getElementById('board').getBoundingClientRect().right"), f"{what}: not two columns")
        shown.click("#turn-board")
        corner = shown.evaluate("document.querySelector('.square').dataset.square")
        check(corner == "a8" and shown.evaluate("document.querySelectorAll('.edge')[1].textContent") == "8", f"{name}: the board that was turned begins with {corner}")
        if name == "chromium":
            shown.driver.execute_cdp_cmd("Emulation.setEmulatedMedia", {"features": [{"name": "forced-colors", "value": "active"}]})
            found = shown.evaluate("[...new Set([...document.querySelectorAll('.disc')].map((one) => getComputedStyle(one).backgroundColor))].length")
            check(found == 2, f"{name}: with forced colours discs have {found} colours")
    print(f"board: {name}: the board in view, fingers, lines, forced colours")


def look(shown, what):
    """All that is to be seen at once; gives what is wrong."""
    scripts = {"cut": CUT, "a value is cut": SCORES_CUT, "contrast": PAINTED, "small": SMALL, "over another": OVER, "form": FORM}
    return [f"{what}: {name}: {found[:6]}" for name, script in scripts.items() if (found := shown.evaluate(script))]


def try_values(shown, width):
    """The widest values that there are, in the squares of this width."""
    texts = {"d3": {"sign": "<", "points": 10}, "c4": {"sign": "<", "points": 128}, "f5": {"sign": "<", "points": -1184}, "e6": {"sign": "<", "discs": 64}}
    for scores in (texts, {"d3": texts["d3"]}, {"c4": texts["c4"]}, {"e6": texts["e6"]}, {"d3": {"sign": "=", "points": 10}, "c4": texts["d3"], "f5": {"sign": ">", "points": 10}}):
        shown.driver.execute_script("""const scores = arguments[0]; document.documentElement.dataset.tried = "no";
          import(new URL("js/board.js", document.baseURI)).then(async ({ Board }) => { const { START } = await import(new URL("js/rules.js", document.baseURI));
            const element = document.getElementById("board"); element.replaceChildren();
            new Board(element, () => {}).show({ position: START, table: new Map(Object.entries(scores)), best: Object.keys(scores)[0] }); document.documentElement.dataset.tried = "yes"; });""", scores)
        shown.until("the values", "document.documentElement.dataset.tried === 'yes'")
        count, cut = shown.evaluate("document.querySelectorAll('.score').length"), shown.evaluate(SCORES_CUT)
        check(count == len(scores) and not cut, f"{shown.name} at {width}: {cut or count}")
        looks = shown.evaluate("[...document.querySelectorAll('.score')].map((one) => getComputedStyle(one)).map((one) => [one.color, one.fontSize, one.fontWeight, one.fontStyle, one.opacity].join())")
        check(len(set(looks)) == 1, f"{shown.name} at {width}: +10 and ≤+10 look otherwise: {looks}")
        least = shown.evaluate("Math.min(...[...document.querySelectorAll('.score')].map((one) => parseFloat(getComputedStyle(one).fontSize)))")
        check(least >= (7 if len(scores) == 4 else 7.8), f"{shown.name} at {width}: letters of {least} pixels")


def try_browser(name, address, short=False):
    faults = []
    for scheme, language in (("light", "en"),) if short else itertools.product(("light", "dark"), ("en", "de", "ja")):
        with opened(name, language, scheme) as shown:
            for width in (320, 1920) if short else WIDTHS if scheme == "light" else (320, 390, 768, 1280, 1920):
                shown.size(width, HEIGHTS[width])
                shown.open(f"{address}#moves={GAME}(h7)&at=11&black=Anna&white=Bo&depth=4")
                if shown.evaluate("innerWidth") != width:
                    fail(f"{name} has no window of {width} pixels but {shown.evaluate('innerWidth')}")
                shown.known()
                what = f"{name} {width} {scheme} {language}"
                check(shown.evaluate("document.documentElement.lang") == language, f"{what}: another language")
                board = shown.evaluate("(() => { const box = document.getElementById('board').getBoundingClientRect(); return [box.width, box.height, box.top, innerHeight] })()")
                if width >= 1280:
                    check(board[1] > 0.8 * board[3] or board[0] > 0.6 * width, f"{what}: the board has {board}")
                    check(shown.evaluate("document.documentElement.scrollHeight <= innerHeight"), f"{what}: the page scrolls")
                elif width < 700:
                    check(board[0] > 0.9 * width and shown.evaluate(NARROW), f"{what}: not the board first: {board}")
                for tab in TABS:
                    shown.tab(tab)
                    faults += look(shown, f"{what} {tab}")
                shown.evaluate("document.getElementById('help').click()")
                faults += look(shown, f"{what} legend")
                shown.evaluate("document.getElementById('legend').close()")
                if width < 700 and scheme == "light" and language == "en":
                    shown.open(f"{address}#depth=2")
                    shown.known()
                    try_values(shown, width)
            shown.open(f"{address}#moves={GAME}&at=11&depth=4")
            shown.known()
            faults += try_names(shown, language)
    check(not faults, "\n".join(dict.fromkeys(faults)))
    print(f"board: {name}: widths {WIDTHS[0]} to {WIDTHS[-1]}, day and night, both languages: nothing cut, contrast, names")


def try_names(shown, language):
    """4.1.2, 1.1.1, 2.4.6: everything that is used has a name and a role, as the driver gives them; squares say what they are."""
    faults, legal, value = [], *SEEN[language]
    for tab in TABS:
        shown.tab(tab)
        for one in shown.driver.execute_script(f"return {USED}")[:: 1 if tab != "moves" else 3]:
            if not one.accessible_name.strip() and one.tag_name != "div":
                faults.append(f"{shown.name} {tab}: without a name: {one.get_dom_attribute('id') if shown.name == 'chromium' else one.id}")
    squares = shown.evaluate("[...document.querySelectorAll('.square')].map((one) => one.getAttribute('aria-label'))")
    if not any(legal in name and value in name for name in squares):
        faults.append(f"{shown.name}: no square says its value: {squares[:8]}")
    regions = shown.evaluate("[...document.querySelectorAll('[role=status]')].map((one) => one.getAttribute('aria-live'))")
    if regions != ["polite", "polite"]:
        faults.append(f"{shown.name}: live regions {regions}")
    shown.evaluate("document.getElementById('tab-moves').click()")
    shown.evaluate("document.getElementById('forward').click()")
    if GAME[22:24] not in shown.text("#live"):
        faults.append(f"{shown.name}: a step isn't said: {shown.text('#live')}")
    return faults


def try_print(name, address):
    """A sheet with names, two diagrams, moves and mistakes; no button is printed."""
    if name != "chromium":
        return
    with opened(name) as shown:
        shown.open(f"{address}#moves={GAME}&at=11&black=Anna&white=Bo&depth=4&date=2026-11-27")
        shown.known()
        shown.evaluate("window.dispatchEvent(new Event('beforeprint'))")
        bare = shown.text("#sheet")
        check("points" not in bare and "+" not in bare and shown.evaluate("document.querySelectorAll('#sheet svg').length") == 2, f"answers that nobody asked for: {bare}")
        shown.scheme("light")
        shown.tab("files")
        shown.check("#answers", True)
        shown.evaluate("window.dispatchEvent(new Event('beforeprint'))")
        shown.scheme("light", "print")
        told = shown.evaluate("[document.getElementById('sheet').innerText, document.querySelectorAll('#sheet svg').length, [...document.querySelectorAll('button, input, main')].filter((one) => one.checkVisibility()).length]")
        check(told[1:] == [2, 0] and "Anna – Bo, 2026-11-27" in told[0] and "11. g4" in told[0] and "an opinion" in told[0], f"the sheet: {told}")
    print("board: the sheet for print")


def try_all(address, name, only=""):
    with faults_of(name) as tried:
        for trial in chosen(only, try_browser, try_sight, try_print):
            tried(trial.__name__, trial, name, address, **{"short": True} if only == "try_browser" else {})
