"""The pictures of docs/pictures: first look, mid-game, mistakes, phone, class, print; with ImageMagick, where it is here, in fewer colours."""
import shutil
import subprocess

from browsers import opened
from stand import GAME, TEXT, page, whole_game

MIDDLE = f"moves={GAME}&at=11&black=Anna&white=Bo&depth=8"


def make(address, port, folder):
    folder.mkdir(exist_ok=True)
    whole = whole_game(6)
    views = (("board-first", (1280, 800), "en", "light", "", "moves"), ("board-middle", (1280, 800), "en", "dark", MIDDLE, "moves"), ("board-mistakes", (1280, 800), "en", "light", f"moves={whole}&at=52&depth=4", "mistakes"),
             ("board-phone", (390, 844), "de", "light", MIDDLE, "moves"))  # fmt: skip
    for name, size, language, scheme, state, tab in views:
        with opened("chromium", language, scheme, size) as shown:
            shown.open(f"{address}#{state}")
            shown.known(600)
            shown.tab(tab)
            shown.evaluate("document.activeElement.blur()")
            shown.picture(folder / f"{name}.png")
    with page(port, "--address", "0.0.0.0", "--name", "board.school.example") as (_, service), opened("chromium", size=(1280, 800)) as shown, opened("chromium") as pupil:
        shown.open(f"{service}#{MIDDLE}")
        shown.known(600)
        shown.tab("class")
        shown.until("a class can be opened", "!document.getElementById('class-open').hidden")
        shown.click("#class-open")
        shown.until("the code", "document.querySelector('#class-code svg')")
        pupil.open(f"{service}#{shown.text('#class-link a').partition('#')[2]}")
        pupil.until("the teacher's game", f"{TEXT} === '{GAME}'")
        pupil.tab("class")
        pupil.fill("#pupil-name", "Kim")
        pupil.click("#hand")
        shown.until("a hand", "document.querySelector('#class-pupils button')")
        shown.until("nothing is said any more", "document.getElementById('toast').textContent === ''")
        shown.picture(folder / "board-class.png")
    with opened("chromium", size=(900, 1270)) as shown:
        shown.open(f"{address}#moves={whole}&at=52&depth=4&black=Anna&white=Bo&date=2026-11-27&event=Cup")
        shown.known(600)
        shown.evaluate("window.dispatchEvent(new Event('beforeprint'))")
        shown.scheme("light", "print")
        shown.picture(folder / "board-print.png")
    if shutil.which("convert"):
        for path in folder.glob("board-*.png"):
            subprocess.run(["convert", path, "+dither", "-colors", "128", "-define", "png:compression-level=9", f"PNG8:{path}"], check=True)
