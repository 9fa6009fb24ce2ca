"""A class in the browser: the teacher's board is followed by its link; hands are raised; a page's service behind another web server."""
import asyncio
import json
import shutil
import socket
import subprocess
import time

from browsers import opened
from service import NGINX, place_of
from stand import CELLS, HERE, PAGE, TEXT, asked, check, chosen, fail, faults_of, free_port, page, stage, until


def try_class(address, name):
    """A pupil looks alone and follows again, raises a hand and is looked at; a class ends; no other teaches it."""
    with opened(name) as teacher, opened("chromium", "de", size=(390, 844)) as one:
        teacher.open(f"{address}#moves=f5d6c3&at=3&depth=4")
        teacher.tab("class")
        teacher.until("a class can be opened", "!document.getElementById('class-open').hidden")
        teacher.click("#class-open")
        teacher.until("the link", "document.querySelector('#class-link a')")
        check("Only this computer reaches" in teacher.text("#class-help"), f"a link that leads nowhere isn't told: {teacher.text('#class-help')}")
        link = teacher.evaluate("document.querySelector('#class-link a').href")
        teacher.click("#class-copy")
        check(teacher.evaluate("document.getElementById('given').value") == link, "the link isn't copied")
        check(teacher.evaluate("[...document.querySelectorAll('#class-panel > *')].findIndex((one) => one.querySelector('#class-close'))") == 0, "the class's buttons aren't at the top")
        one.open(link)
        one.until("the teacher's game", f"{TEXT} === 'f5d6c3'")
        check("Lehrkraft" in one.text("#class-told"), "a pupil isn't told")
        check(one.evaluate("(() => { const box = document.getElementById('pupil-name').getBoundingClientRect(); return box.width > 60 && box.top > 0 && box.bottom <= innerHeight })()"), "a pupil isn't asked for a name where the class is joined")
        teacher.until("who follows", "document.getElementById('class-count').textContent === '1 follows.'")
        one.fill("#pupil-name", "Anna <b>")
        teacher.until("the pupil's name", "document.querySelector('#class-pupils li')?.textContent === 'Anna <b> · follows'")
        teacher.evaluate("document.querySelector('[data-square=d3]').click()")
        one.until("the teacher's move", f"{TEXT} === 'f5d6c3d3'")
        check(one.evaluate(CELLS) == teacher.evaluate(CELLS), "a pupil sees another board")
        one.evaluate("document.querySelector('[data-square=c4]').click()")
        check("allein" in one.text("#class-told"), f"a pupil who plays: {one.text('#class-told')}")
        teacher.until("who looks alone", "document.querySelector('#class-pupils li')?.textContent === 'Anna <b> · looks alone'")
        one.tab("class")
        one.click("#hand")
        teacher.until("a hand", "document.querySelector('#class-pupils li')?.textContent.includes('Anna <b> raises a hand')")
        teacher.click("#class-pupils button")
        teacher.until("the pupil's board", f"{TEXT} === 'f5d6c3d3c4'")
        check("alone" in teacher.text("#strip-text") and "Anna <b>" in teacher.text("#strip-text"), f"a look isn't said to be the teacher's alone: {teacher.text('#strip-text')}")
        one.click("#class-again")
        one.until("the teacher's game again", f"{HERE} === 'd3'")
        check(one.evaluate(TEXT) == "f5d6c3d3", f"the class sees a board that the teacher looks at alone: {one.evaluate(TEXT)}")
        teacher.click("#strip-buttons [data-does=mine]")
        check(teacher.evaluate(TEXT) == "f5d6c3d3", f"the teacher's own board: {teacher.evaluate(TEXT)}")
        teacher.driver.refresh()
        teacher.until("the class after the page was loaded again", "document.documentElement?.dataset.ready === 'yes' && document.querySelector('#class-link a')")
        teacher.evaluate("document.getElementById('first').click()")
        one.until("the teacher's start after that", f"{HERE} === ''")
        room = link.split("follow=")[1]
        check(asked(f"{address}class/{room}", {"key": "x" * 32, "state": "#moves=f5"})[0] == 403 and asked(f"{address}class/{room}/pupils", {"key": "x"})[0] == 403, "anybody teaches this class")
        teacher.tab("class")
        teacher.click("#class-close")
        one.until("the end of the class", "document.getElementById('class-told').textContent.includes('zu Ende')")
        check(asked(f"{address}class/{room}")[0] == 404, "a class that has ended is there")


def try_gone(port):
    """A class whose server is gone says so to the teacher."""
    with opened("chromium") as teacher, page(port) as (process, address):
        teacher.open(f"{address}#moves=f5d6c3&at=3&depth=2")
        teacher.tab("class")
        teacher.until("a class can be opened", "!document.getElementById('class-open').hidden")
        teacher.click("#class-open")
        teacher.until("the link", "document.querySelector('#class-link a')")
        check(teacher.says("#class-told", "class.teaching"), f"a class begins: {teacher.text('#class-told')}")
        process.terminate()
        until("the teacher is told", lambda: teacher.says("#class-told", "class.lost"), 30)
    print("board: a teacher is told that the class can't be reached")


SEARCHES = """(() => { window.searched ??= (() => { const found = { count: 0 }; const post = Worker.prototype.postMessage;
  Worker.prototype.postMessage = function (what, ...more) { if (what.depth !== undefined) found.count += 1; return post.call(this, what, ...more); }; return found; })(); return window.searched.count })()"""


def try_hidden(address, name):
    """Values are hidden from pupils: none reaches their browsers, these search nothing, and they get no moves that are yet to come; and are shown again."""
    with opened(name) as teacher, opened("chromium", "de", size=(390, 844)) as one:
        teacher.open(f"{address}#moves=f5!d6??c3d3&at=2&depth=4")
        teacher.tab("class")
        teacher.until("a class can be opened", "!document.getElementById('class-open').hidden")
        teacher.click("#class-open")
        teacher.until("the link", "document.querySelector('#class-link a')")
        teacher.click("#class-hide")
        one.open(teacher.evaluate("document.querySelector('#class-link a').href"))
        one.until("the teacher's move", f"{TEXT} === 'f5d6'")
        one.evaluate(SEARCHES)
        teacher.click("#back")
        one.until("the move before", f"{HERE} === 'f5' && {TEXT} === 'f5'")
        one.evaluate("document.querySelector('.square.legal').click()")  # also alone
        one.until("a move alone", f"{TEXT}.length === 4")
        time.sleep(2)
        check(one.evaluate(SEARCHES) == 0 and one.evaluate("document.querySelectorAll('.score').length") == 0, f"a pupil's browser searches {one.evaluate(SEARCHES)} times though values are hidden")
        check(one.says("#state", "state.hidden") and one.says("#moves-panel", "state.hidden"), f"why there are none: {one.text('#state')}")
        check(teacher.evaluate("document.querySelectorAll('.score').length") > 0, "the teacher sees none either")
        one.evaluate("document.getElementById('class-again').click()")
        teacher.click("#class-hide")
        one.until("values again", "document.querySelectorAll('.score').length > 0 && document.getElementById('moves').textContent.includes('??')")
        teacher.click("#class-close")


def try_tabs(address):
    """A browser's seventh tab that follows is told of each move: it has six connections for a host."""
    with opened("chromium") as teacher, opened("chromium") as one:
        teacher.open(f"{address}#moves=f5d6c3&at=3&depth=2")
        teacher.tab("class")
        teacher.until("a class can be opened", "!document.getElementById('class-open').hidden")
        teacher.click("#class-open")
        teacher.until("the link", "document.querySelector('#class-link a')")
        link, tabs = teacher.evaluate("document.querySelector('#class-link a').href"), []
        for number in range(7):
            if number:
                one.driver.switch_to.new_window("tab")
            one.driver.get(link)
            one.until(f"tab {number + 1} follows", f"document.documentElement?.dataset.ready === 'yes' && {TEXT} === 'f5d6c3'", 60)
            tabs.append(one.driver.current_window_handle)
        teacher.evaluate("document.querySelector('[data-square=d3]').click()")
        for number, tab in enumerate(tabs, 1):
            one.driver.switch_to.window(tab)
            one.until(f"tab {number} is told of a move", f"{TEXT} === 'f5d6c3d3'", 60)
        one.driver.switch_to.window(tabs[0])
        one.driver.close()  # it heard for all
        teacher.evaluate("document.querySelector('[data-square=c4]').click()")
        for tab in tabs[1:]:
            one.driver.switch_to.window(tab)
            one.until("the others hear without it", f"{TEXT} === 'f5d6c3d3c4'", 60)
        teacher.click("#class-close")
    print("board: seven tabs of a browser follow")


async def heard(address, room, states, key=None):
    """What a follower of a class is told, or with its key the teacher, to the end: lines are put into a list. The status where it is refused."""
    host, port = place_of(address)
    reader, writer = await asyncio.open_connection(host, port)
    body = json.dumps({"key": key}).encode() if key else b""
    head = f"{f'POST /class/{room}/pupils' if key else f'GET /class/{room}'} HTTP/1.1\r\nHost: {host}:{port}\r\nConnection: close\r\n"
    writer.write(f"{head}Content-Type: application/json\r\nContent-Length: {len(body)}\r\n\r\n".encode() + body)
    try:
        status = int((await reader.readline()).split()[1])
        async for line in reader:
            if status == 200 and line.startswith(b"{"):
                states.append(json.loads(line))
        return status
    finally:
        writer.close()


async def crowd(address, many):
    def post(path, body):
        return asyncio.to_thread(asked, f"{address}class{path}", body)

    async def until_all(what, holds):
        for _ in range(6000):
            if holds():
                return
            await asyncio.sleep(0.01)
        fail(f"a crowd: {what}")

    room, key = json.loads((await post("", {"state": "0"}))[1]).values()
    told, teacher = [[] for _ in range(many)], []
    hears = asyncio.ensure_future(heard(address, room, teacher, key))
    follow = [asyncio.ensure_future(heard(address, room, states)) for states in told]
    await until_all("not all follow", lambda: teacher and teacher[-1]["followers"] == many)
    check(await heard(address, room, []) == 429, "one more than a class holds is let in")
    for number in range(1, 41):
        check((await post(f"/{room}", {"key": key, "state": str(number)}))[0] == 200, "the teacher isn't heard")
    await until_all("not all see the last state", lambda: all(states[-1]["state"] == "40" for states in told))
    numbers = [[int(state["state"]) for state in states] for states in told]
    check(all(one == sorted(set(one)) for one in numbers), "states come twice, or out of order")
    hands = await asyncio.gather(*(post(f"/{room}/pupil", {"pupil": f"p{number}", "name": f"Pupil {number}", "state": "#"}) for number in range(120)))
    check(all(status == 200 for status, *_ in hands), "a hand isn't raised")
    await until_all("the hands", lambda: len([one for one in teacher[-1]["pupils"] if one["state"]]) == 120)
    for one in follow[: many // 2]:
        one.cancel()
    await until_all("half of them leave", lambda: teacher[-1]["followers"] == many - many // 2)
    await post(f"/{room}", {"key": key, "state": None})
    check(set(await asyncio.gather(*follow[many // 2:])) == {200} and all(states[-1]["state"] is None for states in told[many // 2:]), "the end isn't told to all")
    hears.cancel()


def try_crowd(port):
    """A class of 400, which is as many as one holds: each sees the last state, all hear the end."""
    with page(port, "--connections", 600, "--per-address", 600) as (process, address):
        asyncio.run(asyncio.wait_for(crowd(address, 400), 300))
        check(asked(f"{address}about.json")[0] == 200, "the page has ended with its class")
    print("board: a class of 400 sees each last state, and its end")


def try_host(port):
    """Where other hosts are let in, the link has this host's address, and there is a code for it."""
    with page(port, "--address", "0.0.0.0", "--name", "board.example") as (_, address), opened("chromium") as teacher:
        teacher.open(address)
        teacher.tab("class")
        teacher.until("a class can be opened", "!document.getElementById('class-open').hidden")
        teacher.click("#class-open")
        teacher.until("the link", "document.querySelector('#class-link a')")
        link = teacher.text("#class-link a")
        offered = teacher.evaluate("[...document.getElementById('class-address').options].map((one) => one.value)")
        check(len(offered) > 1 and offered[0].startswith("http://board.example:") and not any("0.0.0.0" in one for one in offered), f"not all addresses of this host: {offered}")
        code = "document.querySelector('#class-code svg')?.getAttribute('aria-label') ?? ''"
        check(link.startswith("http://board.example:") and "board.example" in teacher.evaluate(code), f"the link {link}, the code {teacher.evaluate(code)}")
        teacher.fill("#class-address", offered[1])
        check(teacher.text("#class-link a").startswith(offered[1]) and offered[1] in teacher.evaluate(code), f"another address is {teacher.text('#class-link a')}, with the code {teacher.evaluate(code)}")


def try_behind(port, folder):
    """The files by another web server, and the service beside them."""
    home, own = free_port(), free_port()
    (folder / "nginx.conf").write_text(NGINX.format(folder=folder, port=home, files=PAGE, page=own))
    with page(port, "--port", own, "--name", "127.0.0.1"), opened("chromium") as shown:
        process = subprocess.Popen(["nginx", "-c", folder / "nginx.conf", "-p", folder])
        with stage.ended_after(process):
            until("nginx", lambda: not socket.socket().connect_ex(("127.0.0.1", home)), 20)
            shown.open(f"http://127.0.0.1:{home}/board/#moves=f5d6&depth=4")
            shown.known()
            shown.tab("class")
            shown.until("a class can be opened", "!document.getElementById('class-open').hidden")
            shown.click("#class-open")
            shown.until("a class", "document.querySelector('#class-link a')")
    print("board: its files by nginx, and the service beside them")


def try_all(service, port, folder, name, only=""):
    with faults_of(name) as tried:
        for trial in chosen(only, try_class, try_hidden, try_gone, try_tabs, try_crowd, try_host, try_behind):
            if trial in (try_class, try_hidden):
                tried(trial.__name__, trial, service, name)
            elif name == "chromium" and (trial is not try_behind or shutil.which("nginx")):
                tried(trial.__name__, trial, *{try_tabs: (service,), try_behind: (port, folder)}.get(trial, (port,)))
    print(f"board: {name}: a class follows its teacher, and raises hands")
