"""Both browsers by selenium: Chromium by Debian's chromedriver, and Firefox by its own protocol, Marionette, as Debian has no geckodriver."""
import base64
import contextlib
import json
import pathlib
import re
import shutil
import socket
import subprocess
import tempfile
import time

from patience import until
from selenium import webdriver
from selenium.common.exceptions import WebDriverException
from selenium.webdriver.chrome.service import Service
from selenium.webdriver.remote.file_detector import UselessFileDetector
from stand import check, fail, free_port, said

FIREFOX_PREFS = {"intl.accept_languages": "{language}", "layout.css.prefers-color-scheme.content-override": "{scheme}", "marionette.port": "{port}", "browser.shell.checkDefaultBrowser": False,
                 "datareporting.policy.dataSubmissionEnabled": False, "app.update.enabled": False, "browser.startup.page": 0, "dom.disable_beforeunload": True}  # fmt: skip


class Marionette:
    """What selenium asks of a driver, asked of Firefox itself."""

    NAMES = {"newSession": "NewSession", "get": "Navigate", "w3cExecuteScript": "ExecuteScript", "findElement": "FindElement", "clickElement": "ElementClick", "sendKeysToElement": "ElementSendKeys",
             "screenshot": "TakeScreenshot", "actions": "PerformActions", "setWindowRect": "SetWindowRect", "refresh": "Refresh", "getElementAriaRole": "GetComputedRole",
             "getElementAriaLabel": "GetComputedLabel", "w3cSetWindowRect": "SetWindowRect", "switchToFrame": "SwitchToFrame", "quit": "DeleteSession"}  # fmt: skip

    def __init__(self, port):
        self.number, self.w3c, self.stream = 0, True, None
        until("Firefox", lambda: not socket.socket().connect_ex(("127.0.0.1", port)), 90)
        self.stream = socket.create_connection(("127.0.0.1", port))
        self.stream.settimeout(300)
        self.file = self.stream.makefile("rb")
        self.heard()

    def heard(self):
        """A message: how many bytes it has, a colon, and these."""
        length = b""
        while (sign := self.file.read(1)) != b":":
            length += sign or fail("Firefox has gone")
        return json.loads(self.file.read(int(length)))

    def execute(self, command, params):
        name = self.NAMES.get(command) or fail(f"Marionette: {command}")
        words = {key: value for key, value in params.items() if key not in ("sessionId", "capabilities")}
        if command == "newSession":
            words = {"strictFileInteractability": False}
        self.number += 1
        data = json.dumps([0, self.number, f"WebDriver:{name}", words]).encode()
        self.stream.sendall(b"%d:%s" % (len(data), data))
        _, _, fault, result = self.heard()
        if fault:
            raise WebDriverException(f"{fault['error']}: {fault['message']}")
        if command == "newSession":
            return {"value": result, "sessionId": result["sessionId"]}
        return {"value": result.get("value") if isinstance(result, dict) and set(result) == {"value"} else result}


def firefox(folder, language, scheme):
    port, profile = free_port(), pathlib.Path(folder)
    values = {"language": language, "scheme": 0 if scheme == "dark" else 1, "port": port}
    prefs = {name: (values[value.strip("{}")] if isinstance(value, str) else value) for name, value in FIREFOX_PREFS.items()}
    (profile / "user.js").write_text("".join(f"user_pref({json.dumps(name)}, {json.dumps(value)});\n" for name, value in prefs.items()))
    command = ["firefox-esr", "--headless", "--no-remote", "--marionette", "--profile", folder]
    process = subprocess.Popen(command, stdout=subprocess.DEVNULL, stderr=subprocess.DEVNULL, env={"HOME": folder, "PATH": "/usr/bin:/bin", "LANG": "C.UTF-8"})
    return process, webdriver.Remote(command_executor=Marionette(port), options=webdriver.FirefoxOptions(), file_detector=UselessFileDetector())


def chromium(language, traced=False):
    options = webdriver.ChromeOptions()
    options.binary_location = shutil.which("chromium")
    for word in ("--headless=new", "--no-sandbox", "--disable-gpu", "--hide-scrollbars", f"--lang={language}", f"--accept-lang={language}", "--force-device-scale-factor=1", "--disable-dev-shm-usage"):
        options.add_argument(word)
    options.set_capability("goog:loggingPrefs", {"browser": "ALL"} | ({"performance": "ALL"} if traced else {}))
    if traced:
        options.add_experimental_option("perfLoggingPrefs", {"enableNetwork": False, "enablePage": False, "traceCategories": "devtools.timeline,disabled-by-default-devtools.timeline"})
    return webdriver.Chrome(service=Service(shutil.which("chromedriver")), options=options)


class Shown:
    """A page in a browser: what trials do with it and ask of it."""

    def __init__(self, driver, name, language, root):
        self.driver, self.name, self.language, self.frame, self.root = driver, name, language, None, root

    def open(self, address):
        """Opens an address as if nothing had been open, and waits for the page."""
        self.driver.get("about:blank")
        if self.frame:
            self.driver.get(f"{address.partition('?')[0].partition('#')[0].rpartition('/')[0]}/none")  # (a frame of another origin is given nothing to keep)
            script = """const one = document.createElement("iframe"); document.body.style.margin = 0; document.body.replaceChildren(one);
              Object.assign(one.style, { border: 0, width: `${arguments[1][0]}px`, height: `${arguments[1][1]}px` }); one.src = arguments[0];"""
            self.driver.execute_script(script, address, self.frame)
            self.driver.switch_to.frame(0)
        else:
            self.driver.get(address)
        self.until("the page", "document.documentElement?.dataset.ready === 'yes'", 60)
        if self.frame:
            self.driver.execute_script("window.focus()")  # keys are for the frame

    def says(self, where, name, **words):
        """Whether a text of the page stands somewhere: in an element, or in a text."""
        text = self.text(where) if where.startswith("#") else where
        return re.search(said(self.language, name, **words), text) is not None

    def evaluate(self, script):
        return self.driver.execute_script(f"return ({script})")

    def text(self, selector):
        return self.evaluate(f"document.querySelector({json.dumps(selector)}).textContent")

    def until(self, what, script, seconds=90):
        until(f"{self.name}: {what}", lambda: self.evaluate(script), seconds)

    def click(self, selector):
        """A click of the mouse at an element's middle, once it is in sight, as a reader scrolls it: the driver knows nothing of what stays above a page that scrolls."""
        found = self.driver.find_element("css selector", selector)
        self.driver.execute_script("arguments[0].scrollIntoView({ block: 'nearest' })", found)
        found.click()

    def keys(self, selector, text):
        self.driver.find_element("css selector", selector).send_keys(text)

    def press(self, key):
        """A key where the focus is."""
        actions = [{"type": "key", "id": "keys", "actions": [{"type": "keyDown", "value": key}, {"type": "keyUp", "value": key}]}]
        self.driver.execute("actions", {"actions": actions})

    def fill(self, selector, text):
        """Gives a field a value, as one who types it and goes on."""
        script = "const one = document.querySelector(arguments[0]); one.value = arguments[1]; one.dispatchEvent(new Event('change', { bubbles: true }));"
        self.driver.execute_script(script, selector, text)

    def check(self, selector, on):
        if self.evaluate(f"document.querySelector({json.dumps(selector)}).checked") != on:
            self.driver.execute_script("document.querySelector(arguments[0]).click()", selector)

    def tab(self, name):
        self.driver.execute_script("document.getElementById(arguments[0]).click()", f"tab-{name}")

    def size(self, width, height):
        if self.name == "chromium":
            self.driver.execute_cdp_cmd("Emulation.setDeviceMetricsOverride", {"width": width, "height": height, "deviceScaleFactor": 2 if (width, height) == (640, 450) else 1, "mobile": False})
        else:  # Firefox has no window of less than 500 pixels: there the page stands in a frame
            self.driver.get("about:blank")
            self.frame = (width, height) if width < 500 else None
            width, height = max(width, 500), height + 20 * bool(self.frame)
            self.driver.set_window_size(width, height)
            inner = self.evaluate("[innerWidth, innerHeight]")
            self.driver.set_window_size(2 * width - inner[0], 2 * height - inner[1])

    def scheme(self, scheme, media=""):
        if self.name == "chromium":
            self.driver.execute_cdp_cmd("Emulation.setEmulatedMedia", {"media": media, "features": [{"name": "prefers-color-scheme", "value": scheme}]})

    def picture(self, path):
        pathlib.Path(path).write_bytes(base64.b64decode(self.driver.get_screenshot_as_base64()))

    def faults(self):
        """What the browser complained of since it was asked last; Firefox tells nobody."""
        return [line["message"] for line in self.driver.get_log("browser") if line["level"] in ("SEVERE", "WARNING")] if self.name == "chromium" else []

    def longest(self):
        """How many milliseconds of a processor the longest task took of a thread that draws a page, since it was asked last; of a browser that is traced."""
        found = [json.loads(line["message"])["message"] for line in self.driver.get_log("performance")]
        events = [one["params"] for one in found if one["method"] == "Tracing.dataCollected"]
        drawn = {(one["pid"], one["tid"]) for one in events if one.get("name") in ("Layout", "UpdateLayoutTree", "Paint")}
        return max((one.get("tdur", 0) / 1000 for one in events if one.get("name") == "RunTask" and (one["pid"], one["tid"]) in drawn), default=0)

    def renderer(self):
        """The process that draws the page: its first thread is the one that is busy while the page is. On a busy machine it may get little in any time, so it gets work."""
        kinds = {one: pathlib.Path(f"/proc/{one}/cmdline").read_bytes() for one in below(self.root)}
        before = {one: main_thread(one) for one, words in kinds.items() if b"--type=renderer" in words or b"-contentproc" in words}
        self.evaluate("(() => { let sum = 0; for (let n = 0; n < 5e8; n += 1) sum ^= n; return sum; })()")
        taken = {one: main_thread(one) - before[one] for one in before}
        most = max(taken, key=taken.get)
        check(taken[most] > 100, f"{self.name}: no process draws the page: {taken}")
        return most

    def known(self, seconds=240):
        self.until("all values", "document.documentElement.dataset.known === 'yes'", seconds)


def below(root):
    """The processes that one has begun, and theirs."""
    parents = {}
    for place in pathlib.Path("/proc").glob("[0-9]*/stat"):
        with contextlib.suppress(OSError):
            parents[int(place.parent.name)] = int(place.read_text().rpartition(")")[2].split()[1])
    found = {root}
    while more := {one for one, parent in parents.items() if parent in found} - found:
        found |= more
    return found


def main_thread(process, which=0):
    """Milliseconds for which a process' first thread has had a processor, or (1) has waited for one."""
    with contextlib.suppress(OSError):
        return int(pathlib.Path(f"/proc/{process}/schedstat").read_text().split()[which]) / 1e6
    return 0


def names():
    """The browsers that are here."""
    return [name for name, words in (("chromium", ("chromium", "chromedriver")), ("firefox", ("firefox-esr",))) if all(shutil.which(word) for word in words)]


@contextlib.contextmanager
def opened(name, language="en", scheme="light", size=(1280, 900), traced=False):
    """A browser with one page; it ends with the trial."""
    with tempfile.TemporaryDirectory(ignore_cleanup_errors=True) as folder:
        process, driver = firefox(folder, language, scheme) if name == "firefox" else (None, chromium(language, traced))
        try:
            shown = Shown(driver, name, language, process.pid if process else driver.service.process.pid)
            shown.size(*size)
            shown.scheme(scheme)
            yield shown
        finally:
            with contextlib.suppress(Exception):
                driver.quit()
            if process:
                process.terminate()
                with contextlib.suppress(subprocess.TimeoutExpired):
                    process.wait(10)
                process.kill()
                process.wait()
            time.sleep(0.1)
