"""A headless Chromium, told what to do by DevTools over a pipe, and its tabs. It needs the program and Python's own library, and no driver."""
from __future__ import annotations

import base64
import contextlib
import fcntl
import json
import os
import pathlib
import select
import shutil
import subprocess
import tempfile
import time
from collections.abc import Sequence

from tests.support import Json
from tests.support.program import File

# The names of the program, the first that is there.
NAMES = ("chromium", "chromium-browser", "google-chrome")

# How many seconds an answer of the browser, and what a test waits for in a page, may take.
LIMIT = 60

# How it is started: with no other window, of its own folder, and with nothing that asks the net for anything.
SWITCHES = (
    "--headless=new", "--no-sandbox", "--disable-gpu", "--disable-dev-shm-usage", "--no-first-run", "--disable-extensions", "--hide-scrollbars",
    "--disable-background-networking", "--disable-component-update", "--disable-sync", "--disable-features=Translate,MediaRouter,OptimizationHints",
    "--lang=en-GB", "--no-proxy-server", "--remote-debugging-pipe",
)

# The numbers of the two pipes in the browser, of what it is told and of what it says.
TOLD, SAYS = 3, 4

# The keys that have a name: their code and their text.
KEYS = {"Enter": (13, "\r"), "Escape": (27, ""), "Tab": (9, ""), " ": (32, " "), "ArrowDown": (40, "")}

# How many seconds lie between the keys of a person who types quickly, and between those of a scanner.
PERSON, SCANNER = 0.08, 0.005

# By what name a reader of the screen calls the element that has the keyboard.
NAME_OF_FOCUS = """(() => {
  const e = document.activeElement;
  return e.getAttribute("aria-label") || (e.labels && e.labels[0] ? e.labels[0].innerText : e.innerText);
})()"""


class BrowserError(Exception):
    """The browser says that something went wrong."""


def program() -> str | None:
    """Returns the path of the browser's program, or none."""
    return next((path for path in (shutil.which(it) for it in NAMES) if path), None)


def can_be_installed() -> bool:
    """Returns whether the browser can be installed by apt."""
    return os.geteuid() == 0 and shutil.which("apt-get") is not None


def ensure() -> str | None:
    """Installs the browser by apt where it isn't there and that may be done. Returns what keeps the tests from having it, or none."""
    if program():
        return None
    if not can_be_installed():
        return "there is no chromium, and it can't be installed by apt"
    environment, patience = {**os.environ, "DEBIAN_FRONTEND": "noninteractive"}, ["-o", "Acquire::Retries=0", "-o", "Acquire::http::Timeout=20"]
    for words in (["update"], ["install", "-y", "--no-install-recommends", "chromium", "fonts-dejavu-core"]):
        ran = subprocess.run(
            ["apt-get", *patience, *words], env=environment, text=True, errors="replace",
            stdin=subprocess.DEVNULL, stdout=subprocess.PIPE, stderr=subprocess.STDOUT,
        )
        if ran.returncode:
            return f"there is no chromium, and apt-get {words[0]} failed: {(ran.stdout.strip().splitlines() or [''])[-1]}"
    return None if program() else "there is no chromium after it was installed by apt"


class Browser:
    """A running browser; `names` leads names of hosts to 127.0.0.1."""

    def __init__(self, names: Sequence[str] = ()) -> None:
        self.folder = tempfile.mkdtemp(prefix="desk-browser-")
        self.number, self.rest = 0, b""
        self.events: list[Json] = []
        told, self.writer = pipe()
        self.reader, says = pipe()
        rules = [f"--host-resolver-rules={','.join(f'MAP {it} 127.0.0.1' for it in names)}"] if names else []
        path = program()
        assert path, "there is no chromium"
        words = [path, *SWITCHES, *rules, f"--user-data-dir={self.folder}", "about:blank"]
        line = f'exec "$@" {TOLD}<&{told} {SAYS}>&{says}'
        self.process = subprocess.Popen(
            ["bash", "-c", line, "bash", *words], pass_fds=(told, says),
            stdin=subprocess.DEVNULL, stdout=subprocess.DEVNULL, stderr=subprocess.DEVNULL,
        )
        os.close(told)
        os.close(says)

    def __enter__(self) -> Browser:
        return self

    def __exit__(self, *_: object) -> None:
        self.end()

    def end(self) -> None:
        """Ends the browser and removes its folder."""
        with contextlib.suppress(OSError, BrowserError, TimeoutError):
            self.call("Browser.close")
        try:
            self.process.wait(15)
        except subprocess.TimeoutExpired:
            self.process.kill()
            self.process.wait()
        os.close(self.writer)
        os.close(self.reader)
        shutil.rmtree(self.folder, ignore_errors=True)

    def next_message(self, until: float) -> Json:
        """Returns the next thing that the browser says."""
        while b"\0" not in self.rest:
            if not select.select([self.reader], [], [], max(0, until - time.monotonic()))[0]:
                raise TimeoutError("the browser says nothing")
            piece = os.read(self.reader, 1 << 16)
            if not piece:
                raise BrowserError("the browser has ended")
            self.rest += piece
        one, self.rest = self.rest.split(b"\0", 1)
        return json.loads(one)

    def send(self, method: str, session: str | None = None, **parameters: Json) -> int:
        """Calls a method of DevTools, and returns the number of the call, whose result isn't waited for."""
        self.number += 1
        message = {"id": self.number, "method": method, "params": parameters, **({"sessionId": session} if session else {})}
        os.write(self.writer, json.dumps(message).encode() + b"\0")
        return self.number

    def call(self, method: str, session: str | None = None, **parameters: Json) -> Json:
        """Calls a method of DevTools, and returns its result. What happens meanwhile is kept in `events`."""
        own = self.send(method, session, **parameters)
        until = time.monotonic() + LIMIT
        while True:
            said = self.next_message(until)
            if said.get("id") == own:
                if "error" in said:
                    raise BrowserError(f"{method}: {said['error']}")
                return said["result"]
            if "method" in said:
                self.events.append(said)

    def tab(self, url: str, script: str | None = None, width: int = 1280, height: int = 860) -> Tab:
        """Opens a page in a tab with a storage of its own. `script` is run before those of the page."""
        return Tab(self, url, script, width, height)


def pipe() -> tuple[int, int]:
    """Returns the two ends of a pipe, numbered so that they aren't in the way of those that the browser gets."""
    ends = os.pipe()
    kept = fcntl.fcntl(ends[0], fcntl.F_DUPFD, 10), fcntl.fcntl(ends[1], fcntl.F_DUPFD, 10)
    for it in ends:
        os.close(it)
    return kept


class Tab:
    """A page in a tab. What isn't there yet is waited for; nothing is told by a pause of fixed length."""

    def __init__(self, browser: Browser, url: str, script: str | None, width: int, height: int) -> None:
        self.browser = browser
        self.pressed = time.time()
        self.context = browser.call("Target.createBrowserContext")["browserContextId"]
        self.target = browser.call("Target.createTarget", url="about:blank", browserContextId=self.context)["targetId"]
        self.session = browser.call("Target.attachToTarget", targetId=self.target, flatten=True)["sessionId"]
        for domain in ("Page", "Runtime", "Log", "Network"):
            self.call(f"{domain}.enable")
        self.size(width, height)
        if script:
            self.call("Page.addScriptToEvaluateOnNewDocument", source=script)
        self.call("Page.navigate", url=url)

    def close(self) -> None:
        self.browser.call("Target.disposeBrowserContext", browserContextId=self.context)

    def call(self, method: str, **parameters: Json) -> Json:
        return self.browser.call(method, self.session, **parameters)

    def size(self, width: int, height: int = 860) -> None:
        """Gives the page a size."""
        self.call("Emulation.setDeviceMetricsOverride", width=width, height=height, deviceScaleFactor=1, mobile=False)

    def reload(self) -> None:
        """Loads the page anew from the address that it has, as the page itself knows it, and waits until the old one is gone."""
        self.run("globalThis.isOld = true, location.reload()")
        self.until("!globalThis.isOld", "the page anew")

    # ---- what is in the page

    def run(self, code: str) -> Json:
        """Returns the value of an expression in the page, awaited."""
        it = self.call("Runtime.evaluate", expression=code, awaitPromise=True, returnByValue=True)
        if "exceptionDetails" in it:
            raise BrowserError(f"{it['exceptionDetails'].get('exception', {}).get('description', '?')} in {code}")
        return it["result"].get("value")

    def until(self, code: str, what: str | None = None) -> Json:
        """Waits until an expression is true, and returns its value."""
        end = time.monotonic() + LIMIT
        while True:
            try:
                value = self.run(code)
            except BrowserError:  # while it goes to another document
                value = None
            if value:
                return value
            if time.monotonic() > end:
                raise AssertionError(f"waited {LIMIT} seconds for {what or code}; the page says:\n{self.text()[:1500]}")
            time.sleep(0.03)

    def text(self, within: str = "document.body") -> str:
        """Returns the text that is seen, with plain spaces."""
        text: str = self.run(f"{within}.innerText.replaceAll('\\u202f', ' ')")
        return text

    def has(self, text: str, within: str = "document.body") -> None:
        """Waits until a text is seen."""
        self.until(f"{within}.innerText.replaceAll('\\u202f', ' ').includes({json.dumps(text)})", repr(text))

    def lacks(self, text: str, within: str = "document.body") -> None:
        """Waits until a text isn't seen."""
        self.until(f"!{within}.innerText.replaceAll('\\u202f', ' ').includes({json.dumps(text)})", f"no {text!r}")

    # ---- what a hand does

    def place(
        self, text: str, tag: str = "button", within: str = "document", row: str | None = None,
    ) -> tuple[float, float]:
        """Returns the middle of the first element of a tag that is seen, can be used and has this text; in the row of that name, if one is given."""
        root = f"{within}.querySelector({json.dumps(f'[data-row={json.dumps(row)}]')})" if row else within
        code = f"""(() => {{
          const root = {root}, isMeant = (e) => e.innerText.trim() === {json.dumps(text)} && e.offsetParent && !e.disabled;
          const all = root ? [...root.querySelectorAll({json.dumps(tag)})].filter(isMeant) : [];
          if (!all.length) return null;
          all[0].scrollIntoView({{block: "center"}});
          const r = all[0].getBoundingClientRect();
          return [r.x + r.width / 2, r.y + r.height / 2];
        }})()"""
        x, y = self.until(code, f"{tag} {text!r}" + (f" in row {row!r}" if row else ""))
        return x, y

    def click(
        self, text: str, tag: str = "button", within: str = "document", row: str | None = None, times: int = 1,
    ) -> None:
        """Clicks on the element of this text, once it has stayed at its place for a while: a view that is drawn anew moves its buttons."""
        was, now = None, self.place(text, tag, within, row)
        while now != was:
            time.sleep(0.1)
            was, now = now, self.place(text, tag, within, row)
        x, y = now
        self.click_at(x, y, times)

    def click_at(self, x: float, y: float, times: int = 1, first: int = 1) -> None:
        """Clicks at a place; `first` is the number of the first click among those that follow one another quickly."""
        for count in range(first, first + times):
            for kind in ("mousePressed", "mouseReleased"):
                self.call("Input.dispatchMouseEvent", type=kind, x=x, y=y, button="left", clickCount=count)

    def fill(self, name: str, value: str | int) -> None:
        """Writes into a field of the form that is open, or into the one of this id, in the place of what stands there."""
        found = f"(document.querySelector('dialog[open] [name=\"{name}\"]') || document.getElementById('{name}'))"
        code = f"(() => {{ const e = {found}; if (!e) return false; e.focus(); if (e.select) e.select(); return document.activeElement === e; }})()"
        self.until(code, f"the field {name}")
        if self.run("document.activeElement.tagName === 'SELECT' || document.activeElement.type === 'date'"):
            change = "e.value = %s; e.dispatchEvent(new Event('change', {bubbles: true}));" % json.dumps(str(value))
            self.run(f"(() => {{ const e = document.activeElement; {change} }})()")
        else:
            self.call("Input.insertText", text=str(value))

    def value(self, name: str) -> str:
        """Returns what stands in a field of the form that is open."""
        field = f"document.querySelector('dialog[open] [name=\"{name}\"]')"
        self.until(f"{field} !== null", f"the field {name}")
        value: str = self.run(f"{field}.value")
        return value

    def choose_file(self, field: str, path: File) -> None:
        """Chooses a file in the field of this id."""
        it = self.call("Runtime.evaluate", expression=f"document.getElementById('{field}')")
        self.call("DOM.setFileInputFiles", files=[str(path)], objectId=it["result"]["objectId"])

    def key(self, key: str, repeats: int = 0, after: float = PERSON) -> None:
        """Presses a key, which may be kept down so that it repeats, so many seconds after the one before it."""
        for parameters in self.strokes(key, repeats, max(time.time(), self.pressed + after)):
            self.call("Input.dispatchKeyEvent", **parameters)

    def strokes(self, key: str, repeats: int, moment: float) -> list[dict[str, Json]]:
        """Returns the events of a key at a moment. What a page is told of the time between keys is that between these moments."""
        code, text = KEYS[key] if key in KEYS else (ord(key.upper()), key)
        rest = {"key": key, "windowsVirtualKeyCode": code, "nativeVirtualKeyCode": code}
        kind, self.pressed = "keyDown" if text else "rawKeyDown", moment
        down = [{"type": kind, "text": text, "autoRepeat": count > 0, "timestamp": moment, **rest} for count in range(repeats + 1)]
        return [*down, {"type": "keyUp", "timestamp": moment, **rest}]

    def type(self, text: str) -> None:
        """Types a text as a person does, a key for each letter."""
        for it in text:
            self.key(it)

    def scan(self, code: str) -> None:
        """Types a code and Enter as a scanner does."""
        moment = max(time.time(), self.pressed + PERSON)
        for count, key in enumerate([*code, "Enter"]):
            for parameters in self.strokes(key, 0, moment + count * SCANNER):
                self.browser.send("Input.dispatchKeyEvent", self.session, **parameters)
        self.run("true")

    def tab_to(self, text: str, at_most: int = 80) -> None:
        """Presses Tab until the keyboard is at an element of this text or label."""
        for _ in range(at_most):
            self.key("Tab")
            if self.run(NAME_OF_FOCUS).strip().startswith(text):
                return
        raise AssertionError(f"{at_most} times Tab didn't lead to {text!r}; the page says:\n{self.text()[:1500]}")

    # ---- what is seen

    def shot(self, path: File, is_whole: bool = True) -> None:
        """Keeps a picture of the page, or of what of it is seen."""
        more: dict[str, Json] = {}
        if is_whole:
            size = self.call("Page.getLayoutMetrics")["cssContentSize"]
            more = {"captureBeyondViewport": True, "clip": {"x": 0, "y": 0, "width": size["width"], "height": size["height"], "scale": 1}}
        data = self.call("Page.captureScreenshot", format="png", **more)["data"]
        with open(path, "wb") as it:
            it.write(base64.b64decode(data))

    def printed(self, path: File) -> None:
        """Prints the page to a file, as PDF."""
        data = self.call("Page.printToPDF", printBackground=True, preferCSSPageSize=True)["data"]
        pathlib.Path(path).write_bytes(base64.b64decode(data))

    def errors(self) -> list[str]:
        """Returns what the console of the page tells of errors, but for requests that were refused or not answered, as tests want them."""
        told = []
        for event in self.browser.events:
            if event.get("sessionId") != self.session:
                continue
            if event["method"] == "Runtime.exceptionThrown":
                told.append(event["params"]["exceptionDetails"].get("exception", {}).get("description", "?"))
            entry = event["params"].get("entry", {}) if event["method"] == "Log.entryAdded" else {}
            if entry.get("level") == "error" and entry.get("source") != "network":
                told.append(entry["text"])
        return told
