"""The web page of the desk, desks that are served with it, and the test case with a browser."""
from __future__ import annotations

import json
import pathlib
import shutil
import time
import unittest
import urllib.error
import urllib.request

from tests.support import Json, browser
from tests.support.browser import Browser, Tab
from tests.support.cases import DeskTestCase
from tests.support.http import Server
from tests.support.program import EXAMPLES, File, Program
from tests.support.tools import loaded

# How many connections a served desk may take: more than any test makes.
CONNECTIONS = 100_000

# So many seconds ago the mornings of the examples began, of which a second counts as a minute.
BEGAN = 60_000

# How many commands the mornings of the examples are.
MORNINGS = 34

# What the browser of a journey has kept: who works at it.
KEPT = """localStorage.getItem("desk.operator") || localStorage.setItem("desk.operator", '"anna"');"""

page_tool = loaded("make/page.py")


def resources() -> dict[str, str]:
    """Returns the text of each resource of the page, by its path."""
    return {it.path: str(it.text) for it in page_tool.RESOURCES}


def mornings(now: int) -> bytes:
    """Returns the lines of examples/mornings.jsonl, moved into the hours before a moment, with orders that are due before and after it."""
    lines = []
    for line in (EXAMPLES / "mornings.jsonl").read_text().splitlines():
        command = json.loads(line)
        command["at"] = now - BEGAN + 60 * command["at"]
        for order in command.get("orders", []):
            order["due"] = moved(order["due"], now)
        lines.append(json.dumps(command).encode() + b"\n")
    return b"".join(lines)


def moved(due: str, now: int) -> str:
    """Returns a due date of March 2027 as a day around a moment: the 6th is that day."""
    return time.strftime("%Y-%m-%d", time.localtime(now + 86_400 * (int(due[-2:]) - 6)))


class ServedDesk:
    """A desk over a file that is served with the page, and can be killed and started again at its port."""

    def __init__(self, desk: Program, file: File, *options: str) -> None:
        self.desk, self.file, self.options = desk, file, ("--page", "--ahead", "0", *options)
        self.server = Server(desk, file, CONNECTIONS, *self.options)
        self.url = f"http://127.0.0.1:{self.server.port}/"

    def ask(self, path: str) -> Json:
        """Returns what the desk answers to a question."""
        with urllib.request.urlopen(f"http://127.0.0.1:{self.server.port}/v1{path}", timeout=60) as it:
            return json.load(it)

    def found(self, path: str) -> Json:
        """Returns what the desk answers to a question that it may not know."""
        try:
            return self.ask(path)
        except urllib.error.HTTPError as error:
            return json.load(error)

    def told(self, **command: Json) -> Json:
        """Tells the desk a command, as another client does; returns its reply."""
        request = urllib.request.Request(f"http://127.0.0.1:{self.server.port}/v1/commands", json.dumps(command).encode())
        with urllib.request.urlopen(request, timeout=60) as it:
            return json.load(it)

    def kill(self) -> None:
        """Kills the desk as a stop of the machine would."""
        self.server.process.kill()
        self.server.end()

    def start_again(self, file: File | None = None) -> None:
        """Starts the desk again at the port that it had, or another desk there, whose file is given."""
        self.server = Server(self.desk, file or self.file, CONNECTIONS, *self.options, port=self.server.port)

    def end(self) -> None:
        """Ends the desk."""
        self.kill()


class BrowserTestCase(DeskTestCase):
    """A test case with a browser. Where there is none its tests are left out, and the module says so."""

    IN_A_BROWSER = True
    IN_MEMORY = True
    NAMES: tuple[str, ...] = ()

    # The browser, and the file of the mornings.
    browser: Browser
    mornings: pathlib.Path

    @classmethod
    def setUpClass(cls) -> None:
        super().setUpClass()
        if not browser.program():
            cls.leave_out(cls.__name__, "there is no chromium")
            raise unittest.SkipTest("there is no chromium")
        cls.browser = Browser(cls.NAMES)
        cls.addClassCleanup(cls.browser.end)
        cls.mornings = cls.made("mornings", mornings(int(time.time())))

    @classmethod
    def made(cls, name: str, told: bytes) -> pathlib.Path:
        """Makes a desk of lines of commands, which are all accepted, and returns its file."""
        file = cls.class_folder() / f"{name}.db"
        ended = Program("desk", file.parent).run("run", file.name, told=told)
        cls.check_set_up(name, (ended.status, ended.output.count(b'"ok"')), (0, told.count(b"\n")))
        return file

    def serve(self, *options: str, is_empty: bool = False, begun: pathlib.Path | None = None) -> ServedDesk:
        """Serves a desk of the test's own, which begins as a file that is given, else with the mornings where it isn't to be empty."""
        file = self.folder / "plant.db"
        if not is_empty:
            shutil.copy(begun or self.mornings, file)
        self.served = ServedDesk(self.desk, file, *options)
        self.addCleanup(self.served.end)
        return self.served

    def open(self, place: str, script: str = "", kept: str = KEPT, **size: int) -> Tab:
        """Opens a view of the page of the desk that is served."""
        tab = self.browser.tab(f"{self.served.url}#{place}", script=kept + script, **size)
        self.addCleanup(tab.close)
        tab.until("document.getElementById('view') && document.getElementById('view').dataset.ready", "the page")
        return tab
