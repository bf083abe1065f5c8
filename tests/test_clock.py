"""The machine's clock, over sockets: the time that answers carry, commands that are ahead of it, and the cure that docs/ERRORS.md has."""
from __future__ import annotations

import email.utils
import json
import re
import sqlite3
import time

from tests.support.cases import DeskTestCase
from tests.support.http import Server, answer, answered, dated, posted
from tests.support.program import TOP

# How far two looks at the clock may lie apart, in seconds, on a busy machine.
APART = 60

# By how many seconds a command may be ahead where the page is served and nothing is said.
WITH_PAGE = 300

OK = answer('{"ok":1}')


def ahead_answer(seconds: int) -> bytes:
    """Returns the answer to a command that is ahead by more than so many seconds."""
    return answer(f'{{"ahead":{seconds},"status":400}}', 400)


def request(method: str, path: str) -> bytes:
    """Returns a request of this machine without a body."""
    return f"{method} {path} HTTP/1.1\r\nHost: localhost\r\nContent-Length: 0\r\n\r\n".encode()


def command(at: int) -> bytes:
    """Returns a command of a moment."""
    return f'{{"at":{at},"by":"","do":"add_class","class":"RAW","name":""}}'.encode()


def sent(path: str, body: bytes, *fields: str) -> bytes:
    """Returns a request of this machine that posts a body."""
    return posted(path, body, *fields).replace(b"Host: a\r\n", b"Host: localhost\r\n")


def booked(at: int) -> bytes:
    return sent("/v1/commands", command(at))


def checked(at: int) -> bytes:
    return sent("/v1/check", command(at))


def imported(at: int) -> bytes:
    return sent("/v1/orders", b"order,recipe,version,size,due,priority\nO-1,R-1,1,1,2027-01-01,1\n", f"Desk-At: {at}")


class Dates(DeskTestCase):
    """The time that answers carry."""

    REQUESTS = [
        ("a question", request("GET", "/v1/desk"), 200), ("a HEAD", request("HEAD", "/v1/desk"), 200), ("another path", request("GET", "/v2"), 404),
        ("another method", request("PUT", "/v1/desk"), 405), ("a foreign host", b"GET /v1/desk HTTP/1.1\r\nHost: evil.test\r\n\r\n", 403),
        ("no head", b"GET\r\n\r\n", 400), ("no command", sent("/v1/commands", b"{}"), 400), ("the page", request("GET", "/"), 200),
    ]

    def test_with_the_page_each_answer_carries_the_machines_time(self) -> None:
        with Server(self.desk, ":memory:", len(self.REQUESTS), "--page") as server:
            for case, asked, status in self.REQUESTS:
                head = dated(server.port, asked).partition(b"\r\n\r\n")[0].decode()
                self.check(f"{case}: the status", head.split()[1], str(status))
                dates = [line for line in head.split("\r\n") if line.startswith("Date: ")]
                self.check(f"{case}: the dates", len(dates), 1)
                moment = email.utils.parsedate_to_datetime(dates[0].removeprefix("Date: "))
                self.check_true(f"{case}: now", abs(moment.timestamp() - time.time()) <= APART)

    def test_without_the_page_no_answer_does(self) -> None:
        for options in ((), ("--ahead", "60")):
            with Server(self.desk, ":memory:", len(self.REQUESTS), *options) as server:
                for case, asked, _ in self.REQUESTS:
                    self.check_true(f"{case} {options}", b"\r\nDate:" not in dated(server.port, asked))


class Ahead(DeskTestCase):
    """Commands that are ahead of the machine's clock."""

    def check_bound(self, options: list[str], seconds: int) -> None:
        """Sees that what is ahead by more than so many seconds is refused and changes nothing, and that what is ahead by less is done."""
        now = int(time.time())
        far, near = now + seconds + APART, now + seconds - APART
        with Server(self.desk, f"plant{seconds}.db", 9, *options) as server:
            for case, asked in (("a command", booked), ("a check", checked), ("an import", imported)):
                for at in (far, 253_402_300_799):
                    self.check(f"{case} at {at} {options}", answered(server.port, asked(at)), ahead_answer(seconds))
            self.check(f"nothing was done {options}", answered(server.port, request("GET", "/v1/desk")), answer('{"schema":4,"seq":0}'))
            self.check(f"a check that is near {options}", answered(server.port, checked(near)).split()[1], b"200")
            self.check(f"a command that is near {options}", answered(server.port, booked(near)), OK)

    def test_command_that_is_too_far_ahead_is_refused_before_the_desk_is_asked(self) -> None:
        self.check_bound(["--page"], WITH_PAGE)
        self.check_bound(["--page", "--ahead", "100"], 100)
        self.check_bound(["--ahead", "1000"], 1000)

    def test_nought_allows_any_and_so_does_a_desk_without_the_page(self) -> None:
        for options in (("--page", "--ahead", "0"), ("--ahead", "0"), ()):
            with Server(self.desk, ":memory:", 1, *options) as server:
                self.check(f"a command of the year 9999 {options}", answered(server.port, booked(253_402_300_799)), OK)

    def test_what_is_no_command_is_answered_as_such_whenever_it_is(self) -> None:
        body = b'{"at":253402300799,"by":"","do":"add_class"}'
        with Server(self.desk, ":memory:", 2, "--page") as server:
            self.check("no command", answered(server.port, sent("/v1/commands", body)), answer('{"name":"BadForm","refused":1}', 400))
            self.check_true("its check", b'"name":"BadForm"' in answered(server.port, sent("/v1/check", body)))


class FarMoments(DeskTestCase):
    """A desk with a moment far ahead, and what docs/ERRORS.md says of it."""

    # The right moment of the recipe; the moments of the commands that are a year late begin so much later.
    RIGHT, LATE = 1_798_761_600, 31_536_000

    # Commands behind those of the batch: their rows have moments too.
    LAST = [
        {"do": "hold", "lot": "F-1", "hold": "H-1"}, {"do": "recall", "recall": "R-1", "lot": "F-1"}, {"do": "lift", "recall": "R-1"},
        {"do": "recall", "recall": "R-2", "lot": "D-1"},
    ]

    def lines(self) -> list[bytes]:
        """Returns the commands of the batch and those behind them: from the first booking of the batch on a year late."""
        batch = [json.loads(it) for it in (TOP / "examples/batch.jsonl").read_text().splitlines()]
        commands = [it for it in batch if "do" in it] + [{"at": 400, "by": "anna", **it} for it in self.LAST]
        first = next(place for place, it in enumerate(commands) if it["do"] == "consume")
        return [json.dumps({**it, "at": self.RIGHT - 1000 + it["at"] + (self.LATE if place >= first else 0)}).encode() + b"\n"
                for place, it in enumerate(commands)]

    def test_recipe_sets_late_moments_right_and_the_desk_goes_on(self) -> None:
        lines, next_line = self.lines(), b'{"at":%d,"by":"","do":"add_class","class":"MORE","name":""}\n' % (self.RIGHT + 1)
        count = len(lines)
        numbers = b"".join(b'{"ok":%d}\n' % (it + 1) for it in range(count))
        self.check_run("late commands", ["run", "plant.db"], (0, numbers, b""), b"".join(lines))
        self.check_run("a right one", ["run", "plant.db"], (1, b'{"name":"MomentBack","refused":2}\n', b""), next_line)
        printed = re.search(r"sqlite3 FILE '(BEGIN;.*?COMMIT)'", (TOP / "docs/ERRORS.md").read_text(), re.S)
        self.check_true("the recipe is there", printed)
        with sqlite3.connect(self.folder / "plant.db") as file:
            file.executescript(printed[1] if printed else "")
        file.close()
        self.check_verified("after the recipe", "plant.db", count)
        self.check_run("the right one again", ["run", "plant.db"], (0, b'{"ok":%d}\n' % (count + 1), b""), next_line)
