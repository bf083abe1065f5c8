"""`/v1/health`: how the server fares, by what was asked and answered before, and how far the desk has come."""
from __future__ import annotations

import collections
import functools
import json
import pathlib
import re
import time
from typing import Any

from tests.support import sqlite
from tests.support.cases import DeskTestCase
from tests.support.http import HOST, Server, answer, booked, checked, closed, command, connected, got, imported, posted, rest_of, status_answer
from tests.support.program import SECONDS, TOP

# The text of an answer, whose members are in this order.
STATUSES = (200, 304, 400, 403, 404, 405, 409, 411, 412, 413, 431, 501, 503)
COUNTS = "".join(rf'"{it}":(\d+),' for it in STATUSES)
TEXT = re.compile(rf'{{"answers":{{{COUNTS}"none":(\d+)}},"at":(\d+),"digest":"(\d+)","digested":(\d+),"instance":"(\d+)","language":(null|"[a-z]{{2}}"),"name":(null|"(?:[^"\\]|\\["\\])*"),"schema":4,"seconds":(\d+),"seq":(\d+)}}')

# Requests, each with the status of its answer at a desk with a page whose only command is the class RAW.
ASKED: list[tuple[bytes, int]] = [
    (got("/v1/desk"), 200),
    (checked(command(name="OTHER")), 200),
    (b"GET / HTTP/1.0\r\nIf-None-Match: *\r\n\r\n", 304),
    (b"GET\r\n\r\n", 400),
    (booked(b"{}"), 400),
    (b"GET /v1/desk HTTP/1.1\r\nHost: elsewhere\r\n\r\n", 403),
    (got("/v1/nothing"), 404),
    (got("/v1/lots/L-1"), 404),
    (posted("/v1/health", b""), 405),
    (got("/v1/commands"), 405),
    (booked(command()), 409),
    (b"POST /v1/commands HTTP/1.1\r\nHost: localhost\r\n\r\n", 411),
    (booked(command(name="NEW"), "Desk-Seq: 7"), 412),
    (b"POST /v1/commands HTTP/1.0\r\nContent-Length: 262145\r\n\r\n", 413),
    (b"GET / HTTP/1.0\r\nA: " + bytes(b"a" * 9000) + b"\r\n\r\n", 431),
    (b"POST /v1/commands HTTP/1.0\r\nTransfer-Encoding: chunked\r\n\r\n", 501),
]


# The digest of a receipt is a number below this.
MODULUS = 18_014_398_509_481_951


def digest_of(text: bytes, seq: int) -> int:
    """The digest of a receipt: its number, its reference, an LF and its content, so many times as its number and one."""
    return functools.reduce(lambda number, byte: (number * 257 + byte + 1) % MODULUS, text, seq % MODULUS) * (seq + 1) % MODULUS


class HealthTestCase(DeskTestCase):
    """A test case over a desk that is served."""

    def health(self, server: Server) -> dict[str, Any]:
        """Returns what the server says of itself; its text has to have the form."""
        body = server.answered(local(got("/v1/health"))).partition(b"\r\n\r\n")[2].decode()
        self.check_true(f"the text {body}", TEXT.fullmatch(body))
        said: dict[str, Any] = json.loads(body)
        return said


def local(request: bytes) -> bytes:
    """A request to this machine, as a desk with a page is asked."""
    line, end, rest = request.partition(b"\r\n")
    rest = rest.replace(b"Host: a\r\n", b"Host: localhost\r\n")
    return line + end + rest if b"Host: " in rest or b" HTTP/1" not in line else line + end + b"Host: localhost\r\n" + rest


class Counts(HealthTestCase):
    """How many answers had which status, and how many connections had none."""

    def test_each_answer_is_counted_by_its_status(self) -> None:
        with Server(self.desk, "plant.db", 1000, "--page") as server:
            server.answered(local(booked(command())))
            self.check("a command", server.answered(local(booked(command(name="OLD"))))[9:12], b"200")
            wanted = collections.Counter({200: 2})
            for request, status in ASKED:
                self.check(f"the status of {request[:60]!r}", server.answered(local(request))[9:12].decode(), str(status))
                wanted[status] += 1
                said = self.health(server)["answers"]
                self.check(f"the counts after {request[:60]!r}", said, {**{str(it): wanted[it] for it in STATUSES}, "none": 0})
                wanted[200] += 1

    def test_connections_without_an_answer_are_counted_apart(self) -> None:
        with Server(self.desk, "plant.db", 1000) as server:
            closed(connected(server.port), False)
            reset = connected(server.port)
            reset.sendall(b"GET")
            closed(reset, True)
            last = time.monotonic() + SECONDS
            while (said := self.health(server)["answers"])["none"] < 2 and time.monotonic() < last:
                time.sleep(0.01)
            self.check("without an answer", said["none"], 2)
            self.check("failures", [said[it] for it in ("400", "503")], [0, 0])

    def test_figures_are_those_before_the_request(self) -> None:
        """Begins a request, has others answered meanwhile, and ends it."""
        with Server(self.desk, "plant.db", 1000) as server, connected(server.port) as slow:
            slow.sendall(b"GET /v1/he")
            time.sleep(0.2)
            for _ in range(3):
                server.answered(got("/v1/desk"))
            server.answered(booked(command()))
            slow.sendall(b"alth HTTP/1.0\r\n\r\n")
            said = json.loads(rest_of(slow).partition(b"\r\n\r\n")[2])
            self.check("what the server had answered before, and how far the desk is now", (said["answers"]["200"], said["seq"]), (0, 1))


class Position(HealthTestCase):
    """How far the desk has come, and since when it is served."""

    def test_number_and_moment_are_those_of_the_last_command(self) -> None:
        with Server(self.desk, "plant.db", 1000) as server:
            said = self.health(server)
            self.check("a new desk", (said["seq"], said["at"], said["schema"]), (0, 0, 4))
            for seq, at in ((1, 100), (2, 100), (3, 4711)):
                server.answered(booked(command(at=at, name=f"C-{seq}")))
                said = self.health(server)
                self.check(f"after command {seq}", (said["seq"], said["at"]), (seq, at))
            server.answered(booked(command(at=5000)))
            server.answered(imported())
            said = self.health(server)
            self.check("after another, and an import that is refused", (said["seq"], said["at"]), (4, 5000))

    def test_each_start_has_a_name_of_its_own_and_counts_anew(self) -> None:
        names = []
        for start in range(3):
            with Server(self.desk, "plant.db", 1000) as server:
                before = time.time_ns()
                first = self.health(server)
                time.sleep(1.1 if start == 0 else 0)
                second = self.health(server)
                self.check("the name stays", second["instance"], first["instance"])
                self.check_true("it is the moment of the start", before - SECONDS * 10**9 < int(first["instance"]) <= time.time_ns())
                self.check("what was answered before", (first["answers"]["200"], second["answers"]["200"]), (0, 1))
                self.check_true(f"the seconds {first['seconds']}, {second['seconds']}", second["seconds"] - first["seconds"] >= (start == 0))
                names.append(first["instance"])
        self.check("how many names", len(set(names)), 3)


class Digests(HealthTestCase):
    """The digest of what was accepted under references."""

    def digest(self, server: Server) -> tuple[str, int]:
        """Returns the digest that the server says, and of how many commands it is."""
        said = self.health(server)
        return said["digest"], said["digested"]

    def stored(self, file: str) -> tuple[str, int]:
        """Returns the digest of the receipts in a file that no desk has open, computed anew, and their number."""
        receipts = sqlite.rows(self.folder / file, "SELECT id, seq, content FROM receipt")
        return str(sum(digest_of(f"{name}\n{content}".encode(), seq) for name, seq, content in receipts) % MODULUS), len(receipts)

    def book(self, server: Server, *requests: bytes) -> list[tuple[str, int]]:
        """Sends these requests, and returns the digest before them and after each."""
        found = [self.digest(server)]
        for it in requests:
            server.answered(it)
            found.append(self.digest(server))
        return found

    def test_digest_is_that_of_the_receipts_however_often_it_is_started(self) -> None:
        first, last = command(ref="A-1"), command(name="B", note="\\ ~", ref="Z-1")
        requests = [booked(command(name="NONE")), booked(last), booked(first), booked(last), booked(command(name="B", ref="Q-1")), booked(b"{}")]
        with Server(self.desk, "plant.db", 1000) as server:
            found = self.book(server, *requests)
        self.check("none yet", found[0], ("0", 0))
        self.check("of how many commands", [many for _, many in found], [0, 0, 1, 2, 2, 2, 2])
        self.check_true("each command changes it", len({found[it] for it in (0, 2, 3)}) == 3)
        self.check("that of the receipts", found[-1], self.stored("plant.db"))
        for start in range(2):
            with Server(self.desk, "plant.db", 1000) as server:
                self.check(f"start {start}", self.digest(server), found[-1])
                found = self.book(server, booked(command(name=f"C-{start}", ref=f"C-{start}")))
            self.check(f"after start {start}", found[-1], self.stored("plant.db"))

    def test_desks_differ_where_one_command_does(self) -> None:
        """Gives desks the same commands but for one byte, but for the last, or but for the order of two of one length."""
        base = [command(name=f"N-{it}", note="as told", ref=f"R-{it}") for it in range(5)]
        other = [*base[:2], command(name="N-2", note="as tolc", ref="R-2"), *base[3:]]
        by = [*base[:4], command(by="annb", name="N-4", note="as told", ref="R-4")]
        lists = {"base": base, "again": base, "a note": other, "an operator": by, "fewer": base[:4]}
        lists |= {"an order": [base[1], base[0], *base[2:]], "another order": [*base[:2], base[4], base[3], base[2]]}
        found = {}
        for name, commands in lists.items():
            with Server(self.desk, f"{name.replace(' ', '_')}.db", 1000) as server:
                found[name] = self.book(server, *map(booked, commands))[-1]
        self.check("the same commands", found.pop("again"), found["base"])
        self.check("different ones", len(set(found.values())), len(found))

    def test_commands_under_desk_ref_and_imports_are_in_it(self) -> None:
        with Server(self.desk, "plant.db", 1000) as server:
            found = self.book(server, booked(command(), "Desk-Ref: H-1"), imported("Desk-By: anna", "Desk-Ref: I-1"))
        self.check("of how many commands", [many for _, many in found], [0, 1, 1])
        self.check("that of the receipts", found[-1], self.stored("plant.db"))


class Presentation(HealthTestCase):
    """The name and the language that the page shows."""

    def test_name_and_language_are_those_of_the_words(self) -> None:
        names: list[str | None] = [None, "Bakery 1", 'a "b" \\c\\', "~" * 60, '"' * 60, "\\" * 60]
        for name, language in [*((name, None) for name in names), (None, "en"), ("Bakery", "de")]:
            words = [*(["--name", name] if name else []), *(["--language", language] if language else [])]
            with Server(self.desk, ":memory:", 10, *words) as server:
                said = self.health(server)
                self.check(f"the presentation by {words}", (said["name"], said["language"]), (name, language))


class Requests(HealthTestCase):
    """How it is asked."""

    def test_head_and_other_methods(self) -> None:
        with Server(self.desk, "plant.db", 1000) as server:
            head = server.answered(b"HEAD /v1/health HTTP/1.0\r\n\r\n")
            self.check_true(f"the answer to HEAD: {head!r}", re.fullmatch(rb"HTTP/1.1 200 OK\r\nContent-Type: application/json\r\nContent-Length: [23]\d\d\r\nConnection: close\r\n\r\n", head))
            self.check("another method", server.answered(posted("/v1/health", b"{}")), status_answer_with_allow())
            for path in ("/v1/health/", "/v1/Health", "/v1/health?x", "/health"):
                self.check(f"the path {path}", server.answered(got(path)), status_answer(404))
            self.check("a path below", server.answered(got("/v1/health/now")), status_answer(404))

    def test_other_sites_learn_nothing_of_a_desk_with_a_page(self) -> None:
        with Server(self.desk, "plant.db", 1000, "--page") as server:
            for fields in ("Host: elsewhere", "Host: localhost\r\nOrigin: http://elsewhere"):
                asked = server.answered(f"GET /v1/health HTTP/1.1\r\n{fields}\r\n\r\n".encode())
                self.check(f"the status with {fields}", asked[9:12], b"403")
            own = server.answered(HOST.replace(b"/v1/desk", b"/v1/health").replace(b"Host: a", b"Host: localhost") + b"\r\n")
            self.check("the status with its own host", own[9:12], b"200")

    def test_no_operator_is_asked_for(self) -> None:
        with Server(self.desk, "plant.db", 1000, "--operator-field", "X-Operator", "--references") as server:
            self.check("the number", self.health(server)["seq"], 0)

    def test_answer_fits_its_schema(self) -> None:
        schema = json.loads(pathlib.Path(TOP / "docs/schema.json").read_text(encoding="utf-8"))["$defs"]["health"]
        with Server(self.desk, "plant.db", 1000) as server:
            said = self.health(server)
        self.check("the members", sorted(said), sorted(schema["required"]))
        self.check("the statuses", sorted(said["answers"]), sorted(schema["properties"]["answers"]["required"]))


def status_answer_with_allow() -> bytes:
    """The answer to a method that the path lacks."""
    head, _, body = answer('{"status":405}').partition(b"\r\n\r\n")
    return head.replace(b"200 OK", b"405 Method Not Allowed") + b"\r\nAllow: GET, HEAD\r\n\r\n" + body
