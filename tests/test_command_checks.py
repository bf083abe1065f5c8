"""Checks of commands, by lines and over HTTP: what a check says is what the command is answered, and nothing is changed by it."""
from __future__ import annotations

import hashlib
import json

from tests.support import Json, program, scenarios, sessions
from tests.support.cases import DeskTestCase, ProgramTestCase, good
from tests.support.commands import EACH_COMMAND, GOODS, PLANNED, approve, compact, hold, line, merge, receive, recall
from tests.support.http import Server, answer, answered, got, posted, status_answer
from tests.support.sessions import Session, SessionTestCase, lines_of

# The inputs of line_check, with what it says of each line that is bad.
LINE_CHECK = program.TOP / "crates" / "line_check"

# The answer to a check of what is accepted.
ACCEPTED = '{"accepted":true}'

# What a bad line is answered.
BAD = '{"name":"BadForm","refused":1}'

# Before the commands that are refused for an item: two definitions, a recipe, an order, and lots: one held, one recalled, one of other goods.
STOCK = [
    *PLANNED,
    '"do":"import_orders","orders":[{"order":"O-1","recipe":"CAKE","version":1,"size":300,"due":"2027-03-01","priority":5}]',
    *(receive(lot, 100, "FLOUR") for lot in ("F-1", "F-2", "F-3", "F-4")),
    receive("D-1", 100, "DOUGH"),
    hold("F-3"),
    recall("F-4"),
]


def check_line(command: bytes) -> bytes:
    """Returns the line that asks what would become of a command, which is given as it stands in a line."""
    return b'{"ask":"check","command":' + command.strip() + b"}\n"


def refused(name: str, number: int, **more: Json) -> str:
    """Returns the answer to a check of what is refused."""
    return compact({"accepted": False, "name": name, "refused": number, **more})


def order(
    name: str, size: int = 300, recipe: str = "CAKE", version: int = 1, due: str = "2027-03-01",
) -> dict[str, Json]:
    """Returns an order of an import."""
    return {"order": name, "recipe": recipe, "version": version, "size": size, "due": due, "priority": 5}


def imported(*orders: dict[str, Json]) -> str:
    return f'"do":"import_orders","orders":{compact(orders)}'


def recipe(product: str, *lines: str) -> str:
    """Returns a new recipe of a product, with these inputs."""
    listed = [{"kind": "in", "def": it, "qty": 1} for it in lines]
    whole = [*listed, {"kind": "out", "def": product, "qty": 1}, {"kind": "phase", "unit": "U", "oper": "O", "phase": "P"}]
    return f'"do":"add_recipe","recipe":"R","version":1,"product":"{product}","base":1,"min":1,"max":9,"title":"","lines":{compact(whole)}'


# Commands behind those of STOCK, and what a check says of each.
FORETOLD = [
    (imported(order("O-2"), order("O-3")), ACCEPTED),
    (imported(order("O-2"), order("O-3", recipe="PIE"), order("O-4", recipe="TART")), refused("UnknownRecipe", 6, item=2)),
    (imported(order("O-2", version=2)), refused("UnknownRecipe", 6, item=1)),
    (imported(order("O-2"), order("O-1", size=301)), refused("OrderConflict", 16, item=2)),
    (imported(order("O-2"), order("O-3"), order("O-2", due="2027-03-02")), refused("OrderConflict", 16, item=3)),
    (imported(order("O-2"), order("O-3", size=99), order("O-4", size=901)), refused("SizeOutOfRange", 18, item=2)),
    (imported(), ACCEPTED),
    (merge([("F-1", 0, 10), ("F-2", 0, 10)]), ACCEPTED),
    (merge([("F-1", 0, 10), ("F-9", 0, 10), ("F-8", 0, 10)]), refused("UnknownLot", 9, item=2)),
    (merge([("F-1", 0, 10), ("F-2", 1, 10)]), refused("UnknownSublot", 10, item=2)),
    (merge([("F-1", 0, 10), ("F-2", 0, 101)]), refused("TooLittle", 13, item=2)),
    (merge([("F-3", 0, 10), ("F-1", 0, 10)]), refused("Held", 15, item=1)),
    (merge([("F-1", 0, 10), ("F-3", 0, 10)]), refused("Held", 15, item=2)),
    (merge([("F-1", 0, 10), ("D-1", 0, 10)]), refused("MixedMaterials", 27, item=2)),
    (merge([("F-1", 0, 10), ("F-2", 0, 10), ("F-4", 0, 10)]), refused("Recalled", 32, item=3)),
    (merge([("F-1", 0, 10)], "F-2"), refused("Exists", 3)),
    (recipe("DOUGH", "FLOUR"), ACCEPTED),
    (recipe("DOUGH", "FLOUR", "SALT", "YEAST"), refused("UnknownDefinition", 5, item=2)),
    (recipe("BREAD", "SALT"), refused("UnknownDefinition", 5)),
    (receive("F-1", 1, "FLOUR"), refused("Exists", 3)),
    (receive("F-9", 1, "SALT"), refused("UnknownDefinition", 5)),
    (approve("CAKE"), refused("NotDraft", 11)),
    ('"do":"cancel_order","order":"O-1"', ACCEPTED),
    ('"do":"cancel_order","order":"O-9"', refused("UnknownOrder", 7)),
    ('"do":"settle","batch":"B-1"', refused("UnknownBatch", 8)),
    ('"do":"lift","recall":"RC-1"', ACCEPTED),
    # of bad form, whatever the desk's state
    ('"do":"settle"', refused("BadForm", 1, reason="member batch is missing")),
    ('"do":"scrap","lot":"f-1","sub":0,"amount":1', refused("BadForm", 1, reason="lot is not an id: 1 to 24 of A to Z, 0 to 9 and -, the first a letter")),
    ('"do":"bake","batch":"B-1"', refused("BadForm", 1, reason="do is not the word of a command")),
    ('"do":"settle","batch":"B-1","lot":"F-1"', refused("BadForm", 1, reason="member lot doesn't belong here")),
    ('"do":"settle","batch":"B-1","a\\"b\\\\":1', refused("BadForm", 1, reason='member a"b\\ doesn\'t belong here')),
    (imported(order("O-2"), {"order": "O-3"}), refused("BadForm", 1, reason="orders 2: member recipe is missing")),
    (merge([]), refused("BadForm", 1, reason="parts has 0 items, and a merge takes 1 to 16")),
    (merge([("F-1", 0, 1), ("F-2", 0, 1), ("F-1", 0, 1)]), refused("BadForm", 1, reason="parts 3: the sublot of parts 1 once more")),
    (recipe("DOUGH", "FLOUR", "FLOUR"), refused("BadForm", 1, reason="lines 2: what lines 1 is for, once more")),
]


# Lots and their amounts that make the longest merge.
PARTS = [(f"M-{it}", 0, 1) for it in range(1, 17)]


def longest_recipe(last: str) -> str:
    """Returns a new recipe of 128 lines, of which the last is this input."""
    values = [{"kind": "par", "name": f"P-{it}", "value": "1"} for it in range(125)]
    output, phase = {"kind": "out", "def": "DOUGH", "qty": 1}, {"kind": "phase", "unit": "U", "oper": "O", "phase": "P"}
    lines = [output, phase, *values, {"kind": "in", "def": last, "qty": 1}]
    return recipe("DOUGH").partition('"lines":')[0] + f'"lines":{compact(lines)}'


# The longest lists of each kind, whole, and wrong in their last item.
LARGEST = [
    (imported(*(order(f"O-{it}") for it in range(2, 1002))), ACCEPTED),
    (imported(*(order(f"O-{it}") for it in range(2, 1001)), order("O-1001", recipe="PIE")), refused("UnknownRecipe", 6, item=1000)),
    (imported(*(order(f"O-{it}") for it in range(2, 1001)), order("O-1001", size=99)), refused("SizeOutOfRange", 18, item=1000)),
    (longest_recipe("FLOUR"), ACCEPTED),
    (longest_recipe("SALT"), refused("UnknownDefinition", 5, item=128)),
    (merge(PARTS, "N-1"), ACCEPTED),
    (merge([*PARTS[:15], ("M-17", 0, 1)], "N-1"), refused("UnknownLot", 9, item=16)),
    (merge([*PARTS[:15], ("M-16", 0, 101)], "N-1"), refused("TooLittle", 13, item=16)),
]


def reply_foretold(reply: bytes) -> dict[str, Json]:
    """Returns what a check has to say of a command that is answered so: but for the item and the reason."""
    told = json.loads(reply)
    return {"accepted": True} if "ok" in told else {"accepted": False, **told}


def object_in(text: bytes) -> dict[str, Json] | None:
    """Returns the object that a line is, or none."""
    try:
        value = json.loads(text)
    except ValueError:
        return None
    return value if isinstance(value, dict) else None


def is_command(text: bytes) -> bool:
    """Returns whether a line is an object with the word of a command."""
    return "do" in (object_in(text) or {})


def checked_for(text: bytes, reason: str) -> str:
    """Returns the reason of a check of a bad line, which has this one as a line: a question lacks `do`."""
    members = object_in(text) or {}
    return "member do is missing" if "ask" in members and "do" not in members else reason


def checked_session(session: Session) -> tuple[bytes, list[bool]]:
    """Returns the lines of a session with a check before each command, and for each line whether it is such a check."""
    told, checks = b"", []
    for text in lines_of(session.told):
        if is_command(text) and len(text) < sessions.LINE_LIMIT - 100:
            told += check_line(text)
            checks.append(True)
        told += text
        if text not in (b"\n", b"\r\n"):
            checks.append(False)
    return told, checks


class Foretelling(SessionTestCase):
    """What a check says, and what the command is answered behind it."""

    def check_foretold(self, session: Session) -> None:
        """Runs a session with a check before each command: the answers to the session are those without the checks, and each check says what
        the command behind it is answered."""
        told, checks = checked_session(session)
        ended = self.desk.run(told=told)
        answers = lines_of(ended.output)
        self.check(f"{session.name}, answered", b"".join(it for it, is_check in zip(answers, checks) if not is_check), session.wanted)
        self.check(f"{session.name}, ends", (ended.status, ended.errors, len(answers)), (session.status(), b"", len(checks)))
        for text, reply, is_check in zip(answers, answers[1:], checks):
            if is_check:
                said = {name: it for name, it in json.loads(text).items() if name not in ("item", "reason")}
                self.check(f"{session.name}, {text!r} before {reply!r}", said, reply_foretold(reply))

    def test_each_command_of_each_written_session_is_answered_as_its_check_said(self) -> None:
        for path in sessions.files():
            self.check_foretold(sessions.read(path))

    def test_each_command_of_the_worked_batch_is_answered_as_its_check_said(self) -> None:
        worked = Session("the worked batch", (program.EXAMPLES / "batch.jsonl").read_bytes(), (program.EXAMPLES / "batch.out").read_bytes())
        self.check_foretold(worked)

    def test_command_of_each_kind_is_answered_as_its_check_said(self) -> None:
        self.check_foretold(Session("a command of each kind").accepted(*(body for body, _ in EACH_COMMAND)))

    def test_bad_lines_are_answered_as_their_checks_said(self) -> None:
        for session in scenarios.lines():
            self.check_foretold(session)


class Answers(DeskTestCase):
    """The answers to checks of one desk, by lines and over HTTP, over memory and over a file."""

    def setUp(self) -> None:
        super().setUp()
        self.stock = Session("stock").accepted(*STOCK)

    def test_each_refusal_has_its_item_or_its_reason(self) -> None:
        commands = [line(body) for body, _ in FORETOLD]
        told = self.stock.told + b"".join(map(check_line, commands))
        wanted = self.stock.wanted + "".join(f"{it}\n" for _, it in FORETOLD).encode()
        self.check("by lines", self.desk.run(told=told), (0, wanted, b""))
        self.keep(self.folder, "stock", self.stock)
        asked = b"".join(map(check_line, commands))
        self.check("by lines, over a file", self.desk.run("run", "stock.db", told=asked), (0, wanted[len(self.stock.wanted):], b""))
        with Server(self.desk, "stock.db", len(FORETOLD)) as server:
            for command, (body, text) in zip(commands, FORETOLD):
                self.check(body, server.answered(posted("/v1/check", command)), answer(text))
            self.check("the server", server.end(), (0, b"", b""))

    def test_last_item_of_the_longest_lists_is_named(self) -> None:
        session = Session("largest").accepted(*STOCK, *(receive(lot, 100, "FLOUR") for lot, _, _ in PARTS))
        asked, wanted = b"".join(check_line(line(body)) for body, _ in LARGEST), "".join(f"{it}\n" for _, it in LARGEST).encode()
        self.check("in memory", self.desk.run(told=session.told + asked), (0, session.wanted + wanted, b""))
        self.keep(self.folder, "largest", session)
        self.check("over a file", self.desk.run("run", "largest.db", told=asked), (0, wanted, b""))

    def test_command_is_answered_as_its_check_said_over_a_file(self) -> None:
        for number, (body, text) in enumerate(FORETOLD):
            self.keep(self.folder, f"stock{number}", self.stock)
            ended = self.desk.run("run", f"stock{number}.db", told=check_line(line(body)) + line(body))
            said, reply = ended.output.splitlines()
            self.check(body, said.decode(), text)
            wanted = {name: it for name, it in json.loads(text).items() if name not in ("item", "reason")}
            self.check(f"{body}, booked", reply_foretold(reply), wanted)

    def test_file_stays_byte_for_byte_as_commands_are_checked(self) -> None:
        file = self.keep(self.folder, "stock", self.stock)
        self.check("verified", self.desk.run("verify", file.name), good(len(STOCK)))
        before = self.stands()
        asked = b"".join(check_line(line(body)) for body, _ in FORETOLD)
        self.check("by lines", self.desk.run("run", file.name, told=asked).status, 0)
        self.check("the file behind lines", self.stands(), before)
        with Server(self.desk, file.name, len(FORETOLD)) as server:
            for body, _ in FORETOLD:
                server.answered(posted("/v1/check", line(body)))
            self.check("the server", server.end(), (0, b"", b""))
        self.check("the file behind requests", self.stands(), before)
        self.check("verified again", self.desk.run("verify", file.name), good(len(STOCK)))

    def stands(self) -> tuple[str, dict[str, int]]:
        """Returns the checksum of the desk's file and the sizes of the files beside it: an opening begins the log anew, under a name of its own."""
        file = self.folder / "stock.db"
        return hashlib.sha256(file.read_bytes()).hexdigest(), {it.name: it.stat().st_size for it in self.folder.iterdir() if it != file}

    def test_reference_that_is_kept_is_accepted_with_the_same_content_alone(self) -> None:
        stamp, other = '"at":200,"by":"","ref":"K-1"', '"at":201,"by":"","ref":"K-1"'
        told = Session().accepted(*GOODS).told + line(receive("L-1", 1), stamp)
        told += check_line(line(receive("L-1", 1), stamp)) + check_line(line(receive("L-1", 2), stamp)) + check_line(line(receive("L-1", 1), other))
        answers = [*(f'{{"ok":{it}}}' for it in (1, 2, 3)), ACCEPTED, *2 * [refused("RefReused", 31)]]
        self.check("references", self.desk.run(told=told), (0, "".join(f"{it}\n" for it in answers).encode(), b""))

    def test_check_of_another_shape_is_a_bad_line(self) -> None:
        command = line('"do":"settle","batch":"B-1"').decode().strip()
        bad = [
            '{"ask":"check"}',
            '{"ask":"check","command":null}',
            '{"ask":"check","command":[]}',
            '{"ask":"check","command":1}',
            '{"ask":"check","command":"settle"}',
            f'{{"ask":"check","command":{command},"lot":"L-1"}}',
            f'{{"ask":"check","do":"settle","command":{command}}}',
            f'{{"ask":"checks","command":{command}}}',
            f'{{"ask":"desk","command":{command}}}',
        ]
        told = "".join(f"{it}\n" for it in bad).encode()
        self.check("bad lines", self.desk.run(told=told), (1, f"{BAD}\n".encode() * len(bad), b""))
        nested = '{"ask":"check","command":{"ask":"check","command":{}}}\n{"ask":"check","command":{}}\n'.encode()
        reasons = ["member do is missing", "neither do nor ask is there"]
        wanted = "".join(f'{refused("BadForm", 1, reason=it)}\n' for it in reasons).encode()
        self.check("checks of no command", self.desk.run(told=nested), (0, wanted, b""))

    def test_last_command_of_two_is_checked(self) -> None:
        told = '{"ask":"check","command":1,"command":{"at":1,"by":"","do":"settle","batch":"B-1"}}\n'.encode()
        self.check("two commands", self.desk.run(told=told), (0, refused("UnknownBatch", 8).encode() + b"\n", b""))


class Requests(DeskTestCase):
    """`/v1/check`, as other requests are answered."""

    PROGRAMS = ("desk", "line_check")

    def test_methods_lengths_and_bodies_are_judged_as_those_of_commands(self) -> None:
        body = line(GOODS[0]).strip()
        post = b'HTTP/1.1 405 Method Not Allowed\r\nContent-Type: application/json\r\nContent-Length: 14\r\nConnection: close\r\nAllow: POST\r\n\r\n'
        requests = [
            ("a check", posted("/v1/check", body), answer(ACCEPTED)),
            ("GET", got("/v1/check"), post + b'{"status":405}'),
            ("HEAD", b"HEAD /v1/check HTTP/1.0\r\n\r\n", post),
            ("no length", b"POST /v1/check HTTP/1.1\r\nHost: a\r\n\r\n", status_answer(411)),
            ("too long", b"POST /v1/check HTTP/1.1\r\nHost: a\r\nContent-Length: 262145\r\n\r\n", status_answer(413)),
            ("a cut body", posted("/v1/check", body)[:-1], status_answer(400)),
            ("a path below", posted("/v1/check/1", body), status_answer(404)),
            ("no body", posted("/v1/check", b""), answer(refused("BadForm", 1, reason="not a JSON text"))),
            ("a list", posted("/v1/check", b"[]"), answer(refused("BadForm", 1, reason="not a JSON object"))),
            ("a question", posted("/v1/check", b'{"ask":"desk"}'), answer(refused("BadForm", 1, reason="member do is missing"))),
            ("a check of a check", posted("/v1/check", check_line(body)), answer(refused("BadForm", 1, reason="member do is missing"))),
            ("no word", posted("/v1/check", b"{}"), answer(refused("BadForm", 1, reason="neither do nor ask is there"))),
            ("a command of bad form", posted("/v1/commands", b"{}"), answer(BAD, 400)),
            ("a check as a command", posted("/v1/commands", check_line(body)), answer(BAD, 400)),
            ("the desk", got("/v1/desk"), answer('{"schema":4,"seq":0}')),
        ]
        with Server(self.desk, ":memory:", len(requests)) as server:
            for case, request, wanted in requests:
                self.check(case, server.answered(request, is_last=True), wanted)
            self.check("the server", server.end(), (0, b"", b""))

    def test_page_of_another_site_checks_nothing(self) -> None:
        body = line(GOODS[0]).strip()
        length = f"Content-Length: {len(body)}"

        def request(*fields: str) -> bytes:
            return "\r\n".join(["POST /v1/check HTTP/1.1", *fields, length, "", ""]).encode() + body

        requests = [
            ("its own page", request("Host: localhost"), 200),
            ("another host", request("Host: desk.example"), 403),
            ("another site", request("Host: localhost", "Origin: http://desk.example"), 403),
        ]
        with Server(self.desk, ":memory:", len(requests), "--page") as server:
            for case, told, status in requests:
                wanted = answer(ACCEPTED) if status == 200 else status_answer(status)
                self.check(case, answered(server.port, told), wanted)

    def test_reasons_are_the_words_of_line_check(self) -> None:
        lines = (LINE_CHECK / "stdin").read_bytes().split(b"\n")
        parts = (it.split(b": ", 1) for it in (LINE_CHECK / "stdout").read_bytes().splitlines())
        reasons = {place: reason for place, reason in parts}
        bad = [(text, reasons[b"line %d" % number].decode()) for number, text in enumerate(lines, 1) if b"line %d" % number in reasons]
        with Server(self.desk, ":memory:", len(bad)) as server:
            for text, reason in bad:
                wanted = answer(refused("BadForm", 1, reason=checked_for(text, reason)))
                self.check(text[:80], server.answered(posted("/v1/check", text)), wanted)
        objects = [(text, checked_for(text, reason)) for text, reason in bad if object_in(text) is not None]
        told = b"".join(check_line(text) for text, _ in objects)
        wanted = "".join(refused("BadForm", 1, reason=it) + "\n" for _, it in objects).encode()
        self.check("by lines", self.desk.run(told=told), (0, wanted, b""))
        self.check_true("many reasons", len(objects) > 20)

    def test_object_without_a_word_has_one_reason_by_lines_over_http_and_of_line_check(self) -> None:
        objects = [b"{}", b'{"at":1}', b'{"at":1,"by":"anna"}', b'{"lot":"F-1"}']
        reason = "neither do nor ask is there"
        with Server(self.desk, ":memory:", len(objects)) as server:
            for text in objects:
                self.check(text, server.answered(posted("/v1/check", text)), answer(refused("BadForm", 1, reason=reason)))
        wanted = f'{refused("BadForm", 1, reason=reason)}\n'.encode() * len(objects)
        self.check("by lines", self.desk.run(told=b"".join(map(check_line, objects))), (0, wanted, b""))
        lines = "".join(f"line {number}: {reason}\n" for number, _ in enumerate(objects, 1)).encode()
        self.check("line_check", program.Program("line_check", self.folder).run(told=b"\n".join(objects)), (1, lines, b""))


class LineCheck(ProgramTestCase):
    """What `line_check` makes of checks."""

    PROGRAMS = ("line_check",)

    def test_check_is_counted_as_a_question_be_its_command_one_or_none(self) -> None:
        told = check_line(line(GOODS[0])) + check_line(b"{}") + line(GOODS[0])
        self.check("two checks and a command", program.Program("line_check", self.folder).run(told=told), (0, b"1 commands, 2 questions\n", b""))
