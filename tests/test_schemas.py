"""The schemas of lines, replies and answers, and the description of HTTP: that they are what the program gives, that lines are read as the schemas
say, and that all replies and answers obey them."""
from __future__ import annotations

import copy
import itertools
import json
import math
import re
import subprocess
import sys
from collections.abc import Iterator, Sequence

from tests.support import Json, pages, scenarios, sessions
from tests.support.cases import DeskTestCase, ProgramTestCase
from tests.support.commands import EACH_COMMAND, line
from tests.support.http import Server, posted
from tests.support.program import TOP, File, Program, path_of
from tests.support.schema import Schema, flaws
from tests.support.sessions import Session

SCHEMA = json.loads((TOP / "docs/schema.json").read_text())
OPENAPI = json.loads((TOP / "docs/openapi.json").read_text())
DEFS = SCHEMA["$defs"]

BAD_FORM = {"name": "BadForm", "refused": 1}

# Options of a desk that answers who asks.
OF_OPERATORS = ("--operator-field", "X-Operator")

# So many lists in an object, one in the other, are deeper than is read.
NESTED = 127

# What line_check says of a line that its schema can't judge: what several values have to obey together.
TOGETHER = re.compile(
    rb"the sublot of parts|min is above max$|no line is a phase$|no line has the product|what lines \d+ is for|qty scaled from base to max"
)

# Values at the ends of the rules, and beyond them.
VALUES = [
    "", "A", "a", "1", "-", "A-1", "A_1", "1A", "A" * 24, "A" * 25, "A\n", " ", "~", "~" * 8, "x" * 9, " " * 60, " " * 61, "\u00e4", "\t", "kg",
    "k g", "2027-03-01", "2027-02-29", "2028-02-29", "2000-02-29", "2099-12-31", "2100-01-01", "1999-12-31", "2027-04-31", "2027-13-01", "2027-3-1",
    "2027-03-01.O-1", "2027-02-29.O-1", "2027-03-01.", "A.1", "A.001", "A.1000", "A.", ".1", "A.B", "a.B", "A.B.C", "1.1", "1.A", "0" * 16 + ".0",
    "0" * 17 + ".0", "0" * 16 + ".A", "0" * 17 + ".A", "1.a", "1.1000", "start", "done", "Start", "open", "lifted", "draft", "approved", "in", "out",
    "par", "phase", "desk", "receive",
    0, 1, 9, 10, 128, 129, 999, 1000, 10**12, 253_402_300_799, 253_402_300_800, 10**15, 10**15 + 1, 2**64, -1, 0.5, True, False, None, [], {}, [1],
]  # fmt: skip

# A value that obeys each rule of its own.
SAMPLES = {
    "id": "X-1", "text": "any", "unit": "kg", "due": "2027-03-01", "amount": 5, "moment": 100, "batch_word": "start", "order_state": "open",
    "recipe_state": "draft", "recipe_cursor": "X-1.1", "due_cursor": "2027-03-01.X-1", "hold_cursor": "X-1.X-2", "movement_cursor": "1.1",
    "birth_cursor": "1.X-1",
}  # fmt: skip

# Lists of commands that are well formed as a whole.
LISTS = {
    "parts": [{"lot": "X-1", "sub": 0, "amount": 5}],
    "orders": [{"order": "X-1", "recipe": "X-1", "version": 1, "size": 5, "due": "2027-03-01", "priority": 5}],
    "lines": [
        {"kind": "in", "def": "X-2", "qty": 5},
        {"kind": "out", "def": "X-1", "qty": 5},
        {"kind": "par", "name": "X-1", "value": ""},
        {"kind": "phase", "unit": "X-1", "oper": "X-1", "phase": "X-1"},
    ],
}


def number(text: str) -> int | tuple[str]:
    """Returns a number, and a tuple, which obeys no schema, where the text isn't written as a whole number: to JSON Schema 1.0 is one."""
    if math.isinf(float(text)):
        raise ValueError(f"{text} is no number that is read")
    return int(text) if re.fullmatch("-?[1-9][0-9]*|0", text) else (text,)


def read(line: bytes) -> Json:
    """Returns the value of a line, or None where it is no JSON text that is read."""
    if b"[" * NESTED in line:
        return None
    try:
        return json.loads(line.decode(), parse_int=number, parse_float=number, parse_constant=lambda it: number("1e999"))
    except ValueError:
        return None


def shape_of(value: Json) -> Schema:
    """Returns the schema of the command or question of a value's word, and that of all lines where it has none."""
    names = [f"{word}_{value[word]}" for word in ("do", "ask") if word in value] if isinstance(value, dict) else []
    return next((DEFS[it] for it in names if it in DEFS), SCHEMA)


def line_of(told: bytes) -> bytes:
    """Returns a line without the LF that ends it and the CR before that."""
    return told[:-1].removesuffix(b"\r") if told.endswith(b"\n") else told


def reasons(line_check: Program, lines: Sequence[bytes]) -> list[bytes | None]:
    """Returns what line_check says of each of these lines, nothing where it is good."""
    ended = line_check.run(told=b"".join(it + b"\n" for it in lines))
    said = dict(re.findall(rb"^line (\d+): (.*)$", ended.output, re.M))
    return [said.get(b"%d" % number) for number in range(1, len(lines) + 1)]


def sample(name: str, schema: Schema) -> Json:
    """Returns a value that obeys the schema of a member of this name."""
    if name in LISTS:
        return copy.deepcopy(LISTS[name])
    if "$ref" in schema:
        return SAMPLES[schema["$ref"].rpartition("/")[2]]
    return schema.get("const", schema.get("minimum", {}))


def shapes() -> Iterator[tuple[str, dict[str, Json]]]:
    """Yields each shape of a line: the name of its definition, and an object that has all its members."""
    for name in DEFS:
        if name.startswith(("do_", "ask_")):
            for it in DEFS[name].get("oneOf", [DEFS[name]]):
                yield name, {member: sample(member, schema) for member, schema in it["properties"].items()}


def changed(whole: dict[str, Json]) -> Iterator[dict[str, Json]]:
    """Yields an object with each of its members left out or put in the place of another value, and with a further one; its lists likewise."""
    yield whole
    yield {**whole, "further": 1}
    for member in whole:
        yield {name: it for name, it in whole.items() if name != member}
        yield from ({**whole, member: it} for it in VALUES)
        for at, row in enumerate(whole[member] if member in LISTS else []):
            for other in changed(row):
                yield {**whole, member: [*whole[member][:at], other, *whole[member][at + 1:]]}
    for name, most in (("parts", 16), ("lines", 128), ("orders", 1000)):
        if name in whole:
            yield from ({**whole, name: (whole[name] * most)[:count]} for count in (0, most, most + 1))


class Schemas(ProgramTestCase):
    """The schemas, held against the program that reads lines."""

    PROGRAMS = ("line_check",)

    def setUp(self) -> None:
        super().setUp()
        self.line_check = Program("line_check", self.folder)

    def test_documents_are_what_the_program_gives(self) -> None:
        words: list[File] = [sys.executable, TOP / "make/schemas.py", path_of("line_check"), "--check"]
        ran = subprocess.run(words, stdin=subprocess.DEVNULL, capture_output=True, text=True, cwd=self.folder)
        self.check("make/schemas.py --check", (ran.returncode, ran.stdout, ran.stderr), (0, "", ""))

    def test_schema_is_printed_whatever_file_is_named_and_read(self) -> None:
        plain = self.line_check.run("--schema")
        self.check("the schema", (plain.status, plain.errors, json.loads(plain.output)["$defs"].keys() - DEFS.keys()), (0, b"", set()))
        self.check("a file that isn't there", self.line_check.run("none.jsonl", "--schema"), plain)
        self.check("lines that are bad", self.line_check.run("--schema", told=b"{}\n"), plain)
        with open("/dev/full", "wb") as full:
            ended = self.line_check.run("--schema", stdout=full)
        self.check("a full device", (ended.status, ended.errors), (3, b"fault: write\n"))

    def test_words_are_those_of_the_documents(self) -> None:
        formats = (TOP / "docs/FORMATS.md").read_text()
        commands = re.findall(r"^\| `(\w+)` \|", formats.partition("\n| `do` | fields |")[2].partition("\nValues:\n")[0], re.M)
        questions = set(re.findall(r'"ask":"(\w+)"', formats)) | {"forward", "forward_edges"}
        self.check("commands", sorted(it[3:] for it in DEFS if it.startswith("do_")), sorted(commands))
        self.check("questions", sorted(it[4:] for it in DEFS if it.startswith("ask_")), sorted(questions))

    def test_each_member_is_read_as_the_schema_says(self) -> None:
        """Changes each member of each shape to all values, and compares the verdict of the schema with that of the reader."""
        for name, whole in shapes():
            self.check(f"a whole {name}", flaws(whole, DEFS[name], SCHEMA), [])
            values = list(changed(whole))
            lines = [json.dumps(it).encode() for it in values]
            said = reasons(self.line_check, lines)
            wrong = [(line, reason) for value, line, reason in zip(values, lines, said) if not self.agree(name, value, reason)]
            self.count(len(lines) - 1)
            self.check(f"{name}, where the schema and line_check differ", wrong, [])

    @staticmethod
    def agree(name: str, value: Json, reason: bytes | None) -> bool:
        """Returns whether the schema says of a line what line_check says, which judges it also as a whole. With another word it is another shape."""
        found = flaws(value, DEFS[name] if shape_of(value) is DEFS[name] else SCHEMA, SCHEMA)
        return bool(found) == (reason is not None and not TOGETHER.search(reason))


class Sessions(ProgramTestCase):
    """All sessions, held against the schemas of lines, replies and answers."""

    PROGRAMS = ("line_check",)
    IS_LONG = True

    def test_lines_replies_and_answers_of_the_sessions_obey(self) -> None:
        seen: set[tuple[bytes, bytes]] = set()
        doubtful: list[bytes] = []
        for session in scenarios.every():
            told = [it for it in map(line_of, sessions.lines_of(session.told)) if it]
            for line, reply in set(zip(told, sessions.lines_of(session.wanted))) - seen:
                seen.add((line, reply))
                if not self.check_line(session.name, line, json.loads(reply)):
                    doubtful.append(line)
        self.check_true(f"{len(seen)} lines are many", len(seen) > 5_000)
        doubtful = [it for it in doubtful if len(it) <= sessions.LINE_LIMIT]
        for line, reason in zip(doubtful, reasons(Program("line_check", self.folder), doubtful)):
            self.check_true(f"the schema can't judge {line[:300]!r}: {reason!r}", reason and TOGETHER.search(reason))

    def check_line(self, case: str, line: bytes, reply: Json) -> bool:
        """Checks a line and its reply. Returns whether the schema says of the line what the desk says."""
        value = read(line)
        found = flaws(value, shape_of(value), SCHEMA)
        is_bad: bool = reply == BAD_FORM
        if not is_bad:
            self.check(f"{case}: {line[:300]!r}", found, [])
        is_reply = set(reply) <= {"ok", "name", "refused"}
        name = "reply" if is_reply else f"answer_{value['ask']}"
        self.check(f"{case}: {line[:200]!r}, and its reply", flaws(reply, DEFS[name], SCHEMA), [])
        return bool(found) == is_bad


# What stands in the place of a parameter of a path: what is there, what isn't, and what can't be there.
PLACES = {
    "lot": ["F-1", "D-1", "X-9", "x"],
    "batch": ["B-1", "X-9", "x"],
    "order": ["O-1", "O-2", "X-9", "x"],
    "def": ["FLOUR", "X-9", "x"],
    "class": ["RAW", "X-9", "x"],
    "recipe": ["CAKE", "X-9"],
    "version": ["1", "001", "9", "1000", "A"],
    "recall": ["RC-1", "RC-2", "X-9", "x"],
    "id": ["F-1", "F", "X-9", "x"],
    "state": ["open", "cancelled", "released", "finished", "draft", "approved", "withdrawn", "done"],
    "above": ["A", "A.1", "2000-01-01.A", "A.A", "0.0", "0.A", "1", "x"],
}

HOST = "Host: 127.0.0.1"


def request(method: str, path: str, *fields: str, version: str = "1.1") -> bytes:
    """Returns a request without a body."""
    return "\r\n".join([f"{method} {path} HTTP/{version}", HOST, *fields, "", ""]).encode()


def resolved(schema: Schema) -> Schema:
    """Returns what a reference is to, and any other schema as it stands."""
    while "$ref" in schema:
        target = OPENAPI
        for name in schema["$ref"].removeprefix("#/").split("/"):
            target = target[name]
        schema = target
    return schema


def filled(path: str) -> Iterator[tuple[str, bool]]:
    """Yields a path with its parameters filled in, and whether each obeys its schema."""
    given = OPENAPI["paths"][path].get("parameters", [])
    for values in itertools.product(*(PLACES[it["name"]] for it in given)):
        text = path
        for it, value in zip(given, values):
            text = text.replace(f"{{{it['name']}}}", value)
        yield text, not any(flaws(value, it["schema"], OPENAPI) for it, value in zip(given, values))


class Http(DeskTestCase):
    """The description of HTTP, held against the desk that serves."""

    def setUp(self) -> None:
        super().setUp()
        session = Session().accepted(*(body for body, _ in EACH_COMMAND), '"do":"hold","lot":"F-1","hold":"H-9","ref":"K-1"')
        self.check_run("the desk of the tests", ["run", "plant.db"], session.ended(), session.told)

    def serve(self, *options: str) -> Server:
        return Server(self.desk, "plant.db", 1_000_000, *options)

    def check_answer(self, case: str, path: str, method: str, answer: bytes) -> tuple[str, Json]:
        """Checks an answer to a request by the description; returns its status and its body."""
        head, _, text = answer.partition(b"\r\n\r\n")
        lines = head.decode().split("\r\n")
        status, fields = lines[0].split(" ")[1], dict(it.split(": ", 1) for it in lines[1:])
        described = OPENAPI["paths"][path][method]["responses"]
        if not self.check_true(f"{case}: {status} is described", status in described):
            return status, None
        if method == "head" and not (text and status in ("400", "431")):
            self.check(f"{case}: no body", text, b"")
            return status, None
        content = resolved(described[status])["content"]
        kind = fields["Content-Type"]
        value = json.loads(text) if kind == "application/json" else text.decode()
        if self.check_true(f"{case}: {kind} is described", kind in content):
            self.check(f"{case}: {text[:200]!r}", flaws(value, content[kind]["schema"], OPENAPI), [])
        return status, value

    def test_each_question_is_answered_as_described(self) -> None:
        """Asks each path with all that may be in it: it is 404 by its form exactly where a parameter breaks its schema."""
        with self.serve(*OF_OPERATORS) as server:
            for path, methods in OPENAPI["paths"].items():
                if "get" not in methods or path in pages.resources():
                    continue
                statuses = set()
                for place, is_path in filled(path):
                    status, value = self.check_answer(place, path, "get", server.answered(request("GET", place, "X-Operator: anna")))
                    self.check(f"{place} is a path", value != {"status": 404}, is_path)
                    self.check_answer(f"HEAD {place}", path, "head", server.answered(request("HEAD", place, "X-Operator: anna")))
                    statuses.add(status)
                self.check_true(f"{path} is answered", "200" in statuses)

    def test_each_booking_is_answered_as_described(self) -> None:
        head, row = b"order,recipe,version,size,due,priority\n", b"O-9,CAKE,1,500,2027-03-01,5\n"
        good, bad = line('"do":"add_class","class":"NEW","name":""'), line('"do":"add_class","class":"new","name":""')
        at = ("Desk-At: 1000", "Desk-By: anna", "Desk-Ref: K-2")
        with self.serve() as server:
            for path, text, fields, wanted in [
                ("/v1/commands", good, (), "200"),
                ("/v1/commands", good, (), "409"),
                ("/v1/commands", bad, (), "400"),
                ("/v1/check", good, (), "200"),
                ("/v1/check", bad, (), "200"),
                ("/v1/check", line('"do":"lift","recall":"RC-9"'), (), "200"),
                ("/v1/check", b"", (), "200"),
                ("/v1/orders", head + row, at, "200"),
                ("/v1/orders", head + row.replace(b"CAKE", b"PIE"), at[:1], "409"),
                ("/v1/orders", head + row[:9], at, "400"),
                ("/v1/orders", head + row, (), "400"),
                ("/v1/commands", good, ("Desk-Seq: 1",), "412"),
                ("/v1/check", b"", ("Desk-Seq: 1",), "412"),
                ("/v1/orders", head, (*at, "Desk-Seq: 1"), "412"),
                ("/v1/check", good, ("Desk-Seq: x",), "400"),
                ("/v1/commands", good, ("Desk-Ref: K-3",), "409"),
            ]:
                case, answer = f"{path}, {text[:80]!r}", server.answered(posted(path, text, *fields))
                status, _ = self.check_answer(case, path, "post", answer)
                self.check(case, status, wanted)

    def test_booking_that_an_option_refuses_is_answered_as_described(self) -> None:
        row = b"order,recipe,version,size,due,priority\nO-9,CAKE,1,500,2027-03-01,5\n"
        good, anna = line('"do":"add_class","class":"NEW","name":""', '"at":1000,"by":"anna"'), "X-Operator: anna"
        with self.serve("--references", *OF_OPERATORS) as server:
            for path, text, fields in (("/v1/commands", good, ()), ("/v1/check", good, ()), ("/v1/orders", row, ("Desk-At: 1000", "Desk-By: anna"))):
                for head, wanted in ((), "403"), ((anna,), "200" if path == "/v1/check" else "400"):
                    status, _ = self.check_answer(path, path, "post", server.answered(posted(path, text, *fields, *head)))
                    self.check(f"{path} {head}", status, wanted)
            status, _ = self.check_answer("nobody", "/v1/operator", "get", server.answered(request("GET", "/v1/operator")))
            self.check("nobody", status, "403")

    def test_paths_have_the_methods_that_are_described_and_no_others(self) -> None:
        source = (TOP / "crates/plant_http_requests/src/route_table.rt").read_text()
        routes = set(re.findall(r'"(/v1/[^"]*)"', source))
        self.check("paths", set(OPENAPI["paths"]), {*routes, *pages.resources(), "/v1/health", "/v1/operator"})
        with self.serve("--page", *OF_OPERATORS) as server:
            for path, methods in OPENAPI["paths"].items():
                place = next(it for it, is_path in filled(path) if is_path)
                known = sorted(it.upper() for it in methods if it != "parameters")
                answer = server.answered(request("DELETE", place))
                self.check(f"DELETE {place}", answer.split(b" ", 2)[1], b"405")
                allowed = re.search(rb"\r\nAllow: (.*)\r\n", answer)
                self.check(f"methods of {place}", sorted(allowed[1].decode().split(", ")) if allowed else None, known)
                self.check(f"below {place}", server.answered(request("GET", f"{place}/x/y/z")).split(b" ", 2)[1], b"404")

    def test_broken_requests_are_answered_as_described(self) -> None:
        with self.serve("--page", *OF_OPERATORS) as server:
            for path, methods in OPENAPI["paths"].items():
                place = next(it for it, is_path in filled(path) if is_path)
                for method in [it for it in methods if it != "parameters"]:
                    word = method.upper()
                    cases = [
                        ("400", request(word, place, HOST)),
                        ("403", request(word, place, "Origin: http://a")),
                        ("411", request("POST", place)) if method == "post" else ("405", request("POST", place, "Content-Length: 0")),
                        ("413", request(word, place, "Content-Length: 262145")),
                        ("431", request(word, place, *["A: b"] * 32)),
                        ("501", request(word, place, "Transfer-Encoding: chunked")),
                    ]
                    for wanted, text in cases:
                        asked = "get" if wanted == "405" and method == "head" else method
                        status, _ = self.check_answer(f"{word} {place}", path, asked, server.answered(text))
                        self.check(f"{word} {place}, {text[-40:]!r}", status, wanted)
            for path in pages.resources():
                status, _ = self.check_answer(path, path, "get", server.answered(request("GET", path)))
                self.check(path, status, "200")
                kept = server.answered(request("GET", path, "If-None-Match: *")).partition(b"\r\n")[0]
                self.check(f"{path}, which the client has", (kept, "304" in OPENAPI["paths"][path]["get"]["responses"]), (b"HTTP/1.1 304 Not Modified", True))
