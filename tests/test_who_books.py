"""Whose commands `serve` takes, over sockets: those that have a reference, and those of the operator whom a field of the head names.

`--references` wants a reference of each command and import, and none of a check. `--operator-field` names the field. Neither judges what is
asked by GET.
"""
from __future__ import annotations

import json
import os
import pathlib
import pwd
import re
import shutil
import subprocess
import time

from tests.support.cases import DeskTestCase
from tests.support.http import (
    DATE, ORDERS, Server, answer, answered, booked, checked, command, connected, desk_answer, free_port, imported, listens, posted, status_answer,
)
from tests.support.program import SECONDS, TOP

MISSING = answer('{"reference":"missing","status":400}', 400)
FORBIDDEN = status_answer(403)
BAD_FORM = answer('{"name":"BadForm","refused":1}', 400)
AHEAD = answer('{"ahead":60,"status":400}', 400)

# The field that a proxy sets from its login.
FIELD = "X-Operator"

# An order file with a fault.
NO_ORDERS = b"order\n"

# A moment that no clock reaches.
LAST = 253_402_300_799

# Heads that don't name anna once, and so may book nothing as anna.
WRONG_HEADS: list[tuple[str, list[str]]] = [
    ("no field", []),
    ("another operator", [f"{FIELD}: bob"]),
    ("a prefix", [f"{FIELD}: ann"]),
    ("a longer name", [f"{FIELD}: annabel"]),
    ("another case of the value", [f"{FIELD}: Anna"]),
    ("an empty value", [f"{FIELD}:"]),
    ("a value past ASCII", [f"{FIELD}: \u00e4nna"]),
    ("a value of 61 bytes", [f"{FIELD}: {'a' * 61}"]),
    ("a tab within", [f"{FIELD}: an\tna"]),
    ("two fields", [f"{FIELD}: anna", f"{FIELD}: bob"]),
    ("two alike", [f"{FIELD}: anna", f"{FIELD.lower()}: anna"]),
    ("two values", [f"{FIELD}: anna, anna"]),
    ("another field", ["X-Operators: anna"]),
    ("a prefix of the field", ["X-Oper: anna"]),
    ("an underscore", ["X_Operator: anna"]),
    ("Desk-By alone", ["Desk-By: anna"]),
]


def asked(path: str, *fields: str, method: str = "GET") -> bytes:
    return "\r\n".join([f"{method} {path} HTTP/1.1", "Host: a", *fields, "", ""]).encode()


def body_of(it: bytes) -> bytes:
    """Returns the body of an answer."""
    return it.partition(b"\r\n\r\n")[2]


def status_of(it: bytes) -> int:
    """Returns the status of an answer."""
    return int(it.split()[1])


class References(DeskTestCase):
    """Commands without a reference, where each has to have one."""

    def test_command_or_import_without_a_reference_is_refused_and_changes_nothing(self) -> None:
        with Server(self.desk, "plant.db", 8, "--references") as server:
            for case, it in (("a command", booked(command())), ("an import", imported()), ("an import by anna", imported("Desk-By: anna"))):
                self.check(case, answered(server.port, it), MISSING)
            self.check("nothing was done", answered(server.port, asked("/v1/desk")), desk_answer(0))
            self.check("no receipt", json.loads(body_of(answered(server.port, asked("/v1/lists/commands"))))["commands"], [])
            self.check("one with a reference", answered(server.port, booked(command(ref="R-1"))), answer('{"ok":1}'))
            self.check("and sent again", answered(server.port, booked(command(ref="R-1"))), answer('{"ok":1}'))
            imports = answered(server.port, imported("Desk-Ref: R-2"))
            self.check("an import with one is judged by the desk", (status_of(imports), b"reference" in imports), (409, False))
        self.check_verified("the file", "plant.db", 1)

    def test_check_needs_none_and_says_what_it_says_without_the_option(self) -> None:
        said = []
        for options in ((), ("--references",)):
            with Server(self.desk, ":memory:", 3, *options) as server:
                said.append([answered(server.port, checked(it)) for it in (command(), command(ref="R-1"), b"{}")])
        self.check("checks", said[1], said[0])
        self.check("a command that would be executed", status_of(said[1][0]), 200)

    def test_what_is_no_command_is_answered_as_such(self) -> None:
        with Server(self.desk, ":memory:", 4, "--references") as server:
            self.check("no command", answered(server.port, booked(b"{}")), BAD_FORM)
            self.check("a wrong reference", answered(server.port, booked(command(ref="r-1"))), BAD_FORM)
            self.check("no order file", answered(server.port, imported(file=NO_ORDERS)), answer('{"csv":"Header","row":0}', 400))
            self.check("no moment", answered(server.port, posted("/v1/orders", ORDERS)), status_answer(400))

    def test_without_the_option_a_command_needs_none(self) -> None:
        with Server(self.desk, ":memory:", 1) as server:
            self.check("a command", answered(server.port, booked(command())), answer('{"ok":1}'))

    def test_with_the_page_it_is_the_same(self) -> None:
        with Server(self.desk, ":memory:", 2, "--page", "--references") as server:
            here = booked(command()).replace(b"Host: a\r\n", b"Host: localhost\r\n")
            self.check("a command", answered(server.port, here), MISSING)
            self.check("of another site", answered(server.port, booked(command())), FORBIDDEN)


class Operators(DeskTestCase):
    """Commands of another operator than the one whom the head names."""

    def test_command_of_another_operator_is_refused_and_changes_nothing(self) -> None:
        with Server(self.desk, "plant.db", 3 * len(WRONG_HEADS) + 1, "--operator-field", FIELD) as server:
            for case, fields in WRONG_HEADS:
                self.check(f"{case}: a command", answered(server.port, booked(command(), *fields)), FORBIDDEN)
                self.check(f"{case}: a check", answered(server.port, checked(command(), *fields)), FORBIDDEN)
                by = [] if "Desk-By: anna" in fields else ["Desk-By: anna"]
                self.check(f"{case}: an import", answered(server.port, imported(*by, *fields)), FORBIDDEN)
            self.check("nothing was done", answered(server.port, asked("/v1/desk")), desk_answer(0))
        self.check_verified("the file", "plant.db", 0)

    def test_command_of_that_operator_is_taken_whatever_the_case_of_the_field(self) -> None:
        names = [FIELD, FIELD.lower(), FIELD.upper(), "x-OPERATOR"]
        with Server(self.desk, ":memory:", 3 * len(names), "--operator-field", "X-operator") as server:
            for place, name in enumerate(names):
                field = f"{name}: anna"
                self.check(f"{name}: a check", status_of(answered(server.port, checked(command(name=f"C-{place}"), field))), 200)
                self.check(f"{name}: a command", answered(server.port, booked(command(name=f"C-{place}"), field)), answer('{"ok":%d}' % (place + 1)))
                self.check(f"{name}: an import", status_of(answered(server.port, imported("Desk-By: anna", field))), 409)

    def test_operators_are_texts(self) -> None:
        with Server(self.desk, ":memory:", 4, "--operator-field", FIELD) as server:
            for place, by in enumerate(["a", "Anna O'Neil, shift 2", '"\\', "~" * 60]):
                it = booked(command(by, name=f"C-{place}"), f"{FIELD}: {by}")
                self.check(by, answered(server.port, it), answer('{"ok":%d}' % (place + 1)))

    def test_import_is_of_the_operator_whom_desk_by_names(self) -> None:
        with Server(self.desk, ":memory:", 4, "--operator-field", FIELD) as server:
            self.check("none", answered(server.port, imported(f"{FIELD}: anna")), FORBIDDEN)
            self.check("another", answered(server.port, imported(f"{FIELD}: anna", "Desk-By: bob")), FORBIDDEN)
            self.check("two", answered(server.port, imported(f"{FIELD}: anna", "Desk-By: anna", "Desk-By: anna")), status_answer(400))
            self.check("nobody, and an empty value", answered(server.port, imported(f"{FIELD}:")), FORBIDDEN)

    def test_empty_operator_may_book_nothing(self) -> None:
        with Server(self.desk, ":memory:", 2, "--operator-field", FIELD) as server:
            self.check("without a field", answered(server.port, booked(command(""))), FORBIDDEN)
            self.check("with an empty one", answered(server.port, booked(command(""), f"{FIELD}:")), FORBIDDEN)

    def test_questions_are_answered_whoever_asks(self) -> None:
        heads: list[tuple[str, list[str]]] = [("nobody", []), ("anna", [f"{FIELD}: anna"]), ("two", [f"{FIELD}: a", f"{FIELD}: b"])]
        with Server(self.desk, ":memory:", 3, "--operator-field", FIELD) as server:
            for case, fields in heads:
                self.check(case, answered(server.port, asked("/v1/desk", *fields)), desk_answer(0))

    def test_what_is_no_command_is_answered_as_such(self) -> None:
        with Server(self.desk, ":memory:", 4, "--operator-field", FIELD) as server:
            self.check("no command", answered(server.port, booked(b"{}")), BAD_FORM)
            self.check_true("its check", b'"name":"BadForm"' in answered(server.port, checked(b"{}")))
            self.check("no order file", answered(server.port, imported(file=NO_ORDERS)), answer('{"csv":"Header","row":0}', 400))
            self.check("no such path", answered(server.port, posted("/v1/command", command())), status_answer(404))

    def test_without_the_option_the_field_says_nothing(self) -> None:
        with Server(self.desk, ":memory:", 2) as server:
            self.check("a command", answered(server.port, booked(command(), f"{FIELD}: bob")), answer('{"ok":1}'))
            self.check("no such path", answered(server.port, asked("/v1/operator", f"{FIELD}: bob")), status_answer(404))


class WhoAsks(DeskTestCase):
    """The path that says whom the head names."""

    def test_operator_whom_the_head_names_is_answered(self) -> None:
        wanted = {"anna": '{"operator":"anna"}', "Anna O'Neil": '{"operator":"Anna O\'Neil"}', 'a"b\\c': '{"operator":"a\\"b\\\\c"}'}
        wanted.update({it: json.dumps({"operator": it}, separators=(",", ":")) for it in ('"' * 60, "~" * 60, "\\" * 60, "<&>/")})
        with Server(self.desk, ":memory:", 2 * len(wanted), "--operator-field", FIELD) as server:
            for name, text in wanted.items():
                self.check(name, answered(server.port, asked("/v1/operator", f"{FIELD}: {name}")), answer(text))
                of_head = answered(server.port, asked("/v1/operator", f"{FIELD}: {name}", method="HEAD"))
                self.check(f"{name}, of a HEAD", of_head, answer(text).partition(b"\r\n\r\n")[0] + b"\r\n\r\n")

    def test_head_that_names_none_is_forbidden(self) -> None:
        wrong = [it for it in WRONG_HEADS if it[0] not in ("another operator", "a prefix", "a longer name", "another case of the value", "two values")]
        with Server(self.desk, ":memory:", len(wrong), "--operator-field", FIELD) as server:
            for case, fields in wrong:
                self.check(case, answered(server.port, asked("/v1/operator", *fields)), FORBIDDEN)

    def test_path_has_two_methods_and_is_there_with_the_option_alone(self) -> None:
        anna = f"{FIELD}: anna"
        with Server(self.desk, ":memory:", 3, "--operator-field", FIELD) as server:
            it = answered(server.port, asked("/v1/operator", anna, method="POST"))
            self.check("another method", (status_of(it), b"\r\nAllow: GET, HEAD\r\n" in it), (405, True))
            self.check("a longer path", answered(server.port, asked("/v1/operator/", anna)), status_answer(404))
            self.check("a list", status_of(answered(server.port, asked("/v1/lists/classes", anna))), 200)
        with Server(self.desk, ":memory:", 2, "--page", "--references") as server:
            for host in ("localhost", "127.0.0.1"):
                self.check(host, answered(server.port, asked("/v1/operator", anna).replace(b"Host: a", b"Host: " + host.encode())), status_answer(404))


class Order(DeskTestCase):
    """Which cause decides where there are several."""

    def test_operator_comes_before_reference_and_reference_before_clock(self) -> None:
        options = ("--references", "--operator-field", FIELD, "--ahead", "60")
        anna, late = f"{FIELD}: anna", command(at=LAST)
        with Server(self.desk, ":memory:", 8, *options) as server:
            self.check("all three", answered(server.port, booked(late)), FORBIDDEN)
            self.check("reference and clock", answered(server.port, booked(late, anna)), MISSING)
            self.check("the clock", answered(server.port, booked(command(at=LAST, ref="R-1"), anna)), AHEAD)
            self.check("a check of all three", answered(server.port, checked(late)), FORBIDDEN)
            self.check("a check without a reference", answered(server.port, checked(late, anna)), AHEAD)
            self.check("an import", answered(server.port, imported("Desk-By: anna", anna)), MISSING)
            self.check("none", answered(server.port, booked(command(ref="R-1"), anna)), answer('{"ok":1}'))
            self.check("what is there", answered(server.port, asked("/v1/desk")), desk_answer(1))


class BehindAProxy(DeskTestCase):
    """The field as nginx sets it from its login."""

    def configuration(self, port: int, to: int) -> pathlib.Path:
        """Writes what nginx is to do, with the lines of docs/EXAMPLES.md that say who is logged in, and two users."""
        (self.folder / "users").write_text("anna:{PLAIN}a\nbob:{PLAIN}b\n")
        [recipe] = re.findall(r"^ +auth_basic .*?^        }$", (TOP / "docs/EXAMPLES.md").read_text(encoding="utf-8"), re.M | re.S)
        lines = recipe.replace("/etc/nginx/desk.users", f"{self.folder}/users").replace("127.0.0.1:8080", f"127.0.0.1:{to}")
        at = self.folder / "nginx.conf"
        at.write_text(f"""
daemon off; pid {self.folder}/nginx.pid; error_log stderr; worker_processes 1; user {pwd.getpwuid(os.geteuid()).pw_name};
events {{ worker_connections 16; }}
http {{
    access_log off; client_body_temp_path {self.folder}/body; proxy_temp_path {self.folder}/proxy;
    fastcgi_temp_path {self.folder}/f; uwsgi_temp_path {self.folder}/u; scgi_temp_path {self.folder}/s;
    server {{
        listen 127.0.0.1:{port};
{lines}
    }}
}}
""")
        return at

    def test_login_of_the_proxy_says_who_books(self) -> None:
        nginx = shutil.which("nginx")
        if nginx is None:
            self.skipTest("nginx isn't installed")
        login = "Authorization: Basic YW5uYTph"  # anna:a
        cases: list[tuple[str, list[str], str, int]] = [
            ("without a login", [], "anna", 401), ("as another", [login], "bob", 403),
            ("as another, whose field the client sends", [login, f"{FIELD}: bob"], "bob", 403), ("as itself", [login], "anna", 200),
        ]  # fmt: skip
        with Server(self.desk, ":memory:", 3, "--operator-field", FIELD) as server:
            port = free_port()
            proxy = subprocess.Popen([nginx, "-c", self.configuration(port, server.port)], stderr=subprocess.DEVNULL)
            try:
                last = time.monotonic() + SECONDS
                while not listens(port) and time.monotonic() < last:
                    time.sleep(0.01)
                for case, fields, by, status in cases:
                    with connected(port) as it:
                        it.sendall(booked(command(by), "Connection: close", *fields))
                        self.check(case, status_of(DATE.sub(b"", it.makefile("rb").read())), status)
            finally:
                proxy.terminate()
                proxy.wait(SECONDS)
