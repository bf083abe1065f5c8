"""Whom a desk answers that serves the page: by the fields Host and Origin of each request, over sockets.

Without `--page` neither field is looked at, and the server answers as if there were no page.
"""
from __future__ import annotations

import itertools
from collections.abc import Iterable

from tests.support.cases import DeskTestCase
from tests.support.http import COMMAND, NEW, Server, answer, status_answer

# A name under which a proxy hands requests on.
NAME = "desk.plant.example"

# The answer to a request that is forbidden.
FORBIDDEN = status_answer(403)

# The values of Host that are served, and those that aren't.
SERVED = ["127.0.0.1", "127.0.0.1:1", "127.0.0.1:65535", "localhost", "localhost:8080", NAME, f"{NAME}:8443"]
FOREIGN = [
    "", "a", "127.0.0.1:", "127.0.0.1:123456", "127.0.0.1:8x", "127.0.0.1:-1", "127.0.0.1:80:80", "127.0.0.2", "127.0.0.10", "127.1", "0.0.0.0", "[::1]",
    "evil.test", "localhost.evil.test", "127.0.0.1.evil.test", "evil.test:8080", "localhost@evil.test", "LOCALHOST", "localhost.", "xlocalhost",
    "desk.plant.exampl", "desk.plant.example.evil.test", "www.desk.plant.example", f"{NAME}:", f"{NAME}:x",
]

# Origins with a Host: of the desk's own pages, and of others.
OWN = [
    ("127.0.0.1", "http://127.0.0.1"),
    ("127.0.0.1:8080", "http://127.0.0.1:8080"),
    ("localhost:8080", "http://localhost:8080"),
    (NAME, f"http://{NAME}"),
    (NAME, f"https://{NAME}"),
    (f"{NAME}:8443", f"https://{NAME}:8443"),
]
OTHERS = [
    ("127.0.0.1:8080", ""),
    ("127.0.0.1:8080", "null"),
    ("127.0.0.1:8080", "127.0.0.1:8080"),
    ("127.0.0.1:8080", "http://127.0.0.1"),
    ("127.0.0.1:8080", "http://127.0.0.1:8081"),
    ("127.0.0.1:8080", "http://127.0.0.1:8080/"),
    ("127.0.0.1:8080", "https://127.0.0.1:8080"),
    ("127.0.0.1:8080", "HTTP://127.0.0.1:8080"),
    ("127.0.0.1:8080", "http://localhost:8080"),
    ("127.0.0.1:8080", "http://evil.test"),
    ("127.0.0.1", f"http://{NAME}"),
    ("localhost", "https://localhost"),
    (NAME, "http://127.0.0.1"),
    (NAME, f"ftp://{NAME}"),
    (NAME, f"https://{NAME}:8443"),
    (NAME, f"https://{NAME}.evil.test"),
]

# Requests that are answered by a status alone, each with that status where the host is served.
STATUSES: list[tuple[str, str, list[str], int]] = [
    ("GET", "/v1/desk", ["Transfer-Encoding: chunked"], 501),
    ("GET", "/v1/desk", ["Content-Length: 1", "Content-Length: 1"], 400),
    ("GET", "/v1/desk", ["Content-Length: 262145"], 413),
    ("GET", "/v2/desk", [], 404),
    ("GET", "/index.html", [], 404),
    ("GET", "/?role=quality", [], 404),
    ("GET", "//", [], 404),
    ("POST", "/v1/commands", [], 411),
]


def request(method: str, path: str, *fields: str, version: str = "1.1", body: bytes = b"") -> bytes:
    """Returns a request with these lines of fields alone."""
    return "\r\n".join([f"{method} {path} HTTP/{version}", *fields, "", ""]).encode() + body


def asked(*fields: str, version: str = "1.1") -> bytes:
    """Returns a question with these lines of fields alone."""
    return request("GET", "/v1/desk", *fields, version=version)


def booked(host: str, *fields: str) -> bytes:
    """Returns a command for a host."""
    return request("POST", "/v1/commands", f"Host: {host}", f"Content-Length: {len(COMMAND)}", *fields, body=COMMAND)


def head_of(text: bytes) -> tuple[str, list[str], bytes]:
    """Returns the status, the fields and the body of an answer."""
    head, _, body = text.partition(b"\r\n\r\n")
    status, *fields = head.decode().split("\r\n")
    return status, fields, body


class OriginTestCase(DeskTestCase):
    """A test case over requests, each with the answer that is wanted."""

    def check_served(self, options: Iterable[str], requests: Iterable[tuple[str, bytes, bytes]]) -> None:
        """Serves requests with these options, and sees that they left a desk without a command."""
        requests = list(requests)
        with Server(self.desk, "plant.db", len(requests), *options) as server:
            for case, sent, wanted in requests:
                self.check(case, server.answered(sent), wanted)
            self.check("the server", server.end().status, 0)
        self.check("what it left", self.desk.run("verify", "plant.db"), (0, b"good schema 4 seq 0\n", b""))


class Origins(OriginTestCase):
    """Requests to a desk that serves the page."""

    OPTIONS = ("--page", "--host", NAME)

    def test_request_is_answered_for_a_served_host_alone(self) -> None:
        self.check_served(self.OPTIONS, itertools.chain(
            ((f"Host: {it}", asked(f"Host: {it}"), NEW) for it in SERVED),
            ((f"host: {it}", asked(f"host:{it}", version="1.0"), NEW) for it in SERVED),
            ((f"Host: {it}", asked(f"Host: {it}"), FORBIDDEN) for it in FOREIGN),
        ))

    def test_request_without_a_host_or_with_two_is_refused(self) -> None:
        self.check_served(self.OPTIONS, [
            ("no Host in 1.1", asked(), status_answer(400)),
            ("no Host in 1.0", asked(version="1.0"), FORBIDDEN),
            ("two Hosts", asked("Host: localhost", "Host: localhost"), status_answer(400)),
            ("two Hosts in 1.0", asked("Host: localhost", "Host: localhost", version="1.0"), status_answer(400)),
        ])

    def test_name_of_a_proxy_is_served_where_it_was_given_alone(self) -> None:
        self.check_served(["--page"], [
            ("the name", asked(f"Host: {NAME}"), FORBIDDEN),
            ("this machine", asked("Host: localhost"), NEW),
        ])
        names = [f"h{number}.example" for number in range(8)]
        options = ["--page", *(word for it in names for word in ("--host", it))]
        self.check_served(options, ((it, asked(f"Host: {it}"), NEW) for it in names))

    def test_request_of_another_origin_is_forbidden(self) -> None:
        def fields(host: str, *origins: str) -> list[str]:
            return [f"Host: {host}", *(f"Origin: {it}" for it in origins)]

        self.check_served(self.OPTIONS, itertools.chain(
            ((f"{host}, {origin}", asked(*fields(host, origin)), NEW) for host, origin in OWN),
            ((f"{host}, {origin}", asked(*fields(host, origin)), FORBIDDEN) for host, origin in OTHERS),
            ((f"{host}, {origin} twice", asked(*fields(host, origin, origin)), FORBIDDEN) for host, origin in OWN),
        ))

    def test_forbidden_command_is_not_executed(self) -> None:
        self.check_served(self.OPTIONS, itertools.chain(
            ((f"a command for {it}", booked(it), FORBIDDEN) for it in FOREIGN),
            ((f"a command of {origin} for {host}", booked(host, f"Origin: {origin}"), FORBIDDEN) for host, origin in OTHERS),
            ((f"a command of {origin} twice", booked(host, f"Origin: {origin}", f"Origin: {origin}"), FORBIDDEN) for host, origin in OWN),
        ))

    def test_forbidden_goes_before_all_that_is_looked_at_behind_the_host(self) -> None:
        def sent(method: str, path: str, fields: Iterable[str], host: str) -> bytes:
            return request(method, path, f"Host: {host}", *fields)

        self.check_served(self.OPTIONS, itertools.chain(
            ((f"{method} {path} {fields}", sent(method, path, fields, "localhost"), status_answer(status)) for method, path, fields, status in STATUSES),
            ((f"{method} {path} {fields}", sent(method, path, fields, "evil.test"), FORBIDDEN) for method, path, fields, _ in STATUSES),
        ))

    def test_forbidden_answer_to_a_head_has_no_body(self) -> None:
        head = FORBIDDEN.partition(b"\r\n\r\n")[0] + b"\r\n\r\n"
        self.check_served(self.OPTIONS, [("HEAD", request("HEAD", "/v1/desk", "Host: evil.test"), head)])

    def test_own_page_books(self) -> None:
        with Server(self.desk, ":memory:", 2, *self.OPTIONS) as server:
            for number, (host, origin) in enumerate([OWN[1], OWN[5]], 1):
                wanted = answer('{"ok":1}') if number == 1 else answer('{"name":"Exists","refused":3}', 409)
                self.check(f"{host}, {origin}", server.answered(booked(host, f"Origin: {origin}")), wanted)


class Page(OriginTestCase):
    """The page."""

    def test_page_is_answered_with_its_guards(self) -> None:
        with Server(self.desk, ":memory:", 2, "--page") as server:
            status, fields, body = head_of(server.answered(request("GET", "/", "Host: localhost")))
            silent = head_of(server.answered(request("HEAD", "/", "Host: localhost")))
        self.check("the status", status, "HTTP/1.1 200 OK")
        self.check("the fields", fields[:5], [
            "Content-Type: text/html; charset=utf-8",
            f"Content-Length: {len(body)}",
            "Connection: close",
            "X-Frame-Options: DENY",
            "X-Content-Type-Options: nosniff",
        ])
        self.check("the rest", [it.partition(" ")[0] for it in fields[5:]], ["Content-Security-Policy:", "ETag:", "Cache-Control:"])
        self.check_true("nothing from outside", fields[5].startswith("Content-Security-Policy: default-src 'none'; "))
        self.check("a HEAD", silent, (status, fields, b""))

    def test_page_takes_no_other_method(self) -> None:
        wanted = b'HTTP/1.1 405 Method Not Allowed\r\nContent-Type: application/json\r\nContent-Length: 14\r\nConnection: close\r\nAllow: GET, HEAD\r\n\r\n{"status":405}'
        self.check_served(["--page"], ((it, request(it, "/", "Host: localhost", "Content-Length: 0"), wanted) for it in ("POST", "PUT", "DELETE", "OPTIONS")))

    def test_without_the_switch_there_is_no_page_and_no_rule(self) -> None:
        self.check_served([], itertools.chain(
            [("the page", request("GET", "/", "Host: localhost"), status_answer(404))],
            ((f"Host: {it}", asked(f"Host: {it}"), NEW) for it in FOREIGN),
            ((f"{host}, {origin}", asked(f"Host: {host}", f"Origin: {origin}", "Origin: http://b"), NEW) for host, origin in OTHERS),
        ))

    def test_address_is_told_as_serving_begins(self) -> None:
        cases: list[tuple[list[str], str]] = [
            (["--page"], "serving http://127.0.0.1:{}/\n"),
            (["--page", "--host", NAME], "serving http://127.0.0.1:{}/\n"),
            ([], ""),
            (["--log"], "serving 127.0.0.1:{}\n"),
        ]
        for options, wanted in cases:
            with Server(self.desk, ":memory:", 1, *options) as server:
                self.check(f"an answer, {options}", server.answered(asked("Host: localhost")), NEW)
                errors = server.end().errors.decode()
            self.check(f"the address, {options}", errors.partition("\n")[0] + "\n" if wanted else errors, wanted.format(server.port))
