"""HTTP: requests and answers, connections, and servers of the desk."""
from __future__ import annotations

import json
import os
import pathlib
import random
import re
import socket
import struct
import time
from collections.abc import Mapping

from tests.support.program import SECONDS, Ended, How, Program, Word

# How often a server is started at most where another program has taken its port.
ATTEMPTS = 3

# The ports of which servers take one. Systems give none of these to the connections of clients.
PORTS = range(20_000, 32_000)

# How a server ends whose port is taken.
NET = (3, b"", b"fault: net\n")

# How a server ends well.
WELL = (0, b"", b"")

PHRASES = {
    200: "OK",
    400: "Bad Request",
    403: "Forbidden",
    404: "Not Found",
    409: "Conflict",
    411: "Length Required",
    412: "Precondition Failed",
    413: "Payload Too Large",
    431: "Request Header Fields Too Large",
    501: "Not Implemented",
    503: "Service Unavailable",
}


def answer(body: str, status: int = 200, kind: str = "application/json") -> bytes:
    """Returns the answer of this body."""
    head = f"HTTP/1.1 {status} {PHRASES[status]}\r\nContent-Type: {kind}\r\nContent-Length: {len(body)}\r\nConnection: close\r\n\r\n"
    return (head + body).encode()


def status_answer(status: int) -> bytes:
    """Returns the answer that tells its status alone."""
    return answer(f'{{"status":{status}}}', status)


def desk_answer(seq: int) -> bytes:
    """Returns the answer of a desk that has so many commands."""
    return answer('{"schema":4,"seq":%d}' % seq)


def got(path: str) -> bytes:
    """Returns a request that gets a path."""
    return f"GET {path} HTTP/1.0\r\n\r\n".encode()


def posted(path: str, body: bytes, *fields: str) -> bytes:
    """Returns a request that posts a body."""
    lines = [f"POST {path} HTTP/1.1", "Host: a", f"Content-Length: {len(body)}", *fields, "", ""]
    return "\r\n".join(lines).encode() + body


# An order file.
ORDERS = b"order,recipe,version,size,due,priority\nO-1,R-1,1,1,2027-01-01,1\n"


def command(by: str = "anna", at: int = 100, name: str = "RAW", **more: str) -> bytes:
    """Returns a command that a new desk accepts."""
    return json.dumps({"at": at, "by": by, "do": "add_class", "class": name, "name": "", **more}, separators=(",", ":")).encode()


def booked(body: bytes, *fields: str) -> bytes:
    """Returns a request to book a command."""
    return posted("/v1/commands", body, *fields)


def checked(body: bytes, *fields: str) -> bytes:
    """Returns a request to check a command."""
    return posted("/v1/check", body, *fields)


def imported(*fields: str, file: bytes = ORDERS) -> bytes:
    """Returns a request to import an order file."""
    return posted("/v1/orders", file, "Desk-At: 100", *fields)


# A question, and a command, with what a new desk answers.
ASK = b"GET /v1/desk HTTP/1.0\n\n"
NEW = desk_answer(0)
COMMAND = b'{"at":100,"by":"","do":"add_class","class":"RAW","name":""}'
POST = posted("/v1/commands", COMMAND)
ACCEPTED = answer('{"ok":1}')

# The machine's time in the head of an answer (RFC 9110, section 5.6.7).
DATE = re.compile(rb"\r\nDate: [A-Z][a-z]{2}, \d\d [A-Z][a-z]{2} \d{4} \d\d:\d\d:\d\d GMT")

# The head of a question, but for its end.
HOST = b"GET /v1/desk HTTP/1.1\r\nHost: a\r\n"


def free_port() -> int:
    """Returns a port of 127.0.0.1 that is free at this moment."""
    while True:
        port = random.choice(PORTS)
        with socket.socket() as it:
            try:
                it.bind(("127.0.0.1", port))
                return port
            except OSError:
                continue


def listens(port: int) -> bool:
    """Returns whether something listens on a port of 127.0.0.1, by the system's list of sockets: a connection would count."""
    return f"0100007F:{port:04X} 00000000:0000 0A" in pathlib.Path("/proc/net/tcp").read_text()


def connected(port: int, address: str = "127.0.0.1", seconds: float = SECONDS) -> socket.socket:
    """Returns a connection to a port."""
    return socket.create_connection((address, port), seconds)


def small_connection(port: int) -> socket.socket:
    """Returns a connection for which the system keeps few bytes that weren't read."""
    client = socket.socket()
    client.setsockopt(socket.SOL_SOCKET, socket.SO_RCVBUF, 4096)
    client.setsockopt(socket.IPPROTO_TCP, socket.TCP_MAXSEG, 536)
    client.settimeout(SECONDS)
    client.connect(("127.0.0.1", port))
    return client


def closed(connection: socket.socket, is_reset: bool) -> None:
    """Closes a connection, or resets it."""
    if is_reset:
        connection.setsockopt(socket.SOL_SOCKET, socket.SO_LINGER, struct.pack("ii", 1, 0))
    connection.close()


def rest_of(connection: socket.socket) -> bytes:
    """Returns what comes on a connection to its end."""
    text = b""
    while piece := connection.recv(65536):
        text += piece
    return text


def read_of(connection: socket.socket, size: int) -> bytes:
    """Returns so many bytes that come on a connection, or all where fewer come."""
    text = b""
    while len(text) < size and (piece := connection.recv(min(65536, size - len(text)))):
        text += piece
    return text


def dated(port: int, request: bytes, is_last: bool = False) -> bytes:
    """Returns the answer to a request on a connection of its own, behind which nothing is sent where it is the last."""
    with connected(port) as it:
        it.sendall(request)
        if is_last:
            it.shutdown(socket.SHUT_WR)
        return rest_of(it)


def answered(port: int, request: bytes, is_last: bool = False) -> bytes:
    """Returns that answer without the machine's time, which no test foresees."""
    head, separator, body = dated(port, request, is_last).partition(b"\r\n\r\n")
    return DATE.sub(b"", head) + separator + body


def answered_or_broken(port: int, request: bytes, is_last: bool = False) -> bytes:
    """Returns the answer to a request, and nothing where the connection breaks."""
    try:
        return answered(port, request, is_last)
    except (BrokenPipeError, ConnectionRefusedError, ConnectionResetError):
        return b""


def is_refused(address: str, port: int) -> bool:
    """Returns whether no connection to this address is taken."""
    try:
        connected(port, address, 5).close()
    except ConnectionRefusedError:
        return True
    return False


class Server:
    """A desk that serves so many connections over a file, at a port of its own or at the one that is given."""

    def __init__(
        self, desk: Program, file: Word, connections: int, *options: Word,
        env: Mapping[str, str] | None = None, port: int | None = None, how: How | None = None,
    ) -> None:
        for _ in range(ATTEMPTS):
            self.ended: Ended | None = None
            self.port = port or free_port()
            words = ["serve", file, str(self.port), str(connections), *options]
            self.process = desk.start(*words, env=env, **(how or {}))
            last = time.monotonic() + SECONDS
            while self.process.poll() is None and not listens(self.port):
                if time.monotonic() > last:
                    self.process.kill()
                    raise AssertionError(f"a desk doesn't listen within {SECONDS} seconds")
                time.sleep(0.001)
            if self.process.poll() is None or self.end() != NET:
                return

    def __enter__(self) -> Server:
        return self

    def __exit__(self, *_: object) -> None:
        self.process.kill()
        self.end()

    def end(self) -> Ended:
        """Waits until the server has ended, and returns how."""
        if self.ended is None:
            output, errors = self.process.communicate(timeout=SECONDS)
            self.ended = Ended(self.process.returncode, output, errors)
        return self.ended

    def is_running(self) -> bool:
        return self.process.poll() is None

    def open_files(self) -> int:
        """Returns how many files and connections the server has open."""
        return len(os.listdir(f"/proc/{self.process.pid}/fd"))

    def wait_closed(self, files: int) -> None:
        """Waits until the server has no more than so many files and connections open."""
        last = time.monotonic() + SECONDS
        while self.open_files() > files:
            if time.monotonic() > last:
                raise AssertionError(f"a desk has {self.open_files()} files open after {SECONDS} seconds")
            time.sleep(0.01)

    def answered(self, request: bytes, is_last: bool = False) -> bytes:
        return answered(self.port, request, is_last)

    def answered_or_broken(self, request: bytes, is_last: bool = False) -> bytes:
        return answered_or_broken(self.port, request, is_last)
