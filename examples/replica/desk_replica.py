#!/usr/bin/env python3
"""Keeps the desks of several machines equal, by a log of commands in etcd. README.md says how it is set up and what it promises.

    desk_replica.py found --etcd URL [--etcd URL].. [--plant PLANT] --desk PORT
    desk_replica.py serve NODE --etcd URL [--etcd URL].. [--plant PLANT] --desk PORT --port PORT --journal FILE
                               [--host NAME].. [--ahead SECONDS] [--operator-field NAME]
    desk_replica.py nodes --etcd URL [--etcd URL].. [--plant PLANT]
    desk_replica.py trim --etcd URL [--etcd URL].. [--plant PLANT] [--keep N]
    desk_replica.py drop NODE --etcd URL [--etcd URL].. [--plant PLANT]

`found` begins the log, once, from the desk that is served at PORT; the desks of all machines are copies of it. `serve` is the gateway of a machine,
NODE: it takes requests at its port and serves them by the log and by the desk beside it. `nodes` prints the number of the log's last entry and how
far each node is. `trim` cuts the log, but for the last N entries that all nodes have (1000); `drop` forgets a node, so that it is cut without it.

PLANT names the log, `plant` unless it is said. FILE is the gateway's own. Status 5: it can't go on by itself, and says why on standard error.
"""
from __future__ import annotations

import argparse
import http.server
import json
import os
import pathlib
import re
import socket
import sys
import threading
import time
from collections.abc import Mapping, Sequence
from typing import Any, NamedTuple

from replica_etcd import Etcd, EtcdLog
from replica_node import COMMANDS, ORDERS, OWN, Desk, Halt, Journal, Lost, NoAnswer, Node, Outcome, Reply, members_of

# The largest body that a desk takes, and the room for a reference that is put into a command.
LARGEST, ROOM = 262_144, 40

# How long a client waits until its command is applied here, and a question until the log is; how many questions the desk is asked at once.
COMMAND_SECONDS, FRESH_SECONDS, AT_ONCE = 60, 30, 16

# An id, as a reference is one.
ID = "[A-Z][-A-Z0-9]{0,23}"

# The fields of a head that are of a connection and aren't passed on.
OF_A_CONNECTION = {"connection", "keep-alive", "transfer-encoding", "te", "trailer", "upgrade", "expect", "content-length", "desk-fresh"}

# What the desk says of an order file in its head.
OF_AN_IMPORT = ("Desk-At", "Desk-By", "Desk-Ref")

JSON = [("Content-Type", "application/json")]


class Wrong(Exception):
    """Why a request isn't served: a reply."""

    def __init__(self, status: int, told: Mapping[str, Any] | None = None) -> None:
        super().__init__(status)
        self.reply = Reply(status, JSON, json.dumps(told or {"status": status}, separators=(",", ":")).encode())


class Rules(NamedTuple):
    """What this machine demands of a request before it is put into the log; the desks then demand nothing of their own."""

    hosts: Sequence[str]
    ahead: int
    operator_field: str | None

    def is_own(self, host: str, origin: str | None) -> bool:
        """Whether a request is of this machine's own pages and programs, as the desk's --page judges it."""
        name = re.sub(r":[0-9]{1,5}\Z", "", host)
        if name not in ("127.0.0.1", "localhost", *self.hosts):
            return False
        return origin in (None, f"http://{host}") or (name in self.hosts and origin == f"https://{host}")

    def operator(self, fields: Sequence[str]) -> str:
        """Whom the head names, by all its fields of this name."""
        if len(fields) != 1 or not fields[0]:
            raise Wrong(403)
        return fields[0].encode("latin-1").decode(errors="replace")

    def judge(self, at: object, by: object, fields: Sequence[str]) -> None:
        """Judges the moment and the operator of a command."""
        if self.operator_field and by != self.operator(fields):
            raise Wrong(403)
        if self.ahead and isinstance(at, int) and at > time.time() + self.ahead:
            raise Wrong(400, {"ahead": self.ahead, "status": 400})


def command_of(body: bytes) -> dict[str, Any]:
    """The members of a command, whose reference isn't one of the log's."""
    told = members_of(body)
    if told is None:
        raise Wrong(400, {"name": "BadForm", "refused": 1})
    check_reference(told.get("ref"))
    return told


def check_reference(reference: object) -> None:
    """Refuses a reference that the log might give."""
    if isinstance(reference, str) and reference.strip().startswith(OWN):
        raise Wrong(400)


class Handler(http.server.BaseHTTPRequestHandler):
    """A client's connection to the gateway."""

    protocol_version = "HTTP/1.1"
    timeout = 30
    node: Node
    rules: Rules
    room = threading.BoundedSemaphore(AT_ONCE)

    def setup(self) -> None:
        super().setup()
        self.connection.setsockopt(socket.IPPROTO_TCP, socket.TCP_NODELAY, 1)

    def serve(self) -> None:
        """Answers a request."""
        try:
            self.check_head()
            body = self.body()
            reply = self.replicated(body) if self.command == "POST" and self.path in (COMMANDS, ORDERS) else self.asked(body)
        except Wrong as wrong:
            self.close_connection = True
            reply = wrong.reply
        self.answer(reply)

    do_GET = do_HEAD = do_POST = serve

    def fields(self, name: str) -> list[str]:
        """All fields of the head of this name."""
        return self.headers.get_all(name) or []

    def check_head(self) -> None:
        """Sees that the request may come from here, and that its body can be read."""
        hosts, origins = self.fields("Host"), self.fields("Origin")
        if len(hosts) != 1 or len(origins) > 1 or not self.rules.is_own(hosts[0], origins[0] if origins else None):
            raise Wrong(403)
        if self.fields("Transfer-Encoding"):
            raise Wrong(501)
        if self.command == "POST" and not self.fields("Content-Length"):
            raise Wrong(411)

    def body(self) -> bytes:
        """The request's body."""
        lengths = self.fields("Content-Length") or ["0"]
        if len(lengths) != 1 or not re.fullmatch("[0-9]{1,18}", lengths[0]):
            raise Wrong(400)
        if int(lengths[0]) > LARGEST - (ROOM if self.path == COMMANDS else 0):
            raise Wrong(413)
        body = self.rfile.read(int(lengths[0]))
        if len(body) < int(lengths[0]):
            raise Wrong(400)
        return body

    def replicated(self, body: bytes) -> Reply:
        """Has a command executed by all desks, and returns what the desk beside this gateway answers. At which number is the log's own to say."""
        if self.fields("Desk-Seq"):
            raise Wrong(400)
        head = self.judged_import() if self.path == ORDERS else self.judged_command(body)
        return self.node.replicate(self.path, head, body, COMMAND_SECONDS) or Wrong(503).reply

    def judged_command(self, body: bytes) -> dict[str, str]:
        """Judges a command; returns its reference in the head, where it has one."""
        found = self.fields("Desk-Ref")
        if len(found) > 1 or not all(re.fullmatch(ID, it) for it in found):
            raise Wrong(400)
        head = {"Desk-Ref": it for it in found}
        check_reference(head.get("Desk-Ref"))
        told = command_of(body)
        self.rules.judge(told.get("at"), told.get("by"), self.fields(self.rules.operator_field or ""))
        return head

    def judged_import(self) -> dict[str, str]:
        """Judges an order file by its head; returns the fields of it that are for the desk."""
        found = {name: self.fields(name) for name in OF_AN_IMPORT}
        if any(len(it) > 1 for it in found.values()):
            raise Wrong(400)
        head = {name: it[0] for name, it in found.items() if it}
        check_reference(head.get("Desk-Ref"))
        at = head.get("Desk-At", "")
        self.rules.judge(int(at) if re.fullmatch("[0-9]{1,12}", at) else None, head.get("Desk-By", ""), self.fields(self.rules.operator_field or ""))
        return head

    def asked(self, body: bytes) -> Reply:
        """Answers what changes nothing: how the node is, or what its desk answers."""
        if self.path == "/replica":
            return self.state()
        if self.path == "/v1/operator" and self.rules.operator_field:
            told = {"operator": self.rules.operator(self.fields(self.rules.operator_field))}
            return Reply(200, JSON, json.dumps(told, ensure_ascii=False, separators=(",", ":")).encode())
        try:
            if self.fields("Desk-Fresh") and not self.node.freshen(FRESH_SECONDS):
                raise Wrong(503)
            with self.room:
                head = {name: value for name, value in self.headers.items() if name.lower() not in OF_A_CONNECTION}
                return self.node.desk.ask(self.command, self.path, body if self.command == "POST" else None, head)
        except (NoAnswer, Halt):
            raise Wrong(503) from None
        except Lost:
            raise Wrong(502) from None
        except ValueError:  # a field that can't be passed on
            raise Wrong(400) from None

    def state(self) -> Reply:
        """How far the node is; status 503 until it has found its desk's place in the log."""
        node = self.node
        told = {"name": node.name, "log": node.log_name, "ready": node.is_ready, "index": node.index, "seq": node.at.seq}
        return Reply(200 if node.is_ready else 503, JSON, json.dumps(told).encode())

    def answer(self, reply: Reply) -> None:
        """Writes a reply."""
        self.send_response_only(reply.status)
        for name, value in reply.head:
            if name.lower() not in OF_A_CONNECTION or (self.command == "HEAD" and name.lower() == "content-length"):
                self.send_header(name, value)
        if self.command != "HEAD" and reply.status != 304:
            self.send_header("Content-Length", str(len(reply.body)))
        self.end_headers()
        if self.command != "HEAD":
            self.wfile.write(reply.body)

    def log_message(self, *_: object) -> None:
        """Notes nothing."""


class Server(http.server.ThreadingHTTPServer):
    """The gateway's port on this machine."""

    daemon_threads = True
    request_queue_size = 256

    def handle_error(self, request: Any, client_address: Any) -> None:
        """Notes what is no client that went away."""
        if not isinstance(sys.exc_info()[1], OSError):
            super().handle_error(request, client_address)


def log_of(words: argparse.Namespace) -> EtcdLog:
    """The log that the words name."""
    return EtcdLog(Etcd(words.etcd), words.plant)


def serve(words: argparse.Namespace) -> None:
    """Runs the gateway of a machine until the process is ended, or the node can't go on."""
    def say(text: str) -> None:
        print(f"{words.node}: {text}", file=sys.stderr, flush=True)
        if node.is_stopped:
            os._exit(5)

    log = log_of(words)
    node = Handler.node = Node(words.node, log, Desk(words.desk), Journal(pathlib.Path(words.journal)), say)
    Handler.rules = Rules(words.host, words.ahead, words.operator_field)
    threading.Thread(target=log.watch, daemon=True).start()
    node.start()
    Server(("127.0.0.1", words.port), Handler).serve_forever()


def found(words: argparse.Namespace) -> None:
    """Begins the log from a desk."""
    desk = Desk(words.desk)
    desk.check_terms()
    seq = desk.seq()
    name = log_of(words).found(Outcome(seq, desk.last(seq), "-"))
    print(f"log {name} begins after command {seq}")


def nodes(words: argparse.Namespace) -> None:
    """Prints how far the log and each node are."""
    log = log_of(words)
    print(f"the log {log.name()} {log.newest(float('inf'))}")
    for name, number in sorted(log.nodes().items()):
        print(f"{name} {number}")


def trim(words: argparse.Namespace) -> None:
    """Cuts the log."""
    print(f"the log begins after entry {log_of(words).trim(words.keep)}")


def drop(words: argparse.Namespace) -> None:
    """Forgets a node."""
    log_of(words).drop(words.node)


def name(text: str) -> str:
    """A name of a plant or a node."""
    if not re.fullmatch("[a-z0-9-]{1,30}", text):
        raise argparse.ArgumentTypeError("a name has 1 to 30 of a to z, 0 to 9 and -")
    return text


def words_of(arguments: Sequence[str]) -> argparse.Namespace:
    """What the words of the command line mean."""
    parser = argparse.ArgumentParser(usage=(__doc__ or "").split("\n\n")[1], description="Keeps the desks of several machines equal")
    parts = parser.add_subparsers(dest="do", required=True, prog="desk_replica.py")
    for work in (found, serve, nodes, trim, drop):
        part = parts.add_parser(work.__name__, help=work.__doc__)
        part.set_defaults(work=work)
        part.add_argument("--etcd", metavar="URL", action="append", required=True)
        part.add_argument("--plant", type=name, default="plant")
        if work in (serve, drop):
            part.add_argument("node", type=name)
        if work in (serve, found):
            part.add_argument("--desk", metavar="PORT", type=int, required=True)
        if work is trim:
            part.add_argument("--keep", metavar="N", type=int, default=1000)
        if work is serve:
            add_serving(part)
    return parser.parse_args(arguments)


def add_serving(part: argparse.ArgumentParser) -> None:
    """Adds the words of a gateway."""
    part.add_argument("--port", type=int, required=True)
    part.add_argument("--journal", metavar="FILE", required=True)
    part.add_argument("--host", metavar="NAME", action="append", default=[])
    part.add_argument("--ahead", metavar="SECONDS", type=int, default=300)
    part.add_argument("--operator-field", metavar="NAME")


def main(arguments: Sequence[str]) -> int:
    words = words_of(arguments)
    try:
        words.work(words)
    except Halt as halt:
        print(f"desk_replica: {halt}", file=sys.stderr)
        return 5
    return 0


if __name__ == "__main__":
    sys.exit(main(sys.argv[1:]))
