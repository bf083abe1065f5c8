"""A log of commands in etcd, by etcd's JSON over HTTP (v3), which Debian's etcd 3.4 and later ones serve.

Its keys, of the log of a plant:

    desk/PLANT/id         which log it is
    desk/PLANT/log/N      entry N; N has 16 digits
    desk/PLANT/out/N      what came of it
    desk/PLANT/node/NAME  how far a node is, by what it published
"""
from __future__ import annotations

import base64
import http.client
import json
import secrets
import socket
import threading
import time
import urllib.parse
from collections.abc import Callable, Mapping, Sequence
from typing import Any

from replica_node import AGAIN, Entry, Halt, NoAnswer, Outcome

# How long one member is given, the longest wait until it is asked again, and how long a watch may be silent.
SECONDS, LONGEST, SILENCE = 3.0, 0.5, 10.0

# The statuses that no later try mends: a mistake in the request, or a right that is missing.
FINAL = (400, 401, 403)


def coded(text: str | bytes) -> str:
    """A key or a value as JSON has it."""
    return base64.b64encode(text.encode() if isinstance(text, str) else text).decode()


def decoded(text: str) -> bytes:
    """A key or a value from JSON."""
    return base64.b64decode(text)


def number_of(pair: Mapping[str, Any]) -> int:
    """The number at the end of a pair's key."""
    return int(decoded(pair["key"]).rpartition(b"/")[2])


class Etcd:
    """Members of etcd, of which the first that answers is asked."""

    def __init__(self, addresses: Sequence[str]) -> None:
        self.hosts = [urllib.parse.urlsplit(it).netloc for it in addresses]
        if not all(self.hosts):
            raise Halt("an address of etcd is such as http://127.0.0.1:2379")
        self.at = 0
        self.own = threading.local()

    def connection(self, host: str) -> http.client.HTTPConnection:
        """This thread's connection to a member."""
        kept: tuple[str, http.client.HTTPConnection] | None = getattr(self.own, "kept", None)
        if kept and kept[0] == host:
            return kept[1]
        self.close()
        made = http.client.HTTPConnection(host, timeout=SECONDS)
        made.connect()
        made.sock.setsockopt(socket.IPPROTO_TCP, socket.TCP_NODELAY, 1)
        self.own.kept = (host, made)
        return made

    def close(self) -> None:
        """Closes this thread's connection."""
        kept: tuple[str, http.client.HTTPConnection] | None = getattr(self.own, "kept", None)
        if kept:
            kept[1].close()
        self.own.kept = None

    def give_up(self) -> None:
        """Leaves this thread's connection, and asks the next member from now on."""
        self.close()
        self.at += 1

    def call(self, path: str, fields: Mapping[str, Any]) -> dict[str, Any]:
        """Asks once. `NoAnswer`: it may be done or not. `Halt`: etcd doesn't allow it."""
        host = self.hosts[self.at % len(self.hosts)]
        try:
            connection = self.connection(host)
            connection.request("POST", path, json.dumps(fields), {"Content-Type": "application/json"})
            answer = connection.getresponse()
            found: dict[str, Any] = json.loads(answer.read())
        except (OSError, http.client.HTTPException, ValueError) as error:
            self.give_up()
            raise NoAnswer(f"{host}: {error}") from error
        if answer.status in FINAL:
            raise Halt(f"etcd refuses: {found.get('error')}")
        if answer.status != 200:
            self.give_up()
            raise NoAnswer(f"{host}: {found.get('error', answer.status)}")
        return found

    def insist(self, path: str, fields: Mapping[str, Any], until: float = float("inf")) -> dict[str, Any]:
        """Asks what may be asked twice until it is answered, or this moment has come."""
        while True:
            try:
                return self.call(path, fields)
            except NoAnswer:
                if time.monotonic() > until:
                    raise
                time.sleep(AGAIN)

    def range(self, first: str, last: str | None = None, until: float = float("inf"), **fields: Any) -> list[dict[str, Any]]:
        """The pairs of a key, or from one key to before another."""
        end = {} if last is None else {"range_end": coded(last)}
        found: list[dict[str, Any]] = self.insist("/v3/kv/range", {"key": coded(first), **end, **fields}, until).get("kvs", [])
        return found

    def watch(self, first: str, last: str, ring: Callable[[], None]) -> None:
        """Rings at each change between two keys, until the connection ends."""
        connection = http.client.HTTPConnection(self.hosts[self.at % len(self.hosts)], timeout=SILENCE)
        try:
            connection.request("POST", "/v3/watch", json.dumps({"create_request": {"key": coded(first), "range_end": coded(last)}}))
            answer = connection.getresponse()
            while answer.readline():
                ring()
        except (OSError, http.client.HTTPException):
            pass
        finally:
            connection.close()


def put(key: str, value: str | bytes) -> dict[str, Any]:
    """A step of a transaction that puts a pair."""
    return {"request_put": {"key": coded(key), "value": coded(value)}}


def is_absent(key: str) -> dict[str, Any]:
    """A condition of a transaction: the key isn't there."""
    return {"key": coded(key), "target": "CREATE", "create_revision": "0"}


def is_present(key: str) -> dict[str, Any]:
    """A condition of a transaction: the key is there."""
    return {"key": coded(key), "target": "CREATE", "result": "GREATER", "create_revision": "0"}


class EtcdLog:
    """The log of a plant in etcd: a `Log` of replica_node.py."""

    def __init__(self, etcd: Etcd, plant: str) -> None:
        self.etcd, self.top = etcd, f"desk/{plant}"
        self.last = 0
        self.bell = threading.Event()

    def key(self, kind: str, number: int | None = None) -> str:
        """The key of a number, or the end of all of its kind."""
        return f"{self.top}/{kind}0" if number is None else f"{self.top}/{kind}/{number:016d}"

    # ---- its beginning and its end

    def found(self, outcome: Outcome) -> str:
        """Begins the log: all desks have this outcome before its first entry. Returns its name. `Halt`: there is a log of this plant."""
        name, key = secrets.token_hex(3).upper(), f"{self.top}/id"
        steps = [put(key, name), put(self.key("log", 0), b"[]\n"), put(self.key("out", 0), outcome.packed())]
        self.etcd.insist("/v3/kv/txn", {"compare": [is_absent(key)], "success": steps})
        if self.name() != name:
            raise Halt(f"there is a log of this plant, {self.name()}")
        return name

    def name(self) -> str:
        found = self.etcd.range(f"{self.top}/id")
        if not found:
            raise Halt("there is no log of this plant yet: it is begun once, by found")
        return decoded(found[0]["value"]).decode()

    def nodes(self) -> dict[str, int]:
        """How far each node is, by what it published."""
        found = self.etcd.range(f"{self.top}/node/", self.key("node"))
        return {decoded(it["key"]).decode().rpartition("/")[2]: int(decoded(it["value"])) for it in found}

    def drop(self, node: str) -> None:
        """Forgets a node, so that the log is cut without waiting for it."""
        self.etcd.insist("/v3/kv/deleterange", {"key": coded(f"{self.top}/node/{node}")})

    def trim(self, keep: int) -> int:
        """Cuts away what all nodes have published, but for the newest; returns the number of the first outcome that is left."""
        first = max(min(self.nodes().values(), default=0) - keep, self.bounds()[0])
        steps = [{"request_delete_range": {"key": coded(f"{self.top}/{kind}/"), "range_end": coded(self.key(kind, first))}} for kind in ("log", "out")]
        self.etcd.insist("/v3/kv/txn", {"success": steps})
        return first

    # ---- its entries

    def end(self, kind: str, order: str, until: float = float("inf")) -> int:
        """The first or the last number of a kind."""
        found = self.etcd.range(f"{self.top}/{kind}/", self.key(kind), until, limit="1", keys_only=True, sort_order=order, sort_target="KEY")
        return number_of(found[0])

    def newest(self, until: float) -> int:
        return self.end("log", "DESCEND", until)

    def read(self, number: int, count: int) -> list[tuple[int, Entry]]:
        found = self.etcd.range(self.key("log", number), self.key("log"), limit=str(count))
        return [(number_of(it), Entry.unpacked(decoded(it["value"]))) for it in found]

    def put_after(self, number: int, entries: Sequence[Entry]) -> dict[str, Any] | None:
        """Tries to put entries from this number on: it isn't there, and the one before is. None: etcd didn't answer, and it may be done yet."""
        newest = {"key": coded(f"{self.top}/log/"), "range_end": coded(self.key("log")), "limit": "1", "sort_order": "DESCEND", "sort_target": "KEY"}
        try:
            return self.etcd.call("/v3/kv/txn", {
                "compare": [is_absent(self.key("log", number)), is_present(self.key("log", number - 1))],
                "success": [put(self.key("log", number + at), it.packed()) for at, it in enumerate(entries)],
                "failure": [{"request_range": {"key": coded(self.key("log", number))}}, {"request_range": {**newest, "keys_only": True}}],
            })
        except NoAnswer:
            return None

    def append(self, entries: Sequence[Entry]) -> int:
        number, pause = self.last + 1, AGAIN / 2
        while True:
            answer = self.put_after(number, entries)
            if answer is None:  # the same number again: at another one they might come twice
                time.sleep(pause)
                pause = min(2 * pause, LONGEST)
                continue
            if answer.get("succeeded") or is_first(answer, entries[0]):
                self.last = number + len(entries) - 1
                return number
            number = number_of(answer["responses"][1]["response_range"]["kvs"][0]) + 1

    def wait(self, seconds: float) -> None:
        self.bell.wait(seconds)
        self.bell.clear()

    def ring(self) -> None:
        self.bell.set()

    def watch(self) -> None:
        """Rings whenever an entry comes; it doesn't end. What it misses is found where `wait` has waited for long enough."""
        while True:
            self.etcd.watch(f"{self.top}/log/", self.key("log"), self.ring)
            time.sleep(AGAIN)

    # ---- what came of them

    def bounds(self) -> tuple[int, int]:
        return self.end("out", "ASCEND"), self.end("out", "DESCEND")

    def outcomes(self, first: int, last: int) -> dict[int, Outcome]:
        found = self.etcd.range(self.key("out", first), self.key("out", last + 1))
        return {number_of(it): Outcome.unpacked(decoded(it["value"]).decode()) for it in found}

    def publish(self, node: str, found: Mapping[int, Outcome]) -> None:
        while True:
            known = self.outcomes(min(found), max(found))
            missing = {self.key("out", it): found[it].packed() for it in found if it not in known}
            steps = [*(put(*it) for it in missing.items()), put(f"{self.top}/node/{node}", str(max(found)))]
            answer = self.etcd.insist("/v3/kv/txn", {"compare": [is_absent(it) for it in missing], "success": steps})
            if answer.get("succeeded"):
                return

    def published(self, node: str) -> int:
        return self.nodes().get(node, 0)


def is_first(answer: Mapping[str, Any], entry: Entry) -> bool:
    """Whether an append that failed found this entry itself in its place: it was done by an earlier try."""
    there = answer["responses"][0]["response_range"].get("kvs")
    return bool(there) and Entry.unpacked(decoded(there[0]["value"])).id == entry.id
