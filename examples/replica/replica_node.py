"""One machine's share in a log of commands: a desk, the journal of what it was given, and the node that gives it the entries of the log in order.

desk_replica.py makes a `Node` of a `Log`, a `Desk` and a `Journal` and has it run; `Log` says what a log has to do, and replica_etcd.py does it over
etcd. README.md has the argument for the order of the steps here.
"""
from __future__ import annotations

import collections
import contextlib
import hashlib
import http.client
import json
import pathlib
import queue
import secrets
import sqlite3
import threading
import time
from collections.abc import Callable, Iterator, Mapping, Sequence
from typing import Any, NamedTuple, Protocol

# The routes whose requests are commands, and so entries of the log.
COMMANDS, ORDERS = "/v1/commands", "/v1/orders"

# How a reference begins that the log gives. No client's reference may.
OWN = "LOG-"

# How many entries of a batch are put into the log at once, and how many bytes: etcd takes 1.5 MB unless it is set otherwise.
MOST_AT_ONCE, MOST_BYTES = 40, 700_000

# How many entries are read ahead, and how many of the last outcomes the journal keeps.
AHEAD, KEPT = 64, 10_000

# How long an idle thread waits before it looks again, and how long something is waited for before it is tried again.
IDLE, AGAIN = 0.25, 0.05

# The greatest number of a command, after which a desk takes none.
LAST_SEQ = 10**15

# How often it is asked which entry got the desk's number, where another node may be about to say so.
PLACE_TRIES = 100


class Halt(Exception):
    """Why this node can't go on by itself."""


class Lost(Exception):
    """The desk didn't answer. What it was asked for was done or not, and won't be done any more: its end of the connection is closed."""


class NoAnswer(Exception):
    """The log didn't answer. What it was asked for may have been done, or may be yet."""


class Entry(NamedTuple):
    """A command of the log: its id, which is unlike all others; its route; the fields Desk-At, Desk-By and Desk-Ref that it came with; its bytes.

    The desk gets each under a reference, the client's or one that is made of the id. So an entry that is sent again acts once.
    """

    id: str
    path: str
    head: Mapping[str, str]
    body: bytes

    def packed(self) -> bytes:
        """The entry as bytes: a line of JSON, and the body."""
        return json.dumps([self.id, self.path, dict(self.head)]).encode() + b"\n" + self.body

    @staticmethod
    def unpacked(packed: bytes) -> Entry:
        """The entry of these bytes."""
        line, _, body = packed.partition(b"\n")
        known, path, head = json.loads(line)
        return Entry(known, path, head, body)

    def own(self) -> str:
        """The reference that the log gives."""
        return OWN + self.id

    def given(self) -> str:
        """The reference that counts unless the body has its own: that of the head, or the log's."""
        return self.head.get("Desk-Ref", self.own())

    def reference(self) -> str:
        """The reference under which the desk gets it."""
        found = None if self.path == ORDERS else (members_of(self.body) or {}).get("ref")
        return found if isinstance(found, str) else self.given()

    def request(self) -> tuple[bytes, dict[str, str]]:
        """The body and the fields that the desk gets. No byte of the client's is changed: of equal keys the desk takes the last, so the client's
        own reference counts where there is one."""
        if self.path == ORDERS:
            return self.body, {**self.head, "Desk-Ref": self.given()}
        at = self.body.index(b"{") + 1
        rest = self.body[at:]
        comma = b"" if rest.lstrip().startswith(b"}") else b","
        return self.body[:at] + f'"ref":"{self.given()}"'.encode() + comma + rest, {}


def members_of(body: bytes) -> dict[str, Any] | None:
    """The members of a command, none where it isn't an object of JSON."""
    try:
        found = json.loads(body.decode())
    except (ValueError, RecursionError):
        return None
    return found if isinstance(found, dict) else None


class Reply(NamedTuple):
    """What a desk answers: the status, the fields of its head, and the body."""

    status: int
    head: Sequence[tuple[str, str]]
    body: bytes

    def digest(self) -> str:
        """What nodes compare of it."""
        return hashlib.sha256(b"%d " % self.status + self.body).hexdigest()[:16]


class Outcome(NamedTuple):
    """What came of an entry: the desk's seq after it, the reference of the command with that number, - where it has none, and the reply's digest."""

    seq: int
    last: str
    digest: str

    def packed(self) -> str:
        return f"{self.seq} {self.last} {self.digest}"

    @staticmethod
    def unpacked(text: str) -> Outcome:
        seq, last, digest = text.split()
        return Outcome(int(seq), last, digest)


class Log(Protocol):
    """A log of entries that are numbered from 1, and of their outcomes. Entry 0 is none: its outcome is what all desks begin with."""

    def name(self) -> str:
        """Which log it is: six characters that no other log of these desks has."""

    def append(self, entries: Sequence[Entry]) -> int:
        """Puts entries after the last one, each once, and returns the number of the first. It goes on until that is certain."""

    def read(self, number: int, count: int) -> list[tuple[int, Entry]]:
        """The entries from this number on that are there now, so many at most. Those that were cut away are passed over."""

    def newest(self, until: float) -> int:
        """The number of the last entry that is there now. `NoAnswer`: it wasn't found before this moment."""

    def wait(self, seconds: float) -> None:
        """Waits until an entry may have come, or so long."""

    def ring(self) -> None:
        """Ends such a wait, or the next one."""

    def outcomes(self, first: int, last: int) -> dict[int, Outcome]:
        """The outcomes that nodes published, between these numbers."""

    def bounds(self) -> tuple[int, int]:
        """The numbers of the first and the last published outcome."""

    def publish(self, node: str, found: Mapping[int, Outcome]) -> None:
        """Adds outcomes where none is published yet, and notes how far the node is."""

    def published(self, node: str) -> int:
        """How far this node is, by what it published; 0 where it is new."""


class Journal:
    """What the desk of this machine was given, in a file of SQLite: each entry's outcome is on disk before the next one is sent."""

    def __init__(self, path: pathlib.Path) -> None:
        self.store = sqlite3.connect(path, timeout=0, isolation_level=None, check_same_thread=False)
        try:
            self.store.execute("PRAGMA locking_mode = EXCLUSIVE")
            self.store.execute("PRAGMA journal_mode = WAL")
            self.store.execute("PRAGMA synchronous = FULL")
            self.store.execute("CREATE TABLE IF NOT EXISTS outcome (log TEXT, number INTEGER PRIMARY KEY, seq INTEGER, last TEXT, digest TEXT)")
        except sqlite3.OperationalError as error:
            raise Halt(f"{path}: {error}: does another gateway use this journal?") from error

    def log(self) -> str | None:
        """Of which log it is, none where it is empty."""
        found = self.store.execute("SELECT log FROM outcome LIMIT 1").fetchone()
        return found[0] if found else None

    def last(self) -> tuple[int, Outcome] | None:
        """The last entry that the desk was given, with its outcome."""
        found = self.store.execute("SELECT number, seq, last, digest FROM outcome ORDER BY number DESC LIMIT 1").fetchone()
        return (found[0], Outcome(*found[1:])) if found else None

    def after(self, number: int) -> list[tuple[int, Outcome]]:
        """The entries after this one, with their outcomes."""
        found = self.store.execute("SELECT number, seq, last, digest FROM outcome WHERE number > ? ORDER BY number", (number,)).fetchall()
        return [(it[0], Outcome(*it[1:])) for it in found]

    def of_seq(self, seq: int) -> tuple[int, Outcome] | None:
        """The first entry that is known here after which the desk had this seq."""
        found = self.store.execute("SELECT number, seq, last, digest FROM outcome WHERE seq = ? ORDER BY number LIMIT 1", (seq,)).fetchone()
        return (found[0], Outcome(*found[1:])) if found else None

    def add(self, log: str, number: int, outcome: Outcome) -> None:
        """Adds the next entry, and takes an old one away."""
        self.store.execute("BEGIN")
        self.store.execute("INSERT INTO outcome VALUES (?, ?, ?, ?, ?)", (log, number, *outcome))
        self.store.execute("DELETE FROM outcome WHERE number <= ?", (number - KEPT,))
        self.store.execute("COMMIT")

    def move(self, log: str, number: int, outcome: Outcome) -> None:
        """Makes this entry the last one."""
        self.store.execute("BEGIN")
        self.store.execute("DELETE FROM outcome WHERE number >= ?", (number,))
        self.store.execute("INSERT INTO outcome VALUES (?, ?, ?, ?, ?)", (log, number, *outcome))
        self.store.execute("COMMIT")

    def close(self) -> None:
        self.store.close()


class Desk:
    """The desk of this machine, which serves a port of 127.0.0.1.

    A request waits until the desk answers or ends the connection, however long that takes: so none is executed once it counts as lost.
    """

    # The states of a connection in /proc/net/tcp in which the desk may still execute its request.
    UNANSWERED = ("01", "03", "08")

    def __init__(self, port: int) -> None:
        self.port = port

    def ask(self, method: str, path: str, body: bytes | None = None, head: Mapping[str, str] | None = None) -> Reply:
        """Asks the desk once. `Lost`: there is no answer."""
        connection = http.client.HTTPConnection("127.0.0.1", self.port)
        try:
            connection.putrequest(method, path, skip_host="host" in map(str.lower, head or {}), skip_accept_encoding=True)
            for name, value in (head or {}).items():
                connection.putheader(name, value)
            if body is not None:
                connection.putheader("Content-Length", str(len(body)))
            connection.endheaders(body)
            answer = connection.getresponse()
            return Reply(answer.status, answer.getheaders(), answer.read())
        except (OSError, http.client.HTTPException) as error:
            raise Lost(str(error)) from error
        finally:
            connection.close()

    def insist(self, path: str) -> bytes:
        """Asks a question until it is answered."""
        while True:
            with contextlib.suppress(Lost):
                reply = self.ask("GET", path)
                if reply.status == 200:
                    return reply.body
            time.sleep(AGAIN)

    def seq(self) -> int:
        """The number of the desk's last command."""
        found: int = json.loads(self.insist("/v1/desk"))["seq"]
        return found

    def last(self, seq: int) -> str:
        """The reference of the command with this number, - where it has none."""
        if seq == 0:
            return "-"
        found = json.loads(self.insist(f"/v1/lists/commands/{seq - 1}" if seq > 1 else "/v1/lists/commands"))["commands"]
        return str(found[0]["ref"]) if found and found[0]["seq"] == seq else "-"

    def unanswered(self) -> set[str]:
        """The connections to the desk whose requests it may still execute, by their other ends."""
        lines = [line.split() for line in pathlib.Path("/proc/net/tcp").read_text().splitlines()[1:]]
        return {it[2] for it in lines if it[1] == f"0100007F:{self.port:04X}" and it[3] in self.UNANSWERED}

    def settle(self) -> None:
        """Waits until the desk has answered or dropped each request that is there now. A gateway that was killed may have left one, and the
        desk, which reads its connections side by side, might execute it after what is sent now."""
        for _ in range(2):
            found = self.unanswered()
            while found & self.unanswered():
                time.sleep(AGAIN / 10)

    def checked(self, head: Mapping[str, str]) -> Reply:
        """What the desk answers to a check of a command that is far ahead of the machine's clock."""
        body = b'{"at":253402300799,"by":"","do":"add_class","class":"A","name":""}'
        while True:
            with contextlib.suppress(Lost):
                reply = self.ask("POST", "/v1/check", body, head)
                if reply.status != 503:
                    return reply
            time.sleep(AGAIN)

    def check_terms(self) -> None:
        """Sees that the desk refuses nothing by the machine's clock or the head of a request, since desks would then part, but by its number."""
        reply = self.checked({})
        if reply.status != 200:
            raise Halt(f"the desk answers a check with {reply.body.decode(errors='replace')}: serve it with --ahead 0 and no --operator-field")
        reply = self.checked({"Desk-Seq": str(LAST_SEQ)})
        if reply.status != 412:
            raise Halt(f"the desk answers a check at number {LAST_SEQ} with {reply.status}: its version doesn't know Desk-Seq")

    def give(self, entry: Entry, seq: int) -> Reply | None:
        """Gives the desk an entry once, to be done at this number alone; none where the desk has another, or it is open whether it took the entry."""
        body, head = entry.request()
        try:
            reply = self.ask("POST", entry.path, body, {**head, "Desk-Seq": str(seq)})
        except Lost:
            return None
        if reply.status in (412, 503):
            return None
        if not is_decided(entry, reply):
            raise Halt(f"the desk answers entry {entry.id} with {reply.status} {reply.body.decode(errors='replace')}, which isn't of its records alone")
        return reply


def is_decided(entry: Entry, reply: Reply) -> bool:
    """Whether an answer depends on the entry and the desk's records alone, so that all desks give it."""
    if reply.status == 400:
        told = json.loads(reply.body)
        return "refused" in told or "csv" in told or (entry.path == ORDERS and told == {"status": 400})
    return reply.status in (200, 409)


class Sent(NamedTuple):
    """What a client waits for: its entry, and where the reply to it is put."""

    entry: Entry
    reply: queue.SimpleQueue[Reply]


class Node:
    """Appends what clients send to the log, and gives the log's entries to the desk, one at a time and in their order."""

    def __init__(self, name: str, log: Log, desk: Desk, journal: Journal, say: Callable[[str], None]) -> None:
        self.name, self.log, self.desk, self.journal, self.say = name, log, desk, journal, say
        self.boot, self.count = secrets.token_hex(5).upper(), 0
        self.log_name = log.name()
        self.index, self.at = 0, Outcome(0, "-", "-")
        self.is_ready, self.is_stopped = False, False
        self.changed = threading.Condition()
        self.entries: dict[int, Entry] = {}
        self.sent: dict[str, Sent] = {}
        self.queue: queue.SimpleQueue[Sent] = queue.SimpleQueue()
        self.unpublished: collections.deque[tuple[int, Outcome]] = collections.deque()
        self.halted: str | None = None
        self.threads: list[threading.Thread] = []

    # ---- its threads

    def start(self) -> None:
        """Finds out what the desk and the journal have, and has the threads run. `Halt`: they are of another log, or the desk can't be used."""
        self.desk.settle()
        self.desk.check_terms()
        known = self.journal.log()
        if known not in (None, self.log_name):
            raise Halt(f"the journal is of log {known}, and this is log {self.log_name}: remove it, and put a backup from this log in the desk's place")
        last = self.journal.last()
        if last and last[0] >= self.log.bounds()[0]:
            self.index, self.at = last
            self.unpublished.extend(it for it in self.journal.after(self.log.published(self.name)) if it[1].digest != "-")
        else:
            self.move(self.desk.seq())
        for work in (self.append_some, self.apply_next, self.publish_some):
            self.threads.append(threading.Thread(target=self.repeat, args=(work,), daemon=True))
        for it in self.threads:
            it.start()

    def repeat(self, work: Callable[[], None]) -> None:
        """Does this again and again, until the node is stopped or can't go on."""
        try:
            while not self.is_stopped:
                work()
        except Halt as halt:
            self.halt(str(halt))
        except Exception as error:  # a thread that ended by itself would leave the others without it
            self.halt(f"{type(error).__name__}: {error}")
            raise

    def halt(self, why: str) -> None:
        """Says why the node doesn't go on, once."""
        self.is_stopped = True
        if self.halted is None:
            self.halted = why
            self.say(f"halted: {why}")

    def stop(self) -> None:
        """Stops the threads after what they are at, and closes the journal."""
        self.is_stopped = True
        for it in self.threads:
            it.join()
        self.journal.close()

    # ---- from clients to the log

    def replicate(self, path: str, head: Mapping[str, str], body: bytes, seconds: float) -> Reply | None:
        """Puts a command into the log, and returns what this desk answered to it; none where that took longer: it may then be in the log."""
        with self.changed:
            self.count += 1
            entry = Entry(f"{self.boot}-{self.count}", path, head, body)
            sent = self.sent[entry.id] = Sent(entry, queue.SimpleQueue())
        self.queue.put(sent)
        try:
            return sent.reply.get(timeout=seconds)
        except queue.Empty:
            return None
        finally:
            with self.changed:
                del self.sent[entry.id]

    def batch(self) -> Iterator[Entry]:
        """What waits to be put into the log, as much as is put at once."""
        left = MOST_BYTES
        with contextlib.suppress(queue.Empty):
            for number in range(MOST_AT_ONCE):
                entry = self.queue.get(timeout=0 if number else IDLE).entry
                yield entry
                left -= len(entry.body)
                if left < MOST_BYTES // 2:
                    return

    def append_some(self) -> None:
        """Puts what waits into the log."""
        entries = list(self.batch())
        if entries:
            first = self.log.append(entries)
            with self.changed:
                self.entries.update((first + at, it) for at, it in enumerate(entries) if first + at > self.index)
            self.log.ring()

    # ---- from the log to the desk

    def apply_next(self) -> None:
        """Gives the desk its next entry, where one is there and the desk is where it is supposed to be, and is so still as it takes the entry."""
        entry = self.next_entry()
        if entry is None and self.is_ready:
            return
        seq = self.desk.seq()
        if self.is_in_place(entry, seq) and entry is not None:
            reply = self.desk.give(entry, seq)
            if reply is None:
                time.sleep(AGAIN)  # the desk is asked for its seq before the entry is sent again
            else:
                self.note(entry, reply)

    def next_entry(self) -> Entry | None:
        """The entry after the last one that the desk was given, none where it isn't there after a while."""
        number = self.index + 1
        if number not in self.entries:
            self.read_ahead(number)
        if number not in self.entries:
            self.log.wait(IDLE)
        return self.entries.get(number)

    def read_ahead(self, number: int) -> None:
        """Reads entries from this number on."""
        found = self.log.read(number, AHEAD)
        if found and found[0][0] != number:
            raise Halt(f"entry {number} was cut away, and the log begins with {found[0][0]}: put a newer backup in the desk's place")
        with self.changed:
            self.entries.update(found)

    def is_in_place(self, entry: Entry | None, seq: int) -> bool:
        """Whether the desk of this seq has what it had after the last entry, or this next one besides; else its place in the log is found anew."""
        if seq == self.at.seq:
            self.is_ready = True
            return True
        if entry is not None and seq == self.at.seq + 1 and self.desk.last(seq) == entry.reference():
            self.is_ready = True
            return True
        self.move(seq)
        return False

    def note(self, entry: Entry, reply: Reply) -> None:
        """Notes what came of an entry, first on disk, and answers the client that waits for it."""
        number, outcome = self.index + 1, self.outcome(entry, reply)
        self.journal.add(self.log_name, number, outcome)
        with self.changed:
            self.index, self.at = number, outcome
            self.entries.pop(number, None)
            self.unpublished.append((number, outcome))
            sent = self.sent.get(entry.id)
            if sent:
                sent.reply.put(reply)
            self.changed.notify_all()

    def outcome(self, entry: Entry, reply: Reply) -> Outcome:
        """What came of the next entry. `Halt`: something else booked at the desk, or the desk was put back just now."""
        seq = self.at.seq
        if reply.status != 200:
            return Outcome(seq, self.at.last, reply.digest())
        got: int = json.loads(reply.body)["ok"]
        if got == seq + 1:
            return Outcome(got, entry.reference(), reply.digest())
        if got > seq + 1:
            raise Halt(f"entry {self.index + 1} got the number {got} where {seq + 1} was next: something else books at this desk")
        if self.desk.seq() != seq:
            raise Halt(f"entry {self.index + 1} got the number {got} at a desk that was put back meanwhile")
        return Outcome(seq, self.at.last, reply.digest())

    # ---- where a desk is in the log

    def move(self, seq: int) -> None:
        """Finds the place of a desk that was put back, or is new here, by its seq, and goes on from there."""
        number, outcome = self.place(seq)
        if self.desk.last(seq) != outcome.last:
            raise Halt(f"the desk's command {seq} isn't that of entry {number}: something else books at this desk, or it is of another log")
        self.say(f"the desk has seq {seq}, and goes on after entry {number}")
        self.journal.move(self.log_name, number, outcome)
        with self.changed:
            self.index, self.at = number, outcome
            self.entries.clear()

    def place(self, seq: int) -> tuple[int, Outcome]:
        """An entry after which desks have this seq: what was refused there will be refused again, since the desk has the same records."""
        found = self.journal.of_seq(seq) or self.published_place(seq)
        for _ in range(PLACE_TRIES):
            if found or self.is_stopped:
                break
            time.sleep(2 * AGAIN)  # another node may be about to publish it
            found = self.published_place(seq)
        if not found:
            raise Halt(f"no node knows which entry got the desk's seq {seq}: this desk is of another log, or ahead of all that was published")
        return found

    def published_place(self, seq: int) -> tuple[int, Outcome] | None:
        """The first entry after which desks have this seq, by what nodes published; none where no node published it yet."""
        low, high = self.log.bounds()
        ends = {**self.log.outcomes(low, low), **self.log.outcomes(high, high)}
        if seq < ends[low].seq:
            raise Halt(f"the log begins after seq {ends[low].seq}, and the desk has {seq}: put a newer backup in its place")
        if seq > ends[high].seq:
            return None
        while low < high:
            middle = (low + high) // 2
            found = self.log.outcomes(middle, middle)
            if not found:
                raise Halt(f"entry {middle} has no published outcome")
            low, high = (low, middle) if found[middle].seq >= seq else (middle + 1, high)
        return low, self.log.outcomes(low, low)[low]

    # ---- what nodes say of each other

    def publish_some(self) -> None:
        """Publishes outcomes, and compares them with what other nodes published."""
        with self.changed:
            if not self.unpublished:
                self.changed.wait(IDLE)
            found = dict(self.unpublished.popleft() for _ in range(min(len(self.unpublished), MOST_AT_ONCE)))
        if found:
            self.log.publish(self.name, found)
            for number, outcome in self.log.outcomes(min(found), max(found)).items():
                if number in found and outcome != found[number]:
                    raise Halt(f"entry {number} came to {found[number].packed()} at this desk, and to {outcome.packed()} at another")
            time.sleep(AGAIN)

    def freshen(self, seconds: float) -> bool:
        """Waits until the desk was given each entry that is in the log now; says whether that came about in time."""
        until = time.monotonic() + seconds
        newest = self.log.newest(until)
        with self.changed:
            return self.changed.wait_for(lambda: self.index >= newest, max(until - time.monotonic(), 0))
