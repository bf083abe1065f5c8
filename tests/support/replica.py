"""Desks on several machines: a log in memory that is asked as etcd is, machines whose nodes are threads of the test, and clusters of processes."""
from __future__ import annotations

import collections
import contextlib
import http.client
import json
import os
import pathlib
import random
import shutil
import signal
import socket
import subprocess
import sys
import threading
import time
from collections.abc import Callable, Iterator, Mapping, Sequence
from typing import Any, NamedTuple

from tests.support.http import Server, got
from tests.support.program import SECONDS, TOP, Program

SCRIPT = TOP / "examples/replica/desk_replica.py"
sys.path.insert(0, str(SCRIPT.parent))

from replica_etcd import Etcd, EtcdLog, coded, decoded  # noqa: E402  (its folder is on the path now)
from replica_node import Desk, Entry, Halt, Journal, Lost, NoAnswer, Node, Outcome, Reply  # noqa: E402

# The moment of all commands, the plant of the logs, and how many connections a desk serves.
AT, PLANT, CONNECTIONS = 1000, "plant", 1_000_000

# The most bytes that etcd takes at once.
LARGEST = 3 * 2**19

# The ports of machines in a test, and of clusters. A port is free while its program is begun again, so no server of another test may take these.
MACHINE_PORTS, CLUSTER_PORTS = range(15_000, 20_000), range(10_000, 15_000)

# The statuses after which a client sends its command again.
NOT_ANSWERED = (None, 502, 503)

# How many clients send commands at once, and how many of a hundred of these have no reference, ask a question besides, or are sent a second time.
CLIENTS, WITHOUT, QUESTIONS, TWICE = 6, 10, 8, 5

# How many commands are answered between one kill and the next at most.
MOST_BETWEEN = 12


class FakeEtcd(Etcd):
    """Pairs in memory, asked as etcd is. Where chance is given, one transaction of eight is done and not answered, one of eight is done only once
    others were, and not answered either, and one of eight is never done."""

    def __init__(self, chance: random.Random | None = None) -> None:
        super().__init__(["http://memory:1"])
        self.pairs: dict[bytes, tuple[bytes, int]] = {}
        self.revision, self.lock, self.chance = 0, threading.Lock(), chance
        self.late: list[Mapping[str, Any]] = []

    def call(self, path: str, fields: Mapping[str, Any]) -> dict[str, Any]:
        with self.lock:
            if self.late and self.chance and self.chance.random() < 0.3:
                self.transact(self.late.pop(0))
            if path == "/v3/kv/txn":
                return self.transact_or_lose(fields)
            return self.step({"request_range" if path.endswith("range") and "delete" not in path else "request_delete_range": fields})

    def transact_or_lose(self, fields: Mapping[str, Any]) -> dict[str, Any]:
        """Does a transaction, or some of that. What is larger than etcd takes is refused."""
        if sum(len(decoded(it["request_put"]["value"])) for it in fields.get("success", []) if "request_put" in it) > LARGEST:
            raise Halt("request is too large")
        kind = self.chance.randrange(8) if self.chance else 3
        if kind == 0:
            self.late.append(fields)
        done = self.transact(fields) if kind > 1 else None
        if done is None or kind == 2:
            raise NoAnswer("lost")
        return done

    def transact(self, fields: Mapping[str, Any]) -> dict[str, Any]:
        """Does a transaction."""
        holds = all((decoded(it["key"]) in self.pairs) == ("result" in it) for it in fields.get("compare", []))
        self.revision += 1
        steps = [self.step(it) for it in fields.get("success" if holds else "failure", [])]
        return {"succeeded": holds, "responses": [{"response_range": it} for it in steps]}

    def step(self, step: Mapping[str, Any]) -> dict[str, Any]:
        """Does a step."""
        [(kind, fields)] = step.items()
        first = decoded(fields["key"])
        if kind == "request_put":
            self.pairs[first] = decoded(fields["value"]), self.revision
            return {}
        last = decoded(fields["range_end"]) if "range_end" in fields else first + b"\0"
        keys = sorted((it for it in self.pairs if first <= it < last), reverse=fields.get("sort_order") == "DESCEND")
        if kind == "request_delete_range":
            for it in keys:
                del self.pairs[it]
            return {}
        return {"kvs": [{"key": coded(it), "value": coded(self.pairs[it][0])} for it in keys[:int(fields.get("limit", "0")) or None]]}


class LossyDesk(Desk):
    """A desk of whose commands one in eight is not sent, and one in eight is executed and not answered."""

    def __init__(self, port: int, chance: random.Random) -> None:
        super().__init__(port)
        self.chance = chance

    def ask(self, method: str, path: str, body: bytes | None = None, head: Mapping[str, str] | None = None) -> Reply:
        kind = self.chance.randrange(8) if path == "/v1/commands" else 2
        if kind == 0:
            raise Lost("before")
        reply = super().ask(method, path, body, head)
        if kind == 1:
            raise Lost("after")
        return reply


class Machine:
    """A desk that is served, and a node next to it that is a thread of the test."""

    def __init__(self, desk: Program, folder: pathlib.Path, name: str, etcd: Etcd) -> None:
        self.program, self.folder, self.name, self.etcd = desk, folder, name, etcd
        self.file, self.journal, self.port = folder / f"{name}.db", folder / f"{name}.journal", port_among(MACHINE_PORTS)
        self.said: list[str] = []
        self.server: Server | None = None
        self.node: Node | None = None
        self.chance: random.Random | None = None

    def start_desk(self) -> None:
        """Serves the desk."""
        self.server = Server(self.program, self.file, CONNECTIONS, port=self.port)

    def kill_desk(self) -> None:
        """Kills the desk."""
        if self.server:
            self.server.process.kill()
            self.server.end()
            self.server = None

    def start_node(self) -> Node:
        """Starts the node."""
        desk = LossyDesk(self.port, self.chance) if self.chance else Desk(self.port)
        journal = Journal(self.journal)
        try:
            self.node = Node(self.name, EtcdLog(self.etcd, PLANT), desk, journal, self.said.append)
            self.node.start()
        except Halt:
            self.node = None
            journal.close()
            raise
        return self.node

    def stop_node(self) -> None:
        """Stops the node, as a kill between two steps would."""
        if self.node:
            self.node.stop()
            self.node = None

    def start(self) -> None:
        self.start_desk()
        self.start_node()

    def stop(self) -> None:
        self.stop_node()
        self.kill_desk()

    def digest(self) -> tuple[str, int]:
        """Returns the digest of the desk, which is served, and of how many commands it is."""
        assert self.server
        said = json.loads(self.server.answered(got("/v1/health")).partition(b"\r\n\r\n")[2])
        return said["digest"], said["digested"]

    def put_back(self, copy: pathlib.Path) -> None:
        """Puts a copy in the place of a desk that isn't served."""
        pathlib.Path(f"{self.file}-wal").unlink(missing_ok=True)
        shutil.copyfile(copy, self.file)

    def copy(self, to: pathlib.Path) -> pathlib.Path:
        """Copies the desk while none is served, with all that is in its log."""
        self.program.run("verify", self.file)
        shutil.copyfile(self.file, to)
        return to

    def book(self, do: str, **members: Any) -> tuple[int, dict[str, Any]]:
        """Has the node replicate a command; returns the status and the body."""
        assert self.node
        reply = self.node.replicate("/v1/commands", {}, command(do, **members), SECONDS)
        assert reply, self.said
        return reply.status, json.loads(reply.body)

    def wait_for(self, condition: Callable[[Node], bool]) -> None:
        """Waits until this holds of the node."""
        last = time.monotonic() + SECONDS
        assert self.node
        while not condition(self.node):
            if time.monotonic() > last or (self.node.halted and not condition(self.node)):
                raise AssertionError(f"{self.name}: {self.said}")
            time.sleep(0.01)


def port_among(ports: range) -> int:
    """A port of these that is free at this moment."""
    while True:
        port = random.choice(ports)
        with socket.socket() as it, contextlib.suppress(OSError):
            it.bind(("127.0.0.1", port))
            return port


def command(do: str, **members: Any) -> bytes:
    """A command as a client sends it."""
    return json.dumps({"at": AT, "by": "anna", "do": do, **{it.rstrip("_"): value for it, value in members.items()}}).encode()


class Answered(NamedTuple):
    """A command and its answer; no status where the client got none."""

    body: bytes
    reference: str | None
    status: int | None
    told: bytes


class Asked(NamedTuple):
    """What a port is asked: by all roads the same."""

    port: int

    def ask(self, method: str, path: str, body: bytes | None = None, head: Mapping[str, str] | None = None) -> tuple[int | None, bytes]:
        """The status and the body of an answer, no status where there is none."""
        connection = http.client.HTTPConnection("127.0.0.1", self.port, timeout=90)
        try:
            connection.request(method, path, body, dict(head or {}))
            answer = connection.getresponse()
            return answer.status, answer.read()
        except (OSError, http.client.HTTPException):
            return None, b""
        finally:
            connection.close()


def commands(chance: random.Random, count: int) -> list[bytes]:
    """Commands, of which many are refused, and whose references are used a second time now and then, with the same content or another."""
    known: list[tuple[str, bytes]] = []
    made = [command("add_class", class_="RAW", name="", ref="REF-C"), command("add_definition", def_="FLOUR", class_="RAW", name="", unit="kg", ref="REF-D")]
    for number in range(count - len(made)):
        body = random_command(chance, number)
        kind = chance.randrange(100)
        if kind >= WITHOUT:
            reference = f"REF-{number}"
            if known and kind < WITHOUT + TWICE:
                reference, body = known[chance.randrange(len(known))]
                body = body if chance.random() < 0.7 else random_command(chance, number)
            known.append((reference, body))
            body = body[:-1] + b', "ref": "%s"}' % reference.encode()
        made.append(body)
    return made


def random_command(chance: random.Random, number: int) -> bytes:
    """A command about one of some lots."""
    lot = f"L-{chance.randrange(number // 4 + 2)}"
    made: list[tuple[int, Callable[[], bytes]]] = [
        (35, lambda: command("receive", lot=chance.choice([f"L-{number // 4}", lot]), def_="FLOUR", amount=chance.randrange(50, 500), place="A1")),
        (35, lambda: command("scrap", lot=lot, sub=0, amount=chance.randrange(1, 200))),
        (12, lambda: command("split", lot=lot, sub=0, amount=chance.randrange(1, 50), new=chance.choice([f"N-{number}", "N-1"]), place="B")),
        (8, lambda: command(chance.choice(["hold", "unhold"]), lot=lot, hold="H-1")),
        (6, lambda: command("recall", recall=f"RC-{chance.randrange(5)}", lot=lot)),
        (4, lambda: command("add_class", class_=f"C-{chance.randrange(40)}", name="")),
    ]
    return chance.choices([it for _, it in made], [it for it, _ in made])[0]()


def reference_of(body: bytes) -> str | None:
    """The reference of a command."""
    found: str | None = json.loads(body).get("ref")
    return found


def send_all(ports: Sequence[int], bodies: Sequence[bytes], chance: random.Random, until: float, answered: list[Answered]) -> None:
    """Has clients send commands to ports that are chosen by chance, those with references until they are answered, and ask between them. None is
    begun after a moment. `answered` gets the answers."""
    left, lock = iter(bodies), threading.Lock()

    def choose() -> tuple[int, bool, Mapping[str, str]]:
        with lock:
            fresh = {"Desk-Fresh": "yes"} if chance.random() < 0.5 else {}
            return chance.choice(ports), chance.randrange(100) < QUESTIONS, fresh

    def client() -> None:
        while True:
            with lock:
                body = next(left, None)
            if body is None or time.monotonic() > until:
                return
            port, asks, fresh = choose()
            if asks:
                Asked(port).ask("GET", "/v1/desk", None, fresh)
            reference, status, told = reference_of(body), None, b""
            while status in NOT_ANSWERED:
                status, told = Asked(choose()[0]).ask("POST", "/v1/commands", body)
                if reference is None:
                    break
                time.sleep(0.05 if status in NOT_ANSWERED else 0)
            with lock:
                answered.append(Answered(body, reference, None if status in NOT_ANSWERED else status, told))

    threads = [threading.Thread(target=client) for _ in range(CLIENTS)]
    for it in threads:
        it.start()
    for it in threads:
        it.join()


class Part:
    """A process that is begun again whenever it ends, but where it says by status 5 that it can't go on."""

    def __init__(self, words: Sequence[str | pathlib.Path], output: pathlib.Path, pauses: random.Random) -> None:
        self.words, self.output, self.pauses = [str(it) for it in words], output, pauses
        self.is_wanted, self.kills, self.has_halted = True, 0, False
        self.lock = threading.Lock()
        self.process = self.begun()
        self.thread = threading.Thread(target=self.keep)
        self.thread.start()

    def begun(self) -> subprocess.Popen[bytes]:
        """Begins the process."""
        with self.output.open("ab") as out:
            return subprocess.Popen(self.words, stdin=subprocess.DEVNULL, stdout=out, stderr=out)

    def keep(self) -> None:
        """Begins the process again after a pause."""
        while True:
            self.has_halted = self.process.wait() == 5
            if self.is_wanted:
                time.sleep(self.pauses.choice([0.02, 0.1, 0.3]))
            with self.lock:
                if not self.is_wanted or self.has_halted:
                    return
                self.process = self.begun()

    def kill(self) -> None:
        """Kills the process; it is begun again."""
        with self.lock:
            if self.process.poll() is None:
                os.kill(self.process.pid, signal.SIGKILL)
                self.kills += 1

    def end(self) -> None:
        """Kills the process for good."""
        with self.lock:
            self.is_wanted = False
            self.process.kill()
        self.thread.join()


class Members:
    """Three members of etcd."""

    def __init__(self, folder: pathlib.Path, pauses: random.Random) -> None:
        clients, peers = ([f"http://127.0.0.1:{port_among(CLUSTER_PORTS)}" for _ in range(3)] for _ in range(2))
        all_peers = ",".join(f"e{it}={peers[it]}" for it in range(3))
        self.addresses = clients
        self.parts = [Part(
            ["etcd", "--name", f"e{it}", "--data-dir", folder / f"e{it}", "--listen-client-urls", clients[it], "--advertise-client-urls", clients[it],
             "--listen-peer-urls", peers[it], "--initial-advertise-peer-urls", peers[it], "--initial-cluster", all_peers, "--logger", "zap"],
            folder / f"e{it}.log", pauses) for it in range(3)]

    def are_healthy(self) -> bool:
        """Whether all members are there, and have a leader."""
        ports = [int(it.rpartition(":")[2]) for it in self.addresses]
        return all(b'"true"' in Asked(it).ask("GET", "/health")[1] for it in ports)

    def wait(self) -> None:
        """Waits until all are there."""
        last = time.monotonic() + SECONDS
        while not self.are_healthy():
            if time.monotonic() > last:
                raise AssertionError("etcd has no leader")
            time.sleep(0.1)

    def end(self) -> None:
        for it in self.parts:
            it.end()


class Cluster:
    """Three desks that are served, with a gateway each, over members of etcd."""

    def __init__(self, desk: pathlib.Path, folder: pathlib.Path, members: Members, plant: str, pauses: random.Random) -> None:
        self.members, self.plant, self.folder = members, plant, folder
        self.log = EtcdLog(Etcd(members.addresses), plant)
        self.log.found(Outcome(0, "-", "-"))
        self.files = [folder / f"plant{it}.db" for it in range(3)]
        self.desk_ports, self.ports = ([port_among(CLUSTER_PORTS) for _ in range(3)] for _ in range(2))
        self.desks = [Part([desk, "serve", self.files[it], str(self.desk_ports[it]), str(CONNECTIONS)], folder / "desks.log", pauses) for it in range(3)]
        self.gateways = [Part(self.gateway_words(it), folder / f"gateway{it}.log", pauses) for it in range(3)]

    def gateway_words(self, number: int) -> list[str]:
        """How a gateway is called: its own machine's member of etcd comes first."""
        addresses = self.members.addresses[number:] + self.members.addresses[:number]
        return [
            sys.executable, str(SCRIPT), "serve", f"n{number}", "--plant", self.plant, *(word for it in addresses for word in ("--etcd", it)),
            "--desk", str(self.desk_ports[number]), "--port", str(self.ports[number]), "--journal", str(self.folder / f"journal{number}")]

    def said(self) -> str:
        """What the gateways said."""
        return "".join(it.read_text(errors="replace") for it in sorted(self.folder.glob("gateway*.log")))

    def states(self) -> list[dict[str, Any]]:
        """How far the nodes are."""
        told = [Asked(it).ask("GET", "/replica") for it in self.ports]
        return [json.loads(body) if status == 200 else {} for status, body in told]

    def wait_level(self, seconds: float = 120) -> int:
        """Waits until each node has all entries of the log, and returns how many these are."""
        last = time.monotonic() + seconds
        while True:
            newest, states = self.log.newest(float("inf")), self.states()
            if all(it.get("index") == newest for it in states):
                return newest
            if time.monotonic() > last or any(it.has_halted for it in self.gateways):
                raise AssertionError(f"{newest} entries, {states}: {self.said()[-2000:]}")
            time.sleep(0.05)

    def entries(self, count: int) -> list[Entry]:
        """The first entries of the log."""
        found: list[Entry] = []
        while len(found) < count:
            found += [it for _, it in self.log.read(len(found) + 1, 100)]
        return found[:count]

    def disturb(self, chance: random.Random, until: threading.Event, answered: Sequence[Answered]) -> None:
        """Kills a desk, a gateway or a member of etcd each time that some more commands were answered, so that a slow machine gets on too; a
        member only while all are there."""
        while not until.is_set():
            mark, pause = len(answered) + chance.randrange(MOST_BETWEEN), chance.uniform(0, 0.05)
            while len(answered) < mark and not until.wait(0.005):
                pass
            time.sleep(pause)
            kind = chance.choice(["desk", "desk", "gateway", "gateway", "member"])
            if kind != "member" or self.members.are_healthy():
                chance.choice({"desk": self.desks, "gateway": self.gateways, "member": self.members.parts}[kind]).kill()

    @contextlib.contextmanager
    def disturbed(self, chance: random.Random, answered: Sequence[Answered]) -> Iterator[None]:
        """Kills meanwhile."""
        done = threading.Event()
        thread = threading.Thread(target=self.disturb, args=(chance, done, answered))
        thread.start()
        try:
            yield
        finally:
            done.set()
            thread.join()

    def kills(self) -> collections.Counter[str]:
        """How many desks and gateways were killed so far."""
        return collections.Counter({"desks killed": sum(it.kills for it in self.desks), "gateways killed": sum(it.kills for it in self.gateways)})

    def end(self) -> None:
        for it in self.gateways + self.desks:
            it.end()
        self.log.etcd.close()
