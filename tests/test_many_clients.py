"""The built desk and many clients at once, of which some are slow: those are read and answered side by side with the others.

A client that stays within its head or its body, sends a byte now and then, sends on after its answer or reads none of a long one holds nobody up:
what others ask meanwhile is answered within a tenth of a second. Commands that come in pieces, interleaved, are executed in the order of their last
pieces. A connection that is reset at any point changes nothing or is executed, and holds nobody up either.
"""
from __future__ import annotations

import collections
import concurrent.futures
import contextlib
import itertools
import os
import pathlib
import re
import signal
import socket
import statistics
import threading
import time
from collections.abc import Iterator
from typing import NamedTuple

from tests.support import http, sqlite
from tests.support.cases import DeskTestCase
from tests.support.commands import PLANNED, begin_batch, consume, line, receive, replies
from tests.support.http import ASK, NEW, POST, Server, answer, connected, desk_answer, got, posted, read_of, rest_of, small_connection, status_answer
from tests.support.large import FanTestCase
from tests.support.program import SECONDS, wait_for

# Within how many seconds a question is answered in the middle, and each, whatever other clients do.
PROMPT, MOST_PROMPT = 0.1, 2.0

# How many questions are asked next to slow clients, and how many clients of each kind are slow.
ASKED, EACH = 20, 10

# How many seconds lie between two bytes of a client that trickles.
TRICKLE = 0.2

# How many seconds a connection may be silent, a request may take, an answer may wait, and what else a busy machine takes.
SILENCE, WHOLE, MORE = 10, 20, 5

# How many bookings the record of a batch has that slow clients don't read, and how many bytes at least.
BOOKED, RECORD_BYTES = 900, 100_000

# For how many seconds others are timed without slow clients, before and after, and with them; how often they are asked, in seconds; and how often
# this is tried where the machine is busy.
WITHOUT, WITH = 4, 24
DUE = 0.025
TRIES = 3

# How many clients come at once, and how often each sends its request at most.
CROWD, MOST_SENT = 200, 50

# How many connections may be there at once, how many bytes the head and the body of each may have, and how many all may take.
MOST_CONNECTIONS = 64
MOST_HEAD, MOST_BODY = 8192, 262_144
MOST_BYTES = 24_000_000


def named(name: str) -> bytes:
    """Returns a request for a class of this name."""
    return posted("/v1/commands", b'{"at":100,"by":"","do":"add_class","class":"%s","name":""}' % name.encode())


class Slow:
    """Clients that are slow, each in its own way, until they are closed."""

    def __init__(self, port: int) -> None:
        self.port = port
        self.stack = contextlib.ExitStack()
        self.senders: list[tuple[socket.socket, Iterator[bytes]]] = []
        self.ended = threading.Event()
        self.thread = threading.Thread(target=self.send, daemon=True)

    def __enter__(self) -> Slow:
        self.thread.start()
        return self

    def __exit__(self, *_: object) -> None:
        self.ended.set()
        self.thread.join()
        self.stack.close()

    def opened(self, first: bytes) -> socket.socket:
        """Opens a connection and sends what it begins with."""
        it = self.stack.enter_context(connected(self.port))
        it.sendall(first)
        return it

    def add_trickling(self, first: bytes, rest: bytes) -> None:
        """Adds a client that sends the rest byte by byte, again and again."""
        pieces = itertools.cycle([rest[at:at + 1] for at in range(len(rest))])
        self.senders.append((self.opened(first), pieces))

    def send(self) -> None:
        """Sends a piece of each client that trickles, now and then."""
        while not self.ended.wait(TRICKLE):
            for client, pieces in list(self.senders):
                with contextlib.suppress(OSError):
                    client.sendall(next(pieces))


class ClientsTestCase(DeskTestCase):
    """A test case that looks how soon others are answered."""

    def check_prompt(self, case: str, server: Server, wanted: bytes, count: int = ASKED) -> None:
        """Asks so many questions, one after the other, each over a connection of its own: they are answered at once."""
        times = []
        for _ in range(count):
            began = time.monotonic()
            found = server.answered(ASK)
            times.append(time.monotonic() - began)
            self.check(f"{case}, an answer", found, wanted)
        middle, most = statistics.median(times), max(times)
        self.check_true(f"{case}, answered in {middle} and at most {most} seconds", middle < PROMPT and most < MOST_PROMPT)


class SlowClients(ClientsTestCase):
    """One slow client, and ten of each kind."""

    def test_half_a_request_holds_nobody_up(self) -> None:
        for half in (b"G", ASK[:9], POST[:-5]):
            with Server(self.desk, ":memory:", ASKED + 1) as server, connected(server.port) as slow:
                slow.sendall(half)
                self.check_prompt(f"after {half!r}", server, NEW)

    def test_trickling_request_holds_nobody_up(self) -> None:
        with Server(self.desk, ":memory:", ASKED + 1) as server, Slow(server.port) as slow:
            slow.add_trickling(b"GET /v1/desk HTTP/1.1\r\nHost: a\r\nX: ", b"a")
            self.check_prompt("after one that trickles", server, NEW)

    def test_client_that_sends_on_after_a_refusal_holds_nobody_up(self) -> None:
        with Server(self.desk, ":memory:", ASKED + 2) as server, Slow(server.port) as slow:
            slow.add_trickling(got("/nothing"), b"-")
            self.check_prompt("after one that sends on", server, NEW)

    def test_client_that_stays_after_a_refusal_holds_nobody_up(self) -> None:
        with Server(self.desk, ":memory:", ASKED + 2) as server, connected(server.port) as stays:
            stays.sendall(got("/nothing"))
            self.check("its answer", rest_of(stays), status_answer(404))
            self.check_prompt("after one that stays", server, NEW)

    def test_ten_of_each_kind_hold_nobody_up(self) -> None:
        with Server(self.desk, ":memory:", 1000) as server, Slow(server.port) as slow:
            for _ in range(EACH):
                slow.add_trickling(b"GET /v1/desk HTTP/1.1\r\nHost: a\r\nX: ", b"a")
                slow.add_trickling(got("/nothing"), b"-")
                slow.opened(ASK[:9])
                slow.opened(POST[:-5])
                slow.opened(b"")
            self.check_prompt("after ten of each kind", server, NEW, 3 * ASKED)


class Kind(NamedTuple):
    """A kind of slow client: what it begins with, what it sends then, byte by byte and again and again, and after how many seconds it comes again
    at the latest."""

    first: bytes
    rest: bytes
    lasts: float


# The kinds of slow clients. All but the last are dropped by the server before they come again.
KINDS = {
    "trickles": Kind(http.HOST + b"X: ", b"a", WHOLE + 2),
    "stops in its head": Kind(ASK[:9], b"", SILENCE + 2),
    "sends on": Kind(got("/nothing"), b"-", SILENCE),
    "never reads": Kind(got("/v1/batches/B-1/record"), b"", SILENCE + 2),
}


class Returning:
    """A slow client that comes again: once its connection broke, or its time is over."""

    def __init__(self, port: int, kind: Kind) -> None:
        self.port, self.kind, self.times = port, kind, 0
        self.come()

    def come(self) -> None:
        self.times += 1
        self.until = time.monotonic() + self.kind.lasts
        self.connection = small_connection(self.port)
        self.connection.sendall(self.kind.first)

    def go_on(self) -> None:
        """Sends a byte more where it sends on, or comes again."""
        try:
            self.connection.sendall(self.kind.rest)
            if time.monotonic() < self.until:
                return
        except OSError:
            pass
        self.connection.close()
        self.come()


@contextlib.contextmanager
def returning(port: int) -> Iterator[None]:
    """Has ten clients of each kind come, and come again."""
    clients = [Returning(port, kind) for kind in KINDS.values() for _ in range(EACH)]
    ended = threading.Event()

    def go_on() -> None:
        while not ended.wait(TRICKLE):
            for client in clients:
                client.go_on()

    thread = threading.Thread(target=go_on, daemon=True)
    thread.start()
    try:
        yield
    finally:
        ended.set()
        thread.join()
        for client in clients:
            client.connection.close()


# How late requests were answered that were due in a second, for each second.
Latencies = list[list[float]]


def within(latencies: Latencies) -> float:
    """Returns within how many seconds 99 of 100 were answered."""
    times = sorted(itertools.chain(*latencies))
    return times[len(times) * 99 // 100]


def told(latencies: Latencies) -> str:
    """Returns how late they were answered, in milliseconds."""
    times = list(itertools.chain(*latencies))
    middle, most_of, most = statistics.median(times), within(latencies), max(times)
    return f"{1000 * middle:.1f}, {1000 * most_of:.1f}, {1000 * most:.1f}"


class Latency(ClientsTestCase):
    """How late others are answered over the whole time, with slow clients of each kind and without."""

    IN_MEMORY = IS_LONG = True

    def batch_with_record(self) -> int:
        """Makes a desk with a batch whose record is long; returns the number of its last command."""
        first = [*PLANNED, receive("F-1", BOOKED, "FLOUR"), *begin_batch("B-1", 1)]
        by = "by " * 20
        told = b"".join(map(line, first)) + line(consume("B-1"), f'"at":200,"by":"{by}","note":"{by}"') * BOOKED
        self.check_run("the batch", ["run", "plant.db"], (0, replies(1, len(first) + BOOKED), b""), told)
        return len(first) + BOOKED

    def latencies(self, server: Server, seconds: int) -> Latencies:
        """Asks, and gives a command, in turn, each on a connection of its own, when it is due; returns how late each was answered. Each that is due
        while another is answered late is late itself, so that nothing is missed."""
        found: Latencies = [[] for _ in range(seconds)]
        began = time.monotonic()
        for number in range(int(seconds / DUE)):
            due = began + number * DUE
            time.sleep(max(0.0, due - time.monotonic()))
            self.seq += number % 2
            wanted = answer('{"ok":%d}' % self.seq) if number % 2 else desk_answer(self.seq)
            self.check("an answer", server.answered(http.booked(http.command(name=f"N-{self.seq}", at=200)) if number % 2 else ASK), wanted)
            found[int(number * DUE)].append(time.monotonic() - due)
        return found

    def test_others_are_answered_within_a_tenth_of_a_second_over_the_whole_time(self) -> None:
        """Ten clients trickle, ten stop in the head, ten never read a record of 100 kB, and ten send on; each comes again once it is dropped."""
        self.seq = self.batch_with_record()
        log = self.folder / "log"
        with open(log, "wb") as errors, Server(self.desk, "plant.db", 1_000_000, "--log", how={"stderr": errors}) as server:
            record = server.answered(KINDS["never reads"].first)
            self.check_true(f"a record of {len(record)} bytes", len(record) > RECORD_BYTES)
            for _ in range(TRIES):
                before = self.latencies(server, WITHOUT)
                with returning(server.port):
                    times = self.latencies(server, WITH)
                    self.check("how many threads the server has", len(os.listdir(f"/proc/{server.process.pid}/task")), 1)
                after = self.latencies(server, WITHOUT)
                bound = PROMPT + within(before + after)
                if within(times) < bound and all(statistics.median(it) < PROMPT for it in times):
                    break
        self.note(f"ms in the middle, of 99 of 100, at most, without slow clients: {told(before)}; {told(after)}; with: {told(times)}")
        self.check_true(f"99 of 100 were answered within {bound} seconds: {within(times)}", within(times) < bound)
        for second, it in enumerate(times):
            middle, most = statistics.median(it), max(it)
            self.check_true(f"second {second}: in {middle} and at most {most} seconds", middle < PROMPT and most < MOST_PROMPT)
        self.check_dropped(log.read_text())

    def check_dropped(self, log: str) -> None:
        """Looks in the log whether the slow clients were dropped while the others were timed, each in its own way."""
        lines = [it.split('"') for it in log.splitlines() if '"' in it]
        unanswered = collections.Counter(first for _, first, rest in lines if rest.split()[0] == "0")
        for first, least in (("GET /v1/desk HTTP/1.1", EACH), (ASK[:9].decode(), 2 * EACH), ("GET /v1/batches/B-1/record HTTP/1.0", EACH)):
            self.check_true(f"{first} was dropped {unanswered[first]} times", unanswered[first] >= least)
        refused = sum(rest.split()[0] == "404" for *_, rest in lines)
        self.check_true(f"{refused} that send on were answered", refused >= WITH / 4 * EACH)


class Order(ClientsTestCase):
    """Requests that come in pieces, side by side."""

    def test_pieces_of_three_commands_execute_in_the_order_of_their_last_bytes(self) -> None:
        """Sends the halves of three commands in each order in which a half of one precedes its other half."""
        orders = sorted(set(itertools.permutations([0, 0, 1, 1, 2, 2])))
        with Server(self.desk, ":memory:", 3 * len(orders)) as server:
            for turn, order in enumerate(orders):
                with contextlib.ExitStack() as stack:
                    clients = [stack.enter_context(connected(server.port)) for _ in range(3)]
                    sent = [named(f"{name}-{turn}") for name in "ABC"]
                    parts = [iter((it[:-9], it[-9:])) for it in sent]
                    for number in order:
                        clients[number].sendall(next(parts[number]))
                        wait_for(server.process, "S")
                    ranks = sorted(range(3), key=order[::-1].index, reverse=True)
                    wanted = [answer('{"ok":%d}' % (3 * turn + ranks.index(it) + 1)) for it in range(3)]
                    self.check(f"the order {order}", [rest_of(it) for it in clients], wanted)
            self.check("the server", server.end(), http.WELL)

    def test_command_that_became_whole_later_is_executed_later(self) -> None:
        """Has a first client send all but its last byte, others whole commands, and then the first its last byte."""
        with Server(self.desk, ":memory:", 4) as server, connected(server.port) as first:
            first.sendall(named("LAST")[:-1])
            for number in range(3):
                self.check(f"command {number}", server.answered(named(f"N-{number}")), answer('{"ok":%d}' % (number + 1)))
            first.sendall(named("LAST")[-1:])
            self.check("the first client's", rest_of(first), answer('{"ok":4}'))
            self.check("the server", server.end(), http.WELL)

    def test_requests_that_become_whole_at_once_are_executed_in_that_order(self) -> None:
        """Pauses the server, sends the last bytes of three commands in each order, and has it go on."""
        orders = list(itertools.permutations(range(3)))
        with Server(self.desk, ":memory:", 3 * len(orders)) as server:
            for turn, order in enumerate(orders):
                with contextlib.ExitStack() as stack:
                    clients = [stack.enter_context(connected(server.port)) for _ in range(3)]
                    sent = [named(f"{name}-{turn}") for name in "ABC"]
                    for client, request in zip(clients, sent):
                        client.sendall(request[:-1])
                        wait_for(server.process, "S")
                    server.process.send_signal(signal.SIGSTOP)
                    wait_for(server.process, "T")
                    for number in order:
                        clients[number].sendall(sent[number][-1:])
                    server.process.send_signal(signal.SIGCONT)
                    wanted = [answer('{"ok":%d}' % (3 * turn + order.index(it) + 1)) for it in range(3)]
                    self.check(f"the order {order}", [rest_of(it) for it in clients], wanted)
            self.check("the server", server.end(), http.WELL)

    def test_two_hundred_clients_are_answered_as_many_at_once_as_may_be_there(self) -> None:
        """Opens so many connections as may be there at once, each with a command, over and over until 200 clients were served."""
        with Server(self.desk, ":memory:", CROWD) as server:
            found: list[bytes] = []
            names = (f"C-{number}" for number in range(CROWD))
            while batch := list(itertools.islice(names, MOST_CONNECTIONS)):
                with contextlib.ExitStack() as stack:
                    clients = [stack.enter_context(connected(server.port)) for _ in batch]
                    for client, name in zip(clients, batch):
                        client.sendall(named(name))
                    found += [rest_of(it) for it in reversed(clients)]
            self.check("their answers", sorted(found), sorted(answer('{"ok":%d}' % (number + 1)) for number in range(CROWD)))
            self.check("the server", server.end(), http.WELL)

    def test_two_hundred_clients_at_once_are_answered_and_each_acts_once(self) -> None:
        """Has 200 clients come at once, each with a command under a reference, in a thread of its own. One that is dropped for another sends again."""
        begins = threading.Barrier(CROWD)

        def asks(number: int) -> list[bytes]:
            request = http.booked(http.command(name=f"C-{number}", ref=f"K-{number}"))
            begins.wait(SECONDS)
            found: list[bytes] = []
            while not found or not found[-1] and len(found) < MOST_SENT:
                found.append(server.answered_or_broken(request))
            return found

        with Server(self.desk, ":memory:", CROWD * MOST_SENT) as server, concurrent.futures.ThreadPoolExecutor(CROWD) as clients:
            found = list(clients.map(asks, range(CROWD)))
            self.check("their answers", sorted(it[-1] for it in found), sorted(answer('{"ok":%d}' % (number + 1)) for number in range(CROWD)))
            self.check("how many commands acted", server.answered(ASK), desk_answer(CROWD))
        self.note(f"{sum(len(it) > 1 for it in found)} of {CROWD} clients at once sent again")


class Interleavings(ClientsTestCase):
    """The three pieces of each of three commands, in each order."""

    IN_MEMORY = IS_LONG = True

    def test_commands_are_executed_in_the_order_of_their_last_pieces(self) -> None:
        """Ends the pieces within the head, within the body and with the last byte. Each command has a reference of its own."""
        orders = sorted(set(itertools.permutations([0, 1, 2] * 3)))
        wanted: list[tuple[str, int]] = []
        with Server(self.desk, "order.db", 3 * len(orders)) as server:
            for turn, order in enumerate(orders):
                names = [f"{name}-{turn}" for name in "ABC"]
                sent = [http.booked(http.command(name=it, ref=it)) for it in names]
                parts = [iter((it[:20], it[20:-9], it[-9:])) for it in sent]
                with contextlib.ExitStack() as stack:
                    clients = [stack.enter_context(connected(server.port)) for _ in range(3)]
                    for number in order:
                        clients[number].sendall(next(parts[number]))
                        wait_for(server.process, "S")
                    ranks = sorted(range(3), key=lambda it: order[::-1].index(it), reverse=True)
                    wanted += [(names[it], len(wanted) + place) for place, it in enumerate(ranks, 1)]
                    seqs = dict(wanted[-3:])
                    found = [rest_of(it) for it in clients]
                    self.check(f"the order {order}", found, [answer('{"ok":%d}' % seqs[it]) for it in names])
            self.check("the server", server.end(), http.WELL)
        self.check("what was executed", sqlite.rows(self.folder / "order.db", "SELECT id, seq FROM receipt ORDER BY seq"), wanted)


class Resets(ClientsTestCase, FanTestCase):
    """Connections that are reset at each point: of their request, and of their answer."""

    def test_reset_at_each_point_of_a_request_holds_nobody_up(self) -> None:
        """Resets a connection after each byte of a command: it changes nothing unless it was whole, and then acts once."""
        whole = http.booked(http.command(ref="K-1"))
        with Server(self.desk, "reset.db", 3 * len(whole)) as server:
            files = server.open_files()
            for size in range(len(whole) + 1):
                with connected(server.port) as it:
                    it.sendall(whole[:size])
                    time.sleep(0.002)
                    http.closed(it, True)
                found = server.answered(ASK)
                self.check_true(f"a question after a reset at {size}, {found!r}", found == NEW or size == len(whole) and found == desk_answer(1))
            self.check("the command, sent again", server.answered(whole), http.ACCEPTED)
            self.check("it acted once", server.answered(ASK), desk_answer(1))
            server.wait_closed(files)
            self.check_true("the server goes on", server.is_running())

    def test_reset_at_each_point_of_an_answer_holds_nobody_up(self) -> None:
        """Resets a connection after so many bytes of a long answer: the next client is answered at once, and nothing stays open."""
        file, desk, whole = self.desk_with_fan()
        with Server(self.desk, file, 1000) as server:
            files = server.open_files()
            for size in [0, 1, 99, 4096, *range(10_000, len(whole), len(whole) // 20), len(whole)]:
                with small_connection(server.port) as it:
                    it.sendall(got("/v1/lots/T/forward"))
                    self.check(f"the first {size} bytes", read_of(it, size), whole[:size])
                    http.closed(it, True)
                self.check("an answer after what was asked for before it", server.answered(ASK), desk)
                self.check_prompt(f"after a reset at {size}", server, desk, 3)
            server.wait_closed(files)


class Memory(ClientsTestCase):
    """What the bytes of requests take that aren't whole."""

    def resident(self, server: Server) -> int:
        """Returns how many bytes of memory the server has, once it waits."""
        wait_for(server.process, "S")
        [size] = re.findall(r"^VmRSS:\s+(\d+) kB$", pathlib.Path(f"/proc/{server.process.pid}/status").read_text(), re.M)
        return int(size) * 1024

    def test_requests_that_lack_a_byte_take_24_megabytes_at_most(self) -> None:
        """Has as many clients as may be there send all but the last byte of the longest head and body, and then that byte."""
        request = posted("/v1/commands", b" " * MOST_BODY, "X: ")
        request = request.replace(b"X: ", b"X: " + b"a" * (MOST_HEAD + MOST_BODY - len(request)))
        with Server(self.desk, ":memory:", MOST_CONNECTIONS + 1) as server, contextlib.ExitStack() as stack:
            self.check("an answer", server.answered(ASK), NEW)
            before = self.resident(server)
            clients = [stack.enter_context(connected(server.port)) for _ in range(MOST_CONNECTIONS)]
            for it in clients:
                it.sendall(request[:-1])
            took = self.resident(server) - before
            self.check_true(f"they take {took} bytes", MOST_CONNECTIONS * MOST_BODY // 2 < took < MOST_BYTES)
            for it in clients:
                it.sendall(request[-1:])
            for it in clients:
                self.check("an answer", rest_of(it), answer('{"name":"BadForm","refused":1}', 400))
            self.check("the server", server.end(), http.WELL)


class Times(ClientsTestCase):
    """Connections whose time is over."""

    IS_LONG = True

    def test_half_a_request_is_dropped_after_ten_seconds_and_a_trickling_one_after_twenty(self) -> None:
        with Server(self.desk, "times.db", 3, "--log") as server, Slow(server.port) as slow:
            began = time.monotonic()
            half = slow.opened(POST[:-5])
            slow.add_trickling(b"GET /v1/desk HTTP/1.1\r\nHost: a\r\nX: ", b"a")
            trickling = slow.senders[0][0]
            self.check("the half", rest_of(half), b"")
            held = time.monotonic() - began
            self.check_true(f"it is dropped after ten seconds, {held}", SILENCE - 1 < held < SILENCE + MORE)
            with contextlib.suppress(ConnectionResetError):
                self.check("the trickling one", rest_of(trickling), b"")
            held = time.monotonic() - began
            self.check_true(f"it is dropped after twenty seconds, {held}", WHOLE - 1 < held < WHOLE + MORE)
            self.check("the last client", server.answered(ASK), NEW)
            ended = server.end()
        self.check("their lines", [it.split('"')[2].split()[0] for it in ended.errors.decode().splitlines()[1:]], ["0", "0", "200"])

    def test_client_that_stays_after_its_answer_is_closed_after_a_second(self) -> None:
        with Server(self.desk, ":memory:", 2) as server, connected(server.port) as stays:
            stays.sendall(ASK)
            self.check("its answer", rest_of(stays), NEW)
            time.sleep(2)
            with contextlib.suppress(BrokenPipeError, ConnectionResetError):
                stays.sendall(b"-")
                time.sleep(0.1)
                stays.sendall(b"-")
                self.check_true("its connection is closed", False)


class Readers(ClientsTestCase, FanTestCase):
    """Clients that read a long answer slowly or not at all."""

    def test_ten_that_never_read_hold_nobody_up_and_a_slow_one_has_its_whole_answer(self) -> None:
        file, desk, whole = self.desk_with_fan()
        with Server(self.desk, file, 1000) as server, contextlib.ExitStack() as stack:
            lazy = [stack.enter_context(small_connection(server.port)) for _ in range(EACH)]
            for it in lazy:
                it.sendall(got("/v1/lots/T/forward"))
            self.check("an answer after those that were asked for before it", server.answered(ASK), desk)
            self.check_prompt("after ten that don't read", server, desk)
            slow = stack.enter_context(connected(server.port))
            slow.sendall(got("/v1/lots/T/forward"))
            self.check("a slow one's answer", read_slowly(slow), whole)
            time.sleep(SILENCE)
            for it in lazy:
                with contextlib.suppress(ConnectionResetError):
                    read = len(rest_of(it))
                    self.check_true(f"an answer that wasn't read is no whole one, {read}", read < len(whole))


def read_slowly(client: socket.socket) -> bytes:
    """Returns what comes on a connection, with a pause after each piece."""
    text = b""
    while piece := client.recv(65536):
        text += piece
        time.sleep(0.01)
    return text
