"""The built desk over files that somebody else changed, and on requests of HTTP that end early, pass a limit or come slowly.

For each rule of good tables a file of twenty commands is changed by one statement, which breaks that rule and none before it: the desk
has to name the rule, to each word, and to leave the tables as they are. So has it where a mark is missing behind a recall, or one is too
many, and for each statement of tests/tables/broken_rules.txt over the rows of good_desk.sql beside it.
"""
from __future__ import annotations

import contextlib
import pathlib
import resource
import select
import shutil
import socket
import time
from collections.abc import Iterable

from tests.support import http, sessions, sqlite
from tests.support.cases import DeskTestCase
from tests.support.faults import limited
from tests.support.http import (
    ACCEPTED, ASK, COMMAND, HOST, NEW, POST, Server, answer, connected, desk_answer, got, posted, rest_of, small_connection, status_answer,
)
from tests.support.large import FanTestCase
from tests.support.sessions import Session, lines_of

# How many seconds a client may hold the server that says nothing, with what else a busy machine takes; and how many a client may pause.
MOST_HELD = 20
PAUSE = 2

# How many seconds a request may take from its first byte on, and how often a byte of one comes that trickles in.
MOST_TRICKLED, TRICKLE = 20, 0.5

# For how long a connection waits on which nothing is sent, and how many wait at most.
SILENCE = 10
MOST_SILENT = 64

# How many files the server may have open where they are few, and where they are too few; and how many connections it serves that drops most.
FEW_FILES, LOWEST_FILES, CONNECTIONS = 24, 5, 1000

# How many seconds lie between two pieces that are sent after an answer.
PIECE = 0.1

# For how many seconds an answer may stay as it is.
WAIT = 10

# How many seconds the server waits at least for the end of its last client, and how often this is looked at where the machine is busy.
LAST_WAIT = 0.9
ATTEMPTS = 5


class DamageTestCase(DeskTestCase):
    """A test case over a file that is changed."""

    def make(self, session: Session) -> None:
        """Makes the file that is changed."""
        self.check_run(session.name, ["run", "first.db"], session.ended(), session.told)

    def change(self, statements: str) -> pathlib.Path:
        """Returns a fresh copy of the file, over which statements were executed."""
        file = self.folder / "changed.db"
        shutil.copyfile(self.folder / "first.db", file)
        sqlite.changed(file, statements)
        return file

    def check_refused(self, case: str, file: pathlib.Path, rule: int, words: Iterable[tuple[str, ...]]) -> None:
        """Gives a file that breaks a rule to each word, which has to name it and to leave the rows."""
        rows = sqlite.dumped(file)
        told = (3, b"", b"fault: damaged G%d\n" % rule)
        for word, *others in words:
            self.check_run(f"{word}: {case}", [word, file.name, *others], told, sessions.MORE[0].encode())
        self.check(f"rows: {case}", sqlite.dumped(file), rows)


class DamagedFiles(DamageTestCase):
    """Files whose rows or tables somebody else has changed."""

    def test_each_broken_rule_is_named_by_each_word(self) -> None:
        """Breaks each rule in turn in a file of twenty commands."""
        self.make(sessions.twenty_commands())
        self.check("their edges", sqlite.edges(self.folder / "first.db"), sessions.EDGES)
        words = [("verify",), ("init",), ("run",), ("record", "B-1"), ("trace", "back", "D-1")]
        for rule, statement in enumerate(sqlite.DAMAGES, 1):
            self.check_refused(statement, self.change(statement), rule, words)

    def test_mark_that_no_recall_makes_or_that_is_missing_is_told(self) -> None:
        """Takes a mark away, and adds one, behind the recall of a lot and a production of the batch that took of it."""
        whole = sessions.named("a_recall_blocks_what_came_of_a_lot")
        told, wanted = (b"".join(lines_of(it)[:12]) for it in (whole.told, whole.wanted))
        self.make(Session("a recall and a production", told, wanted))
        for statement in [
            "DELETE FROM mark WHERE id = 'D-1'",
            "DELETE FROM mark WHERE kind = 2",
            "INSERT INTO mark VALUES ('RC-1', 2, 'D-1')",
            "INSERT INTO mark VALUES ('RC-2', 1, 'D-1')",
        ]:
            self.check_refused(statement, self.change(statement), 14, [("verify",), ("run",), ("trace", "back", "D-1")])

    def test_first_broken_rule_is_told_of_each_change_of_a_good_desk(self) -> None:
        self.check_changes(sqlite.broken_rules())

    def test_first_broken_rule_is_told_of_files_of_older_schemas(self) -> None:
        """Of the older schemas the third has no recalls, the second no receipts and the first no edges."""
        self.check_changes([
            (0, sqlite.TO_SCHEMA_1),
            (12, sqlite.TO_SCHEMA_1 + "UPDATE movement SET batch = 'B-1' WHERE seq = 15"),
            (0, sqlite.TO_SCHEMA_3),
            (13, sqlite.TO_SCHEMA_3 + "UPDATE receipt SET seq = 21 WHERE id = 'K-1'"),
            (1, sqlite.TO_SCHEMA_3 + "CREATE TABLE mark (a INTEGER)"),
            (0, sqlite.TO_SCHEMA_2),
            (12, sqlite.TO_SCHEMA_2 + "DELETE FROM edge WHERE a = 'D-0'"),
            (1, sqlite.TO_SCHEMA_2 + "CREATE TABLE receipt (a INTEGER)"),
        ])

    def test_command_is_listed_whole_only_where_its_receipt_begins_as_one_of_the_desk(self) -> None:
        self.desk.run("init", "first.db")
        sqlite.good_desk(self.folder / "first.db")
        [[seq]] = sqlite.rows(self.folder / "first.db", "SELECT seq FROM receipt WHERE id = 'K-1'")
        alone = '{"ref":"K-1","seq":%d}' % seq
        for content, wanted in [
            ("120\nben\nwet\nscrap\nF-1\n0\n20\n", '{"at":120,"by":"ben","do":"scrap","note":"wet","ref":"K-1","seq":%d}' % seq),
            ("0\n\n\nphase_done\n", '{"at":0,"by":"","do":"phase_done","note":"","ref":"K-1","seq":%d}' % seq),
            ("120\nben\nwet\nScrap\nF-1\n0\n20\n", alone),
            ("120\nben\nwet\ndone\nB-1\n", alone),
            ("120\nben\nwet\nscraps\n", alone),
            ("120\nben\nwet\n\n", alone),
            ("120\nben\nwet\n", alone),
            ("0120\nben\nwet\nscrap\n", alone),
            ("00\nben\nwet\nscrap\n", alone),
            ("+120\nben\nwet\nscrap\n", alone),
            ("253402300800\nben\nwet\nscrap\n", alone),
            (f"120\n{'b' * 61}\nwet\nscrap\n", alone),
        ]:
            file = self.change(f"DELETE FROM receipt WHERE id <> 'K-1'; UPDATE receipt SET content = '{content}'")
            answer = self.desk.run("run", file.name, told=b'{"ask":"commands"}\n')
            self.check(repr(content), answer, (0, f'{{"commands":[{wanted}],"more":false}}\n'.encode(), b""))

    def check_changes(self, changes: Iterable[tuple[int, str]]) -> None:
        """Changes a good desk by each of these statements, each with the first rule that it breaks, 0 for none."""
        self.desk.run("init", "first.db")
        sqlite.good_desk(self.folder / "first.db")
        for rule, statement in changes:
            file = self.change(statement)
            if rule:
                self.check_refused(statement, file, rule, [("verify",)])
            else:
                self.check_verified(statement, file.name, 20)


# ---- requests


def with_length(length: bytes) -> bytes:
    """Returns a command whose length is told so."""
    return POST.replace(b"Content-Length: 59", b"Content-Length: " + length)


def padded(size: int) -> bytes:
    """Returns a question whose head has so many bytes."""
    name, end = b"X: ", b"\r\n\r\n"
    return HOST + name + b"a" * (size - len(HOST + name + end)) + end


# Requests to new desks that come up to a limit or pass it, each with its answer.
REQUESTS = [
    ("a head has 32 fields", HOST + b"A: b\r\n" * 31 + b"\r\n", NEW),
    ("a head has 32 fields at most", HOST + b"A: b\r\n" * 32 + b"\r\n", status_answer(431)),
    ("a head has 8,192 bytes", padded(8192), NEW),
    ("a head has 8,192 bytes at most", padded(8193), status_answer(431)),
    ("a head without an end has as many", (HOST + b"X: " + b"a" * 8192)[:8193], status_answer(431)),
    ("a host is told once", HOST + b"Host: b\r\n\r\n", status_answer(400)),
    ("a length has no sign", with_length(b"+5"), status_answer(400)),
    ("a length has 18 digits", with_length(b"0" * 16 + b"59"), ACCEPTED),
    ("a length has 18 digits at most", with_length(b"0" * 17 + b"59"), status_answer(400)),
    ("a length is told", POST.replace(b"Content-Length: 59\r\n", b""), status_answer(411)),
    ("a body has 262,144 bytes at most", with_length(b"262145"), status_answer(413)),
    ("an id is in capitals", b"GET /v1/lots/l-1 HTTP/1.1\r\nHost: a\r\n\r\n", status_answer(404)),
    ("an older version needs no host", b"GET /v1/desk HTTP/1.0\r\n\r\n", NEW),
]


class BrokenRequests(DeskTestCase):
    """Requests that end early, pass a limit, or have more bytes than they tell."""

    def test_front_of_a_request_is_bad_and_changes_nothing(self) -> None:
        """Sends each front of a question and of a command, which are bad but for the empty one."""
        fronts = [request[:size] for request in (HOST + b"\r\n", POST) for size in range(1, len(request))] + [b""]
        with Server(self.desk, "fronts.db", len(fronts) + 1) as server:
            for front in fronts:
                wanted = status_answer(400) if front else b""
                self.check(f"the front {front!r}", server.answered(front, is_last=True), wanted)
            self.check("a desk behind all fronts", server.answered(ASK), NEW)
            self.check("its server", server.end().status, 0)

    def test_limits_of_requests_are_kept(self) -> None:
        for case, request, wanted in REQUESTS:
            with Server(self.desk, ":memory:", 1) as server:
                self.check(case, server.answered(request), wanted)

    def test_answer_comes_whole_where_bytes_are_not_read(self) -> None:
        """Sends bytes that no request asks for, before its answer and behind it: each answer comes whole, and so does the next."""
        much = b"-" * 50_000
        cases = [
            ("a body that is too large", with_length(b"300000")[:-59] + much, status_answer(413)),
            ("a question with a body", HOST + b"Content-Length: 50000\r\n\r\n" + much, NEW),
            ("more than a question", ASK + much, NEW),
        ]
        with Server(self.desk, ":memory:", 3 * len(cases) + 2) as server:
            for case, sent, wanted in cases:
                self.check(case, server.answered(sent), wanted)
                with connected(server.port) as slow:
                    slow.sendall(sent)
                    self.check(f"{case}, and a client that stays", rest_of(slow), wanted)
                    self.check(f"the next behind {case}", server.answered(ASK), NEW)
            with connected(server.port) as late:
                late.sendall(HOST + b"Content-Length: 50000\r\n\r\n")
                found = rest_of(late)
                late.sendall(much)
                self.check("a body that comes behind the answer", found, NEW)
            self.check("the next behind it", server.answered(ASK), NEW)
            self.check("its server", server.end().status, 0)


    def test_answer_that_needs_no_body_comes_without_one(self) -> None:
        """Sends heads whose bodies never come: each is answered as soon as it is whole. One whose body is asked for is answered with that alone."""
        served = POST.replace(b"Host: a\r\n", b"Host: localhost\r\n")
        cases: list[tuple[str, list[str], bytes, bytes]] = [
            ("a question with a body", [], HOST + b"Content-Length: 59\r\n\r\n" + COMMAND, b"200"),
            ("two lengths", [], with_length(b"59\r\nContent-Length: 59"), b"400"),
            ("another host", ["--page"], POST, b"403"),
            ("another origin", ["--page"], served.replace(b"Content-", b"Origin: http://evil.test\r\nContent-"), b"403"),
            ("a path that isn't there", [], posted("/v1/nothing", COMMAND), b"404"),
            ("a method that isn't there", [], posted("/v1/desk", COMMAND), b"405"),
            ("no length", [], POST.replace(b"Content-Length: 59\r\n", b""), b"411"),
            ("a body that is too large", [], with_length(b"262145"), b"413"),
            ("a head that is too large", [], POST.replace(b"Content-", b"X: " + b"a" * 8192 + b"\r\nContent-"), b"431"),
            ("a body in chunks", [], POST.replace(b"Content-Length: 59", b"Transfer-Encoding: chunked"), b"501"),
        ]
        for case, options, request, status in cases:
            with Server(self.desk, ":memory:", 1, *options) as server, connected(server.port) as it:
                began = time.monotonic()
                it.sendall(request[:-len(COMMAND)])
                self.check(case, rest_of(it)[9:12], status)
                held = time.monotonic() - began
                self.check_true(f"{case}, answered within a bound, {held}", held < SILENCE / 2)
        with Server(self.desk, ":memory:", 1, "--page") as server, connected(server.port) as it:
            it.sendall(served[:-len(COMMAND)])
            self.check("what comes before the body", select.select([it], [], [], PAUSE)[0], [])
            it.sendall(COMMAND)
            self.check("what comes with it", http.DATE.sub(b"", rest_of(it)), ACCEPTED)

    def test_answers_stay_whole_where_next_connections_come_at_once(self) -> None:
        """Opens connections and sends on each a request, and bytes behind it, before the answer of any is read: each answer comes whole."""
        much = b"-" * 50_000
        held = posted("/v1/commands", COMMAND.replace(b"RAW", b"raw"))
        sent = [ASK + much, HOST + b"Content-Length: 50000\r\n\r\n" + much, POST + much, POST + much, ASK, ASK + much]
        wanted = [NEW, NEW, ACCEPTED, answer('{"name":"Exists","refused":3}', 409), desk_answer(1), desk_answer(1)]
        with Server(self.desk, ":memory:", len(sent) + 2) as server, contextlib.ExitStack() as clients:
            opened = [clients.enter_context(connected(server.port)) for _ in sent]
            for client, request in zip(opened, sent):
                client.sendall(request)
            self.check("a client behind them", server.answered(ASK), desk_answer(1))
            for number, (client, whole) in enumerate(zip(opened, wanted), 1):
                self.check(f"answer {number} of connections at once", rest_of(client), whole)
            self.check("a last client", server.answered(held), answer('{"name":"BadForm","refused":1}', 400))
            self.check("their server", server.end().status, 0)


class Clients(DeskTestCase):
    """Clients that are slow, far away or the last."""

    def test_slow_clients_are_served_and_other_addresses_refused(self) -> None:
        """Serves a client behind one that says nothing, and one that pauses; and from no other address than 127.0.0.1."""
        with Server(self.desk, ":memory:", 4) as server:
            for address in ["127.0.0.2", "127.1.2.3"]:
                self.check_true(f"a connection to {address} is refused", http.is_refused(address, server.port))
            with connected(server.port) as silent:
                began = time.monotonic()
                self.check("a client behind one that says nothing", server.answered(ASK), NEW)
                held = time.monotonic() - began
                self.check_true(f"it is served within a bound, {held}", held < MOST_HELD)
                self.check("the one that says nothing", rest_of(silent), b"")
            with connected(server.port) as slow:
                slow.sendall(ASK[:9])
                time.sleep(PAUSE)
                slow.sendall(ASK[9:])
                self.check("a client that pauses", rest_of(slow), NEW)
            self.check("two requests behind one another", server.answered(ASK + ASK), NEW)
            self.check("its server", server.end().status, 0)

    def test_silent_connections_hold_nobody_up(self) -> None:
        """Opens ten connections and sends nothing: fifty clients are served at once, and the silent ones are dropped after ten seconds."""
        with Server(self.desk, ":memory:", 60) as server:
            silent = [connected(server.port) for _ in range(10)]
            began = time.monotonic()
            for number in range(50):
                self.check(f"client {number} beside silent ones", server.answered(ASK), NEW)
            held = time.monotonic() - began
            self.check_true(f"nobody waits for a silent one, {held}", held < SILENCE / 2)
            for number, one in enumerate(silent):
                with one:
                    self.check(f"silent connection {number} is dropped", rest_of(one), b"")
            held = time.monotonic() - began
            self.check_true(f"they are dropped after ten seconds, {held}", SILENCE - PAUSE < held < MOST_HELD)
            self.check("its server", server.end().status, 0)

    def test_oldest_of_too_many_silent_connections_is_dropped(self) -> None:
        """Opens one silent connection more than may wait: the oldest is dropped at once. The next is dropped for a client, which is served: of
        three that are counted, two are dropped."""
        with Server(self.desk, ":memory:", 3) as server:
            silent = [connected(server.port) for _ in range(MOST_SILENT + 1)]
            began = time.monotonic()
            self.check("the oldest is dropped", rest_of(silent[0]), b"")
            held = time.monotonic() - began
            self.check_true(f"it is dropped at once, {held}", held < SILENCE / 2)
            self.check("a client beside 64 silent ones", server.answered(ASK), NEW)
            self.check("its server", server.end().status, 0)
            for one in silent:
                one.close()

    def test_server_with_few_open_files_drops_the_oldest_and_goes_on(self) -> None:
        """Opens more silent connections than the server may have files open: it drops the oldest ones for those that come, and serves."""
        how = limited(resource.RLIMIT_NOFILE, FEW_FILES)
        with Server(self.desk, "few.db", CONNECTIONS, "--log", how=how) as server:
            silent = [connected(server.port) for _ in range(2 * FEW_FILES)]
            for number in range(FEW_FILES):
                self.check(f"client {number} beside silent ones", server.answered(ASK), NEW)
            self.check("the oldest is dropped", rest_of(silent[0]), b"")
            self.check("a command", server.answered(POST), ACCEPTED)
            self.check_true("the server goes on", server.is_running())
            for one in silent:
                one.close()

    def test_limit_of_open_files_that_leaves_room_for_a_connection_ends_no_server(self) -> None:
        """Starts a server with each low limit of open files. With the lowest it doesn't listen; with those above it has no room for a connection, and the
        first ends it; with all others it answers, also next to silent connections."""
        ends = []
        for most in range(LOWEST_FILES, FEW_FILES):
            with Server(self.desk, "few.db", CONNECTIONS, how=limited(resource.RLIMIT_NOFILE, most)) as server, contextlib.ExitStack() as stack:
                if not server.is_running():
                    ends.append(0)
                    continue
                found = [server.answered_or_broken(ASK)]
                if found == [b""]:
                    self.check(f"the end, with {most} files", server.end(), http.NET)
                    ends.append(1)
                    continue
                for _ in range(most):
                    stack.enter_context(connected(server.port))
                found += [server.answered(ASK) for _ in range(3)]
                self.check(f"answers with {most} files", found, [NEW] * 4)
                self.check_true(f"the server goes on with {most} files", server.is_running())
                ends.append(2)
        self.check("how servers end, by their limits", ends, sorted(ends))
        self.check("the ends that there are", set(ends), {0, 1, 2})

    def test_half_a_request_holds_nobody_up_and_does_nothing(self) -> None:
        """Sends half a head, and half a body, and then nothing: the next client is served at once, and the half is dropped after ten seconds."""
        with Server(self.desk, "half.db", 4) as server:
            for half in (ASK[:9], POST[:-5]):
                with connected(server.port) as slow:
                    slow.sendall(half)
                    began = time.monotonic()
                    self.check(f"a client behind {half!r}", server.answered(ASK), NEW)
                    held = time.monotonic() - began
                    self.check_true(f"it is served within a bound, {held}", held < SILENCE / 2)
                    self.check(f"the one of {half!r}", rest_of(slow), b"")
                    held = time.monotonic() - began
                    self.check_true(f"it is dropped after ten seconds, {held}", SILENCE - PAUSE < held < MOST_HELD)
            self.check("its server", server.end().status, 0)

    def test_client_that_stays_after_a_refusal_holds_nobody_up(self) -> None:
        """Has clients stay open after a 404 and after a 400: each next one is served at once."""
        with Server(self.desk, ":memory:", 4) as server:
            for request, status in ((got("/nothing"), 404), (posted("/v1/orders", b""), 400)):
                with connected(server.port) as open_one:
                    open_one.sendall(request)
                    began = time.monotonic()
                    self.check(f"a client behind one that stays after {status}", server.answered(ASK), NEW)
                    held = time.monotonic() - began
                    self.check_true(f"it is served within a bound, {held}", held < SILENCE / 2)
                    self.check("its answer", rest_of(open_one), status_answer(status))
            self.check("its server", server.end().status, 0)

    def test_end_of_the_last_client_is_waited_for(self) -> None:
        """Sends less than was promised, as the last client, and looks whether the server waits for the rest behind its answer."""
        for _ in range(ATTEMPTS):
            with Server(self.desk, ":memory:", 1) as server:
                with connected(server.port) as last:
                    last.sendall(HOST + b"Content-Length: 50000\r\n\r\n")
                    found, began = rest_of(last), time.monotonic()
                    time.sleep(LAST_WAIT / 3)
                    is_running = server.is_running()
                    is_judged = time.monotonic() - began < LAST_WAIT
                status = server.end().status
            if is_judged:
                break
        self.check("the last client's answer", found, NEW)
        self.check("the last client is waited for", (is_judged, is_running, status), (True, True, 0))


class Trickling(DeskTestCase):
    """Requests whose bytes come one by one, each behind a pause."""

    IS_LONG = True

    def test_request_that_trickles_in_is_dropped_after_twenty_seconds(self) -> None:
        """Sends a command of which every byte comes in time and the last one would come too late: it isn't executed, and the next client is served
        before it is dropped."""
        with Server(self.desk, "plant.db", 2, "--log") as server, connected(server.port) as slow:
            began = time.monotonic()
            slow.sendall(POST[:1])
            with connected(server.port) as next_client:
                next_client.sendall(ASK)
                sent = trickled(slow, POST[1:-1], began + MOST_TRICKLED + PAUSE)
                self.check("the client behind it", rest_of(next_client), NEW)
            held = time.monotonic() - began
            self.check_true(f"{sent} bytes were sent, and fewer than all", 0 < sent < len(POST) - 2)
            self.check_true(f"it is dropped after twenty seconds, {held}", MOST_TRICKLED - PAUSE < held < MOST_TRICKLED + 2 * PAUSE)
            with contextlib.suppress(ConnectionResetError):
                self.check("the one that trickles", rest_of(slow), b"")
            lines = server.end().errors.decode().splitlines()
        self.check("its line", [it.split('"')[2].split()[0] for it in lines[1:]], ["200", "0"])
        self.check("what it left", self.desk.run("verify", "plant.db"), (0, b"good schema 4 seq 0\n", b""))


class Endless(DeskTestCase):
    """Clients that send on after their answer."""

    IS_LONG = True

    def test_client_that_sends_on_after_a_refusal_is_closed_after_a_second(self) -> None:
        """Has a client send a piece now and then after its 404: the next client is served at once, and the first is closed."""
        with Server(self.desk, ":memory:", 2) as server, connected(server.port) as endless:
            endless.sendall(got("/nothing"))
            self.check("its answer", rest_of(endless), status_answer(404))
            began = time.monotonic()
            self.check("a client behind it", server.answered(ASK), NEW)
            self.check_true("it is served within a bound", time.monotonic() - began < SILENCE / 2)
            with contextlib.suppress(BrokenPipeError, ConnectionResetError):
                while time.monotonic() - began < MOST_HELD:
                    endless.sendall(b"-")
                    time.sleep(PIECE)
            held = time.monotonic() - began
            self.check_true(f"it is closed within a bound, {held}", held < SILENCE / 2)
            self.check("its server", server.end().status, 0)


def trickled(connection: socket.socket, text: bytes, end: float) -> int:
    """Sends a text byte by byte, with a pause behind each, until this moment or until the connection breaks; returns how many bytes were sent."""
    for count, byte in enumerate(text):
        if time.monotonic() > end:
            return count
        time.sleep(TRICKLE)
        try:
            connection.sendall(bytes([byte]))
        except (BrokenPipeError, ConnectionResetError):
            return count
    return len(text)


class Readers(FanTestCase):
    """Clients that read no answer."""

    def test_client_that_never_reads_its_answer_holds_nobody_up(self) -> None:
        """Has a client ask for an answer of more bytes than the system keeps for it, and not read it: the next client is answered at once. The answer
        that isn't read is dropped after ten seconds, and not told as a whole one."""
        file, desk, answered = self.desk_with_fan()
        whole = len(answered)
        with Server(self.desk, file, 2, "--log") as server, small_connection(server.port) as lazy:
            lazy.sendall(got("/v1/lots/T/forward"))
            began = time.monotonic()
            self.check("a client behind one that doesn't read", server.answered(ASK), desk)
            held = time.monotonic() - began
            self.check_true(f"it is served within a bound, {held}", held < WAIT / 2)
            time.sleep(WAIT + PAUSE)
            with contextlib.suppress(ConnectionResetError):
                read = len(rest_of(lazy))
                self.check_true(f"the answer that wasn't read is no whole one, {read} of {whole}", read < whole)
            self.check("its server", server.end().status, 0)
