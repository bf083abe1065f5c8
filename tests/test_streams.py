"""The built desk over streams that are narrow and fail: its standard input and output, and its connections.

A read gives one byte, and a write takes three: what is answered is the same. They fail at each call in turn: what was answered is a
front of it, and is kept. It is counted that a request is read to its last byte and no further, and that a short reply is one write.
"""
from __future__ import annotations

import errno
import shutil
from collections.abc import Callable, Collection, Iterable, Mapping, Sequence

from tests.support import faults, http, sessions
from tests.support.cases import DeskTestCase, good
from tests.support.commands import GOODS, compact, divide, lift, recall, receive, scrap, split
from tests.support.http import ACCEPTED, ASK, NEW, POST, Server, answer, posted
from tests.support.program import PACKED, SECONDS, Ended, Program
from tests.support.sessions import Session, lines_of

# How the words end whose streams fail.
READ, WRITE, MEMORY = (3, b"fault: read\n"), (3, b"fault: write\n"), (4, b"fault: memory\n")
WELL = (0, b"")

# What makes streams narrow: a byte a read, three bytes a write.
NARROW = {"READ_MOST": 1, "WRITE_MOST": 3}

# Replies and answers up to this size are one write.
ONE_WRITE = 4096

# So many empty lines are read, a byte a read.
MANY = 1_000_000

# So many lines are told whose replies a pipe doesn't hold.
MANY_LINES = 30_000

# A command whose class isn't there.
DEFINITION = b'{"at":100,"by":"anna","do":"add_definition","def":"SUGAR","class":"RAW","name":"","unit":"g"}'

# A command of 72 bytes that a new desk accepts.
CLASS = b'{"at":100,"by":"anna","do":"add_class","class":"RAW","name":"Raw goods"}'

# Requests to a new desk, one after the other, with what is answered.
REQUESTS = [
    (b"GET /v1/desk HTTP/1.1\r\nHost: a\r\n\r\n", NEW),
    (b"HEAD /v1/desk HTTP/1.1\r\nHost: a\r\n\r\n", NEW[: -len(b'{"schema":4,"seq":0}')]),
    (posted("/v1/commands", DEFINITION), answer('{"name":"UnknownClass","refused":4}', 409)),
    (b"GET /v1/lots/L-9 HTTP/1.1\r\nHost: a\r\n\r\n", answer('{"name":"UnknownLot","refused":9}', 404)),
    (b"GET /v1/recalls/RC-1 HTTP/1.1\r\nHost: a\r\n\r\n", http.answer('{"name":"UnknownRecall","refused":33}', 404)),
    (b"GET /v1/desk HTTP/1.1\r\n\r\n", http.status_answer(400)),
    (b"POST /v1/orders HTTP/1.1\r\nHost: a\r\nDesk-At: 7\r\nContent-Length: 6\r\n\r\norders", answer('{"csv":"Header","row":0}', 400)),
    (ASK, NEW),
    (posted("/v1/commands", CLASS), ACCEPTED),
    (ASK, http.desk_answer(1)),
]

# Requests that end early, so that one more read finds their end, and what is answered.
CUT = [(b"", b""), (b"GET /v1/desk HTTP/1.1\r\nHost", http.status_answer(400)), (POST[:-9], http.status_answer(400))]

# Commands around a recall and its lift, with the status and the body that are answered: what is refused is a conflict.
RECALLS = [
    (receive("L-1", 500), b"200", b'{"ok":3}'),
    (lift(), b"409", b'{"name":"UnknownRecall","refused":33}'),
    (recall("L-1"), b"200", b'{"ok":4}'),
    (split("L-1", 1, "L-2"), b"409", b'{"name":"Recalled","refused":32}'),
    (lift(), b"200", b'{"ok":5}'),
    (lift(), b"409", b'{"name":"RecallLifted","refused":34}'),
]


class StreamTestCase(DeskTestCase):
    """A test case over the desk, with a library before it that narrows its streams."""

    IN_MEMORY = True

    kept: Program

    @classmethod
    def setUpClass(cls) -> None:
        super().setUpClass()
        cls.kept = Program("desk", cls.class_folder())
        cls.keep_named("empty", Session())

    @classmethod
    def keep_named(cls, name: str, session: Session) -> None:
        """Keeps the file that a session leaves, of which `copied` makes copies."""
        cls.keep(cls.kept.folder, name, session)

    def copied(self, name: str = "empty") -> str:
        """Returns the name of a fresh copy of a kept file."""
        (self.folder / "copy.db-wal").unlink(missing_ok=True)
        shutil.copyfile(f"{self.kept.folder}/{name}.db", self.folder / "copy.db")
        return "copy.db"

    def run_over(self, limits: Mapping[str, int], *words: str, told: bytes = b"") -> tuple[tuple[int, bytes], bytes]:
        """Runs words over streams with limits; returns how the run ends, and what it wrote."""
        ran = self.desk.run(*words, told=told, env=faults.narrow_streams(**limits))
        return (ran.status, ran.errors), ran.output

    def serve_over(self, limits: Mapping[str, int], file: str, request: bytes) -> tuple[bytes, tuple[int, bytes]]:
        """Serves one request over a connection with limits; returns what is answered, nothing where it breaks, and how the server ends."""
        with Server(self.desk, file, 1, env=faults.narrow_streams(**limits)) as server:
            text = server.answered_or_broken(request, is_last=request in [cut for cut, _ in CUT])
            ended = server.end()
        return text, (ended.status, ended.errors)

    def check_copy(self, case: str, counts: Iterable[int]) -> None:
        """Verifies the copy, which has to hold one of these numbers of commands."""
        found = self.desk.run("verify", "copy.db")
        self.check_true(f"{case}, verified {found}", found in [good(it) for it in counts])


def goods() -> Session:
    """Returns a session of four commands and a question."""
    session = Session("goods").accepted(*GOODS, receive("L-1", 500), scrap("L-1", 20))
    return session.asked('{"ask":"desk"}', '{"schema":4,"seq":4}')


class Lines(StreamTestCase):
    """Standard input and output."""

    def test_sessions_in_pieces_are_answered_alike(self) -> None:
        for path in sessions.files():
            session = sessions.read(path)
            found = self.run_over(NARROW, told=session.told)
            self.check(f"{session.name}, in pieces", found, ((session.status(), b""), session.wanted))

    def test_million_empty_lines_are_read(self) -> None:
        self.check("empty lines", self.run_over(NARROW, told=b"\n" * MANY), (WELL, b""))

    def test_lines_before_a_failed_read_are_answered(self) -> None:
        session = goods()
        for count in range(len(session.told)):
            wanted = b"".join(lines_of(session.wanted)[: session.told[:count].count(b"\n")])
            found = self.run_over({**NARROW, "READS": count}, told=session.told)
            self.check(f"a read fails behind {count}", found, (READ, wanted))

    def test_front_of_the_replies_is_written_and_kept_where_a_write_fails(self) -> None:
        self.check_failed_writes(errno.EIO)

    def test_front_of_the_replies_is_written_and_kept_where_a_write_takes_nothing(self) -> None:
        self.check_failed_writes(0)

    def check_failed_writes(self, error: int) -> None:
        """Fails each write in turn by this error: a front of the replies was written, and what was answered is kept."""
        session = goods()
        for count in range(len(session.wanted)):
            limits = {**NARROW, "WRITES": count, "WRITE_ERROR": error}
            end, found = self.run_over(limits, "run", self.copied(), told=session.told)
            case = f"a write fails behind {count}, by {error}"
            whole = found.count(b"\n")
            self.check(case, (end, found), (WELL if found == session.wanted else WRITE, session.wanted[: len(found)]))
            self.check_copy(case, {min(whole + it, session.count()) for it in (0, 1)})
            if found == session.wanted:
                break
        self.check("a run ends well", found, session.wanted)

    def test_refused_memory_is_no_failed_read(self) -> None:
        """Refuses memory as an order file is read."""
        for limits, wanted, text in [({"READS": 0, "READ_ERROR": errno.ENOMEM}, MEMORY, b'{"fault":2}\n'), ({"READS": 0}, READ, b"")]:
            found = self.run_over(limits, "import", "orders.db", "--at", "1", "--by", "anna", told=b"order")
            self.check(f"an import, {limits}", found, (wanted, text))

    def test_reply_of_4096_bytes_is_one_write_and_a_longer_one_two(self) -> None:
        """Asks about a lot whose answer, with the LF behind it, has the greatest size of one write, or a byte more."""
        session = Session().accepted(*GOODS, receive("L-1", 900))
        for size in (ONE_WRITE, ONE_WRITE + 1):
            told = session.told + divisions_for(size) + b'{"ask":"lot","lot":"L-1"}\n'
            _, found = self.run_over({}, told=told)
            lines = lines_of(found)
            self.check(f"a reply of {size} bytes", len(lines[-1]), size)
            wanted = (WELL, found) if size <= ONE_WRITE else (WRITE, found[:-1])
            self.check(f"the writes of a reply of {size} bytes", self.run_over({"WRITES": len(lines)}, told=told), wanted)


class Outputs(StreamTestCase):
    """What each program and each word prints, where standard output fails within it."""

    PROGRAMS = PACKED

    @classmethod
    def setUpClass(cls) -> None:
        super().setUpClass()
        cls.keep_named("batch", sessions.whole_batch())

    def program(self, name: str) -> Program:
        return Program(name, self.folder)

    def check_failed_writes(
        self, name: str, *words: str, told: bytes = b"", copied: str | None = None, counts: Collection[int] = (),
    ) -> None:
        """Fails the output of a program behind some writes of three bytes, by each error: a front of it was written, and one line tells it. The
        file is a fresh copy of the kept one each time, and has one of these numbers of commands then."""
        case = f"{name} {' '.join(words)}"
        whole = self.run_fresh(name, words, told, copied, {}).output
        last = -(-len(whole) // 3) - 1
        for error in errno.ENOSPC, errno.EPIPE, 0:
            for count in sorted({0, 1, last // 2, last}):
                limits = faults.narrow_streams(WRITE_MOST=3, WRITES=count, WRITE_ERROR=error)
                status, output, errors = self.run_fresh(name, words, told, copied, limits)
                is_front = whole.startswith(output) and bool(count) <= len(output) <= 3 * count < len(whole)
                self.check(f"{case}: {count} writes, {error}: {output!r}", (status, errors, is_front), (*WRITE, True))
                if counts:
                    self.check_copy(f"{case}: {count} writes, {error}", counts)

    def run_fresh(
        self, name: str, words: Sequence[str], told: bytes, copied: str | None, limits: Mapping[str, str],
    ) -> Ended:
        """Runs a program over a fresh copy of a kept file."""
        if copied:
            self.copied(copied)
        return self.program(name).run(*words, told=told, env=limits)

    def test_word_of_the_desk_whose_output_fails_within_it_tells_it(self) -> None:
        questions = b"".join(b'{"ask":%s}\n' % it for it in (b'"desk"', b'"batch","batch":"B-1"', b'"movements","lot":"F-1"', b'"desk"'))
        orders = b"order,recipe,version,size,due,priority\n"
        seq = sessions.whole_batch().count()
        for words, told, counts in [
            (["init", "copy.db"], b"", {seq}),
            (["verify", "copy.db"], b"", {seq}),
            (["run", "copy.db"], questions, {seq}),
            (["trace", "copy.db", "forward", "F-1"], b"", {seq}),
            (["record", "copy.db", "B-1"], b"", {seq}),
            (["import", "copy.db", "--at", "400"], orders, {seq + 1}),
            (["import", "copy.db", "--at", "400"], orders + b"O-9\n", {seq}),
        ]:
            self.check_failed_writes("desk", *words, told=told, copied="batch", counts=counts)
        self.check_failed_writes("desk", told=questions)

    def test_check_or_picture_whose_output_fails_within_it_tells_it(self) -> None:
        self.check_failed_writes("order_check", told=b"order,recipe,version,size,due,priority\n" + b"O-1,R,1,1,2027-03-01,5\n" * 9)
        self.check_failed_writes("order_check", told=b"order\n")
        self.check_failed_writes("line_check", told=b"{}\n" * 9)
        self.check_failed_writes("line_check", told=b'{"ask":"desk"}\n' * 9)
        options: list[list[str]] = [[], ["--json"]]
        for words in options:
            self.check_failed_writes("desk_check", *words, "copy.db", copied="batch")
            self.check_failed_writes("desk_check", *words, "nowhere.db")
        answer = self.kept.run("run", "batch.db", told=b'{"ask":"forward_edges","lot":"F-1"}\n').output
        for word in "--dot", "--svg":
            self.check_failed_writes("genealogy_picture", word, told=answer)

    def test_reader_that_goes_within_the_output_is_a_failed_write(self) -> None:
        """Closes the other end of the pipe that is the standard output, behind the first bytes of more than a pipe holds."""
        self.copied("batch")
        runs: list[tuple[str, list[str], bytes]] = [
            ("desk", [], b'{"ask":"desk"}\n'),
            ("desk", ["run", "copy.db"], b'{"ask":"lot","lot":"F-1"}\n'),
            ("line_check", [], b"{}\n"),
        ]
        for name, words, told in runs:
            (self.folder / "lines").write_bytes(told * MANY_LINES)
            with open(self.folder / "lines", "rb") as lines, self.program(name).start(*words, stdin=lines) as run:
                front = run.stdout.read(8)
                run.stdout.close()
                ended = (run.wait(timeout=SECONDS), run.stderr.read())
            self.check(f"{name} {words}, whose reader goes behind {front!r}", (ended, len(front)), (WRITE, 8))


class Requests(StreamTestCase):
    """Connections."""

    def test_requests_are_read_to_their_last_byte_in_one_piece(self) -> None:
        self.check_requests({}, lambda request: 1)

    def test_requests_are_read_to_their_last_byte_by_the_byte(self) -> None:
        self.check_requests({"READ_MOST": 1}, len)

    def check_requests(self, limits: Mapping[str, int], reads_of: Callable[[bytes], int]) -> None:
        """Serves requests to one desk, with no read behind those that they need."""
        file = self.copied()
        for more, requests in ((1, CUT), (0, REQUESTS)):
            for request, wanted in requests:
                found = self.serve_over({**limits, "READS": reads_of(request) * bool(request) + more}, file, request)
                self.check(f"{request[:60]!r}, {limits}", found, (wanted, WELL))

    def test_record_is_answered_alike_in_one_byte_pieces(self) -> None:
        self.keep_named("batch", sessions.whole_batch())
        record = self.kept.run("record", "batch.db", "B-1").output
        wanted = answer(record.decode(), kind="text/plain")
        each: list[dict[str, int]] = [{}, NARROW]
        for limits in each:
            found = self.serve_over(limits, self.copied("batch"), http.got("/v1/batches/B-1/record"))
            self.check(f"the record, {limits}", found, (wanted, WELL))

    def test_command_whose_read_fails_is_not_answered_and_changes_nothing(self) -> None:
        file = self.copied()
        for count in range(len(POST)):
            found = self.serve_over({"READ_MOST": 1, "READS": count}, file, POST)
            self.check(f"a request fails behind {count} bytes", found, (b"", WELL))
        self.check_copy("a request that failed", {0})

    def test_command_whose_answer_is_not_taken_was_executed_once(self) -> None:
        """Has each write of an answer in turn take nothing: a front of it was written."""
        for count in range(len(ACCEPTED)):
            limits = {**NARROW, "WRITES": count, "WRITE_ERROR": 0, "READ_MOST": 512}
            text, end = self.serve_over(limits, self.copied(), POST)
            self.check(f"an answer fails behind {count} writes", (text, end), (ACCEPTED[: 3 * count], WELL))
            self.check_copy(f"an answer that failed behind {count} writes", {1})
            if text == ACCEPTED:
                break

    def test_head_of_5000_bytes_takes_too_many_reads_by_the_byte(self) -> None:
        head = b"GET /v1/desk HTTP/1.1\r\nHost: a\r\nX: "
        request = head.ljust(4996, b"a") + b"\r\n\r\n"
        for most, wanted in ((1, b""), (8192, NEW)):
            found = self.serve_over({"READ_MOST": most}, self.copied(), request)
            self.check(f"a head of 5,000 bytes, {most} a read", found, (wanted, WELL))

    def test_answer_is_one_write(self) -> None:
        for request, wanted in ((ASK, NEW), (POST, ACCEPTED)):
            found = self.serve_over({"WRITES": 1}, self.copied(), request)
            self.check(f"one write of {request[:20]!r}", found, (wanted, WELL))

    def test_refused_recall_and_lift_are_conflicts(self) -> None:
        self.keep_named("goods", Session().accepted(*GOODS))
        file = self.copied("goods")
        for body, status, wanted in RECALLS:
            text, end = self.serve_over({}, file, posted("/v1/commands", b'{"at":100,"by":"",%s}' % body.encode()))
            self.check(f"over HTTP: {body}", (text.split()[1], text.partition(b"\r\n\r\n")[2], end), (status, wanted, WELL))

    def test_server_that_gets_no_connection_tells_the_fault_of_the_net(self) -> None:
        found = self.serve_over({"ACCEPTS": 0}, self.copied(), ASK)
        self.check("no connection", found, (b"", (3, b"fault: net\n")))


def divisions_for(size: int) -> bytes:
    """Returns lines that divide a lot of 900 again and again, so that the answer about it has this size with its LF."""
    def told(places: Sequence[str]) -> str:
        stocks = [900 - len(places)] + [1] * len(places)
        parts = [{"no": number, "place": place, "stock": stock} for number, (place, stock) in enumerate(zip(["", *places], stocks))]
        return compact({"def": "SUGAR", "held": False, "lot": "L-1", "stock": 900, "sublots": parts}) + "\n"

    places: list[str] = []
    while size - len(told([*places, ""])) >= 0:
        places.append("")
    places[0] = "P" * (size - len(told(places)))
    return b"".join(b'{"at":100,"by":"",%s}\n' % divide("L-1", place=it).encode() for it in places)
