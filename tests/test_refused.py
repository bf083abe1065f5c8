"""Allocations that are refused: one at a time of one question and one command that the built desk serves, and of whole runs of programs.

The question is answered as without refusals, or told want of memory, or, where memory is refused for its bytes, not at all; and the same
question is then answered. So is a command, or a fault of the store is told, which ends the server; what was told not to have changed anything
hasn't.
"""
from __future__ import annotations

import pathlib
import shutil
import subprocess
from collections.abc import Callable, Sequence

from tests.support import faults, http, sessions, sqlite
from tests.support.cases import DeskTestCase, ProgramTestCase, good
from tests.support.commands import PLANNED, replies
from tests.support.http import ASK, Server, answer, desk_answer, got, posted
from tests.support.program import Ended, Program, wait_for
from tests.support.sessions import Session

# More allocations than a server makes before its first answer.
MANY = 1 << 20

# How many of a request's allocations are refused, in even steps from its first to its last.
SAMPLES = 120

# The most requests that aren't answered: those whose bytes memory is refused for.
MOST_UNANSWERED = 8

SEQ = 20
MEMORY = answer('{"fault":2}', 503)
STORE = answer('{"fault":1}', 503)
QUESTION = got("/v1/batches/B-1")
QUESTIONS = b"".join(b'{"ask":%s}\n' % it for it in (b'"desk"', b'"batch","batch":"B-1"', b'"forward","lot":"F-1"', b'"lot","lot":"D-1"'))
ORDERS = b"order,recipe,version,size,due,priority\nO-1,CAKE,1,500,2027-03-01,5\nO-2,CAKE,1,300,2027-03-02,4\n"

# An order file behind the commands PLANNED, with quoted fields, an empty line and each end of a record, and the rows that it makes.
ORDER_FILE = (
    b'order,recipe,version,size,due,priority\r\n"O-1",CAKE,1,500,2027-03-01,5\r\n\r\n'
    b'O-2,"CAKE",001,300,2027-03-02,4\nO-3,CAKE,1,900,"2027-03-03",1\rO-4,CAKE,1,100,2027-03-04,9'
)
JOBS = [
    ("O-1", "CAKE", 1, 500, "2027-03-01", 5, "open"),
    ("O-2", "CAKE", 1, 300, "2027-03-02", 4, "open"),
    ("O-3", "CAKE", 1, 900, "2027-03-03", 1, "open"),
    ("O-4", "CAKE", 1, 100, "2027-03-04", 9, "open"),
]

COMMAND = posted("/v1/commands", b'{"at":400,"by":"","do":"receive","lot":"F-2","def":"FLOUR","amount":7,"place":""}')


# Looks at what is behind a refusal: by the case, the server, and what it answered.
CheckBehind = Callable[[str, Server, str], None]

# How an import ends that is made again, the orders that the file has then, and how it is verified.
Imported = tuple[Ended, list[sqlite.Row], Ended]


def last_number(is_refused: Callable[[int], bool]) -> int:
    """Returns the greatest number of an allocation for which this holds; it holds of all below."""
    low, high = 0, MANY
    while low + 1 < high:
        number = (low + high) // 2
        low, high = (number, high) if is_refused(number) else (low, number)
    return low


class RefusedMemory(DeskTestCase):
    """A server over a file of twenty commands."""

    first: pathlib.Path

    @classmethod
    def setUpClass(cls) -> None:
        super().setUpClass()
        cls.first = cls.keep(cls.class_folder(), "first", sessions.twenty_commands())

    def server(self, number: int, connections: int) -> Server:
        """Starts a server over a fresh copy of the file, of which the allocation of this number is refused; then the mark is made."""
        self.mark = self.folder / "refused"
        for it in (self.mark, self.folder / "served.db", self.folder / "served.db-wal"):
            it.unlink(missing_ok=True)
        shutil.copyfile(self.first, self.folder / "served.db")
        return Server(self.desk, "served.db", connections, env=faults.refused_memory(number, self.mark))

    def has_refused(self, number: int, requests: Sequence[bytes]) -> bool:
        """Returns whether the allocation of this number comes within the requests or before them."""
        with self.server(number, len(requests)) as server:
            for it in requests:
                server.answered_or_broken(it)
            return self.mark.exists()

    def numbers_of(self, request: bytes) -> range:
        """Returns the numbers of some allocations of a request that comes behind another question."""
        first = last_number(lambda number: self.has_refused(number, [ASK])) + 1
        last = last_number(lambda number: self.has_refused(number, [ASK, request]))
        return range(first, last + 1, max(1, (last - first) // SAMPLES))

    def check_refusals(self, name: str, request: bytes, whole: bytes, check_behind: CheckBehind) -> None:
        """Refuses allocations of a request, one at a time, and has what is behind each looked at."""
        ends = {"answered": 0, "memory": 0, "store": 0, "nothing": 0}
        for number in self.numbers_of(request):
            with self.server(number, 3) as server:
                self.check(f"{name}, the question before", server.answered_or_broken(ASK), desk_answer(SEQ))
                found = server.answered_or_broken(request)
                told = {whole: "answered", MEMORY: "memory", STORE: "store", b"": "nothing"}.get(found, "otherwise")
                self.check_true(f"{name}, allocation {number}, {found!r}", told in ends)
                ends[told] = ends.get(told, 0) + 1
                check_behind(f"{name}, allocation {number}, told {told}", server, told)
        self.check_true(f"{name}: {ends}", ends["memory"] > 0 and ends["nothing"] <= MOST_UNANSWERED)
        self.note(f"{name}: {ends}")

    def test_question_is_answered_again_behind_refused_memory(self) -> None:
        with self.server(0, 1) as server:
            whole = server.answered_or_broken(QUESTION)
        self.check("a question", whole[:17], b"HTTP/1.1 200 OK\r\n")

        def check_behind(case: str, server: Server, _: str) -> None:
            self.check(f"{case}, the same again", server.answered_or_broken(QUESTION), whole)
            self.check_end(case, server, http.WELL)

        self.check_refusals("a question", QUESTION, whole, check_behind)

    def test_command_that_is_told_refused_memory_changed_nothing(self) -> None:
        self.check_refusals("a command", COMMAND, answer('{"ok":%d}' % (SEQ + 1)), self.check_behind_command)

    def check_behind_command(self, case: str, server: Server, told: str) -> None:
        """Looks where the desk stands, unless a fault of the store has shut it; then what the file holds."""
        if told == "store":
            self.check_end(case, server, (3, b"", b"fault: store\n"))
        else:
            self.check(f"{case}, the desk", server.answered_or_broken(ASK), desk_answer(SEQ + (told == "answered")))
            self.check_end(case, server, http.WELL)
        found, kept = self.desk.run("verify", "served.db"), [good(it) for it in (SEQ, SEQ + 1)]
        self.check_true(f"{case}, the file {found}", found in (kept if told == "store" else [kept[told == "answered"]]))

    def check_end(self, case: str, server: Server, wanted: tuple[int, bytes, bytes]) -> None:
        ended = server.end()
        self.check(f"{case}, the server", (ended.status, ended.errors), (wanted[0], wanted[2]))


class RefusedRuns(ProgramTestCase):
    """Runs of programs to their end, of which one allocation is refused: each in turn, or each so many-th.

    What is written is all of the right output, or whole lines from its front, then perhaps the line of a fault, with the status and the one line
    on standard error of that fault: want of memory, or a store that failed for it.
    """

    PROGRAMS = ("desk", "order_check", "lists")

    # Over a file the allocations of each so many-th number are refused.
    STEP = 23

    def setUp(self) -> None:
        super().setUp()
        self.mark = self.folder / "refused"

    def check_runs(
        self, case: str, program: Program, words: Sequence[str], told: bytes, step: int = 1,
        before: Callable[[], None] | None = None, after: Callable[[str, Ended, str | None], None] | None = None,
    ) -> None:
        """Refuses allocations of a run in turn, up to the first number that it doesn't come to. `before` makes the file anew, and `after` looks at
        what a run left in it."""
        if before:
            before()
        whole = program.run(*words, told=told)
        ends: dict[str | None, int] = {}
        for number in faults.numbers(1, step):
            self.mark.unlink(missing_ok=True)
            if before:
                before()
            found = program.run(*words, told=told, env=faults.refused_memory(number, self.mark))
            end = how_ended(found, whole)
            self.check_true(f"{case}, allocation {number}: {found}", end)
            if after:
                after(f"{case}, allocation {number}", found, end)
            if not self.mark.exists():
                break
            ends[end] = ends.get(end, 0) + 1
        self.check(f"{case}, the last run", end, "all was done")
        self.check_true(f"{case}: {ends}", ends.get("want of memory"))
        self.note(f"{case}, of {number - 1} allocations{f' each {step}th' if step > 1 else ''}: {ends}")

    def test_keeper_of_lists_answers_a_front_of_twenty_commands(self) -> None:
        told = sessions.twenty_commands().told + QUESTIONS
        self.check_runs("twenty commands over lists", Program("lists", self.folder), [], told)

    def test_order_check_reports_want_of_memory(self) -> None:
        check = Program("order_check", self.folder)
        for case, told in [("orders", ORDERS), ("no orders", b"orders\n"), ("a bad row", ORDERS + b"O-9\n")]:
            self.check_runs(f"order_check of {case}", check, [], told)

    def test_desk_keeps_a_front_of_twenty_commands(self) -> None:
        session = sessions.twenty_commands()

        def check_kept(case: str, found: Ended, _: str | None) -> None:
            count = found.output.count(b'{"ok":')
            kept = Program("desk", self.folder).run("verify", "run.db")
            # A file whose desk wasn't made yet has accepted nothing.
            self.check_true(f"{case}, kept {kept}", kept in [good(it) for it in (count, count + 1)])

        desk, told = Program("desk", self.folder), session.told
        self.check_runs("twenty commands over a file", desk, ["run", "run.db"], told, self.STEP, self.removed("run.db"), check_kept)

    def test_desk_reports_want_of_memory_in_each_word(self) -> None:
        desk, session = Program("desk", self.folder), sessions.whole_batch()
        self.check("a batch", desk.run("run", "first.db", told=session.told), session.ended())
        count = session.count()

        def check_kept(case: str, found: Ended, _: str | None) -> None:
            kept = desk.run("verify", "copy.db")
            self.check_true(f"{case}, kept {kept}", kept in [good(count), good(count + 1)][: 1 + is_import])

        for words, told in [
            (["init", "copy.db"], b""),
            (["verify", "copy.db"], b""),
            (["record", "copy.db", "B-1"], b""),
            (["trace", "copy.db", "forward", "F-1"], b""),
            (["import", "copy.db", "--at", "400"], b"order,recipe,version,size,due,priority\n"),
        ]:
            is_import = words[0] == "import"
            self.check_runs(" ".join(words), desk, words, told, self.STEP, self.copied("first.db", "copy.db"), check_kept)

    def removed(self, file: str) -> Callable[[], None]:
        """Returns what removes a file with its log."""
        def remove() -> None:
            for it in ("", "-wal"):
                (self.folder / f"{file}{it}").unlink(missing_ok=True)

        return remove

    def copied(self, first: str, file: str) -> Callable[[], None]:
        """Returns what makes a file anew as a copy."""
        removed = self.removed(file)

        def copy() -> None:
            removed()
            shutil.copyfile(self.folder / first, self.folder / file)

        return copy


class RefusedImport(DeskTestCase):
    """An import of an order file over copies of one file, of which one allocation is refused: each in turn from the first read of the order file to
    the end, and before that, while the file is opened, each so many-th.

    All orders are taken in, or none and want of memory is told, or a store that failed for it. Then the same import is accepted without refusals.
    """

    IN_MEMORY = IS_LONG = True

    # While the file is opened the allocations of each so many-th number are refused.
    STEP = 23

    first: pathlib.Path

    @classmethod
    def setUpClass(cls) -> None:
        super().setUpClass()
        cls.first = cls.keep(cls.class_folder(), "planned", Session().accepted(*PLANNED))

    def setUp(self) -> None:
        super().setUp()
        self.file, self.log, self.mark = (self.folder / it for it in ("plant.db", "plant.db-wal", "refused"))
        self.words = ["import", self.file.name, "--at", "400"]
        self.imported: dict[tuple[bytes, ...], Imported] = {}

    def clear(self) -> None:
        """Makes the file anew."""
        for it in (self.log, self.mark):
            it.unlink(missing_ok=True)
        shutil.copyfile(self.first, self.file)

    def is_refused_unread(self, number: int) -> bool:
        """Returns whether the allocation of this number comes before the first read of the order file, of which nothing is given here."""
        self.clear()
        with self.desk.start(*self.words, stdin=subprocess.PIPE, env=faults.refused_memory(number, self.mark)) as waiting:
            wait_for(waiting, "SZ")
            return self.mark.exists()

    def import_again(self) -> Imported:
        """Imports the order file without refusals, once over the same bytes; returns how that ends, and what the file has then."""
        left = tuple(it.read_bytes() if it.exists() else b"" for it in (self.file, self.log))
        if left not in self.imported:
            ended = self.desk.run(*self.words, told=ORDER_FILE)
            self.imported[left] = ended, sqlite.rows(self.file, "SELECT * FROM job ORDER BY id"), self.desk.run("verify", self.file.name)
        return self.imported[left]

    def check_import(self, number: int, ends: dict[str | None, int]) -> bool:
        """Imports the order file with the allocation of this number refused, and once more; notes the end, and returns whether it was refused."""
        self.clear()
        found = self.desk.run(*self.words, told=ORDER_FILE, env=faults.refused_memory(number, self.mark))
        end = how_ended(found, Ended(0, replies(len(PLANNED) + 1, 1), b""))
        case, is_refused = f"allocation {number}, {found}", self.mark.exists()
        again, jobs, verified = self.import_again()
        counts_by_end = {"all was done": [1], "the store failed": [0, 1], "want of memory": [0], "no words": [0]}
        counts = counts_by_end.get(end or "", [])
        # An import of orders that are there is accepted, and takes none.
        kept = [it for it in counts if again == (0, replies(len(PLANNED) + it + 1, 1), b"")]
        self.check_true(f"{case}, the same again {again}", kept)
        self.check(f"{case}, its orders", jobs, JOBS)
        self.check_true(f"{case}, verified {verified}", verified in [good(len(PLANNED) + it + 1) for it in kept])
        if not is_refused:
            self.check(f"{case}, without a refusal", end, "all was done")
        ends[end] = ends.get(end, 0) + is_refused
        return is_refused

    def test_order_file_is_imported_whole_or_not_at_all(self) -> None:
        unread = last_number(self.is_refused_unread)
        ends: dict[str | None, int] = {}
        read_ends: dict[str | None, int] = {}
        for number in range(1, unread + 1, self.STEP):
            self.check_import(number, ends)
        for number in faults.numbers(unread + 1):
            if not self.check_import(number, read_ends):
                break
        for case, them in (("before", ends), ("behind", read_ends)):
            self.check_true(f"{case} the first read: {them}", them.get("want of memory"))
        self.note(f"an import, of {unread} allocations before the first read each {self.STEP}th: {ends}")
        self.note(f"an import, each of {number - unread - 1} allocations behind the first read: {read_ends}")


def how_ended(found: Ended, whole: Ended) -> str | None:
    """Returns how a run ended of which an allocation was refused, next to how it ends without that; nothing where it ended wrongly."""
    if found == whole:
        return "all was done"
    lines = sessions.lines_of(found.output)
    if lines and lines[-1] in (b'{"fault":1}\n', b'{"fault":2}\n'):
        lines.pop()
    is_front = whole.output.startswith(b"".join(lines))
    if is_front and (found.status, found.errors) == (4, b"fault: memory\n"):
        return "want of memory"
    if is_front and (found.status, found.errors) == (3, b"fault: store\n"):
        return "the store failed"
    return "no words" if found[:2] == (2, b"") else None
