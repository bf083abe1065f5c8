"""Stops of the desk's files within its commands, and what they leave.

A course of commands is run over files of which one, the log or the database, fails at every call but the first so many, for each number up
to the first that lets the run end well. What is left is taken as all that was written, as what was synced alone, and as the front of the one
with the back of the other. Opened anew, each holds the rows after the commands that were answered, or, where a command was under way, perhaps
after that one.
"""
from __future__ import annotations

import functools
import itertools
import pathlib
import shutil
import signal
import tempfile
from typing import Protocol

from tests.support import faults, http, sqlite
from tests.support.cases import DeskTestCase, good
from tests.support.commands import EACH_COMMAND, GOODS, add_recipe, approve, import_orders, receive
from tests.support.http import Server, posted
from tests.support.program import Ended, Program
from tests.support.sessions import Session, lines_of

FAULT = b'{"fault":1}\n'
STORE = b"fault: store\n"

# The two files of a desk, by the ends of their names.
LOG, DATABASE = "-wal", ".db"

# So many receipts outgrow the log, which is copied into the database while the run goes on.
MANY = 400

# Of the calls of the log, and of the database, in a run that long each so many-th is stopped at.
STRIDE, DATABASE_STRIDE = 61, 5

# How many stops of a run are followed by stops of the opening of what they left.
FOLLOWED = 4

# A run has more calls than this, at each of which it is stopped.
LEAST_STOPS = 20


# What stands in the two files, by the ends of their names.
Image = dict[str, bytes]


class Files:
    """The two files of a desk, in a folder of their own."""

    def __init__(self, place: pathlib.Path, image: Image) -> None:
        self.folder = pathlib.Path(tempfile.mkdtemp(dir=place))
        self.desk, self.database = Program("desk", self.folder), self.folder / "plant.db"
        for end, found in image.items():
            self.path(end).write_bytes(found)

    def __enter__(self) -> Files:
        return self

    def __exit__(self, *_: object) -> None:
        shutil.rmtree(self.folder)

    def path(self, end: str, synced: bool = False) -> pathlib.Path:
        """Returns the path of a file, or of what of it was synced."""
        name = self.database.name + end.removeprefix(DATABASE)
        return self.folder / (name + ".synced" if synced else name)

    def run(self, word: str, told: bytes = b"") -> Ended:
        return self.desk.run(word, self.database.name, told=told, env=faults.synced_files())

    def stopped(self, word: str, end: str, calls: int, told: bytes = b"") -> Ended:
        """Runs a word over the files, of which one fails behind so many of its calls."""
        return self.desk.run(word, self.database.name, told=told, env=faults.stopped_file(end, calls))

    def image(self, before: Image | None = None) -> Image:
        """Returns what stands in the files, or, where this stood in them before, what of it was synced."""
        found = {}
        for end in (LOG, DATABASE):
            path = self.path(end, synced=before is not None)
            found[end] = path.read_bytes() if path.exists() else (before or {}).get(end, b"")
        return found

    def images(self, before: Image) -> list[Image]:
        """Returns what a stop may have left in the files: what was written, what was synced, and the front of each with the back of the other."""
        written, synced = self.image(), self.image(before)
        return [written] if written == synced else [written, synced, torn(written, synced), torn(synced, written)]


def common(front: bytes, back: bytes) -> int:
    """Returns how many bytes the two begin with alike."""
    low, high = 0, min(len(front), len(back))
    while low < high:
        middle = (low + high + 1) // 2
        low, high = (middle, high) if front[low:middle] == back[low:middle] else (low, middle - 1)
    return low


def spliced(front: bytes, back: bytes) -> bytes:
    """Returns the bytes of the one, and from the middle of what differs on those of the other."""
    middle = (common(front, back) + max(len(front), len(back))) // 2
    return front[:middle].ljust(middle, b"\0") + back[middle:] if middle < len(back) else front[:middle]


def torn(front: Image, back: Image) -> Image:
    return {end: spliced(front[end], back[end]) for end in front}


class Course:
    """Commands, one a line, each of which is accepted, over files as they stand at first."""

    def __init__(self, place: pathlib.Path, session: Session, first: Image) -> None:
        self.place, self.first = place, first
        self.told, self.wanted = lines_of(session.told), lines_of(session.wanted)
        self.before = int(self.wanted[0].removeprefix(b'{"ok":').removesuffix(b"}\n")) - 1

    @functools.lru_cache(maxsize=None)
    def rows_after(self, count: int) -> list[str]:
        """Returns the rows after so many of the commands, and none of them twice."""
        with Files(self.place, self.first) as files:
            ended = files.run("run", told=b"".join(self.told[:count]))
            assert ended == (0, b"".join(self.wanted[:count]), b""), ended
            return sorted(sqlite.dumped(files.database))

    def counts_told(self, ended: Ended) -> set[int]:
        """Returns how many commands may have been kept, by what a run told; none where it told what it mustn't."""
        status, output, errors = ended
        answered = sum(1 for _ in itertools.takewhile(lambda it: it[0] == it[1], zip(lines_of(output), self.wanted)))
        front, all_of_them = b"".join(self.wanted[:answered]), len(self.wanted)
        if (status, errors) == (0, b""):
            return {answered} if output == front and answered == all_of_them else set()
        if (status, errors) != (3, STORE):
            return set()
        if output == front + FAULT and answered < all_of_them:
            return {answered, answered + 1}
        return {answered} if output == front and answered in (0, all_of_them) else set()


def image_of(place: pathlib.Path, session: Session, statements: str = "") -> Image:
    """Returns the files of a new desk behind a session and statements of another program."""
    with Files(place, {}) as files:
        ended = files.run("run", told=session.told)
        assert ended == session.ended(), ended
        sqlite.changed(files.database, statements)
        return files.image()


def each_command(are_referred: bool) -> Session:
    """Returns a session of a command of each kind, each under a reference or none."""
    session = Session()
    for number, (body, _) in enumerate(EACH_COMMAND, 1):
        session.accepted(body + (f',"ref":"K-{number}"' if are_referred else ""))
    return session


def behind(session: Session, *bodies: str) -> Session:
    """Returns more commands, behind those of the session."""
    whole = Session(wanted=session.wanted).accepted(*bodies)
    return Session(told=whole.told, wanted=whole.wanted.removeprefix(session.wanted))


class StopTestCase(DeskTestCase):
    """A test case that stops one of the files within a course."""

    IN_MEMORY = IS_LONG = True

    course: Course

    @classmethod
    def setUpClass(cls) -> None:
        super().setUpClass()
        cls.course = cls.new_course(cls.class_folder())

    @classmethod
    def new_course(cls, place: pathlib.Path) -> Course:
        """Returns the course, whose files are kept in a folder."""
        raise NotImplementedError

    def check_stops(self, end: str, stride: int = 1, is_followed: bool = False) -> None:
        """Stops the course behind each number of calls up to the first that lets it end well."""
        self.end = end
        self.opened: dict[tuple[bytes, ...], tuple[Ended, list[str]]] = {}
        ends = [self.check_stop(0)]
        for calls in faults.numbers(1, stride):
            ends.append(self.check_stop(calls))
            if ends[-1][0]:
                break
        if is_followed:
            for calls in range(len(ends) // FOLLOWED, len(ends), len(ends) // FOLLOWED):
                self.check_stop_again(calls, *ends[calls][1:])
        self.check_true(f"{end} has {len(ends)} stopped runs", len(ends) > LEAST_STOPS)

    def check_stop(self, calls: int) -> tuple[bool, set[int], Image]:
        """Runs the course with a stop behind so many calls; returns whether it ended well, how many commands may be kept, and what is left."""
        with Files(self.course.place, self.course.first) as files:
            ended = files.stopped("run", self.end, calls, b"".join(self.course.told))
            counts = self.course.counts_told(ended)
            self.check_true(f"{self.end} after {calls} calls, told {ended}", counts)
            for image in files.images(self.course.first):
                self.check_left(f"{self.end} after {calls} calls", image, counts)
            return ended.status == 0, counts, files.image()

    def check_stop_again(self, calls: int, counts: set[int], image: Image) -> None:
        """Verifies what a stop has left, with a stop behind each number of calls."""
        for more in faults.numbers(0):
            with Files(self.course.place, image) as files:
                status, output, errors = files.stopped("verify", self.end, more)
                case = f"{self.end} after {calls} and {more} calls"
                self.check_true(f"{case}, told {output + errors!r}", (status, errors) in [(0, b""), (3, STORE)])
                for it in files.images(image):
                    self.check_left(case, it, counts)
            if status == 0:
                return

    def check_left(self, case: str, image: Image, counts: set[int]) -> None:
        """Opens what is left anew: it is good, and holds the rows after one of these numbers of commands."""
        told, rows = self.rows_of(image)
        kept = {good(self.course.before + it): it for it in counts}
        self.check_true(f"{case}, verified, {told}", told in kept)
        if told in kept:
            self.check(f"{case}, its rows", rows, self.course.rows_after(kept[told]))

    def rows_of(self, image: Image) -> tuple[Ended, list[str]]:
        """Opens files anew, once; returns what verify tells of them, and their rows behind it."""
        key = tuple(image.values())
        if key not in self.opened:
            with Files(self.course.place, image) as files:
                told = files.run("verify")
                self.opened[key] = told, [] if told.status else sorted(sqlite.dumped(files.database))
        return self.opened[key]


class EachCommand(StopTestCase):
    """A command of each kind, over no file; four stops are followed by stops of the opening of what they left."""

    @classmethod
    def new_course(cls, place: pathlib.Path) -> Course:
        return Course(place, each_command(are_referred=False), {})

    def test_what_a_stop_of_the_log_leaves_is_good(self) -> None:
        self.check_stops(LOG, is_followed=True)

    def test_what_a_stop_of_the_database_leaves_is_good(self) -> None:
        self.check_stops(DATABASE, is_followed=True)


class Stopped(Protocol):
    """What the tests of a course take of their test case."""

    def check_stops(self, end: str, stride: int = 1, is_followed: bool = False) -> None: ...


class CourseTests:
    """The stops of a course of another class."""

    def test_what_a_stop_of_the_log_leaves_is_good(self: Stopped) -> None:
        self.check_stops(LOG)

    def test_what_a_stop_of_the_database_leaves_is_good(self: Stopped) -> None:
        self.check_stops(DATABASE)


class UnderReferences(CourseTests, StopTestCase):
    """A command of each kind under a reference, beside a table of another program, which stays."""

    @classmethod
    def new_course(cls, place: pathlib.Path) -> Course:
        return Course(place, each_command(are_referred=True), image_of(place, Session(), sqlite.OTHER_TABLE))


class Import(CourseTests, StopTestCase):
    """An import of 50 orders."""

    @classmethod
    def new_course(cls, place: pathlib.Path) -> Course:
        plan = Session().accepted(*GOODS, add_recipe(1), approve())
        return Course(place, behind(plan, import_orders(50)), image_of(place, plan))


class LongRun(StopTestCase):
    """Commands that outgrow the log, so that it is copied into the database amid them."""

    @classmethod
    def new_course(cls, place: pathlib.Path) -> Course:
        many = Session().accepted(*GOODS, *(receive(f"S-{it}", it) for it in range(1, MANY)))
        return Course(place, many, image_of(place, Session()))

    def test_what_a_stop_of_the_log_leaves_is_good(self) -> None:
        self.check_stops(LOG, STRIDE)

    def test_what_a_stop_of_the_database_leaves_is_good(self) -> None:
        self.check_stops(DATABASE, DATABASE_STRIDE)


class ChangedFileTestCase(StopTestCase):
    """A test case of two receipts over a file that another program changed."""

    STATEMENTS = ""

    @classmethod
    def new_course(cls, place: pathlib.Path) -> Course:
        goods = Session().accepted(*(it for it, _ in EACH_COMMAND), GOODS[1])
        return Course(place, behind(goods, receive("S-1", 5), receive("S-2", 5)), image_of(place, goods, cls.STATEMENTS))


class FirstSchema(CourseTests, ChangedFileTestCase):
    """A file of the first schema is raised."""

    STATEMENTS = sqlite.TO_SCHEMA_1


class SecondSchema(CourseTests, ChangedFileTestCase):
    """A file of the second schema is raised."""

    STATEMENTS = sqlite.TO_SCHEMA_2


class ThirdSchema(CourseTests, ChangedFileTestCase):
    """A file of the third schema is raised."""

    STATEMENTS = sqlite.TO_SCHEMA_3


class NoIndexes(CourseTests, ChangedFileTestCase):
    """A file without indexes gets them."""

    STATEMENTS = "".join(f"DROP INDEX {it};" for it in sqlite.INDEXES)


class Syncs(DeskTestCase):
    """What is synced before a reply, over files of the system."""

    IN_MEMORY = True

    def calls_before_replies(self, told: bytes, status: int) -> list[list[str]]:
        """Runs a desk over these lines, and returns for each line of its output the calls about its files since the one before it."""
        notes = self.folder / "notes"
        notes.unlink(missing_ok=True)
        ended = self.desk.run("run", "plant.db", told=told, env=faults.noted_calls(notes))
        self.check("how it ends", (ended.status, ended.errors), (status, b""))
        found = [it.splitlines() for it in notes.read_text().split("reply\n")][:-1]
        self.check("how many replies", len(found), ended.output.count(b"\n"))
        return found

    def test_each_commit_syncs_its_log_twice_before_its_reply(self) -> None:
        self.desk.run("init", "plant.db")
        commands = each_command(are_referred=True)
        replies = self.calls_before_replies(commands.told, 0)
        # What comes before the first reply is also of the opening.
        for number, calls in enumerate(replies[1:], 2):
            of_log = [it for it, _ in itertools.groupby(calls)]
            wanted = ["write plant.db-wal", "sync plant.db-wal"] * 2
            self.check(f"command {number}", of_log, wanted)

    def test_each_commit_of_a_server_syncs_its_log_twice_before_its_answer(self) -> None:
        """Serves commands, and after each a question, the command again under its reference, and a refusal, which write nothing."""
        notes = self.folder / "notes"
        cases: list[tuple[bytes, bytes, int]] = [(http.ASK, http.NEW, 0)]
        for number in range(1, 6):
            it, done = http.booked(http.command(name=f"C-{number}", ref=f"K-{number}")), http.answer('{"ok":%d}' % number)
            refused = http.booked(http.command(name=f"C-{number}")), http.answer('{"name":"Exists","refused":3}', 409), 0
            cases += [(it, done, 2), (http.ASK, http.desk_answer(number), 0), (it, done, 0), refused]
        with Server(self.desk, "plant.db", len(cases), env=faults.noted_calls(notes)) as server:
            for request, wanted, _ in cases:
                self.check(f"the answer to {request!r}", server.answered(request), wanted)
            self.check("the server", server.end(), http.WELL)
        found = [it.splitlines() for it in notes.read_text().split("reply\n")][:-1]
        self.check("how many answers", len(found), len(cases))
        # What comes before the first answer is also of the opening.
        for calls, (request, _, syncs) in list(zip(found, cases))[1:]:
            of_log = [it for it, _ in itertools.groupby(calls)]
            self.check(f"calls before the answer to {request!r}", of_log, ["write plant.db-wal", "sync plant.db-wal"] * syncs)

    def test_refusal_and_question_write_nothing(self) -> None:
        self.desk.run("run", "plant.db", told=each_command(are_referred=True).told)
        lines = b'{"at":1,"by":"","do":"add_class","class":"LATE","name":""}\n{"ask":"lot","lot":"L-1"}\n'
        for number, calls in enumerate(self.calls_before_replies(lines * 3, 1)[1:], 2):
            self.check(f"line {number}", calls, [])


class Backup(DeskTestCase):
    """A copy of a desk that was served."""

    def test_copy_behind_verify_has_all_that_was_answered_before_a_signal(self) -> None:
        """Has a desk serve commands, stops it by a signal, verifies its file, and copies that alone."""
        with Server(self.desk, "plant.db", 100) as server:
            for number in range(1, 6):
                body = b'{"at":100,"by":"anna","do":"add_class","class":"C-%d","name":""}' % number
                reply = server.answered(posted("/v1/commands", body))
                self.check_true(f"command {number} is answered its number", reply.endswith(b'{"ok":%d}' % number))
            server.process.terminate()
            self.check("the status of a desk that a signal stopped", server.end().status, -signal.SIGTERM)
        self.check_verified("the file", "plant.db", 5)
        shutil.copy(self.folder / "plant.db", self.folder / "backup.db")
        self.check("the classes of the copy", sqlite.rows(self.folder / "backup.db", "SELECT id FROM class"), [(f"C-{it}",) for it in range(1, 6)])
        self.check_verified("the copy", "backup.db", 5)
