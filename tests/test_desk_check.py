"""The built check of a desk's file: over good desks, over each cause that keeps the desk from a file, and over each rule broken.

Whatever stands there, the check has to leave every file with its bytes and its moment, and no other behind. Of each statement of
tests/tables/broken_rules.txt over the rows of good_desk.sql it has to tell first the rule that `desk verify` names. What it tells of a row is
looked at for one statement of each rule.
"""
from __future__ import annotations

import errno
import json
import os
import pathlib
import resource
import shutil
import subprocess
import sys
from collections.abc import Callable, Sequence
from typing import Any

from tests.support import Json, faults, sessions, sqlite
from tests.support.cases import DeskTestCase
from tests.support.faults import as_nobody
from tests.support.http import Server
from tests.support.program import Ended, How, Process, Program, Word

GOOD = """The file opens.
It holds a desk of schema 4 and 20 commands, the last at 310.
Orders: 1, batches: 1, lots: 4, movements: 8.
No rule is broken.
"""

# What is told of a file of a later program, of one without a desk, and of twenty commands behind which three rules are broken.
LATER = """The file opens.
Its tables are of schema 5, as a later program writes them: run that program.
"""

NONE = """The file opens.
It holds no desk: the next word of the desk over it makes one.
"""

BROKEN = """The file opens.
It holds a desk of schema 4 and 20 commands, the last at 310.
Orders: 1, batches: 1, lots: 4, movements: 8.
Rule 3 is broken: each definition's class is there.
table definition, row FLOUR, column class: NONE stands there, wanted is the key of a row of table class, one that fits
Rule 7 is broken: each sublot's stock is what entered it less what left it.
table sublot, row D-2 0, column stock: 41 stands there, wanted is 40, for 100 entered and 60 left
Rule 13 is broken: each receipt has a number of its own that was given.
table receipt, row K-1, column seq: 99 stands there, wanted is the number of a command, 1 to 20
"""

# What is told of the first row that the statements of sqlite.DAMAGES break, by the number of the rule; of rule 1 no row is told.
ROWS = {
    2: ("batch", ["B-1"], "state", "'walking'"),
    3: ("definition", ["FLOUR"], "class", "NONE"),
    4: ("recipe", ["CAKE", 1], None, "the row"),
    5: ("job", ["O-1"], "size", "99"),
    6: ("batch", ["B-1"], None, "the row"),
    7: ("sublot", ["D-2", 0], "stock", "41"),
    8: ("sublot", ["D-3", 0], "lot", "D-3"),
    9: ("movement", [10, 1], "batch", "B-9"),
    10: ("batch", ["B-1"], "attempt", "2"),
    11: ("movement", [18, 1], "seq", "18"),
    12: ("edge", [2, "B-1", "D-1"], None, "no row"),
    13: ("receipt", ["K-1"], "seq", "99"),
    14: ("mark", ["RC-1", 1, "D-1"], None, "no row"),
}

# What the rule wants there.
WANTED = {
    2: "idle, running, complete, pausing, paused, holding, held, restarting, stopping, stopped, aborting or aborted",
    7: "40, for 100 entered and 60 left",
    10: "1",
    12: "the edge that movement 12 1 makes",
    14: "the mark of an open recall that reaches it",
}

# The rules of columns by a name of ours: values of the column's type that break it, as SQL writes them, with what the check tells of each; and
# what it wants. Any whole number is a line's, and any text is read as a receipt's content.
ValueRule = tuple[list[tuple[str, str]], str]
A_TEXT = "a text of at most 60 bytes from the space to ~"
LONG, ODD = "a text of more than 60 bytes", "a text with a byte that isn't from the space to ~"
NO_TEXTS = [("printf('%61s', 'x')", LONG), ("'Brot' || char(9)", ODD), ("'Käse'", ODD)]


def from_to(low: int, high: int, wanted: str = "") -> ValueRule:
    """Returns the rule of whole numbers from one to another."""
    return [(it, it) for it in (f"{low - 1}", f"{high + 1}", "-9223372036854775808")], f"a whole number from {low} to {high}{wanted}"


VALUE_RULES: dict[str, ValueRule] = {
    "id": ([("'f-1'", "'f-1'"), ("''", "''"), ("'F-12345678901234567890123'", "'F-12345678901234567890123'"), *NO_TEXTS], "an id"),
    "id?": ([("'f-1'", "'f-1'"), ("''", "''")], "an id or NULL"),
    "id or ''": ([("'mix'", "'mix'"), ("' '", "' '")], "an id or the empty text"),
    "text": (NO_TEXTS, A_TEXT),
    "text?": (NO_TEXTS, f"{A_TEXT}, or NULL"),
    "unit": ([("'k g'", "'k g'"), ("''", "''"), ("'kilograms'", "'kilograms'")], "a unit of 1 to 8 letters and digits"),
    "due": ([("'2027-02-29'", "'2027-02-29'"), ("'1999-12-31'", "'1999-12-31'")], "a date as 2026-11-30, of the years 2000 to 2099"),
    "version": from_to(1, 999),
    "amount": from_to(1, 10**15),
    "quantity": from_to(0, 10**15),
    "priority": from_to(1, 9),
    "moment": from_to(0, 253402300799),
    "moment?": from_to(0, 253402300799, ", or NULL"),
    "seq": from_to(0, 10**15),
    "sub": from_to(0, 999),
    "sub?": from_to(0, 999, ", or NULL"),
    "attempt": from_to(1, 99),
    "next": from_to(1, 128),
    "phase": from_to(0, 128),
    "flag": from_to(0, 1),
    **{f"1-{it}": from_to(1, it) for it in (2, 3, 4, 7)},
    "recipe state": ([("'Draft'", "'Draft'")], "draft, approved or withdrawn"),
    "order state": ([("'done'", "'done'")], "open, cancelled, released or finished"),
    "batch state": ([("''", "''")], WANTED[2]),
    "recall state": ([("'closed'", "'closed'")], "open or lifted"),
    "event": ([("'halt'", "'halt'")], "start, stop, hold, restart, abort, reset, pause, resume, done, phase or close"),
}

# The rules of the columns of each table, where a value of the column's type can break one.
LINE_RULES = {"kind": "1-4", "def": "id?", "qty": "quantity", "t1": "id or ''", "t2": "text", "t3": "id or ''"}
GIVEN_RULES = {"at": "moment", "by_who": "text", "note": "text"}
COLUMN_RULES = {
    "class": {"id": "id", "name": "text"},
    "definition": {"id": "id", "class": "id", "name": "text", "unit": "unit"},
    "recipe": {
        "id": "id", "version": "version", "product": "id", "base": "amount", "low": "amount", "high": "amount", "title": "text",
        "state": "recipe state",
    },
    "recipe_line": {"recipe": "id", "version": "version", **LINE_RULES},
    "job": {"id": "id", "recipe": "id", "version": "version", "size": "amount", "due": "due", "priority": "priority", "state": "order state"},
    "batch": {"id": "id", "job": "id", **GIVEN_RULES, "state": "batch state", "attempt": "attempt", "next": "next", "closed": "flag"},
    "control_line": {"batch": "id", **LINE_RULES},
    "batch_event": {"seq": "seq", "batch": "id", "word": "event", "phase": "phase", **GIVEN_RULES},
    "lot": {"id": "id", "def": "id"},
    "sublot": {"lot": "id", "no": "sub", "place": "text", "stock": "quantity"},
    "movement": {
        "seq": "seq", "kind": "1-7", "lot": "id", "sub": "sub", "lot2": "id?", "sub2": "sub?", "batch": "id?", "amount": "amount", **GIVEN_RULES,
    },
    "hold": {"lot": "id", "id": "id", **GIVEN_RULES},
    "edge": {"kind": "1-3", "a": "id", "b": "id"},
    "receipt": {"id": "id", "seq": "seq"},
    "recall": {"id": "id", "lot": "id", "state": "recall state", **GIVEN_RULES, "lift_at": "moment?", "lift_by": "text?", "lift_note": "text?"},
    "mark": {"recall": "id", "kind": "1-2", "id": "id"},
}

# Statements behind which several values of good_desk.sql are broken, or none by itself, with what is told: table, key, column, what stands there.
SEVERAL_VALUES = [
    ("UPDATE job SET size = -5, priority = 0 WHERE id <> 'O-1'", ("job", ["O-2"], "size", "-5")),
    ("UPDATE job SET size = -5 WHERE id = 'O-3'; UPDATE job SET priority = 0 WHERE id = 'O-2'", ("job", ["O-2"], "priority", "0")),
    ("UPDATE lot SET def = '' WHERE id = 'S-1'; UPDATE batch SET closed = 2 WHERE id = 'B-2'", ("batch", ["B-2"], "closed", "2")),
    ("UPDATE recipe_line SET def = NULL WHERE no = 2", ("recipe_line", ["CAKE", 2, 2], None, "the row")),
    ("UPDATE control_line SET t3 = 'STIR' WHERE batch = 'B-2' AND no = 4", ("control_line", ["B-2", 4], None, "the row")),
    ("UPDATE batch_event SET phase = 3 WHERE seq = 12", ("batch_event", [12], None, "the row")),
]

# The toolkit's own error for each cause that it has one for; of a file that isn't there and of a limit it has none.
UNOPENED = "unable to open database file"
ERRORS = {
    **dict.fromkeys(("folder", "nofile", "unreadable", "unwritable", "nolog", "linked", "journal"), UNOPENED),
    "locked": "database is locked",
    "nodatabase": "file is not a database that obeys its schema",
    "damaged": "database disk image is malformed",
    "full": "database or disk is full",
    "store": "disk I/O error",
}

# The least that a file may grow by, in bytes.
LEAST_GROWTH = 4096 + 24

# The most memory that a check gets which has little, in bytes.
LITTLE = 24 << 20

# A program that reads a file, tells that it does, and goes on reading until its input ends.
READER = """
import sqlite3, sys
store = sqlite3.connect(sys.argv[1])
store.execute("BEGIN")
store.execute("SELECT * FROM meta").fetchall()
print("reading", flush=True)
sys.stdin.read()
"""


# What gives a program a limit of this kind, at so many.
Limit = Callable[[int, int], How]


def standing(folder: pathlib.Path) -> dict[str, tuple[bytes, int, int, int]]:
    """Returns all that stands in a folder: of each file its bytes, where they can be read, and when it was changed."""
    found = {}
    for it in sorted(folder.rglob("*")):
        status = it.lstat()
        content = it.read_bytes() if it.is_file() and not it.is_symlink() else b""
        found[str(it.relative_to(folder))] = (content, status.st_mtime_ns, status.st_mode, status.st_size)
    return found


def opened(desk: Json) -> dict[str, Json]:
    """Returns the object of a file that opens and holds this."""
    return {"desk": desk, "obstacle": None, "opens": True, "taken": None}


class FileCheckTestCase(DeskTestCase):
    """A test case over the check, with a file of twenty commands, twenty.db, in the test's folder."""

    PROGRAMS = ("desk", "desk_check")

    # The file of twenty commands.
    first: pathlib.Path

    @classmethod
    def setUpClass(cls) -> None:
        super().setUpClass()
        cls.first = cls.keep(cls.class_folder(), "twenty", sessions.twenty_commands())

    def setUp(self) -> None:
        super().setUp()
        self.checker = Program("desk_check", self.folder)
        self.copy("twenty.db")

    def copy(self, name: str, statements: str = "") -> pathlib.Path:
        """Returns a fresh copy of the file of twenty commands, over which statements were executed."""
        file = self.folder / name
        shutil.copyfile(self.first, file)
        if statements:
            sqlite.changed(file, statements)
        return file

    def checked(self, *words: Word, **how: Any) -> Ended:
        """Runs the check, which has to leave every file as it is."""
        before = standing(self.folder)
        options: dict[str, Any] = {"stdin": subprocess.DEVNULL, **how}
        ended = self.checker.run(*words, **options)
        self.check(f"{words}: what stands there", standing(self.folder), before)
        return ended

    def object(self, file: str, *words: Word, **how: Any) -> tuple[int, Json]:
        """Returns the status of the check, and the object that it prints."""
        status, output, errors = self.checked(file, "--json", *words, **how)
        self.check(f"{file}: {errors!r}, {output!r}", (errors, output.count(b"\n")), (b"", 1))
        return status, json.loads(output)

    def check_cause(
        self, case: str, file: str, cause: str | None, status: int = 3, opens: bool | None = None,
        words: Sequence[Word] = (), **how: Any,
    ) -> Json:
        """Checks a file that the desk can't use, for this cause, or that it can."""
        found, told = self.object(file, *words, **how)
        obstacle = told["obstacle"] or {}
        self.check(f"{case}: {told}", (found, obstacle.get("cause"), told["opens"]), (status, cause, cause is None))
        if cause:
            self.check_true(f"{case}: in words", all(obstacle[it] for it in ("says", "advice")))
            _, output, _ = self.checked(file, *words, **how)
            error = ERRORS.get(cause)
            self.check(f"{case}: the toolkit's error", obstacle["error"], error)
            wanted = [f"The file doesn't open{f': {error}' if error else ''}.", f"{obstacle['says']} {obstacle['advice']}"]
            self.check(f"{case}: in sentences", output.decode().splitlines()[:2], wanted)
        if opens is not None:
            self.check(f"{case}: what it holds", bool(told["desk"]), opens)
        return told

    def check_told(self, case: str, file: str, text: str, status: int) -> None:
        """Checks what is told of a file in sentences."""
        self.check(f"{case}, in sentences", self.checked(file), (status, text.encode(), b""))

    def killed(self, name: str) -> pathlib.Path:
        """Makes a file whose program was killed, so that its commands stand in the log; returns the path of the log."""
        killed = self.desk.start("run", name, stdin=subprocess.PIPE)
        killed.stdin.write(b'{"at":7,"by":"","do":"add_class","class":"RAW","name":""}\n')
        killed.stdin.flush()
        killed.stdout.readline()
        killed.kill()
        killed.communicate()
        log = self.folder / f"{name}-wal"
        self.check_true(f"a log of {name}", log.stat().st_size > 0)
        return log

    def check_usable(self, case: str, file: str, **how: Any) -> Json:
        """Checks a file that the desk can use."""
        return self.check_cause(case, file, None, status=0, opens=True, **how)


class Desks(FileCheckTestCase):
    """Files that hold a desk, or none."""

    def test_good_desk_is_told_in_sentences_and_as_an_object(self) -> None:
        self.check("a desk", self.checked("twenty.db"), (0, GOOD.encode(), b""))
        wanted = {"at": 310, "batches": 1, "broken": [], "lots": 4, "movements": 8, "orders": 1, "schema": 4, "seq": 20}
        self.check("a desk as an object", self.object("twenty.db"), (0, opened(wanted)))

    def test_new_desk_and_one_of_a_later_program_are_told(self) -> None:
        self.desk.run("init", "new.db")
        self.check("a new desk", self.object("new.db")[1]["desk"]["seq"], 0)
        sqlite.changed(self.folder / "new.db", "UPDATE meta SET schema = 5")
        self.check("a later desk", self.object("new.db"), (3, opened({"newer": 5})))
        self.check_told("a later desk", "new.db", LATER, 3)

    def test_file_without_a_desk_is_told(self) -> None:
        (self.folder / "empty.db").write_bytes(b"")
        sqlite.changed(self.folder / "other.db", "CREATE TABLE shift (id TEXT)")
        for name in ["empty.db", "other.db"]:
            self.check(name, self.object(name), (1, opened(None)))
            self.check_told(name, name, NONE, 1)

    def test_name_that_begins_with_a_colon_is_a_file(self) -> None:
        for name in ":x", ":memory":
            self.copy(name)
            self.check_told(name, name, GOOD, 0)

    def test_taken_name_of_an_index_is_told(self) -> None:
        """Gives something else the name of one of the desk's indexes, in a file without a desk and beside older ones."""
        file = self.folder / "named.db"
        for schema, statements, name in [
            (None, "CREATE TABLE movement_by_lot (a TEXT)", "movement_by_lot"),
            (1, sqlite.TO_SCHEMA_1 + "CREATE TABLE edge_by_end (a TEXT)", "edge_by_end"),
            (3, sqlite.TO_SCHEMA_3 + "CREATE VIEW mark_by_node AS SELECT 1;", "mark_by_node"),
        ]:
            file.unlink(missing_ok=True)
            if schema:
                self.copy(file.name)
            sqlite.changed(file, statements)
            status, told = self.object(file.name)
            desk = told["desk"] and (told["desk"]["schema"], told["desk"]["broken"])
            self.check(f"{name}: {told}", (status, told["opens"], told["taken"]), (3, True, name))
            self.check(f"{name}: its desk", desk, (schema, []) if schema else None)
            sentence = f"Something else has the name {name}, which the desk needs for an index: give it another name with sqlite3."
            self.check(f"{name}: in sentences", self.checked(file.name).output.decode().splitlines()[-1], sentence)
            self.check_run(f"{name}: the desk", ["init", file.name], (3, b"", b"fault: store\n"))

    def test_trigger_or_index_that_keeps_a_table_from_standing_is_named(self) -> None:
        for table, name, statement in [
            ("lot", "watch", "CREATE TRIGGER watch AFTER INSERT ON lot BEGIN DELETE FROM lot WHERE id = 'none'; END"),
            ("movement", "large", "CREATE INDEX large ON movement (seq) WHERE amount > 100"),
            ("job", "lower", "CREATE INDEX lower ON job (lower(id))"),
        ]:
            self.copy("bound.db", statement)
            sentence = f"table {table}: somebody else's trigger or index {name} keeps it from standing as it is declared: drop it with sqlite3."
            self.check(f"{name}, in sentences", self.checked("bound.db").output.decode().splitlines()[2:], [sentence])
            status, told = self.object("bound.db")
            self.check(f"{name}, the object", (status, told["desk"]["bound"]), (3, name))
            self.copy("bound.db", f"{statement}; DROP {statement.split()[1]} {name}")
            self.check(f"{name}, dropped", self.checked("bound.db").status, 0)
        self.copy("bound.db", "ALTER TABLE lot RENAME TO lots")
        self.check("a table that isn't there", self.object("bound.db")[1]["desk"]["bound"], None)

    def test_log_of_a_killed_program_is_read(self) -> None:
        """Checks a desk whose program was killed, so that its commands stand in the log."""
        self.killed("killed.db")
        status, told = self.object("killed.db")
        self.check("a desk with a log", (status, told["desk"]["seq"], told["desk"]["at"]), (0, 1, 7))


class Causes(FileCheckTestCase):
    """What keeps the desk from a file."""

    def test_missing_file_and_what_is_no_file_are_told(self) -> None:
        (self.folder / "folder").mkdir()
        os.mkfifo(self.folder / "pipe")
        (self.folder / "link").symlink_to("nothing")
        self.check_cause("a slip", "twnety.db", "missing")
        self.check_cause("a missing folder", "nowhere/plant.db", "folder")
        for name in ["folder", "pipe", "link", "/dev/null"]:
            self.check_cause(name, name, "nofile")
        self.check_cause("a file as a folder", "twenty.db/plant.db", "folder")

    def test_file_that_a_server_or_a_reader_has_is_locked(self) -> None:
        self.copy("served.db")
        with Server(self.desk, "served.db", 100):
            self.check_cause("a server", "served.db", "locked", opens=False)
        # Another process reads: this one looks at the file's bytes, which would give up locks of its own.
        words: list[Word] = [sys.executable, "-c", READER, self.folder / "served.db"]
        reader = Process(words, stdin=subprocess.PIPE, stdout=subprocess.PIPE)
        try:
            reader.stdout.readline()
            self.check_cause("a reader", "served.db", "locked", opens=False)
        finally:
            reader.communicate()
        self.check_usable("none any more", "served.db")

    def test_missing_rights_are_told(self) -> None:
        """Checks files that this user may not read, or not write, and one that has two names."""
        file, log = self.copy("rights.db"), self.folder / "rights.db-wal"
        os.chmod(self.folder, 0o755)
        os.chmod(file, 0o000)
        self.check_cause("no right to read", "rights.db", "unreadable", **as_nobody())
        os.chmod(file, 0o444)
        self.check_cause("no right to write", "rights.db", "unwritable", opens=True, **as_nobody())
        os.chmod(file, 0o666)
        self.check_cause("no right to make its log", "rights.db", "nolog", opens=True, **as_nobody())
        log.touch()
        os.chmod(log, 0o666)
        self.check_usable("a log that is there", "rights.db", **as_nobody())
        log.unlink()
        os.chmod(self.folder, 0o757)
        self.check_usable("a folder of everybody's", "rights.db", **as_nobody())
        os.chmod(self.folder, 0o755)
        os.chmod(file, 0o644)
        os.link(file, self.folder / "second.db")
        self.check_cause("two names", "rights.db", "linked")

    def test_limit_of_the_size_of_files_is_told(self) -> None:
        size, page = (self.folder / "twenty.db").stat().st_size, LEAST_GROWTH
        for limited in faults.limited, faults.softly_limited:
            def within(bytes_more: int, limited: Limit = limited) -> How:
                return limited(resource.RLIMIT_FSIZE, size + bytes_more)

            name = limited.__name__
            self.check_usable(f"{name} to a page more", "twenty.db", **within(page))
            self.check_cause(f"{name} to less than a page more", "twenty.db", "limit", opens=True, **within(page - 1))
            self.check_cause(f"{name} to less than the file", "twenty.db", "limit", opens=True, **within(-page))
        (self.folder / "empty.db").write_bytes(b"")
        self.check_cause("a limit of no byte", "empty.db", "limit", opens=False, **faults.limited(resource.RLIMIT_FSIZE, 0))

    def test_log_that_may_not_grow_is_told(self) -> None:
        """Checks a file that is smaller than its log, which may grow by a page, or by a byte less."""
        size = self.killed("killed.db").stat().st_size
        self.check_true("a log that is larger than its file", size > (self.folder / "killed.db").stat().st_size)
        for limited in faults.limited, faults.softly_limited:
            name = limited.__name__
            self.check_usable(f"a log, {name} to a page more", "killed.db", **limited(resource.RLIMIT_FSIZE, size + LEAST_GROWTH))
            limit = limited(resource.RLIMIT_FSIZE, size + LEAST_GROWTH - 1)
            self.check_cause(f"a log, {name} to less than a page more", "killed.db", "limit", opens=True, **limit)

    def test_disk_that_is_full_or_fails_is_told_where_it_is_tried(self) -> None:
        """A library put before the programs makes them see what such a disk tells."""
        self.check_usable("a disk with room", "twenty.db", words=["--room"])
        self.copy("disk.db")
        for error, cause in [(errno.ENOSPC, "full"), (errno.EDQUOT, "full"), (errno.EROFS, "unwritable"), (errno.EIO, "store")]:
            name, room = errno.errorcode[error], faults.stopped_file("-room", 0, error)
            ended = self.desk.run("verify", "disk.db", env=faults.stopped_file("-wal", 0, error))
            self.check(f"the desk where the disk tells {name}", (ended.status, ended.errors), (3, b"fault: store\n"))
            self.check_usable(f"a disk that tells {name}, and isn't tried", "disk.db", env=room)
            self.check_cause(f"a disk that tells {name}", "disk.db", cause, opens=True, words=["--room"], env=room)
        for pieces in (1, 6, 255):
            short = faults.stopped_file("-room", pieces, errno.ENOSPC)
            self.check_cause(f"a disk with room for {pieces} pieces of a megabyte's 256", "disk.db", "full", opens=True, words=["--room"], env=short)
        self.check("what is left next to it", sorted(it.name for it in self.folder.glob("disk.db-*room")), [])

    def test_folder_of_a_group_is_told_where_it_is_tried(self) -> None:
        if os.geteuid() != 0:
            self.skipTest("only root can give a folder to another group's user")
        os.chmod(self.copy("group.db"), 0o666)
        os.chmod(self.folder, 0o775)
        self.check_usable("a folder of a group, which isn't tried", "group.db", **as_nobody())
        self.check_cause("a folder of a group that the user isn't of", "group.db", "nolog", opens=True, words=["--room"], **as_nobody())

    def test_file_that_is_no_sound_database_is_told(self) -> None:
        """Checks texts, databases that the desk can't read, and damaged ones."""
        (self.folder / "text").write_bytes(b"FLOUR 500 kg\n" * 500)
        sqlite.changed(self.folder / "wide.db", "PRAGMA encoding = 'UTF-16'; CREATE TABLE a (b TEXT); INSERT INTO a VALUES ('c')")
        sqlite.changed(self.folder / "vacuum.db", "PRAGMA auto_vacuum = FULL; CREATE TABLE a (b TEXT)")
        self.check_cause("text", "text", "nodatabase")
        for name in ["wide.db", "vacuum.db"]:
            self.check_cause(name, name, "damaged")
        whole = (self.folder / "twenty.db").read_bytes()
        (self.folder / "cut.db").write_bytes(whole[:8192])
        (self.folder / "torn.db").write_bytes(whole[:8192] + b"\xff" * 4096 + whole[12288:])
        for name in ["cut.db", "torn.db"]:
            told = self.check_cause(name, name, "damaged")
            self.check(name, told["obstacle"]["error"], "database disk image is malformed")
        (self.folder / "twenty.db-journal").write_bytes(b"\xd9")
        self.check_cause("a journal", "twenty.db", "journal")

    def test_want_of_memory_is_told_by_the_status(self) -> None:
        sqlite.changed(self.folder / "large.db", "CREATE TABLE a (b TEXT); INSERT INTO a SELECT hex(zeroblob(8000000))")
        self.check("little memory", self.checked("large.db", **faults.limited(resource.RLIMIT_AS, LITTLE)).status, 4)


class Rules(FileCheckTestCase):
    """Rules of good tables that are broken."""

    def test_each_broken_rule_is_told_with_its_row(self) -> None:
        """Breaks each rule in a file of twenty commands, and looks at the row that is told."""
        for number, statement in enumerate(sqlite.DAMAGES, 1):
            file = self.copy("damaged.db", statement)
            status, told = self.object(file.name)
            first = told["desk"]["broken"][0]
            row = first["row"]
            self.check(f"{statement}: {told}", (status, told["opens"], first["rule"]), (3, True, number))
            if number in ROWS:
                found = tuple(row[it] for it in ("table", "key", "column", "found")) if row else None
                self.check(f"{statement}: the row", found, ROWS[number])
            if row and number in WANTED:
                self.check(f"{statement}: what is wanted", row["wanted"], WANTED[number])
            self.check(f"{statement}: verify", self.desk.run("verify", file.name).errors, b"fault: damaged G%d\n" % number)

    def test_value_that_breaks_its_rule_is_told_with_key_and_column(self) -> None:
        """Breaks each column of each table in the last row of its key."""
        first = self.good_desk()
        for table, rules in COLUMN_RULES.items():
            key_columns = sqlite.TABLES[table][1][0].split()
            order = ", ".join(key_columns)
            number = sqlite.rows(first, f"SELECT rowid FROM {table} ORDER BY {order}")[-1][0]
            for column, rule in rules.items():
                broken, wanted = VALUE_RULES[rule]
                for value, told in broken:
                    file = self.folder / "value.db"
                    shutil.copyfile(first, file)
                    sqlite.changed(file, f"UPDATE {table} SET {column} = {value} WHERE rowid = {number}")
                    key = self.key_of(file, table, order, number, column in key_columns and (rule == "id" or value[0] == "-"))
                    self.check_row(f"{table}, {column} = {value}", file, (table, key, column, told, wanted))

    def test_first_row_and_column_of_several_are_told(self) -> None:
        first = self.good_desk()
        for statement, wanted in SEVERAL_VALUES:
            file = self.folder / "value.db"
            shutil.copyfile(first, file)
            sqlite.changed(file, statement)
            self.check_row(statement, file, wanted)
        file = self.copy("size.db", "UPDATE job SET size = -5")
        sentence = "table job, row O-1, column size: -5 stands there, wanted is a whole number from 1 to 1000000000000000"
        self.check("in sentences", self.checked(file).output.decode().splitlines()[-1], sentence)

    def good_desk(self) -> pathlib.Path:
        """Returns a file of the rows of good_desk.sql."""
        first = self.folder / "good.db"
        self.desk.run("init", first.name)
        sqlite.good_desk(first)
        return first

    def key_of(self, file: pathlib.Path, table: str, order: str, number: int, unreadable: bool) -> Json:
        """Returns the key of the row of this rowid, or its place in the order of the key."""
        rows = sqlite.rows(file, f"SELECT rowid, {order} FROM {table} ORDER BY {order}")
        at = [row[0] for row in rows].index(number)
        return {"place": at + 1} if unreadable else list(rows[at][1:])

    def check_row(self, case: str, file: pathlib.Path, wanted: tuple[Json, ...]) -> None:
        """Checks what is told of the first row of a file that breaks rule 2: so much as is wanted."""
        broken = self.object(file.name)[1]["desk"]["broken"]
        self.check(f"{case}: the rule", [it["rule"] for it in broken], [2])
        row = broken[0]["row"] or {}
        found = tuple(row.get(it) for it in ("table", "key", "column", "found", "wanted"))
        self.check(f"{case}: the row", found[:len(wanted)], wanted)

    def test_row_of_the_same_number_is_not_told_as_one_whose_moment_falls(self) -> None:
        """Gives the two movements of a merge two moments, which breaks no rule; then an event has one that falls."""
        rows = "UPDATE movement SET at = 305 WHERE seq IN (16, 17) OR (seq = 18 AND line = 2)"
        self.check("two moments of one number", self.checked(self.copy("merged.db", rows).name).status, 0)
        file = self.copy("falling.db", f"{rows}; UPDATE batch_event SET at = 259 WHERE seq = 15")
        row = self.object(file.name)[1]["desk"]["broken"][0]["row"]
        found = tuple(row[it] for it in ("table", "key", "column", "found", "wanted"))
        wanted = ("batch_event", [15], "at", "259", "no moment before 260, which stands with a lower number")
        self.check("a moment that falls", found, wanted)

    def test_three_broken_rules_are_told_in_order(self) -> None:
        file = self.copy("several.db", "; ".join(sqlite.DAMAGES[it - 1] for it in (13, 7, 3)))
        _, told = self.object(file.name)
        self.check("three rules", [it["rule"] for it in told["desk"]["broken"]], [3, 7, 13])
        self.check_told("three rules", file.name, BROKEN, 3)

    def test_first_broken_rule_is_that_of_verify_for_each_change_of_a_good_desk(self) -> None:
        first, file = self.folder / "good.db", self.folder / "changed.db"
        without: dict[int, int] = {}
        self.desk.run("init", first.name)
        sqlite.good_desk(first)
        for number, statement in sqlite.broken_rules():
            shutil.copyfile(first, file)
            sqlite.changed(file, statement)
            _, told = self.object(file.name)
            broken = told["desk"]["broken"]
            self.check(f"{statement}: {told}", [it["rule"] for it in broken[:1]], [number] if number else [])
            if broken and broken[0]["row"] is None:
                without[number] = without.get(number, 0) + 1
        self.note(f"rules told without a row, by their numbers: {without}")


class Words(FileCheckTestCase):
    """The words and streams of the check."""

    def test_help_and_version_are_told_and_wrong_words_refused(self) -> None:
        status, output, errors = self.checked("--help")
        self.check("--help", (status, b"Usage: desk_check" in output, errors), (0, True, b""))
        self.check("--version", self.checked("--version").status, 0)
        wrong: list[list[str]] = [[], ["a.db", "b.db"], ["--jsn", "a.db"]]
        for words in wrong:
            status, output, errors = self.checked(*words)
            self.check(words, (status, output, errors[:7]), (2, b"", b"error: "))

    def test_failed_write_is_a_fault(self) -> None:
        with open("/dev/full", "wb") as full:
            ended = self.checker.run("twenty.db", stdout=full)
        self.check("a failed write", (ended.status, ended.errors), (3, b"fault: write\n"))

    def test_closed_standard_streams_are_not_written_into_the_file(self) -> None:
        """Closes the standard streams, into whose places an opened file would come."""
        def close() -> None:
            for stream in range(3):
                os.close(stream)

        ended = self.checked("twenty.db", stdin=None, stdout=None, stderr=None, preexec_fn=close)
        self.check("closed streams", ended.status, 3)
        self.check("the file behind them", self.checked("twenty.db").status, 0)
