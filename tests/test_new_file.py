"""Files that aren't there yet, and how a word makes them: what a new one is, what may stand beside it, and calls of the system that fail, stop or
pause the program within the making. Behind each the next word makes the desk or finds it, with every command that was answered."""
from __future__ import annotations

import contextlib
import errno
import fcntl
import itertools
import os
import pathlib
import signal
import sqlite3
import subprocess
from collections.abc import Callable, Iterator

from tests.support import faults
from tests.support.cases import DeskTestCase, good
from tests.support.http import ASK, NEW, WELL, Server
from tests.support.program import Ended, Process, wait_for

STORE = (3, b"", b"fault: store\n")
READY = (0, b"ready schema 4\n", b"")

# The words over a file that end by themselves, each with its other words.
WORDS = [["init"], ["run"], ["verify"], ["import", "--at", "1"], ["trace", "back", "L-1"], ["record", "B-1"]]

# A line that a new desk accepts, and another that it accepts beside it.
CLASS, OTHER = (b'{"at":1,"by":"","do":"add_class","class":"%s","name":""}\n' % it for it in (b"RAW", b"MADE"))

# The page size of a new file, and that of one which the store made by itself.
SMALL, LARGE = 1024, 4096

# Numbers of the first page, each with where it stands and how many bytes it has: the page size, the versions for a log, the reserved bytes, the
# three fractions, the count of pages, the schema's format, the text's encoding, the kind of the first tree, and where its content begins.
FIRST_PAGE = [(16, 2, SMALL), (18, 2, 0x0202), (20, 1, 0), (21, 3, 0x402020), (28, 4, 1), (44, 4, 4), (56, 4, 1), (100, 1, 13), (105, 2, SMALL)]

# The bytes that SQLite and the desk lock: how many they are, and where they begin.
LOCKED = (512, 1 << 30)

# By which errors calls fail.
ERRORS = (errno.EIO, errno.ENOSPC, errno.EACCES)

# A making has more calls than this.
LEAST_CALLS = 15

# How many times desks are started at once, and how many.
ROUNDS, DESKS = 20, 4


def page_size(path: pathlib.Path) -> int:
    """Returns the page size of a database that is whole."""
    with contextlib.closing(sqlite3.connect(path)) as database:
        assert database.execute("PRAGMA integrity_check").fetchall() == [("ok",)]
        size: int = database.execute("PRAGMA page_size").fetchone()[0]
        return size


class NewFileTestCase(DeskTestCase):
    """A test case that makes files anew, in memory."""

    IN_MEMORY = True

    def setUp(self) -> None:
        super().setUp()
        self.file, self.new, self.mark = (self.folder / it for it in ("plant.db", "plant.db-new", "met"))

    def clear(self) -> None:
        """Removes the file and what stands beside it."""
        for it in self.folder.iterdir():
            it.unlink()

    def whole_page(self) -> bytes:
        """Returns the page of a file that is made and never used, as a program that is stopped behind the making leaves it."""
        for number in faults.numbers():
            self.clear()
            self.desk.run("init", "plant.db", env=faults.met_call(number, signal.SIGKILL, self.mark))
            if self.file.exists():
                page = self.file.read_bytes()
                self.clear()
                return page
        raise AssertionError("no run makes a file")

    def check_made(self, case: str, size: int = SMALL) -> None:
        """Checks that the file is that of a desk, with these pages, one name and nothing beside it but its log."""
        self.check(f"{case}, the page size", page_size(self.file), size)
        self.check(f"{case}, its names", self.file.stat().st_nlink, 1)

    def check_taken(self, case: str, size: int = SMALL) -> None:
        """Has the next word make or find the desk, and checks that nothing is left beside it."""
        self.check_run(f"{case}, the next word", ["init", "plant.db"], READY)
        self.check_made(case, size)
        self.check_true(f"{case}, nothing beside it", size != SMALL or not self.new.exists())


class Pages(NewFileTestCase):
    """What a new file is, and files that are there."""

    def told_on_a_terminal(self, *words: str) -> bytes:
        """Runs the desk with a terminal as its standard error, and returns what that is told."""
        ours, theirs = os.openpty()
        with open(theirs, "wb", buffering=0) as terminal:
            subprocess.run([self.desk.path, *words], cwd=self.folder, stdin=subprocess.DEVNULL, stdout=subprocess.DEVNULL, stderr=terminal, timeout=60)
        told = b""
        # A terminal that nobody writes to any more ends with an error.
        with open(ours, "rb", buffering=0) as terminal, contextlib.suppress(OSError):
            while part := terminal.read(4096):
                told += part
        return told.replace(b"\r\n", b"\n")

    def test_terminal_is_told_which_file_is_made(self) -> None:
        for word, *others in WORDS:
            self.clear()
            told = self.told_on_a_terminal(word, "plant.db", *others)
            is_told = told.startswith(b"new desk: plant.db\n") if word != "init" else b"new desk" not in told
            self.check_true(f"{word}, told {told!r}", is_told)
            told = self.told_on_a_terminal(word, "plant.db", *others)
            self.check_true(f"{word} once more, told {told!r}", b"new desk" not in told)
        self.check("a desk in memory", self.told_on_a_terminal("run", ":memory:"), b"")
        told = self.told_on_a_terminal("run", "no folder/plant.db")
        self.check_true(f"a folder that isn't there, told {told!r}", b"new desk" not in told)

    def test_each_word_makes_a_file_of_small_pages(self) -> None:
        for word, *others in WORDS:
            self.clear()
            orders = b"order,recipe,version,size,due,priority\n"
            self.desk.run(word, "plant.db", *others, told=orders if word == "import" else b"")
            self.check_made(word)
            self.check(f"{word}, its mode", self.file.stat().st_mode & 0o777, 0o644)
            self.check_true(f"{word}, nothing beside it", not self.new.exists())

    def test_page_is_synced_before_the_file_gets_its_name(self) -> None:
        notes = self.folder / "notes"
        for word, *others in WORDS:
            self.clear()
            orders = b"order,recipe,version,size,due,priority\n"
            self.desk.run(word, "plant.db", *others, told=orders if word == "import" else b"", env=faults.noted_calls(notes))
            self.check_synced(word, notes)
        self.clear()
        with Server(self.desk, "plant.db", 1, env=faults.noted_calls(notes)) as server:
            self.check("an answer", server.answered(ASK), NEW)
            self.check("the server", server.end(), WELL)
        self.check_synced("serve", notes)

    def check_synced(self, word: str, notes: pathlib.Path) -> None:
        """Looks whether what was noted begins with a page that is written and synced before its file gets its name."""
        first, *_ = notes.read_text().partition("link plant.db\n")
        self.check(f"{word}, before the name", first.splitlines(), ["write plant.db-new", "sync plant.db-new"])

    def test_first_page_is_that_of_an_empty_database(self) -> None:
        page = self.whole_page()
        self.check("how long it is", len(page), SMALL)
        self.check("its first bytes", page[:16], b"SQLite format 3\0")
        for at, size, value in FIRST_PAGE:
            self.check(f"bytes from {at} on", int.from_bytes(page[at : at + size], "big"), value)
        self.check("behind its head", page[108:], bytes(SMALL - 108))

    def test_file_of_another_page_size_keeps_it(self) -> None:
        for size in 512, SMALL, 2048, LARGE, 8192, 65536:
            self.clear()
            with contextlib.closing(sqlite3.connect(self.file)) as database:
                database.executescript(f"PRAGMA page_size = {size}; CREATE TABLE shift (id TEXT)")
            for number, line in enumerate((CLASS, OTHER), 1):
                self.check_run(f"pages of {size}, command {number}", ["run", "plant.db"], (0, b'{"ok":%d}\n' % number, b""), line)
            self.check_run(f"pages of {size}, verified", ["verify", "plant.db"], good(2))
            self.check_made(f"pages of {size}", size)

    def test_empty_file_is_taken_as_the_store_takes_it(self) -> None:
        self.file.touch()
        self.check_taken("an empty file", LARGE)

    def test_log_without_its_file_is_left_to_the_store(self) -> None:
        (self.folder / "plant.db-wal").touch()
        self.check_taken("a log alone", LARGE)

    def test_file_in_a_folder_of_somebody_else_is_a_fault_of_the_store(self) -> None:
        self.folder.chmod(0o555)
        self.check("no right to the folder", self.desk.run("init", "plant.db", **faults.as_nobody()), STORE)
        self.folder.chmod(0o755)
        self.check("nothing is made", list(self.folder.iterdir()), [])


class LeftBeside(NewFileTestCase):
    """What stands at FILE-new as a file is made."""

    def test_begun_file_is_made_whole(self) -> None:
        page = self.whole_page()
        for count in 0, 1, 18, 512, 1023, 1024:
            self.clear()
            self.new.write_bytes(page[:count])
            self.check_taken(f"{count} bytes of the page")

    def test_begun_file_with_both_names_loses_the_first(self) -> None:
        self.new.write_bytes(self.whole_page())
        os.link(self.new, self.file)
        self.check_taken("two names")

    def test_file_of_somebody_else_stays(self) -> None:
        page = self.whole_page()
        for held in b"\0", b"FLOUR 500 kg\n", bytes(1024), page + b"\0", page[:1023] + b"x", page * 4:
            self.clear()
            self.new.write_bytes(held)
            self.check_taken(f"{len(held)} bytes that begin with {held[:9]!r}", LARGE)
            self.check("they stay", self.new.read_bytes(), held)

    def test_link_folder_or_second_name_stays(self) -> None:
        other = self.folder / "other"
        ways: list[tuple[str, Callable[[pathlib.Path, pathlib.Path], None]]] = [
            ("link", os.symlink), ("second name", os.link),
        ]
        for case, make in ways:
            self.clear()
            other.touch()
            make(other, self.new)
            self.check_taken(f"a {case}", LARGE)
            self.check(f"a {case}, what it leads to", other.read_bytes(), b"")
        self.clear()
        self.new.symlink_to("nothing")
        self.check_taken("a link to nothing", LARGE)
        self.clear()
        self.new.mkdir()
        self.check_taken("a folder", LARGE)
        self.new.rmdir()

    def test_desk_of_that_name_stays(self) -> None:
        """Starts a desk at FILE while one at FILE-new was stopped whose commands are all in its log, and while that is at work."""
        page = self.whole_page()
        self.desk.run("run", "plant.db-new", told=CLASS)
        with self.desk.start("run", "plant.db-new", stdin=subprocess.PIPE) as other:
            other.stdin.write(OTHER)
            other.stdin.flush()
            self.check("the other desk answers", other.stdout.readline(), b'{"ok":2}\n')
            self.check_taken("a desk beside it at work", LARGE)
            other.kill()
        self.check_run("the other desk", ["verify", "plant.db-new"], good(2))
        self.clear()
        self.new.write_bytes(page)
        (self.folder / "plant.db-new-wal").touch()
        self.check_taken("a desk beside it that was stopped", LARGE)
        self.check("its file", self.new.read_bytes(), page)

    def test_file_that_another_desk_is_making_is_busy(self) -> None:
        with self.new.open("wb") as held:
            fcntl.lockf(held, fcntl.LOCK_EX | fcntl.LOCK_NB, *LOCKED)
            self.check_run("a locked file beside it", ["init", "plant.db"], STORE)
            self.check_true("nothing is made", not self.file.exists())
        self.check_taken("the lock is gone")


class MetCalls(NewFileTestCase):
    """Each call of a making about its files, in turn."""

    IS_LONG = True

    def meetings(self, case: str, env_of: Callable[[int], dict[str, str]]) -> Iterator[tuple[str, dict[str, str]]]:
        """Yields a case for each call, with the environment that meets it, over no file, up to the first run that doesn't come to it."""
        for number in faults.numbers():
            self.clear()
            yield f"{case}, call {number}", env_of(number)
            if not self.mark.exists():
                break
        self.check_true(f"{case}: {number} calls", number > LEAST_CALLS)

    def test_failed_call_leaves_a_file_that_the_next_word_takes(self) -> None:
        for error in ERRORS:
            for case, env in self.meetings(errno.errorcode[error], lambda number: faults.failed_call(number, error, self.mark)):
                ended = self.desk.run("run", "plant.db", told=CLASS, env=env)
                self.check_true(f"{case}, {ended}", ended in [(0, b'{"ok":1}\n', b""), STORE])
                self.check_next(case, 1 - ended.status // 3)

    def test_stop_at_a_call_leaves_a_file_that_the_next_word_takes(self) -> None:
        for case, env in self.meetings("a stop", lambda number: faults.met_call(number, signal.SIGKILL, self.mark)):
            ended = self.desk.run("run", "plant.db", told=CLASS, env=env)
            self.check_true(f"{case}, {ended}", ended in [(0, b'{"ok":1}\n', b""), (-signal.SIGKILL, b"", b"")])
            if ended.status:
                self.check_next(case, 0)
                self.check_made(case)

    def check_next(self, case: str, count: int) -> None:
        """Checks that the next words make the desk or find it, with so many commands."""
        self.check_run(f"{case}, the next word", ["init", "plant.db"], READY)
        self.check_run(f"{case}, verified", ["verify", "plant.db"], good(count))
        self.check(f"{case}, its names", self.file.stat().st_nlink, 1)

    def test_no_answered_command_is_lost_where_another_desk_works_within_the_making(self) -> None:
        for case, env in self.meetings("a pause", lambda number: faults.met_call(number, signal.SIGSTOP, self.mark)):
            with self.desk.start("run", "plant.db", stdin=subprocess.PIPE, env=env) as paused:
                paused.stdin.write(CLASS)
                paused.stdin.close()
                other = self.other_behind(paused)
                paused.send_signal(signal.SIGCONT)
                output = paused.stdout.read()
            answered = (output + other.output).count(b'{"ok":')
            self.check_true(f"{case}, {output!r} and {other}", answered > 0)
            self.check_run(f"{case}, verified", ["verify", "plant.db"], good(answered))
            self.check_made(case)

    def test_two_desks_within_the_making_leave_a_file_of_small_pages(self) -> None:
        """Pauses two desks, each before each of its calls, and has the first end before the second goes on."""
        for first, second in itertools.product(range(1, self.calls_of_a_making() + 1), repeat=2):
            self.clear()
            case, output = f"calls {first} and {second}", b""
            with contextlib.ExitStack() as stack:
                desks = [self.paused_at(*it, stack) for it in ((first, CLASS), (second, OTHER))]
                for it in desks:
                    it.send_signal(signal.SIGCONT)
                    output += it.stdout.read()
                    self.check_true(f"{case}, a status of {it.wait()}", it.returncode in (0, 3))
            answered = output.count(b'{"ok":')
            self.check_true(f"{case}, {output!r}", answered > 0)
            self.check_run(f"{case}, verified", ["verify", "plant.db"], good(answered))
            self.check_made(case)

    def calls_of_a_making(self) -> int:
        """Returns how many calls a desk makes about its new file."""
        runs = 0
        for _, env in self.meetings("a stop", lambda number: faults.met_call(number, signal.SIGKILL, self.mark)):
            self.desk.run("init", "plant.db", env=env)
            runs += 1
        return runs - 1

    def paused_at(self, number: int, line: bytes, stack: contextlib.ExitStack) -> Process:
        """Starts a desk with this line, and returns it once it is paused before the call of this number or has ended."""
        env = faults.met_call(number, signal.SIGSTOP, self.mark)
        paused = stack.enter_context(self.desk.start("run", "plant.db", stdin=subprocess.PIPE, env=env))
        stack.callback(paused.kill)
        # One that finds the file busy ends before it reads.
        with contextlib.suppress(BrokenPipeError):
            paused.stdin.write(line)
            paused.stdin.close()
        wait_for(paused, "TZ")
        return paused

    def other_behind(self, paused: Process) -> Ended:
        """Has another desk work once a desk is paused or has ended."""
        wait_for(paused, "TZ")
        return self.desk.run("run", "plant.db", told=OTHER)


class AtOnce(NewFileTestCase):
    """Desks that are started at once over one new file."""

    def test_no_answered_command_is_lost(self) -> None:
        for number in range(ROUNDS):
            self.clear()
            lines = [b'{"at":1,"by":"","do":"add_class","class":"C-%d","name":""}\n' % it for it in range(DESKS)]
            desks = [self.desk.start("run", "plant.db", stdin=subprocess.PIPE) for _ in lines]
            ends = [(*desk.communicate(line), desk.returncode) for desk, line in zip(desks, lines)]
            answered = sum(it[0].startswith(b'{"ok":') for it in ends)
            self.check_true(f"round {number}, {ends}", answered and all(it[2] in (0, 3) for it in ends))
            self.check_run(f"round {number}, verified", ["verify", "plant.db"], good(answered))
            self.check_made(f"round {number}")
