"""The test case that counts its checks, and that of the built desk."""
from __future__ import annotations

import atexit
import collections
import pathlib
import random
import sys
import tempfile
import unittest
from collections.abc import Sequence
from typing import TYPE_CHECKING

from tests.support import program, seeds

if TYPE_CHECKING:
    from tests.support.sessions import Session

# Where files are kept in memory, so that thousands of commands don't wait for a disk.
MEMORY = pathlib.Path("/dev/shm")

# The most characters that are shown of a value.
SHOWN = 2000

# How many cases each module checked, what it has to tell beside that, and the lines of all that was left out.
COUNTS: collections.Counter[str] = collections.Counter()
NOTES: collections.defaultdict[str, list[str]] = collections.defaultdict(list)
LEFT_OUT: list[str] = []


def report() -> None:
    """Prints for each module how many cases it checked, and then what was left out. The process does so at its end."""
    for module in sorted(COUNTS):
        for note in NOTES[module]:
            print(f"{module}: {note}", file=sys.stderr)
        print(f"{module}: {COUNTS[module]} cases checked", file=sys.stderr)
    for line in LEFT_OUT:
        print(line, file=sys.stderr)


atexit.register(report)


def shown(value: object) -> str:
    """Returns a value as text, of which the middle is left out where it is long."""
    text = value if isinstance(value, str) else repr(value)
    return text if len(text) <= SHOWN else f"{text[:SHOWN // 2]} .. {text[-SHOWN // 2:]}"


class CountedTestCase(unittest.TestCase):
    """A test case that counts what it checks."""

    # Whether its tests take so long that tests/run.py gives them a process of their own, before the others.
    IS_LONG = False

    @classmethod
    def count(cls, cases: int = 1) -> None:
        """Counts cases that were checked."""
        COUNTS[cls.__module__] += cases

    @classmethod
    def note(cls, text: str) -> None:
        """Has a line printed beside the count of the module, once."""
        cls.count(0)
        if text not in NOTES[cls.__module__]:
            NOTES[cls.__module__].append(text)

    @classmethod
    def chance(cls, name: str) -> random.Random:
        """Returns the random numbers of this name, and has their seed printed beside the count of the module."""
        cls.note(f"seed {seeds.seed()}")
        return seeds.chance(name)

    @classmethod
    def leave_out(cls, what: str, why: str) -> None:
        """Has it printed at the end, once, that something isn't tested, and why."""
        line = f"left out: {cls.__module__}: {what}, since {why}"
        if line not in LEFT_OUT:
            LEFT_OUT.append(line)

    def run(self, result: unittest.TestResult | None = None) -> unittest.TestResult | None:
        """Runs the test; where it is skipped it is left out."""
        known = len(result.skipped) if result else 0
        result = super().run(result)
        assert result is not None
        for _, why in result.skipped[known:]:
            self.leave_out(self.id().removeprefix(f"{type(self).__module__}."), why)
        return result

    def check(self, case: object, found: object, wanted: object) -> bool:
        """Checks one case, and returns whether it is as wanted. The test goes on where it isn't, and fails."""
        self.count()
        with self.subTest(case=shown(case)):
            if found != wanted:
                self.fail(f"\n  found:  {shown(found)}\n  wanted: {shown(wanted)}")
        return found == wanted

    def check_true(self, case: object, holds: object) -> bool:
        """Checks one case that is a condition."""
        return self.check(case, bool(holds), True)

    @classmethod
    def check_set_up(cls, case: object, found: object, wanted: object) -> None:
        """Checks one case of what the tests stand on: without it they can't run."""
        cls.count()
        if found != wanted:
            raise AssertionError(f"{case}: found {shown(found)}, wanted {shown(wanted)}")


class FolderTestCase(CountedTestCase):
    """A test case in which each test has a new folder, `self.folder`."""

    # Whether the folder is kept in memory, if the system has a place for that.
    IN_MEMORY = False

    @classmethod
    def new_folder(cls) -> tempfile.TemporaryDirectory[str]:
        """Returns a new temporary folder; its `cleanup` removes it."""
        place = MEMORY if cls.IN_MEMORY and MEMORY.is_dir() else None
        return tempfile.TemporaryDirectory(prefix="desk-tests-", dir=place)

    @classmethod
    def class_folder(cls) -> pathlib.Path:
        """Returns the path of a new folder that is removed after the tests of the class."""
        folder = cls.new_folder()
        cls.addClassCleanup(folder.cleanup)
        return pathlib.Path(folder.name)

    def setUp(self) -> None:
        folder = self.new_folder()
        self.addCleanup(folder.cleanup)
        self.folder = pathlib.Path(folder.name)


class ProgramTestCase(FolderTestCase):
    """A test case over built programs. Where one of them isn't there, all its tests fail."""

    # The programs that the tests run.
    PROGRAMS: tuple[str, ...] = ()

    @classmethod
    def setUpClass(cls) -> None:
        super().setUpClass()
        for name in cls.PROGRAMS:
            program.path_of(name)


class DeskTestCase(ProgramTestCase):
    """A test case over the built desk, `self.desk`, which runs in the test's folder."""

    PROGRAMS: tuple[str, ...] = ("desk",)

    def setUp(self) -> None:
        super().setUp()
        self.desk = program.Program("desk", self.folder)

    @classmethod
    def keep(cls, folder: program.File, name: str, session: Session) -> pathlib.Path:
        """Keeps the file that a session leaves in a folder, and returns its path."""
        ended = program.Program("desk", folder).run("run", f"{name}.db", told=session.told)
        cls.check_set_up(name, ended, session.ended())
        return pathlib.Path(folder) / f"{name}.db"

    def check_run(
        self, case: object, words: Sequence[program.Word], wanted: tuple[int, bytes, bytes], told: bytes = b"",
    ) -> bool:
        """Checks how a run of the desk ends."""
        return self.check(case, self.desk.run(*words, told=told), wanted)

    def check_verified(self, case: object, file: program.Word, count: int) -> bool:
        """Checks that a file is found good, with so many commands."""
        return self.check_run(case, ["verify", file], good(count))


def good(count: int) -> tuple[int, bytes, bytes]:
    """Returns how `verify` ends over a good file of so many commands."""
    return (0, b"good schema 4 seq %d\n" % count, b"")
