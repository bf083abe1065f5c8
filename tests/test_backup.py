"""desk-backup: copies of a desk that is closed, killed or booking, what they hold, what is kept, and what is refused.

The copies under load are of a desk whose small pages make its log begin anew every few hundred commands, with pauses between the calls of the
copier, so that checkpoints come within them. Each copy has all commands that were acknowledged before it began, and equals a desk that is given
the commands up to its number.
"""
from __future__ import annotations

import contextlib
import fcntl
import itertools
import json
import os
import pathlib
import random
import re
import shutil
import signal
import sqlite3
import subprocess
import sys
import threading
import time
from collections.abc import Callable, Iterator
from typing import Any, NamedTuple

from tests.support.cases import DeskTestCase, good
from tests.support.program import SECONDS, TOP, Process, Program

SCRIPT = TOP / "make/packaged/desk_backup.py"
sys.path.insert(0, str(SCRIPT.parent))

import desk_backup  # noqa: E402  (its folder is on the path now)

# How many copies are made under load, and in how many seconds at most; how often a backup is killed.
COPIES, MOST_SECONDS, KILLS = 40, 20, 15

# How a file begins that is a database.
CLASS = b'{"at":100,"by":"anna","do":"add_class","class":"RAW","name":""}\n'
DEFINITION = b'{"at":100,"by":"anna","do":"add_definition","def":"SUGAR","class":"RAW","name":"","unit":"g"}\n'


def receive(number: int) -> bytes:
    """Returns the receipt of a lot."""
    fields = {"at": 110, "by": "anna", "do": "receive", "lot": f"L-{number}", "def": "SUGAR", "amount": 5, "place": "A" * (number % 60)}
    return json.dumps(fields).encode() + b"\n"


def commands(count: int) -> Iterator[bytes]:
    """Returns the first lines of a desk under load."""
    yield CLASS
    yield DEFINITION
    yield from (receive(number) for number in range(count - 2))


def tables_of(path: pathlib.Path) -> dict[str, list[Any]]:
    """Returns the rows of a file by tables."""
    with contextlib.closing(sqlite3.connect(f"file:{path}?mode=ro", uri=True)) as database:
        names = [it[0] for it in database.execute("SELECT name FROM sqlite_master WHERE type = 'table' ORDER BY name")]
        return {it: sorted(database.execute(f"SELECT * FROM {it}").fetchall(), key=repr) for it in names}


class Made(NamedTuple):
    """How a backup ended: its status, the copy where there is one, and what was said."""

    status: int
    copy: pathlib.Path | None
    said: str

    @property
    def seq(self) -> int:
        """The number of the copy's last command, 0 where there is no copy."""
        return int(self.copy.stem.rsplit("-", 1)[1]) if self.copy else 0


class Load:
    """A desk that is given commands one after the other, and counts the replies."""

    def __init__(self, desk: Program, file: str, first: int = 0) -> None:
        self.process: Process = desk.start("run", file, stdin=subprocess.PIPE)
        self.seq, self.is_over, self.first = first, False, first
        self.thread = threading.Thread(target=self.book)
        self.thread.start()

    def book(self) -> None:
        """Books until it is told to end, or the desk is gone."""
        try:
            for number, line in enumerate(commands(10**9), 1):
                if number <= self.first:
                    continue
                if self.is_over:
                    return
                self.process.stdin.write(line)
                self.process.stdin.flush()
                if not self.process.stdout.readline().startswith(b'{"ok":'):
                    return
                self.seq = number
        except OSError:
            return

    def wait_for(self, seq: int) -> None:
        """Waits until so many commands are acknowledged."""
        last = time.monotonic() + SECONDS
        while self.seq < seq:
            if time.monotonic() > last:
                raise AssertionError(f"the desk hasn't booked {seq} commands")
            time.sleep(0.001)

    def end(self, is_killed: bool = False) -> None:
        """Ends the desk."""
        self.is_over = True
        if is_killed:
            self.process.kill()
        self.thread.join()
        with contextlib.suppress(BrokenPipeError):  # of a line that a killed desk didn't read
            self.process.stdin.close()
        self.process.wait(SECONDS)
        self.process.stdout.close()
        self.process.stderr.close()


class BackupTestCase(DeskTestCase):
    """A test case over backups into a folder of its own."""

    IN_MEMORY = True

    # How many commands the desk has that the copies are compared with.
    replayed = 0

    def setUp(self) -> None:
        super().setUp()
        self.file, self.out = self.folder / "plant.db", self.folder / "out"
        self.out.mkdir()

    def book(self, *lines: bytes) -> None:
        """Has the desk execute lines."""
        self.check("commands", self.desk.run("run", "plant.db", told=b"".join(lines)).status, 0)

    def backup(self, *words: str, file: str = "plant.db", out: str = "out") -> Made:
        """Makes a backup."""
        ran = subprocess.run(
            [sys.executable, SCRIPT, file, out, "--desk", str(self.desk.path), *words], cwd=self.folder, capture_output=True, text=True, timeout=SECONDS)
        return Made(ran.returncode, pathlib.Path(ran.stdout.strip()) if ran.stdout else None, ran.stderr)

    def check_copy(self, case: str, copy: pathlib.Path, least: int, most: int) -> None:
        """Checks that a copy is a good desk of so many commands, and equals one that was given them."""
        found = self.desk.run("verify", str(copy))
        seq = int(found.output.split()[-1]) if found.status == 0 else -1
        self.check_true(f"{case}: {found}, from {least} to {most}", least <= seq <= most)
        self.check(f"{case}: verified", found, good(seq))
        self.desk.run("run", "replay.db", told=b"".join(itertools.islice(commands(10**9), self.replayed, seq)))
        self.replayed = max(self.replayed, seq)
        self.check_true(f"{case}: its tables", tables_of(copy) == tables_of(self.folder / "replay.db"))

    def copies(self) -> list[str]:
        """Returns the names in the folder of copies, but for that of the lock."""
        return sorted(it.name for it in self.out.iterdir() if it.name != ".plant.lock")

    def check_failed(self, case: str, made: Made, status: int, said: str) -> None:
        """Checks that no copy came about, and why."""
        self.check(f"{case}: how it ended", (made.status, made.copy), (status, None))
        self.check_true(f"{case}: {made.said}", said in made.said)
        self.check(f"{case}: what is left", [it for it in self.copies() if it.endswith(".db") or "partial" in it], [])


class Backups(BackupTestCase):
    """One backup after the other."""

    def test_closed_desk_is_copied_under_its_name_moment_and_number(self) -> None:
        self.book(CLASS, DEFINITION, receive(1))
        made = self.backup()
        self.check("how it ended", (made.status, made.said), (0, ""))
        self.check_true("its name", made.copy is not None and re.fullmatch(r"plant-\d{8}T\d{6}Z-3\.db", made.copy.name))
        self.check("what is there", self.copies(), [made.copy.name, f"{made.copy.name}.sha256"] if made.copy else [])
        self.check("its tables", tables_of(self.out / self.copies()[0]), tables_of(self.file))
        self.check("its mode", (self.out / self.copies()[0]).stat().st_mode & 0o777, 0o600)

    def test_killed_desk_is_copied_with_all_that_it_acknowledged(self) -> None:
        load = Load(self.desk, "plant.db")
        load.wait_for(20)
        load.end(is_killed=True)
        made = self.backup()
        self.check_true(f"{load.seq}, {made}", made.seq in (load.seq, load.seq + 1))

    def test_open_desk_goes_on_and_keeps_others_out(self) -> None:
        load = Load(self.desk, "plant.db")
        try:
            load.wait_for(10)
            before = load.seq
            made = self.backup()
            self.check("how it ended", made.status, 0)
            self.check_true(f"{before}, {made}", made.seq >= before)
            self.check("another desk", self.desk.run("verify", "plant.db"), (3, b"", b"fault: store\n"))
            load.wait_for(load.seq + 10)
        finally:
            load.end()

    def test_copy_is_put_back_and_served(self) -> None:
        load = Load(self.desk, "plant.db")
        load.wait_for(30)
        made = self.backup()
        load.wait_for(60)
        load.end(is_killed=True)
        assert made.copy
        shutil.copyfile(made.copy, self.file)
        (self.folder / "plant.db-wal").unlink()
        self.check_verified("the copy", "plant.db", made.seq)
        reply = self.desk.run("run", "plant.db", told=b'{"at":1000,"by":"a","do":"add_class","class":"NEW","name":""}\n')
        self.check("the next command", reply.output, b'{"ok":%d}\n' % (made.seq + 1))

    def test_newest_are_kept(self) -> None:
        self.book(CLASS, DEFINITION)
        for number in range(5):
            self.book(receive(number))
            self.check(f"backup {number}", self.backup("--keep", "3").status, 0)
        self.check("the numbers", sorted(it.seq for it in desk_backup.backups(self.out, "plant")), [5, 6, 7])
        (self.out / "plant-of-anna.db").touch()
        self.book(receive(9))
        self.backup("--keep", "1")
        self.check("the numbers and others", [it.seq for it in desk_backup.backups(self.out, "plant")], [8])
        self.check_true("a foreign file stays", "plant-of-anna.db" in self.copies())
        self.check("a checksum for each copy", len([it for it in self.copies() if it.endswith(".sha256")]), 1)

    def sums(self) -> tuple[int, str]:
        """Returns how sha256sum ends over the checksums, and what it prints."""
        ran = subprocess.run("sha256sum -c --quiet *.sha256 2> /dev/null", shell=True, cwd=self.out, stdout=subprocess.PIPE, text=True, timeout=SECONDS)
        return ran.returncode, ran.stdout

    def test_flipped_bit_in_a_text_is_found_by_the_checksum_and_not_by_verify(self) -> None:
        self.book(CLASS, DEFINITION, receive(30))
        made = self.backup()
        assert made.copy
        self.check("the copy as it was made", self.sums(), (0, ""))
        content = bytearray(made.copy.read_bytes())
        content[content.index(b"A" * 30) + 7] ^= 2
        made.copy.write_bytes(content)
        self.check("the copy with a flipped bit", self.sums(), (1, f"{made.copy.name}: FAILED\n"))
        self.check_verified("the desk, which reads another text", str(made.copy), 3)

    def test_nothing_is_removed_for_a_desk_with_fewer_commands(self) -> None:
        self.book(CLASS, DEFINITION, receive(1), receive(2))
        self.backup("--keep", "1")
        for it in self.folder.glob("plant.db*"):
            it.unlink()
        self.book(CLASS, DEFINITION)
        made = self.backup("--keep", "1")
        self.check("how it ended", (made.status, len(desk_backup.backups(self.out, "plant"))), (0, 2))
        self.check_true(made.said, "nothing was removed" in made.said)

    def test_copies_may_be_beside_the_desk_and_be_copied(self) -> None:
        self.book(CLASS, DEFINITION)
        before = self.file.read_bytes()
        made = self.backup(out=".")
        self.check("the desk", self.file.read_bytes(), before)
        assert made.copy
        self.check("a copy of the copy", self.backup("--keep", "1", file=made.copy.name, out=".").status, 0)
        self.check_true("it stays", made.copy.exists())

    def test_link_leads_to_the_desk_and_its_log(self) -> None:
        self.book(CLASS, DEFINITION, receive(1))
        (self.folder / "other").mkdir()
        (self.folder / "other/link.db").symlink_to(self.file)
        self.check("the number", self.backup(file="other/link.db").seq, 3)


class Refused(BackupTestCase):
    """What is no backup."""

    def test_mistakes_are_told(self) -> None:
        self.check_failed("no file", self.backup(), 3, "is no file")
        self.file.touch()
        self.check_failed("a blank file", self.backup(), 4, "holds no desk yet")
        self.file.write_bytes(b"something else " * 1000)
        self.check_failed("another file", self.backup(), 4, "holds no desk yet")
        self.file.unlink()
        self.check("a desk", self.desk.run("init", "plant.db").status, 0)
        self.check_failed("no command", self.backup(), 4, "no command")
        self.book(CLASS)
        self.check_failed("no folder", self.backup(out="none"), 3, "is no folder")
        self.check_failed("a log", self.backup(file="plant.db-wal"), 2, "a log")
        self.check_failed("no program", self.backup("--desk", "/nowhere/desk"), 3, "can't be run")
        for it in ("0", "-1", "x", "100001"):
            self.check_failed(f"--keep {it}", self.backup("--keep", it), 2, "1 to 100000" if it != "-1" else "error:")
        (self.folder / "plant.db-journal").touch()
        self.check_failed("a journal of sqlite3", self.backup(), 3, "sqlite3")

    def test_damaged_desk_gets_no_name(self) -> None:
        self.book(CLASS, DEFINITION, receive(1))
        with sqlite3.connect(self.file) as database:
            database.execute("UPDATE sublot SET stock = 7")
        self.check_failed("a row that was changed", self.backup(), 4, "damaged G")

    def test_one_backup_runs_at_a_time(self) -> None:
        self.book(CLASS)
        with open(self.out / ".plant.lock", "w") as lock:
            fcntl.flock(lock, fcntl.LOCK_EX)
            self.check_failed("another one", self.backup(), 1, "another backup")

    def test_full_disk_leaves_no_half_copy(self) -> None:
        self.book(CLASS, DEFINITION, *map(receive, range(300)))
        ran = subprocess.run(
            ["sh", "-c", 'ulimit -f 20; exec "$@"', "sh", sys.executable, SCRIPT, self.file, self.out, "--desk", str(self.desk.path)],
            capture_output=True, timeout=SECONDS)
        self.check_true(f"how it ended: {ran}", ran.returncode != 0)
        self.check("what is left", [it for it in self.copies() if it.endswith(".db")], [])

    def check_moved(self, case: str, change: Callable[[], None]) -> None:
        """Sees that no copy counts where this is done between the file and its log, each time."""
        def pause(place: str) -> None:
            if place == "between":
                change()

        try:
            desk_backup.copy_of_a_moment(str(self.file), self.out / "x", 2, pause)
            self.check(case, "a copy", "none")
        except desk_backup.Failed as failed:
            self.check(case, failed.status, 1)

    def test_copy_counts_only_where_nothing_was_begun_anew_or_replaced(self) -> None:
        self.book(CLASS)
        log = self.folder / "plant.db-wal"

        def begun_anew() -> None:
            head = log.read_bytes()
            log.write_bytes(head[:20] + os.urandom(4) + head[24:])

        def replaced() -> None:
            shutil.copyfile(self.file, self.folder / "new")
            os.replace(self.folder / "new", self.file)

        def written() -> None:
            with self.file.open("r+b") as file:
                file.seek(100)
                file.write(b"x")

        self.check_moved("a log that is begun anew", begun_anew)
        self.check_moved("a file that is replaced", replaced)
        self.check_moved("a file that others write", written)
        log.write_bytes(b"\0" + log.read_bytes()[1:] + bytes(5000))
        self.check_moved("a file that a checkpoint writes between two headers that begin with 0", written)


class UnderLoad(BackupTestCase):
    """Backups of a desk that books."""

    def test_each_copy_is_the_desk_of_a_moment(self) -> None:
        chance = self.chance("pauses")
        load, anew, headers, began = Load(self.desk, "plant.db"), 0, set(), time.monotonic()
        try:
            load.wait_for(50)
            for number in range(COPIES):
                if time.monotonic() - began > MOST_SECONDS:
                    break
                if number % 20 == 19:
                    load.end(is_killed=True)
                    seq = self.desk.run("verify", "plant.db").output.split()[-1]
                    load = Load(self.desk, "plant.db", int(seq))
                headers.add((self.folder / "plant.db-wal").read_bytes()[:desk_backup.HEADER])
                least, copy = load.seq, self.out / "copy.db"

                def pause(place: str) -> None:
                    time.sleep(chance.choice([0, 0, 0.001, 0.02, 0.1]) if place in ("between", "file", "log") else 0)

                try:
                    desk_backup.copy_of_a_moment(str(self.file), copy, 1, pause)
                except desk_backup.Failed:
                    anew += 1
                    continue
                self.check_copy(f"copy {number}", copy, least, load.seq + 1)
        finally:
            load.end()
        self.note(f"copies that were begun again: {anew}; logs begun anew: {len(headers)}")

    def test_killed_backup_leaves_good_copies_alone(self) -> None:
        chance: random.Random = self.chance("kills")
        load = Load(self.desk, "plant.db")
        try:
            load.wait_for(20)
            for number in range(KILLS):
                words = [sys.executable, str(SCRIPT), str(self.file), str(self.out), "--desk", str(self.desk.path), "--keep", "3"]
                with subprocess.Popen(words, stdout=subprocess.DEVNULL, stderr=subprocess.DEVNULL, start_new_session=True) as backup:
                    time.sleep(chance.uniform(0.02, 0.4))
                    os.killpg(backup.pid, signal.SIGKILL)
                for it in desk_backup.backups(self.out, "plant"):
                    copy = self.folder / "try.db"
                    shutil.copyfile(it.path, copy)
                    self.check_verified(f"kill {number}: {it.path.name}", str(copy), it.seq)
        finally:
            load.end()
        self.check("a backup after them", self.backup().status, 0)
        self.check("what is left", [it for it in self.copies() if "partial" in it], [])
