"""A second machine, as EXAMPLES has it: what came over by rsync or by btrfs send takes over, with all that was booked before.

Both machines are folders, between which an `ssh` runs what it is given with the other's paths. Where there is no rsync, or no btrfs that may be
mounted over a loop device, these tests are left out.
"""
from __future__ import annotations

import os
import pathlib
import re
import shutil
import subprocess
import unittest

from tests.support.program import SECONDS
from tests.test_backup import BackupTestCase, Load
from tests.test_install import BACKUP, recipes
from tests.test_snapshots import BYTES, ended

# Does on the second machine what it is given, and notes what systemd is asked.
SSH = '#!/bin/sh\nshift\nexec sh -c "$(echo "$*" | sed "s,$FIRST/,$SECOND/,g")"\n'
SYSTEMCTL = '#!/bin/sh\necho "$*" >> "$SECOND/calls"\n'

# The name of a desk, and of the folder that it is in.
NAME, PLACE = "plant.db", "var/lib/private/desk"


class StandbyTestCase(BackupTestCase):
    """A test case over two machines."""

    def setUp(self) -> None:
        super().setUp()
        self.first, self.second, tools = (self.folder / it for it in ("first", "second", "bin"))
        for root in (self.first, self.second):
            for it in ("var/lib/private", "mnt/backup"):
                (root / it).mkdir(parents=True)
            (root / "var/lib/desk").symlink_to("private/desk")
        tools.mkdir()
        for name, text in (("ssh", SSH), ("systemctl", SYSTEMCTL)):
            (tools / name).write_text(text)
            (tools / name).chmod(0o755)
        path = f"{tools}:{os.environ['PATH']}:/usr/sbin:/sbin"
        self.environment = {**os.environ, "PATH": path, "FIRST": str(self.first), "SECOND": str(self.second), "LC_ALL": "C"}
        self.rsync, self.send, self.take_over = recipes("EXAMPLES.md", "A second machine")

    def skip(self, why: str) -> None:
        self.leave_out(self.id().rpartition(".")[2], why)
        raise unittest.SkipTest(why)

    def typed(self, root: pathlib.Path, text: str) -> None:
        """Has bash do what is typed in a recipe on a machine."""
        text = re.sub(r"(?<![\w/])/(?=(var|mnt)/)", f"{root}/", text.replace("sudo ", ""))
        ran = subprocess.run(["bash", "-euc", text], cwd=root, env=self.environment, capture_output=True, text=True, timeout=SECONDS)
        self.check(f"{text}: {ran.stderr}", ran.returncode, 0)

    def check_taken_over(self, case: str, least: int, most: int) -> None:
        """Checks that the second machine has a desk of so many commands, which goes on."""
        file = self.second / PLACE / NAME
        self.check(f"{case}: the last call", (self.second / "calls").read_text().splitlines()[-1], "start desk@plant")
        self.check_copy(case, file, least, most)
        reply = self.desk.run("run", str(file), told=b'{"at":1000,"by":"a","do":"add_class","class":"NEW","name":""}\n')
        self.check_true(f"{case}: the next command: {reply}", reply.output.startswith(b'{"ok":'))


class Backups(StandbyTestCase):
    """Backups that are copied by rsync."""

    def test_newest_backup_that_came_over_takes_over(self) -> None:
        if not shutil.which("rsync"):
            self.skip("there is no rsync")
        for root in (self.first, self.second):
            (root / PLACE).mkdir()
        load = Load(self.desk, str(self.first / PLACE / NAME))
        made = []
        try:
            for number in (20, 40):
                load.wait_for(load.seq + number)
                least = load.seq
                made.append(self.backup(file=str(self.first / PLACE / NAME), out=str(self.first / "mnt/backup")))
                self.typed(self.first, self.rsync)
                most = load.seq + 1
        finally:
            load.end(is_killed=True)
        for it in (self.first / "mnt/backup").iterdir():
            it.unlink()
        self.typed(self.first, self.rsync)
        names = {it.copy.name for it in made if it.copy}
        there = {it.name for it in (self.second / "mnt/backup").glob("*.db")}
        self.check("what is there once the first folder is empty", there, names)
        newest = max(names, key=lambda it: int(it.rpartition("-")[2].removesuffix(".db")))
        self.typed(self.second, recipes("EXAMPLES.md", "Restoring")[0].replace(BACKUP, newest))
        self.check_taken_over("a backup", least, most)


class Sent(StandbyTestCase):
    """Snapshots that are sent by btrfs."""

    def setUp(self) -> None:
        super().setUp()
        if not shutil.which("mkfs.btrfs", path=self.environment["PATH"]):
            self.skip("there is no mkfs.btrfs")
        for root in (self.first, self.second):
            image, place = self.folder / f"disk-{root.name}", root / "var/lib/private"
            with image.open("wb") as it:
                it.truncate(BYTES)
            for made in (ended("mkfs.btrfs", "-q", image), ended("mount", "-o", "loop", image, place)):
                if made.returncode:
                    self.skip(f"{made.args[0]} ends with {made.stderr.strip() or made.returncode}")
            self.addCleanup(ended, "umount", place)

    def test_last_snapshot_that_came_over_takes_over(self) -> None:
        self.check("a subvolume", ended("btrfs", "subvolume", "create", self.first / PLACE).returncode, 0)
        load = Load(self.desk, str(self.first / PLACE / NAME))
        try:
            load.wait_for(20)
            self.typed(self.first, self.send.replace("-p desk-1 ", "").replace("desk-2", "desk-1"))
            load.wait_for(load.seq + 40)
            least = load.seq
            self.typed(self.first, self.send)
            most = load.seq + 1
            load.wait_for(load.seq + 20)
        finally:
            load.end(is_killed=True)
        self.typed(self.second, self.take_over)
        self.check_taken_over("a snapshot", least, most)
