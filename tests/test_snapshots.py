"""Snapshots of a file system in which a desk books: each is what a stop leaves, and opens with all that was acknowledged before it.

The file system is a btrfs in a file, over a loop device. Where the machine has none, or the user may not mount it, the tests are left out.
"""
from __future__ import annotations

import pathlib
import shutil
import subprocess
import time
import unittest

from tests.test_backup import BackupTestCase, Load

# How many snapshots are taken, and how many bytes the file system has.
SNAPSHOTS, BYTES = 40, 256 * 2**20


def ended(*words: str | pathlib.Path) -> subprocess.CompletedProcess[str]:
    """Runs a program of the system to its end."""
    return subprocess.run([str(it) for it in words], capture_output=True, text=True, timeout=60)


class Snapshots(BackupTestCase):
    """Snapshots of the folder of a desk."""

    def setUp(self) -> None:
        super().setUp()
        image, self.disk = self.folder / "disk", self.folder / "mounted"
        self.disk.mkdir()
        with image.open("wb") as it:
            it.truncate(BYTES)
        if not shutil.which("mkfs.btrfs"):
            self.skip("there is no mkfs.btrfs")
        for made in (ended("mkfs.btrfs", "-q", image), ended("mount", "-o", "loop", image, self.disk)):
            if made.returncode:
                self.skip(f"{made.args[0]} ends with {made.stderr.strip() or made.returncode}")
        self.addCleanup(ended, "umount", self.disk)
        self.check("a folder of which snapshots can be taken", ended("btrfs", "subvolume", "create", self.disk / "plant").returncode, 0)

    def skip(self, why: str) -> None:
        self.leave_out("snapshots of a file system", why)
        raise unittest.SkipTest(why)

    def test_snapshot_is_a_stop(self) -> None:
        chance = self.chance("snapshots")
        load, taken = Load(self.desk, str(self.disk / "plant/plant.db")), list[tuple[pathlib.Path, int, int]]()
        try:
            load.wait_for(20)
            for number in range(SNAPSHOTS):
                time.sleep(chance.uniform(0, 0.1))
                least, snapshot = load.seq, self.disk / f"snapshot-{number}"
                self.check(f"snapshot {number}", ended("btrfs", "subvolume", "snapshot", "-r", self.disk / "plant", snapshot).returncode, 0)
                taken.append((snapshot, least, load.seq + 1))
        finally:
            load.end()
        for snapshot, least, most in taken:
            copy = self.folder / snapshot.name
            shutil.copytree(snapshot, copy)
            self.check_copy(snapshot.name, copy / "plant.db", least, most)
        self.note(f"commands before the first and after the last snapshot: {taken[0][1]}, {taken[-1][2]}")
