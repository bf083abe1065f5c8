"""The package for Debian as dpkg installs, replaces, removes and purges it below a folder, with a `systemctl` that notes what it is asked; the recipes of
EXAMPLES and ERRORS over what is there then; and what the unit does after a fault.

The packages of these tests have a text in the place of the desk. That systemd itself gives the folder of desks to the user of the units isn't seen.
"""
from __future__ import annotations

import hashlib
import json
import os
import pathlib
import re
import shlex
import shutil
import stat
import subprocess

from tests.support import sqlite, tools
from tests.support.cases import DeskTestCase, FolderTestCase
from tests.support.program import EXAMPLES, SECONDS, TOP, path_of

# Notes each call with the program that is there at that moment, and knows which units run.
SYSTEMCTL = r"""#!/bin/sh
echo "$* [$(cat "$ROOT/usr/bin/desk" 2> /dev/null)]" >> "$ROOT/calls"
case $1 in
  list-units) for unit in $(cat "$ROOT/running"); do for form in "$@"; do
      case $unit in $form) echo "$unit loaded active running A unit" ;; esac; done; done ;;
  stop) grep -vx "$2" "$ROOT/running" > "$ROOT/others"; mv "$ROOT/others" "$ROOT/running" ;;
  start) [ ! -e "$ROOT/broken" ] || exit 1; echo "$2" >> "$ROOT/running" ;;
esac
"""

# How the units are looked for before the programs are replaced, and before they are removed.
LISTED = "list-units --plain --no-legend --full --state=active,activating,reloading desk@*.service"
ALL_LISTED = LISTED.replace("desk@", "desk-backup@*.timer desk-backup@*.service desk@")

# The backup that the recipes name.
BACKUP = "plant-20270301T120000Z-4711.db"


def recipes(document: str, heading: str) -> list[str]:
    """The blocks of a document that come after a heading, without their marks."""
    text = (TOP / "docs" / document).read_text().partition(f"# {heading}\n")[2]
    found: list[str] = re.findall(r"^```\n(.*?)^```$", text, re.M | re.S)
    return found


class RootTestCase(FolderTestCase):
    """A test case over a folder that is the root of a machine, with dpkg and a `systemctl` that only notes."""

    def setUp(self) -> None:
        super().setUp()
        if shutil.which("dpkg") is None:
            self.skipTest("there is no dpkg")
        self.root = self.folder / "root"
        for it in ("var/lib/dpkg/info", "var/lib/dpkg/updates", "var/lib/dpkg/triggers", "run/systemd/system", "mnt/backup"):
            (self.root / it).mkdir(parents=True)
        for it in ("var/lib/dpkg/status", "running", "calls"):
            (self.root / it).touch()
        (self.folder / "bin").mkdir()
        (self.folder / "bin/systemctl").write_text(SYSTEMCTL)
        (self.folder / "bin/systemctl").chmod(0o755)
        forced = " ".join(f"--force-{it}" for it in ("script-chrootless", "depends", "not-root", "bad-path"))
        (self.folder / "bin/dpkg").write_text(f'#!/bin/sh\nexec {shutil.which("dpkg")} --root="$ROOT" --log="$ROOT/../log" {forced} "$@"\n')
        (self.folder / "bin/dpkg").chmod(0o755)
        self.environment = {**os.environ, "ROOT": str(self.root), "PATH": f"{self.folder}/bin:{os.environ['PATH']}:/usr/sbin:/sbin", "LC_ALL": "C"}

    def package(self, version: str) -> pathlib.Path:
        """Makes a package of this version, in which the desk is a text."""
        path = self.folder / f"desk_{version}_amd64.deb"
        units = {f"lib/systemd/system/{it.name}": (it.read_bytes(), 0o644) for it in (TOP / "make/packaged").glob("*@.*")}
        path.write_bytes(tools.loaded("make/package.py").debian({}, version, {"bin/desk": (version.encode(), 0o755), **units}))
        return path

    def dpkg(self, *words: str | pathlib.Path, status: int = 0) -> list[str]:
        """Runs dpkg over the root, and returns what systemctl was asked meanwhile."""
        (self.root / "calls").write_text("")
        ran = subprocess.run([self.folder / "bin/dpkg", *words], env=self.environment, capture_output=True, text=True, timeout=SECONDS)
        self.check(f"how dpkg ended at {words}: {ran.stderr}", ran.returncode, status)
        return (self.root / "calls").read_text().splitlines()

    def running(self, *units: str) -> None:
        """Sets which units run."""
        (self.root / "running").write_text("".join(f"{it}\n" for it in units))

    def check_running(self, case: str, *units: str) -> None:
        self.check(case, (self.root / "running").read_text().split(), list(units))

    def typed(self, text: str, status: int = 0) -> str:
        """Has bash do what is typed in a recipe, in the root, and returns what it prints."""
        text = re.sub(r"(?<![\w/])(/var/lib/desk|/etc/desk|/mnt/backup)\b", rf"{self.root}\1", text.replace("sudo ", ""))
        ran = subprocess.run(["bash", "-euc", text], cwd=self.folder, env=self.environment, capture_output=True, text=True, timeout=SECONDS)
        self.check(f"{text}: {ran.stderr}", ran.returncode, status)
        return ran.stdout


class Scripts(RootTestCase):
    """What the scripts of the package do as dpkg runs them."""

    def test_first_installation_makes_the_folders_as_the_unit_has_them(self) -> None:
        self.check("what systemctl was asked", self.dpkg("-i", self.package("1.0.0")), ["daemon-reload [1.0.0]"])
        modes = {it: stat.S_IMODE((self.root / it).stat().st_mode) for it in ("etc/desk", "var/lib/private", "var/lib/private/desk")}
        self.check("the folders and their modes", modes, {"etc/desk": 0o755, "var/lib/private": 0o700, "var/lib/private/desk": 0o750})
        self.check("the link", os.readlink(self.root / "var/lib/desk"), "private/desk")
        unit = (TOP / "make/packaged/desk@.service").read_text()
        for line in ("DynamicUser=yes", "StateDirectory=desk", "StateDirectoryMode=0750"):
            self.check_true(f"the unit has {line}", f"\n{line}\n" in unit)

    def test_served_desks_are_stopped_before_an_upgrade_and_started_after_it(self) -> None:
        self.dpkg("-i", self.package("1.0.0"))
        self.running("desk@plant.service", "desk-backup@plant.timer", "desk@other.service", "nginx.service")
        asked = self.dpkg("-i", self.package("1.0.1"))
        wanted = [f"{LISTED} [1.0.0]", "stop desk@plant.service [1.0.0]", "stop desk@other.service [1.0.0]", "daemon-reload [1.0.1]"]
        wanted += ["start desk@other.service [1.0.1]", "start desk@plant.service [1.0.1]"]
        self.check("what systemctl was asked", asked, wanted)
        self.check_running("what runs", "desk-backup@plant.timer", "nginx.service", "desk@other.service", "desk@plant.service")
        self.running("nginx.service")
        self.check("where no desk is served", self.dpkg("-i", self.package("1.0.0")), [f"{LISTED} [1.0.1]", "daemon-reload [1.0.0]"])

    def test_unit_that_does_not_start_keeps_no_package_from_being_installed(self) -> None:
        self.dpkg("-i", self.package("1.0.0"))
        self.running("desk@plant.service")
        (self.root / "broken").touch()
        self.check("the last call", self.dpkg("-i", self.package("1.0.1"))[-1:], ["start desk@plant.service [1.0.1]"])
        self.check_true("nothing is noted any more", not (self.root / "run/desk-stopped").exists())

    def test_data_and_settings_survive_removal_and_purge(self) -> None:
        self.dpkg("-i", self.package("1.0.0"))
        kept = {"var/lib/desk/plant.db": "records", "etc/desk/plant.conf": "PORT=8081\n"}
        for place, text in kept.items():
            (self.root / place).write_text(text)
        self.running("desk@plant.service", "desk-backup@plant.timer", "nginx.service")
        wanted = [f"{ALL_LISTED} [1.0.0]", "stop desk@plant.service [1.0.0]", "stop desk-backup@plant.timer [1.0.0]", "daemon-reload []"]
        self.check("what systemctl was asked", self.dpkg("-r", "desk"), wanted)
        self.check_running("what runs", "nginx.service")
        self.check("of a purge", self.dpkg("-P", "desk"), [])
        self.check("what is kept", {it: (self.root / it).read_text() for it in kept}, kept)
        self.dpkg("-i", self.package("1.0.1"))
        self.check("and after a new installation", {it: (self.root / it).read_text() for it in kept}, kept)

    def test_folder_that_is_there_stays_as_it_is(self) -> None:
        (self.root / "var/lib/desk").mkdir(mode=0o711)
        self.dpkg("-i", self.package("1.0.0"))
        self.check("its mode", stat.S_IMODE((self.root / "var/lib/desk").stat().st_mode), 0o711)
        self.check_true("no other is made", not (self.root / "var/lib/private").exists())

    def test_without_systemd_nothing_is_asked(self) -> None:
        (self.root / "run/systemd/system").rmdir()
        for words in (("-i", str(self.package("1.0.0"))), ("-i", str(self.package("1.0.1"))), ("-r", "desk"), ("-P", "desk")):
            self.check(f"of {words}", self.dpkg(*words), [])

    def test_other_words_than_those_of_dpkg_are_refused(self) -> None:
        for name in ("postinst", "prerm", "postrm"):
            ran = subprocess.run([TOP / "make/packaged/debian" / name, "sing"], env=self.environment, capture_output=True, text=True, timeout=SECONDS)
            self.check(name, (ran.returncode, ran.stderr), (1, f"{name} called with unknown argument: sing\n"))


class Recipes(RootTestCase, DeskTestCase):
    """The recipes of EXAMPLES and ERRORS."""

    def setUp(self) -> None:
        super().setUp()
        self.dpkg("-i", self.package("1.0.0"))
        self.file = self.root / "var/lib/desk/plant.db"
        (self.folder / "bin/desk").symlink_to(path_of("desk"))

    def book(self, file: pathlib.Path, first: int, count: int) -> None:
        """Has the desk add classes."""
        lines = [json.dumps({"at": 100, "by": "anna", "do": "add_class", "class": f"C-{it}", "name": "A1"}) for it in range(first, first + count)]
        self.check("commands", self.desk.run("run", str(file), told="".join(f"{it}\n" for it in lines).encode()).status, 0)

    def back_up(self, file: pathlib.Path) -> None:
        """Copies a desk to the backup that the recipes name, with its checksum."""
        copy = self.root / "mnt/backup" / BACKUP
        shutil.copyfile(file, copy)
        pathlib.Path(f"{copy}.sha256").write_text(f"{hashlib.sha256(copy.read_bytes()).hexdigest()}  {BACKUP}\n")

    def check_restored(self, case: str, count: int) -> None:
        """Checks that the desk is the backup, and its file the folder's owner's."""
        folder, file = self.file.parent.stat(), self.file.stat()
        self.check(f"{case}: the owner", (file.st_uid, file.st_gid), (folder.st_uid, folder.st_gid))
        self.check_verified(case, str(self.file), count)
        self.check(f"{case}: the last call", (self.root / "calls").read_text().splitlines()[-1:], ["start desk@plant [1.0.0]"])

    def test_backup_is_restored_on_a_new_machine(self) -> None:
        self.book(self.folder / "lost.db", 0, 3)
        self.back_up(self.folder / "lost.db")
        self.typed(recipes("EXAMPLES.md", "Restoring")[0])
        self.check_restored("a new machine", 3)

    def test_backup_is_restored_over_a_desk_that_was_killed(self) -> None:
        self.book(self.file, 0, 2)
        self.back_up(self.file)
        self.book(self.file, 2, 3)
        if os.geteuid() == 0:
            os.chown(self.file.parent, 61234, 61234)
        with_log = self.desk.start("run", str(self.file), stdin=subprocess.PIPE)
        with_log.stdin.write(b'{"at":100,"by":"anna","do":"add_class","class":"NEW","name":""}\n')
        with_log.stdin.flush()
        self.check("a command", with_log.stdout.readline(), b'{"ok":6}\n')
        with_log.kill()
        with_log.communicate()
        self.check_true("its log has frames", (self.file.parent / "plant.db-wal").stat().st_size > 1000)
        self.typed(recipes("EXAMPLES.md", "Restoring")[0])
        self.check_restored("a desk that was killed", 2)

    def test_damaged_backup_is_not_restored(self) -> None:
        self.book(self.file, 0, 2)
        self.back_up(self.file)
        before, copy = self.file.read_bytes(), self.root / "mnt/backup" / BACKUP
        copy.write_bytes(before.replace(b"A1", b"A#"))
        self.check_true("what is printed", "FAILED" in self.typed(recipes("EXAMPLES.md", "Restoring")[0], status=1))
        self.check_true("the file is as it was", self.file.read_bytes() == before)

    def test_upgrade_migrates_and_going_back_takes_the_backup(self) -> None:
        """Upgrades over a file of schema 3, of which there is a backup; the older program is one that only knows schema 3."""
        self.book(self.file, 0, 2)
        sqlite.changed(self.file, sqlite.TO_SCHEMA_3)
        self.back_up(self.file)
        self.running("desk@plant.service")
        (self.folder / "desk_1.0.0_amd64.deb").unlink()
        self.package("1.0.1")
        before = self.file.read_bytes()
        self.typed(recipes("EXAMPLES.md", "Upgrading")[0])
        asked = (self.root / "calls").read_text().splitlines()
        wanted = ["start desk-backup@plant [1.0.0]", "stop desk@plant.service [1.0.0]", "start desk@plant.service [1.0.1]"]
        self.check("a backup, and the desk stopped and started", [it for it in asked if it.startswith("st")], wanted)
        self.check_true("dpkg leaves the file alone", self.file.read_bytes() == before)
        self.check_verified("the first start migrates it", str(self.file), 2)
        self.dpkg("-i", self.package("1.0.0"))
        self.typed(recipes("EXAMPLES.md", "Restoring")[0])
        self.check("the schema after going back", sqlite.rows(self.file, "SELECT schema, seq FROM meta"), [(3, 2)])

    def test_bookings_of_a_damaged_file_are_read_that_the_backup_lacks(self) -> None:
        """Damages the pages of an index: the file is no desk any more, but what came after the backup is read from its tables."""
        if shutil.which("sqlite3") is None:
            self.skipTest("there is no sqlite3")
        told = (EXAMPLES / "batch.jsonl").read_bytes()
        self.check("the batch", self.desk.run("run", str(self.file), told=told).status, 0)
        self.back_up(self.file)
        lines = b'{"at":900,"by":"ben","do":"receive","lot":"F-8","def":"FLOUR","amount":7,"place":"A1"}\n'
        lines += b'{"at":900,"by":"ben","do":"receive","lot":"F-9","def":"FLOUR","amount":5,"place":"A1","ref":"SCAN-7"}\n'
        self.check("later bookings", self.desk.run("run", str(self.file), told=lines).output, b'{"ok":16}\n{"ok":17}\n')
        [(page,)] = sqlite.rows(self.file, "SELECT rootpage FROM sqlite_master WHERE name = 'movement_by_lot'")
        with self.file.open("r+b") as file:
            file.seek((page - 1) * 1024)
            file.write(b"\xff" * 1024)
        self.check("the damaged file", self.desk.run("verify", str(self.file)).status, 3)
        keep, read = recipes("ERRORS.md", "The file is damaged")[:2]
        self.typed(keep)
        self.typed(recipes("EXAMPLES.md", "Restoring")[0])
        self.check_restored("the backup", 15)
        wanted = ["16|1|1|F-8|0||||7|900|ben|", "17|1|1|F-9|0||||5|900|ben|", "900", "ben", "", "receive", "F-9", "FLOUR", "5", "A1", ""]
        self.check("what the backup lacks", self.typed(read.replace("4711", "15")).splitlines(), wanted)

    def test_orders_of_a_wrong_file_are_cancelled(self) -> None:
        told = b"".join((EXAMPLES / "batch.jsonl").read_bytes().splitlines(True)[:5])
        self.check("recipes", self.desk.run("run", str(self.folder / "plant.db"), told=told).status, 0)
        (self.folder / "wrong.csv").write_text("order,recipe,version,size,due,priority\nO-7,CAKE,1,500,2027-03-01,5\n\"O-8\",CAKE,1,250,2027-03-08,5\n")
        imported = self.desk.run("import", "plant.db", "--at", "400", "--by", "anna", told=(self.folder / "wrong.csv").read_bytes())
        self.check("the import", imported.status, 0)
        self.typed(recipes("ERRORS.md", "A wrong file was booked in")[0])
        states = sqlite.rows(self.folder / "plant.db", "SELECT id, state FROM job WHERE id IN ('O-7', 'O-8') ORDER BY id")
        self.check("the orders", states, [("O-7", "cancelled"), ("O-8", "cancelled")])


class AfterFault(DeskTestCase):
    """What the unit does once its desk has ended."""

    PROGRAMS = ("desk", "desk_check")

    def ended(self, result: str, status: str) -> tuple[str, str]:
        """Runs the first command line that the unit has for a desk that has ended so; returns what it prints."""
        [line, _] = re.findall(r"^ExecStopPost=-(.*)$", (TOP / "make/packaged/desk@.service").read_text(), re.M)
        line = line.replace("%i", "plant").replace("$$", "$").replace("/var/lib/desk/", "").replace("/usr/bin/desk_check", str(path_of("desk_check")))
        environment = {**os.environ, "SERVICE_RESULT": result, "EXIT_STATUS": status}
        ran = subprocess.run(shlex.split(line), cwd=self.folder, env=environment, capture_output=True, text=True, timeout=SECONDS)
        return ran.stdout, ran.stderr

    def test_fault_leaves_the_sentences_of_desk_check_and_a_clean_end_nothing(self) -> None:
        told = (EXAMPLES / "batch.jsonl").read_bytes()
        self.check("the batch", self.desk.run("run", "plant.db", told=told).status, 0)
        for case in (("success", "0"), ("success", "TERM"), ("exit-code", "2"), ("signal", "KILL")):
            self.check(f"after {case}", self.ended(*case), ("", ""))
        printed, _ = self.ended("exit-code", "3")
        self.check_true(printed, printed.startswith("The file opens.\n") and printed.endswith("No rule is broken.\n"))
        sqlite.changed(self.folder / "plant.db", "UPDATE sublot SET stock = 7")
        self.check_true("a broken rule", "Rule 7 is broken" in self.ended("exit-code", "3")[0])
        content = (self.folder / "plant.db").read_bytes()
        (self.folder / "plant.db").write_bytes(content[:1024] + b"\xff" * 4096 + content[5120:])
        printed, _ = self.ended("exit-code", "3")
        self.check_true(f"a damaged file: {printed}", printed.startswith("The file doesn't open") and "backup" in printed)
        (self.folder / "plant.db").unlink()
        self.check_true("a missing file", self.ended("exit-code", "4")[0].startswith("The file doesn't open"))
        self.check_true("none is made", not (self.folder / "plant.db").exists())
