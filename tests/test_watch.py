"""desk-watch: each state by each of its causes, the line that is printed, and that what isn't named isn't looked at."""
from __future__ import annotations

import os
import pathlib
import re
import shutil
import signal
import socket
import subprocess
import sys
import time
from typing import Any

from tests.support import faults
from tests.support.cases import DeskTestCase
from tests.support.http import Server, free_port
from tests.support.program import SECONDS, TOP

SCRIPT = TOP / "make/packaged/desk_watch.py"

OK, WARNING, CRITICAL, UNKNOWN = range(4)
STATES = ["OK", "WARNING", "CRITICAL", "UNKNOWN"]

# The line: the state, what was found, and figures, each as agents read them.
LINE = re.compile(r"([A-Z]+) - ([^|\n]+?)(?: \|((?: [a-z_]+=\d+(?:s|B|MB)?)+))?\n")

# Two commands, of which a desk has the number 2.
COMMANDS = b"".join(b'{"at":100,"by":"anna","do":"add_class","class":"%b","name":""}\n' % it for it in (b"RAW", b"NEW"))


class WatchTestCase(DeskTestCase):
    """A test case over a desk with two commands and a folder of backups."""

    def setUp(self) -> None:
        super().setUp()
        self.file, self.copies = self.folder / "plant.db", self.folder / "copies"
        self.copies.mkdir()
        self.check_set_up("commands", self.desk.run("run", "plant.db", told=COMMANDS).status, 0)

    def watch(self, *words: str | pathlib.Path, **more: str) -> tuple[int, str, dict[str, int]]:
        """Returns how desk-watch ended, with these variables more in its environment: its status, what it said, and its figures. The line has to
        have the form that agents read."""
        environment = {**os.environ, **more}
        ran = subprocess.run(
            [sys.executable, str(SCRIPT), *map(str, words)], capture_output=True, text=True, timeout=SECONDS, cwd=self.folder, env=environment)
        line = LINE.fullmatch(ran.stdout)
        self.check_true(f"the line of {words}: {ran.stdout}, {ran.stderr}", line and not ran.stderr)
        if not line:
            return ran.returncode, "", {}
        self.check(f"the state of {words}", line[1], STATES[ran.returncode])
        return ran.returncode, line[2], {name: int(figure) for name, figure in re.findall(r"(\w+)=(\d+)", line[3] or "")}

    def check_found(self, case: str, found: tuple[int, str, dict[str, int]], status: int, said: str) -> None:
        """Checks the state and what is said."""
        self.check(f"{case}: {found}", found[0], status)
        self.check_true(f"{case}: {found[1]} has {said}", said in found[1])

    def backup(self, seq: int, hours: float = 0, name: str = "plant") -> None:
        """Has a backup of this age lie in the folder: desk-watch reads its name alone."""
        made = time.strftime("%Y%m%dT%H%M%SZ", time.gmtime(time.time() - 3600 * hours))
        (self.copies / f"{name}-{made}-{seq}.db").touch()


class States(WatchTestCase):
    """Each state by each of its causes."""

    def test_all_is_well(self) -> None:
        self.backup(1, 1.5)
        self.backup(2, 0.5)
        with Server(self.desk, "plant.db", 100, "--page") as server:
            url = f"http://127.0.0.1:{server.port}"
            found = self.watch("--url", url, "--file", self.file, "--backups", self.copies, "--max-age", "1", "--min-free", "1")
            self.check_found("all of it", found, OK, "seq 2")
            self.check("the figures", sorted(found[2]), ["age", "backup_seq", "backups_free", "failed", "free", "seq", "size", "uptime"])
            self.check("some figures", (found[2].get("seq"), found[2].get("backup_seq"), found[2].get("size")), (2, 2, self.file.stat().st_size))
            self.check_true(f"the age: {found}", 1800 <= found[2].get("age", 0) < 1800 + SECONDS)
            proxied = self.watch("--url", f"{url}/", http_proxy="http://127.0.0.1:1")
            self.check("the desk alone, where the system names a proxy", (*proxied[:2], proxied[2].get("seq"), proxied[2].get("failed")), (OK, "seq 2", 2, 0))
            self.check_true("the seconds since the desk began", 0 <= proxied[2].get("uptime", -1) < SECONDS)

    def test_desk_that_does_not_answer_is_critical(self) -> None:
        port = free_port()
        self.check_found("nothing listens", self.watch("--url", f"http://127.0.0.1:{port}"), CRITICAL, "refused")
        with Server(self.desk, "plant.db", 100) as server:
            self.check_found("no desk there", self.watch("--url", f"http://127.0.0.1:{server.port}/v1"), CRITICAL, "404")
            os.kill(server.process.pid, signal.SIGSTOP)
            began = time.monotonic()
            self.check_found("a desk that is stopped", self.watch("--url", f"http://127.0.0.1:{server.port}"), CRITICAL, "within 5 seconds")
            self.check_true("it waits five seconds", 5 <= time.monotonic() - began < 15)
            os.kill(server.process.pid, signal.SIGCONT)
        self.check_found("no address", self.watch("--url", "plant"), CRITICAL, "another answer")

    def test_another_answer_is_critical(self) -> None:
        for body, said in ((b"HTTP/1.0 200 OK\r\n\r\n[1]", "another answer"), (b"HTTP/1.0 200 OK\r\n\r\nhello", "another answer"), (b"hello\r\n", "hello")):
            with socket.create_server(("127.0.0.1", 0)) as listener:
                words = [sys.executable, str(SCRIPT), "--url", f"http://127.0.0.1:{listener.getsockname()[1]}"]
                with subprocess.Popen(words, stdout=subprocess.PIPE, text=True) as process:
                    connection, _ = listener.accept()
                    with connection:
                        connection.recv(4096)
                        connection.sendall(body)
                    printed = process.communicate(timeout=SECONDS)[0]
                self.check(f"the status at {body!r}", process.returncode, CRITICAL)
                self.check_true(f"{printed} at {body!r}", printed.startswith("CRITICAL - ") and said in printed)

    def test_missing_file_or_folder_is_critical(self) -> None:
        self.check_found("no file", self.watch("--file", "nowhere.db"), CRITICAL, "nowhere.db: No such file")
        self.check_found("no folder", self.watch("--backups", self.folder / "none"), CRITICAL, "none: No such file")
        self.check_found("nor room", self.watch("--file", self.folder / "none/plant.db", "--min-free", "1"), CRITICAL, "plant.db: No such file")

    def test_backups_are_too_old_missing_or_of_another_desk(self) -> None:
        self.check_found("none", self.watch("--backups", self.copies), CRITICAL, "no backup")
        self.backup(1, 5, "other")
        (self.copies / "plant-20270301T120000Z-4711.db.sha256").touch()
        self.check_found("one of another name", self.watch("--file", self.file, "--backups", self.copies), CRITICAL, "no backup")
        self.check_found("any name", self.watch("--backups", self.copies), OK, "seq 1")
        self.backup(1, 2.5)
        words = ["--file", str(self.file), "--backups", str(self.copies)]
        self.check_found("an old one", self.watch(*words, "--max-age", "2"), WARNING, "2.5 hours old")
        self.check_found("one that is younger", self.watch(*words, "--max-age", "3"), OK, "seq 1")
        self.check_found("no age is named", self.watch(*words), OK, "seq 1")
        self.backup(3, 9)
        self.check_found("no desk is asked", self.watch(*words, "--max-age", "3"), OK, "seq 1")
        with Server(self.desk, "plant.db", 100) as server:
            words += ["--url", f"http://127.0.0.1:{server.port}"]
            self.check_found("more commands than the desk", self.watch(*words, "--max-age", "3"), CRITICAL, "a backup has seq 3, the desk 2")

    def test_little_room_is_a_warning_and_less_than_a_tenth_critical(self) -> None:
        room = os.statvfs(self.folder)
        megabytes = room.f_bavail * room.f_frsize // 1_000_000
        for least, status in ((max(megabytes // 2, 1), OK), (megabytes * 3, WARNING), (megabytes * 30, CRITICAL)):
            for words in (("--file", self.file), ("--backups", self.copies)):
                self.backup(2)
                found = self.watch(*words, "--min-free", str(least))
                self.check_found(f"{least} MB at {words}", found, status, "MB free" if status else "")
        found = self.watch("--file", self.file, "--backups", self.copies, "--min-free", str(megabytes * 3))
        self.check("both folders", found[1].count("MB free"), 2)

    def test_mistakes_and_refused_looks_are_unknown(self) -> None:
        for words in (["--max-age", "x"], ["--min-free", "1.5"], ["--nothing"], ["plant.db"], ["--url"]):
            self.check_found(f"{words}", self.watch(*words), UNKNOWN, "argument" if words[0] not in ("--nothing", "plant.db") else "unrecognized")
        self.check_found("nothing is named", self.watch(), UNKNOWN, "no option")
        self.check_found("nothing to look at", self.watch("--max-age", "2", "--min-free", "1"), UNKNOWN, "no option")

    def test_folder_of_another_user_is_unknown(self) -> None:
        """Runs the system's Python, which any user may run, over a folder that this user may not look at."""
        closed, script, python = self.folder / "closed", self.folder / "desk_watch.py", pathlib.Path("/usr/bin/python3")
        if not python.exists():
            self.skipTest(f"there is no {python}")
        closed.mkdir()
        shutil.copyfile(SCRIPT, script)
        self.folder.chmod(0o755)
        closed.chmod(0o700 if os.geteuid() == 0 else 0)
        for words in (["--file", f"{closed}/plant.db"], ["--backups", str(closed)], ["--file", f"{closed}/plant.db", "--min-free", "1"]):
            options: dict[str, Any] = {"capture_output": True, "text": True, "timeout": SECONDS, "cwd": self.folder, **faults.as_nobody()}
            ran = subprocess.run([python, script, *words], **options)
            self.check(f"the status at {words}: {ran}", ran.returncode, UNKNOWN)
            self.check_true(f"{ran.stdout} at {words}", ran.stdout.startswith("UNKNOWN - ") and "Permission denied" in ran.stdout)
        closed.chmod(0o700)

    def test_worst_state_is_the_one_that_counts(self) -> None:
        self.backup(2, 5)
        found = self.watch("--file", "nowhere.db", "--backups", self.copies, "--max-age", "1")
        self.check_found("a missing file and no backup of its name", found, CRITICAL, "no backup")
        found = self.watch("--url", f"http://127.0.0.1:{free_port()}", "--file", self.file, "--backups", self.copies, "--max-age", "1")
        self.check_found("no desk and an old backup", found, CRITICAL, "5.0 hours old")
        self.check_true(f"what is well isn't said: {found[1]}", "plant.db is there" not in found[1])
