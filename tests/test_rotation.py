"""The log of requests, rotated by logrotate while the desk serves, by the recipe of EXAMPLES."""
from __future__ import annotations

import gzip
import re
import shutil
import subprocess
import time

from tests.support.cases import DeskTestCase
from tests.support.http import Server, got
from tests.support.program import SECONDS, TOP

# The file that the recipe names.
NAMED = "/var/log/desk.log"

# What is noted of a request.
NOTED = re.compile(r'\d+ "GET /v1/lots/L-(\d+) HTTP/1\.0" 404 \d+')


class Rotation(DeskTestCase):
    """The recipe, over requests before and after it."""

    def noted(self, lines: list[str]) -> list[int]:
        """The numbers of the lots that lines note, each of which has its form."""
        found = [NOTED.fullmatch(it) for it in lines]
        self.check("lines of another form", [it for it, how in zip(lines, found) if not how], [])
        return [int(it[1]) for it in found if it]

    def test_no_line_of_before_or_after_is_lost(self) -> None:
        logrotate = shutil.which("logrotate", path="/usr/sbin:/usr/bin:/sbin:/bin")
        if logrotate is None:
            self.skipTest("there is no logrotate")
        [recipe] = re.findall(rf"^```\n({re.escape(NAMED)} {{\n.*?\n}})\n```$", (TOP / "docs/EXAMPLES.md").read_text(encoding="utf-8"), re.M | re.S)
        log, rules = self.folder / "desk.log", self.folder / "rules"
        rules.write_text(recipe.replace(NAMED, str(log)) + "\n")
        self.folder.chmod(0o700)
        with open(log, "ab") as errors, Server(self.desk, "plant.db", 1000, "--log", how={"stderr": errors}) as server:
            for turn in range(3):
                for lot in range(20):
                    server.answered(got(f"/v1/lots/L-{20 * turn + lot}"))
                last = time.monotonic() + SECONDS
                while log.read_bytes().count(b"GET") < 20 and time.monotonic() < last:
                    time.sleep(0.01)
                lines = log.read_text().splitlines()
                if turn == 0:
                    self.check("the first line", lines.pop(0), f"serving 127.0.0.1:{server.port}")
                self.check(f"what is noted in turn {turn}", self.noted(lines), [*range(20 * turn, 20 * turn + 20)])
                ran = subprocess.run([logrotate, "-f", "-s", self.folder / "state", rules], capture_output=True, text=True, timeout=SECONDS)
                self.check("how logrotate ended", (ran.returncode, ran.stdout, ran.stderr), (0, "", ""))
                with gzip.open(f"{log}.1.gz", "rt") as rotated:
                    self.check(f"what is kept of turn {turn}", self.noted([it for it in rotated.read().splitlines() if "GET" in it]), [*range(20 * turn, 20 * turn + 20)])
                self.check("what is left in the log", log.read_bytes(), b"")
