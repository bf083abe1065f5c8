"""The examples beside the documents: the reports by SQL over a desk's file, and the client in Python over a desk that is served."""
from __future__ import annotations

import re
import shutil
import subprocess
import sys

from tests.support import sqlite
from tests.support.cases import DeskTestCase
from tests.support.http import Server
from tests.support.program import TOP

EXAMPLES = TOP / "examples"

# The reports over the mornings of the examples, by the words with which the comment above each begins.
REPORTS: dict[str, list[sqlite.Row]] = {
    "Stock by material": [
        ("BREAD", "pcs", "SHOP", 196, 0), ("DOUGH", "kg", "C1", 176, 0), ("FLOUR", "kg", "A1", 100, 0), ("FLOUR", "kg", "A2", 0, 400),
        ("YEAST", "g", "COLD", 14_000, 0),
    ],
    "Yield of batches": [
        ("B-1", "complete", "DOUGH", "kg", 300, 296, 0), ("B-2", "running", "DOUGH", "kg", 600, 0, 0), ("B-3", "running", "BREAD", "pcs", 200, 196, 0),
    ],
    "Orders that are due": [
        ("2027-03-02", 9, "O-3", "BREAD", 1, 200, "released", "B-3"), ("2027-03-02", 5, "O-2", "DOUGH", 1, 600, "released", "B-2"),
        ("2027-03-05", 9, "O-5", "DOUGH", 1, 900, "open", None),
    ],
    "Who booked what": [
        ("ben", "consumed", 4, "1970-01-01 00:03:40", "1970-01-01 00:06:00"), ("ben", "produced", 2, "1970-01-01 00:04:10", "1970-01-01 00:06:20"),
        ("carl", "received", 3, "1970-01-01 00:02:20", "1970-01-01 00:02:30"), ("carl", "divided", 1, "1970-01-01 00:02:20", "1970-01-01 00:02:20"),
    ],
}


class Reports(DeskTestCase):
    """examples/reports.sql over the desk of the mornings."""

    def test_reports_are_those_of_the_mornings(self) -> None:
        self.desk.run("run", "plant.db", told=(EXAMPLES / "mornings.jsonl").read_bytes())
        parts = (EXAMPLES / "reports.sql").read_text().split(";\n")
        texts = {begin: [it for it in parts if f"-- {begin}" in it] for begin in REPORTS}
        with sqlite.opened(self.folder / "plant.db") as store:
            for begin, wanted in REPORTS.items():
                self.check(begin, [store.execute(it, {"today": "2027-03-01"}).fetchall() for it in texts[begin]], [wanted])
        self.check("how many reports there are", len(parts), len(REPORTS) + 1)

    def test_printed_lines_give_the_reports(self) -> None:
        """Has bash do the very line of EXAMPLES, and that of the head of the reports, each where it is to be typed."""
        if shutil.which("sqlite3") is None:
            self.skipTest("there is no sqlite3")
        told = (EXAMPLES / "mornings.jsonl").read_bytes()
        shutil.copytree(EXAMPLES, self.folder / "examples")
        for document, folder in ((TOP / "docs/EXAMPLES.md", self.folder), (EXAMPLES / "reports.sql", self.folder / "examples")):
            self.desk.run("run", str(folder / "plant.db"), told=told)
            lines = re.findall(r"^(?:--     )?(sqlite3 -header .*)$", document.read_text(), re.M)
            self.check(f"the lines of {document.name}", len(lines), 1)
            ran = subprocess.run(["bash", "-c", lines[0]], cwd=folder, stdin=subprocess.DEVNULL, capture_output=True, text=True, timeout=60)
            self.check(f"the status of {lines[0]}, and its errors", (ran.returncode, ran.stderr), (0, ""))
            rows = [line.split() for line in ran.stdout.splitlines()]
            for begin, wanted in REPORTS.items():
                missing = [it for it in wanted if " ".join(str(part) for part in it if part is not None).split() not in rows]
                self.check(f"{begin} by the line of {document.name}", missing, [])


class Client(DeskTestCase):
    """examples/client.py over a desk that is served."""

    def test_client_books_a_lot_and_asks_for_its_stock(self) -> None:
        with Server(self.desk, "plant.db", 100) as server:
            for number in (3, 4):
                ran = subprocess.run([sys.executable, EXAMPLES / "client.py", f"http://127.0.0.1:{server.port}"], capture_output=True, text=True, timeout=60)
                self.check("the status of the client, and its errors", (ran.returncode, ran.stderr), (0, ""))
                seq, lot, stock, unit = ran.stdout.split()
                self.check("what it prints", (int(seq), lot.startswith("F-"), stock, unit), (number, True, "500", "kg"))
        self.check_verified("the file", "plant.db", 4)
