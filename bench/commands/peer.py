"""A peer of the desk in measurements: takes lines of commands as the desk does, over a copy of its file, and makes the same lookups and
writes by the standard library's sqlite3.

    peer.py FILE journal|wal|twice|memory

Each command is committed durably before it is answered: with `journal` as sqlite3 does it where it isn't told otherwise (a rollback
journal, synchronous=FULL), with `wal` over a log written ahead, with `twice` likewise, and each commit syncs a second time, what it wrote
to a file beside, as the desk's commits sync twice. With `memory` the file is copied into a store in memory, and nothing is written
elsewhere. It knows no rules but that a stock is enough; a command with a reference is looked up among the receipts, and one is kept of it.
commands.py runs it.
"""
from __future__ import annotations

import json
import os
import sqlite3
import sys
from collections.abc import Sequence
from typing import Any

EDGES = {"consume": 1, "produce": 2, "split": 3, "merge": 3}
# The members of a line of JSON that a desk takes.
Fields = dict[str, Any]

KINDS = {"receive": 1, "consume": 2, "produce": 3, "scrap": 4, "split": 6, "merge": 7}


class Store:
    def __init__(self, path: str, way: str) -> None:
        self.second = os.open(f"{path}-second", os.O_CREAT | os.O_WRONLY) if way == "twice" else None
        self.db = sqlite3.connect(path, isolation_level=None)
        if way == "memory":
            file, self.db = self.db, sqlite3.connect(":memory:", isolation_level=None)
            file.backup(self.db)
        else:
            self.db.execute(f"PRAGMA journal_mode={'DELETE' if way == 'journal' else 'WAL'}")
            self.db.execute("PRAGMA synchronous=FULL")

    def rows(self, text: str, *values: object) -> list[tuple[Any, ...]]:
        return self.db.execute(text, values).fetchall()

    def batch(self, batch: str) -> None:
        self.rows("SELECT * FROM batch WHERE id = ?", batch)
        self.rows("SELECT * FROM control_line WHERE batch = ?", batch)

    def make_lot(self, lot: str, definition: str, place: str, amount: int) -> None:
        assert not self.rows("SELECT id FROM lot WHERE id = ?", lot)
        self.rows("INSERT INTO lot VALUES (?, ?)", lot, definition)
        self.rows("INSERT INTO sublot VALUES (?, 0, ?, ?)", lot, place, amount)

    def take(self, do: str, fields: Fields) -> str:
        """Takes an amount out of a sublot, and returns the definition of its goods."""
        lot, amount = fields["lot"], fields["amount"]
        definition: str
        [(definition,)] = self.rows("SELECT def FROM lot WHERE id = ?", lot)
        [(stock,)] = self.rows("SELECT stock FROM sublot WHERE lot = ? AND no = ?", lot, fields["sub"])
        assert stock >= amount
        if do != "scrap":
            self.rows("SELECT id FROM hold WHERE lot = ?", lot)
        if do == "consume":
            self.batch(fields["batch"])
            for kind in (2, 3):
                self.rows("SELECT a FROM edge WHERE kind = ? AND b = ?", kind, lot)
        self.rows("UPDATE sublot SET stock = ? WHERE lot = ? AND no = ?", stock - amount, lot, fields["sub"])
        return definition

    def once(self, do: str, fields: Fields, line: str) -> int:
        """Executes a command, where it has a reference once, and returns its number."""
        reference = fields.get("ref")
        known = reference and self.rows("SELECT seq, content FROM receipt WHERE id = ?", reference)
        if known:
            seq: int
            [(seq, content)] = known
            assert content == line
            return seq
        return self.book(do, fields, reference, line)

    def book(self, do: str, fields: Fields, reference: str | None, line: str) -> int:
        """Executes a command, and returns its number."""
        seq: int
        [(seq, _)] = self.rows("SELECT seq, at FROM meta WHERE k = 1")
        seq += 1
        self.rows("BEGIN IMMEDIATE")
        if do == "import_orders":
            self.import_orders(fields["orders"])
        elif do == "merge":
            self.merge(seq, fields)
        else:
            self.move(seq, do, fields)
        if reference:
            self.rows("INSERT INTO receipt VALUES (?, ?, ?)", reference, seq, line)
        self.rows("UPDATE meta SET seq = ?, at = ? WHERE k = 1", seq, fields["at"])
        self.commit(seq)
        return seq

    def import_orders(self, orders: Sequence[Fields]) -> None:
        for it in orders:
            assert not self.rows("SELECT * FROM job WHERE id = ?", it["order"])
            assert self.rows("SELECT * FROM recipe WHERE id = ? AND version = ?", it["recipe"], it["version"])
            self.rows("INSERT INTO job VALUES (?, ?, ?, ?, ?, ?, 'open')",
                      it["order"], it["recipe"], it["version"], it["size"], it["due"], it["priority"])

    def move(self, seq: int, do: str, fields: Fields) -> None:
        """A booking of one movement."""
        lot, batch, new = fields["lot"], fields.get("batch"), fields.get("new")
        if do in ("receive", "produce"):
            self.rows("SELECT id FROM definition WHERE id = ?", fields["def"])
            if batch:
                self.batch(batch)
            self.make_lot(lot, fields["def"], fields["place"], fields["amount"])
        else:
            definition = self.take(do, fields)
            if new:
                self.make_lot(new, definition, fields["place"], fields["amount"])
        self.write(seq, 1, do, fields, lot, new, fields["amount"])

    def merge(self, seq: int, fields: Fields) -> None:
        """A merge, with a movement for each of its parts."""
        new, parts = fields["new"], fields["parts"]
        definition = [self.take("merge", it) for it in parts][0]
        self.make_lot(new, definition, fields["place"], sum(it["amount"] for it in parts))
        for number, it in enumerate(parts, 1):
            self.write(seq, number, "merge", fields, it["lot"], new, it["amount"])

    def write(self, seq: int, number: int, do: str, fields: Fields, lot: str, new: str | None, amount: int) -> None:
        """Writes a movement and its edge."""
        batch = fields.get("batch")
        self.rows("INSERT INTO movement VALUES (?, ?, ?, ?, 0, ?, ?, ?, ?, ?, ?, '')",
                  seq, number, KINDS[do], lot, new, 0 if new else None, batch, amount, fields["at"], fields["by"])
        if do in EDGES:
            ends = {1: (lot, batch), 2: (batch, lot), 3: (lot, new)}[EDGES[do]]
            self.rows("INSERT INTO edge VALUES (?, ?, ?) ON CONFLICT DO NOTHING", EDGES[do], *ends)

    def commit(self, seq: int) -> None:
        self.rows("COMMIT")
        if self.second is not None:
            os.pwrite(self.second, seq.to_bytes(8, "little"), 0)
            os.fdatasync(self.second)


def main(path: str, way: str) -> None:
    store = Store(path, way)
    for line in sys.stdin.buffer:
        fields = json.loads(line)
        sys.stdout.write('{"ok":%d}\n' % store.once(fields["do"], fields, line.decode()))
        sys.stdout.flush()


if __name__ == "__main__":
    main(*sys.argv[1:])
