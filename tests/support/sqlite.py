"""The desk's tables, read and changed by the SQLite that comes with Python."""
from __future__ import annotations

import contextlib
import pathlib
import sqlite3
from collections.abc import Iterable, Iterator, Mapping, Sequence
from typing import Any

from tests.support.program import File

# The folder of good and broken rows.
FOLDER = pathlib.Path(__file__).resolve().parent.parent / "tables"

# A row of a table with its texts, whole numbers and nulls, and a node: its kind and its id.
Row = tuple[Any, ...]
Node = tuple[int, str]

# The tables of a desk as they are published: each with its columns and the sets of columns that are unique. A column holds text, or whole
# numbers where # stands behind its name; it may be null where ? stands behind it.
TABLES = {
    "meta": ("k# schema# seq# at#", ["k"]),
    "class": ("id name", ["id"]),
    "definition": ("id class name unit", ["id"]),
    "recipe": ("id version# product base# low# high# title state", ["id version"]),
    "recipe_line": ("recipe version# no# kind# def? qty# t1 t2 t3", ["recipe version no"]),
    "job": ("id recipe version# size# due priority# state", ["id"]),
    "batch": ("id job at# by_who note state attempt# next# closed#", ["id", "job"]),
    "control_line": ("batch no# kind# def? qty# t1 t2 t3", ["batch no"]),
    "batch_event": ("seq# batch word phase# at# by_who note", ["seq"]),
    "lot": ("id def", ["id"]),
    "sublot": ("lot no# place stock#", ["lot no"]),
    "movement": ("seq# line# kind# lot sub# lot2? sub2#? batch? amount# at# by_who note", ["seq line"]),
    "hold": ("lot id at# by_who note", ["lot id"]),
    "edge": ("kind# a b", ["kind a b"]),
    "receipt": ("id seq# content", ["id"]),
    "recall": ("id lot state at# by_who note lift_at#? lift_by? lift_note?", ["id"]),
    "mark": ("recall kind# id", ["recall kind id"]),
}

# The indexes of a desk, with what they find.
INDEXES = {
    "batch_event_by_batch": "batch_event (batch)",
    "movement_by_lot": "movement (lot, seq, line)",
    "movement_by_batch": "movement (batch)",
    "edge_by_end": "edge (kind, b, a)",
    "mark_by_node": "mark (kind, id)",
    "definition_by_class": "definition (class, id)",
    "job_by_state": "job (state, id)",
    "batch_by_closed": "batch (closed, id)",
    "lot_by_def": "lot (def, id)",
    "recall_by_state": "recall (state, id)",
    "recipe_by_state": "recipe (state, id, version)",
    "movement_by_lot2": "movement (lot2, seq, line)",
    "job_by_due": "job (state, due, id)",
    "receipt_by_seq": "receipt (seq)",
    "sublot_by_stock": "sublot (stock, lot, no)",
}

# The statements that take a file of the fourth schema back to an earlier one.
TO_SCHEMA_3 = """
    DROP INDEX definition_by_class; DROP INDEX job_by_state; DROP INDEX batch_by_closed; DROP INDEX lot_by_def;
    DROP INDEX recipe_by_state; DROP INDEX movement_by_lot2; DROP INDEX job_by_due; DROP INDEX receipt_by_seq;
    DROP INDEX sublot_by_stock;
    DROP TABLE recall; DROP TABLE mark;
    UPDATE meta SET schema = 3;
"""
TO_SCHEMA_2 = TO_SCHEMA_3 + "DROP TABLE receipt; UPDATE meta SET schema = 2;"
TO_SCHEMA_1 = TO_SCHEMA_2 + """
    DROP INDEX movement_by_lot; DROP INDEX movement_by_batch; DROP INDEX batch_event_by_batch;
    DROP TABLE edge;
    UPDATE meta SET schema = 1;
"""

# A table of another program.
OTHER_TABLE = "CREATE TABLE shift (id INTEGER, name TEXT); INSERT INTO shift VALUES (7, 'night');"

# The kinds of the nodes that each kind of edge leads from and to: 1 is a lot, 2 a batch.
EDGE_ENDS = {1: (1, 2), 2: (2, 1), 3: (1, 1)}

# For each rule of good tables, from 1, a statement that breaks it, and none before it, behind the twenty commands of sessions.py.
DAMAGES = [
    "DELETE FROM meta",
    "UPDATE batch SET state = 'walking'",
    "UPDATE definition SET class = 'NONE' WHERE id = 'FLOUR'",
    "UPDATE recipe SET low = 901",
    "UPDATE job SET size = 99",
    "UPDATE control_line SET qty = 168 WHERE no = 1",
    "UPDATE sublot SET stock = 41 WHERE lot = 'D-2' AND no = 0",
    "DELETE FROM lot WHERE id = 'D-3'",
    "UPDATE movement SET batch = 'B-9' WHERE seq = 10",
    "UPDATE batch SET attempt = 2",
    "UPDATE meta SET seq = 17",
    "DELETE FROM edge WHERE kind = 2",
    "INSERT INTO receipt VALUES ('K-1', 99, 'x')",
    "INSERT INTO recall VALUES ('RC-1', 'F-1', 'open', 300, 'anna', '', NULL, NULL, NULL)",
]


@contextlib.contextmanager
def opened(file: File) -> Iterator[sqlite3.Connection]:
    """Opens a file; what is done to it is committed at the end."""
    with contextlib.closing(sqlite3.connect(file)) as store:
        yield store
        store.commit()


def changed(file: File, statements: str) -> None:
    """Executes statements over a file."""
    with opened(file) as store:
        store.executescript(statements)


def rows(file: File, query: str) -> list[Row]:
    """Returns the rows of a query over a file."""
    with opened(file) as store:
        return store.execute(query).fetchall()


def dumped(file: File) -> list[str]:
    """Returns a statement for each table and row that a file holds."""
    with opened(file) as store:
        store.text_factory = lambda it: it.decode("latin-1")
        return list(store.iterdump())


def filled(file: File, tables: Mapping[str, Sequence[Row]], seq: int) -> None:
    """Writes rows into the tables of a file, and sets the number of its last command."""
    with opened(file) as store:
        for table, values in tables.items():
            places = ", ".join("?" * len(values[0]))
            store.executemany(f"INSERT INTO {table} VALUES ({places})", values)
        store.execute("UPDATE meta SET seq = ?, at = 200", (seq,))


def edges(file: File) -> list[Row]:
    """Returns the edges that stand in a file."""
    return rows(file, "SELECT kind, a, b FROM edge ORDER BY kind, a, b")


def reached(ends: Mapping[Node, Iterable[Node]], start: Node) -> set[Node]:
    """Returns a node and all that `ends` leads to from it."""
    found, ahead = {start}, [start]
    while ahead:
        for node in ends.get(ahead.pop(), []):
            if node not in found:
                found.add(node)
                ahead.append(node)
    return found


def marks_and_reached(file: File) -> tuple[list[Row], list[Row]]:
    """Returns the rows of table mark, and those that it has to have: what the edges lead to from the lot of each open recall."""
    with opened(file) as store:
        ends: dict[Node, list[Node]] = {}
        wanted: list[Row] = []
        for kind, start, end in store.execute("SELECT kind, a, b FROM edge"):
            first, second = EDGE_ENDS[kind]
            ends.setdefault((first, start), []).append((second, end))
        for recall, lot in store.execute("SELECT id, lot FROM recall WHERE state = 'open'"):
            wanted += [(recall, *node) for node in reached(ends, (1, lot))]
        return store.execute("SELECT recall, kind, id FROM mark ORDER BY recall, kind, id").fetchall(), sorted(wanted)


def column_told(row: Row) -> str:
    """Returns a column, given as PRAGMA table_info tells it, as TABLES tells it."""
    _, name, kind, is_never_null, *_ = row
    told: str = name + {"TEXT": "", "INTEGER": "#"}.get(kind, kind) + ("" if is_never_null else "?")
    return told


def row_told(table: str, row: Row) -> str:
    """Returns a row as rows_of_each_word.txt has it: its table, and each value behind a bar."""
    return "|".join([table, *("NULL" if it is None else str(it).replace("\n", "/") for it in row)])


def good_desk(file: File) -> None:
    """Writes the rows of a desk that obeys all rules into the file of a new one."""
    changed(file, "DELETE FROM meta;" + (FOLDER / "good_desk.sql").read_text())


def broken_rules() -> list[tuple[int, str]]:
    """Returns statements over the rows of `good_desk`, each with the number of the first rule that it breaks, 0 for none."""
    lines = (FOLDER / "broken_rules.txt").read_text().splitlines()
    pairs = [line.split(": ", 1) for line in lines if line and not line.startswith("#")]
    return [(int(number), statement) for number, statement in pairs]


def rows_of_each_command() -> list[str]:
    """Returns the rows that a command of each kind leaves, as `row_told` tells them."""
    return (FOLDER / "rows_of_each_word.txt").read_text().splitlines()
