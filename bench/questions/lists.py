"""Measures pages of lists over desks of some numbers of orders and lots. lists.sh calls it.

    lists.py PROGRAM FOLDER N ..

For each number a desk is made in a file, which Python's sqlite3 gives so many orders, of which one in ten is open, so many lots, of which one
in a thousand is of a second definition, and a lot more, from which so many amounts were scrapped. Then a run of the desk is asked for the same
page some times. What is told is the processor time of one: that of the run without that of a run that is asked for nothing.
"""
from __future__ import annotations

import json
import pathlib
import resource
import sqlite3
import subprocess
import sys
from collections.abc import Iterable, Mapping, Sequence

TIMES = 10_000

# The lot whose ledger is long.
LONG = "L-LONG"

BASE: list[dict[str, object]] = [
    {"do": "add_class", "class": "RAW", "name": ""},
    {"do": "add_definition", "def": "SUGAR", "class": "RAW", "name": "", "unit": "g"},
    {"do": "add_definition", "def": "SALT", "class": "RAW", "name": "", "unit": "g"},
    {
        "do": "add_recipe", "recipe": "SWEET", "version": 1, "product": "SUGAR", "base": 10, "min": 1, "max": 1000, "title": "",
        "lines": [{"kind": "out", "def": "SUGAR", "qty": 10}, {"kind": "phase", "unit": "U-1", "oper": "MIX", "phase": "STIR"}],
    },
    {"do": "approve", "recipe": "SWEET", "version": 1},
]


def lines(objects: Iterable[Mapping[str, object]]) -> bytes:
    return "".join(json.dumps(it, separators=(",", ":")) + "\n" for it in objects).encode()


def seconds(program: str, file: pathlib.Path, told: bytes) -> float:
    """The processor time of a run that is told these lines."""
    before = resource.getrusage(resource.RUSAGE_CHILDREN)
    done = subprocess.run([program, "run", file], input=told, stdout=subprocess.PIPE, check=False)
    after = resource.getrusage(resource.RUSAGE_CHILDREN)
    if done.returncode not in (0, 1) or b"BadForm" in done.stdout or b"fault" in done.stdout:
        sys.exit(f"{program}: {done.returncode} {done.stdout[:200]!r}")
    return after.ru_utime + after.ru_stime - before.ru_utime - before.ru_stime


def filled(program: str, folder: pathlib.Path, count: int) -> pathlib.Path:
    """The file of a desk with so many orders and lots."""
    file = folder / f"{count}.db"
    told = lines({"at": 1, "by": "", **it} for it in BASE)
    done = subprocess.run([program, "run", file], input=told, stdout=subprocess.PIPE, check=False)
    if done.stdout.count(b'"ok"') != len(BASE):
        sys.exit(f"{program}: {done.stdout!r}")
    store, seq = sqlite3.connect(file), len(BASE)
    orders = ((f"O-{it:07}", "SWEET", 1, 10, "2027-03-08", 5, "cancelled" if it % 10 else "open") for it in range(count))
    store.executemany("INSERT INTO job VALUES (?, ?, ?, ?, ?, ?, ?)", orders)
    store.executemany("INSERT INTO lot VALUES (?, ?)", ((f"L-{it:07}", "SUGAR" if it % 1000 else "SALT") for it in range(count)))
    store.executemany("INSERT INTO sublot VALUES (?, 0, 'A1', 100)", ((f"L-{it:07}",) for it in range(count)))
    store.execute("INSERT INTO lot VALUES (?, 'SALT')", (LONG,))
    store.execute("INSERT INTO sublot VALUES (?, 0, 'A1', 1)", (LONG,))
    moved = [(1, f"L-{it:07}", 100) for it in range(count)] + [(1, LONG, count + 1)] + [(4, LONG, 1)] * count
    store.executemany(
        "INSERT INTO movement VALUES (?, 1, ?, ?, 0, NULL, NULL, NULL, ?, 1, '', '')",
        ((seq + place, kind, lot, amount) for place, (kind, lot, amount) in enumerate(moved, 1)),
    )
    store.execute("UPDATE meta SET seq = ?", (seq + len(moved),))
    store.commit()
    store.close()
    return file


def main(program: str, folder: str, counts: Sequence[int]) -> None:
    for count in counts:
        file = filled(program, pathlib.Path(folder), count)
        idle = min(seconds(program, file, b"") for _ in range(3))
        middle = f"{count // 2:07}"
        print(f"{count} orders and lots")
        for name, question in [
            ("open orders", {"ask": "orders", "state": "open"}),
            ("open orders from the middle", {"ask": "orders", "state": "open", "above": f"O-{middle}"}),
            ("released orders, none", {"ask": "orders", "state": "released"}),
            ("open batches, none", {"ask": "batches"}),
            ("lots of the first", {"ask": "lots", "def": "SUGAR", "above": f"L-{middle}"}),
            ("lots of the second", {"ask": "lots", "def": "SALT"}),
            ("the ledger of a lot", {"ask": "movements", "lot": f"L-{middle}"}),
            ("a long ledger", {"ask": "movements", "lot": LONG}),
            ("a long ledger from its middle", {"ask": "movements", "lot": LONG, "above": f"{len(BASE) + count + count // 2}.1"}),
            ("approved recipes", {"ask": "recipes", "state": "approved"}),
            ("one order", {"ask": "order", "order": f"O-{middle}"}),
        ]:
            took = (seconds(program, file, lines([question]) * TIMES) - idle) / TIMES
            print(f"  {name}: {took * 1e6:.0f} us")


if __name__ == "__main__":
    main(sys.argv[1], sys.argv[2], [int(it) for it in sys.argv[3:]])
