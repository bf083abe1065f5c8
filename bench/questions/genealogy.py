"""Measures traces over desks of some numbers of edges. genealogy.sh calls it.

    genealogy.py PROGRAM FOLDER EDGES ..

For each number and shape a desk is made in a file: in a chain each lot is split off the one before it, in a fan all are split off one,
and in a mesh each is merged of the two before it. Then a run of the desk is asked for the trace forward from the first lot and the
one back from the last, some times each, and SQLite's recursive query for the same over table edge of a copy of the file. What is told
is the nodes found, the middle time of each, and their quotient. The answers are compared. Beside a trace is told how long the questions
take that go on from it: where goods stand, and the genealogy with amounts.
"""
from __future__ import annotations

import json
import pathlib
import shutil
import sqlite3
import statistics
import subprocess
import sys
import threading
import time
from collections.abc import Iterable, Iterator
from typing import Any

TIMES = 5
GREATEST = 10**12

# The members of a line, and what is answered: JSON that the desk makes.
Line = dict[str, object]
Answer = dict[str, Any]

# A node of a trace: 0 and a lot, or 1 and a batch.
Node = tuple[int, str]

# The nodes that edges lead to from a lot, 0 for a lot and 1 for a batch, by the column of an edge's near end and that of its far end, and by
# the kinds of edges that lead from a lot to a batch, and from a batch to a lot, in that direction.
QUERY = """WITH RECURSIVE reached (sort, id) AS (
    SELECT kind = {to_batch}, {far} FROM edge WHERE kind IN ({to_batch}, 3) AND {near} = ?1
    UNION SELECT 1, {far} FROM reached JOIN edge ON kind = {to_batch} AND {near} = id WHERE sort = 0
    UNION SELECT 0, {far} FROM reached JOIN edge ON kind = 3 AND {near} = id WHERE sort = 0
    UNION SELECT 0, {far} FROM reached JOIN edge ON kind = {to_lot} AND {near} = id WHERE sort = 1
) SELECT sort, id FROM reached ORDER BY sort, id"""

# The questions that go on from a trace, by its direction.
AROUND = {"forward": ["stands", "forward_edges"], "back": ["back_edges"]}

FORWARD = QUERY.format(near="a", far="b", to_batch=1, to_lot=2)
BACK = QUERY.format(near="b", far="a", to_batch=2, to_lot=1)


def name(number: int) -> str:
    return f"L-{number:07}"


def line(do: str, **fields: object) -> Line:
    return {"at": 1000, "by": "", "do": do, **fields}


def received(number: int, amount: int) -> Line:
    return line("receive", lot=name(number), **{"def": "SUGAR"}, amount=amount, place="")


def split(lot: int, amount: int, new: int) -> Line:
    return line("split", lot=name(lot), sub=0, amount=amount, new=name(new), place="")


def merged(first: int, second: int, new: int) -> Line:
    parts = [{"lot": name(it), "sub": 0, "amount": 1} for it in (first, second)]
    return line("merge", new=name(new), place="", parts=parts)


def commands(shape: str, edges: int) -> Iterator[Line]:
    yield line("add_class", **{"class": "RAW", "name": ""})
    yield line("add_definition", **{"def": "SUGAR", "class": "RAW", "name": "", "unit": "g"})
    if shape == "mesh":
        # Each lot gives a part to each of the two behind it, and has but the two parts that it was merged of.
        yield from (received(number, GREATEST) for number in (0, 1))
        yield from (merged(number, number + 1, number + 2) for number in range(edges // 2))
        return
    yield received(0, GREATEST)
    if shape == "chain":
        yield from (split(number, GREATEST - number - 1, number + 1) for number in range(edges))
    else:
        yield from (split(0, 1, number + 1) for number in range(edges))


def last(shape: str, edges: int) -> int:
    return edges // 2 + 1 if shape == "mesh" else edges


class Desk:
    """A run of the built desk over a file."""

    def __init__(self, program: str, path: pathlib.Path) -> None:
        self.process = subprocess.Popen([program, "run", str(path)], stdin=subprocess.PIPE, stdout=subprocess.PIPE)
        assert self.process.stdin and self.process.stdout
        self.input, self.output = self.process.stdin, self.process.stdout

    def give_all(self, lines: Iterable[Line]) -> None:
        """Gives commands without waiting for each reply; each must be accepted."""
        text = "".join(json.dumps(it, separators=(",", ":")) + "\n" for it in lines)
        feeder = threading.Thread(target=lambda: (self.input.write(text.encode()), self.input.flush()))
        feeder.start()
        for _ in range(text.count("\n")):
            reply = self.output.readline()
            if not reply.startswith(b'{"ok":'):
                sys.exit(f"refused: {reply!r}")
        feeder.join()

    def trace(self, direction: str, lot: str) -> tuple[list[Node], float]:
        """Returns the nodes of a trace, and how long it took to its answer."""
        answer, took = self.send(ask=direction, lot=lot)
        return [(int("batch" in it), it.get("lot") or it["batch"]) for it in answer["nodes"]], took

    def send(self, **fields: object) -> tuple[Answer, float]:
        """Gives a line, and returns what is answered and how long that took."""
        start = time.perf_counter()
        self.input.write(json.dumps(fields).encode() + b"\n")
        self.input.flush()
        answer = self.output.readline()
        took = time.perf_counter() - start
        return json.loads(answer), took

    def close(self) -> None:
        self.input.close()
        self.output.read()
        if self.process.wait() != 0:
            sys.exit("the desk ended with a fault")


def reached(file: sqlite3.Connection, query: str, lot: str) -> tuple[list[Node], float]:
    start = time.perf_counter()
    nodes = file.execute(query, (lot,)).fetchall()
    return nodes, time.perf_counter() - start


def measure(desk: Desk, file: sqlite3.Connection, shape: str, edges: int) -> None:
    for direction, query, lot in (("forward", FORWARD, name(0)), ("back", BACK, name(last(shape, edges)))):
        ours = [desk.trace(direction, lot) for _ in range(TIMES)]
        theirs = [reached(file, query, lot) for _ in range(TIMES)]
        if any(nodes != theirs[0][0] for nodes, _ in ours):
            sys.exit(f"{shape} of {edges}, {direction}: the answers differ")
        took, other = (statistics.median(seconds for _, seconds in it) for it in (ours, theirs))
        found = len(ours[0][0])
        print(f"{shape} of {edges} edges, {direction}: {found} nodes in {took * 1000:.1f} ms, by a query {other * 1000:.1f} ms: {took / other:.2f}")
        for question in AROUND[direction]:
            told = [desk.send(ask=question, lot=lot) for _ in range(TIMES)]
            counts = ", ".join(f"{len(it)} {kind}" for kind, it in told[0][0].items())
            more = statistics.median(seconds for _, seconds in told)
            print(f"{shape} of {edges} edges, {question}: {counts} in {more * 1000:.1f} ms: {more / took:.2f} traces")


def filled(program: str, folder: str, sizes: Iterable[str]) -> Iterator[tuple[str, int, pathlib.Path, Desk]]:
    """Makes a desk of each number of edges and each shape, and gives its shape, its edges, its file and the run that is open over it."""
    for edges in map(int, sizes):
        for shape in ("chain", "fan", "mesh"):
            path = pathlib.Path(folder) / f"{shape}-{edges}.db"
            desk = Desk(program, path)
            desk.give_all(commands(shape, edges))
            yield shape, edges, path, desk


def main(program: str, folder: str, *sizes: str) -> None:
    for shape, edges, path, desk in filled(program, folder, sizes):
        desk.close()
        copy = shutil.copy(path, f"{path}.copy")
        file = sqlite3.connect(copy)
        desk = Desk(program, path)
        desk.trace("forward", name(0))
        measure(desk, file, shape, edges)
        file.close()
        desk.close()


if __name__ == "__main__":
    main(*sys.argv[1:])
