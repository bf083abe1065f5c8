#!/usr/bin/env python3
"""Measures what commands and openings cost of one or more built desks and of a peer, in one run, and prints one table.

    bench/commands/costs.py [--count N] [--folder FOLDER] [--only KIND] [--instructions] NAME=PROGRAM ..

For each kind of work a desk is made in a file and given so many commands of it, by default 20,000; then the file is verified. What is printed of
the commands is their processor time, less that of the same program over the same file without them; of verifying its processor time and its peak
memory beside the size of the file. The peer (peer.py) takes the same lines over a copy of the file, with a log written ahead. All take turns, so
that what else the machine does falls on all alike. With --instructions valgrind counts the instructions of the desks in place of their time,
where the machine is noisy. FOLDER is in memory by default, so that no disk is measured.

The first program makes the files that are verified. A ratio is to the peer, of verifying to the first program. Ids by chance are made by a seed,
which is printed; the variable DESK_SEED says it.
"""
from __future__ import annotations

import argparse
import json
import os
import pathlib
import re
import shutil
import subprocess
import sys
import tempfile
from collections.abc import Callable, Sequence
from typing import Protocol

HERE = pathlib.Path(__file__).resolve().parent
sys.path.insert(0, str(HERE.parents[1]))

from commands import Line, batch, beginning, line  # noqa: E402
from tests.support import seeds  # noqa: E402  (the top is on the path now)


def receipts(count: int, ids: Callable[[int], Sequence[int]], **more: object) -> list[Line]:
    return [line("receive", lot=f"N-{it}", **{"def": "FLOUR"}, amount=500, place="A1", **more) for it in ids(count)]


def rising(count: int) -> range:
    return range(count)


def at_random(count: int) -> list[int]:
    return seeds.chance("ids").sample(range(10 * count), count)


def splits(count: int, ids: Callable[[int], Sequence[int]], source: Callable[[int | None], str]) -> list[Line]:
    """Splits, each off the lot that `source` names of the one before it."""
    numbers = list(ids(count))
    return [
        line("split", lot=source(numbers[k - 1] if k else None), sub=0, amount=10**9 - k, new=f"N-{it}", place="A1")
        for k, it in enumerate(numbers)
    ]


def diamonds(count: int) -> list[Line]:
    """Two splits off a lot and the merge of both parts, whose lot is the next one's."""
    lines, lot = [], "F"
    for it in range(count // 3):
        lines += [line("split", lot=lot, sub=0, amount=10**8 - it, new=f"{side}-{it}", place="A1") for side in "AB"]
        parts = [{"lot": f"{side}-{it}", "sub": 0, "amount": 10**8 - it} for side in "AB"]
        lines.append(line("merge", new=f"M-{it}", place="A1", parts=parts))
        lot = f"M-{it}" if it % 100 else "F"
    return lines


def orders(count: int) -> list[Line]:
    order = {"recipe": "CAKE", "version": 1, "size": 1000000, "due": "2027-03-01", "priority": 5}
    files: list[list[Line]] = [[{"order": f"O-{it}", **order}] for it in range(1, count + 1)]
    return [line("import_orders", orders=it) for it in files]


# The kinds of work, with their commands. A batch is there for those that book it, and a lot of 10^12.
KINDS: dict[str, Callable[[int], list[Line]]] = {
    "one lot": lambda n: [line("scrap", lot="F", sub=0, amount=1)] * n,
    "receipts": lambda n: receipts(n, rising),
    "receipts, random ids": lambda n: receipts(n, at_random),
    "references": lambda n: [{**it, "ref": f"R-{k}"} for k, it in enumerate(receipts(n, rising))],
    "orders": orders,
    "consumed": lambda n: [line("consume", batch="B-0", lot="F", sub=0, amount=1)] * n,
    "produced": lambda n: [line("produce", batch="B-0", lot=f"P-{it}", **{"def": "DOUGH"}, amount=1, place="A1") for it in range(n)],
    "fan": lambda n: [{**it, "amount": 1} for it in splits(n, rising, lambda _: "F")],
    "fan, random ids": lambda n: [{**it, "amount": 1} for it in splits(n, at_random, lambda _: "F")],
    "chain": lambda n: splits(n, rising, lambda last: "F" if last is None else f"N-{last}"),
    "diamonds": diamonds,
}


class Measure(Protocol):
    """Runs a program; returns what it took, and the bytes of memory that it had at most, where they are known."""

    def __call__(self, words: Sequence[str | pathlib.Path], told: bytes = b"") -> tuple[float, int | None]: ...


def text_of(lines: Sequence[Line]) -> bytes:
    return "".join(json.dumps(it, separators=(",", ":")) + "\n" for it in lines).encode()


def spent(words: Sequence[str | pathlib.Path], told: bytes = b"") -> tuple[float, int]:
    """Runs a program; returns its processor time in seconds, and the bytes of memory that it had at most."""
    with tempfile.TemporaryFile() as given, tempfile.TemporaryFile() as output:
        given.write(told)
        given.seek(0)
        process = subprocess.Popen(words, stdin=given, stdout=output)
        _, status, used = os.wait4(process.pid, 0)
        output.seek(0)
        refused = [it for it in output.read().splitlines() if it.startswith((b'{"fault', b'{"name', b"fault"))]
    if status or refused:
        sys.exit(f"{words} ended with {status}, {refused[:1]}")
    return used.ru_utime + used.ru_stime, used.ru_maxrss * 1024


def instructions(words: Sequence[str | pathlib.Path], told: bytes = b"") -> tuple[float, None]:
    """Runs a program under valgrind; returns how many millions of instructions it took, and no memory."""
    words = ["valgrind", "--tool=callgrind", "--callgrind-out-file=/dev/null", *map(str, words)]
    ran = subprocess.run(words, input=told, stdout=subprocess.DEVNULL, stderr=subprocess.PIPE, check=True)
    return int(re.findall(rb"Collected : (\d+)", ran.stderr)[0]) / 10**6, None


def copied(file: pathlib.Path, name: str) -> pathlib.Path:
    """Returns a copy of a file."""
    return pathlib.Path(shutil.copyfile(file, file.with_name(f"{name}-{file.name}")))


def cost_of_commands(
    measure: Measure, words: Sequence[str | pathlib.Path], base: pathlib.Path, name: str, told: bytes,
    more: Sequence[str] = (),
) -> tuple[float, pathlib.Path]:
    """Returns what the commands cost over a copy of a file, and the file that they leave."""
    empty, _ = measure([*words, copied(base, f"{name}-empty"), *more])
    file = copied(base, name)
    full, _ = measure([*words, file, *more], told)
    return full - empty, file


def main() -> None:
    parser = argparse.ArgumentParser(description=__doc__, formatter_class=argparse.RawDescriptionHelpFormatter)
    parser.add_argument("--count", type=int, default=20_000)
    parser.add_argument("--folder", default="/dev/shm")
    parser.add_argument("--only", choices=KINDS)
    parser.add_argument("--instructions", action="store_true")
    parser.add_argument("programs", nargs="+", metavar="NAME=PROGRAM")
    given = parser.parse_args()
    programs = dict(it.split("=", 1) for it in given.programs)
    print(f"seed {seeds.seed()}\n")
    print("| work | program | commands | to the peer | verified | to the first | peak memory, MB | of a file of MB |")
    print("|---|---|---|---|---|---|---|---|")
    for kind in [given.only] if given.only else KINDS:
        with tempfile.TemporaryDirectory(dir=given.folder) as folder:
            measure_kind(kind, given, programs, pathlib.Path(folder))


def measure_kind(kind: str, given: argparse.Namespace, programs: dict[str, str], folder: pathlib.Path) -> None:
    """Measures one kind of work, and prints its rows."""
    measure: Measure = instructions if given.instructions else spent
    told = text_of(KINDS[kind](given.count))
    base, first = folder / "base.db", next(iter(programs.values()))
    spent([first, "run", base], text_of([*beginning(), *batch(0)]))
    peer = None
    if not given.instructions:
        peer, _ = cost_of_commands(spent, [sys.executable, HERE / "peer.py"], base, "peer", told, ["wal"])
    verified: pathlib.Path | None = None
    first_opening = 0.0
    for name, program in programs.items():
        took, file = cost_of_commands(measure, [program, "run"], base, name, told)
        verified = verified or file
        opening, peak = measure([program, "verify", copied(verified, f"{name}-verified")])
        first_opening = opening if verified is file else first_opening
        print(row(kind, name, took, peer, opening, first_opening, peak, verified.stat().st_size), flush=True)


def row(
    kind: str, name: str, took: float, peer: float | None, opening: float, first_opening: float, peak: int | None,
    size: int,
) -> str:
    unit = "s" if peer is not None else "M"
    ratio = f"{took / peer:.2f}" if peer else ""
    memory = f"{peak / 10**6:.0f}" if peak else ""
    verified = f"{opening:.2f} {unit} | {opening / first_opening:.2f} | {memory} | {size / 10**6:.1f}"
    return f"| {kind} | {name} | {took:.2f} {unit} | {ratio} | {verified} |"


if __name__ == "__main__":
    main()
