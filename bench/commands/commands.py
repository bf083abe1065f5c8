"""Measures commands over desks of some sizes. commands.sh calls it.

    commands.py PROGRAM FOLDER COMMANDS file|memory SIZE ..

For each size a desk of so many movements is made in a file, by receipts, scraps, splits and the bookings of batches; then COMMANDS
commands of each kind are given to one run of the desk, each after the reply to the one before it. What is told of a kind is its commands
a second and the middle time of one. As many receipts as movements stand in the file, or as SIZE says behind a `/`, as in 1000/1000000;
scraps and splits are given with and without references in turn, and the scraps once more, as repeats. Beside it stand peers that take the
same lines from a pipe, make the same lookups and writes in the same tables of a copy of the file, commit each command durably before
they answer it, and know no rules but those of stock: peer.py, in Python over the standard library's sqlite3, and peer.c, which is left
out where gcc or sqlite3.h isn't there. Each is run three times: over a rollback journal, which is SQLite's default; over a log written
ahead; and over such a log with a second sync at each commit, as the desk's commits have. With `memory` the desk and the peers keep their
tables in memory instead, and none syncs. The kinds take turns in rounds, so that what else the machine does falls on all alike. Then the
desk alone is given consumptions with no open recall and with 100 open ones, in turns, of which none reaches what is consumed. At last it
is asked about a lot, an order, itself, a batch, and where a lot came from, and the greatest size of its log is told.
"""
from __future__ import annotations

import json
import pathlib
import shutil
import sqlite3
import statistics
import subprocess
import sys
import threading
import time
from collections.abc import Callable, Iterator, Sequence

AT = 1000

HERE = pathlib.Path(__file__).resolve().parent

# The members of a line.
Line = dict[str, object]

# How many rounds the commands of a kind are given in.
ROUNDS = 5

# How many recalls are open beside some of the consumptions.
OPEN = 100


class Keeper:
    """A program that takes lines from a pipe and answers each."""

    def __init__(self, name: str, *words: str | pathlib.Path) -> None:
        self.name = name
        self.process = subprocess.Popen(words, stdin=subprocess.PIPE, stdout=subprocess.PIPE)
        assert self.process.stdin and self.process.stdout
        self.input, self.output = self.process.stdin, self.process.stdout

    def send(self, **fields: object) -> tuple[bytes, float]:
        """Gives a line, and returns the reply and how long it took."""
        line = json.dumps(fields, separators=(",", ":")).encode() + b"\n"
        start = time.perf_counter()
        self.input.write(line)
        self.input.flush()
        reply = self.output.readline()
        return reply, time.perf_counter() - start

    def accept(self, do: str, **fields: object) -> float:
        reply, took = self.send(at=AT, by="", do=do, **fields)
        if not reply.startswith(b'{"ok":'):
            sys.exit(f"{do} {fields}: {reply!r}")
        return took

    def give_all(self, lines: Sequence[Line]) -> None:
        """Gives lines without waiting for each reply."""
        text = "".join(json.dumps(it, separators=(",", ":")) + "\n" for it in lines)
        pieces = text.encode()

        def feed() -> None:
            self.input.write(pieces)
            self.input.flush()

        feeder = threading.Thread(target=feed)
        feeder.start()
        for _ in lines:
            reply = self.output.readline()
            if not reply.startswith(b'{"ok":'):
                sys.exit(f"refused: {reply!r}")
        feeder.join()

    def memory(self) -> int:
        """Returns the kilobytes that the program had at most."""
        status = pathlib.Path(f"/proc/{self.process.pid}/status").read_text()
        return int(next(it for it in status.splitlines() if it.startswith("VmHWM:")).split()[1])

    def close(self) -> int:
        self.input.close()
        self.output.read()
        return self.process.wait()


def line(do: str, **fields: object) -> Line:
    return {"at": AT, "by": "", "do": do, **fields}


RECIPE = [
    {"kind": "in", "def": "FLOUR", "qty": 1000000},
    {"kind": "out", "def": "DOUGH", "qty": 1000000},
    {"kind": "phase", "unit": "U", "oper": "O", "phase": "P"},
]


def beginning() -> Iterator[Line]:
    yield line("add_class", **{"class": "RAW", "name": ""})
    for name in ("FLOUR", "DOUGH"):
        yield line("add_definition", **{"def": name, "class": "RAW", "name": "", "unit": "kg"})
    yield line("add_recipe", recipe="CAKE", version=1, product="DOUGH", base=1000000, min=1, max=1000000000, title="", lines=RECIPE)
    yield line("approve", recipe="CAKE", version=1)
    yield line("receive", lot="F", **{"def": "FLOUR"}, amount=10**12, place="A1")


def batch(number: int) -> Iterator[Line]:
    """A batch that took 3 times and brought 4 lots, one of which was split, and another scrapped a little: 9 movements."""
    order = {"order": f"O-{number}", "recipe": "CAKE", "version": 1, "size": 1000000, "due": "2027-03-01", "priority": 5}
    yield line("import_orders", orders=[order])
    yield line("release", order=f"O-{number}", batch=f"B-{number}")
    yield line("batch", batch=f"B-{number}", word="start")
    for _ in range(3):
        yield line("consume", batch=f"B-{number}", lot="F", sub=0, amount=7)
    for piece in range(4):
        yield line("produce", batch=f"B-{number}", lot=f"D-{number}-{piece}", **{"def": "DOUGH"}, amount=100, place="A2")
    yield line("split", lot=f"D-{number}-0", sub=0, amount=5, new=f"S-{number}", place="A3")
    yield line("scrap", lot=f"D-{number}-1", sub=0, amount=1)


def fill(desk: Keeper, size: int, after_some: Callable[[], None] = lambda: None) -> None:
    """Gives a new desk so many movements, and calls what is to be done after some."""
    desk.give_all(list(beginning()))
    for first in range(0, size // 9, 100):
        numbers = range(first, min(first + 100, size // 9))
        desk.give_all([it for number in numbers for it in batch(number)])
        after_some()


def make(program: str, path: pathlib.Path, size: int) -> tuple[int, int]:
    """Makes a file of so many movements, and returns the greatest size that its log had, as it is seen now and then, and the kilobytes of
    memory that the run had at most."""
    desk = Keeper("desk", program, "run", path)
    log, greatest = pathlib.Path(f"{path}-wal"), 0

    def see_log() -> None:
        nonlocal greatest
        greatest = max(greatest, log.stat().st_size)

    fill(desk, size, see_log)
    memory = desk.memory()
    if desk.close() != 0:
        sys.exit("the desk was not made")
    return greatest, memory


def write_receipts(path: pathlib.Path, count: int) -> None:
    """Writes so many receipts into the file of a desk, and lets it have accepted as many commands at least."""
    store = sqlite3.connect(path)
    store.executemany("INSERT INTO receipt VALUES (?, ?, ?)", ((f"OLD-{it}", it, f"{AT}\n\n\nsettle\nB-{it}\n") for it in range(1, count + 1)))
    store.execute("UPDATE meta SET seq = max(seq, ?)", (count,))
    store.commit()
    store.close()


def kinds(count: int, last: str) -> Iterator[dict[str, list[tuple[str, Line]]]]:
    """Gives the commands of each kind, by its name, those together that take turns: with `ref` under a reference, and without."""
    def booked(do: str, **fields: object) -> list[tuple[str, Line]]:
        return [(do, {name: it.format(k) if isinstance(it, str) else it for name, it in fields.items()}) for k in range(count)]

    scrap = {"lot": "N-{}", "sub": 0, "amount": 1}
    yield {"receive": booked("receive", lot="N-{}", **{"def": "FLOUR"}, amount=500, place="A1")}
    yield {"scrap": booked("scrap", **scrap), "scrap, ref": booked("scrap", **scrap, ref="S-{}")}
    yield {"repeat": booked("scrap", **scrap, ref="S-{}")}
    yield {
        "split": booked("split", **scrap, new="M-{}", place="A1"),
        "split, ref": booked("split", **scrap, new="O-{}", place="A1", ref="T-{}"),
    }
    yield {"consume": booked("consume", batch=last, lot="F", sub=0, amount=1)}
    yield {"produce": booked("produce", batch=last, lot="P-{}", **{"def": "DOUGH"}, amount=1, place="A1")}


def peers(folder: pathlib.Path, path: pathlib.Path, is_in_memory: bool) -> Iterator[Keeper]:
    """Returns the peers, each over a copy of the file."""
    def copied(name: str) -> pathlib.Path:
        return shutil.copyfile(path, folder / f"{path.stem}-{name}.db")

    programs: dict[str, list[str | pathlib.Path]] = {"python": [sys.executable, HERE / "peer.py"]}
    peer = folder / "peer"
    build: list[str | pathlib.Path] = ["gcc", "-O2", "-o", peer, HERE / "peer.c", "-lsqlite3"]
    if shutil.which("gcc") and subprocess.run(build, stderr=subprocess.DEVNULL).returncode == 0:
        programs["C"] = [peer]
    for name, program in programs.items():
        for way in ["memory"] if is_in_memory else ["journal", "wal", "twice"]:
            yield Keeper(f"{name} {way}", *program, copied(f"{name}-{way}"), way)


def measured(keepers: Sequence[Keeper], count: int, last: str) -> dict[str, dict[str, list[float]]]:
    """Gives each kind of command to the keepers in turn, and returns how long each command took of each kind and keeper."""
    took: dict[str, dict[str, list[float]]] = {}
    step = max(1, count // ROUNDS)
    for group in kinds(count, last):
        for first in range(0, count, step):
            for name, commands in group.items():
                for keeper in keepers:
                    times = [keeper.accept(do, **fields) for do, fields in commands[first:first + step]]
                    took.setdefault(name, {}).setdefault(keeper.name, []).extend(times)
    return took


def beside_recalls(desk: Keeper, count: int, size: int) -> None:
    """Gives the desk consumptions with no open recall and with many, in turns, and tells how long each took. A recall reaches a lot of
    another batch and the one that was split off it."""
    consumption = {"batch": f"B-{size // 9 - 1}", "lot": "F", "sub": 0, "amount": 1}
    step, recalls = max(1, count // ROUNDS), range(min(OPEN, size // 9))
    plain: list[float] = []
    beside: list[float] = []
    for turn in range(ROUNDS):
        plain += [desk.accept("consume", **consumption) for _ in range(step)]
        for number in recalls:
            desk.accept("recall", recall=f"R-{turn}-{number}", lot=f"D-{number}-0")
        beside += [desk.accept("consume", **consumption) for _ in range(step)]
        for number in recalls:
            desk.accept("lift", recall=f"R-{turn}-{number}")
    print(f"  consume  no open recall {rate(plain)}")
    print(f"           {len(recalls)} open recalls {rate(beside)} {statistics.median(beside) / statistics.median(plain):.2f}")


def rate(times: Sequence[float]) -> str:
    return f"{len(times) / sum(times):7.0f}/s {statistics.median(times) * 1e6:7.0f} us"


def asked(desk: Keeper) -> None:
    """Asks the desk, and tells how long each kind of question takes."""
    questions = {
        "desk": {"ask": "desk"},
        "lot": {"ask": "lot", "lot": "S-0"},
        "order": {"ask": "order", "order": "O-0"},
        "batch": {"ask": "batch", "batch": "B-0"},
        "back": {"ask": "back", "lot": "S-0"},
    }
    for name, question in questions.items():
        print(f"  ask {name:6} {rate([desk.send(**question)[1] for _ in range(200)])}")


def opened(program: str, path: pathlib.Path, size: int, is_in_memory: bool) -> Keeper:
    """Returns the desk over the file, or one in memory that was given the same."""
    desk = Keeper("desk", program, "run", ":memory:" if is_in_memory else path)
    if is_in_memory:
        fill(desk, size)
    desk.send(ask="desk")
    return desk


def compared(taken: dict[str, dict[str, list[float]]]) -> None:
    """Tells how many times as long a command with a reference takes as one without, in the middle."""
    for name, took in taken.items():
        if ", ref" in name:
            ours, plain = statistics.median(took["desk"]), statistics.median(taken[name.removesuffix(", ref")]["desk"])
            print(f"  {name}: {ours / plain:.2f} of one without")


def measure(program: str, folder: pathlib.Path, count: int, is_in_memory: bool, size: int, receipts: int) -> None:
    """Measures commands over a desk of so many movements and receipts."""
    path = folder / f"{size}-{receipts}.db"
    start = time.perf_counter()
    log, memory = make(program, path, size)
    seconds = time.perf_counter() - start
    print(f"{size} movements, made in {seconds:.1f} s, with a log of {log} bytes and a memory of {memory} kB at most")
    if not is_in_memory:
        write_receipts(path, receipts)
        print(f"  {receipts} receipts")
    others = list(peers(folder, path, is_in_memory))
    start = time.perf_counter()
    desk = opened(program, path, size, is_in_memory)
    did = "made once more in memory" if is_in_memory else "opened and adopted"
    print(f"  {did} in {time.perf_counter() - start:.2f} s, with {desk.memory()} kB at most")
    taken = measured([desk, *others], count, f"B-{size // 9 - 1}")
    for name, took in taken.items():
        print(f"  {name:10} desk {rate(took['desk'])}")
        for it, times in took.items():
            if it != "desk":
                print(f"    {it:14} {rate(times)} {sum(times) / sum(took['desk']):.2f}")
    compared(taken)
    beside_recalls(desk, count, size)
    asked(desk)
    for keeper in [desk, *others]:
        keeper.close()
    path.unlink()


def main() -> None:
    program, folder, count, is_in_memory, *sizes = sys.argv[1:]
    for it in sizes:
        size, _, receipts = it.partition("/")
        measure(program, pathlib.Path(folder), int(count), is_in_memory == "memory", int(size), int(receipts or size))


if __name__ == "__main__":
    main()
