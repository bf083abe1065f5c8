"""Measures recalls over desks of some numbers of edges. recalls.sh calls it.

    recalls.py PROGRAM FOLDER EDGES ..

For each number and shape a desk is made in a file, as genealogy.py makes it. Then its first lot, which leads to all others, is traced
forward, recalled, asked about and lifted, some times each in turn, every recall under an id of its own. What is told is the nodes that are
reached and the middle time of each; of the recall and the lift also how many microseconds a mark they take beyond twice the trace. The
answers are compared with the trace. At last the file is verified without an open recall, and with one of each of its last 100 lots.
"""
from __future__ import annotations

import pathlib
import statistics
import subprocess
import sys
import time
from collections.abc import Sequence

from genealogy import TIMES, Desk, Line, filled, last, line, name

# How many recalls are open while the file is verified.
OPEN = 100


def accepted(desk: Desk, command: Line) -> float:
    """Gives a command, which has to be accepted, and returns how long it took."""
    reply, took = desk.send(**command)
    if "ok" not in reply:
        sys.exit(f"{command}: {reply}")
    return took


def asked(desk: Desk, recall: str, wanted: Sequence[object]) -> float:
    """Asks about a recall, which has to have these nodes, and returns how long it took."""
    answer, took = desk.send(ask="recall", recall=recall)
    if answer["nodes"] != wanted:
        sys.exit(f"{recall} lists {len(answer['nodes'])} nodes, and not {len(wanted)}")
    return took


def turn(desk: Desk, recall: str) -> tuple[int, tuple[float, float, float, float]]:
    """Traces the first lot, recalls it, asks and lifts the recall, and returns how many nodes were reached and how long each took."""
    lot = name(0)
    trace, traced = desk.send(ask="forward", lot=lot)
    reached = [{"lot": lot}, *trace["nodes"]]
    recalled = accepted(desk, line("recall", recall=recall, lot=lot))
    told = asked(desk, recall, reached)
    lifted = accepted(desk, line("lift", recall=recall))
    asked(desk, recall, [])
    return len(reached), (traced, recalled, told, lifted)


def measure(desk: Desk, title: str) -> None:
    turns = [turn(desk, f"RC-{number}") for number in range(TIMES)]
    marks = turns[0][0]
    traced, recalled, told, lifted = (statistics.median(it) for it in zip(*(times for _, times in turns)))
    beyond = [(it - 2 * traced) * 1e6 / marks for it in (recalled, lifted)]
    print(f"{title}: {marks} nodes, traced in {traced * 1000:.1f} ms, asked about in {told * 1000:.1f} ms")
    for done, took, more in zip(("recalled", "lifted"), (recalled, lifted), beyond):
        print(f"  {done} in {took * 1000:.1f} ms, {more:.1f} us a mark beyond two traces")


def verified(program: str, path: pathlib.Path) -> float:
    """Returns the middle time in which the file is verified."""
    times = []
    for _ in range(TIMES):
        start = time.perf_counter()
        ran = subprocess.run([program, "verify", str(path)], capture_output=True)
        times.append(time.perf_counter() - start)
        if not ran.stdout.startswith(b"good "):
            sys.exit(f"the file isn't good: {ran}")
    return statistics.median(times)


def main(program: str, folder: str, *sizes: str) -> None:
    for shape, edges, path, desk in filled(program, folder, sizes):
        measure(desk, f"{shape} of {edges} edges")
        desk.close()
        before = verified(program, path)
        desk = Desk(program, path)
        lots = [name(last(shape, edges) - number) for number in range(OPEN)]
        desk.give_all([line("recall", recall=f"OPEN-{number}", lot=lot) for number, lot in enumerate(lots)])
        desk.close()
        behind = verified(program, path)
        print(f"  verified in {before:.2f} s, with {OPEN} open recalls in {behind:.2f} s: {behind / before:.2f}")
        path.unlink()


main(*sys.argv[1:])
