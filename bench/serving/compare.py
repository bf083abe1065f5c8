#!/usr/bin/env python3
"""Compares how many requests a second two programs of the desk serve, such as those of two revisions.

    bench/serving/compare.py PROGRAM OTHER [REQUESTS [ROUNDS]]

Both serve a new desk in memory, and are sent so many requests in turn, by default 1000, in so many rounds, by default 15, of which each second begins
with the other: questions about the desk, and commands, by one client and by eight at once (client.c, built with gcc). Prints how many a second
PROGRAM answered in the middle of the rounds, and how many its own processor would do; and how many times as many as OTHER's in the same round each
is, in the middle and from the lowest to the highest.
"""
from __future__ import annotations

import pathlib
import statistics
import subprocess
import sys
import tempfile

from serving import PREPARED, Client, answer, asked, await_answer, free_port, processor_seconds, receipt, told

SHARES = (1, 8)
MOST = 1_000_000


class Desk:
    """A desk that is served in memory."""

    def __init__(self, program: str) -> None:
        self.port = free_port()
        self.process = subprocess.Popen([program, "serve", ":memory:", str(self.port), str(MOST)])
        self.lots = 0
        await_answer(self.port, asked(b"desk"), self.process)
        for it in PREPARED:
            answer(self.port, told(it))

    def commands(self, count: int) -> list[bytes]:
        """Returns requests to receive so many lots that the desk doesn't have."""
        self.lots += count
        return [told(receipt(it)) for it in range(self.lots - count, self.lots)]


def rates(client: Client, desk: Desk, kind: str, shares: int, count: int) -> tuple[float, float]:
    """Sends a desk requests; returns how many it answered a second, and how many its own processor would do."""
    requests, wanted = (desk.commands(count), b'"ok":') if kind == "commands" else ([asked(b"desk")] * count, b'"seq":')
    had = processor_seconds(desk.process)
    seconds = client.seconds(kind, desk.port, requests, wanted, shares)
    return count / seconds, count / (processor_seconds(desk.process) - had)


def compared(name: str, found: list[tuple[float, float]]) -> str:
    """Returns how the rates of a desk compare with those of the other in the same rounds."""
    ratios = [first / other for first, other in found]
    low, middle, high = min(ratios), statistics.median(ratios), max(ratios)
    return f"{name} {statistics.median(it for it, _ in found):.0f}, {middle:.2f} times the other's, {low:.2f} to {high:.2f}"


def compare(client: Client, desks: list[Desk], kind: str, shares: int, count: int, rounds: int) -> None:
    """Sends both desks requests in turn, and prints how they compare."""
    found = []
    for number in range(rounds):
        in_turn = desks if number % 2 else desks[::-1]
        of_desk = {it.port: rates(client, it, kind, shares, count) for it in in_turn}
        found.append([of_desk[it.port] for it in desks])
    seconds, processor = ([(first[place], other[place]) for first, other in found] for place in (0, 1))
    print(f"{kind}, clients {shares}: {compared('a second', seconds)}; {compared('own processor', processor)}", flush=True)


def main(programs: list[str], count: int = 1000, rounds: int = 15) -> None:
    desks: list[Desk] = []
    with tempfile.TemporaryDirectory() as folder:
        client = Client(pathlib.Path(folder))
        try:
            for it in programs:
                desks.append(Desk(it))
            for kind in ("questions", "commands"):
                for shares in SHARES:
                    compare(client, desks, kind, shares, count, rounds)
        finally:
            for desk in desks:
                desk.process.kill()


if __name__ == "__main__":
    if not 3 <= len(sys.argv) <= 5:
        sys.exit(__doc__)
    main(sys.argv[1:3], *map(int, sys.argv[3:]))
