#!/usr/bin/env python3
"""Measures commands a second and how long each takes, of a desk alone and of three with gateways over etcd.

    bench/replica/speed.py [COMMANDS]

All processes run on this machine, with their files in memory. For each number of clients COMMANDS receipts are booked (500 where that isn't given),
each client sending one after the reply to the one before, to one desk, to one gateway of three, or to all three in turn. Then questions are
asked, each second one with Desk-Fresh. Prints for each the commands a second, the middle time, and that which one in a hundred exceeds, in milliseconds. The
programs are those that the tests take (tests/README.md).
"""
from __future__ import annotations

import pathlib
import random
import statistics
import sys
import tempfile
import threading
import time
from collections.abc import Mapping, Sequence

sys.path.insert(0, str(pathlib.Path(__file__).resolve().parent.parent.parent))

from tests.support.cases import MEMORY  # noqa: E402  (the folder above is on the path now)
from tests.support.http import Server  # noqa: E402
from tests.support.program import Program  # noqa: E402
from tests.support.replica import Asked, Cluster, Members, command  # noqa: E402

FIRST = (command("add_class", class_="RAW", name="", ref="C"), command("add_definition", def_="FLOUR", class_="RAW", name="", unit="kg", ref="D"))

QUESTIONS = 400


def timed(port: int, method: str, path: str, body: bytes | None = None, head: Mapping[str, str] | None = None) -> float:
    """How many milliseconds an answer takes."""
    began = time.perf_counter()
    status, told = Asked(port).ask(method, path, body, head)
    if status != 200:
        raise SystemExit(f"{path}: {status} {told!r}")
    return 1000 * (time.perf_counter() - began)


def measured(name: str, ports: Sequence[int], count: int, clients: int) -> None:
    """Books so many receipts by so many clients, and prints how long they took."""
    tag = f"{name[:1].upper()}{len(ports)}-{clients}"
    bodies = iter([command("receive", lot=f"{tag}-{it}", def_="FLOUR", amount=5, place="A", ref=f"{tag}-R{it}") for it in range(count)])
    lock, times = threading.Lock(), list[float]()

    def client(port: int) -> None:
        while True:
            with lock:
                body = next(bodies, None)
            if body is None:
                return
            times.append(timed(port, "POST", "/v1/commands", body))

    threads = [threading.Thread(target=client, args=(ports[it % len(ports)],)) for it in range(clients)]
    began = time.perf_counter()
    for thread in threads:
        thread.start()
    for thread in threads:
        thread.join()
    print(f"{name}, {clients} clients: {count / (time.perf_counter() - began):.0f} a second, {shown(times)}", flush=True)


def shown(times: Sequence[float]) -> str:
    """The middle of times, and what one in a hundred exceeds."""
    ordered = sorted(times)
    return f"{statistics.median(ordered):.1f} ms, one in a hundred above {ordered[int(0.99 * (len(ordered) - 1))]:.1f}"


def alone(desk: Program, count: int) -> None:
    """Measures a desk alone."""
    with Server(desk, "alone.db", 1_000_000) as server:
        for body in FIRST:
            timed(server.port, "POST", "/v1/commands", body)
        for clients in (1, 4, 16):
            measured("a desk alone", [server.port], count, clients)
        print(f"a question to it: {shown([timed(server.port, 'GET', '/v1/desk') for _ in range(QUESTIONS)])}")


def three(desk: Program, folder: pathlib.Path, members: Members, count: int) -> None:
    """Measures three desks."""
    cluster = Cluster(desk.path, folder, members, "speed", random.Random(1))
    try:
        cluster.wait_level()
        for body in FIRST:
            timed(cluster.ports[0], "POST", "/v1/commands", body)
        for clients in (1, 4, 16):
            measured("three, asked at one", cluster.ports[:1], count, clients)
        for clients in (3, 15):
            measured("three, asked at each", cluster.ports, count, clients)
        times = [timed(cluster.ports[it % 3], "GET", "/v1/desk", None, {"Desk-Fresh": "yes"} if it % 2 else {}) for it in range(QUESTIONS)]
        print(f"a question: {shown(times[0::2])}; with Desk-Fresh: {shown(times[1::2])}")
        print(f"{cluster.wait_level()} entries in each")
    finally:
        cluster.end()


def main(words: Sequence[str]) -> None:
    count = int(words[0]) if words else 500
    with tempfile.TemporaryDirectory(dir=MEMORY if MEMORY.is_dir() else None) as place:
        folder = pathlib.Path(place)
        desk = Program("desk", folder)
        alone(desk, count)
        members = Members(folder, random.Random(1))
        try:
            members.wait()
            three(desk, folder, members, count)
        finally:
            members.end()


if __name__ == "__main__":
    main(sys.argv[1:])
