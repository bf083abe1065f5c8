#!/usr/bin/env python3
"""Measures order files of 1,000 orders that are imported one after the other.

    bench/serving/imports.py PROGRAM [COUNT] [FOLDER]

A served desk over a file takes COUNT order files (100 where it isn't given) by HTTP, each of 1,000 new orders; then the last of them as often again,
whose orders it has. What is printed is the processor time of the desk for an import, in milliseconds: the mean of each tenth of the
imports in turn, so that growth shows. FOLDER is in memory where it isn't given, so that no disk is measured.
"""
from __future__ import annotations

import contextlib
import http.client
import pathlib
import subprocess
import sys
import tempfile
import time
from collections.abc import Sequence

from serving import free_port

ORDERS = 1000

RECIPE = """\
{"at":1,"by":"","do":"add_class","class":"RAW","name":""}
{"at":1,"by":"","do":"add_definition","def":"DOUGH","class":"RAW","name":"","unit":"kg"}
{"at":1,"by":"","do":"add_recipe","recipe":"CAKE","version":1,"product":"DOUGH","base":300,"min":100,"max":900,"title":"","lines":[\
{"kind":"out","def":"DOUGH","qty":300},{"kind":"phase","unit":"MIX","oper":"BLEND","phase":"STIR"}]}
{"at":1,"by":"","do":"approve","recipe":"CAKE","version":1}
"""


def order_file(number: int) -> bytes:
    """Returns an order file whose orders no file of another number has."""
    rows = [f"O-{number}-{it},CAKE,1,500,2027-03-01,5" for it in range(ORDERS)]
    return "\n".join(["order,recipe,version,size,due,priority", *rows, ""]).encode()


class Desk:
    """A served desk over a new file that has the recipe."""

    def __init__(self, program: pathlib.Path, folder: str) -> None:
        file = f"{folder}/plant.db"
        subprocess.run([program, "run", file], input=RECIPE.encode(), check=True, capture_output=True)
        self.port = free_port()
        self.process = subprocess.Popen([program, "serve", file, str(self.port), "1000000"])
        while not self.is_ready():
            time.sleep(0.01)

    def is_ready(self) -> bool:
        """Whether the desk answers."""
        client = http.client.HTTPConnection("127.0.0.1", self.port)
        with contextlib.suppress(ConnectionRefusedError):
            client.request("GET", "/v1/desk")
            return client.getresponse().status == 200
        return False

    def spent(self) -> float:
        """Returns the processor time of the desk so far, in milliseconds."""
        return int(pathlib.Path(f"/proc/{self.process.pid}/schedstat").read_text().split()[0]) / 1e6

    def take(self, body: bytes) -> float:
        """Imports the order file, and returns the processor time that it took."""
        before = self.spent()
        client = http.client.HTTPConnection("127.0.0.1", self.port)
        client.request("POST", "/v1/orders", body, {"Desk-At": "2"})
        answer = client.getresponse().read()
        if not answer.startswith(b'{"ok":'):
            sys.exit(f"refused: {answer!r}")
        return self.spent() - before


def show(what: str, times: Sequence[float]) -> None:
    """Prints the mean of each tenth of the times."""
    tenths = [times[len(times) * it // 10 : len(times) * (it + 1) // 10] for it in range(10)]
    print(f"{what:12}", *(f"{sum(it) / len(it):7.1f}" for it in tenths))


def main(program: str, count: str = "100", folder: str | None = None) -> None:
    with tempfile.TemporaryDirectory(dir=folder or "/dev/shm") as room:
        desk = Desk(pathlib.Path(program).resolve(), room)
        files = [order_file(it) for it in range(int(count))]
        show("new orders", [desk.take(it) for it in files])
        show("once more", [desk.take(files[-1]) for _ in files])
        desk.process.terminate()


if __name__ == "__main__":
    main(*sys.argv[1:])
