"""Sends commands under references to a desk that is killed again and again. once.sh calls it.

    once.py PROGRAM FOLDER COMMANDS KILLS

A client sends COMMANDS bookings, each under a reference and after the reply to the one before it, to runs over one file that are killed
at random moments, some KILLS times, and sends what wasn't answered again. At the end the file is verified, each command has been
answered its own number, and the tables but receipt are those of a desk that was told each command once and without a reference. The seed
of the moments is printed; the variable DESK_SEED says it.
"""
from __future__ import annotations

import pathlib
import random
import sqlite3
import subprocess
import sys
import time
from collections.abc import Iterator, Sequence

sys.path.insert(0, str(pathlib.Path(__file__).resolve().parents[2]))

from tests.support import seeds  # noqa: E402  (the top is on the path now)

SECONDS = 600
GOODS = (
    b'{"at":1,"by":"","do":"add_class","class":"RAW","name":""}\n'
    b'{"at":1,"by":"","do":"add_definition","def":"SUGAR","class":"RAW","name":"","unit":"g"}\n'
)
BEFORE = 2


class Failed(Exception):
    """The desk did something twice, or not at all."""


def expect(is_so: bool, told: str) -> None:
    if not is_so:
        raise Failed(told)


def bookings(count: int) -> Iterator[str]:
    """Returns so many bookings, without the brace that closes each: receipts, and of each lot scraps and a split."""
    for number in range(count):
        lot, at = number // 10, 2 + number // 100
        head = f'{{"at":{at},"by":"ben",'
        if number % 10 == 0:
            yield f'{head}"do":"receive","lot":"L-{lot}","def":"SUGAR","amount":1000,"place":"A1"'
        elif number % 10 == 9:
            yield f'{head}"do":"split","lot":"L-{lot}","sub":0,"amount":7,"new":"S-{lot}","place":"A2"'
        else:
            yield f'{head}"do":"scrap","lot":"L-{lot}","sub":0,"amount":{number % 10}'


class Client:
    """What was answered, and a desk that is killed while it is asked."""

    def __init__(self, program: str, file: str, lines: Sequence[bytes], chance: random.Random, mean: float) -> None:
        self.program, self.file, self.lines, self.chance = program, file, lines, chance
        self.answered, self.sendings, self.kills, self.mean, self.opening, self.took = 0, 0, 0, mean, 0.01, 0.001

    def send(self) -> None:
        """Sends what isn't answered yet to one run of the desk, until it is killed or all is answered. One run in ten is killed at the first
        command, for which it opens and adopts its file, the others at one behind that, after `mean` commands in the middle."""
        left = 0 if self.chance.random() < 0.1 else 1 + int(self.chance.expovariate(1 / self.mean))
        # without a buffer, since one that a killed desk leaves full can't be closed
        with subprocess.Popen([self.program, "run", self.file], bufsize=0, stdin=subprocess.PIPE, stdout=subprocess.PIPE) as desk:
            assert desk.stdin and desk.stdout
            for number, line in enumerate(self.lines[self.answered:]):
                began = time.monotonic()
                self.sendings += 1
                desk.stdin.write(line)
                if number == left:
                    time.sleep(self.chance.uniform(0, 2 * self.took if number else self.opening))
                    desk.kill()
                    self.kills += 1
                reply = desk.stdout.readline()
                if not reply.endswith(b"\n"):
                    return
                wanted = b'{"ok":%d}\n' % (BEFORE + 1 + self.answered)
                expect(reply == wanted, f"command {self.answered} was answered {reply!r}")
                self.answered += 1
                if number == left:
                    return
                took = time.monotonic() - began
                self.opening, self.took = (self.opening, took) if number else (took, self.took)

    def send_all(self) -> None:
        """Sends all, to as many runs as are needed."""
        while self.answered < len(self.lines):
            self.send()


def tables(file: str) -> dict[str, list[tuple[object, ...]]]:
    """Returns the rows of all tables but receipt, by table."""
    store = sqlite3.connect(file)
    names = [it for (it,) in store.execute("SELECT name FROM sqlite_schema WHERE type = 'table' AND name <> 'receipt' ORDER BY 1")]
    rows = {it: sorted(store.execute(f"SELECT * FROM {it}").fetchall(), key=repr) for it in names}
    store.close()
    return rows


def run(program: str, *words: str, told: bytes = b"") -> bytes:
    ran = subprocess.run([program, *words], input=told, capture_output=True, timeout=SECONDS)
    expect(ran.returncode == 0, f"{words}: {ran.stdout[-200:]!r} {ran.stderr!r}")
    return ran.stdout


def main(program: str, folder: pathlib.Path, commands: int, kills: int) -> int:
    program = str(pathlib.Path(program).resolve())
    print(f"seed {seeds.seed()}", flush=True)
    bare = list(bookings(commands))
    once, again = str(folder / "once.db"), str(folder / "again.db")
    run(program, "run", once, told=GOODS + b"".join(f"{it}}}\n".encode() for it in bare))
    run(program, "run", again, told=GOODS)
    lines = [f'{it},"ref":"K-{number}"}}\n'.encode() for number, it in enumerate(bare)]
    client = Client(program, again, lines, seeds.chance("kills"), max(1, commands / max(1, kills) - 2))
    client.send_all()
    good = b"good schema 4 seq %d\n" % (BEFORE + commands)
    expect(run(program, "verify", again) == good, "the file isn't good")
    expect(tables(once) == tables(again), "the tables differ")
    print(f"{commands} commands in {client.sendings} sendings, {client.kills} kills: each acted once")
    return 0


if __name__ == "__main__":
    try:
        sys.exit(main(sys.argv[1], pathlib.Path(sys.argv[2]), int(sys.argv[3]), int(sys.argv[4])))
    except Failed as failed:
        print(failed, file=sys.stderr)
        sys.exit(1)
