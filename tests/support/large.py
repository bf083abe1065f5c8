"""What is large: a test case of it, and rows of table movement, which would take long to be booked."""
from __future__ import annotations

import pathlib
import time
from collections.abc import Iterable, Sequence

from tests.support import sqlite
from tests.support.cases import DeskTestCase
from tests.support.commands import GOODS, line, replies
from tests.support.http import WELL, Server, answer, desk_answer, got
from tests.support.scenarios import traced
from tests.support.sqlite import Row

# How many lots are split off one whose trace is long.
SPLIT = 30_000

# ---- rows of table movement


def received_row(seq: int, lot: str, amount: int) -> Row:
    return (seq, 1, 1, lot, 0, None, None, None, amount, 200, "", "")


def consumed_row(seq: int, lot: str, amount: int) -> Row:
    return (seq, 1, 2, lot, 0, None, None, "B-1", amount, 200, "", "")


def produced_row(seq: int, lot: str, amount: int) -> Row:
    return (seq, 1, 3, lot, 0, None, None, "B-1", amount, 200, "", "")


def scrapped_row(seq: int, lot: str) -> Row:
    return (seq, 1, 4, lot, 0, None, None, None, 1, 200, "", "")


def split_row(seq: int, lot: str, new: str, amount: int) -> Row:
    return (seq, 1, 6, lot, 0, new, 0, None, amount, 200, "", "")


def merged_rows(seq: int, parts: Iterable[tuple[str, int]], new: str) -> list[Row]:
    """A merge of these parts, each a lot and an amount of its sublot 0."""
    return [(seq, number, 7, lot, 0, new, 0, None, amount, 200, "", "") for number, (lot, amount) in enumerate(parts, 1)]


# ---- the tables of genealogies


def chain_tables(seq: int, lots: Sequence[str], goods: str = "SUGAR") -> dict[str, list[Row]]:
    """A chain of lots from this number on, of which each is split off the one before it, and has 1 left."""
    size = len(lots)
    return {
        "lot": [(it, goods) for it in lots],
        "sublot": [(it, 0, "", 1) for it in lots],
        "movement": [received_row(seq, lots[0], size), *(split_row(seq + it, lots[it - 1], lots[it], size - it) for it in range(1, size))],
        "edge": [(3, first, second) for first, second in zip(lots, lots[1:])],
    }


def fan_tables(
    seq: int, first: str, lots: Sequence[str], left: int = 1, amount: int = 1, goods: str = "SUGAR",
) -> dict[str, list[Row]]:
    """A fan from this number on: lots that are split off one, each with this amount, where so much is left."""
    return {
        "lot": [(it, goods) for it in [first, *lots]],
        "sublot": [(first, 0, "", left), *((it, 0, "", amount) for it in lots)],
        "movement": [received_row(seq, first, left + amount * len(lots)), *(split_row(seq + at, first, it, amount) for at, it in enumerate(lots, 1))],
        "edge": [(3, first, it) for it in lots],
    }


class LimitTestCase(DeskTestCase):
    """A test case of what is large."""

    IN_MEMORY = IS_LONG = True

    def path(self, file: str) -> pathlib.Path:
        return self.folder / file

    def send(self, file: str, *bodies: str) -> int:
        """Tells commands that the test begins with; returns the number of the last."""
        ended = self.desk.run("run", file, told=b"".join(map(line, bodies)))
        assert ended == (0, replies(1, len(bodies)), b""), ended
        return len(bodies)

    def check_lines(self, case: str, file: str, told: bytes, wanted: bytes) -> float:
        """Tells lines, of which none is refused; returns the seconds that it takes."""
        began = time.monotonic()
        self.check_run(case, ["run", file], (0, wanted, b""), told)
        return time.monotonic() - began

    def check_good(self, case: str, file: str, seq: int) -> float:
        """Verifies a file; returns the seconds that it takes."""
        began = time.monotonic()
        self.check_verified(f"{case}, verified", file, seq)
        return time.monotonic() - began

    def check_as_soon(self, case: str, first: float, second: float) -> None:
        """Compares two times: what takes the second is to cost no more than what takes the first."""
        self.check_true(f"{case}, {[first, second]}", second < 3 * first + 3)

    def check_requests(self, file: str, requests: Sequence[tuple[str, bytes, bytes]]) -> None:
        """Serves these requests, each with its name and the answer that it has to have."""
        with Server(self.desk, file, len(requests)) as server:
            for case, request, wanted in requests:
                self.check(f"{case}, by a request", server.answered(request), wanted)
            self.check(f"the server of {file}", server.end(), WELL)

    def check_alike(self, file: str, cases: Sequence[tuple[str, str, str, str]]) -> None:
        """Asks by a line and by a request; each case has a name, the line, the path and the answer."""
        told = b"".join(question.encode() + b"\n" for _, question, _, _ in cases)
        wanted = b"".join(text.encode() + b"\n" for *_, text in cases)
        self.check_run(f"the lines over {file}", ["run", file], (0, wanted, b""), told)
        self.check_requests(file, [(case, got(path), answer(text)) for case, _, path, text in cases])

    def check_record(self, case: str, file: str, lines: Iterable[str]) -> None:
        """Has the record of batch B-1 printed, by the word and by a request."""
        text = "".join(it + "\n" for it in lines)
        self.check_run(f"the record of {case}", ["record", file, "B-1"], (0, text.encode(), b""))
        self.check_requests(file, [(f"the record of {case}", got("/v1/batches/B-1/record"), answer(text, kind="text/plain"))])


class FanTestCase(LimitTestCase):
    """A test case over a lot that was split into very many, and so has a long trace."""

    def desk_with_fan(self) -> tuple[str, bytes, bytes]:
        """Makes a desk with a lot T; returns its file, the answer of the desk, and that of the lot's trace at /v1/lots/T/forward."""
        file, lots = "fan.db", [f"T-{it:05}" for it in range(SPLIT)]
        seq = self.send(file, *GOODS) + 1
        sqlite.filled(self.path(file), fan_tables(seq, "T", lots), seq + SPLIT)
        return file, desk_answer(seq + SPLIT), answer(traced(lots))
