"""tests/run.py over a small module, and what tests share: what is left out, the seed, and loops over faults that end."""
from __future__ import annotations

import os
import re
import subprocess
import sys

from tests.support import faults, seeds
from tests.support.cases import FolderTestCase
from tests.support.program import SECONDS, TOP, File

# A module whose tests make a number by chance, find no tool twice, and are skipped.
SMALL = """
import unittest
from tests.support.cases import CountedTestCase

class Small(CountedTestCase):
    def test_number_by_chance(self):
        for _ in range(2):
            self.check("a case", 1, 1)
            self.leave_out("how a tool reads it", "there is no tool")
        self.note(f"by chance {self.chance('number').randrange(10**6)}")

    def test_at_night(self):
        self.skipTest("it is day")

    @unittest.skip("it is dry")
    def test_in_rain(self):
        pass

class Failing(CountedTestCase):
    IS_LONG = True

    def test_number_by_chance(self):
        self.chance("another")
        self.check("a case that fails", 1, %d)
"""


class Runs(FolderTestCase):
    """Runs of the small module by tests/run.py."""

    def run_small(self, *words: str, wanted: int = 1, seed: str | None = None) -> tuple[int, list[str]]:
        """Returns the status of a run, and the lines that it printed. Where `wanted` isn't 1 a test fails. The variable DESK_SEED says the
        seed, where there is one."""
        (self.folder / "small.py").write_text(SMALL % wanted)
        environment = {name: value for name, value in os.environ.items() if name != seeds.VARIABLE}
        environment.update({"PYTHONPATH": str(self.folder), **({seeds.VARIABLE: seed} if seed else {})})
        run: list[File] = [sys.executable, TOP / "tests/run.py", *words, "small"]
        ran = subprocess.run(run, env=environment, capture_output=True, text=True, timeout=SECONDS)
        return ran.returncode, ran.stdout.splitlines()

    def numbers(self, *words: str, seed: str | None = None) -> list[str]:
        """Returns the seed and the number by chance of a run, as it printed them."""
        status, lines = self.run_small(*words, seed=seed)
        self.check(f"the status with {words} and the variable {seed}", status, 0)
        return re.findall(r"^small: (?:seed|by chance) (\d+)$", "\n".join(lines), re.M)

    def test_what_was_left_out_is_printed_behind_the_counts_with_its_reason(self) -> None:
        status, lines = self.run_small()
        self.check("the status", status, 0)
        last = lines.index("small: 3 cases checked by 4 tests")
        self.check("the lines behind the counts", lines[last + 1:-1], [
            "left out: small: Small.test_at_night, since it is day",
            "left out: small: Small.test_in_rain, since it is dry",
            "left out: small: how a tool reads it, since there is no tool",
        ])
        self.check_true(f"the last line, {lines[-1]}", re.fullmatch(r"4 tests checked 3 cases in .*; all as wanted; 3 left out", lines[-1]))

    def test_what_a_failing_module_left_out_is_printed_too(self) -> None:
        status, lines = self.run_small(wanted=2)
        self.check("the status", status, 1)
        self.check("how many lines", sum(it.startswith("left out: ") for it in lines[-4:-1]), 3)
        self.check_true(f"the last line, {lines[-1]}", lines[-1].endswith("; failed: small.Failing; 3 left out"))
        self.check_true("the seed is printed where the test failed", "small: seed 42" in lines[:lines.index("small: 3 cases checked by 4 tests") - 2])

    def test_run_that_leaves_nothing_out_says_so(self) -> None:
        status, lines = self.run_small("-k", "Failing")
        self.check_true(f"the last line, {lines[-1]}", (status, lines[-1][-18:]) == (0, "; nothing left out"))

    def test_seed_is_printed_and_decides_what_is_made_by_chance(self) -> None:
        usual = self.numbers()
        self.check("the usual seed, once", usual[:-1], ["42"])
        self.check("the same run again", self.numbers(), usual)
        other = self.numbers("--seed", "7")
        self.check_true(f"another seed, {other}", other[:-1] == ["7"] and other[-1] != usual[-1])
        self.check("the seed by the variable", self.numbers(seed="7"), other)
        self.check("an option goes before the variable", self.numbers("--seed", "42", seed="7"), usual)


class Loops(FolderTestCase):
    """Loops over faults."""

    def test_loop_in_which_no_run_gets_through_fails_behind_5000_runs(self) -> None:
        for first, step, last in [(1, 1, 5_000), (0, 1, 4_999), (1, 23, 114_978)]:
            tried = []
            with self.assertRaises(AssertionError):
                for number in faults.numbers(first, step):
                    tried.append(number)
            self.check(f"from {first}, each {step}", (len(tried), tried[:2], tried[-1]), (5_000, [first, first + step], last))
