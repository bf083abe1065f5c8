#!/usr/bin/env python3
"""Runs the tests side by side, by as many processes as there are processors.

    tests/run.py [--seed N] [-k PATTERN]... [MODULE]...

A process runs the tests of a module, but for the classes of it that take long, each of which has a process of its own and is begun first.
MODULE is such as tests.test_rules; without one all modules are run. PATTERN picks tests by their names, as with `python3 -m unittest`. N is the
seed of what tests make by chance, in the place of the variable DESK_SEED. Where a module wants a browser and there is none, it is installed by
apt first, if that may be done; else its tests are left out.

Prints how each process ended, with all that it printed where a test failed, and at the end for each module how many tests it ran and how many
cases these checked; then what was left out, each with its reason, and a line of all. Ends with status 1 where a test failed, or none was run.
"""
from __future__ import annotations

import argparse
import concurrent.futures
import dataclasses
import os
import pathlib
import re
import subprocess
import sys
import time
import unittest
from collections.abc import Iterable, Sequence

TOP = pathlib.Path(__file__).resolve().parent.parent
sys.path.insert(0, str(TOP))

from tests.support import browser, seeds  # noqa: E402  (the folder above is on the path now)


@dataclasses.dataclass
class Unit:
    """Classes of a module whose tests one process runs."""

    module: str
    classes: list[str]
    is_long: bool

    def name(self) -> str:
        return f"{self.module}.{self.classes[0]}" if self.is_long else self.module


@dataclasses.dataclass
class Ended:
    """How the process of a unit ended."""

    unit: Unit
    status: int
    printed: str
    seconds: float

    def tests(self) -> int:
        """How many tests were run."""
        return sum(int(it) for it in re.findall(r"^Ran (\d+) tests? in ", self.printed, re.M))

    def cases(self) -> int:
        """How many cases were checked."""
        return sum(int(it) for it in re.findall(rf"^{re.escape(self.unit.module)}: (\d+) cases checked$", self.printed, re.M))

    def notes(self) -> list[str]:
        """What the module tells beside that."""
        return [line for line in self.printed.splitlines() if line.startswith(f"{self.unit.module}: ") and not line.endswith(" cases checked")]

    def left_out(self) -> list[str]:
        """The lines of what was left out."""
        return [line for line in self.printed.splitlines() if line.startswith("left out: ")]


def classes_of(suite: unittest.TestSuite) -> list[type[unittest.TestCase]]:
    """Returns the classes of the tests of a suite, in their order."""
    found: list[type[unittest.TestCase]] = []
    for it in suite:
        for case in classes_of(it) if isinstance(it, unittest.TestSuite) else [type(it)]:
            if case not in found:
                found.append(case)
    return found


def units_of(classes: Iterable[type[unittest.TestCase]]) -> list[Unit]:
    """Returns the units of classes, those first that take long."""
    units: list[Unit] = []
    rest: dict[str, list[str]] = {}
    for it in classes:
        if getattr(it, "IS_LONG", False):
            units.append(Unit(it.__module__, [it.__qualname__], True))
        else:
            rest.setdefault(it.__module__, []).append(it.__qualname__)
    return units + [Unit(module, names, False) for module, names in rest.items()]


def run(unit: Unit, patterns: Sequence[str]) -> Ended:
    """Runs the tests of a unit."""
    words = [sys.executable, "-m", "unittest", *(word for it in patterns for word in ("-k", it))]
    words += [f"{unit.module}.{it}" for it in unit.classes]
    began = time.monotonic()
    ran = subprocess.run(words, cwd=TOP, stdin=subprocess.DEVNULL, stdout=subprocess.PIPE, stderr=subprocess.STDOUT, text=True, errors="replace")
    return Ended(unit, ran.returncode, ran.stdout, time.monotonic() - began)


def run_all(units: Sequence[Unit], patterns: Sequence[str], at_once: int) -> list[Ended]:
    """Runs units side by side, and tells of each as it ends."""
    ended = []
    with concurrent.futures.ThreadPoolExecutor(at_once) as pool:
        for it in concurrent.futures.as_completed([pool.submit(run, unit, patterns) for unit in units]):
            ended.append(it.result())
            last = ended[-1]
            print(f"{last.seconds:7.1f} s  {last.unit.name()}{': FAILED' if last.status else ''}", flush=True)
            if last.status:
                print(last.printed, flush=True)
    return ended


def print_ended(ended: Sequence[Ended]) -> None:
    """Prints for each module how many tests were run and cases checked."""
    for module in sorted({it.unit.module for it in ended}):
        own = [it for it in ended if it.unit.module == module]
        for note in dict.fromkeys(note for it in own for note in it.notes()):
            print(note)
        print(f"{module}: {sum(it.cases() for it in own)} cases checked by {sum(it.tests() for it in own)} tests")


def print_left_out(ended: Sequence[Ended], without: str | None) -> int:
    """Prints what was left out, the browser for this reason or none, and returns how many lines that is."""
    lines = sorted({line for it in ended for line in it.left_out()})
    lines += [f"left out: the tests in a browser, since {without}"] if without else []
    for line in lines:
        print(line)
    return len(lines)


def main() -> int:
    parser = argparse.ArgumentParser(description="Runs the tests side by side.")
    parser.add_argument("--seed", metavar="N", type=int, default=seeds.seed(), help="the seed of what tests make by chance")
    parser.add_argument("-k", dest="patterns", metavar="PATTERN", action="append", default=[], help="runs the tests whose names have this in them")
    parser.add_argument("modules", metavar="MODULE", nargs="*", help="such as tests.test_rules")
    words = parser.parse_args()
    os.environ[seeds.VARIABLE] = str(words.seed)
    loader, began = unittest.TestLoader(), time.monotonic()
    loader.testNamePatterns = [it if "*" in it else f"*{it}*" for it in words.patterns] or None
    suite = loader.loadTestsFromNames(words.modules) if words.modules else loader.discover(str(TOP / "tests"), top_level_dir=str(TOP))
    if loader.errors:
        sys.exit("\n".join(map(str, loader.errors)))
    at_once = len(os.sched_getaffinity(0))
    classes = classes_of(suite)
    without = browser.ensure() if any(getattr(it, "IN_A_BROWSER", False) for it in classes) else None
    ended = run_all(units_of(classes), words.patterns, at_once)
    print_ended(ended)
    left_out = print_left_out(ended, without)
    tests, cases = sum(it.tests() for it in ended), sum(it.cases() for it in ended)
    failed = [it.unit.name() for it in ended if it.status]
    how = f"failed: {', '.join(sorted(failed))}" if failed else "all as wanted"
    how += f"; {left_out} left out" if left_out else "; nothing left out"
    print(f"{tests} tests checked {cases} cases in {time.monotonic() - began:.0f} s, {at_once} processes at once; {how}")
    return 1 if failed or not tests else 0


if __name__ == "__main__":
    sys.exit(main())
