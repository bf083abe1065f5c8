#!/usr/bin/env python3
"""Copies a desk that books, with pauses by chance, and kills desks and backups, as the gate's test does, for longer.

    bench/backup/copies.py [COPIES] [SEED]

So many copies are made (2,000 where that isn't given), 40 of each desk, and of each desk 15 backups are killed. The programs are those that the tests
take (tests/README.md). Ends with status 1 where a copy isn't good, lacks a command that was acknowledged before it began, or differs from a desk that
was given the same commands.
"""
from __future__ import annotations

import os
import pathlib
import sys
import unittest
from collections.abc import Sequence

sys.path.insert(0, str(pathlib.Path(__file__).resolve().parent.parent.parent))

from tests import test_backup  # noqa: E402  (the folder above is on the path now)
from tests.support import seeds  # noqa: E402


def main(words: Sequence[str]) -> int:
    copies, seed = map(int, [*words, *["2000", str(seeds.seed())][len(words):]])
    test_backup.MOST_SECONDS = 10**6
    for desk in range(-(-copies // test_backup.COPIES)):
        os.environ[seeds.VARIABLE] = str(seed + desk)
        suite = unittest.TestLoader().loadTestsFromTestCase(test_backup.UnderLoad)
        if not unittest.TextTestRunner().run(suite).wasSuccessful():
            return 1
    return 0


if __name__ == "__main__":
    sys.exit(main(sys.argv[1:]))
