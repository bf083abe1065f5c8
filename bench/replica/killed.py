#!/usr/bin/env python3
"""Kills desks, gateways and members of etcd as the gate's test does, for longer.

    bench/replica/killed.py [MINUTES] [SEED]

For so many minutes (10 where that isn't given) runs of 300 commands are done, each over new desks and a log of its own. The programs are those that the
tests take (tests/README.md); Debian's etcd-server has to be there. Prints what was killed and how many entries were compared; ends with status 1 where
two desks differ, a command that was acknowledged isn't in each, or a reference is there twice.
"""
from __future__ import annotations

import os
import pathlib
import sys
import unittest
from collections.abc import Sequence

sys.path.insert(0, str(pathlib.Path(__file__).resolve().parent.parent.parent))

from tests import test_replica  # noqa: E402  (the folder above is on the path now)
from tests.support import seeds  # noqa: E402


def main(words: Sequence[str]) -> int:
    minutes, seed = [*words, *["10", str(seeds.seed())][len(words):]]
    os.environ[seeds.VARIABLE] = seed
    test_replica.RUNS, test_replica.MOST_SECONDS = 1_000_000, 60 * int(minutes)
    suite = unittest.TestLoader().loadTestsFromTestCase(test_replica.Killed)
    return 0 if unittest.TextTestRunner().run(suite).wasSuccessful() else 1


if __name__ == "__main__":
    sys.exit(main(sys.argv[1:]))
