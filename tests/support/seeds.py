"""The seed of what tests and benches make by chance: the variable DESK_SEED says it, and without it each run makes the same."""
from __future__ import annotations

import os
import random

# The variable, and the seed where it isn't there.
VARIABLE, USUAL = "DESK_SEED", 42


def seed() -> int:
    """Returns the seed."""
    return int(os.environ.get(VARIABLE, USUAL))


def chance(name: str) -> random.Random:
    """Returns random numbers that the seed and this name determine, so that what is made of them doesn't depend on what else is made."""
    return random.Random(f"{seed()} {name}")
