"""Faults that are brought about: files that stop, calls that fail, refused memory, streams that are narrow or fail, limits of the system.

The first of these are done by libraries of bench/faults, which stand before a program by LD_PRELOAD. Each function returns what is added to the
environment of the program. A C compiler builds the libraries, each once.
"""
from __future__ import annotations

import atexit
import functools
import os
import pathlib
import resource
import signal
import subprocess
import tempfile
from collections.abc import Iterator

from tests.support.program import TOP, How

# A user that owns nothing, where the tests are run by one who may do everything.
NOBODY = 65534

# The most runs with a fault, each at another call or allocation, before one gets through.
MOST_RUNS = 5_000


@functools.lru_cache(maxsize=None)
def library(name: str) -> pathlib.Path:
    """Builds a library of bench/faults, and returns its path."""
    folder = tempfile.TemporaryDirectory(prefix="desk-faults-")
    atexit.register(folder.cleanup)
    built = pathlib.Path(folder.name) / f"{name}.so"
    subprocess.run(["cc", "-shared", "-fPIC", "-O1", "-o", built, TOP / "bench" / "faults" / f"{name}.c", "-ldl"], check=True)
    return built


def numbers(first: int = 1, step: int = 1) -> Iterator[int]:
    """Yields the numbers of calls or allocations at which faults are brought about, each in a run of its own, for a loop that ends with the first
    run that gets through. Where none of 5,000 runs does the test fails, so that a program which never gets through can't hang it. Runs are counted
    and not calls: a long run of which each so many-th call fails has more than 5,000 of them."""
    yield from range(first, first + step * MOST_RUNS, step)
    raise AssertionError(f"of {MOST_RUNS} runs with a fault at {first} and at each number {step} above none got through")


def preloaded(name: str, **settings: object) -> dict[str, str]:
    """Puts a library before the program, with these settings."""
    return {"LD_PRELOAD": str(library(name)), **{setting: str(value) for setting, value in settings.items()}}


def stopped_file(end: str, calls: int, error: int | None = None) -> dict[str, str]:
    """The files whose names end so fail behind so many calls, by this error or as a failing disk."""
    more = {} if error is None else {"STOP_ERROR": error}
    return preloaded("stop", STOPPED=end, STOP_AFTER=calls, **more)


def synced_files() -> dict[str, str]:
    """No file fails; what of the desk's files was synced is kept beside them."""
    return preloaded("stop")


def failed_call(number: int, error: int, mark: pathlib.Path) -> dict[str, str]:
    """Of the calls about a desk's file the one of this number fails, and then the file `mark` is made."""
    return preloaded("at_call", AT_NAME=".db", AT_OPEN="-new", AT_CALL=number, AT_ERROR=error, AT_MET=mark)


def met_call(number: int, sent: signal.Signals, mark: pathlib.Path) -> dict[str, str]:
    """Of the calls about a desk's file the program sends itself this signal before the one of this number, and then the file `mark` is made."""
    return preloaded("at_call", AT_NAME=".db", AT_OPEN="-new", AT_CALL=number, AT_SIGNAL=int(sent), AT_MET=mark)


def noted_calls(notes: pathlib.Path) -> dict[str, str]:
    """The writes and syncs of the desk's files, the names that files get, and what is written to standard output or sent are noted in this file."""
    return preloaded("noted", NOTED=notes, NOTED_NAME=".db")


def refused_memory(number: int, mark: pathlib.Path | None = None) -> dict[str, str]:
    """The allocation of this number is refused, and then the file `mark` is made."""
    return preloaded("refuse", REFUSE=number, **({"REFUSED": mark} if mark else {}))


def narrow_streams(**limits: int) -> dict[str, str]:
    """The streams have the limits that narrow.c says: READ_MOST, WRITE_MOST, READS, READ_ERROR, WRITES, WRITE_ERROR and ACCEPTS."""
    return preloaded("narrow", **limits)


def limited(kind: int, most: int) -> How:
    """Returns how a program is run with a limit of the system, such as resource.RLIMIT_FSIZE."""
    return {"preexec_fn": lambda: resource.setrlimit(kind, (most, most))}


def softly_limited(kind: int, most: int) -> How:
    """Returns how a program is run with a limit that it could raise again."""
    return {"preexec_fn": lambda: resource.setrlimit(kind, (most, resource.getrlimit(kind)[1]))}


def as_nobody() -> How:
    """Returns how a program is run by a user that owns nothing."""
    return {"user": NOBODY, "group": NOBODY, "extra_groups": []} if os.geteuid() == 0 else {}
