"""The built programs: where they are, and how they are run."""
from __future__ import annotations

import os
import pathlib
import subprocess
import time
import typing
from collections.abc import Callable, Mapping

TOP = pathlib.Path(__file__).resolve().parent.parent.parent
EXAMPLES = TOP / "examples"

# The crate of each program, by the name under which the tests ask for the program. The built file has the name of its crate.
CRATES = {
    "desk": "desk",
    "order_check": "order_check",
    "line_check": "line_check",
    "desk_check": "desk_check",
    "genealogy_picture": "genealogy_picture",
    "lists": "bench_lists",
}

# The programs that `make dist` packs.
PACKED = ("desk", "order_check", "line_check", "desk_check", "genealogy_picture")

# The variable that says where the programs are: a folder, or a path in which NAME stands for the crate.
PLACE = "DESK_PROGRAMS"

# How many seconds a program may run.
SECONDS = 300


class MissingProgram(Exception):
    """A program isn't built."""


# The path of a file or folder, and a word of a command line.
File = typing.Union[str, os.PathLike[str]]
Word = typing.Union[File, bytes]


class How(typing.TypedDict, total=False):
    """What the system is told of a program that is run, as subprocess.Popen takes it."""

    preexec_fn: Callable[[], None]
    user: int
    group: int
    extra_groups: list[int]
    stderr: typing.IO[bytes]


class Process(subprocess.Popen[bytes]):
    """The process of a program. Its output and errors are pipes, and its input where it was started so."""

    stdin: typing.IO[bytes]
    stdout: typing.IO[bytes]
    stderr: typing.IO[bytes]


class Ended(typing.NamedTuple):
    """How a program ended."""

    status: int
    output: bytes
    errors: bytes


def path_of(name: str) -> pathlib.Path:
    """Returns the path of a program."""
    crate, place = CRATES[name], os.environ.get(PLACE, "build")
    path = TOP / (place.replace("NAME", crate) if "NAME" in place else f"{place}/{crate}")
    if not os.access(path, os.X_OK) or not path.is_file():
        raise MissingProgram(f"{path} is not there. `make {crate}` builds it in build/; {PLACE} names another place (it is {place!r} now)")
    return path


class Program:
    """A built program that is run in a folder."""

    def __init__(self, name: str, folder: File) -> None:
        self.name, self.path, self.folder = name, path_of(name), folder

    def run(self, *words: Word, told: bytes = b"", env: Mapping[str, str] | None = None, **how: typing.Any) -> Ended:
        """Runs the program to its end, with `told` as its input and `env` added to the environment; returns how it ended."""
        given = {} if "stdin" in how else {"input": told}
        streams = {"stdout": subprocess.PIPE, "stderr": subprocess.PIPE}
        options: dict[str, typing.Any] = {
            **given, **streams, "cwd": self.folder, "timeout": SECONDS, "env": environment(env), **how,
        }
        ran = subprocess.run([self.path, *words], **options)
        return Ended(ran.returncode, ran.stdout, ran.stderr)

    def start(self, *words: Word, env: Mapping[str, str] | None = None, **how: typing.Any) -> Process:
        """Starts the program, with `env` added to the environment; returns its process, whose output and errors are pipes."""
        streams = {"stdin": subprocess.DEVNULL, "stdout": subprocess.PIPE, "stderr": subprocess.PIPE}
        options: dict[str, typing.Any] = {**streams, "cwd": self.folder, "env": environment(env), **how}
        return Process([self.path, *words], **options)


def state_of(process: subprocess.Popen[bytes]) -> str:
    """Returns the letter of a process's state: T where it is paused, S where it waits, as for its input, Z where it has ended."""
    return pathlib.Path(f"/proc/{process.pid}/stat").read_text().rpartition(")")[2].split()[0]


def wait_for(process: subprocess.Popen[bytes], states: str) -> None:
    """Waits until a process is in one of these states. One that isn't so in time is killed, and fails the test."""
    last = time.monotonic() + SECONDS
    while state_of(process) not in states:
        if time.monotonic() > last:
            process.kill()
            raise AssertionError(f"a program is in none of the states {states} within {SECONDS} seconds")


def environment(more: Mapping[str, str] | None) -> dict[str, str]:
    """Returns the environment of this process with some variables more."""
    return {**os.environ, **(more or {})}
