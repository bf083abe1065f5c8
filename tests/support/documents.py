"""The examples of documents, and how they are run.

An example is a block of a document between a line ```console and a line ```. A line that begins with `$ ` is a command, and lines behind it
that begin with `> ` go on with it; all other lines are what it prints, standard error included. The commands of one document run in their
order in one bash, in a new folder that has a copy of `examples`, with the built desk as `desk` on the PATH. Their standard input is empty,
and the variable PORT is a port of 127.0.0.1 that is free. Each may take 60 seconds.

A command that leaves a program running behind it is taken for a server: the next command waits until something listens on PORT. What such a
program prints later belongs to its command. It is killed at the document's end, if it still runs then.
"""
from __future__ import annotations

import contextlib
import dataclasses
import os
import pathlib
import select
import shutil
import signal
import subprocess
import time
from collections.abc import Sequence

from tests.support.http import listens
from tests.support.program import EXAMPLES
from tests.support.sessions import lines_of

# How many seconds a command may take, and a server to listen.
LIMIT = 60

# Takes the number of a command on one pipe, runs that command, and tells on another its status and the last program that was
# left running.
# Each command writes to a file of its own, so that a program in the background goes on to write to that of its command.
DRIVER = r"""
_status=0
while IFS= read -r -u %(orders)d _number; do
  _command=$(< "$_room/$_number.command")
  { (exit "$_status"); eval "$_command"; } \
    > "$_room/$_number.output" 2>&1 < /dev/null %(orders)d<&- %(ends)d>&-
  _status=$?
  echo "$_status ${!:-0}" >&%(ends)d
done
"""


class WrongDocument(Exception):
    """Why a document has no examples that can be run."""


@dataclasses.dataclass
class Example:
    """A command of a document, with the text that it is to print."""

    line: int
    command: bytes
    wanted: bytes = b""

    def typed(self) -> str:
        """Returns the command as it stands in the document."""
        return "$ " + self.command.decode("utf-8", "backslashreplace").rstrip("\n").replace("\n", "\n> ")


def examples_of(text: bytes) -> list[Example]:
    """Takes the commands out of a document."""
    examples, is_inside = [], False
    for number, line in enumerate(lines_of(text), 1):
        bare = line.rstrip(b"\n")
        if not is_inside:
            is_inside, is_first = bare == b"```console", True
        elif bare == b"```":
            is_inside = False
        elif bare.startswith(b"$ "):
            examples.append(Example(number, bare[2:] + b"\n"))
            is_first, is_typed = False, True
        elif is_first:
            raise WrongDocument(f"line {number} stands in a block before its first command")
        elif is_typed and bare.startswith(b"> "):
            examples[-1].command += bare[2:] + b"\n"
        else:
            examples[-1].wanted += bare + b"\n"
            is_typed = False
    if is_inside:
        raise WrongDocument("its last block has no end")
    if not examples:
        raise WrongDocument("it has no example")
    return examples


class Shell:
    """A bash that runs the commands of a document in a folder."""

    def __init__(self, folder: pathlib.Path, program: pathlib.Path, port: int) -> None:
        self.folder, self.port, self.left = folder, port, "0"
        for name in ("bin", "home"):
            (folder / name).mkdir()
        (folder / "bin/desk").symlink_to(program)
        shutil.copytree(EXAMPLES, folder / "here/examples", ignore=shutil.ignore_patterns("__pycache__"))
        orders, self.orders = os.pipe()
        self.ends, ends = os.pipe()
        words = ["bash", "--noprofile", "--norc", "-c", DRIVER % {"orders": orders, "ends": ends}]
        self.bash = subprocess.Popen(
            words, pass_fds=(orders, ends), cwd=folder / "here", env=self.environment(),
            stdin=subprocess.DEVNULL, start_new_session=True,
        )
        os.close(orders)
        os.close(ends)

    def environment(self) -> dict[str, str]:
        """Returns the environment of the commands, without what would take requests to a proxy."""
        kept = {name: value for name, value in os.environ.items() if not name.lower().endswith("_proxy") and name != "BASH_ENV"}
        path = f"{self.folder}/bin:{os.environ.get('PATH', os.defpath)}"
        return {**kept, "PATH": path, "HOME": f"{self.folder}/home", "LC_ALL": "C", "PORT": str(self.port), "_room": str(self.folder)}

    def __enter__(self) -> Shell:
        return self

    def __exit__(self, *_: object) -> None:
        """Ends the bash and what was left running."""
        os.close(self.orders)
        with contextlib.suppress(subprocess.TimeoutExpired):
            self.bash.wait(1)
        with contextlib.suppress(ProcessLookupError):
            os.killpg(self.bash.pid, signal.SIGKILL)
        self.bash.wait()
        os.close(self.ends)

    def run(self, number: int, command: bytes) -> str | None:
        """Runs a command, and says what keeps the next one from being run, if anything does."""
        (self.folder / f"{number}.command").write_bytes(command)
        os.write(self.orders, b"%d\n" % number)
        try:
            told = self.next_end()
        except TimeoutError:
            return f"it had not ended after {LIMIT} seconds"
        if told is None:
            return "the shell ended"
        left, before = told.split()[1].decode(), self.left
        self.left = left
        return self.await_server() if left != before else None

    def next_end(self) -> bytes | None:
        """Returns the next line that tells an end, or none where the shell has ended."""
        until, line = time.monotonic() + LIMIT, b""
        while not line.endswith(b"\n"):
            if not select.select([self.ends], [], [], max(0, until - time.monotonic()))[0]:
                raise TimeoutError
            piece = os.read(self.ends, 1)
            if not piece:
                return None
            line += piece
        return line

    def await_server(self) -> str | None:
        """Waits until something listens on the port, or the program that was left running has ended."""
        until = time.monotonic() + LIMIT
        while is_running(self.left) and not listens(self.port):
            if time.monotonic() > until:
                return f"what it left running doesn't listen on port {self.port} after {LIMIT} seconds"
            time.sleep(0.02)
        return None

    def printed(self, number: int) -> bytes | None:
        """Returns what a command has printed, none where it wasn't run."""
        file = self.folder / f"{number}.output"
        return file.read_bytes() if file.exists() else None


def is_running(number: str) -> bool:
    """Returns whether the program of that process number runs."""
    try:
        with open(f"/proc/{number}/stat", "rb") as it:
            return it.read().rpartition(b")")[2].split()[0] not in (b"Z", b"X")
    except OSError:
        return False


def ran(
    examples: Sequence[Example], folder: pathlib.Path, program: pathlib.Path, port: int,
) -> tuple[list[bytes | None], str | None]:
    """Runs the commands one after the other. Returns what each printed, none where it wasn't run, and why the last one broke off."""
    with Shell(folder, program, port) as shell:
        why = None
        for number, example in enumerate(examples):
            why = shell.run(number, example.command)
            if why:
                break
    return [shell.printed(number) for number in range(len(examples))], why


def shown(text: bytes) -> list[str]:
    """Returns the lines of a text, with the bytes shown that a terminal wouldn't show."""
    lines = []
    for line in lines_of(text):
        end = "" if line.endswith(b"\n") else " (no LF)"
        plain = line.rstrip(b"\n").decode("utf-8", "backslashreplace")
        lines.append("".join(c if c.isprintable() else repr(c)[1:-1] for c in plain) + end)
    return lines
