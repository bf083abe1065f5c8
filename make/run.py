#!/usr/bin/env python3
"""Shows what the desk answers, by a quick build that proves nothing.

    make/run.py

Has `rt try` put the program together without a proof and run it on the session of README and then on the batch of examples/, over one new
state in memory, and prints each line with its reply beneath it. Says while it waits how long it has taken. Ends with the status of `rt try`.
"""
from __future__ import annotations

import json
import os
import pathlib
import subprocess
import sys
import tempfile
from collections.abc import Iterable
from typing import IO

FOLDER = "crates/desk"

# The session of README, and the batch. The batch comes so many seconds later, since no command may lie before the last one.
SESSION, BATCH = "crates/desk/stdin", "examples/batch.jsonl"
LATER = 100

# How often it says that it still waits, in seconds.
TURN = 20


def later(line: str) -> str:
    """Returns a line of the batch, with its moment in the time behind the session."""
    told = json.loads(line)
    return json.dumps({**told, "at": told["at"] + LATER} if "at" in told else told, separators=(",", ":"))


def lines_of_both(top: pathlib.Path) -> tuple[list[str], list[str]]:
    """Returns the lines of the session, and those of the batch less what the session did already, which is to make the class."""
    session = (top / SESSION).read_text().splitlines()
    done = [json.loads(it) for it in session]
    batch = [it for it in (top / BATCH).read_text().splitlines() if json.loads(it) not in done]
    return session, [later(it) for it in batch]


def run_lines(lines: Iterable[str], output: IO[str], errors: IO[str]) -> int:
    """Runs the program on these lines, and returns its status."""
    with tempfile.TemporaryFile("w+") as told:
        told.write("".join(f"{it}\n" for it in lines))
        told.seek(0)
        process = subprocess.Popen(["rt", "try"], cwd=FOLDER, stdin=told, stdout=output, stderr=errors)
    waited = 0
    while True:
        try:
            return process.wait(TURN)
        except subprocess.TimeoutExpired:
            waited += TURN
            print(f"  {waited // 60}:{waited % 60:02} ..", flush=True)


def main() -> int:
    top = pathlib.Path(__file__).resolve().parent.parent
    os.chdir(top)
    session, batch = lines_of_both(top)
    lines = session + batch
    print(f"The desk is built without a proof, in three to five minutes, and answers README's {len(session)} lines and the {len(batch)} of a batch.")
    print("This shows how it works and proves nothing: make desk proves and builds it, and make test proves and tests all.", flush=True)
    with tempfile.TemporaryFile("w+") as output, tempfile.TemporaryFile("w+") as errors:
        try:
            status = run_lines(lines, output, errors)
        except FileNotFoundError:
            print("there is no command rt: README says which toolchain is wanted", file=sys.stderr)
            return 2
        for it in (output, errors):
            it.seek(0)
        replies = output.read().splitlines()
        for part, answered in ((session, replies), (batch, replies[len(session):])):
            print()
            for line, reply in zip(part, answered):
                print(f"> {line}\n{reply}")
        if status or len(replies) != len(lines):
            print(errors.read(), end="", file=sys.stderr)
            print(f"{len(replies)} of {len(lines)} lines have a reply; rt try ended with status {status}", file=sys.stderr)
        return status or int(len(replies) != len(lines))


if __name__ == "__main__":
    sys.exit(main())
