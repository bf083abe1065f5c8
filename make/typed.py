#!/usr/bin/env python3
"""Checks the annotations of the tools and of the tests: typed.py

mypy --strict over each group of folders whose modules import each other by their names. Where mypy isn't installed (Debian has it as mypy), that is
said and nothing is checked.
"""

from __future__ import annotations

import os
import pathlib
import shutil
import subprocess
import sys

TOP = pathlib.Path(__file__).resolve().parent.parent
OPTIONS = ("--strict", "--python-version", "3.9", "--no-error-summary")


def groups() -> list[tuple[str, ...]]:
    """The folders that are checked together: the tools with the gate, the gateway of examples/replica, the tests, and each folder of benches."""
    benches = sorted({str(script.parent.relative_to(TOP)) for script in (TOP / "bench").rglob("*.py")})
    return [("make", "make/packaged", "gate"), ("examples/replica",), ("tests",), *((folder,) for folder in benches)]


def checked(mypy: str, folders: tuple[str, ...]) -> int:
    """The status of mypy over the scripts of these folders, which find each other and the tests."""
    scripts = [str(script) for folder in folders for script in sorted((TOP / folder).glob("*.py"))]
    if folders == ("tests",):
        scripts = ["tests"]
    path = os.pathsep.join([str(TOP), str(TOP / "make/packaged"), str(TOP / "examples/replica"), *(str(TOP / folder) for folder in folders if folder != "tests")])
    environment = {**os.environ, "MYPYPATH": path}
    return subprocess.run([mypy, *OPTIONS, *scripts], cwd=TOP, env=environment).returncode


def main() -> int:
    mypy = shutil.which("mypy")
    if mypy is None:
        print("mypy isn't installed: the annotations of the scripts aren't checked")
        return 0
    return max(checked(mypy, folders) for folders in groups())


if __name__ == "__main__":
    sys.exit(main())
