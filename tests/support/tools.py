"""The tools of make/ and gate/: loaded as modules, or run in a small repository of their own with a command `rt` that proves nothing."""
from __future__ import annotations

import importlib.util
import json
import os
import pathlib
import shutil
import subprocess
import sys
import types
from collections.abc import Iterable, Mapping
from typing import NamedTuple

from tests.support.program import SECONDS, TOP, File

# What the command rt of a small repository does. It notes each of its calls in calls.jsonl: its words and the folder's name. `rt doc` names
# the kit, `rt version` prints what stands in version.txt, and others do what the files of the crate's src say: they print `says`, build
# unless there is a file `fails`, and end with the status that stands in `ends`.
RT = """#!%(python)s
import json, os, pathlib, sys
home, here, words = pathlib.Path(__file__).resolve().parent, pathlib.Path.cwd(), sys.argv[1:]
if words == ["doc"]:
    print(home / "kit/START-HERE.md")
    sys.exit()
if words == ["version"]:
    print((home / "version.txt").read_text())
    sys.exit()
with open(home / "calls.jsonl", "a") as calls:
    calls.write(json.dumps([here.name, words]) + "\\n")
says = here / "src/says"
if says.exists():
    sys.stdout.write(says.read_text())
if (here / "src/fails").exists():
    sys.exit("not proved")
out = here / "out"
if words[0] == "lib":
    (out / "rlib").mkdir(parents=True, exist_ok=True)
    (out / "rlib" / f"{here.name}.rlib").write_text(here.name)
if words[0] == "run":
    out.mkdir(exist_ok=True)
    (out / here.name).write_text("#!/bin/sh\\n")
ends = here / "src/ends"
sys.exit(int(ends.read_text()) if ends.exists() else 0)
"""


class ToolEnded(NamedTuple):
    """How a tool ended, as text."""

    status: int
    output: str
    errors: str


def loaded(place: str) -> types.ModuleType:
    """Returns a tool as a module of its own; its folder is where it looks for other tools."""
    path = TOP / place
    if str(path.parent) not in sys.path:
        sys.path.insert(0, str(path.parent))
    spec = importlib.util.spec_from_file_location(f"loaded_{path.stem}", path)
    assert spec and spec.loader, f"{place} can't be loaded"
    module = importlib.util.module_from_spec(spec)
    sys.modules[spec.name] = module
    spec.loader.exec_module(module)
    return module


class Repository:
    """A small repository in a folder, with copies of the tools and a command rt."""

    def __init__(self, folder: pathlib.Path, crates: Mapping[str, Mapping[str, str]], tools: Iterable[str]) -> None:
        """Makes it of crates, each by its line of crates.txt with the files of its folder."""
        self.folder, self.bin = folder / "repository", folder / "bin"
        self.bin.mkdir()
        self.write("HANDLES", "none\n")
        self.write("crates.txt", "".join(f"{line}\n" for line in crates))
        for line, files in crates.items():
            for name, text in files.items():
                self.write(f"crates/{line.split(':')[0]}/{name}", text)
        for tool in tools:
            (self.folder / tool).parent.mkdir(exist_ok=True)
            shutil.copy(TOP / tool, self.folder / tool)
        (self.bin / "version.txt").write_text("kit 1")
        (self.bin / "rt").write_text(RT % {"python": sys.executable})
        (self.bin / "rt").chmod(0o755)

    def write(self, name: str, text: str) -> None:
        """Writes a file."""
        (self.folder / name).parent.mkdir(parents=True, exist_ok=True)
        (self.folder / name).write_text(text)

    def read(self, name: str) -> str:
        return (self.folder / name).read_text()

    def run(self, tool: str, *words: File, path: str | None = None) -> ToolEnded:
        """Runs a tool, with the command rt on its PATH or this PATH instead; returns how it ended, as text."""
        path = f"{self.bin}:{os.environ['PATH']}" if path is None else path
        ran = subprocess.run(
            [sys.executable, self.folder / tool, *words], env={**os.environ, "PATH": path}, cwd=self.folder,
            capture_output=True, text=True, timeout=SECONDS, stdin=subprocess.DEVNULL,
        )
        return ToolEnded(ran.returncode, ran.stdout, ran.stderr)

    def calls(self) -> list[tuple[str, list[str]]]:
        """Returns the calls of rt since the last time, each with the name of the crate and the words."""
        file = self.bin / "calls.jsonl"
        lines = file.read_text().splitlines() if file.exists() else []
        file.unlink(missing_ok=True)
        return [(crate, words) for crate, words in map(json.loads, lines)]
