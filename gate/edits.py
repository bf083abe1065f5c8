#!/usr/bin/env python3
"""The wrong bodies that the prover has to refuse: those that the gate tries stand in crates/NAME/must-fail, the others
beside them in crates/NAME/edits.

gate/edits.py apply              sees that each of them can still be applied: each old text stands once in its file
gate/edits.py copy FOLDER        makes a copy of the repository without them, for rt ci, which would try each by itself
gate/edits.py gate FOLDER        tries those in crates/NAME/must-fail over the libraries that rt ci left in such a copy
gate/edits.py try [NAME ..]      tries those in crates/NAME/edits, of these crates or of all, over libraries built here

An edit names in its line `refused by:` the function whose contract has to refuse it, between the first two backticks, by its path as the
prover prints it, or the end of it that fits one function alone. Each function is proved by itself, over what others promise. So edits of
one crate that stand in the functions that they name, each in another, are tried together, and the prover says of each function whether
it meets its own contract. An edit that stands elsewhere, as in a constant or in what the function is made of, is tried by itself, and so is one
whose function is refused for a call of what another edit broke. A function that is refused for a call alone refuses nothing, and neither
does a proof that names what the edit took away; but a goal that the edit gave another name is left to the search, without the answer that
it had, and one that the search leaves open counts as refused: that its clause is false is then to be read.
"""
from __future__ import annotations

import concurrent.futures
import os
import pathlib
import re
import shutil
import subprocess
import sys
import tempfile
from collections.abc import Iterable, Iterator, Sequence
from typing import NamedTuple

TOP = pathlib.Path(__file__).resolve().parent.parent
sys.path.insert(0, str(TOP / "make"))
from side_by_side import below, lines_listed, most_at_once, stands_on  # noqa: E402

# What is said of a proof file that names what an edit took away.
BY_FORM = re.compile(r"has no field|\(nearest: |is not in scope|has no `|was not admitted")


def spans(text: str, function: str) -> Iterator[tuple[int, int]]:
    """The first and the last line, from 0, of each function of this name in a file that rt fmt has laid out."""
    lines = text.splitlines()
    for at, line in enumerate(lines):
        if found := re.match(rf"(\s*)(pub(\([^)]*\))? )?fn {re.escape(function)}\b", line):
            ends = (found[1] + "}", found[1] + "{}")
            yield at, next((end for end in range(at, len(lines)) if lines[end] in ends), at)


class Pair(NamedTuple):
    """A change of a text: the file's name in the crate, empty where none is given, the old text and the new one."""

    name: str
    old: str
    new: str


class Edit:
    """A wrong body: which function has to refuse it, and the texts that it changes."""

    def __init__(self, path: pathlib.Path) -> None:
        self.path, self.crate, self.function = path, path.parent.parent.name, ""
        self.pairs: list[Pair] = []
        name, old = "", None
        for line in path.read_text().splitlines():
            word, _, text = line.partition(":")
            if word == "refused by" and (named := re.search(r"`([^`]+)`", text)):
                self.function = named[1]
            elif word == "file":
                name = text.strip()
            elif word == "old":
                old = text.removeprefix(" ")
            elif word == "new" and old is not None:
                self.pairs.append(Pair(name, old, text.removeprefix(" ")))
                old = None

    def __str__(self) -> str:
        return f"{self.crate}/{self.path.stem}"

    def is_in(self, name: str, line: int) -> bool:
        """Whether a line, from 0, of one of the crate's files as the edit is applied stands in the function that it names."""
        texts: dict[str, str] = {}
        self.apply(texts)
        return any(first <= line <= last for first, last in spans(texts.get(name, ""), self.function.split("::")[-1]))

    def is_local(self) -> bool:
        """Whether it changes nothing but the function that it names."""
        files = {name: (TOP / "crates" / self.crate / name).read_text() for name, _, _ in self.pairs}
        return all(self.is_in(name, files[name][: files[name].find(old)].count("\n")) for name, old, _ in self.pairs)

    def apply(self, texts: dict[str, str]) -> str | None:
        """Applies it to the texts of the crate's files, by name, and says what keeps it from being applied, if anything does."""
        for name, old, new in self.pairs:
            file = TOP / "crates" / self.crate / name
            if not file.is_file():
                return f"there is no file {name or None}"
            text = texts.setdefault(name, file.read_text())
            if text.count(old) != 1:
                return f"the text stands {text.count(old)} times in {name}: {old.strip()}"
            texts[name] = text.replace(old, new)
        if not self.function:
            return "it doesn't say by which function it is refused"
        return None if self.pairs else "it changes nothing"


def edits(folder: str, names: Sequence[str] = ()) -> list[Edit]:
    return [Edit(it) for it in sorted(TOP.glob(f"crates/*/{folder}/*.edit")) if not names or it.parent.parent.name in names]


def apply() -> int:
    every = edits("must-fail") + edits("edits")
    bad = [(edit, why) for edit in every if (why := edit.apply({}))]
    for edit, why in bad:
        print(f"{edit}: {why}")
    print(f"{len(edits('must-fail'))} edits for the gate and {len(edits('edits'))} beside them, {len(bad)} can't be applied")
    return 1 if bad else 0


def copy(folder: pathlib.Path) -> int:
    shutil.rmtree(folder, ignore_errors=True)
    shutil.copytree(TOP, folder, ignore=shutil.ignore_patterns(".git", "build", "out", "__pycache__", "*.edit"))
    # rt goes up to the first .git for the top of a repository.
    (folder / ".git").mkdir()
    return 0


class Prover:
    """The kit's prover, over the libraries that stand in a folder's crates."""

    def __init__(self, folder: pathlib.Path) -> None:
        said = subprocess.run(["rt", "doc"], check=True, capture_output=True, text=True).stdout
        self.kit, self.crates = pathlib.Path(said.strip()).parent, folder / "crates"
        self.lines = lines_listed()
        self.listed = stands_on(self.lines)

    def words(self, crate: str, functions: Iterable[str], kept: str) -> list[str | pathlib.Path]:
        root = "main" if (TOP / "crates" / crate / "src/main.rt").is_file() else "lib"
        words: list[str | pathlib.Path]
        words = [self.kit / "bin/rattle", "check", "--crate-name", crate, f"src/{root}.rt", "--jobs", "1", "--incremental", kept]
        words += ["--antt-project", self.kit / "rattle/logic/antt-project.json", "--logic-built", self.kit / "logic_built"]
        words += ["-L", f"dependency={self.kit}/rlibs"]
        for name in ["std", *self.lines[crate].partition(":")[2].split()]:
            at = self.crates / name / "out/rlib" if name in self.listed else self.kit / "rlibs"
            words += ["--extern", f"{name}={at}/{name}.rlib"]
        for name in below(self.listed, crate):
            words += ["-L", f"dependency={self.crates / name / 'out/rlib'}"]
        return [*words, *(word for it in functions for word in ("--only", it))]

    def said(self, crate: str, tried: Sequence[Edit], kept: str) -> str:
        """What the prover says of the functions that the edits name, with the edits in their files; none where it comes to no end."""
        with tempfile.TemporaryDirectory(prefix="edits-") as room:
            texts: dict[str, str] = {}
            for it in tried:
                it.apply(texts)
            for part in ("src", "specs", "proofs"):
                if (TOP / "crates" / crate / part).is_dir():
                    shutil.copytree(TOP / "crates" / crate / part, f"{room}/{part}")
            for name, text in texts.items():
                pathlib.Path(room, name).write_text(text)
            words = self.words(crate, [it.function for it in tried], kept)
            ran = subprocess.run(words, cwd=room, stdin=subprocess.DEVNULL, stdout=subprocess.PIPE, stderr=subprocess.STDOUT, text=True, errors="replace")
        return ran.stdout


class Verdicts:
    """What the prover said of each function."""

    def __init__(self, said: str) -> None:
        self.said = said.splitlines()
        self.is_whole = bool(self.said) and self.said[-1].startswith("only=")
        found = [re.fullmatch(r"fn \w+::(\S+): (.*)", it) for it in self.said]
        self.functions = {it[1]: it[2] for it in found if it}

    def path(self, function: str) -> str | None:
        """The path of the function that is meant: the one whose path ends so."""
        fitting = [it for it in self.functions if it == function or it.endswith(f"::{function}")]
        return fitting[0] if len(fitting) == 1 else None

    def open_goals(self, edit: Edit, path: str, is_alone: bool) -> list[str]:
        """What isn't proved of the function itself: its goals that no search closes, and what is wrong with their answers. All that is wrong,
        in other files too, where the edit was tried by itself."""
        goals = re.findall(r"`search` did not prove ([^;]+)", self.functions[path])
        folder = f"proofs/{path.replace('::', '/')}/" if not is_alone else "proofs/"
        for it in self.said:
            place = re.match(r"(?:note: )?(?:\./)?((?:src|proofs)/\S+?):(\d+):\d+: (?:error: )?(.*)", it)
            if place and it.startswith("note: ") and "it is not proved" in it and (is_alone or edit.is_in(place[1], int(place[2]) - 1)):
                goals.append(place[3])
            elif place and ": error: " in it and place[1].startswith(folder) and not BY_FORM.search(it):
                goals.append(place[3])
        return goals


def judged(edit: Edit, verdicts: Verdicts, is_alone: bool) -> tuple[bool | None, str]:
    """Whether the edit is refused, none where this trial doesn't tell, and what is to be said."""
    if not verdicts.is_whole:
        return None, " / ".join(verdicts.said[:6])[:600]
    path = verdicts.path(edit.function)
    if not path:
        return False, f"no one function is {edit.function}"
    if verdicts.functions[path] == "proved":
        return False, f"NOT REFUSED: {path} is still proved"
    status = verdicts.functions[path]
    goals = [] if status.startswith("could not tell") else verdicts.open_goals(edit, path, False)
    if not goals and is_alone and re.fullmatch(r"not proved|no proof: (?!it calls).*", status):
        goals = verdicts.open_goals(edit, path, True)
    return (True, f"refused by {path}: {goals[0][:110]}") if goals else (None, f"{path}: {verdicts.functions[path][:200]}")


def first_round(left: list[Edit]) -> list[Edit]:
    """Those of the edits that can be tried together with the first, in order."""
    chosen: list[Edit] = []
    texts: dict[str, str] = {}
    for it in left:
        trial = dict(texts)
        if it.is_local() and all(it.function != other.function for other in chosen) and it.apply(trial) is None:
            chosen.append(it)
            texts = trial
    return chosen or left[:1]


def try_crate(prover: Prover, crate: str, every: Iterable[Edit], kept: str) -> list[tuple[Edit, bool, str]]:
    """Tries the edits of a crate, and gives for each whether it is refused and what is to be said."""
    left, told = list(every), []
    alone: list[Edit] = []
    while left or alone:
        tried = first_round(left) if left else [alone.pop(0)]
        left = [it for it in left if it not in tried]
        verdicts = Verdicts(prover.said(crate, tried, kept))
        for it in tried:
            refused, why = judged(it, verdicts, len(tried) == 1)
            if refused is None and len(tried) > 1:
                alone.append(it)
            else:
                told.append((it, bool(refused), why if refused is not None else f"NOT JUDGED: {why}"))
    return told


def try_all(chosen: Sequence[Edit], folder: pathlib.Path, keeps: bool) -> int:
    """Tries edits side by side, crate by crate, and gives the status."""
    prover = Prover(folder)
    by_crate = {name: [it for it in chosen if it.crate == name] for name in prover.listed}

    def attempt(name: str) -> list[tuple[Edit, bool, str]]:
        with tempfile.TemporaryDirectory(prefix="edits-kept-") as kept:
            former = folder / "crates" / name / "out/incremental"
            if keeps and former.is_dir():
                shutil.copytree(former, kept, dirs_exist_ok=True)
            return try_crate(prover, name, by_crate[name], kept)

    failed = 0
    with concurrent.futures.ThreadPoolExecutor(most_at_once()) as pool:
        for told in pool.map(attempt, [name for name in by_crate if by_crate[name]]):
            for edit, refused, why in told:
                print(f"{edit}: {why}", flush=True)
                failed += not refused
    print(f"{len(chosen) - failed} edits refused, {failed} not", flush=True)
    return 1 if failed or not chosen else 0


def build_below(names: Iterable[str]) -> None:
    """Builds the libraries below these crates, where they have changed."""
    for name in names:
        subprocess.run(["rt", "check", "--only", ""], cwd=TOP / "crates" / name, check=True, stdout=subprocess.DEVNULL)


def main(words: list[str]) -> int:
    os.chdir(TOP)
    if words == ["apply"]:
        return apply()
    if len(words) == 2 and words[0] == "copy":
        return copy(pathlib.Path(words[1]).resolve())
    if len(words) == 2 and words[0] == "gate":
        return try_all(edits("must-fail"), pathlib.Path(words[1]).resolve(), keeps=False)
    if words[:1] == ["try"]:
        chosen = edits("edits", words[1:])
        build_below(sorted({it.crate for it in chosen}))
        return try_all(chosen, TOP, keeps=True)
    sys.exit(__doc__)


if __name__ == "__main__":
    sys.exit(main(sys.argv[1:]))
