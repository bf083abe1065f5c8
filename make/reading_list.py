#!/usr/bin/env python3
"""Prints docs/READING.md: the definitions that the main theorem rests on, crate by crate, each file after those that it builds on.

    make/reading_list.py > docs/READING.md  makes it anew
    make/reading_list.py --check           ends with status 1 where docs/READING.md isn't what the definitions give

It is called at the root of the repository. It begins at the law that is the main theorem, and follows each definition to those that it names,
through the files of definitions of this repository. Before the crates stand the parts in which it can be read: a definition is of the first part that
leads to it. It doesn't follow the relations that are the contracts of the calls: the law supposes them as
the calls ensure them, and says of them nothing else. It leaves out how columns are read, the fields `read`, which no definition on the list takes.
"""
from __future__ import annotations

import glob
import re
import sys
from collections.abc import Collection, Iterator, Mapping, Sequence

READING = "docs/READING.md"
LAW = ("plant_desk_store.specs.Headline", "Headline")
CONTRACTS = ["HasAdopted", "HasRefused", "HasExecuted", "HasCheckedCommand", "HasAsked", "HasRun", "HasVerified", "HasIndexed"]
CALLS = "plant_desk_store.specs.CallContracts"

# The parts: what each is about, and the definitions that it begins with; none of the last one, which has what is left.
PARTS: list[tuple[str, list[tuple[str, str]]]] = [
    ("the machine: commands, stops, openings, questions", [("plant_desk_store.specs.Machines", "LeadsTo")]),
    ("what a command does, and its reply", [("plant_rules.specs.Step", "step"), ("plant_keeper.specs.Replies", "reply")]),
    ("what is said of traces, of where goods are and of a lot", [("plant_desk_store.specs.Headline", "SaysOf")]),
    ("the tables of a state", [("plant_view.specs.TableRows", "tables_of"), ("plant_tables.specs.Keyed", "HoldsTablesOf")]),
    ("which states are valid", [("plant_invariant.specs.StateInvariant", "StateInvariant")]),
    ("the answers to other questions", [("plant_answers.specs.Answers", "answer")]),
    ("checks of commands", [("plant_rules.specs.Causes", "checked")]),
    ("executions over a store, and the theorem", []),
]

HEAD = """# What to read to believe the main theorem

The [main theorem](PROMISES.md#the-main-theorem) is `Headline`. Whoever agrees with the definitions below and with the premises in
[ASSUMPTIONS](ASSUMPTIONS.md) needs to read neither code nor proofs. Begin with `Machines` of plant_desk_store, the desk as a machine without a store,
and go on by parts: which states are valid, the answers to other questions, and checks are clauses of their own, which tables, traces and stocks don't
need. The words for a store, such as `HasCleanDisk`, `IsDatabase` and `may_leave`, are the kit's (specs of sqlite).

Not listed are the [relations of calls](PROMISES.md#the-desk-over-a-store), which the law supposes; nor how columns are decoded
(`read` of `Kind` and `Columns`).
"""


# A definition: its file and its name.
Definition = tuple[str, str]


def without_reading(block: str) -> str:
    """A definition without how columns are read."""
    for field in (r"\n  pub read : .*", r"\n  read = [^;}]*;", r"; read = [^;}]*(?= })"):
        block = re.sub(field, "", block)
    return block


class File:
    """A file of definitions: what it takes from others, and its own definitions as (text, lines)."""

    def __init__(self, path: str) -> None:
        with open(path, encoding="utf-8") as it:
            text = it.read()
        self.imports: dict[str, str] = {}
        self.aliases: dict[str, str] = {}
        self.defined: dict[str, tuple[str, int]] = {}
        for module, names in re.findall(r"^(?:pub )?use Rattle\.(\S+?)\.\{([^}]*)\}", text, re.M):
            self.imports.update({name.strip(): module for name in names.split(",")})
        self.aliases.update({name: module for module, name in re.findall(r"^use Rattle\.(\S+) as (\w+)", text, re.M)})
        for block in re.split(r"\n\n+", text):
            found = re.search(r"^(?:pub )?(?:abbrev|record|unfoldable|data)(?: pub)? (\S+)", block, re.M)
            if found:
                block = without_reading(block) if "/plant_tables_columns/" in path else block
                lines = [it for it in block.split("\n") if not it.lstrip().startswith(("use ", "-- ----", "infix"))]
                self.defined[found[1]] = ("\n".join(lines), len(lines))


def passed_on() -> dict[tuple[str, str], str]:
    """The file of each name that the root of a crate's definitions passes on, its own or of another root, by the root and the name."""
    homes: dict[tuple[str, str], str] = {}
    for path in glob.glob("crates/*/specs/Lib.antt"):
        root = path[len("crates/") : -len("/Lib.antt")].replace("/", ".")
        with open(path, encoding="utf-8") as it:
            for other, module, names in re.findall(r"^(?:unfoldable )?pub use (Rattle\.)?(\S+?)\.\{([^}]*)\}", it.read(), re.M):
                homes.update({(root, name.strip()): module if other else f"{root}.{module}" for name in names.split(",")})
    return {(root, name): homes.get((home, name), home) for (root, name), home in homes.items()}


def read_files() -> dict[str, File]:
    files: dict[str, File] = {}
    homes = passed_on()
    for path in glob.glob("crates/*/specs/**/*.antt", recursive=True):
        if "/declared/" not in path and not path.endswith("/Lib.antt"):
            file = File(path)
            file.imports = {name: homes.get((module, name), module) for name, module in file.imports.items()}
            files[path[len("crates/") : -len(".antt")].replace("/", ".")] = file
    return files


def named_in(files: Mapping[str, File], module: str, name: str) -> Iterator[Definition]:
    """The definitions that one names, beside its comments."""
    file = files[module]
    text = re.sub(r"--.*", "", file.defined[name][0])
    for word in set(re.findall(r"[^\s(){}\[\],;]+", text)) | set(re.findall(r"\w+", text)):
        first, _, rest = word.partition(".")
        for module_of, it in ((module, first), (file.imports.get(first), first), (file.aliases.get(first), rest)):
            if module_of is not None and module_of in files and it in files[module_of].defined:
                yield module_of, it


def in_order(modules: Collection[str], files: Mapping[str, File], crates: Sequence[str]) -> list[str]:
    """The files crate by crate, and in a crate each behind those that it imports."""
    rows: list[str] = []

    def add(module: str) -> None:
        if module not in rows:
            for below in sorted(set(files[module].imports.values()) | set(files[module].aliases.values())):
                if below in modules and below.split(".")[0] == module.split(".")[0]:
                    add(below)
            rows.append(module)

    for module in sorted(modules, key=lambda it: (crates.index(it.split(".")[0]), it)):
        add(module)
    return rows


def reached(files: Mapping[str, File], starts: Sequence[Definition], known: Collection[Definition]) -> set[Definition]:
    """The definitions that these lead to, and they themselves, but for those that are known."""
    todo, found = [*starts], set[Definition]()
    while todo:
        it = todo.pop()
        if it not in found and it not in known:
            found.add(it)
            todo += named_in(files, *it)
    return found


def parts_of(files: Mapping[str, File], found: Collection[Definition]) -> str:
    """The table of the parts, of the definitions on the list."""
    text = "| part | begins with | definitions | lines |\n|---|---|---|---|\n"
    machine, later = PARTS[0][1][0][0], [it for _, starts in PARTS[1:] for it in starts]
    known: set[Definition] = set()
    for at, (part, starts) in enumerate(PARTS):
        # The machine is its own file alone; what it is made of are the other parts.
        within = {it for it in found if it[0] == machine} if at == 0 else (reached(files, starts, known) if starts else {*found} - known)
        strange = within - {*found}
        if strange or any(it not in found for it in later):
            raise SystemExit(f"a part isn't on the list: {sorted(strange)[:3]}")
        known |= within
        begins = ", ".join(f"`{name}`" for _, name in starts) or f"`{LAW[1]}`"
        text += f"| {part} | {begins} | {len(within)} | {sum(files[module].defined[name][1] for module, name in within)} |\n"
    return text


def reading_list() -> str:
    """The text of the list."""
    files = read_files()
    found = reached(files, [LAW], [(CALLS, name) for name in CONTRACTS])
    taken = [it for it in found if re.search(r"\.read\b", files[it[0]].defined[it[1]][0])]
    if taken:
        raise SystemExit(f"these take how columns are read: {taken}")
    with open("crates.txt", encoding="utf-8") as table:
        crates = [line.split(":")[0] for line in table if ":" in line and not line.startswith("#")]
    rows: dict[str, list[str]] = {}
    for module in in_order({module for module, _ in found}, files, crates):
        crate, _, file = module.split(".", 2)
        rows.setdefault(crate, []).append(file.replace(".", "/"))
    total = sum(files[module].defined[name][1] for module, name in found)
    text = f"{HEAD}\nIn all {len(found)} definitions in {sum(map(len, rows.values()))} files, {total} lines with their comments. By parts:\n\n"
    text += f"{parts_of(files, found)}\nBy crates; each file of `specs/` comes after those that it builds on:\n\n| crate | files |\n|---|---|\n"
    for crate, row in rows.items():
        text += f"| {crate} | {', '.join(row)} |\n"
    return text


def main(options: Sequence[str]) -> int:
    if options == ["--check"]:
        with open(READING, encoding="utf-8") as it:
            if it.read() != reading_list():
                print(f"{READING} isn't what the definitions give: make/reading_list.py > {READING} makes it anew", file=sys.stderr)
                return 1
        return 0
    if options:
        print(__doc__, file=sys.stderr)
        return 2
    print(reading_list(), end="")
    return 0


if __name__ == "__main__":
    sys.exit(main(sys.argv[1:]))
