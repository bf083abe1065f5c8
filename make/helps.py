"""What the help of a program says, read from its text, and the page of the manual that tells the same.

A help is blocks of lines, as clap prints it: what it is about, a line `Usage: `, lists with a heading such as `Options:`, and notes.
"""
from __future__ import annotations

import pathlib
import re
import subprocess
import textwrap
from collections.abc import Iterable, Mapping

# How a page writes what groff would take for something else.
GLYPHS = {"\\": r"\e", "-": r"\-", "'": r"\(aq", '"': r"\(dq", "`": r"\(ga", "^": r"\(ha", "~": r"\(ti"}

DOCUMENTS = "FORMATS.md and ERRORS.md, among the documents that come with the programs, tell every text, status and fault."


class Wrong(Exception):
    """Why a help can't be read, or no package be made."""


class Item:
    """A line of a list: a word, an argument or an option, and what is said of it."""

    def __init__(self, line: str) -> None:
        found = re.fullmatch(r" +(\S+(?: \S+)*)(?: {2,}(.*))?", line)
        if not found:
            raise Wrong(f"a help has a line that can't be read: {line}")
        self.name, self.about = found[1], found[2] or ""

    def flags(self) -> list[str]:
        """The forms of an option, the short one first."""
        return re.findall(r"(?<!\S)--?[\w-]+", self.name)

    def value(self) -> str | None:
        """The name of the value that an option takes, or of an argument, which may be left out; none where there is none."""
        found = re.search(r"<(\w+)>|^\[(\w+)\]$", self.name)
        return found[1] or found[2] if found else None

    def choices(self) -> list[str]:
        """The values that are told one by one with what they mean, as in `back: where from; forward: where to`."""
        found = [re.match(r"(\w+): ", it) for it in self.about.split("; ")]
        return [it[1] for it in found if it] if all(found) else []


class Help:
    """A help by its parts."""

    def __init__(self, text: str) -> None:
        self.about, self.usage = "", ""
        self.lists: dict[str, list[Item]] = {}
        self.notes: list[str] = []
        for block in re.split(r"\n{2,}", text.strip("\n")):
            first, *others = block.split("\n")
            if first.startswith("Usage: "):
                self.usage = first[len("Usage: "):]
            elif re.fullmatch(r"[A-Z][a-z]+:", first):
                self.lists[first[:-1]] = [Item(it) for it in others]
            elif not self.about:
                self.about = block
            else:
                self.notes.append(block)
        if not self.usage or not self.about:
            raise Wrong(f"a help doesn't say what it is about, or no usage: {text}")

    def items(self, name: str) -> list[Item]:
        """The items of a list, none where there is no such list."""
        return self.lists.get(name, [])


def said(program: pathlib.Path, *words: str, name: str = "desk") -> str:
    """What a program prints at these words, under its own name."""
    return subprocess.run([name, *words], executable=program, capture_output=True, check=True, text=True, stdin=subprocess.DEVNULL).stdout


def helps_of(program: pathlib.Path) -> tuple[Help, dict[str, Help]]:
    """The help of the desk, and that of each of its words, by the word."""
    whole = Help(said(program, "--help"))
    return whole, {it.name: Help(said(program, it.name, "--help")) for it in whole.items("Commands")}


def plain(text: str) -> str:
    """A text as a page of the manual has it, each of its lines on one of its own."""
    written = ["".join(GLYPHS.get(c, c) for c in line) for line in text.split("\n")]
    return "\n.br\n".join(rf"\&{it}" if it.startswith(".") else it for it in written)


def usages(helps: Iterable[Help]) -> str:
    return "\n.br\n".join(f".B {plain(it.usage)}" for it in helps)


def listed(items: Iterable[Item]) -> str:
    return "".join(f".TP\n.B {plain(it.name)}\n{plain(it.about)}\n" for it in items)


def section(word: str, told: Help) -> str:
    """The section of a page on one word."""
    parts = [f".SS {word}\n{plain(told.about)}\n.PP\n{usages([told])}\n", listed(told.items("Arguments")), listed(told.items("Options"))]
    return "".join([*parts, *(f".PP\n{plain(it)}\n" for it in told.notes)])


def statuses(note: str) -> tuple[list[tuple[str, str]], str]:
    """The exit statuses that a note of a help tells, as lines of (status, what it means), and what else the note says."""
    other, _, told = note.partition("Exit status: ")
    found = re.split(r"; (?=\d )", " ".join(told.split()).rstrip(".")) if told else []
    return [(status, meaning) for status, meaning in (it.split(" ", 1) for it in found)], other.strip()


def notes(told: Help) -> list[str]:
    """What the notes of a help say, less examples and exit statuses, which a page of the manual has in sections of their own."""
    kept = (re.sub(r"^Example: .*\n?", "", statuses(it)[1], flags=re.M).strip() for it in told.notes)
    return [it for it in kept if it]


def manual(text: str) -> str:
    """The sections of a page that are written by hand. A block is a heading in capitals, a text, or a text that is set in: in FILES what a file
    holds, whose name is the block in front of it, elsewhere lines to be typed."""
    parts, heading = [], ""
    for block in filter(None, re.split(r"\n{2,}", text.strip("\n"))):
        if block.isupper():
            heading = block
            parts.append(f".SH {heading}\n")
        elif not block.startswith("    "):
            parts.append(f".TP\n.B {plain(block)}\n" if heading == "FILES" else f".PP\n{plain(' '.join(block.split()))}\n")
        elif heading == "FILES":
            parts.append(f"{plain(' '.join(block.split()))}\n")
        else:
            typed = plain(textwrap.dedent(block)).replace("\n.br\n", "\n")
            parts.append(f".PP\n.RS 4\n.nf\n{typed}\n.fi\n.RE\n")
    return "".join(parts)


def page(name: str, version: str, told: Help, words: Mapping[str, Help], others: Iterable[str], by_hand: str) -> str:
    """The page of a program with this help, the helps of its words, the names of the other programs, and the sections that are written by hand."""
    parts = [f'.TH {name.upper()} 1 "" "desk {version}" "Manufacturing desk"\n']
    parts += [f".SH NAME\n{plain(name)} \\- {plain(told.about)}\n.SH SYNOPSIS\n{usages([told, *words.values()])}\n"]
    if notes(told):
        parts += [".SH DESCRIPTION\n", "\n.PP\n".join(plain(it) for it in notes(told)), "\n"]
    if words:
        parts += [".SH COMMANDS\n", *(section(*it) for it in words.items())]
    for heading in [it for it in told.lists if it != "Commands"]:
        parts += [f".SH {heading.upper()}\n", listed(told.lists[heading])]
    ended = [it for note in told.notes for it in statuses(note)[0]]
    if ended:
        parts += [".SH EXIT STATUS\n", *(f".TP\n.B {status}\n{plain(meaning)}\n" for status, meaning in ended)]
    parts.append(manual(by_hand))
    parts += [".SH SEE ALSO\n", ",\n".join(f".BR {plain(it)} (1)" for it in others), f"\n.PP\n{plain(DOCUMENTS)}\n"]
    return "".join(parts)
