#!/usr/bin/env python3
"""Counts the words of the documents and of the comments in each crate, and how often these use words that blur what they say.

    make/words.py          prints for each document and each crate the words, and the uses of those words for each 1,000
    make/words.py --check  prints only what is above a limit, and ends with status 1 where something is

A word is what blanks separate, with a letter or a digit in it, blocks of code included. The words that blur are the forms of "tell" and "stand",
"behind" and "beside": each was once used for a dozen things, for which docs/GLOSSARY.md has terms. A document has fewer than 5 of them for each
1,000 words, and all documents together have at most 30,000 words. The documents are README, CONTRIBUTING, CHANGELOG, those of docs/ and
bench/README; the READMEs of crates are not counted.

The comments of a crate, in src, specs and proofs, have fewer than 5 of them for each 1,000 words, too, where they have 200 words or more. A raw text
in the code, such as the web page, has no comments.
"""
from __future__ import annotations

import pathlib
import re
import sys

# The most words of all documents; the blurring words of a document or of comments, for each 1,000, that are too many; the fewest words of comments
# that are judged.
MOST, TOO_MANY, FEWEST = 30_000, 5, 200

BLURRING = re.compile(r"\b(?:tells?|told|telling|stands?|stood|standing|behind|besides?)\b", re.I)

# What a comment says, by the suffix of its file; and a raw text, in which nothing is a comment.
COMMENTS = {".rt": re.compile(r"(?:^|[ ])//[/!]?(?:[ ](.*))?$", re.M), ".antt": re.compile(r"(?:^|[ ])--(?:[ ](.*))?$", re.M)}
RAW = re.compile(r'\bb?r(#+)".*?"\1', re.S)


def documents(top: pathlib.Path) -> list[pathlib.Path]:
    """The documents below a folder."""
    return [top / it for it in ("README.md", "CONTRIBUTING.md", "CHANGELOG.md", "bench/README.md")] + sorted((top / "docs").glob("*.md"))


def crates(top: pathlib.Path) -> list[pathlib.Path]:
    """The folders of the crates below a folder."""
    return sorted(it.parent for it in (top / "crates").glob("*/src"))


def comments(crate: pathlib.Path) -> str:
    """All comments of a crate, as one text."""
    files = [it for part in ("src", "specs", "proofs") for it in sorted((crate / part).rglob("*")) if it.suffix in COMMENTS]
    return "\n".join(said for it in files for said in COMMENTS[it.suffix].findall(RAW.sub("", it.read_text())))


def counted(text: str) -> tuple[int, int]:
    """How many words a text has, and how many of them blur."""
    return sum(any(map(str.isalnum, it)) for it in text.split()), len(BLURRING.findall(text))


def rate(words: int, blurring: int) -> float:
    """How many words blur of 1,000."""
    return 1000 * blurring / words if words else 0.0


def main(options: list[str]) -> int:
    top = pathlib.Path(__file__).resolve().parent.parent
    if options not in ([], ["--check"]):
        sys.exit(__doc__)
    counts = {it.relative_to(top): counted(it.read_text()) for it in documents(top)}
    total = sum(words for words, _ in counts.values())
    said = {it.relative_to(top): counted(comments(it)) for it in crates(top)}
    wrong = [f"{name}: {rate(*it):.1f} of 1,000 words blur" for name, it in counts.items() if rate(*it) >= TOO_MANY]
    wrong += [f"{name}: {rate(*it):.1f} of 1,000 words of comments blur" for name, it in said.items() if it[0] >= FEWEST and rate(*it) >= TOO_MANY]
    wrong += [f"all documents: {total} words, above {MOST}"] if total > MOST else []
    if options:
        print("".join(f"{it}\n" for it in wrong), end="")
    else:
        for name, it in counts.items():
            print(f"{it[0]:6} {rate(*it):4.1f} {name}")
        print(f"{total:6}      all documents")
        for name, it in said.items():
            print(f"{it[0]:6} {rate(*it):4.1f} {name}, comments")
    return int(bool(wrong))


if __name__ == "__main__":
    sys.exit(main(sys.argv[1:]))
