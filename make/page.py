#!/usr/bin/env python3
"""Makes the sources of crate desk_page of the files of page/: the resources that the desk serves as its page.

    make/page.py --check            says whether the sources are what page/ gives; status 1 where they aren't
    make/page.py --write            writes the sources
    make/page.py --print PATH       prints the resource at a path: one of those in RESOURCES, as / or /views.js

/ is page/index.html, which names the other resources. A script is modules of page/ joined in the order of SCRIPTS: each imports from those before
it alone, and all that they declare has names of its own. The texts of a language are those of the modules of its folder in page/texts/, as one JSON
object, in which what isn't ASCII is escaped. Each resource has an entity tag, which changes with its bytes.
"""
from __future__ import annotations

import argparse
import dataclasses
import hashlib
import json
import pathlib
import re
import sys

TOP = pathlib.Path(__file__).resolve().parent.parent
PAGE, SOURCES = TOP / "page", TOP / "crates/desk_page/src"

# The modules of each script. Those of the first are pure: they touch neither the page nor the desk.
SCRIPTS = {
    "values.js": (
        "texts", "amounts", "moments", "ids", "addresses", "csv", "cursors", "recipes", "records", "words", "scans", "barcode", "taking", "sorting", "figures", "groups", "balances", "names",
    ),
    "desk.js": ("elements", "store", "language", "typed", "who", "focus", "scanner", "parts", "questions", "frame", "sorts", "saved"),
    "forms.js": ("lots", "forms", "paper", "label", "book", "plots", "alarm", "help"),
    "records.js": ("today", "genealogy", "record", "sheet", "inputs", "balance", "history", "stands", "release", "lacks", "chooser", "goods", "places", "finder"),
    "views.js": ("planner", "shift", "warehouse", "quality", "start"),
}

# What is in index.html for the scripts while they are modules of their own.
MODULE = '<script type="module" src="start.js"></script>\n'

IMPORT = re.compile(r'^import \{([^}]*)\} from "\./(\w+)\.js";\n', re.M)
COMMENT = re.compile(r"^ *//.*\n", re.M)
DECLARED = re.compile(r"^(?:export )?(?:async )?(?:const|let|function|class) (\w+)", re.M)

# The folders with the texts of other languages than English, which the modules have.
LANGUAGES = sorted(it for it in (PAGE / "texts").glob("*") if it.is_dir())

# A module of texts: lines of comments, and one object of texts by the English ones, each of which has quotes around it and a comma behind it.
TEXTS = re.compile(r"(?://.*\n|\n)*export default (\{\n(?:.*\n)*\});\n")

# The most bytes of a resource, the most lines of a module, and the most bytes of a line of JSON.
LARGEST_RESOURCE, LONGEST_MODULE, LONGEST_LINE = 60_000, 400, 150

SOURCE = '''//! %(about)s, as it is sent. make/page.py writes this file of what is in page/.

/// Its bytes: %(kind)s in ASCII.
pub const %(name)s: &[u8] = br##"%(text)s"##;

/// Its entity tag.
pub const %(name)s_TAG: &str = "\\"%(tag)s\\"";
'''


@dataclasses.dataclass(frozen=True)
class Resource:
    """What a browser loads by itself: its path, and what it is, in its source."""

    path: str
    source: str
    about: str
    kind: str

    @property
    def text(self) -> str:
        """Its bytes."""
        if self.path == "/":
            text = page_text()
        elif self.path == "/desk.css":
            text = ascii_text("desk.css")
        elif self.kind == "JSON":
            text = filled_lines(texts_of(self.source))
        else:
            text = joined_script(self.path[1:])
        if len(text) > LARGEST_RESOURCE:
            raise WrongPage(f"{self.path} has {len(text)} bytes, and may have {LARGEST_RESOURCE}")
        return text

    @property
    def made(self) -> str:
        """Its source."""
        text = self.text
        tag = hashlib.sha256(text.encode()).hexdigest()[:32]
        return SOURCE % {"about": self.about, "kind": self.kind, "name": self.source.upper(), "text": text, "tag": tag}


RESOURCES = (
    Resource("/", "page", "The page", "HTML"),
    Resource("/desk.css", "style", "The style of the page", "CSS"),
    Resource("/values.js", "values", "What the page computes of values", "JavaScript"),
    Resource("/desk.js", "frame", "The frame of the page, and how it asks the desk", "JavaScript"),
    Resource("/forms.js", "forms", "The forms of the page, and what it prints", "JavaScript"),
    Resource("/records.js", "records", "What several views of the page show", "JavaScript"),
    Resource("/views.js", "views", "The views of the page", "JavaScript"),
    *(Resource(f"/{it.name}.json", it.name, f"The {it.name.capitalize()} texts of the page", "JSON") for it in LANGUAGES),
)


class WrongPage(Exception):
    """Why a page can't be served."""


def ascii_text(name: str) -> str:
    """Returns the text of a file of page/, which can stand in a source."""
    content = (PAGE / name).read_bytes()
    try:
        text = content.decode("ascii")
    except UnicodeDecodeError as error:
        raise WrongPage(f"byte {error.start} of page/{name} isn't ASCII") from error
    if '"##' in text:
        raise WrongPage(f'page/{name} has "## in it, which ends the literal')
    if "\r" in text:
        raise WrongPage(f"page/{name} has a CR in it")
    return text


def texts_in(path: pathlib.Path) -> list[tuple[str, str]]:
    """Returns the texts of a module of texts, each behind the English one."""
    name, text = path.relative_to(PAGE), path.read_text(encoding="utf-8")
    if text.count("\n") > LONGEST_MODULE:
        raise WrongPage(f"page/{name} has {text.count(chr(10))} lines, and may have {LONGEST_MODULE}")
    found = TEXTS.fullmatch(text)
    try:
        read = json.loads(re.sub(r",\n\}$", "\n}", COMMENT.sub("", found[1])), object_pairs_hook=list) if found else None
    except ValueError:
        read = None
    if not read or not all(isinstance(it, str) and '"##' not in it for pair in read for it in pair):
        raise WrongPage(f"page/{name} isn't an object of texts")
    return [(english, other) for english, other in read]


def texts_of(language: str) -> dict[str, str]:
    """Returns the texts of a language by the English ones, of which each stands once in its modules."""
    texts = dict[str, str]()
    for path in sorted((PAGE / "texts" / language).glob("*.js")):
        for english, other in texts_in(path):
            if english in texts:
                raise WrongPage(f"page/texts/{language} has {english!r} twice")
            texts[english] = other
    return texts


def filled_lines(texts: dict[str, str]) -> str:
    """Returns texts as a JSON object, in lines of as many of them as there is room for."""
    lines = [""]
    for english, other in texts.items():
        member = f"{json.dumps(english)}:{json.dumps(other)},"
        if lines[-1] and len(lines[-1]) + len(member) > LONGEST_LINE:
            lines.append("")
        lines[-1] += member
    return "\n".join(["{", *lines]).rstrip(",") + "\n}\n"


def check_modules() -> None:
    """Refuses a module that SCRIPTS doesn't name, and one that isn't there."""
    there, named = {it.stem for it in PAGE.glob("*.js")}, {it for modules in SCRIPTS.values() for it in modules}
    for name in sorted(there ^ named):
        raise WrongPage(f"page/{name}.js is {'not among the SCRIPTS of make/page.py' if name in there else 'not there'}")


def check_imports(name: str, text: str, exported: dict[str, set[str]]) -> None:
    """Refuses a module that imports what no earlier one exports."""
    for names, module in IMPORT.findall(text):
        if module not in exported:
            raise WrongPage(f"page/{name}.js imports from {module}, which isn't before it")
        for it in sorted({it.strip() for it in names.split(",") if it.strip()} - exported[module]):
            raise WrongPage(f"page/{name}.js imports {it}, which {module} doesn't export")
    rest = re.search(r"^import .*", IMPORT.sub("", text), re.M)
    if rest:
        raise WrongPage(f"page/{name}.js has an import of another form: {rest.group()}")


def exports(text: str) -> set[str]:
    """Returns the names that a module exports."""
    return set(re.findall(r"^export (?:async )?(?:const|let|function|class) (\w+)", text, re.M))


def checked_modules() -> dict[str, str]:
    """Returns the text of each module, in their order."""
    check_modules()
    texts, homes, exported = dict[str, str](), dict[str, str](), dict[str, set[str]]()
    for name in (it for modules in SCRIPTS.values() for it in modules):
        text = ascii_text(f"{name}.js")
        if text.count("\n") > LONGEST_MODULE:
            raise WrongPage(f"page/{name}.js has {text.count(chr(10))} lines, and may have {LONGEST_MODULE}")
        check_imports(name, text, exported)
        exported[name] = exports(text)
        for it in DECLARED.findall(text):
            if it in homes:
                raise WrongPage(f"page/{name}.js and page/{homes[it]}.js both declare {it}")
            homes[it] = name
        texts[name] = text
    return texts


def joined_script(script: str) -> str:
    """Returns the modules of a script as one, without the lines that are comments or empty. What a module exports is there for the later ones."""
    texts = checked_modules()
    parts = [re.sub(r"^export ", "", COMMENT.sub("", IMPORT.sub("", texts[name])), flags=re.M) for name in SCRIPTS[script]]
    return re.sub(r"\n{2,}", "\n", "\n".join(['"use strict";', *parts]))


def page_text() -> str:
    """Returns the page, with the scripts in the place of the module that begins."""
    page = ascii_text("index.html")
    if page.count(MODULE) != 1:
        raise WrongPage(f"page/index.html has {MODULE.strip()} {page.count(MODULE)} times")
    return page.replace(MODULE, "".join(f'<script defer src="/{name}"></script>\n' for name in SCRIPTS))


def sources() -> dict[pathlib.Path, str]:
    """Returns the sources that page/ gives."""
    return {SOURCES / f"{it.source}.rt": it.made for it in RESOURCES}


def resource(path: str) -> str:
    """Returns the text of the resource at a path."""
    for it in RESOURCES:
        if it.path == path:
            return it.text
    raise WrongPage(f"no resource is at {path}")


def main() -> int:
    parser = argparse.ArgumentParser(description="Makes the sources of crate desk_page of the files of page/.")
    what = parser.add_mutually_exclusive_group(required=True)
    what.add_argument("--check", action="store_true", help="says whether the sources are what page/ gives")
    what.add_argument("--write", action="store_true", help="writes the sources")
    what.add_argument("--print", metavar="PATH", help="prints the resource at a path")
    words = parser.parse_args()
    try:
        made = sources()
        for file, text in made.items():
            if words.check and file.read_text() != text:
                raise WrongPage(f"{file.name} isn't what page/ gives: make/page.py --write")
            if words.write:
                file.write_text(text)
        if words.print:
            print(resource(words.print), end="")
    except (OSError, WrongPage) as error:
        print(error, file=sys.stderr)
        return 1
    return 0


if __name__ == "__main__":
    sys.exit(main())
