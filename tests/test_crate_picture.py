"""make/crates.py, which draws the crates in groups: what is drawn and where, and lists of crates and of groups that don't fit each other.

It runs in a small repository; the picture of this one is looked at, too.
"""
from __future__ import annotations

import itertools
import re
import xml.etree.ElementTree
from collections.abc import Iterator, Mapping, Sequence
from typing import NamedTuple
from xml.etree.ElementTree import Element

from tests.support.cases import FolderTestCase
from tests.support.program import TOP
from tests.support.tools import Repository

TOOL, PICTURE, TABLE = "make/crates.py", "docs/crates.svg", "docs/ARCHITECTURE.md"
SVG = "{http://www.w3.org/2000/svg}"

# The crates of the small repository. The line from "top" to "aside" passes a layer, and so does the one from the group of "tool" to that of "other".
CRATES = ("base: std_extra", "middle: base", "high: middle base", "aside: base", "top: high aside base", "next: top", "far: next", "other: top")
PROGRAMS = ("tool: far other base", "bench_tool: tool")
GROUPS = {"Low": ["base", "middle, high", "aside", "top"], "Next": ["next"], "Far": ["far"], "Other": ["other"], "Programs": ["tool, bench_tool"]}


class Box(NamedTuple):
    """A box with its name and its fill, by its sides."""

    name: str
    fill: str
    left: float
    top: float
    right: float
    bottom: float


class Drawn:
    """What a picture has: the boxes and the lines of its groups, and those of its crates."""

    def __init__(self, text: str) -> None:
        """Reads the text of a picture."""
        self.boxes: tuple[list[Box], list[Box]] = ([], [])
        self.lines: tuple[list[list[tuple[float, float]]], list[list[tuple[float, float]]]] = ([], [])
        self.tree = xml.etree.ElementTree.fromstring(text)
        self.read(self.tree, 0, 0, 0)

    def read(self, parent: Element, level: int, x: float, y: float) -> None:
        """Reads a part of the picture that begins there: of the groups, or of the crates in one."""
        for path in parent.findall(f"{SVG}g/{SVG}path"):
            left, bottom, floor, right, top = map(float, re.findall(r"\d+", path.attrib["d"]))
            self.lines[level].append([(x + left, y + bottom), (x + left, y + floor), (x + right, y + top)])
        for part in parent.findall(f"{SVG}g[@transform]"):
            left, top = map(float, re.findall(r"\d+", part.attrib["transform"]))
            rect, name = part.find(f"{SVG}rect"), part.findtext(f"{SVG}text")
            if rect is not None and name is not None:
                right, bottom = left + float(rect.attrib["width"]), top + float(rect.attrib["height"])
                self.boxes[level].append(Box(name, rect.attrib["fill"], x + left, y + top, x + right, y + bottom))
            self.read(part, level if rect is None else 1, x + left, y + top)

    def overlaps(self) -> Iterator[str]:
        """Boxes over boxes, and lines over boxes, of the groups and of the crates."""
        for boxes, lines in zip(self.boxes, self.lines):
            for one, other in itertools.combinations(boxes, 2):
                if max(one.left, other.left) < min(one.right, other.right) and max(one.top, other.top) < min(one.bottom, other.bottom):
                    yield f"{one.name} and {other.name}"
            for box, line in itertools.product(boxes, lines):
                for (x, y), (right, bottom) in zip(line, line[1:]):
                    points = [(x + (right - x) * it / 100, y + (bottom - y) * it / 100) for it in range(101)]
                    if any(box.left < across < box.right and box.top < down < box.bottom for across, down in points):
                        yield f"{box.name} and a line"


class CratePicture(FolderTestCase):
    """What is drawn, and what keeps it from being drawn."""

    def setUp(self) -> None:
        super().setUp()
        crates = {line: {"src/main.rt": ""} if line in PROGRAMS else {} for line in (*CRATES, *PROGRAMS)}
        self.repository = Repository(self.folder, crates, [TOOL])
        self.write_table(GROUPS)

    def write_table(self, groups: Mapping[str, Sequence[str]]) -> None:
        """Writes the document with the table of these groups, each with the first cells of its rows."""
        rows = [row for group, names in groups.items() for row in (f"| **{group}** |  |", *(f"| {it} | what it does |" for it in names))]
        self.repository.write(TABLE, "\n".join(["| crate | does |", "|---|---|", *rows, "", "| crate | generated |", "|---|---|", "| none | |", ""]))

    def check_wrong(self, case: str, groups: Mapping[str, Sequence[str]], said: str) -> None:
        """Checks that these groups are refused, and nothing is written."""
        self.write_table(groups)
        for words in ((), ("--check",)):
            self.check(f"{case} {words}", self.repository.run(TOOL, *words), (1, "", f"{said}\n"))
        self.check_true(f"{case}: the picture", not (self.repository.folder / PICTURE).exists())

    def test_groups_and_crates_are_drawn_without_benches_and_lines_that_longer_ways_imply(self) -> None:
        self.check("the end", self.repository.run(TOOL), (0, "", ""))
        drawn = Drawn(self.repository.read(PICTURE))
        groups, crates = ({it.name: it for it in boxes} for boxes in drawn.boxes)
        self.check("groups", list(groups), list(GROUPS))
        self.check("crates", list(crates), [*(it.split(":")[0] for it in CRATES), "tool"])
        self.check("lines, of which two are in two parts", [len(it) for it in drawn.lines], [6, 6])
        self.check("what is over something else", list(drawn.overlaps()), [])
        self.check_true("a program", crates["tool"].fill not in {crates[it].fill for it in crates if it != "tool"})
        for upper, lower in (("Programs", "Far"), ("Programs", "Other"), ("Far", "Next"), ("Next", "Low"), ("Other", "Low")):
            self.check_true(f"{upper} above {lower}", groups[upper].bottom < groups[lower].top)
        for upper, lower in (("top", "high"), ("top", "aside"), ("high", "middle"), ("middle", "base"), ("aside", "base")):
            self.check_true(f"{upper} above {lower}", crates[upper].bottom < crates[lower].top)

    def test_picture_of_this_repository_can_be_read(self) -> None:
        drawn = Drawn((TOP / PICTURE).read_text())
        self.check_true("groups and crates with lines", all([*drawn.boxes, *drawn.lines]))
        self.check_true("the width", int(drawn.tree.attrib["width"]) <= 980)
        self.check("what is over something else", list(drawn.overlaps()), [])

    def test_check_is_of_both_lists(self) -> None:
        self.repository.run(TOOL)
        self.check("as written", self.repository.run(TOOL, "--check"), (0, "", ""))
        self.write_table({**GROUPS, "Far": [], "Next": ["next", "far"]})
        said = f"{PICTURE} isn't what crates.txt and {TABLE} give: {TOOL} writes it anew\n"
        self.check("another group", self.repository.run(TOOL, "--check"), (1, "", said))
        self.check("other words", self.repository.run(TOOL, "all").status, 2)

    def test_lists_that_do_not_fit_are_told(self) -> None:
        self.check_wrong("a crate without a group", {**GROUPS, "Far": []}, f"crates.txt has far, but no group of {TABLE} has it")
        self.check_wrong("no crate", {**GROUPS, "Far": ["far, away"]}, f"{TABLE} has away in the group Far, but crates.txt doesn't have it")
        later = {**GROUPS, "Low": ["middle, high", "aside", "top"], "Far": ["far", "base"]}
        self.check_wrong("a lower group that is later", later, f"middle stands on base, but {TABLE} has the group Low before Far")

    def test_wide_picture_is_made_smaller_as_long_as_its_names_can_be_read(self) -> None:
        for letters, ended in ((35, (0, "", "")), (45, (1, "", f"{PICTURE} would have names below 12 pixels, so that it isn't wider than 980\n"))):
            names = [f"{it}{'e' * (letters - 1)}" for it in "abc"]
            self.repository.write("crates.txt", "".join(f"{it}:\n" for it in names))
            self.write_table({"Wide": names})
            self.check(f"{letters} letters", self.repository.run(TOOL), ended)
        tree = Drawn(self.repository.read(PICTURE)).tree
        self.check_true("the width of what is drawn", int(tree.attrib["viewBox"].split()[2]) > 980)
        self.check("the width that is shown", tree.attrib["width"], "980")
