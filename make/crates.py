#!/usr/bin/env python3
"""Draws the crates of the repository in groups, from crates.txt and the table in docs/ARCHITECTURE.md: docs/crates.svg.

    make/crates.py          writes docs/crates.svg
    make/crates.py --check  ends with status 1 where docs/crates.svg isn't what these two give

A group is a box with its name, above all groups that its crates stand on, and each crate in it is above all others in it that it stands on. Lines go
from a group down to groups, and from a crate down to crates of its group, but for those that a longer way down leads to. Programs, which are the
crates with a src/main.rt, have a fill of their own. Benches and tests aren't drawn.

The layout is layered, for the groups as for the crates of each. The layer of a place is one above the highest that it stands on, raised where that
makes lines shorter. A line that passes a layer has a place in it, as a crate has. From each of several orders places are moved within their layers
as long as that takes away crossings or makes lines more upright; the best order is taken.
"""
from __future__ import annotations

import os
import random
import sys
from collections.abc import Callable, Iterable, Iterator, Mapping, Sequence
from itertools import combinations, permutations
from math import fsum
from statistics import fmean
from typing import NamedTuple, Union

LIST = "crates.txt"
TABLE = "docs/ARCHITECTURE.md"
PICTURE = "docs/crates.svg"

# What the table of crates begins with.
TABLE_HEAD = "| crate | does |\n|---|---|\n"

# The names of crates that aren't drawn begin with one of these.
LEFT_OUT = ("bench_", "integration_tests")

# From how many orders by chance the best is looked for.
STARTS = 20

# Sizes in pixels. Of the picture: how wide it is at most, and the margin around all; of the names of crates, and how small they are at least.
WIDTH, MARGIN, TEXT, LEAST_TEXT = 980, 10, 14, 12

# Of a crate: its height, the line of its name, a letter of that, around it; between two crates, and between two layers.
BOX, BASE, LETTER, PADDING, BETWEEN, LAYER = 26, 18, 8.43, 8, 14, 23

# Of a group: the room of its name, the line of that, a letter of it; around the crates; between two groups, and between two layers.
HEADING_ROOM, HEADING_BASE, HEADING_LETTER, GROUP_PADDING, GROUP_BETWEEN, GROUP_LAYER = 32, 21, 11, 12, 24, 26

# Of a line: its width in a layer that it passes, and how far from the corners of a box it ends.
PASSING, INSET = 2, 14

# The looks of the names of crates and of groups, and of lines between crates and between groups.
NAME = f'font-family="DejaVu Sans Mono, Menlo, Consolas, monospace" font-size="{TEXT}" text-anchor="middle" fill="#1b2430"'
HEADING = 'font-family="DejaVu Sans, Verdana, sans-serif" font-size="16" font-weight="bold" text-anchor="start"'
CRATE_LINE, GROUP_LINE = 'stroke="#7d8794" stroke-width="1.3"', 'stroke="#3f4d60" stroke-width="2.6"'

# The fill and the border of a group, and of a crate by whether it is a program.
GROUP_FILL = ("#f6f8fb", "#b4bfcd")
FILLS = {False: ("#e3ebf6", "#5b7aa8"), True: ("#fbe3c0", "#b8761a")}


class Wrong(Exception):
    """What keeps the picture from being drawn."""


# ---- the crates and the groups


def crates_listed() -> dict[str, list[str]]:
    """The crates in the order of the list, each with those that it names."""
    with open(LIST, encoding="utf-8") as it:
        lines = [line.split("#")[0].partition(":") for line in it]
    named = {name.strip(): rest.split() for name, colon, rest in lines if colon}
    return {name: [it for it in rest if it in named] for name, rest in named.items()}


def groups_listed() -> dict[str, list[str]]:
    """The groups in the order of the table, each with the crates that it names."""
    with open(TABLE, encoding="utf-8") as it:
        rows = it.read().partition(TABLE_HEAD)[2].partition("\n\n")[0].splitlines()
    groups: dict[str, list[str]] = {}
    for row in rows:
        cell = row.split("|")[1].strip()
        if cell.startswith("**"):
            groups[cell.strip("*")] = []
        elif groups:
            list(groups.values())[-1].extend(cell.split(", "))
    return groups


def group_of_each(listed: Mapping[str, list[str]], groups: Mapping[str, list[str]]) -> dict[str, str]:
    """The group of each crate; Wrong where the list and the table don't fit each other."""
    group_of = {name: group for group, names in groups.items() for name in names}
    for name, group in group_of.items():
        if name not in listed:
            raise Wrong(f"{TABLE} has {name} in the group {group}, but {LIST} doesn't have it")
    for name in listed:
        if name not in group_of:
            raise Wrong(f"{LIST} has {name}, but no group of {TABLE} has it")
    order = list(groups)
    for name, named in listed.items():
        for it in named:
            if order.index(group_of[name]) < order.index(group_of[it]):
                raise Wrong(f"{name} stands on {it}, but {TABLE} has the group {group_of[name]} before {group_of[it]}")
    return group_of


def direct(listed: Mapping[str, Sequence[str]]) -> dict[str, list[str]]:
    """Of each crate or group those below it that no longer way leads to."""
    below: dict[str, set[str]] = {}
    for name, named in listed.items():
        below[name] = set(named).union(*(below[it] for it in named))
    return {name: [it for it in named if not any(it in below[other] for other in named)] for name, named in listed.items()}


# ---- layers


class Passing(NamedTuple):
    """The place of a line in a layer that it passes, by the crates or groups at its ends."""

    upper: str
    lower: str
    layer: int


# A place is the name of a crate or group, or where a line passes. Two places are joined by a line between them, upper first.
Place = Union[str, Passing]
Pair = tuple[Place, Place]

# Layers, lowest first, each a list of places from the left; and what an order of them costs.
Layers = Sequence[Sequence[Place]]
Cost = Callable[[Layers], tuple[int, int]]


def layers_of(below: Mapping[str, list[str]]) -> dict[str, int]:
    """The layer of each crate or group, from 0 at the bottom."""
    layer: dict[str, int] = {}
    for name, named in below.items():
        layer[name] = max((layer[it] + 1 for it in named), default=0)
    for name in reversed(list(below)):
        above = [it for it in below if name in below[it]]
        if len(above) > len(below[name]):
            layer[name] = min(layer[it] for it in above) - 1
    return layer


def with_passings(below: Mapping[str, list[str]]) -> tuple[Layers, list[Pair]]:
    """The layers, each a list of places, and the pairs of places that are joined, upper first."""
    layer = layers_of(below)
    layers: list[list[Place]] = [[] for _ in range(max(layer.values()) + 1)]
    pairs: list[Pair] = []
    for name in below:
        layers[layer[name]].append(name)
    for name, named in below.items():
        for it in named:
            passed = [Passing(name, it, at) for at in range(layer[name] - 1, layer[it], -1)]
            for place in passed:
                layers[place.layer].append(place)
            way: list[Place] = [name, *passed, it]
            pairs += zip(way, way[1:])
    return layers, pairs


# ---- where places are


def centers_of(layers: Layers, room: Mapping[Place, float], pairs: Iterable[Pair]) -> dict[Place, float]:
    """The center of each place, of those with this room; each layer as a whole is where its lines down are most upright."""
    center: dict[Place, float] = {}
    for layer in layers:
        left = 0.0
        for place in layer:
            center[place] = left + room[place] / 2
            left += room[place]
        aside = fmean([center[lower] - center[upper] for upper, lower in pairs if upper in layer] or [0])
        center.update((place, center[place] + aside) for place in layer)
    return center


def cost_of(layers: Layers, room: Mapping[Place, float], pairs: Iterable[Pair]) -> tuple[int, int]:
    """How many lines cross, and the sum of the squares of how far lines run aside."""
    center = centers_of(layers, room, pairs)
    layer_of = {place: at for at, layer in enumerate(layers) for place in layer}
    crossing = 0
    for (one, under_one), (other, under_other) in combinations(pairs, 2):
        if layer_of[one] == layer_of[other] and (center[one] - center[other]) * (center[under_one] - center[under_other]) < 0:
            crossing += 1
    return crossing, round(fsum((center[upper] - center[lower]) ** 2 for upper, lower in pairs))


def changed(layers: Layers) -> Iterator[Layers]:
    """The layers with one place moved within its own, in each way."""
    for at, layer in enumerate(layers):
        for one, other in permutations(range(len(layer)), 2):
            moved = list(layer)
            moved.insert(other, moved.pop(one))
            yield [*layers[:at], moved, *layers[at + 1 :]]


def bettered(layers: Layers, cost: Cost) -> Layers:
    """The layers after single places are moved, as long as that costs less."""
    tried = min(changed(layers), key=cost, default=layers)
    return bettered(tried, cost) if cost(tried) < cost(layers) else layers


def ordered(layers: Layers, cost: Cost) -> Layers:
    """The layers in the best order that moves lead to, from the order that is listed and from orders by chance."""
    chance = random.Random(1)
    starts = [layers, *([sorted(layer, key=lambda _: chance.random()) for layer in layers] for _ in range(STARTS))]
    return min((bettered(start, cost) for start in starts), key=cost)


# ---- the picture


class Part(NamedTuple):
    """A part of the picture: its text, from its own corner at the upper left, and its size."""

    text: list[str]
    width: float
    height: float


class Box(NamedTuple):
    """Where a part is, and where its layer ends below."""

    left: float
    right: float
    top: float
    bottom: float
    floor: float


def number(value: float) -> str:
    """A number of pixels."""
    return f"{value:.0f}"


def line_text(upper: Box, lower: Box) -> str:
    """The line from a box down to another: upright where one is above the other, and not at a corner."""
    middle = (max(upper.left, lower.left) + min(upper.right, lower.right)) / 2
    ends = []
    for it in (upper, lower):
        inset = min(INSET, (it.right - it.left) / 2)
        ends.append(number(min(max(middle, it.left + inset), it.right - inset)))
    return f'<path d="M{ends[0]} {number(upper.bottom)}V{number(upper.floor)}L{ends[1]} {number(lower.top)}"/>'


def boxes_of(layers: Layers, part: Mapping[Place, Part], center: Mapping[Place, float], apart: float) -> dict[Place, Box]:
    """The boxes of parts, in layers that lie apart."""
    box: dict[Place, Box] = {}
    left = min(center[place] - part[place].width / 2 for place in part)
    top = 0.0
    for layer in reversed(layers):
        floor = top + max(part[place].height for place in layer)
        for place in layer:
            at, half = center[place] - left, part[place].width / 2
            box[place] = Box(at - half, at + half, top, top + part[place].height, floor)
        top = floor + apart
    return box


def together(parts: Mapping[str, Part], below: Mapping[str, list[str]], between: float, apart: float, line: str) -> Part:
    """Parts, each above those that it stands on, with lines between them."""
    layers, pairs = with_passings(below)
    part = {place: parts[place] if isinstance(place, str) else Part([], PASSING, 0) for layer in layers for place in layer}
    room = {place: it.width + between for place, it in part.items()}
    layers = ordered(layers, lambda tried: cost_of(tried, room, pairs))
    box = boxes_of(layers, part, centers_of(layers, room, pairs), apart)
    text = [f'<g fill="none" {line}>', *(line_text(box[upper], box[lower]) for upper, lower in pairs), "</g>"]
    for name, it in parts.items():
        text += [f'<g transform="translate({number(box[name].left)} {number(box[name].top)})">', *it.text, "</g>"]
    return Part(text, max(it.right for it in box.values()), max(it.floor for it in box.values()))


def box_text(width: float, height: float, fill: str, stroke: str) -> str:
    """A box of this size, with its colors."""
    return f'<rect width="{number(width)}" height="{number(height)}" rx="5" fill="{fill}" stroke="{stroke}"/>'


def crate_part(name: str) -> Part:
    """A crate: a box with its name."""
    width = LETTER * len(name) + 2 * PADDING
    text = f'<text x="{number(width / 2)}" y="{BASE}">{name}</text>'
    return Part([box_text(width, BOX, *FILLS[os.path.exists(f"crates/{name}/src/main.rt")]), text], width, BOX)


def group_part(name: str, below: Mapping[str, list[str]]) -> Part:
    """A group: a box with its name and its crates."""
    crates = together({name: crate_part(name) for name in below}, below, BETWEEN, LAYER, CRATE_LINE)
    width = max(crates.width, HEADING_LETTER * len(name)) + 2 * GROUP_PADDING
    height = HEADING_ROOM + crates.height + GROUP_PADDING
    inner = f'<g transform="translate({number((width - crates.width) / 2)} {HEADING_ROOM})">'
    text = f'<text x="{GROUP_PADDING}" y="{HEADING_BASE}" {HEADING}>{name}</text>'
    return Part([box_text(width, height, *GROUP_FILL), text, inner, *crates.text, "</g>"], width, height)


def groups_part(listed: Mapping[str, list[str]], group_of: Mapping[str, str]) -> Part:
    """The groups, with the crates that are listed."""
    below = direct(listed)
    parts: dict[str, Part] = {}
    named: dict[str, list[str]] = {}
    for group in dict.fromkeys(group_of.values()):
        names = [name for name in listed if group_of[name] == group]
        if names:
            named[group] = [it for it in parts if any(group_of[at] == it for name in names for at in below[name])]
            parts[group] = group_part(group, {name: [it for it in below[name] if it in names] for name in names})
    return together(parts, direct(named), GROUP_BETWEEN, GROUP_LAYER, GROUP_LINE)


def picture() -> str:
    """The text of the picture, which is made smaller where it is too wide; Wrong where names would be too small."""
    listed = crates_listed()
    group_of = group_of_each(listed, groups_listed())
    drawn = [name for name in listed if not name.startswith(LEFT_OUT)]
    groups = groups_part({name: [it for it in listed[name] if it in drawn] for name in drawn}, group_of)
    width, height = round(groups.width) + 2 * MARGIN, round(groups.height) + 2 * MARGIN
    shown = min(width, WIDTH)
    if TEXT * shown < LEAST_TEXT * width:
        raise Wrong(f"{PICTURE} would have names below {LEAST_TEXT} pixels, so that it isn't wider than {WIDTH}")
    lines = [
        f'<svg xmlns="http://www.w3.org/2000/svg" viewBox="0 0 {width} {height}" width="{shown}" height="{height * shown // width}">',
        "<title>The crates in groups, each above those that it stands on</title>",
        f'<rect width="{width}" height="{height}" fill="#ffffff"/>',
        f'<g transform="translate({MARGIN} {MARGIN})" {NAME}>',
        *groups.text,
        "</g>",
        "</svg>",
    ]
    return "\n".join(lines) + "\n"


def main() -> int:
    if sys.argv[1:] not in ([], ["--check"]):
        print(__doc__, file=sys.stderr)
        return 2
    try:
        drawn = picture()
    except Wrong as wrong:
        print(wrong, file=sys.stderr)
        return 1
    if sys.argv[1:]:
        with open(PICTURE, encoding="utf-8") as it:
            if it.read() != drawn:
                print(f"{PICTURE} isn't what {LIST} and {TABLE} give: make/crates.py writes it anew", file=sys.stderr)
                return 1
        return 0
    with open(PICTURE, "w", encoding="utf-8") as it:
        it.write(drawn)
    return 0


if __name__ == "__main__":
    sys.exit(main())
