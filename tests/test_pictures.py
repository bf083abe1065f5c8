"""The built genealogy_picture over answers of the desk with edges, and the pictures that it draws.

What is drawn is compared with what is found here: the nodes and edges of the answers, each once, the text in DOT, and of the text in SVG
what Python's parser of XML reads from it.
"""
from __future__ import annotations

import json
import re
import subprocess
import time
import xml.etree.ElementTree
from collections.abc import Mapping, Sequence
from typing import NamedTuple
from xml.etree.ElementTree import Element

from tests.support import Json
from tests.support.cases import ProgramTestCase
from tests.support.program import CRATES, TOP, Ended, Program

SVG = "{http://www.w3.org/2000/svg}"

# In how many seconds a picture of 10^5 edges has to be drawn, and how many edges these pictures have.
SOON = 60
MANY = 100_000

BOTH = ("--dot", "--svg")

# Where boxes stand, in pixels: the first corner, from layer to layer, from slot to slot, and the size of a box.
LEFT, UPPER, LAYER, SLOT = 20, 60, 440, 80
WIDE, HIGH = 180, 56

# The gap in front of a layer, in which amounts stand, how far apart their lines are, and from how many nodes on they are left out.
GAP, ROW, MANY_NODES = LAYER - WIDE, 16, 81
NOTE = "Amounts are left out in a picture of more than 80 lots and batches."

# How wide the longest amount is in a wide font: 20 digits, a space and a unit of 8 letters.
LONGEST = 20 * 7.7 + 4 + 8 * 12


# ---- answers

# A node or an edge of an answer.
Item = dict[str, Json]


def lot(
    name: str, definition: str = "FLOUR", stock: int = 1, held: bool = False, recalled: bool = False, unit: str = "kg",
) -> Item:
    return {"def": definition, "held": held, "lot": name, "recalled": recalled, "stock": stock, "unit": unit}


def batch(name: str) -> Item:
    return {"batch": name}


def end(node: Item) -> Item:
    return {it: node[it] for it in ("lot", "batch") if it in node}


def edge(first: Item, last: Item, amount: int = 1) -> Item:
    return {"amount": amount, "from": end(first), "to": end(last)}


def answer(nodes: Sequence[Json], edges: Sequence[Json]) -> str:
    return json.dumps({"edges": edges, "nodes": nodes}, separators=(",", ":")) + "\n"


def turned(text: str) -> str:
    """Returns an answer with its members in the other order, and blanks between."""
    def turn(it: Json) -> Json:
        if isinstance(it, dict):
            return {name: turn(it[name]) for name in sorted(it, reverse=True)}
        return list(map(turn, it)) if isinstance(it, list) else it
    return json.dumps(turn(json.loads(text))) + "\n"


FLOUR, SUGAR, DOUGH = lot("F-1", stock=313), lot("S-1", "SUGAR", 40, held=True), lot("D-1", "DOUGH", 0, recalled=True)
CAKE, REST = lot("C-1", "CAKE", 12, True, True, "pcs"), lot("D-2", "DOUGH", 5)
MIX, BAKE = batch("B-1"), batch("B-2")

BACK = answer([DOUGH, FLOUR, SUGAR, MIX], [edge(FLOUR, MIX, 400), edge(SUGAR, MIX, 60), edge(MIX, DOUGH, 460)])
FORWARD = answer([CAKE, DOUGH, REST, BAKE], [edge(DOUGH, BAKE, 455), edge(DOUGH, REST, 5), edge(BAKE, CAKE, 12)])


# ---- what is to be drawn


def name_of(node: Item) -> str:
    return f"lot {node['lot']}" if "lot" in node else f"batch {node['batch']}"


def order_of(node: Item) -> tuple[bool, str]:
    """Lots before batches, each kind by its ids."""
    return ("batch" in node, node.get("lot") or node["batch"])


def mark_of(node: Item) -> str:
    return ", ".join(word for word, flag in (("HELD", "held"), ("RECALLED", "recalled")) if node.get(flag))


class Picture:
    """What answers tell, each node and each edge once and in its order."""

    def __init__(self, *texts: str) -> None:
        told = [json.loads(line) for text in texts for line in text.splitlines() if line.strip()]
        nodes = {name_of(node): node for it in told for node in it["nodes"]}
        self.nodes = dict(sorted(nodes.items(), key=lambda it: order_of(it[1])))
        edges = {(name_of(e["from"]), name_of(e["to"])): e["amount"] for it in told for e in it["edges"]}
        self.edges = dict(sorted(edges.items(), key=lambda it: [order_of(nodes[name]) for name in it[0]]))

    def label(self, ends: tuple[str, str]) -> str:
        """The amount of an edge, with the unit of the lot at its beginning, else of that at its end."""
        unit = next(self.nodes[name]["unit"] for name in ends if "unit" in self.nodes[name])
        return f"{self.edges[ends]} {unit}"

    def layers(self) -> dict[str, int]:
        """The longest way to each node from one that nothing leads to."""
        into = {it: 0 for it in self.nodes}
        out: dict[str, list[str]] = {it: [] for it in self.nodes}
        for first, last in self.edges:
            into[last] += 1
            out[first].append(last)
        layers, ready = {it: 0 for it in self.nodes}, [it for it in self.nodes if not into[it]]
        for first in ready:
            for last in out[first]:
                layers[last] = max(layers[last], layers[first] + 1)
                into[last] -= 1
                if not into[last]:
                    ready.append(last)
        return layers

    def dot(self) -> str:
        """The text in DOT."""
        lines = ["digraph genealogy {", "  rankdir=LR;"]
        for name, it in self.nodes.items():
            if "batch" in it:
                lines.append(f'  "{name}" [shape=box, label="{it["batch"]}\\nbatch"];')
                continue
            colour = "#f8d7da" if it["recalled"] else "#fff3cd" if it["held"] else "#ffffff"
            mark = f"\\n{mark_of(it)}" if mark_of(it) else ""
            label = f'{it["lot"]}\\n{it["def"]} {it["stock"]} {it["unit"]}{mark}'
            lines.append(f'  "{name}" [shape=ellipse, style=filled, fillcolor="{colour}", peripheries={2 if mark else 1}, label="{label}"];')
        lines += [f'  "{first}" -> "{last}" [label="{self.label((first, last))}"];' for first, last in self.edges]
        return "\n".join([*lines, "}", ""])


class Place(NamedTuple):
    """A node as it is drawn: its title, the attributes of its rectangle, and the texts in it."""

    title: str
    box: dict[str, str]
    texts: list[str | None]


def child(tree: Element, name: str) -> Element:
    """Returns the first child of this name, which has to be there."""
    found = tree.find(f"{SVG}{name}")
    assert found is not None, f"there is no {name}"
    return found


def places_of(tree: Element) -> dict[str, Place]:
    """Returns the nodes that are drawn, each by the front of its title."""
    found = {}
    for it in tree.iter(f"{SVG}g"):
        if it.findall(f"{SVG}title"):
            title, texts = child(it, "title").text or "", [text.text for text in it.findall(f"{SVG}text")]
            found[title.split(",")[0]] = Place(title, child(it, "rect").attrib, texts)
    return found


def slots(layers: Mapping[str, int]) -> list[tuple[int, int]]:
    """Returns the slots of each layer, from 0 on."""
    counts: dict[int, int] = {}
    for layer in layers.values():
        counts[layer] = counts.get(layer, 0) + 1
    return sorted((layer, slot) for layer, count in counts.items() for slot in range(count))


# ---- the tests


class PictureTestCase(ProgramTestCase):
    """A test case over the built program."""

    PROGRAMS = ("genealogy_picture",)

    def setUp(self) -> None:
        super().setUp()
        self.program = Program("genealogy_picture", self.folder)

    def run_on(self, told: str | bytes, *words: str) -> Ended:
        """Runs the program on a text."""
        return self.program.run(*words, told=told.encode() if isinstance(told, str) else told)

    def check_drawn(self, case: str, *texts: str, asked: str | None = None) -> bytes:
        """Draws the answers in both formats, in SVG with a node that is asked for, and looks at both; returns the text in SVG."""
        picture, told = Picture(*texts), "".join(texts)
        words = [f"--{asked.split()[0]}", asked.split()[1]] if asked else []
        self.check(f"{case}, in DOT", self.run_on(told, "--dot", *words), (0, picture.dot().encode(), b""))
        ran = self.run_on(told, *words)
        if self.check(f"{case}, in SVG", (ran.status, ran.errors), (0, b"")):
            self.check_svg(case, picture, ran.output, asked)
        return ran.output

    def check_svg(self, case: str, picture: Picture, text: bytes, asked: str | None) -> None:
        """Looks at a text in SVG."""
        tree = xml.etree.ElementTree.fromstring(text)
        heading = f"genealogy of {asked}" if asked else "genealogy"
        wanted = [heading, NOTE] if len(picture.nodes) >= MANY_NODES and picture.edges else [heading]
        self.check(f"{case}, the heading", [it.text for it in tree.findall(f"{SVG}text")], wanted)
        self.check(f"{case}, the title", child(tree, "title").text, heading)
        self.check(f"{case}, a number that isn't whole", re.findall(rb'="-?\d+\.\d+"', text), [])
        drawn = places_of(tree)
        if self.check(f"{case}, the nodes", sorted(drawn), sorted(picture.nodes)):
            self.check_boxes(case, picture, tree, {it: place.box for it, place in drawn.items()})
            for node, place in drawn.items():
                self.check_box(f"{case}, {node}", picture.nodes[node], place.title, place.texts)
            marked = [it for it, place in drawn.items() if place.box.get("stroke-width") == "4"]
            self.check(f"{case}, what is marked", marked, [asked] if asked else [])

    def check_boxes(self, case: str, picture: Picture, tree: Element, boxes: Mapping[str, dict[str, str]]) -> None:
        """Each node stands in its layer, in a place of its own, and each edge leads from box to box with its amount."""
        layers = picture.layers()
        self.check(f"{case}, the layers", {it: (int(box["x"]) - LEFT) / LAYER for it, box in boxes.items()}, layers)
        corners = [(box["x"], box["y"]) for box in boxes.values()]
        self.check(f"{case}, two nodes in one place", len(set(corners)), len(corners))
        places = sorted((layers[it], (int(box["y"]) - UPPER) // SLOT) for it, box in boxes.items())
        self.check(f"{case}, a gap in a layer", places, slots(layers))
        self.check_lines(case, picture, tree, boxes)
        wide, high = (int(tree.attrib[it]) for it in ("width", "height"))
        inside = all(int(box["x"]) + WIDE < wide and int(box["y"]) + HIGH < high for box in boxes.values())
        self.check_true(f"{case}, all boxes are inside", inside)

    def check_lines(self, case: str, picture: Picture, tree: Element, boxes: Mapping[str, dict[str, str]]) -> None:
        """Each edge is an arrow from the right side of its first box to the left side of its last, and none leads to the left."""
        ways = [[int(it) for it in re.findall(r"\d+", path.attrib["d"])] for path in tree.iter(f"{SVG}path")][1:]
        ends = [(boxes[first], boxes[last]) for first, last in picture.edges]
        wanted = [[int(a["x"]) + WIDE, int(a["y"]) + HIGH // 2, int(b["x"]), int(b["y"]) + HIGH // 2] for a, b in ends]
        self.check(f"{case}, the ends of the arrows", [way[:2] + way[-2:] for way in ways], wanted)
        self.check(f"{case}, an arrow that leads to the left", [it for it in ways if it[0] >= it[-2]], [])
        arrows = [it.attrib.get("marker-end") for it in tree.findall(f"{SVG}g") if it.findall(f"{SVG}path")]
        self.check(f"{case}, the heads of the arrows", arrows, ["url(#arrow)"] if ways else [])
        self.check_amounts(case, picture, tree, ways)

    def check_amounts(self, case: str, picture: Picture, tree: Element, ways: Sequence[Sequence[int]]) -> None:
        """Each amount stands above the level part of its arrow, in a row of its own in the gap in front of a layer; in a large picture there
        is none."""
        texts = [it for group in tree.findall(f"{SVG}g") if not group.findall(f"{SVG}title") for it in group.findall(f"{SVG}text")]
        if len(picture.nodes) >= MANY_NODES:
            self.check(f"{case}, amounts of a large picture", (texts, {len(way) for way in ways}), ([], {4}))
            return
        self.check(f"{case}, the amounts", [it.text for it in texts], [picture.label(it) for it in picture.edges])
        places = [(int(it.attrib["x"]), int(it.attrib["y"])) for it in texts]
        levels = [((way[2] + way[4]) // 2, way[3] - 4) for way in ways]
        self.check(f"{case}, where the amounts stand", places, levels)
        self.check(f"{case}, where arrows are level", {(way[5] - way[2], way[5] - way[4]) for way in ways} - {(GAP - 30, 30)}, set())
        self.check(f"{case}, two amounts in one place", len(set(places)), len(places))
        self.check(f"{case}, amounts between two rows", {(y - places[0][1]) % ROW for _, y in places} - {0}, set())
        self.check_true(f"{case}, the longest amount fits into the gap", LONGEST < GAP)

    def check_box(self, case: str, node: Item, title: str, texts: Sequence[str | None]) -> None:
        """A box tells what its node is."""
        if "batch" in node:
            self.check(case, (title, texts), (name_of(node), [node["batch"], "batch"]))
            return
        stock, mark = f"{node['def']} {node['stock']} {node['unit']}", mark_of(node)
        marks = [mark] if mark else []
        self.check(case, (title, texts), (", ".join([name_of(node), stock, *marks]), [node["lot"], stock, *marks]))

    def check_refused(self, case: str, told: str | bytes, why: str, *formats: str) -> None:
        """The answers are refused, in these formats."""
        for word in formats or BOTH:
            self.check(f"{case}, {word}", self.run_on(told, word), (1, b"", f"{why}\n".encode()))


class SmallPictures(PictureTestCase):
    """Pictures that are looked at whole."""

    def test_answers_beside_the_program_are_the_worked_example(self) -> None:
        folder = TOP / "crates" / CRATES["genealogy_picture"]
        self.check("the answers", (folder / "stdin").read_text(), BACK + FORWARD)
        self.check("the picture", (folder / "stdout").read_text(), Picture(BACK + FORWARD).dot())

    def test_worked_example_is_drawn_alike_in_every_form(self) -> None:
        one = self.check_drawn("a worked example", BACK, FORWARD)
        for case, told in [
            ("in the other order", FORWARD + BACK),
            ("told twice", BACK + FORWARD + BACK),
            ("with CR and empty lines", f"\n{BACK}\r\n\r\n{FORWARD}".replace("}\n", "}\r\n")),
            ("with no LF at the end", (BACK + FORWARD).rstrip("\n")),
            ("its members in another order", turned(BACK) + turned(FORWARD)),
        ]:
            self.check(f"the same {case}", self.run_on(told).output, one)

    def test_small_answers_are_drawn(self) -> None:
        self.check_drawn("nothing", "")
        self.check_drawn("an answer without nodes", answer([], []))
        self.check_drawn("one lot", answer([FLOUR], []))
        self.check_drawn("one batch", answer([MIX], []))
        same = [lot("X"), batch("X")]
        self.check_drawn("a lot and a batch of one id", answer(same, [edge(same[0], same[1])]))
        most = 2**64 - 1
        self.check_drawn("great numbers", answer([lot("X", stock=most), lot("Y")], [edge(lot("X"), lot("Y"), most)]))
        ways = [lot(f"L-{it}") for it in range(5)]
        edges = [*map(edge, ways, ways[1:]), edge(ways[0], ways[4]), edge(ways[1], ways[3])]
        self.check_drawn("a short way beside a long one", answer(ways, edges))

    def test_node_that_is_asked_for_is_named_and_marked(self) -> None:
        self.check_drawn("a lot", BACK, FORWARD, asked="lot D-1")
        self.check_drawn("a batch", BACK, FORWARD, asked="batch B-2")
        both = self.run_on(BACK, "--batch", "B-1", "--lot", "F-1").output
        self.check("a lot goes before a batch", both, self.run_on(BACK, "--lot", "F-1").output)
        for words in (("--lot", "B-1"), ("--batch", "F-1"), ("--lot", "f-1"), ("--lot", "")):
            why = b"the lot or batch that was asked for isn't there\n"
            self.check(f"{words}, in SVG", self.run_on(BACK, *words), (1, b"", why))
            self.check(f"{words}, in DOT", self.run_on(BACK, "--dot", *words), (0, Picture(BACK).dot().encode(), b""))

    def test_many_edges_to_one_node_have_rows_of_their_own(self) -> None:
        lots, others = [lot(f"L-{it:02}") for it in range(70)], [batch("B-1"), batch("B-2"), lot("Z")]
        edges = [edge(it, others[k % 2], 10**15 - k) for k, it in enumerate(lots)]
        self.check_drawn("70 lots of two batches", answer([*lots, *others], [*edges, *(edge(it, others[2]) for it in others[:2])]))

    def test_amounts_are_shown_of_80_nodes_and_left_out_of_81(self) -> None:
        for count in (80, 81):
            lots = [lot(f"L-{it:02}") for it in range(count)]
            self.check_drawn(f"{count} nodes", answer(lots, [edge(*it) for it in zip(lots, lots[1:])]))

    def test_300_nodes_by_chance_are_drawn(self) -> None:
        chance = self.chance("300 nodes")
        nodes = [lot(f"L-{it:03}", stock=it, held=it % 7 == 0, recalled=it % 11 == 0) if it % 3 else batch(f"B-{it:03}") for it in range(300)]
        pairs = {tuple(sorted(chance.sample(range(300), 2))) for _ in range(700)}
        edges = [edge(nodes[a], nodes[b], chance.randrange(10**15)) for a, b in pairs if "lot" in nodes[a] or "lot" in nodes[b]]
        chance.shuffle(nodes)
        self.check_drawn("300 nodes", answer(nodes, edges))


class LargePictures(PictureTestCase):
    """Pictures of 10^5 edges, each drawn soon."""

    LOTS = [lot(f"L-{it}") for it in range(MANY + 1)]

    def check_soon(self, case: str, nodes: Sequence[Item], edges: Sequence[Item]) -> None:
        """Draws answers in both formats, and soon."""
        text = answer(nodes, edges)
        picture = Picture(text)
        ran = self.run_soon(f"{case}, in SVG", text)
        if not ran.status:
            lines = sum(1 for _ in xml.etree.ElementTree.fromstring(ran.output).iter(f"{SVG}path")) - 1
            self.check(f"{case}, its lines", lines, len(picture.edges))
        ran = self.run_soon(f"{case}, in DOT", text, "--dot")
        self.check_true(f"{case}, its text in DOT", ran.output == picture.dot().encode())

    def run_soon(self, case: str, told: str, *words: str) -> Ended:
        began = time.monotonic()
        ran = self.run_on(told, *words)
        self.check(case, (ran.status, ran.errors, time.monotonic() - began < SOON), (0, b"", True))
        return ran

    def test_way_is_drawn_soon(self) -> None:
        shuffled = self.chance("a way").sample(self.LOTS, len(self.LOTS))
        self.check_soon("a way", shuffled, [edge(*it) for it in zip(self.LOTS, self.LOTS[1:])])

    def test_way_against_the_order_of_the_names_is_drawn_soon(self) -> None:
        self.check_soon("a way against the order", self.LOTS, [edge(*it) for it in zip(self.LOTS[1:], self.LOTS)])

    def test_edges_to_one_batch_are_drawn_soon(self) -> None:
        hub = batch("HUB")
        self.check_soon("to one batch", [*self.LOTS[:MANY], hub], [edge(it, hub) for it in self.LOTS[:MANY]])

    def test_edges_from_one_lot_are_drawn_soon(self) -> None:
        self.check_soon("from one lot", self.LOTS, [edge(self.LOTS[-1], it) for it in self.LOTS[:-1]])

    def test_edges_to_one_lot_that_comes_first_are_drawn_soon(self) -> None:
        self.check_soon("to one lot", self.LOTS, [edge(it, self.LOTS[0]) for it in self.LOTS[1:]])

    def test_edges_between_450_lots_are_drawn_soon(self) -> None:
        wide = [lot(f"W-{it}") for it in range(450)]
        self.check_soon("450 lots", wide, [edge(wide[a], wide[b]) for a in range(450) for b in range(a + 1, 450)])


class Refusals(PictureTestCase):
    """Inputs that make no picture."""

    CIRCLE = "the edges lead in a circle"
    NODE = "neither a lot with def, held, lot, recalled, stock and unit nor a batch"
    EDGE = "not an amount with from and to, each a lot or a batch"
    ANSWER = "not an answer with edges and nodes, and these alone"

    def test_circle_is_refused_in_svg_and_drawn_in_dot(self) -> None:
        circle = [lot("A"), batch("B"), lot("C")]
        ways = [edge(circle[0], circle[1]), edge(circle[1], circle[2]), edge(circle[2], circle[0])]
        round_trip = answer(circle, ways)
        long = [lot(f"L-{it}") for it in range(30_000)]
        tail = [edge(*it) for it in zip(long, long[1:])]
        for case, told in [
            ("a circle", round_trip),
            ("a circle in two answers", answer(circle, ways[:1]) + answer(circle, ways[1:])),
            ("a node that leads to itself", answer([FLOUR], [edge(FLOUR, FLOUR)])),
            ("a long circle", answer(long, [*tail, edge(long[-1], long[0])])),
            ("a circle behind a long way", answer(long, [*tail, edge(long[-1], long[-2])])),
        ]:
            self.check_refused(case, told, self.CIRCLE, "--svg")
        self.check("a circle, in DOT", self.run_on(round_trip, "--dot").output, Picture(round_trip).dot().encode())

    def test_answers_that_contradict_are_refused(self) -> None:
        for case, told, why in [
            ("a lot told in two ways", BACK + answer([{**FLOUR, "stock": 1}], []), "lot F-1 is told twice, and not alike"),
            ("an edge with two amounts", BACK + answer([FLOUR, MIX], [edge(FLOUR, MIX, 401)]),
             "the edge from lot F-1 to batch B-1 is told twice, with two amounts"),
            ("a lost end", answer([FLOUR], [edge(FLOUR, MIX)]), "an edge begins or ends at batch B-1, which is none of the nodes"),
            ("a lost beginning", answer([MIX], [edge(FLOUR, MIX)]), "an edge begins or ends at lot F-1, which is none of the nodes"),
            ("a batch to a batch", answer([MIX, BAKE], [edge(MIX, BAKE)]), "an edge leads from batch B-1 to batch B-2"),
        ]:
            self.check_refused(case, told, why)

    def test_line_that_is_no_answer_is_refused(self) -> None:
        self.check_refused("no JSON", BACK + "{", "line 2: not a JSON text")
        self.check_refused("no UTF-8", BACK.encode() + b"\n\xff\n", "line 3: not a JSON text")
        self.check_refused("a refusal", '{"name":"UnknownLot","refused":15}\n', "line 1: the desk refused the question")
        for case, line in [
            ("a list", "[]"),
            ("an object with nothing", "{}"),
            ("a trace", '{"nodes":[]}'),
            ("a member more", '{"edges":[],"nodes":[],"lot":"F-1"}'),
            ("nodes that are no list", '{"edges":[],"nodes":{}}'),
            ("another name", '{"edges":[],"node":[]}'),
        ]:
            self.check_refused(case, BACK + line, f"line 2: {self.ANSWER}")

    def test_wrong_member_of_a_node_is_refused(self) -> None:
        values = [
            ("lot", "f-1"), ("def", 7), ("unit", "k g"), ("stock", -1), ("stock", 1.0), ("stock", 2**64), ("held", 1), ("recalled", None),
            ("colour", "red"),
        ]
        wrong = [{**FLOUR, it: value} for it, value in values] + [without(FLOUR, it) for it in FLOUR]
        for node in [*wrong, {"batch": "b"}, {"batch": "B-1", "lot": "F-1"}, {"batch": "B-1", "more": 1}, {}, 7, None]:
            self.check_refused(f"the node {node}", answer([MIX, node], []), f"line 1: nodes 2: {self.NODE}")

    def test_wrong_member_of_an_edge_is_refused(self) -> None:
        plain = edge(FLOUR, MIX)
        values = [("amount", "1"), ("amount", -1), ("from", "F-1"), ("to", {}), ("to", {"batch": "B-1", "lot": "F-1"}), ("unit", "kg")]
        wrong = [{**plain, it: value} for it, value in values] + [without(plain, it) for it in plain]
        for it in [*wrong, [], "x"]:
            self.check_refused(f"the edge {it}", answer([FLOUR, MIX], [plain, it]), f"line 1: edges 2: {self.EDGE}")


def without(node: Item, member: str) -> Item:
    return {name: value for name, value in node.items() if name != member}


class Words(PictureTestCase):
    """Words, files and streams."""

    def test_named_file_is_drawn_in_the_format_that_is_asked_for(self) -> None:
        (self.folder / "answers").write_text(BACK + FORWARD)
        for words in ((), ("--svg",), ("--dot",), ("--dot", "--svg")):
            told, named = self.run_on(BACK + FORWARD, *words), self.program.run(*words, "answers", stdin=subprocess.DEVNULL)
            self.check(f"a file that is named, {words}", named, (0, told.output, b""))
            self.check(f"the format, {words}", told.output[:7] == b"digraph", "--dot" in words)

    def test_file_that_cannot_be_read_is_a_fault(self) -> None:
        for case, name, fault in [("a file that isn't there", "answers-no", b"fault: open\n"), ("a folder", ".", b"fault: read\n")]:
            self.check(case, self.program.run(name, stdin=subprocess.DEVNULL), (3, b"", fault))

    def test_full_disk_is_a_fault(self) -> None:
        with open("/dev/full", "wb") as full:
            ended = self.program.run(told=BACK.encode(), stdout=full)
        self.check("a full disk", (ended.status, ended.errors), (3, b"fault: write\n"))

    def test_wrong_words_are_refused_and_help_and_version_told(self) -> None:
        for words in (("--png",), ("one", "two")):
            status, output, errors = self.program.run(*words)
            self.check(words, (status, output, errors[:7]), (2, b"", b"error: "))
        ended = self.program.run("--version")
        self.check("the version", (ended.status, bool(re.fullmatch(rb"genealogy_picture \d+\.\d+\.\d+\n", ended.output))), (0, True))
        status, output, errors = self.program.run("--help")
        self.check("the help", (status, all(it in output for it in (b"--dot", b"--svg", b"[FILE]", b"300 nodes")), errors), (0, True, b""))
