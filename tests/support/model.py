"""What a desk has to answer, computed here by itself: where each word leads a batch, which recipes are well formed, scaled amounts, and
of genealogies that are made by chance the traces, the edges with their amounts, where goods stand and what recalls reach.

What is made by chance is made of `chance`, which gives the random numbers of a name.
"""
from __future__ import annotations

import fractions
import itertools
import json
import math
import random
from collections.abc import Callable, Collection, Iterable, Iterator, Mapping, Sequence

from tests.support import Json
from tests.support.commands import (
    GOODS, MOST, add_recipe, approve, compact, consume, hold, import_orders, merge, phase_done, produce, recall, receive, release, say, scrap, settle,
    split,
)
from tests.support.sessions import Session
from tests.support.sqlite import Node, reached

# What gives the random numbers of a name.
Chance = Callable[[str], random.Random]

# The moves of the state table: where each word leads a batch from each state.
MOVES = {
    "idle": {"start": "running"},
    "running": {"done": "complete", "pause": "pausing", "hold": "holding", "stop": "stopping", "abort": "aborting"},
    "complete": {"reset": "idle"},
    "pausing": {"done": "paused", "hold": "holding", "stop": "stopping", "abort": "aborting"},
    "paused": {"resume": "running", "hold": "holding", "stop": "stopping", "abort": "aborting"},
    "holding": {"done": "held", "stop": "stopping", "abort": "aborting"},
    "held": {"restart": "restarting", "stop": "stopping", "abort": "aborting"},
    "restarting": {"done": "running", "hold": "holding", "stop": "stopping", "abort": "aborting"},
    "stopping": {"done": "stopped", "abort": "aborting"},
    "stopped": {"reset": "idle", "abort": "aborting"},
    "aborting": {"done": "aborted"},
    "aborted": {"reset": "idle"},
}
STATE_WORDS = ["start", "stop", "hold", "restart", "abort", "reset", "pause", "resume", "done"]

# The kinds of nodes, as the desk's tables number them.
LOT, BATCH = 1, 2

# So many recipes, orders and sizes are made by chance, by which amounts are scaled.
SCALED = 60

# So many genealogies are made by chance, each of so many batches and bookings.
GENEALOGIES, BATCHES, BOOKINGS = 12, 3, 40


# ---- the state table


def plan(name: str, orders: int, *recipes: str) -> Session:
    """Returns a session of materials, recipes that are approved, and so many orders of the recipe R."""
    return Session(name).accepted(*GOODS, *recipes).accepted(approve(), import_orders(orders))


def told(word: str, batch: str) -> str:
    """Returns the command that says a word of the state table to a batch."""
    return settle(batch) if word == "done" else say(word, batch)


def ways() -> dict[str, list[str]]:
    """Returns for each state the words that lead to it from idle, as few as may be."""
    found: dict[str, list[str]] = {"idle": []}
    ahead = ["idle"]
    for at in ahead:
        for word, to in MOVES[at].items():
            if to not in found:
                found[to] = [*found[at], word]
                ahead.append(to)
    return found


def lead(session: Session, batch: str, words: Iterable[str]) -> None:
    """Leads a released batch by these words; its first phase is done once it has started."""
    for it in words:
        session.accepted(told(it, batch), *([phase_done(batch, 1)] if it == "start" else []))


def batch_told(number: int, state: str, attempt: int, following: int, phases: int = 1, closed: bool = False) -> str:
    """Returns what is answered about a batch that has booked nothing."""
    rest = {"consumed": [], "order": f"O-{number}", "produced": [], "recipe": "R", "size": 1, "version": 1}
    return compact({**rest, "attempt": attempt, "batch": f"B-{number}", "closed": closed, "next": following, "phases": phases, "state": state})


def ask_batch(
    session: Session, number: int, state: str, attempt: int, following: int, phases: int = 1, closed: bool = False,
) -> Session:
    answer = batch_told(number, state, attempt, following, phases, closed)
    return session.asked(f'{{"ask":"batch","batch":"B-{number}"}}', answer)


def states() -> Session:
    """Returns a session in which a batch of its own hears each word in each state, its one phase done once it has started."""
    pairs = list(itertools.product(MOVES, STATE_WORDS))
    session, way = plan("each word in each state", len(pairs), add_recipe(1)), ways()
    for number, (state, word) in enumerate(pairs):
        batch = f"B-{number}"
        session.accepted(release(f"O-{number}", batch))
        lead(session, batch, way[state])
        to = MOVES[state].get(word)
        session = session.accepted(told(word, batch)) if to else session.refused("BadMove", 20, told(word, batch))
        again = word == "reset" and to is not None
        ask_batch(session, number, to or state, 2 if again else 1, 1 if again or state == "idle" else 2)
    return session


def closings() -> Session:
    """Returns a session of batches that are closed, in each state in which they may be, and of what they refuse then."""
    session, way = plan("a closed batch moves no more", len(MOVES), add_recipe(2)), ways()
    for number, state in enumerate(MOVES):
        batch = f"B-{number}"
        session.accepted(release(f"O-{number}", batch))
        for it in way[state]:
            lead(session, batch, [it])
            if it == "start" and state == "complete":
                session.accepted(phase_done(batch, 2))
        close = f'"do":"close_batch","batch":"{batch}"'
        if state in ("complete", "stopped", "aborted"):
            session.accepted(close).refused("BatchClosed", 23, close)
            refuse_when_closed(session, number, state)
        else:
            session.refused("NotFinished", 30, close)
    return session


def refuse_when_closed(session: Session, number: int, state: str) -> None:
    """Says each word and does each phase of a closed batch of two phases: what its state allows is refused as closed, the rest as else."""
    batch, closed, following = f"B-{number}", ("BatchClosed", 23), 3 if state == "complete" else 2
    for word in STATE_WORDS:
        session.refused(*(closed if word in MOVES[state] else ("BadMove", 20)), told(word, batch))
    for phase in (1, 2, 3):
        session.refused(*(closed if phase == following < 3 else ("NotNextPhase", 22)), phase_done(batch, phase))
    ask_batch(session, number, state, 1, following, 2, True)


def phases() -> Session:
    """Returns a session of a batch of 127 phases, the most that a recipe has."""
    session = plan("a batch has 127 phases", 1, add_recipe(127)).accepted(release("O-0", "B-0"), say("start", "B-0"))
    for number in range(1, 128):
        session.refused("PhasesLeft", 21, settle("B-0")).accepted(phase_done("B-0", number))
    return ask_batch(session.accepted(settle("B-0")), 0, "complete", 1, 128, 127)


# ---- recipes


def line(kind: str, amount: int | None = None, name: str | None = None) -> dict[str, Json]:
    """Returns a line of a recipe, by its kind."""
    if kind == "phase":
        return {"kind": kind, "oper": "BLEND", "phase": "STIR", "unit": "MIX"}
    return {"kind": "par", "name": name, "value": "80 C"} if kind == "par" else {"def": name, "kind": kind, "qty": amount}


def recipe_of(
    name: str, base: int, least: int, greatest: int, lines: Sequence[Mapping[str, Json]], product: str = "DOUGH",
) -> str:
    """Returns a recipe of these lines."""
    head = {"do": "add_recipe", "recipe": name, "version": 1, "product": product, "title": ""}
    return json.dumps({**head, "base": base, "min": least, "max": greatest, "lines": lines}, separators=(",", ":"))[1:-1]


def materials(name: str) -> Session:
    """Returns a session of the materials of a dough."""
    session = Session(name).accepted('"do":"add_class","class":"RAW","name":""')
    return session.accepted(*[f'"do":"add_definition","def":"{it}","class":"RAW","name":"","unit":"kg"' for it in ("FLOUR", "DOUGH", "WASTE")])


def forms() -> Session:
    """Returns a session of recipes that are well formed, and of recipes that aren't."""
    session, number = materials("forms of recipes"), itertools.count()
    flour, dough, waste = line("in", 100, "FLOUR"), line("out", 500, "DOUGH"), line("out", 5, "WASTE")
    heat, stir = line("par", name="TEMP"), line("phase")
    small = [line("in", 2, "FLOUR"), line("out", 2, "DOUGH"), stir]
    cases: list[tuple[int, int, int, list[dict[str, Json]], bool]] = [
        (500, 100, 900, small, True),
        (500, 900, 900, small, True),
        (500, 901, 900, small, False),
        (5, 100, 900, small, True),
        (2, 1, MOST, small, True),
        (1, 1, MOST, small, False),
        (500, 100, 900, [flour, dough, heat, stir], True),
        (500, 100, 900, [stir, stir, dough, waste], True),
        (500, 100, 900, [line("in", 5, "DOUGH"), dough, line("par", name="DOUGH"), stir], True),
        (500, 100, 900, [flour, dough, heat, heat], False),
        (500, 100, 900, [flour, waste, heat, stir], False),
        (500, 100, 900, [flour, flour, heat, stir], False),
        (500, 100, 900, [flour, line("in", 3, "FLOUR"), dough, stir], False),
        (500, 100, 900, [dough, waste, line("out", 7, "DOUGH"), stir], False),
        (500, 100, 900, [heat, dough, heat, stir], False),
        (500, 100, 900, [flour, dough, heat, waste], False),
        (500, 100, 900, [], False),
    ]
    for base, least, greatest, lines, is_good in cases:
        body = recipe_of(f"R-{next(number)}", base, least, greatest, lines)
        session = session.accepted(body) if is_good else session.refused("BadForm", 1, body)
    return session


def scaled(amount: int, size: int, base: int) -> int:
    """Returns an amount of a recipe of a base, scaled to a size and rounded to the nearest whole number, a half up."""
    return math.floor(fractions.Fraction(amount * size, base) + fractions.Fraction(1, 2))


def scalings(chance: Chance) -> tuple[Session, dict[str, list[int]]]:
    """Returns a session of recipes by chance, each with an order of its greatest size, and the amounts of the batches that are released."""
    session, numbers = materials("amounts are scaled"), chance("recipes")
    amounts: dict[str, list[int]] = {}
    some: list[tuple[int, ...]] = [
        (100, 500, 300), (1, 250, 500), (1, 100, 500),
        (MOST, MOST, MOST), (MOST, 900, 900), (1, MOST, 1), (2, MOST, 1), (MOST, 1, 2),
    ]
    some += [tuple(numbers.randint(1, 10 ** numbers.randint(1, 15)) for _ in range(3)) for _ in range(SCALED)]
    for number, (amount, size, base) in enumerate(some):
        taken, made = scaled(amount, size, base), scaled(base, size, base)
        lines = [line("in", amount, "FLOUR"), line("out", base, "DOUGH"), line("phase")]
        body = recipe_of(f"R-{number}", base, size, size, lines)
        if max(taken, made) > MOST:
            session.refused("BadForm", 1, body)
            continue
        order = {"due": "2027-03-01", "order": f"O-{number}", "priority": 5, "recipe": f"R-{number}", "size": size, "version": 1}
        session.accepted(body, approve(f"R-{number}"), f'"do":"import_orders","orders":[{compact(order)}]')
        if min(taken, made):
            session.accepted(release(f"O-{number}", f"B-{number}"))
            amounts[f"B-{number}"] = [taken, made]
        else:
            session.refused("ScaledToNothing", 19, release(f"O-{number}", f"B-{number}"))
    return session, amounts


# ---- genealogies


class Genealogy:
    """Bookings by chance, what is left of each lot, what leads to what, and what was booked along it."""

    def __init__(self, name: str, numbers: random.Random) -> None:
        self.chance = numbers
        self.stock: dict[str, int] = {}
        self.births: dict[str, int] = {}
        self.flows: dict[str, dict[str, dict[str, int]]] = {}
        self.edges: dict[Node, list[Node]] = {}
        self.amounts: dict[tuple[Node, Node], int] = {}
        self.nodes = [(BATCH, f"B-{it}") for it in range(BATCHES)]
        lines = [line("in", 1, "SUGAR"), line("out", 1, "SUGAR"), line("phase")]
        self.session = plan(f"{name} by chance", BATCHES, recipe_of("R", 1, 1, 900, lines, "SUGAR"))
        for it in range(BATCHES):
            self.session.accepted(release(f"O-{it}", f"B-{it}"), say("start", f"B-{it}"))

    def enter(self, how: str, amount: int, *sources: Node) -> str:
        """Adds a lot that came of these nodes, of each by as much, and returns its id: the first ones have the ids of the batches."""
        lot = f"B-{len(self.stock)}" if len(self.stock) < BATCHES else f"L-{len(self.stock)}"
        self.stock[lot] = amount
        entered, left = dict.fromkeys(("merged", "produced", "received", "split"), 0), dict.fromkeys(("consumed", "merged", "scrapped", "split"), 0)
        self.flows[lot] = {"entered": {**entered, how: amount}, "left": left}
        self.births[lot] = self.session.count() + 1
        self.nodes.append((LOT, lot))
        for it in sources:
            self.lead(it, (LOT, lot), amount // len(sources))
        return lot

    def lead(self, start: Node, end: Node, amount: int) -> None:
        """Notes that an amount was booked from one node to another."""
        self.edges.setdefault(start, []).append(end)
        self.amounts[start, end] = self.amounts.get((start, end), 0) + amount

    def leave(self, how: str, amount: int, lot: str) -> None:
        """Takes an amount from a lot."""
        self.stock[lot] -= amount
        self.flows[lot]["left"][how] += amount

    def book(self) -> None:
        """Books something, or has it refused where a batch would take what came of it."""
        known, batch = [it for it, stock in self.stock.items() if stock >= 3], self.chance.choice(self.nodes[:BATCHES])
        way = self.chance.choice(["receive", "split", "merge", "consume", "produce", "scrap"]) if known else "receive"
        amount = self.chance.randint(1, 3)
        if way == "receive":
            self.session.accepted(receive(self.enter("received", 90), 90))
        elif way == "split":
            lot = self.chance.choice(known)
            self.leave("split", amount, lot)
            self.session.accepted(split(lot, amount, self.enter("split", amount, (LOT, lot))))
        elif way == "scrap":
            lot = self.chance.choice(known)
            self.leave("scrapped", amount, lot)
            self.session.accepted(scrap(lot, amount))
        elif way == "merge":
            self.merge(self.chance.sample(known, min(len(known), self.chance.randint(1, 3))), amount)
        elif way == "produce":
            self.session.accepted(produce(batch[1], self.enter("produced", amount, batch), "SUGAR", amount))
        else:
            self.consume(batch, self.chance.choice(known), amount)

    def merge(self, lots: Sequence[str], amount: int) -> None:
        for it in lots:
            self.leave("merged", amount, it)
        new = self.enter("merged", amount * len(lots), *((LOT, it) for it in lots))
        self.session.accepted(merge([(it, 0, amount) for it in lots], new))

    def consume(self, batch: Node, lot: str, amount: int) -> None:
        body = consume(batch[1], lot, amount)
        if (LOT, lot) in reached(self.edges, batch):
            self.session.refused("OwnProduct", 26, body)
        else:
            self.session.accepted(body)
            self.leave("consumed", amount, lot)
            self.lead((LOT, lot), batch, amount)

    def ask(self) -> Session:
        """Asks where each node came from and went, by which edges, where its goods stand, and what a recall of some lots reaches."""
        turned: dict[Node, list[Node]] = {}
        for start, ends in self.edges.items():
            for end in ends:
                turned.setdefault(end, []).append(start)
        for kind, name in self.nodes:
            asked = {"lot" if kind == LOT else "batch": name}
            for word, edges in (("forward", self.edges), ("back", turned)):
                found = reached(edges, (kind, name))
                self.session.asked(compact({"ask": word, **asked}), compact({"nodes": nodes_told(found - {(kind, name)})}))
                self.session.asked(compact({"ask": f"{word}_edges", **asked}), compact(self.genealogy(found)))
            found = reached(self.edges, (kind, name))
            self.session.asked(compact({"ask": "stands", **asked}), compact({"lots": self.standing(found)}))
            self.session.asked(compact({"ask": "balance", **asked}), compact({"lots": self.balances(found)}))
        self.ask_stock(self.recall(self.chance.sample(sorted(self.stock), 4)), self.chance.sample(sorted(self.stock), 3))
        return self.session

    def recall(self, lots: Iterable[str]) -> set[Node]:
        """Recalls lots, asks what each recall reaches, and returns what all reach."""
        blocked: set[Node] = set()
        for number, lot in enumerate(lots):
            found = reached(self.edges, (LOT, lot))
            blocked |= found
            name, nodes = f"RC-{number}", nodes_told(found)
            self.session.accepted(recall(lot, name))
            self.session.asked(f'{{"ask":"recall","recall":"{name}"}}', compact({"lot": lot, "nodes": nodes, "recall": name, "state": "open"}))
        return blocked

    def ask_stock(self, blocked: Collection[Node], held: Collection[str]) -> None:
        """Holds lots, asks for all lots with stock by the bookings that made them, behind each of them, and for the sums of what they have."""
        self.session.accepted(*map(hold, held))
        lots = sorted((seq, lot) for lot, seq in self.births.items() if self.stock[lot])
        made = {"at": 100, "by": "", "note": ""}
        rows: list[dict[str, Json]] = [{
            **made, "held": lot in held, "lot": lot, "recalled": (LOT, lot) in blocked, "seq": seq, "stock": self.stock[lot],
            "sublots": [{"no": 0, "place": "", "stock": self.stock[lot]}],
        } for seq, lot in lots]
        for count in range(len(rows) + 1):
            above = {"above": "%d.%s" % lots[count - 1]} if count else {}
            self.session.asked(compact({"ask": "stock", "def": "SUGAR", **above}), compact({"lots": rows[count:], "more": False}))
        sums = {
            "held": sum(it["stock"] for it in rows if it["held"]),
            "recalled": sum(it["stock"] for it in rows if it["recalled"]),
            "usable": sum(it["stock"] for it in rows if not it["held"] and not it["recalled"]),
        }
        told = {**sums, "def": "SUGAR", "lots": len(rows), "name": "", "unit": "g"}
        self.session.asked('{"ask":"stocks","class":"RAW"}', compact({"more": False, "stocks": [told]}))

    def known(self, lot: str) -> dict[str, Json]:
        return {"def": "SUGAR", "held": False, "lot": lot, "stock": self.stock[lot]}

    def standing(self, nodes: Iterable[Node]) -> list[Json]:
        """Returns what is answered of those of the nodes that are lots with stock."""
        lots = [name for kind, name in sorted(nodes) if kind == LOT and self.stock[name]]
        return [{**self.known(it), "recalled": False, "sublots": [{"no": 0, "place": "", "stock": self.stock[it]}]} for it in lots]

    def balances(self, nodes: Iterable[Node]) -> list[Json]:
        """Returns what is answered of the balances of those of the nodes that are lots."""
        lots = [name for kind, name in sorted(nodes) if kind == LOT]
        sublots = {it: [{"no": 0, "place": "", "stock": self.stock[it]}] for it in lots}
        return [{**self.known(it), **self.flows[it], "recalled": False, "sublots": sublots[it], "unit": "g"} for it in lots]

    def genealogy(self, nodes: Collection[Node]) -> Json:
        """Returns what is answered of the nodes, and of the edges between them: from lots to batches, from batches to lots, from lots to lots."""
        told = [{**self.known(name), "recalled": False, "unit": "g"} if kind == LOT else {"batch": name} for kind, name in sorted(nodes)]
        between = [it for it in self.amounts if it[0] in nodes and it[1] in nodes]
        between.sort(key=lambda it: ([(LOT, BATCH), (BATCH, LOT), (LOT, LOT)].index((it[0][0], it[1][0])), it[0][1], it[1][1]))
        edges = [dict(zip(("from", "to"), (nodes_told([end])[0] for end in it)), amount=self.amounts[it]) for it in between]
        return {"edges": edges, "nodes": told}


def nodes_told(nodes: Iterable[Node]) -> list[dict[str, str]]:
    """Returns nodes as they are answered: lots before batches, each ascending."""
    return [{"lot" if kind == LOT else "batch": name} for kind, name in sorted(nodes)]


def genealogies(chance: Chance) -> Iterator[Session]:
    """Returns sessions of genealogies that are made by chance."""
    for name in (f"genealogy {it}" for it in range(GENEALOGIES)):
        genealogy = Genealogy(name, chance(name))
        for _ in range(BOOKINGS):
            genealogy.book()
        yield genealogy.ask()


def every(chance: Chance) -> list[Session]:
    """Returns all sessions whose answers are computed here."""
    return [states(), closings(), phases(), forms(), scalings(chance)[0], *genealogies(chance)]
