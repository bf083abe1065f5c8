"""Which ids begin with another, computed here by itself: of each kind of thing the first twenty of those that are there."""
from __future__ import annotations

from collections.abc import Iterable

from tests.support.commands import GOODS, add_definition, add_recipe, approve, compact, lift, phase_done, recall, receive, release, say, settle, withdraw
from tests.support.sessions import Session

# No more ids of a kind are found.
MOST = 20

# Each kind, as an answer has it.
KINDS = ("batches", "classes", "definitions", "lots", "orders", "recalls", "recipes")

# Ids in an order of which a beginning is told from what is next to it: A before A-, and this before digits, before letters.
TAILS = ["", "-", "-0", "-1", "-1-", "-10", "-1A", "-2", "0", "1", "1A", "9", "A", "A-", "AA", "Z", "Z9", "ZZ", "-" * 23, "Z" * 23, "0" * 22]

# So many versions has one recipe: more than a page of rows.
VERSIONS = 130


class Known:
    """A session, and the ids that it made."""

    def __init__(self, name: str) -> None:
        self.session = Session(name).accepted(*GOODS, add_recipe(1), approve())
        self.ids: dict[str, set[str]] = {kind: set() for kind in KINDS}
        self.note("classes", "RAW")
        self.note("definitions", "SUGAR")
        self.note("recipes", "R")

    def note(self, kind: str, name: str) -> None:
        self.ids[kind].add(name)

    def make(self, kind: str, name: str, *bodies: str) -> None:
        """Makes a thing of a kind by commands."""
        self.session.accepted(*bodies)
        self.note(kind, name)

    def order(self, name: str) -> None:
        row = compact({"due": "2027-03-01", "order": name, "priority": 5, "recipe": "R", "size": 1, "version": 1})
        self.make("orders", name, f'"do":"import_orders","orders":[{row}]')

    def batch(self, order: str, name: str) -> None:
        self.order(order)
        self.make("batches", name, release(order, name))

    def add_class(self, name: str) -> None:
        self.make("classes", name, f'"do":"add_class","class":"{name}","name":""')

    def found(self, beginning: str) -> str:
        """Returns what is answered of a beginning."""
        return compact({kind: sorted(it for it in ids if it.startswith(beginning))[:MOST] for kind, ids in self.ids.items()})

    def ask(self, beginnings: Iterable[str]) -> None:
        for it in beginnings:
            self.session.asked(compact({"ask": "find", "id": it}), self.found(it))


def beginnings() -> list[str]:
    """Returns the ids of one letter and more that the ids of `every_kind` begin with, and ids next to them."""
    whole = [f"K{tail}" for tail in TAILS]
    return sorted({*whole, *(it[:size] for it in whole for size in range(1, len(it) + 1)), "J", "J-", "JZ" + "Z" * 22, "L", "A", "Z"})


def every_kind() -> Session:
    """Returns a session of things of each kind of the same ids, whose order of making is another than theirs."""
    known = Known("ids of each kind that begin with another are found")
    known.ask(["A", "K", "RAW", "RA", "SUGAR", "S", "R"])
    for tail in sorted(TAILS, key=lambda it: it[::-1]):
        name = f"K{tail}"
        known.add_class(name)
        known.make("definitions", name, add_definition(name, "RAW"))
        known.make("lots", name, receive(name, 5))
        known.make("recipes", name, add_recipe(1, name, 3), add_recipe(1, name, 1))
        known.batch(name, name)
        known.make("recalls", name, recall(name, name))
    known.ask(beginnings())
    states(known)
    known.ask(["K", "K-", "K-1"])
    return known.session


def states(known: Known) -> None:
    """Leads some of the things to each other state: ids are found whatever it is."""
    body = known.session
    body.accepted(lift("K-1"), lift("K"), approve("K-1", 1), approve("K-1", 3), withdraw("K-1", 1))
    for name in "K", "K-1":
        body.accepted(say("start", name), phase_done(name, 1), settle(name), f'"do":"close_batch","batch":"{name}"')
    known.order("K-11")
    body.accepted('"do":"cancel_order","order":"K-11"')


def more_than_are_found() -> Session:
    """Returns a session of more things of each kind than are found, and of a recipe with more versions than a page has rows."""
    known = Known("no more ids of a kind than twenty are found")
    for number in range(45):
        name = f"M-{number * 17 % 45:02}"
        known.add_class(name)
        known.make("definitions", name, add_definition(name, "RAW"))
        known.make("lots", name, receive(name, 5))
        known.make("recipes", name, add_recipe(1, name))
        known.batch(name, name)
        known.make("recalls", name, recall(name, name))
    for version in range(2, VERSIONS):
        known.session.accepted(add_recipe(1, "M-03", version))
    known.ask(["M", "M-", "M-0", "M-1", "M-2", "M-3", "M-4", "M-03", "M-19", "M-20", "M-44", "M-45", "L", "N"])
    return known.session


def every() -> list[Session]:
    """Returns the sessions of ids that are found."""
    return [every_kind(), more_than_are_found()]
