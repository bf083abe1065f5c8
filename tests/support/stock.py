"""What there is of definitions, computed here by itself: lots by the bookings that made them, what is left of each, and the sums of it."""
from __future__ import annotations

import dataclasses
from collections.abc import Iterable, Sequence
from typing import Optional

from tests.support import Json
from tests.support.commands import GOODS, add_definition, compact, divide, hold, lift, merge, recall, receive, scrap, split
from tests.support.sessions import Session

Item = dict[str, Json]

# A place in a list of lots by the bookings that made them, and one in a list of definitions; none is the front.
Birth = Optional[tuple[int, str]]
Place = Optional[str]

# How many bookings make lots in the session of many, and how many definitions the session of a class has beside the first.
MADE, DEFINITIONS = 260, 201

# The greatest number of a place.
LAST = 10**16 - 1


@dataclasses.dataclass
class Lot:
    """A lot: the number and the note of the booking that made it, what it was made of, and what is in its sublots, by their numbers."""

    definition: str
    seq: int
    note: str
    sources: Sequence[str]
    sublots: list[int]
    is_held: bool = False


class Stock:
    """A session of lots, and what is known of them."""

    def __init__(self, name: str) -> None:
        self.session = Session(name).accepted(*GOODS)
        self.lots: dict[str, Lot] = {}
        self.definitions: dict[str, dict[str, str]] = {"RAW": {"SUGAR": ""}}
        self.recalls: dict[str, str] = {}

    def define(self, definition: str, group: str = "RAW") -> None:
        self.session.accepted(add_definition(definition, group))
        self.definitions[group][definition] = f"the {definition}"

    def make(self, body: str, lot: str, made: Lot) -> None:
        """Books what makes a lot."""
        self.session.accepted(body + (f',"note":"{made.note}"' if made.note else ""))
        made.seq = self.session.count()
        self.lots[lot] = made

    def receive(self, lot: str, amount: int, definition: str = "SUGAR", note: str = "") -> None:
        self.make(receive(lot, amount, definition), lot, Lot(definition, 0, note, [], [amount]))

    def split(self, lot: str, amount: int, new: str) -> None:
        self.lots[lot].sublots[0] -= amount
        self.make(split(lot, amount, new), new, Lot(self.lots[lot].definition, 0, "", [lot], [amount]))

    def merge(self, parts: Sequence[tuple[str, int, int]], new: str) -> None:
        for lot, sub, amount in parts:
            self.lots[lot].sublots[sub] -= amount
        sources = [it for it, _, _ in parts]
        self.make(merge(parts, new), new, Lot(self.lots[sources[0]].definition, 0, "", sources, [sum(it for *_, it in parts)]))

    def scrap(self, lot: str, amount: int) -> None:
        self.session.accepted(scrap(lot, amount))
        self.lots[lot].sublots[0] -= amount

    def divide(self, lot: str, amount: int) -> None:
        self.session.accepted(divide(lot, amount))
        self.lots[lot].sublots[0] -= amount
        self.lots[lot].sublots.append(amount)

    def hold(self, lot: str) -> None:
        self.session.accepted(hold(lot))
        self.lots[lot].is_held = True

    def unhold(self, lot: str) -> None:
        self.session.accepted(f'"do":"unhold","lot":"{lot}","hold":"H-1"')
        self.lots[lot].is_held = False

    def recall(self, lot: str, name: str) -> None:
        self.session.accepted(recall(lot, name))
        self.recalls[name] = lot

    def lift(self, name: str) -> None:
        self.session.accepted(lift(name))
        del self.recalls[name]

    def is_recalled(self, lot: str) -> bool:
        """Returns whether an open recall reaches a lot."""
        return lot in self.recalls.values() or any(map(self.is_recalled, self.lots[lot].sources))

    def rows(self, definition: str) -> list[Item]:
        """Returns what is answered of the lots of a definition that have stock, the oldest first."""
        some = sorted((it.seq, name) for name, it in self.lots.items() if it.definition == definition and sum(it.sublots) > 0)
        return [self.row(name) for _, name in some]

    def row(self, lot: str) -> Item:
        known = self.lots[lot]
        sublots = [{"no": number, "place": "", "stock": it} for number, it in enumerate(known.sublots)]
        made = {"at": 100, "by": "", "note": known.note, "seq": known.seq}
        state = {"held": known.is_held, "recalled": self.is_recalled(lot)}
        return {**made, **state, "lot": lot, "stock": sum(known.sublots), "sublots": sublots}

    def ask_stock(self, definition: str, places: Iterable[Birth] = ()) -> None:
        """Asks for the lots of a definition, from the front and behind these places."""
        rows = self.rows(definition)
        for at in [None, *places]:
            rest = [it for it in rows if at is None or (it["seq"], it["lot"]) > at]
            above = {} if at is None else {"above": "%d.%s" % at}
            self.session.asked(compact({"ask": "stock", "def": definition, **above}), compact({"lots": rest[:100], "more": len(rest) > 100}))

    def ask_stocks(self, group: str, places: Iterable[Place] = ()) -> None:
        """Asks what there is of a class, from the front and behind these places."""
        rows = [{"def": it, "name": name, "unit": "g", **totals(self.rows(it))} for it, name in sorted(self.definitions[group].items())]
        for at in [None, *places]:
            rest = [it for it in rows if at is None or it["def"] > at]
            above = {} if at is None else {"above": at}
            self.session.asked(compact({"ask": "stocks", "class": group, **above}), compact({"more": len(rest) > 100, "stocks": rest[:100]}))


def totals(rows: Sequence[Item]) -> Item:
    """Returns the sums of what is answered of all lots of a definition."""
    return {
        "lots": len(rows),
        "usable": sum(it["stock"] for it in rows if not it["held"] and not it["recalled"]),
        "held": sum(it["stock"] for it in rows if it["held"]),
        "recalled": sum(it["stock"] for it in rows if it["recalled"]),
    }


def around(rows: Sequence[Item]) -> list[Birth]:
    """Returns places at the ends of pages of these rows, and next to them; in the front, and behind all."""
    found: list[Birth] = [(0, "A"), (LAST, "Z")]
    for at in (0, 1, 98, 99, 100, 198, 199, 200, len(rows) - 1):
        if at < len(rows):
            seq, lot = rows[at]["seq"], rows[at]["lot"]
            found += [(seq, lot), (seq, "A"), (seq, "Z"), (seq - 1, "Z"), (seq + 1, "A")]
    return found


def oldest_first() -> Session:
    """Returns a session of lots of two definitions in turn, whose ids are in another order than they were made in: received, split off others and
    merged of others, some divided, held, recalled or used up."""
    stock = Stock("lots in stock are listed by the bookings that made them")
    stock.define("SALT")
    stock.ask_stock("SUGAR", [(0, "A"), (1, "Z")])
    names = [f"L-{it * 77 % MADE:03}" for it in range(MADE)]
    goods = ["SALT" if it % 11 == 4 else "SUGAR" for it in range(MADE)]
    for at, (name, definition) in enumerate(zip(names, goods)):
        # A lot of the same definition from which something is taken, not all.
        former = next((it for it in reversed(names[:at]) if stock.lots[it].definition == definition and stock.lots[it].sublots[0] > 3), None)
        if at % 4 == 3 and former:
            stock.split(former, 2, name)
        elif at % 13 == 12 and former:
            stock.merge([(former, 0, 1), (former, 1, 1)] if len(stock.lots[former].sublots) > 1 else [(former, 0, 1)], name)
        else:
            stock.receive(name, 5 + at % 3, definition, f"no {at}" if at % 5 == 0 else "")
            if at % 6 == 5:
                stock.divide(name, 1)
    stock.ask_stock("SUGAR", around(stock.rows("SUGAR")))
    stock.ask_stock("SALT", around(stock.rows("SALT")))
    for at, name in enumerate(names):
        if at % 9 == 2 and len(stock.lots[name].sublots) == 1 and stock.lots[name].sublots[0]:
            stock.scrap(name, stock.lots[name].sublots[0])
        if at % 8 == 1:
            stock.hold(name)
    for number, name in enumerate(names[10:200:38]):
        stock.recall(name, f"RC-{number}")
    stock.ask_stock("SUGAR", around(stock.rows("SUGAR")))
    stock.ask_stocks("RAW", ["A", "SALT", "SUGAR"])
    for name in names[1:100:16]:
        stock.unhold(name)
    stock.lift("RC-1")
    stock.ask_stock("SUGAR")
    stock.ask_stock("SALT")
    stock.ask_stocks("RAW")
    return stock.session


def of_a_class() -> Session:
    """Returns a session of more definitions of a class than two pages, between those of another: of some there is nothing, of others lots that are
    held, recalled or both, or used up, and of one more than 10^15."""
    stock = Stock("what there is of a class is told by the page")
    stock.session.accepted('"do":"add_class","class":"RAX","name":""', '"do":"add_class","class":"NONE","name":""')
    stock.definitions.update({"RAX": {}, "NONE": {}})
    names = [f"D-{it}" for it in range(DEFINITIONS)]
    for name in names:
        stock.define(name)
    for name in "E-1", "E-2":
        stock.define(name, "RAX")
    for number in range(3):
        stock.receive(f"S-{number}", 10**15)
    stock.receive("E-LOT", 7, "E-2")
    for at, name in enumerate(names):
        lots = [f"L-{at}-{it}" for it in range(at % 4)]
        for number, lot in enumerate(lots):
            stock.receive(lot, 10 ** number + at, name)
        if at % 5 == 0 and lots:
            stock.hold(lots[0])
        if at % 15 == 0 and lots:
            stock.recall(lots[0], f"RC-{at}")
            stock.recall(lots[-1], f"RD-{at}")
        if at % 7 == 0 and lots:
            stock.scrap(lots[-1], 10 ** (len(lots) - 1) + at)
    told = sorted([*names, "SUGAR"])
    stock.ask_stocks("RAW", ["A", "Z", *(told[it] for it in (0, 98, 99, 100, 199, 200, 201)), "D-1-1"])
    stock.ask_stocks("RAX", ["E-1", "E-2"])
    stock.ask_stocks("NONE", ["A"])
    for name in list(stock.recalls):
        stock.lift(name)
    stock.ask_stocks("RAW", [told[99]])
    return stock.session


def every() -> list[Session]:
    """Returns the sessions of what is in stock."""
    return [oldest_first(), of_a_class()]
