"""Sessions that are long, or no text, so that they are made here and not written out."""
from __future__ import annotations

from collections.abc import Iterable, Sequence
from typing import Union

from tests.support import Json, finding, sessions, stock
from tests.support.commands import (
    GOODS, PLANNED, add_definition, add_recipe, approve, begin_batch, compact, consume, divide, hold, import_orders, lift, merge, phase_done,
    produce, recall, receive, release, say, scrap, settle, split, withdraw,
)
from tests.support.sessions import LINE_LIMIT, Session

BAD_FORM = b'{"name":"BadForm","refused":1}\n'
DESK = b'{"ask":"desk"}'
NEW_DESK = b'{"schema":4,"seq":0}\n'

# An item of a list as it is answered, and a place of a list, behind which a page goes on.
Item = dict[str, Json]
Place = Union[str, int, None]

# How many lots the chains and fans of the traces have, and the chain of which it is asked where its goods stand.
TRACED, STANDING = 600, 260

# The numbers of items of the lists that are told by the page: around one page and two.
COUNTS = (99, 100, 101, 201)


# ---- limits that are reached, and passed by one


def lines_of_a_recipe() -> Session:
    session = Session("a recipe has 128 lines and an import 1000 orders").accepted(*GOODS)
    session.refused("BadForm", 1, add_recipe(128)).accepted(add_recipe(127))
    return session.refused("BadForm", 1, import_orders(1001)).accepted(import_orders(1000)).asked(
        '{"ask":"order","order":"O-999"}',
        '{"batch":null,"due":"2027-03-01","order":"O-999","priority":5,"recipe":"R","size":1,"state":"open","version":1}',
    )


def greatest_amount() -> Session:
    session = Session("sixteen lots become one of the greatest amount").accepted(*GOODS)
    session.accepted(*[receive(f"P-{it}", 62_500_000_000_000) for it in range(16)])
    session.accepted(merge([(f"P-{it}", 0, 62_500_000_000_000) for it in range(16)])).asked(
        '{"ask":"lot","lot":"M-1"}',
        '{"def":"SUGAR","held":false,"lot":"M-1","stock":1000000000000000,'
        '"sublots":[{"no":0,"place":"","stock":1000000000000000}]}',
    )
    session.accepted(receive("L-1", 10**15), scrap("L-1", 10**15))
    return session.refused("TooLittle", 13, scrap("L-1", 1))


def parts_of_a_merge() -> Session:
    session = Session("a merge has sixteen parts at most").accepted(*GOODS, receive("L-1", 480))
    session.refused("UnknownSublot", 10, merge([("L-1", it, 1) for it in range(16)]))
    return session.refused("BadForm", 1, merge([("L-1", it, 1) for it in range(17)]))


def attempts_of_a_batch() -> Session:
    session = Session("a batch has 99 attempts").accepted(*GOODS, add_recipe(1))
    session.accepted(approve(), import_orders(1), release("O-0", "B-1"))
    attempt = [say("start"), say("abort"), settle()]
    for _ in range(98):
        session.accepted(*attempt, say("reset"))
    session.accepted(say("start"), say("stop"), settle()).refused("TooMany", 28, say("reset"))
    return session.accepted(say("abort"), settle()).refused("TooMany", 28, say("reset"))


def sublots_of_a_lot() -> Session:
    session = Session("a lot has a thousand sublots at most").accepted(*GOODS, receive("L-1", 2000))
    return session.accepted(*[divide("L-1")] * 999).refused("TooMany", 28, divide("L-1"))


def limits() -> list[Session]:
    return [lines_of_a_recipe(), greatest_amount(), parts_of_a_merge(), attempts_of_a_batch(), sublots_of_a_lot()]


# ---- traces along more nodes than are looked up one by one, and recalls that reach as many


def lots_told(lots: Iterable[str]) -> list[dict[str, str]]:
    """Returns lots as they are answered, in order."""
    return [{"lot": it} for it in lots]


def traced(lots: Iterable[str]) -> str:
    """Returns the answer of a trace that comes to these lots, which are in order, and to no batch."""
    return compact({"nodes": lots_told(lots)})


def recalled(lots: Sequence[str]) -> str:
    """Returns the answer of an open recall of the first of these lots, which are in order, and which are all that it reaches."""
    return compact({"lot": lots[0], "nodes": lots_told(lots), "recall": "RC-1", "state": "open"})


def long_chain() -> Session:
    lots = [f"C-{it:03}" for it in range(TRACED)]
    session = Session("a long chain is traced both ways").accepted(*GOODS, receive(lots[0], 1000))
    session.accepted(*[split(lots[it - 1], 1000 - it, lots[it]) for it in range(1, TRACED)])
    return trace_and_recall(session, lots[-1], lots[1:], lots[:-1])


def wide_fan() -> Session:
    lots = [f"D-{it:03}" for it in range(TRACED)]
    session = Session("a wide fan is traced both ways").accepted(*GOODS, receive("C-000", 1000))
    session.accepted(*[split("C-000", 1, it) for it in lots])
    return trace_and_recall(session, lots[-1], lots, ["C-000"])


def trace_and_recall(session: Session, last: str, forward: Sequence[str], back: Sequence[str]) -> Session:
    """Traces the first lot forward and the last one back; then recalls the first one, which blocks the last until the recall is lifted."""
    session.asked('{"ask":"forward","lot":"C-000"}', traced(forward))
    session.asked(f'{{"ask":"back","lot":"{last}"}}', traced(back))
    session.accepted(recall("C-000")).refused("Recalled", 32, split(last, 1, "E-000"))
    session.asked('{"ask":"recall","recall":"RC-1"}', recalled(["C-000", *forward]))
    return session.accepted(lift(), split(last, 1, "E-000"))


# ---- where the goods of many lots stand


def standing() -> Session:
    """Returns a session of where the goods of a chain of lots stand, and of the genealogy around them: lots that lie close, and lots with more
    than a page of others between each and the next; some are held, divided or empty."""
    lots = [f"C-{it:03}" for it in range(STANDING)]
    session = Session("goods of many lots stand close and apart").accepted(*GOODS, receive(lots[0], 1000))
    session.accepted(*[split(lots[it - 1], 1000 - 3 * it, lots[it]) for it in range(1, STANDING)])
    for it in range(200, 212):
        session.accepted(*[receive(f"{lots[it]}-{other}", 7) for other in range(110)])
    session.accepted(*[divide(it, place="A1") for it in lots[::7]])
    session.accepted(*[scrap(it, 2) for it in lots[:259:5]])
    session.accepted(*[scrap(it, 1) for it in lots[:259:5] if it not in lots[::7]])
    session.accepted(*[hold(it) for it in (*lots[::50], f"{lots[203]}-9")])
    known = [lot_standing(lots, it) for it in range(STANDING)]
    for at in (0, 1, 130, 205):
        session.asked(f'{{"ask":"stands","lot":"{lots[at]}"}}', compact({"lots": [it for it in known[at:] if it["stock"]]}))
    genealogy = compact(genealogy_standing(lots, known))
    session.asked(f'{{"ask":"forward_edges","lot":"{lots[0]}"}}', genealogy)
    return session.asked(f'{{"ask":"back_edges","lot":"{lots[-1]}"}}', genealogy)


def lot_standing(lots: Sequence[str], at: int) -> Item:
    """Returns what is answered of a lot of that chain: 3 g, and 223 g of the last, of which each seventh had one divided off, each fifth but the
    last its first sublot scrapped, and each fiftieth is held."""
    stock = (223 if at == 259 else 3) - (at % 7 == 0)
    sublots: list[Item] = [{"no": 0, "place": "", "stock": 0 if at % 5 == 0 and at < 259 else stock}]
    if at % 7 == 0:
        sublots.append({"no": 1, "place": "A1", "stock": 1})
    total = sum(it["stock"] for it in sublots)
    return {"def": "SUGAR", "held": at % 50 == 0, "lot": lots[at], "recalled": False, "stock": total, "sublots": sublots}


def genealogy_standing(lots: Sequence[str], known: Iterable[Item]) -> Item:
    """Returns what is answered of the genealogy of that chain."""
    edges = [{"amount": 1000 - 3 * it, "from": {"lot": lots[it - 1]}, "to": {"lot": lots[it]}} for it in range(1, STANDING)]
    nodes = [{**it, "unit": "g"} for it in known]
    for it in nodes:
        del it["sublots"]
    return {"edges": edges, "nodes": nodes}


# ---- lists that are told by the page


def question(word: str, above: Place, **members: str) -> str:
    """Returns a question for a page that goes on behind a place, or for the front of the list."""
    place = {} if above is None else {"above": above}
    return compact({"ask": word, **place, **members})


def page(name: str, items: Sequence[Item]) -> str:
    """Returns the answer of a page of these items, all that come behind a place, in their order."""
    return compact({"more": len(items) > 100, name: items[:100]})


def page_of_lots(lots: Sequence[str], is_recalled: bool) -> str:
    """Returns the answer of a page of these lots, of which those with an odd number have one gram left."""
    told = [
        {"held": False, "lot": it, "recalled": is_recalled, "stock": 1, "sublots": [{"no": 0, "place": "", "stock": 1}]}
        for it in lots[:100]
        if int(it[2:]) % 2
    ]
    return compact({"last": lots[:100][-1] if lots else None, "lots": told, "more": len(lots) > 100})


def lists(count: int) -> Session:
    """Returns a session of so many classes, orders, lots, holds and recalls, asked for by the page and from each place around its ends; then the
    recalls are lifted, and asked for again."""
    session = Session(f"a list of {count} is told by the page").accepted(*GOODS, add_recipe(1))
    session.accepted(approve(), import_orders(count))
    session.accepted(*[receive(f"L-{it}", it % 2 + 1) for it in range(count)])
    session.accepted(*[scrap(f"L-{it}", 1) for it in range(count)])
    session.accepted(*[hold("L-0", f"H-{it}") for it in range(count)])
    session.accepted(*[recall(f"L-{it}", f"RC-{it}") for it in range(count)])
    session.accepted(*[f'"do":"add_class","class":"C-{it}","name":"{it}"' for it in range(count)])
    ask_for_orders(session, sorted(f"O-{it}" for it in range(count)))
    lots, holds, recalls = (sorted(f"{it}-{n}" for n in range(count)) for it in ("L", "H", "RC"))
    for at in [None, *holds[96:102]]:
        rest = [{"at": 100, "by": "", "hold": it, "note": ""} for it in holds if at is None or it > at]
        session.asked(question("holds", at, lot="L-0"), page("holds", rest))
        session.asked(question("all_holds", at and f"L-0.{at}"), page("holds", [{**it, "lot": "L-0"} for it in rest]))
    for at in [None, *sorted(f"C-{it}" for it in range(count))[96:102]]:
        classes = sorted([("RAW", ""), *((f"C-{it}", str(it)) for it in range(count))])
        behind = [{"class": it, "name": name} for it, name in classes if at is None or it > at]
        session.asked(question("classes", at), page("classes", behind))
    for at in [None, *recalls[96:102]]:
        rest = [{"at": 100, "by": "", "lot": "L" + it[2:], "note": "", "recall": it} for it in recalls if at is None or it > at]
        session.asked(question("recalls", at), page("recalls", rest))
    for at in [None, *lots[96:102]]:
        session.asked(question("lots", at, **{"def": "SUGAR"}), page_of_lots([it for it in lots if at is None or it > at], True))
    session.accepted(*[lift(it) for it in recalls]).asked(question("lots", None, **{"def": "SUGAR"}), page_of_lots(lots, False))
    for at in [None, *recalls[96:102]]:
        shown = {"at": 100, "by": "", "lift": {"at": 100, "by": "", "note": ""}, "note": ""}
        rest = [{**shown, "lot": "L" + it[2:], "recall": it} for it in recalls if at is None or it > at]
        session.asked(question("lifted_recalls", at), page("recalls", rest))
    return session


def ask_for_orders(session: Session, orders: Sequence[str], state: str = "open") -> None:
    """Asks for the orders in a state from the front, and behind each order around the ends of pages and behind what comes next to it."""
    around = [orders[at] for at in (0, 97, 98, 99, 100, 199, 200) if at < len(orders)]
    order: Item = {"due": "2027-03-01", "priority": 5, "recipe": "R", "size": 1, "version": 1}
    for at in [None, "A", "Z", *(it for name in around for it in (name, name + "-"))]:
        rest = [{**order, "order": it} for it in orders if at is None or it > at]
        session.asked(question("orders", at, state=state), page("orders", rest))


def paired_lists(count: int) -> Session:
    """Returns a session of lists whose places have two values: so many versions of recipes, and a ledger of so many movements."""
    session = Session(f"recipes and a ledger of {count} are told by the page").accepted(*GOODS)
    recipes = [(f"R-{it % 7}", it + 1) for it in range(count)]
    session.accepted(*[add_recipe(1, *it) for it in recipes])
    recipes.sort()
    first = session.count() + 1
    session.accepted(receive("L-1", 900), *[scrap("L-1", 2)] * (count - 1))
    shown = {"base": 1, "max": 900, "min": 1, "product": "SUGAR", "title": ""}
    for at in [None, ("A", 999), ("R-2", 0), ("R-2", 999), ("Z", 0), *recipes[96:102]]:
        rest = [{**shown, "recipe": name, "version": version} for name, version in recipes if at is None or (name, version) > at]
        session.asked(question("recipes", at and "%s.%d" % at, state="draft"), page("recipes", rest))
    session.asked(question("recipes", None, state="approved"), page("recipes", []))
    shown = {"at": 100, "batch": None, "by": "", "line": 1, "lot": "L-1", "note": "", "sub": 0, "to": None, "to_sub": None}
    moved = [{**shown, "seq": first + it, "kind": "scrapped" if it else "received", "amount": 2 if it else 900} for it in range(count)]
    for row in [None, (0, 0), (first, 0), (first, 1), (first + 98, 1), (first + 99, 0), (first + 99, 1), (10**15, 999)]:
        rest = [it for it in moved if row is None or (it["seq"], it["line"]) > row]
        session.asked(question("movements", row and "%d.%d" % row, lot="L-1"), page("movements", rest))
    return session


def by_due(count: int) -> Session:
    """Returns a session of so many orders, due on seven days in turn, asked for by their due dates from each place around the ends of pages."""
    session = Session(f"{count} orders are listed by their due dates").accepted(*GOODS, add_recipe(1), approve())
    order = {"recipe": "R", "size": 1, "version": 1}
    orders: list[Item] = [
        {**order, "due": f"2027-03-0{1 + it * 5 % 7}", "order": f"O-{it}", "priority": 1 + it % 9}
        for it in range(count)
    ]
    session.accepted('"do":"import_orders","orders":' + compact(orders), *['"do":"cancel_order","order":"O-%d"' % it for it in range(0, count, 10)])
    listed: list[tuple[str, list[Item]]] = [
        ("open", [it for n, it in enumerate(orders) if n % 10]), ("cancelled", orders[::10]), ("released", []),
    ]
    for state, some in listed:
        some.sort(key=lambda it: (it["due"], it["order"]))
        around = [(it["due"], it["order"]) for n in (0, 98, 99, 100, 179) if n < len(some) for it in [some[n]]]
        for at in [None, ("2000-01-01", "A"), ("2027-03-03", "A"), ("2027-03-03", "Z"), ("2099-12-31", "Z"), *around]:
            rest = [it for it in some if at is None or (it["due"], it["order"]) > at]
            session.asked(question("orders_by_due", at and "%s.%s" % at, state=state), page("orders", rest))
    return session


def booked(count: int) -> Session:
    """Returns a session of so many commands with references between those without, asked for from each place around the ends of pages."""
    session = Session(f"{count} commands with references are listed by their numbers").accepted(*GOODS)
    rows: list[Item] = []
    for it in range(count):
        session.accepted(f'"do":"add_class","class":"C-{it}","name":"","note":"as {it}","ref":"K-{count - it}"')
        rows.append({"at": 100, "by": "", "do": "add_class", "note": f"as {it}", "ref": f"K-{count - it}", "seq": session.count()})
        if it % 3 == 0:
            session.accepted(f'"do":"add_class","class":"D-{it}","name":""')
    for at in [None, 1, 10**15, *(it["seq"] + n for k in (0, 98, 99, 100, 199) if k < count for it in [rows[k]] for n in (0, 1))]:
        rest = [it for it in rows if at is None or it["seq"] > at]
        session.asked(question("commands", at), page("commands", rest))
    return session


def histories(count: int) -> Session:
    """Returns a session of so many commands with references, of which every third names one lot and the others another: the histories of these, from each
    place around the ends of pages, each hundred commands a page; and of what a merge names."""
    session = Session(f"of {count} commands with references those that name an id are its history").accepted(*GOODS, receive("L-1", 900), receive("L-2", 900))
    rows: list[Item] = []

    def given(word: str, *fields: str, **members: Json) -> None:
        number = len(rows)
        session.accepted(f'"do":"{word}",{compact(members)[1:-1]},"note":"L-{number}","ref":"K-{number}"')
        rows.append({"at": 100, "by": "", "do": word, "fields": [*fields], "note": f"L-{number}", "ref": f"K-{number}", "seq": session.count()})

    for it in range(count):
        lot = f"L-{1 if it % 3 == 0 else 2}"
        given("hold", lot, f"H-{it}", lot=lot, hold=f"H-{it}")
    for it in range(count):
        lot = f"L-{1 if it % 3 == 0 else 2}"
        given("unhold", lot, f"H-{it}", lot=lot, hold=f"H-{it}")
    given("merge", "M-1", "", "2", "L-1", "0", "5", "L-2", "0", "6", new="M-1", place="",
        parts=[{"lot": "L-1", "sub": 0, "amount": 5}, {"lot": "L-2", "sub": 0, "amount": 6}])
    places = [None, 1, 10**15, *(rows[k]["seq"] + n for k in (0, 98, 99, 100, 199) if k < len(rows) for n in (0, 1))]
    for at in places:
        front = [it for it in rows if at is None or it["seq"] > at]
        for name in ("L-1", "L-2", "M-1", "H-7", "K-1", "L-7"):
            answer = {"commands": [it for it in front[:100] if name in it["fields"]], "last": front[:100][-1]["seq"] if front else None, "more": len(front) > 100}
            session.asked(question("history", at, id=name), compact(answer))
    return session


# ---- lists and recalls above a page


def long_ledger() -> Session:
    """Returns a session of a lot merged of sixteen parts, with more rows than a page that took from it, and as many that came to it."""
    session = Session("a ledger has all that came to a lot and left it").accepted(*GOODS)
    parts = [(f"P-{it:02}", 0, 100) for it in range(16)]
    session.accepted(*[receive(lot, amount) for lot, _, amount in parts], merge(parts))
    shown: Item = {"at": 100, "batch": None, "by": "", "note": ""}
    seq = session.count()
    came = {"kind": "merged", "to": "M-1", "to_sub": 0, "amount": 100}
    moved: list[Item] = [
        {**shown, **came, "seq": seq, "line": line, "lot": lot, "sub": sub}
        for line, (lot, sub, _) in enumerate(parts, 1)
    ]
    for it in range(1, 113):
        bookings: list[tuple[str, Item]] = [
            (divide("M-1"), {"kind": "divided", "to": "M-1", "to_sub": it, "amount": 1}),
            (split("M-1", 2, f"S-{it}"), {"kind": "split", "to": f"S-{it}", "to_sub": 0, "amount": 2}),
            (scrap("M-1", 3), {"kind": "scrapped", "to": None, "to_sub": None, "amount": 3}),
        ]
        for body, booked_as in bookings:
            session.accepted(body)
            moved.append({**shown, **booked_as, "seq": seq + len(moved) - 15, "line": 1, "lot": "M-1", "sub": 0})
    around = [moved[at] for at in (0, 14, 15, 16, 99, 100, 115, 199, 251, 252, len(moved) - 2, len(moved) - 1)]
    places: list[tuple[int, int] | None] = [None, (0, 0), (seq, 0), (seq, 999)]
    for at in [*places, *((it["seq"], it["line"]) for it in around)]:
        rest = [it for it in moved if at is None or (it["seq"], it["line"]) > at]
        session.asked(question("movements", at and "%d.%d" % at, lot="M-1"), page("movements", rest))
    part = {**moved[3], "seq": 6, "line": 1, "kind": "received", "to": None, "to_sub": None, "lot": "P-03"}
    return session.asked(question("movements", None, lot="P-03"), page("movements", [part, moved[3]]))


def long_batches() -> Session:
    """Returns a session of more open batches than a page, of a recipe of 128 lines, of which some have come far."""
    session = Session("batches of a long recipe are told by the page").accepted(*GOODS)
    phases = "".join(f',{{"kind":"phase","unit":"U","oper":"O","phase":"P-{it}"}}' for it in range(1, 128))
    recipe, phase = add_recipe(1), ',{"kind":"phase","unit":"U","oper":"O","phase":"P"}'
    session.accepted(recipe.replace(phase, phases), approve(), import_orders(103))
    batches = {f"B-{it:03}": 0 for it in range(103)}
    session.accepted(*[release(f"O-{it}", batch) for it, batch in enumerate(batches)])
    for batch, count in {"B-000": 127, "B-001": 126, "B-050": 1, "B-098": 99, "B-099": 100, "B-100": 101, "B-102": 127}.items():
        session.accepted(say("start", batch), *[phase_done(batch, it) for it in range(1, count + 1)])
        batches[batch] = count
    planned: Item = {"due": "2027-03-01", "priority": 5, "product": "SUGAR", "recipe": "R", "size": 1, "title": "", "unit": "g", "version": 1}
    told: list[Item] = []
    for it, (batch, count) in enumerate(batches.items()):
        rest: Item = {"phase": None if count == 127 else f"P-{count + 1}", "phases": 127, "state": "running" if count else "idle"}
        rest.update(planned=planned, phase_unit=None if count == 127 else "U")
        told.append({"at": 100, "attempt": 1, "batch": batch, "next": count + 1, "order": f"O-{it}", **rest})
    for at in [None, "A", *(f"B-{it:03}" for it in (0, 1, 2, 3, 49, 98, 101, 102))]:
        session.asked(question("batches", at), page("batches", [it for it in told if at is None or it["batch"] > at]))
    ask_for_orders(session, sorted(it["order"] for it in told), "released")
    return session


def versions_of_one_recipe() -> Session:
    """Returns a session of a recipe that has more versions in one state than a page, and more behind a place within them."""
    session = Session("versions of one recipe are told by the page").accepted(*GOODS)
    versions = [("Q", 1), *(("R", it) for it in range(1, 251)), ("S", 1), ("S", 2)]
    session.accepted(*[add_recipe(1, *it) for it in versions])
    ask_for_recipes(session, "draft", versions, (0, 1, 50, 51, 149, 150, 151, 249, 250, 999))
    approved = [("R", it) for it in range(1, 251) if it % 5] + [("S", 2)]
    session.accepted(*[approve(*it) for it in approved])
    ask_for_recipes(session, "approved", approved, (0, 1, 2, 5, 99, 124, 125, 126, 249, 250))
    ask_for_recipes(session, "draft", [it for it in versions if it not in approved], (0, 5, 244, 245, 250))
    withdrawn = approved[40:180]
    session.accepted(*[withdraw(*it) for it in withdrawn])
    ask_for_recipes(session, "withdrawn", withdrawn, (0, 51, 52, 53, 175, 176, 250))
    ask_for_recipes(session, "approved", [it for it in approved if it not in withdrawn], (0, 49, 51, 226, 249))
    return session


def definitions_and_cancelled_orders() -> Session:
    """Returns a session of more definitions of a class than two pages, between those of others, and of as many orders that were cancelled."""
    session = Session("definitions and cancelled orders are told by the page").accepted(*GOODS, add_recipe(1), approve(), import_orders(402))
    classes = ["A", "RAX", "Z"]
    session.accepted(*[f'"do":"add_class","class":"{it}","name":""' for it in classes])
    names = [f"D-{it}" for it in range(201)]
    session.accepted(*[add_definition(name, "RAX" if at % 3 else classes[at % 2 * 2]) for at, name in enumerate(f"E-{it}" for it in range(60))])
    session.accepted(*[add_definition(it, "RAW") for it in names])
    session.accepted(*[f'"do":"cancel_order","order":"O-{it}"' for it in range(0, 402, 2)])
    told = [{"def": it, "name": f"the {it}", "unit": "g"} for it in sorted(names)] + [{"def": "SUGAR", "name": "", "unit": "g"}]
    for at in [None, "A", "Z", *(told[it]["def"] for it in (0, 98, 99, 100, 101, 198, 199, 200, 201))]:
        rest = [it for it in told if at is None or it["def"] > at]
        session.asked(question("definitions", at, **{"class": "RAW"}), page("definitions", rest))
    ask_for_orders(session, sorted(f"O-{it}" for it in range(0, 402, 2)), "cancelled")
    ask_for_orders(session, sorted(f"O-{it}" for it in range(1, 402, 2)), "open")
    return session


def ask_for_recipes(session: Session, state: str, versions: Sequence[tuple[str, int]], places: Iterable[int]) -> None:
    """Asks for the recipes in a state, from the front, and behind these versions of the recipe R."""
    shown = {"base": 1, "max": 900, "min": 1, "product": "SUGAR", "title": ""}
    for at in [None, ("Q", 1), *(("R", it) for it in places), ("S", 1)]:
        rest = [{**shown, "recipe": name, "version": version} for name, version in versions if at is None or (name, version) > at]
        session.asked(question("recipes", at and "%s.%d" % at, state=state), page("recipes", rest))


def recalls_of_one_lot(count: int = 120) -> Session:
    """Returns a session of a lot under so many recalls: it and what comes of it are blocked until the last of them is lifted."""
    session = Session(f"a lot stays blocked under {count} recalls").accepted(*PLANNED)
    session.accepted(receive("F-1", 900, "FLOUR"), receive("F-2", 9, "FLOUR"), *begin_batch("B-1", 1), consume("B-1", "F-1", 7))
    recalls = [f"RC-{it:03}" for it in range(count)]
    session.accepted(*[recall("F-1", it) for it in recalls], produce("B-1", "D-1", amount=40))
    blocked = [consume("B-1"), split("F-1", 1, "F-3"), split("D-1", 1, "D-2"), merge([("F-2", 0, 1), ("F-1", 0, 1)])]
    nodes = [{"lot": "D-1"}, {"lot": "F-1"}, {"batch": "B-1"}]
    for it in [recalls[0], recalls[16], recalls[-1]]:
        answer = {"lot": "F-1", "nodes": nodes, "recall": it, "state": "open"}
        session.asked(compact({"ask": "recall", "recall": it}), compact(answer))
    ask_for_blocked(session, blocked, True)
    session.accepted(*[lift(it) for it in recalls[:-1]])
    ask_for_blocked(session, blocked, True)
    session.accepted(lift(recalls[-1]))
    ask_for_blocked(session, [], False)
    return session.accepted(*blocked)


def ask_for_blocked(session: Session, blocked: Iterable[str], is_recalled: bool) -> None:
    """Tells commands that are refused as recalled, and asks for the genealogy around what they take of, forward and back."""
    for body in blocked:
        session.refused("Recalled", 32, body)
    known = {"held": False, "recalled": is_recalled, "unit": "kg"}
    answer = compact({
        "edges": [
            {"amount": 7, "from": {"lot": "F-1"}, "to": {"batch": "B-1"}},
            {"amount": 40, "from": {"batch": "B-1"}, "to": {"lot": "D-1"}},
        ],
        "nodes": [{**known, "def": "DOUGH", "lot": "D-1", "stock": 40}, {**known, "def": "FLOUR", "lot": "F-1", "stock": 893}, {"batch": "B-1"}],
    })
    session.asked('{"ask":"forward_edges","lot":"F-1"}', answer).asked('{"ask":"back_edges","lot":"D-1"}', answer)


def above_a_page() -> list[Session]:
    made = [long_ledger(), long_batches(), versions_of_one_recipe(), definitions_and_cancelled_orders(), recalls_of_one_lot()]
    return [*made, *stock.every()]


# ---- bytes that are a line, a bad one, or none


def lines() -> list[Session]:
    nested = b"[" * 200 + b"]" * 200 + b"\n"
    longest = DESK + b" " * (LINE_LIMIT - len(DESK))
    arne = b'{"at":1,"by":"\\u00e4","do":"add_class","class":"A","name":""}\n'
    floating = b'{"at":1.0,"by":"","do":"add_class","class":"A","name":""}\n'
    return [
        Session("an empty input has no reply"),
        Session("line ends may vary", b"\n\r\n" + DESK + b"\r\n\n" + DESK, NEW_DESK * 2),
        Session("a line of a carriage return and another", b"\r\r\n", BAD_FORM),
        Session("a last line of a carriage return", b"\r", BAD_FORM),
        Session("a blank is no line", b" \n", BAD_FORM),
        Session("text is UTF-8, and what is none ends nothing", b'{"ask":"de\xffsk"}\n' + DESK + b"\n", BAD_FORM + NEW_DESK),
        Session("a question has no other member", b'{"ask":"desk","x":1}\n', BAD_FORM),
        Session("an id is in capitals", b'{"ask":"lot","lot":"l-1"}\n', BAD_FORM),
        Session("a line is JSON", b"nonsense\n", BAD_FORM),
        Session("a moment is a whole number", floating, BAD_FORM),
        Session("nesting has a limit", nested + DESK + b"\n", BAD_FORM + NEW_DESK),
        Session("a line of the greatest length is read", longest + b"\r\n", NEW_DESK),
        Session("a byte order mark is no part of a line", b"\xef\xbb\xbf" + DESK + b"\n", BAD_FORM),
        Session("a line is one value", DESK + b" {}\n", BAD_FORM),
        Session("a line is whole", DESK[:-1] + b"\n", BAD_FORM),
        Session("a text is ASCII", arne, BAD_FORM),
        Session("a longer line is passed over", longest + b" \n" + DESK + b"\n", BAD_FORM + NEW_DESK),
        Session("a carriage return at the end of the input counts", longest + b"\r", BAD_FORM),
    ]


# Lines that scrap, by their sublot, their amount and what stands behind these, each with whether it is read.
SCRAPS = [
    ("0", "1", "", True),
    ("-0", "1", "", False),
    ("00", "1", "", False),
    ("1000", "1", "", False),
    ("0", "0", "", False),
    ("0", "1000000000000001", "", False),
    ("0", "18446744073709551616", "", False),
    ("0", "1.0", "", False),
    ("0", "1e2", "", False),
    ("0", '"1"', "", False),
    ("0", "1", ',"note":""', True),
    ("0", "1", ',"note":null', False),
    ("0", "1", ',"note":7', False),
    ("0", "1", ',"x":1', False),
    ("0", "1", ',"ask":"desk"', False),
    ("0", "1", ',"note":"a","x":1', False),
    # the last of two members of one name counts
    ("0", "1", ',"amount":30', True),
    ("0", "1", ',"amount":0', False),
    ("0", "1", ',"note":null,"note":"a"', True),
    # what the earlier one has must be JSON all the same, and its lists are nested 127 deep at most, with the line itself
    ("0", "1", ',"note":1e999,"note":"a"', False),
    ("0", "1", f',"note":{"[" * 126}{"]" * 126},"note":""', True),
    ("0", "1", f',"note":{"[" * 127}{"]" * 127},"note":""', False),
]


def scraps() -> Session:
    """Returns a session of lines that scrap, of which each is read or bad by its numbers and members."""
    session = Session("numbers and members of a line").accepted(*GOODS, receive("L-1", 480))
    for sub, amount, more, is_read in SCRAPS:
        body = scrap("L-1", amount, sub) + more
        session = session.accepted(body) if is_read else session.refused("BadForm", 1, body)
    stock = 480 - 4 - 30
    return session.asked(
        '{"ask":"lot","lot":"L-1"}',
        f'{{"def":"SUGAR","held":false,"lot":"L-1","stock":{stock},"sublots":[{{"no":0,"place":"","stock":{stock}}}]}}',
    )


def every() -> list[Session]:
    """Returns all sessions, those that are written out and those that are made here."""
    pages = [session(count) for count in COUNTS for session in (lists, paired_lists, by_due, booked, histories)]
    made = [*limits(), long_chain(), wide_fan(), standing(), *pages, *above_a_page(), *finding.every(), *lines(), scraps()]
    return [*map(sessions.read, sessions.files()), *made]
