"""Stock at the page, in a browser: what is there is seen and offered, the oldest first, whatever was used up or is barred before it."""
from __future__ import annotations

import json
import pathlib
import time

from tests.support import Json
from tests.support.browser import Tab
from tests.support.pages import BrowserTestCase

FORM = "document.querySelector('dialog[open]')"

# How many lots of flour are used up, how many lots of yeast are in stock, how many of these are on hold, and how many materials a class has.
USED_UP, LOTS, HELD, MATERIALS = 300, 210, 101, 101

# The lots of flour in stock, with the days since each came, its amount and its place: the older one is, the later is its id.
FLOUR = (("Z-9", 40, 100, "W1"), ("M-1", 20, 200, "W2"), ("B-9", 1, 50, ""))

# The parts that a form offers, those that may be taken, and their words.
OFFERED = f"[...{FORM}.querySelectorAll('[name=from-list] option')].map((it) => it.value)"
FREE = f"[...{FORM}.querySelectorAll('[name=from-list] option:not([disabled])')].map((it) => it.value)"
WORDS = f"[...{FORM}.querySelectorAll('[name=from-list] option')].map((it) => it.label.replaceAll('\\u202f', ' '))"

# The rows of lots that are shown.
ROWS = "[...document.querySelectorAll('.stack [data-row]')].map((it) => it.dataset.row)"


def day(days: int) -> str:
    """Returns the day that was so many days ago."""
    return time.strftime("%Y-%m-%d", time.localtime(NOW - 86_400 * days))


def command(days: int, do: str, **fields: Json) -> bytes:
    """Returns the line of a command of so many days ago."""
    return json.dumps({"at": NOW - 86_400 * days, "by": "carl", "do": do, **fields}).encode() + b"\n"


def definition(name: str, group: str, unit: str) -> bytes:
    return command(70, "add_definition", **{"def": name, "class": group}, name=f"the {name}", unit=unit)


def receive(days: int, lot: str, name: str, amount: int, place: str = "", **more: Json) -> bytes:
    return command(days, "receive", lot=lot, **{"def": name}, amount=amount, place=place, **more)


def planned() -> list[bytes]:
    """Returns the commands of the materials, and of a batch of dough, which is started."""
    lines = [
        {"kind": "in", "def": "FLOUR", "qty": 200}, {"kind": "in", "def": "YEAST", "qty": 21}, {"kind": "out", "def": "DOUGH", "qty": 300},
        {"kind": "phase", "unit": "MIX", "oper": "BLEND", "phase": "STIR"},
    ]
    order = {"order": "O-1", "recipe": "DOUGH", "version": 1, "size": 300, "due": "2030-03-01", "priority": 5}
    return [
        *(command(70, "add_class", **{"class": it}, name="") for it in ("GOODS", "MANY", "RAW")),
        definition("FLOUR", "RAW", "kg"), definition("YEAST", "RAW", "g"), definition("DOUGH", "GOODS", "kg"),
        *(definition(f"P-{it:03}", "MANY", "pcs") for it in range(MATERIALS)),
        command(70, "add_recipe", recipe="DOUGH", version=1, product="DOUGH", base=300, min=100, max=900, title="Dough", lines=lines),
        command(70, "approve", recipe="DOUGH", version=1),
        command(70, "import_orders", orders=[order]),
        command(70, "release", order="O-1", batch="B-1"),
        command(70, "batch", batch="B-1", word="start"),
    ]


def stocked() -> bytes:
    """Returns the commands of a desk of many lots: those of flour but the last ones are used up, and most of the yeast is on hold."""
    told = planned()
    for it in range(USED_UP):
        told += [receive(60, f"A-{it:03}", "FLOUR", 1), command(60, "scrap", lot=f"A-{it:03}", sub=0, amount=1)]
    yeast = [f"K-{LOTS - it:03}" for it in range(LOTS)]
    told += [receive(50, it, "YEAST", 7) for it in yeast]
    told += [command(50, "hold", lot=it, hold="H-1") for it in yeast[:HELD]]
    told += [command(50, "recall", recall="RC-1", lot=it) for it in yeast[-1:]]
    told += [receive(days, lot, "FLOUR", amount, place, note="from the mill") for lot, days, amount, place in FLOUR]
    told += [receive(1, "P-1", f"P-{MATERIALS - 1:03}", 5)]
    return b"".join(told)


NOW = int(time.time())


class Stock(BrowserTestCase):
    """What the page shows and offers of a stock of many lots."""

    IS_LONG = True

    # The file of that desk.
    stocked: pathlib.Path

    @classmethod
    def setUpClass(cls) -> None:
        super().setUpClass()
        cls.stocked = cls.made("stocked", stocked())

    def open_stocked(self, place: str) -> Tab:
        """Opens a view of that desk."""
        self.serve(begun=self.stocked)
        return self.open(place)

    def open_consume(self, tab: Tab, name: str) -> None:
        """Opens the form by which a material is consumed."""
        tab.click("Consume", row=f"in {name}")
        tab.has(f"Consume {name} in B-1", FORM)

    def choose(self, tab: Tab, lot: str) -> None:
        """Types a lot into the form that is open, and waits until it is chosen."""
        tab.fill("from", lot)
        tab.key("Enter")
        tab.has(f"{lot.upper().partition('/')[0]}/0 at", f"{FORM}.querySelector('.said')")

    def press(self, tab: Tab) -> None:
        """Presses the button of the form that is open."""
        tab.run(f"{FORM}.querySelector('.end button:last-child').focus()")
        tab.key("Enter")

    def text(self, tab: Tab, row: str) -> str:
        """Returns the text of a row."""
        return tab.text(f"document.querySelector('[data-row=\"{row}\"]')")

    def end(self, tab: Tab) -> None:
        """Checks that the page met no error."""
        self.check("what the console tells of errors", tab.errors(), [])

    def all_lots(self, name: str) -> list[Json]:
        """Returns the lots of a material that have stock, by the list of all of its lots."""
        lots, behind = list[Json](), ""
        while True:
            page = self.served.ask(f"/lists/lots/{name}{behind}")
            lots += page["lots"]
            if not page["more"]:
                return lots
            behind = f"/{page['last']}"

    def test_stock_behind_used_up_lots_is_offered_and_consumed(self) -> None:
        tab = self.open_stocked("shift/B-1")
        tab.has("350 kg", "document.querySelector('[data-row=\"in FLOUR\"]')")
        self.open_consume(tab, "FLOUR")
        words = [f"{lot}/0 at {place or 'no place'}: {amount} kg, came {day(days)}" for lot, days, amount, place in FLOUR]
        self.check("what is offered", tab.run(WORDS), ["none of these", *words])
        tab.fill("from-list", "Z-9/0")
        self.check("what is chosen", tab.text(f"{FORM}.querySelector('.said')"), words[0])
        self.check("the amount", tab.value("amount"), "100")
        self.press(tab)
        tab.has("100 kg of Z-9 consumed.")
        tab.until("!dialog.open")
        self.check("what is left of it", self.served.ask("/lots/Z-9")["stock"], 0)
        tab.has("250 kg", "document.querySelector('[data-row=\"in FLOUR\"]')")
        self.open_consume(tab, "FLOUR")
        self.check("what is offered then", tab.run(OFFERED), ["", "M-1/0", "B-9/0"])
        tab.key("Escape")
        self.served.told(at=self.served.ask("/moment")["at"], by="dora", do="hold", lot="M-1", hold="H-1")
        self.open_consume(tab, "FLOUR")
        self.check("what is offered once the oldest is on hold", tab.run(OFFERED), ["", "B-9/0", "M-1/0"])
        tab.key("Escape")
        tab.has("50 kg", "document.querySelector('[data-row=\"in FLOUR\"] .over')")
        self.end(tab)

    def test_lot_that_is_scanned_or_typed_says_when_it_came(self) -> None:
        tab = self.open_stocked("shift/B-1")
        tab.scan("B-9")
        tab.has(f"B-9/0 at no place: 50 kg, came {day(1)}", f"{FORM}.querySelector('.said')")
        tab.scan("A-007")
        tab.has("There is nothing in lot A-007.", FORM)
        tab.key("Escape")
        tab.run("location.hash = 'warehouse/FLOUR'")
        tab.click("Scrap", row="M-1/0")
        tab.has(f"M-1/0 at W2: 200 kg, came {day(20)}", f"{FORM}.querySelector('.said')")
        self.end(tab)

    def test_free_lots_are_offered_behind_a_page_that_is_on_hold(self) -> None:
        tab = self.open_stocked("shift/B-1")
        self.open_consume(tab, "YEAST")
        yeast = [f"K-{LOTS - it:03}/0" for it in range(LOTS)]
        self.check("what is offered", tab.run(OFFERED), ["", *yeast[HELD:200], *yeast[:HELD]])
        free = yeast[HELD:200]
        self.check("what may be taken", tab.run(FREE), ["", *free])
        tab.has("the oldest first; younger ones are scanned or typed", FORM)
        self.choose(tab, "k-002")
        self.choose(tab, free[0])
        tab.fill("amount", 7)
        self.press(tab)
        tab.has(f"7 g of {free[0][:-2]} consumed.")
        self.end(tab)

    def test_free_of_a_material_is_all_that_is_there(self) -> None:
        tab = self.open_stocked("warehouse/YEAST")
        lots = self.all_lots("YEAST")
        free = sum(it["stock"] for it in lots if not it["held"] and not it["recalled"])
        held, recalled = (sum(it["stock"] for it in lots if it[part]) for part in ("held", "recalled"))
        self.check("the amounts", (len(lots), free, held, recalled), (LOTS, 7 * (LOTS - HELD - 1), 7 * HELD, 7))
        for text in (f"Free\n{free} g", f"On hold\n{held} g", f"Recalled\n{recalled} g", f"Lots with stock\n{LOTS}"):
            tab.has(text, "document.querySelector('.facts')")
        told = f"YEAST the YEAST {LOTS} {free} g {held} g on hold {recalled} g recalled"
        self.check("the material in the list", self.text(tab, "YEAST").split(), told.split())
        rows = [f"K-{LOTS - it:03}/0" for it in range(LOTS)]
        self.check("the lots that are shown", tab.run(ROWS), rows[:100])
        tab.click("1\u202f000 more", within="document.querySelector('.stack')")
        tab.until(f"document.querySelector('[data-row=\"{rows[-1]}\"]') !== null", "the last lot")
        self.check("all lots", tab.run(ROWS), rows)
        self.end(tab)

    def test_stock_of_a_material_is_seen_that_the_list_does_not_show(self) -> None:
        last = f"P-{MATERIALS - 1:03}"
        tab = self.open_stocked(f"warehouse/{last}")
        tab.has("Free\n5 pcs", "document.querySelector('.facts')")
        self.check("rows of it in the list", tab.run(f"document.querySelectorAll('[data-row=\"{last}\"]').length"), 0)
        self.check("its lots", tab.run(ROWS), ["P-1/0"])
        tab.run("location.hash = 'warehouse/P-000'")
        tab.has("There is no P-000 in stock.")
        tab.has("Free\n0 pcs", "document.querySelector('.facts')")
        self.end(tab)

    def test_lots_are_sorted_by_a_press_of_a_head(self) -> None:
        tab = self.open_stocked("warehouse/FLOUR")
        shown = "[...document.querySelectorAll('.stack [data-row], .card:not(.listed) [data-row]')].map((it) => it.dataset.row).join(' ')"
        for head, wanted in (
            ("Came \u25b4", "B-9/0 M-1/0 Z-9/0"), ("Lot", "B-9/0 M-1/0 Z-9/0"), ("Place", "B-9/0 Z-9/0 M-1/0"), ("Stock", "B-9/0 Z-9/0 M-1/0"),
            ("Stock \u25b4", "M-1/0 Z-9/0 B-9/0"), ("Came", "Z-9/0 M-1/0 B-9/0"),
        ):
            tab.click(head)
            tab.until(f"{shown} === '{wanted}'", f"the lots behind a press of {head}")
        tab.run("location.hash = 'warehouse/YEAST?sort=lot'")
        yeast = [f"K-{it + 1:03}/0" for it in range(LOTS)]
        tab.until(f"{shown} === '{' '.join(yeast[:100])}'", "the first lots of yeast by their ids, of all that there are")
        tab.has(f"The first 100 parts of the {LOTS} oldest lots are shown, and there are more.")
        tab.click("100 more", within="document.querySelector('.stack')")
        tab.until(f"{shown} === '{' '.join(yeast[:200])}'", "more lots of yeast")
        self.end(tab)

    def test_lots_are_sorted_by_a_field_on_a_phone(self) -> None:
        self.serve(begun=self.stocked)
        tab = self.open("warehouse/FLOUR", width=390)
        shown = "[...document.querySelectorAll('.card:not(.listed) [data-row]')].map((it) => it.dataset.row).join(' ')"
        field = "document.querySelector('[aria-label=\"Sort the lots\"]')"
        self.check("the choice", tab.run(f"[...{field}.options].map((it) => it.label)[6]"), "Stock, up")
        tab.run(f"{field}.value = 'stock.down'; {field}.dispatchEvent(new Event('change'))")
        tab.until(f"{shown} === 'M-1/0 Z-9/0 B-9/0'", "the lots, the largest first")
        self.check("what is chosen", tab.run(f"[location.hash, {field}.value]"), ["#warehouse/FLOUR?sort=stock&way=down", "stock.down"])
        self.end(tab)

    def test_used_up_lots_are_hidden_and_found(self) -> None:
        tab = self.open_stocked("warehouse/FLOUR")
        self.check("the lots that are shown", tab.run(ROWS), [f"{lot}/0" for lot, *_ in FLOUR])
        for lot, days, *_ in FLOUR:
            self.check_true(f"the day of {lot}", day(days) in self.text(tab, f"{lot}/0"))
        tab.has("350 kg", "document.querySelector('[data-row=FLOUR]')")
        tab.fill("find", "a-007")
        tab.key("Enter")
        tab.until("location.hash === '#warehouse/FLOUR/A-007'")
        tab.has("Nothing is left of it.")
        self.end(tab)

    def test_part_is_moved_whole_or_in_part(self) -> None:
        tab = self.open_stocked("warehouse/FLOUR")
        tab.click("Move", row="M-1/0")
        self.check("the amount at first", tab.value("amount"), "200")
        self.press(tab)
        self.check("whether a place is wanted", tab.run(f"{FORM}.querySelector('[name=place]').validity.valueMissing"), True)
        tab.fill("place", "A7")
        self.press(tab)
        tab.has("200 kg of M-1 brought to A7.")
        tab.until("!dialog.open")
        tab.has("A7", "document.querySelector('[data-row=\"M-1/1\"]')")
        self.check("rows of the part that was moved", tab.run("document.querySelectorAll('[data-row=\"M-1/0\"]').length"), 0)
        tab.click("Move", row="M-1/1")
        self.choose(tab, "b-9")
        self.check("the amount of another lot", tab.value("amount"), "50")
        tab.fill("amount", 20)
        tab.fill("place", "A8")
        self.press(tab)
        tab.has("20 kg of B-9 brought to A8.")
        self.check("its parts", [(it["place"], it["stock"]) for it in self.served.ask("/lots/B-9")["sublots"]], [("", 30), ("A8", 20)])
        self.end(tab)

    def test_views_of_stock_are_not_too_wide(self) -> None:
        self.serve(begun=self.stocked)
        for width in (390, 820, 1280, 1920):
            for place in ("warehouse", "warehouse/YEAST", "shift/B-1"):
                tab = self.open(place, width=width)
                self.check(f"the width of {place} at {width}", tab.run("document.documentElement.scrollWidth"), width)
                wide = "[...document.querySelectorAll('.wide')].filter((it) => it.scrollWidth > it.clientWidth).length"
                self.check(f"tables of {place} at {width} that are scrolled sideways", tab.run(wide), 0)
                self.end(tab)


class Places(BrowserTestCase):
    """What is at each place."""

    IS_LONG = True

    def at(self, tab: Tab, address: str) -> None:
        """Waits until an address is drawn."""
        tab.until(f"location.hash === '#{address}' && drawn === location.hash", address)

    def test_goods_are_listed_by_their_places(self) -> None:
        self.serve()
        tab = self.open("warehouse")
        tab.click("by place")
        self.at(tab, "warehouse/place")
        listed = "[...document.querySelectorAll('.listed [data-row]')].map((it) => it.innerText.replace(/\\s+/g, ' ').trim())"
        self.check("the places, with their parts and materials", tab.run(listed), ["A1 1 1", "A2 1 1", "C1 1 1", "COLD 1 1", "SHOP 1 1"])
        tab.has("At A1")
        tab.click("A2", tag="a")
        self.at(tab, "warehouse/place/A2")
        self.check("what is there", tab.run(ROWS), ["F-2/0", "total FLOUR"])
        tab.has("on hold", "document.querySelector('[data-row=\"F-2/0\"]')")
        tab.click("by material")
        self.at(tab, "warehouse")
        self.check("what the console tells of errors", tab.errors(), [])

    def test_goods_are_moved_from_their_place(self) -> None:
        self.serve()
        tab = self.open("warehouse/place/A1")
        tab.click("Move", row="F-1/0")
        for name, value in (("amount", "40"), ("place", "Cold room 1/2, \"back\" & #3")):
            tab.fill(name, value)
        tab.click("Move", within=FORM)
        tab.until("!dialog.open", "the form to be closed")
        tab.click("Cold room 1/2, \"back\" & #3", tag="a")
        tab.has("At Cold room 1/2, \"back\" & #3")
        self.check("what is there", tab.run(ROWS), ["F-1/2", "total FLOUR"])
        tab.has("40 kg", "document.querySelector('.stack [data-row=\"F-1/2\"]')")
        tab.reload()
        tab.has("At Cold room 1/2, \"back\" & #3")
        self.check("what the console tells of errors", tab.errors(), [])

    def test_goods_at_a_place_are_sorted_by_a_press_of_a_head(self) -> None:
        self.serve()
        for lot, name, amount in (("N-1", "DOUGH", 9), ("M-1", "FLOUR", 700)):
            self.served.told(at=self.served.ask("/moment")["at"], by="carl", do="receive", lot=lot, **{"def": name}, amount=amount, place="A1")
        tab = self.open("warehouse/place/A1")
        shown = "[...document.querySelectorAll('.stack .block [data-row]')].map((it) => it.dataset.row).join(' ')"
        for head, wanted in (
            ("Material", "N-1/0 F-1/0 M-1/0"), ("Lot and part", "F-1/0 M-1/0 N-1/0"), ("Stock", "N-1/0 F-1/0 M-1/0"), ("Stock \u25b4", "M-1/0 F-1/0 N-1/0"),
            ("Came", "F-1/0 N-1/0 M-1/0"),
        ):
            tab.click(head)
            tab.until(f"{shown} === '{wanted}'", f"the goods behind a press of {head}")
        self.check("what the console tells of errors", tab.errors(), [])

    def test_goods_without_a_place_are_found(self) -> None:
        self.serve()
        self.served.told(at=self.served.ask("/moment")["at"], by="carl", do="receive", lot="N-1", **{"def": "FLOUR"}, amount=7, place="")
        for width in (390, 1280):
            tab = self.open("warehouse/place", width=width)
            tab.click("no place", tag="a")
            self.at(tab, "warehouse/place/")
            tab.has("At no place")
            self.check(f"what is there at {width}", tab.run(ROWS), ["N-1/0", "total FLOUR"])
            self.check(f"the way back at {width}", tab.run("document.getElementById('back').textContent"), "\u2039 Back to the places")
            tab.run("location.hash = 'warehouse/place/nowhere'")
            tab.has("Nothing in stock is there.")

    def test_lots_have_their_age_in_days(self) -> None:
        self.serve()
        tab = self.open("warehouse/FLOUR/F-1")
        came = tab.text("document.querySelector('[data-row=\"F-1/0\"] td.when')").split("\n")
        self.check_true(f"the day and the age: {came}", came in ([day(0), "today"], [day(1), "1 day"]))
