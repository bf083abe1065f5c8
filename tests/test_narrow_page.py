"""The page on phones and tablets, in a browser: a list or a thing at a time, the way back, the status, and what is pressed with gloves."""
from __future__ import annotations

from tests.support.browser import Tab
from tests.support.pages import MORNINGS, BrowserTestCase

# The widths of a phone and of a tablet, upright.
PHONE, TABLET = 390, 820

# How many orders the desk has besides those of the mornings.
MANY = 24

# The places that are looked at for what is too low or too wide.
PLACES = (
    "today", "board", "planner", "planner/O-4", "shift", "shift/B-3", "warehouse", "warehouse/FLOUR", "warehouse/FLOUR/F-1", "warehouse/place",
    "warehouse/place/A1", "quality", "quality/lot/F-1",
    "quality/recall/RC-1", "quality/batch/B-1",
)

# What can be pressed or written into and is lower than 44 pixels; a link in a sentence may be.
LOW = """[...document.querySelectorAll("button, a, input, select, summary, textarea")]
  .filter((it) => it.getClientRects().length && !it.closest("p, li, svg") && it.getBoundingClientRect().height < 44)
  .map((it) => it.getAttribute("aria-label") || it.innerText || it.name)"""

# By how much the page is wider than the screen, and the tables and cards that are scrolled sideways.
WIDE = """[document.documentElement.scrollWidth - innerWidth,
  ...[...document.querySelectorAll(".wide, .card, dialog")].filter((it) => it.scrollWidth > it.clientWidth).map((it) => it.innerText.slice(0, 40))]"""

# The heads of the cards that are seen, and how far below the top of the screen the first is.
HEADS = """[...document.querySelectorAll("#view h2")].filter((it) => it.getClientRects().length)"""


class NarrowPage(BrowserTestCase):
    """The page on a narrow screen."""

    IS_LONG = True

    def many(self) -> None:
        """Releases more orders than a screen has rows."""
        moment = self.served.ask("/moment")["at"]
        order = {"recipe": "BREAD", "version": 1, "size": 100, "due": "2030-03-01", "priority": 5}
        self.served.told(at=moment, by="ben", do="import_orders", orders=[{"order": f"M-{k:02}", **order} for k in range(MANY)])
        for k in range(MANY):
            self.served.told(at=moment, by="ben", do="release", order=f"M-{k:02}", batch=f"B-M-{k:02}")

    def shown(self, tab: Tab, place: str) -> None:
        """Waits until a place is drawn."""
        name = place.split("/")[0]
        tab.until(f"location.hash === '#{place}' && drawn === location.hash && document.getElementById('view').dataset.ready.startsWith('{name}')", place)

    def heads(self, tab: Tab) -> list[str]:
        heads: list[str] = tab.run(f"{HEADS}.map((it) => it.innerText)")
        return heads

    def test_way_back_from_a_thing_leads_to_where_the_list_was(self) -> None:
        self.serve()
        self.many()
        for width in (PHONE, TABLET):
            tab = self.open("shift", width=width, height=700)
            self.check(f"what is seen at {width}", self.heads(tab), ["Batches"])
            tab.click("B-M-17", tag="a")
            self.shown(tab, "shift/B-M-17")
            self.check(f"the batch at {width}", self.heads(tab), ["Batch B-M-17", "Materials", "Bookings, the last first"])
            self.check_true("the batch is at the top", tab.run(f"scrollY === 0 && {HEADS}[0].getBoundingClientRect().top < 250"))
            self.check("where the keyboard is", tab.run("document.activeElement.innerText"), "Batch B-M-17")
            before = tab.run("tops.get('#shift')")
            self.check_true(f"the list was scrolled: {before}", before > 300)
            tab.click("\u2039 Back to the batches", tag="a")
            self.shown(tab, "shift")
            self.check(f"where the list is at {width}", tab.run("Math.round(scrollY)"), round(before))
            self.check("where the keyboard is", tab.run("document.activeElement.innerText"), "B-M-17")
            tab.click("B-M-20", tag="a")
            self.shown(tab, "shift/B-M-20")
            tab.run("history.back()")
            self.shown(tab, "shift")
            self.check("where the browser's own way back leads", tab.run("[scrollY > 300, scrollY]"), [True, tab.run("tops.get('#shift')")])
            self.check("what the console tells of errors", tab.errors(), [])

    def test_what_is_found_is_seen_first(self) -> None:
        self.serve()
        self.many()
        for width in (PHONE, TABLET):
            tab = self.open("quality", width=width, height=700)
            for start, code, place, head, back in (
                ("quality", "F-1", "quality/lot/F-1", "Lot F-1", "recalls and holds"), ("planner", "O-4", "planner/O-4", "Order O-4", "the orders"),
                ("warehouse", "D-1", "warehouse/DOUGH/D-1", "Lot D-1", "the lots of DOUGH"), ("shift", "B-3", "shift/B-3", "Batch B-3", "the batches"),
            ):
                tab.run(f"location.hash = '{start}'")
                self.shown(tab, start)
                tab.fill("find", code)
                tab.key("Enter")
                self.shown(tab, place)
                self.check(f"{code} at {width}", self.heads(tab)[0], head)
                self.check_true(f"{code} at {width} is at the top", tab.run(f"{HEADS}[0].getBoundingClientRect().top < 250"))
                self.check(f"the way back from {code}", tab.text("document.getElementById('back')"), f"\u2039 Back to {back}")

    def test_batch_that_is_not_seen_takes_no_scan(self) -> None:
        self.serve()
        tab = self.open("shift", width=PHONE)
        tab.scan("D-1")
        self.shown(tab, "quality/lot/D-1")
        self.check("whether a form is open", tab.run("document.getElementById('dialog').open"), False)
        tab.run("location.hash = 'shift/B-3'")
        self.shown(tab, "shift/B-3")
        tab.scan("D-1")
        tab.has("Consume DOUGH in B-3", "document.querySelector('dialog[open]')")

    def test_status_and_roles_are_always_seen(self) -> None:
        self.serve()
        self.many()
        stand, seen = "document.getElementById('stand')", "(it) => it.height > 0 && it.top >= 0 && it.bottom <= innerHeight"
        tab = self.open("warehouse/FLOUR", width=PHONE, height=500)
        number = MORNINGS + 1 + MANY
        tab.has(f"{number} bookings, last ", stand)
        tab.run("scrollTo(0, 9999)")
        for it in (stand, "document.querySelector('nav a')", "document.getElementById('back')"):
            self.check_true(it, tab.run(f"({seen})({it}.getBoundingClientRect())"))
        tab.run("document.querySelector('[aria-label=\"Choose F-1/0 for a merge\"]').click()")
        self.served.told(at=self.served.ask("/moment")["at"], by="ben", do="unhold", lot="F-2", hold="H-1")
        tab.run("lookAgain()")
        tab.has("there are new bookings: Look again", stand)
        tab.click("Look again")
        tab.has(f"{number + 1} bookings", stand)
        self.served.kill()
        tab.run("lookAgain()")
        tab.has("no answer", stand)
        self.check_true("what is said is seen", tab.run(f"({seen})({stand}.getBoundingClientRect())"))

    def test_all_that_is_pressed_is_high_and_nothing_is_too_wide(self) -> None:
        self.serve()
        self.served.told(at=self.served.ask("/moment")["at"], by="ben", do="recall", recall="RC-1", lot="F-1", note="moths in the sacks of the supplier")
        for width in (360, PHONE, TABLET):
            tab = self.open("planner", width=width)
            for place in PLACES:
                tab.run(f"location.hash = '{place}'")
                self.shown(tab, place)
                self.check(f"what is low in {place} at {width}", tab.run(LOW), [])
                self.check(f"what is wide in {place} at {width}", tab.run(WIDE), [0])
            for place, button in (("planner", "New recipe"), ("warehouse/FLOUR", "Receive a lot"), ("shift/B-3", "Abort"), ("planner", "?")):
                tab.run(f"location.hash = '{place}'")
                self.shown(tab, place)
                tab.click(button)
                tab.until("document.getElementById('dialog').open")
                self.check(f"what is low in the form of {button} at {width}", tab.run(LOW), [])
                self.check(f"what is wide in the form of {button} at {width}", tab.run(WIDE), [0])
                tab.key("Escape")
                tab.until("!document.getElementById('dialog').open")
            self.check("what the console tells of errors", tab.errors(), [])
