"""What the page prints on labels and sheets, in a browser: texts and pages as on paper, and bar codes as a reader of them has them."""
from __future__ import annotations

import pathlib
import shutil
import subprocess
import time

from tests.support.browser import Tab
from tests.support.pages import MORNINGS, BrowserTestCase
from tests.support.program import SECONDS

FORM = "document.querySelector('dialog[open]')"

# The programs that read a printed page: its text, its size, a picture of it, and the bar codes in that.
READERS = ("pdftotext", "pdfinfo", "pdftoppm", "zbarimg")

# How many dots an inch of such a picture has: as many as a printer of labels.
DOTS = 203

# Lots and texts as long as they may be.
LONGEST, LONG = "W" * 24, "M" * 60


class Paper(BrowserTestCase):
    """What is printed on labels and sheets."""

    IS_LONG = True

    def setUp(self) -> None:
        super().setUp()
        for it in READERS:
            if not shutil.which(it):
                self.leave_out("labels and sheets as they are printed", f"there is no {it}")
                self.skipTest(f"there is no {it}")

    def read(self, *words: str) -> str:
        """Returns what a program says in the test's folder."""
        ran = subprocess.run(words, cwd=self.folder, capture_output=True, text=True, timeout=SECONDS, stdin=subprocess.DEVNULL)
        return ran.stdout.replace("\u202f", " ")

    def printed(self, tab: Tab) -> list[str]:
        """Prints what is shown, and returns the text of each page."""
        tab.printed(self.folder / "paper.pdf")
        return self.read("pdftotext", "-raw", "paper.pdf", "-").rstrip("\f").split("\f")

    def codes(self) -> list[str]:
        """Returns the bar codes of all pages that were printed."""
        for it in self.folder.glob("picture*"):
            it.unlink()
        self.read("pdftoppm", "-r", str(DOTS), "-gray", "-png", "paper.pdf", "picture")
        pictures = sorted(it.name for it in pathlib.Path(self.folder).glob("picture*"))
        return self.read("zbarimg", "-q", "--raw", "-Sdisable", "-Scode128.enable", *pictures).split()

    def now(self) -> int:
        moment: int = self.served.ask("/moment")["at"]
        return moment

    def filled(self, tab: Tab, **fields: str | int) -> None:
        """Fills the form that is open and presses its button."""
        for name, value in fields.items():
            tab.fill(name, value)
        tab.run(f"{FORM}.querySelector('.end button:last-child').focus()")
        tab.key("Enter")

    def check_label(self, tab: Tab, lot: str, *texts: str) -> None:
        """Opens the label that is offered, and checks what is on it."""
        tab.click("Label", within="document.getElementById('notice')")
        tab.has(f"Label of {lot}", FORM)
        pages = self.printed(tab)
        self.check(f"the pages of {lot}", len(pages), 1)
        for it in (lot, *texts, time.strftime("%Y-%m-%d")):
            self.check_true(f"{it} on the label of {lot}: {pages[0]}", it in " ".join(pages[0].split()))
        self.check(f"the bars of {lot}", self.codes(), [lot])
        self.check("what else is printed", "Operator" in pages[0], False)
        tab.key("Escape")
        tab.until("!dialog.open")

    def test_label_is_offered_for_what_comes_to_be(self) -> None:
        self.serve()
        tab = self.open("warehouse/FLOUR")
        tab.click("Receive a lot")
        self.filled(tab, lot="f-9", amount=1250, place="K1-07")
        tab.has(f"1 250 kg as F-9 received. Number {MORNINGS + 1}.")
        tab.until("!dialog.open")
        self.check_label(tab, "F-9", "FLOUR", "1 250 kg", "K1-07")
        tab.click("Split", row="F-9/0")
        self.filled(tab, amount=250, new="f-10", place="K1-08")
        tab.has("250 kg of F-9 split off as F-10.")
        tab.until("!dialog.open")
        self.check_label(tab, "F-10", "FLOUR", "250 kg", "K1-08")
        tab.run("location.hash = 'shift/B-3'")
        tab.click("Produce")
        self.filled(tab, lot="br-9", amount=4)
        tab.has("4 pcs as BR-9 produced.")
        tab.until("!dialog.open")
        self.check_label(tab, "BR-9", "BREAD", "4 pcs", "no place")
        self.check("what the console tells of errors", tab.errors(), [])

    def test_each_part_has_a_label_of_its_own_page(self) -> None:
        self.serve()
        self.served.told(at=self.now(), by="ben", do="divide", lot="D-1", sub=0, amount=30, place="A9")
        parts = [f"D-1/{it['no']}" if it["no"] else "D-1" for it in self.served.ask("/lots/D-1")["sublots"] if it["stock"]]
        tab = self.open("quality/lot/D-1")
        tab.click("Label")
        tab.has(f"{len(parts)} labels of D-1", FORM)
        pages = self.printed(tab)
        self.check("the pages", len(pages), len(parts))
        self.check("their bars", sorted(self.codes()), sorted(parts))
        size = next(it for it in self.read("pdfinfo", "paper.pdf").splitlines() if it.startswith("Page size"))
        self.check("the size of a page, in points of 1/72 inch", [round(float(it)) for it in size.split()[2:5:2]], [283, 170])
        tab.key("Escape")
        tab.run("location.hash = 'warehouse/DOUGH'")
        tab.click("Label", row=parts[-1])
        tab.has(f"Label of {parts[-1]}", FORM)
        self.check("the page of one part", len(self.printed(tab)), 1)
        self.check("its bars", self.codes(), [parts[-1]])

    def test_label_of_the_longest_texts_is_whole(self) -> None:
        self.serve()
        self.served.told(at=self.now(), by="ben", do="add_definition", **{"def": "Q" * 24, "class": "RAW"}, name=LONG, unit="kilogram")
        self.served.told(at=self.now(), by="ben", do="receive", lot=LONGEST, **{"def": "Q" * 24}, amount=10 ** 15, place=LONG)
        tab = self.open(f"quality/lot/{LONGEST}", width=390)
        tab.click("Label")
        tab.has(f"Label of {LONGEST}", FORM)
        self.check("what is wider than the screen", tab.run("[...document.querySelectorAll('dialog, .label')].map((it) => it.scrollWidth > it.clientWidth)"),
                   [False, False])
        pages = self.printed(tab)
        self.check("the pages", len(pages), 1)
        words = "".join(pages[0].split())
        for it in (LONGEST, "Q" * 24, LONG, "1000000000000000kilogram"):
            self.check_true(f"{it} on the label: {words}", it in words)
        self.check("the bars", self.codes(), [LONGEST])

    def long_batch(self) -> None:
        """Starts batch B-9, of a recipe of 40 phases with parameters between them."""
        phases = [{"kind": "phase", "unit": "OVEN", "oper": "BAKE", "phase": f"STEP-{it}"} for it in range(1, 41)]
        goods = [{"kind": "in", "def": "DOUGH", "qty": 60}, {"kind": "out", "def": "BREAD", "qty": 100}]
        lines = [*goods, *phases[:2], {"kind": "par", "name": "TEMP", "value": "220 C"}, *phases[2:]]
        recipe = {"recipe": "LONG", "version": 1, "product": "BREAD", "base": 100, "min": 1, "max": 900, "title": "Long bread", "lines": lines}
        order = {"order": "O-9", "recipe": "LONG", "version": 1, "size": 150, "due": "2030-03-01", "priority": 7}
        self.served.told(at=self.now(), by="ben", do="add_recipe", **recipe)
        self.served.told(at=self.now(), by="ben", do="approve", recipe="LONG", version=1)
        self.served.told(at=self.now(), by="ben", do="import_orders", orders=[order])
        self.served.told(at=self.now(), by="ben", do="release", order="O-9", batch="B-9")

    def test_sheet_of_a_batch_is_whole_on_paper(self) -> None:
        self.serve()
        self.long_batch()
        tab = self.open("shift/B-9")
        tab.click("Sheet")
        tab.has("Sheet of B-9", FORM)
        pages = self.printed(tab)
        self.check_true(f"several pages: {len(pages)}", len(pages) > 1)
        for number, page in enumerate(pages, 1):
            for it in (f"page {number} of {len(pages)}", "Batch B-9"):
                self.check_true(f"{it} on page {number}", it in page)
        words = " ".join(" ".join(pages).split())
        for it in ("O-9", "BREAD", "150 pcs", "LONG 1 Long bread", "2030-03-01", "DOUGH", "90 kg", "TEMP: 220 C", "Signed of batch B-9", "Made by", " by anna"):
            self.check_true(f"{it} on the sheet", it in words)
        places = [words.find(f"OVEN BAKE STEP-{it} ") for it in range(1, 41)]
        self.check("the phases in their order", (-1 in places, places), (False, sorted(places)))
        self.check_true("the parameter before its phase", places[1] < words.find("TEMP: 220 C") < places[2])
        self.check("the bars", sorted(self.codes()), sorted(["B-9", *(f"B-9/{it}" for it in range(1, 41))]))
        self.check("the boxes", tab.run(f"{FORM}.querySelectorAll('.tickbox').length"), 42)
        tab.key("Escape")
        tab.until("!dialog.open")
        tab.run("dispatchEvent(new Event('beforeprint'))")
        self.check("what is printed without the sheet", tab.run("[document.getElementById('paper').children.length, document.styleSheets[0].cssRules.length - "
                   "[...document.styleSheets[0].cssRules].filter((it) => !it.cssText.includes('B-9')).length]"), [0, 0])
        self.check("what the console tells of errors", tab.errors(), [])

    def test_scanned_phase_leads_to_its_button(self) -> None:
        self.serve()
        self.long_batch()
        tab = self.open("shift/B-9")
        tab.scan("B-9/1")
        tab.has("Batch B-9 doesn't run.", "document.getElementById('notice')")
        tab.click("Start")
        tab.has("Batch B-9: start.")
        tab.scan("B-9/2")
        tab.has("Phase 1 of B-9 is next, and not phase 2.", "document.getElementById('notice')")
        tab.scan("B-9/1")
        tab.has("Phase 1 of B-9 is next. Nothing is booked yet", "document.getElementById('notice')")
        self.check("where the keyboard is", tab.run("document.activeElement.innerText"), "Phase STEP-1 done")
        number = self.served.ask("/desk")["seq"]
        tab.key("Enter")
        tab.has(f"Phase STEP-1 of B-9 done. Number {number + 1}.")
        tab.scan("B-9/1")
        tab.has("Phase 1 of B-9 is done already.", "document.getElementById('notice')")
        tab.scan("B-3/1")
        tab.until("location.hash === '#shift/B-3'")
        self.check("the number", self.served.ask("/desk")["seq"], number + 1)

    def test_sheet_is_not_too_wide_for_a_screen(self) -> None:
        self.serve()
        for width in (390, 820, 1280):
            tab = self.open("shift/B-3", width=width)
            tab.click("Sheet")
            tab.has("Sheet of B-3", FORM)
            wide = "[...document.querySelectorAll('html, dialog, dialog .wide')].filter((it) => it.scrollWidth > it.clientWidth).length"
            self.check(f"what is scrolled sideways at {width}", tab.run(wide), 0)
