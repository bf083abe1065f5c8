"""The balance of a lot, a batch and a recall at the page, in a browser: per material and lot what came in, what left and what is there; its print."""
from __future__ import annotations

import shutil
import subprocess

from tests.support.browser import Tab
from tests.support.pages import BrowserTestCase

FORM = "document.querySelector('dialog[open]')"

# The heads of the two tables.
MATERIALS = ["Material", "Lots", "Received", "Produced", "Of other lots", "Consumed", "Scrapped", "In stock", "Where", "Balance"]
LOTS = ["Lot", "Material", "Received", "Produced", "Of lots", "Consumed", "Scrapped", "To lots", "In stock", "State"]

# What became of the flour of F-1: dough, of which some was split off and scrapped, and bread.
OF_FLOUR = [
    ["BREAD", "1", "0 pcs", "196 pcs", "0 pcs", "0 pcs", "0 pcs", "196 pcs", "SHOP: 196 pcs", "closes"],
    ["DOUGH", "2", "0 kg", "296 kg", "0 kg", "120 kg", "6 kg", "170 kg", "C1: 140 kg C2: 30 kg", "closes"],
    ["FLOUR", "1", "500 kg", "0 kg", "0 kg", "400 kg", "0 kg", "100 kg", "A1: 100 kg", "closes"],
]
LOTS_OF_FLOUR = [
    ["BR-1", "BREAD", "0 pcs", "196 pcs", "0 pcs", "0 pcs", "0 pcs", "0 pcs", "196 pcs", "recalled"],
    ["D-1", "DOUGH", "0 kg", "296 kg", "0 kg", "120 kg", "6 kg", "30 kg", "140 kg", "recalled"],
    ["D-5", "DOUGH", "0 kg", "0 kg", "30 kg", "0 kg", "0 kg", "0 kg", "30 kg", "recalled"],
    ["F-1", "FLOUR", "500 kg", "0 kg", "0 kg", "400 kg", "0 kg", "0 kg", "100 kg", "recalled"],
]


class BalancePage(BrowserTestCase):
    """The balance of goods."""

    IS_LONG = True

    def told(self, **command: object) -> None:
        self.served.told(at=self.served.ask("/moment")["at"], by="dora", **command)

    def serve_goods(self) -> None:
        """Serves the mornings' desk with some dough split off and scrapped, and the flour recalled."""
        self.serve()
        self.told(do="split", lot="D-1", sub=0, amount=30, new="D-5", place="C2")
        self.told(do="scrap", lot="D-1", sub=0, amount=6)
        self.told(do="recall", recall="RC-1", lot="F-1", note="moths")

    def opened(self, place: str, what: str, width: int = 1280) -> Tab:
        """Opens a view and in it the balance of something."""
        tab = self.open(place, width=width)
        tab.until(f"document.querySelector('[aria-label=\"Balance of {what}\"]') !== null", f"the button of {what}")
        tab.run(f"document.querySelector('[aria-label=\"Balance of {what}\"]').click()")
        tab.has(f"Balance of {what}", FORM)
        return tab

    def tables(self, tab: Tab) -> list[list[list[str]]]:
        """Returns the cells of the sheet's tables, the heads first."""
        cells = "[...row.cells].map((it) => it.innerText.replaceAll('\\u202f', ' ').trim().split(/\\s+/).join(' '))"
        tables: list[list[list[str]]] = tab.run(f"[...{FORM}.querySelectorAll('table')].map((it) => [...it.rows].map((row) => {cells}))")
        return tables

    def test_balance_has_all_that_came_of_a_lot(self) -> None:
        self.serve_goods()
        tab = self.opened("quality/lot/F-1", "lot F-1")
        materials, lots = self.tables(tab)
        self.check("the materials", materials, [MATERIALS, *OF_FLOUR])
        self.check("the lots", lots, [LOTS, *LOTS_OF_FLOUR])
        self.check("the balance of the recall is that of its lot", self.tables(self.opened("quality/recall/RC-1", "recall RC-1")), [materials, lots])
        self.check("what the console tells of errors", tab.errors(), [])

    def test_balance_says_what_came_of_other_lots(self) -> None:
        self.serve_goods()
        materials, lots = self.tables(self.opened("quality/lot/D-5", "lot D-5"))
        self.check("the material", materials[1:], [["DOUGH", "1", "0 kg", "0 kg", "30 kg", "0 kg", "0 kg", "30 kg", "C2: 30 kg", "closes"]])
        self.check("the lot", lots[1:], LOTS_OF_FLOUR[2:3])
        materials, lots = self.tables(self.opened("quality/batch/B-3", "batch B-3"))
        self.check("the material of a batch", materials[1:], OF_FLOUR[:1])
        self.check("its lots", lots[1:], LOTS_OF_FLOUR[:1])

    def test_balance_is_whole_on_paper(self) -> None:
        if not shutil.which("pdftotext"):
            self.leave_out("the text of a printed balance", "there is no pdftotext")
            self.skipTest("there is no pdftotext")
        self.serve_goods()
        for width in (1280, 390):
            tab = self.opened("quality/recall/RC-1", "recall RC-1", width)
            tab.printed(self.folder / "balance.pdf")
            text = subprocess.run(["pdftotext", "-layout", "balance.pdf", "-"], cwd=self.folder, capture_output=True, text=True).stdout.replace("\u202f", " ")
            words = " ".join(text.split())
            for wanted in ("Balance of recall RC-1", "Printed 20", "by anna", "500 kg", "400 kg", "296 kg", "BR-1", "D-5", "Signed of the balance of recall RC-1"):
                self.check_true(f"{wanted} at {width}", wanted in words)
            self.check(f"materials that close at {width}", words.count("closes"), 4)
            self.check_true(f"the view isn't printed at {width}", "Batches that still run" not in words)
