"""A recall at the page, in a browser: where its goods are as a table to walk along, the batches that still run, its print, and the reason."""
from __future__ import annotations

import shutil
import subprocess

from tests.support.browser import Tab
from tests.support.pages import MORNINGS, BrowserTestCase

FORM = "document.querySelector('dialog[open]')"
CARD = "[...document.querySelectorAll('.card')].find((it) => it.querySelector('h2').innerText === %r)"
GOODS, RUNNING = CARD % "Where its goods are", CARD % "Batches that still run"


class RecallPage(BrowserTestCase):
    """The view of a recall."""

    IS_LONG = True

    def told(self, **command: object) -> None:
        self.served.told(at=self.served.ask("/moment")["at"], by="dora", **command)

    def recalled(self) -> Tab:
        """Recalls the flour of which dough and bread came, and opens the view of the recall."""
        self.serve()
        self.told(do="hold", lot="D-1", hold="H-9", note="too wet")
        self.told(do="recall", recall="RC-1", lot="F-1", note="moths")
        return self.open("quality/recall/RC-1")

    def rows(self, tab: Tab, card: str) -> list[list[str]]:
        """Returns the cells of a card's first table."""
        rows: list[list[str]] = tab.run(
            f"[...{card}.querySelector('table').tBodies[0].rows].map((row) => [...row.cells].map((it) => it.innerText.trim().replaceAll('\\u202f', ' ')))")
        return rows

    def boxes(self, tab: Tab) -> list[bool]:
        boxes: list[bool] = tab.run(f"[...{GOODS}.querySelectorAll('input')].map((it) => it.checked)")
        return boxes

    def test_goods_of_a_recall_are_a_table_to_walk_along(self) -> None:
        tab = self.recalled()
        goods = [row[1:] for row in self.rows(tab, GOODS)]
        self.check("the rows, by their places", goods, [
            ["A1", "F-1", "FLOUR", "100 kg", "", "recalled"], ["C1", "D-1", "DOUGH", "176 kg", "on hold", "recalled"],
            ["SHOP", "BR-1", "BREAD", "196 pcs", "", "recalled"],
        ])
        totals = tab.run(f"[...{GOODS}.querySelectorAll('table')[1].tBodies[0].rows].map((it) => it.innerText.replaceAll('\\u202f', ' ').split(/\\s*\\t\\s*/))")
        self.check("the totals", totals, [["BREAD", "196 pcs", "1"], ["DOUGH", "176 kg", "1"], ["FLOUR", "100 kg", "1"]])
        self.check("the batches that still run", [row[:3] for row in self.rows(tab, RUNNING)], [["B-2", "running", "O-2"], ["B-3", "running", "O-3"]])
        heads = tab.run("[...document.querySelectorAll('.stack:last-child h2')].map((it) => it.innerText)")
        self.check("what comes first", heads[:3], ["Recall RC-1", "Batches that still run", "Where its goods are"])

    def test_goods_are_sorted_by_a_press_of_a_head(self) -> None:
        tab = self.recalled()
        lots = f"[...{GOODS}.querySelector('table').tBodies[0].rows].map((it) => it.cells[2].innerText).join(' ')"
        for head, wanted in (("Lot", "BR-1 D-1 F-1"), ("Amount", "F-1 D-1 BR-1"), ("Amount \u25b4", "BR-1 D-1 F-1"), ("Place", "F-1 D-1 BR-1")):
            tab.click(head, within=GOODS)
            tab.until(f"{lots} === '{wanted}'", f"the goods behind a press of {head}")
        tab.click("Material", within=GOODS)
        tab.until("location.hash === '#quality/recall/RC-1?sort=material'", "the address")
        self.check("what the console tells of errors", tab.errors(), [])

    def test_ticks_are_kept_for_each_recall(self) -> None:
        tab = self.recalled()
        tab.has("0 of 3 rows ticked", GOODS)
        tab.run(f"{GOODS}.querySelectorAll('input')[1].click()")
        tab.has("1 of 3 rows ticked", GOODS)
        tab.reload()
        tab.has("1 of 3 rows ticked")
        self.check("the boxes", self.boxes(tab), [False, True, False])
        self.told(do="recall", recall="RC-2", lot="F-1", note="mice")
        none = [False, False, False]
        for place, wanted in (("quality/recall/RC-2", none), ("quality/lot/F-1", none), ("quality/recall/RC-1", [False, True, False])):
            tab.run(f"location.hash = '{place}'")
            tab.until(f"drawn === '#{place}'")
            self.check(f"the boxes of {place}", self.boxes(tab), wanted)
        tab.run(f"{GOODS}.querySelectorAll('input')[1].click()")
        tab.has("0 of 3 rows ticked", GOODS)
        self.check("what the console tells of errors", tab.errors(), [])

    def test_goods_of_a_lifted_recall_are_still_seen(self) -> None:
        tab = self.recalled()
        tab.click("Lift", within=CARD % "Recall RC-1")
        tab.click("Lift", within=FORM)
        tab.has("It is lifted, and reaches nothing any more.")
        self.check("what is recalled", [row[6] for row in self.rows(tab, GOODS)], ["", "", ""])

    def test_hold_and_recall_want_a_reason(self) -> None:
        self.serve()
        tab = self.open("quality/lot/F-1")
        for button in ("Hold", "Recall"):
            tab.click(button)
            for note in ("", "   "):
                tab.fill("note", note)
                tab.click(button, within=FORM)
                self.check(f"whether {button} is whole with {note!r}", tab.run(f"{FORM}.querySelector('form').checkValidity()"), False)
                self.check(f"the number behind {button} without a reason", self.served.ask("/desk")["seq"], MORNINGS)
            tab.key("Escape")
            tab.until("!dialog.open")

    def test_recall_is_whole_on_paper(self) -> None:
        if not shutil.which("pdftotext"):
            self.leave_out("the text of a printed recall", "there is no pdftotext")
            self.skipTest("there is no pdftotext")
        self.serve()
        place = "HALL 7, RACK 12, LEVEL 3, LEFT OF THE RAMP TO THE COLD ROOM"
        for k in range(40):
            self.told(do="split", lot="F-1", sub=0, amount=1, new=f"FLOUR-OF-THE-NORTH-{k:02}", place=f"{place[:57]} {k:02}")
        self.told(do="recall", recall="RC-1", lot="F-1", note="moths in the sacks of the supplier, seen by erna at the ramp")
        for width in (1280, 390):
            tab = self.open("quality/recall/RC-1", width=width)
            tab.printed(self.folder / "recall.pdf")
            text = subprocess.run(["pdftotext", "-layout", "recall.pdf", "-"], cwd=self.folder, capture_output=True, text=True).stdout.replace("\u202f", " ")
            words = " ".join(text.split())
            for k in range(40):
                self.check_true(f"lot {k} at {width}", f"FLOUR-OF-THE-NORTH-{k:02}" in words.replace("- ", "-"))
            self.check(f"marks that are whole at {width}", words.count("recalled"), 43)
            for wanted in ("Recall RC-1", "Seen Place", "Printed 20", "by anna", "196 pcs", "Batches that still run"):
                self.check_true(f"{wanted} at {width}", wanted in words)
            self.check_true(f"the list of holds isn't printed at {width}", "On hold" not in text.split("Where its goods are")[0])
