"""The history of a thing at the page, in a browser: each command with a reference that names it, who put a hold on it and who took it off."""
from __future__ import annotations

from tests.support.browser import Tab
from tests.support.pages import MORNINGS, BrowserTestCase

FORM = "document.querySelector('dialog[open]')"
HEADS = ["Number", "When", "By", "What", "Details", "Note"]


class HistoryPage(BrowserTestCase):
    """The sheet of a history."""

    IS_LONG = True

    def told(self, by: str, ref: str, **command: object) -> None:
        self.served.told(at=self.served.ask("/moment")["at"], by=by, ref=ref, **command)

    def show(self, tab: Tab, place: str, what: str) -> list[list[str]]:
        """Opens the history of a thing, and returns its heads and rows, without the moments."""
        tab.run(f"location.hash = '{place}'")
        button = f"document.querySelector('[aria-label=\"History of {what}\"]')"
        tab.until(f"{button} !== null", f"the button of {what}")
        tab.run(f"{button}.click()")
        tab.has(f"History of {what}", FORM)
        rows: list[list[str]] = tab.run(f"[...{FORM}.querySelectorAll('tr')].map((row) => [...row.cells].map((it) => it.innerText.trim().replaceAll('\\u202f', ' ')))")
        tab.click("Close", within=FORM)
        tab.until("!dialog.open")
        self.check(f"the heads of {what}", rows[0], HEADS)
        return [[*row[:1], *row[2:]] for row in rows[1:]]

    def test_who_put_a_hold_on_a_lot_and_who_took_it_off_is_seen(self) -> None:
        self.serve()
        tab = self.open("quality/lot/F-1")
        tab.click("History")
        tab.has("No command with a reference names it.", FORM)
        tab.click("Close", within=FORM)
        self.told("erna", "R-1", do="hold", lot="F-1", hold="H-1", note="wet sacks")
        for k in range(150):
            self.told("dora", f"C-{k}", do="add_class", **{"class": f"K-{k}"}, name="F-1" if k == 149 else "")
        self.told("fred", "R-2", do="unhold", lot="F-1", hold="H-1", note="dry")
        self.told("anna", "R-3", do="scrap", lot="F-1", sub=0, amount=10)
        self.told("erna", "R-4", do="recall", recall="RC-1", lot="F-1", note="moths")
        tab.reload()
        first = MORNINGS + 1
        rows = self.show(tab, "quality/lot/F-1", "lot F-1")
        self.check("the lot", rows, [
            [f"{first}", "erna", "hold", "lot F-1, hold H-1", "wet sacks"], [f"{first + 150}", "dora", "add_class", "class K-149, name F-1", ""],
            [f"{first + 151}", "fred", "unhold", "lot F-1, hold H-1", "dry"], [f"{first + 152}", "anna", "scrap", "lot F-1, part 0, amount 10", ""],
            [f"{first + 153}", "erna", "recall", "recall RC-1, lot F-1", "moths"],
        ])
        rows = self.show(tab, "quality/recall/RC-1", "recall RC-1")
        self.check("the recall", rows, [[f"{first + 153}", "erna", "recall", "recall RC-1, lot F-1", "moths"]])
        self.check("what the console tells of errors", tab.errors(), [])

    def test_history_of_a_batch_has_its_words(self) -> None:
        self.serve()
        self.told("gus", "R-1", do="batch", batch="B-2", word="pause")
        tab = self.open("quality/batch/B-2")
        rows = self.show(tab, "quality/batch/B-2", "batch B-2")
        self.check("the batch", rows, [[f"{MORNINGS + 1}", "gus", "batch", "batch B-2, pause", ""]])
        self.check("what the console tells of errors", tab.errors(), [])
