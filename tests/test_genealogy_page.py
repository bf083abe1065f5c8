"""The picture of a genealogy at the page, in a browser: by materials where it is large, and beginning at what is looked at."""
from __future__ import annotations

import json
import pathlib

from tests.support import Json
from tests.support.browser import Tab
from tests.support.pages import MORNINGS, BrowserTestCase

# How many lots are split off one: more than a picture has boxes.
SPLIT_OFF = 310

# The texts of the boxes, each with the place to which it leads.
BOXES = """[...document.querySelectorAll(".picture .box")].map((it) => [[...it.parentElement.querySelectorAll("text")].map((one) => one.textContent)
  .join(" ").replaceAll("\\u202f", " "), it.parentElement.getAttribute("href")])"""

# Whether the box of what is looked at is seen within the picture, and whether the picture is larger than what is seen of it.
SEEN = """(() => {
  const frame = document.querySelector(".picture"), outer = frame.getBoundingClientRect(), inner = frame.querySelector(".here").getBoundingClientRect();
  const isWithin = inner.top >= outer.top && inner.bottom <= outer.bottom && inner.left >= outer.left && inner.right <= outer.right;
  return [isWithin, frame.scrollHeight > frame.clientHeight + 200];
})()"""


def command(do: str, **fields: Json) -> bytes:
    """Returns the line of a command."""
    return json.dumps({"at": 1_700_000_000, "by": "carl", "do": do, **fields}).encode() + b"\n"


def fan() -> bytes:
    """Returns the commands of a lot of which others are split off: of one of these a batch consumed, and some are on hold or recalled."""
    lines = [{"kind": "in", "def": "FLOUR", "qty": 1}, {"kind": "out", "def": "DOUGH", "qty": 2}, {"kind": "phase", "unit": "U", "oper": "O", "phase": "P"}]
    order = {"order": "O-1", "recipe": "DOUGH", "version": 1, "size": 2, "due": "2030-03-01", "priority": 5}
    return b"".join([
        command("add_class", **{"class": "RAW"}, name=""), command("add_definition", **{"def": "FLOUR", "class": "RAW"}, name="Flour", unit="kg"),
        command("add_definition", **{"def": "DOUGH", "class": "RAW"}, name="Dough", unit="kg"),
        command("add_recipe", recipe="DOUGH", version=1, product="DOUGH", base=2, min=1, max=9, title="", lines=lines),
        command("approve", recipe="DOUGH", version=1), command("import_orders", orders=[order]), command("release", order="O-1", batch="B-1"),
        command("batch", batch="B-1", word="start"), command("receive", lot="F-0", **{"def": "FLOUR"}, amount=1000, place="A1"),
        *(command("split", lot="F-0", sub=0, amount=2, new=f"F-{it}", place="A2") for it in range(1, SPLIT_OFF + 1)),
        command("consume", batch="B-1", lot="F-7", sub=0, amount=1), command("produce", batch="B-1", lot="D-1", **{"def": "DOUGH"}, amount=2, place="C1"),
        *(command("hold", lot=f"F-{it}", hold="H-1", note="wet") for it in (3, 4)), command("recall", recall="RC-1", lot="D-1", note="sour"),
    ])


class Genealogies(BrowserTestCase):
    """The picture of a genealogy."""

    IS_LONG = True

    # The file of that desk.
    fan: pathlib.Path

    @classmethod
    def setUpClass(cls) -> None:
        super().setUpClass()
        cls.fan = cls.made("fan", fan())

    def rows(self, tab: Tab) -> list[str]:
        """Returns the rows of the table of materials."""
        tab.run("document.querySelectorAll('#view details').forEach((it) => { it.open = true; })")
        plain = "it.innerText.replaceAll('\\u202f', ' ').replace(/\\s+/g, ' ').trim()"
        rows: list[str] = tab.run(f"[...document.querySelector('#view details').querySelectorAll('tbody tr')].map((it) => {plain})")
        return rows

    def test_large_genealogy_is_drawn_by_materials(self) -> None:
        self.serve(begun=self.fan)
        tab = self.open("quality/lot/F-0")
        tab.has(f"{SPLIT_OFF + 3} lots and batches are drawn by their materials.")
        left = 1000 - 2 * SPLIT_OFF
        self.check("the boxes", sorted(tab.run(BOXES)), sorted([
            [f"F-0 FLOUR {left} kg", "#quality/lot/F-0"], [f"{SPLIT_OFF} lots FLOUR {2 * SPLIT_OFF - 1} kg 2 HELD", "#warehouse/FLOUR"],
            ["B-1 of DOUGH", "#quality/batch/B-1"], ["D-1 DOUGH 2 kg RECALLED", "#quality/lot/D-1"],
        ]))
        self.check("the box of what is looked at", tab.run("document.querySelectorAll('.picture .here').length"), 1)
        self.check("the table", self.rows(tab), [
            f"itself lots FLOUR 1 {left} kg 0 0", f"of it lots FLOUR {SPLIT_OFF} {2 * SPLIT_OFF - 1} kg 2 0", "of it batches DOUGH 1 0 0",
            "of it lots DOUGH 1 2 kg 0 1",
        ])
        self.check("what the console tells of errors", tab.errors(), [])

    def test_small_genealogy_is_drawn_by_materials_where_that_is_chosen(self) -> None:
        self.serve()
        tab = self.open("quality/lot/D-1")
        self.check("each is a box", sorted(it for it, _ in tab.run(BOXES)), sorted([
            "F-1 FLOUR 100 kg", "Y-1 YEAST 14 000 g", "B-1 batch of DOUGH", "D-1 DOUGH 176 kg", "B-3 batch of BREAD", "BR-1 BREAD 196 pcs",
        ]))
        tab.click("by material")
        tab.until("location.hash === '#quality/lot/D-1?picture=by%20material' && drawn === location.hash")
        self.check("the boxes", sorted(it for it, _ in tab.run(BOXES)), sorted([
            "F-1 FLOUR 100 kg", "Y-1 YEAST 14 000 g", "B-1 of DOUGH", "D-1 DOUGH 176 kg", "B-3 of BREAD", "BR-1 BREAD 196 pcs",
        ]))
        tab.click("each")
        tab.until(f"location.hash === '#quality/lot/D-1' && {BOXES}.length === 6")
        self.check("what the console tells of errors", tab.errors(), [])

    def test_picture_begins_at_what_is_looked_at(self) -> None:
        self.serve()
        now = self.served.ask("/moment")["at"]
        for it in range(60):
            self.served.told(at=now, by="carl", do="split", lot="F-1", sub=0, amount=1, new=f"S-{it:02}", place="A1")
        for width in (390, 1280):
            tab = self.open("quality/lot/F-1", width=width)
            self.check(f"F-1 at {width}", tab.run(SEEN), [True, True])
            tab.run("document.querySelector('.picture').scrollTop = 7")
            self.served.told(at=now, by="carl", do="hold", lot="Y-1", hold=f"H-{width}", note="")
            tab.run("lookAgain()")
            tab.until(f"view.dataset.ready.endsWith(' {self.served.ask('/desk')['seq']}')")
            self.check(f"a picture that was scrolled at {width}", tab.run("document.querySelector('.picture').scrollTop"), 7)
            tab.run("location.hash = 'quality/lot/S-59'")
            tab.until("location.hash === '#quality/lot/S-59' && drawn === location.hash")
            self.check_true("the lot's box is seen", tab.run(SEEN)[0])
        self.check("the number", self.served.ask("/desk")["seq"], MORNINGS + 62)
