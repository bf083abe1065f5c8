"""Batches at the page, in a browser: their list, amounts above what was asked, which are booked on purpose alone, and the batch record in print."""
from __future__ import annotations

import shutil
import subprocess
import time

from tests.support import Json
from tests.support.browser import Tab
from tests.support.pages import MORNINGS, BrowserTestCase

FORM = "document.querySelector('dialog[open]')"

# A note of 60 letters, and the longest id.
NOTE = "scale 4 recalibrated before weighing, witnessed by erna h."
LONGEST = "BREAD-OF-THE-NIGHT-00"


class Worklist(BrowserTestCase):
    """The list of batches."""

    def test_batches_say_what_they_make_and_come_by_their_due_dates(self) -> None:
        self.serve()
        self.served.told(at=self.served.ask("/moment")["at"], by="anna", do="release", order="O-5", batch="A-1")
        tab = self.open("shift")
        rows = tab.run("[...document.querySelectorAll('.listed [data-row]')].map((it) => it.dataset.row)")
        batches = {it["batch"]: it for it in self.served.ask("/lists/batches")["batches"]}
        by_due = sorted(batches, key=lambda it: (batches[it]["planned"]["due"], -batches[it]["planned"]["priority"]))
        self.check("the order of the batches", (rows, sorted(rows)), (by_due, ["A-1", "B-2", "B-3"]))
        for batch, title, state, size in (("A-1", "Dough", "idle", "900 kg"), ("B-2", "Dough", "running", "600 kg"), ("B-3", "Bread", "running", "200 pcs")):
            it = batches[batch]
            since = time.strftime("%Y-%m-%d %H:%M", time.localtime(it["at"]))
            where = f"next {it['phase']} on {it['phase_unit']}, {it['next']} of {it['phases']}" if it["phase"] else "all phases done"
            due = it["planned"]["due"] + (" late" if it["planned"]["due"] < time.strftime("%Y-%m-%d") else "")
            told = f"{batch} {title} {it['order']} {state} {where} since {since} {due} {size}"
            self.check(f"the row of {batch}", " ".join(tab.text(f"document.querySelector('[data-row=\"{batch}\"]')").split()), told)
        for width in (390, 820, 1280, 1920):
            tab = self.open("shift", width=width)
            self.check(f"the width at {width}", tab.run("document.documentElement.scrollWidth"), width)
            wide = "[...document.querySelectorAll('.wide')].filter((it) => it.scrollWidth > it.clientWidth).length"
            self.check(f"tables at {width} that are scrolled sideways", tab.run(wide), 0)
        self.check("what the console tells of errors", tab.errors(), [])

    def test_batches_are_sorted_by_a_press_of_a_head(self) -> None:
        self.serve()
        self.served.told(at=self.served.ask("/moment")["at"], by="anna", do="release", order="O-5", batch="A-1")
        rows = "[...document.querySelectorAll('.listed [data-row]')].map((it) => it.dataset.row).join(' ')"
        tab = self.open("shift")
        first = tab.run(rows)
        for head, wanted in (
            ("Batch", "A-1 B-2 B-3"), ("Batch \u25b4", "B-3 B-2 A-1"), ("State", "A-1 B-2 B-3"), ("Due", first), ("Due \u25b4", " ".join(reversed(first.split()))),
        ):
            tab.click(head)
            tab.until(f"{rows} === '{wanted}'", f"the batches behind a press of {head}")
        self.check("the address", tab.run("location.hash"), "#shift?way=down")
        tab.run("location.hash = 'shift?batches=closed&sort=due'")
        tab.until(f"{rows} === 'B-1'", "closed batches")
        tab.has("Due \u25b4", "document.querySelector('.listed thead')")
        self.check("what the console tells of errors", tab.errors(), [])

    def test_list_of_a_unit_has_the_batches_whose_next_phase_is_there(self) -> None:
        self.serve()
        for order, batch in (("O-4", "B-4"), ("O-5", "B-5")):
            self.served.told(at=self.served.ask("/moment")["at"], by="anna", do="release", order=order, batch=batch)
        rows = "[...document.querySelectorAll('.listed [data-row]')].map((it) => it.dataset.row).join(' ')"
        tab = self.open("shift")
        units = tab.run("[...document.getElementById('batchunit').options].map((it) => it.label)")
        self.check("the units", units, ["all units", "next on MIX", "next on OVEN"])
        tab.fill("batchunit", "MIX")
        tab.until(f"{rows} === 'B-2 B-5'", "the batches of MIX")
        self.check("the address", tab.run("location.hash"), "#shift?unit=MIX")
        tab.has("Batch B-2")
        tab.click("B-5", tag="a")
        tab.until("location.hash === '#shift/B-5?unit=MIX' && drawn === location.hash")
        tab.reload()
        tab.until(f"view.dataset.ready && {rows} === 'B-2 B-5'", "the same after a reload")
        tab.run("location.hash = 'shift?unit=OVEN'")
        tab.until(f"{rows} === 'B-4'", "the batch of OVEN")
        tab.run("location.hash = 'shift?unit=FRYER'")
        tab.has("No batch has its next phase on FRYER.")
        tab.click("closed")
        tab.until(f"{rows} === 'B-1'", "closed batches, which have no next phase")
        self.check("what the console tells of errors", tab.errors(), [])

    def test_parameters_are_shown_with_the_phase_that_they_precede(self) -> None:
        self.serve()
        first, second, last = ({"kind": "par", "name": it, "value": f"{it} value"} for it in ("P-1", "P-2", "P-3"))
        phase = {"kind": "phase", "unit": "U", "oper": "O"}
        lines: list[Json] = [{"kind": "out", "def": "BREAD", "qty": 100}, first, {**phase, "phase": "ONE"}, second, {**phase, "phase": "TWO"}, last]
        recipe: Json = {"recipe": "PARS", "version": 1, "product": "BREAD", "base": 100, "min": 1, "max": 900, "title": "", "lines": lines}
        order = {"order": "O-9", "recipe": "PARS", "version": 1, "size": 100, "due": "2030-03-01", "priority": 5}
        now = self.served.ask("/moment")["at"]
        commands: tuple[Json, ...] = (
            {"do": "add_recipe", **recipe}, {"do": "approve", "recipe": "PARS", "version": 1}, {"do": "import_orders", "orders": [order]},
            {"do": "release", "order": "O-9", "batch": "B-9"}, {"do": "batch", "batch": "B-9", "word": "start"},
        )
        for command in commands:
            self.served.told(at=now, by="anna", **command)
        tab, shown = self.open("shift/B-9"), "document.querySelector('.parameters')"
        for name, there, button in (("For U O ONE", "P-1", "Phase ONE done"), ("For U O TWO", "P-2", "Phase TWO done"), ("After the phases", "P-3", None)):
            tab.has(name, shown)
            self.check(f"parameters {name}", tab.text(shown).split("\n"), [name, there, f"{there} value"])
            if button:
                tab.click(button)
        tab.run("document.querySelector('#view details').open = true")
        table = tab.run("[...document.querySelectorAll('#view details tbody tr')].map((it) => it.innerText.replace(/\\s+/g, ' ').trim())")
        self.check("all phases", table, ["1 P-1 P-1 value U O ONE done", "2 P-2 P-2 value U O TWO done", "P-3 P-3 value after the phases"])
        tab.run("location.hash = 'shift/B-2'")
        tab.has("Batch B-2")
        tab.key("n")
        tab.until("document.activeElement.innerText === 'Phase RISE done'", "the keyboard at the next phase")
        self.check("a batch without parameters", tab.run("document.querySelectorAll('.parameters, #view details').length"), 0)
        self.check("what the console tells of errors", tab.errors(), [])


class Overbooking(BrowserTestCase):
    """Amounts above what was asked."""

    IS_LONG = True

    def press(self, tab: Tab) -> None:
        """Presses the button of the form that is open."""
        tab.run(f"{FORM}.querySelector('.end button:last-child').focus()")
        tab.key("Enter")

    def filled(self, tab: Tab, amount: int) -> None:
        """Has a lot chosen and an amount in the form that is open."""
        tab.scan("D-1")
        tab.has("D-1/0 at", f"{FORM}.querySelector('.said')")
        tab.fill("amount", amount)

    def consider(self, tab: Tab) -> None:
        """Waits until a second press counts."""
        tab.until("performance.now() > openForm().notBefore", "the time in which a second press doesn't count")

    def stock(self) -> None:
        """Has more dough in stock than the mornings leave, and batch B-4 started, of which 60 kg are asked."""
        self.served.told(at=self.now(), by="ben", do="receive", lot="D-9", **{"def": "DOUGH"}, amount=5000, place="A9")
        self.served.told(at=self.now(), by="ben", do="release", order="O-4", batch="B-4")
        self.served.told(at=self.now(), by="ben", do="batch", batch="B-4", word="start")

    def now(self) -> int:
        moment: int = self.served.ask("/moment")["at"]
        return moment

    def booked(self) -> int:
        """Returns how many kg of dough batch B-4 has consumed."""
        lines = self.served.ask("/batches/B-4/lines")["lines"]
        amount: int = next(it["booked"] for it in lines if it["kind"] == "in")
        return amount

    def test_two_tabs_that_book_the_same_input_are_told(self) -> None:
        self.serve()
        self.stock()
        tabs = [self.open("shift/B-4"), self.open("shift/B-4")]
        for tab in tabs:
            tab.click("Consume")
            tab.scan("D-9")
            tab.has("D-9/0 at", f"{FORM}.querySelector('.said')")
            self.check("the amount that is left", tab.value("amount"), "60")
        self.press(tabs[0])
        tabs[0].has("60 kg of D-9 consumed.")
        self.press(tabs[1])
        tabs[1].has("Since the form was opened, 60 kg was booked. Asked 60 kg, booked 60 kg: this makes 120 kg, 2 times what was asked.", FORM)
        self.check("what is booked", self.booked(), 60)
        red = tabs[1].run(f"getComputedStyle({FORM}.querySelector('.end button:last-child')).backgroundColor")
        self.check("the colour of the button", red, "rgb(163, 32, 43)")
        self.check("the button", tabs[1].run(f"{FORM}.querySelector('.end button:last-child').innerText"), "Consume all the same")
        self.press(tabs[1])
        self.check("what a press at once books", self.booked(), 60)
        self.consider(tabs[1])
        self.press(tabs[1])
        tabs[1].has("60 kg of D-9 consumed.")
        self.check("what is booked on purpose", self.booked(), 120)
        tabs[1].has("over 60 kg", "document.querySelector('[data-row=\"in DOUGH\"] .over')")
        for tab in tabs:
            self.check("what the console tells of errors", tab.errors(), [])

    def test_ten_times_too_much_is_asked_for_again(self) -> None:
        self.serve()
        self.stock()
        tab = self.open("shift/B-4")
        tab.click("Consume")
        tab.scan("D-9")
        tab.has("D-9/0 at", f"{FORM}.querySelector('.said')")
        tab.fill("amount", 600)
        self.press(tab)
        tab.has("Asked 60 kg, booked 0 kg: this makes 600 kg, 10 times what was asked.", FORM)
        tab.fill("amount", 60)
        tab.lacks("10 times", FORM)
        self.check("the button", tab.run(f"{FORM}.querySelector('.end button:last-child').innerText"), "Consume")
        self.press(tab)
        tab.has("60 kg of D-9 consumed.")
        tab.until("!document.getElementById('dialog').open")
        tab.click("Produce")
        tab.fill("amount", 1000)
        self.press(tab)
        tab.has("Asked 100 pcs, booked 0 pcs: this makes 1 000 pcs, 10 times what was asked.", FORM)
        self.consider(tab)
        self.press(tab)
        tab.has("1 000 pcs as BREAD-B-4 produced.")
        tab.has("over 900 pcs", "document.querySelector('[data-row=\"out BREAD\"] .over')")
        tab.run("location.hash = 'quality/batch/B-4'")
        tab.has("1 000 pcs, over 900 pcs", "document.querySelector('.record .over')")


class PrintedRecord(BrowserTestCase):
    """The batch record in print."""

    def booked(self) -> None:
        """Books 60 rows on batch B-3, with long ids and notes."""
        moment = self.served.ask("/moment")["at"]
        for k in range(30):
            self.served.told(at=moment, by="benedict", do="consume", batch="B-3", lot="D-1", sub=0, amount=1, note=NOTE)
            self.served.told(
                at=moment, by="benedict", do="produce", batch="B-3", lot=f"{LONGEST}-{k:02}", **{"def": "BREAD"}, amount=10, place="SHELF", note=NOTE,
            )

    def test_record_of_sixty_rows_is_whole_on_paper(self) -> None:
        if not shutil.which("pdftotext"):
            self.leave_out("the text of a printed record", "there is no pdftotext")
            self.skipTest("there is no pdftotext")
        self.serve()
        self.booked()
        tab = self.open("quality/batch/B-3")
        tab.printed(self.folder / "record.pdf")
        text = subprocess.run(["pdftotext", "-raw", "record.pdf", "-"], cwd=self.folder, capture_output=True, text=True).stdout.replace("\u202f", " ")
        pages = text.rstrip("\f").split("\f")
        for number, page in enumerate(pages, 1):
            self.check_true(f"the number of page {number}", f"page {number} of {len(pages)}" in page)
        words = " ".join(text.split())
        self.check("notes that are whole", words.count(NOTE), 60)
        for k in range(30):
            self.check_true(f"lot {k}", f"{LONGEST}-{k:02}" in words.replace("- ", "-"))
        self.check("moments with their operators", words.count("benedict"), 60)
        printed = time.strftime("Printed %Y-%m-%d ")
        for wanted in ("phase 1: OVEN BAKE BAKE", "over 296 pcs", "Made by", "Checked by", "Released by", "Signature", printed, " by anna"):
            self.check_true(wanted, wanted in words)
        self.check("the number", self.served.ask("/desk")["seq"], MORNINGS + 60)
