"""The page and a scanner in a browser: codes that come as keys 5 ms apart and end in Enter, with the cursor anywhere. A scan books nothing."""
from __future__ import annotations

from tests.support import Json
from tests.support.browser import Tab
from tests.support.pages import MORNINGS, BrowserTestCase

# Counts the tones of a page, and has the browser make none.
TONES = """globalThis.tones = 0; globalThis.AudioContext = class {
  constructor() { this.currentTime = 0; }
  createOscillator() { return { frequency: {}, connect: (it) => it, start: () => { tones += 1; }, stop: () => {} }; }
  createGain() { return { gain: {}, connect: (it) => it }; }
  resume() {}
};"""

FORM = "document.querySelector('dialog[open]')"
CURSOR = "document.activeElement.name || document.activeElement.innerText"

# Each form with a lot: the view, the button, its row, what the form is about, and whether a lot on hold may be taken.
FORMS = (
    ("shift/B-3", "Consume", "in DOUGH", "DOUGH", False),
    ("warehouse/DOUGH", "Scrap", "D-1/0", "DOUGH", True),
    ("warehouse/DOUGH", "Move", "D-1/0", "DOUGH", True),
    ("warehouse/DOUGH", "Split", "D-1/0", "DOUGH", False),
)

# The forms that take no scan: the view, the button and its row.
OTHERS = (
    ("planner", "Release", "O-4"), ("planner", "Cancel", "O-4"), ("shift/B-3", "Hold", None), ("quality/lot/F-1", "Hold", None),
    ("quality/lot/F-1", "Recall", None), ("warehouse", "New class", None),
)


class Scans(BrowserTestCase):
    """What a scanner does at the page."""

    IS_LONG = True

    def open_silent(self, place: str) -> Tab:
        """Opens a view whose tones are counted."""
        return self.open(place, TONES)

    def check_nothing_booked(self, case: object) -> None:
        self.check(f"the number behind {case}", self.served.ask("/desk")["seq"], MORNINGS)

    def fields(self, tab: Tab) -> list[str]:
        """Returns the names of the fields of the form that is open, but for the list of lots, and its button."""
        names: list[str] = tab.run(f"[...{FORM}.querySelectorAll('input, select:not([name$=list]), textarea')].map((it) => it.name)")
        return names

    def open_form(self, tab: Tab, place: str, button: str, row: str | None) -> None:
        """Opens a form by its button in a row of a view."""
        tab.run(f"location.hash = '{place}'")
        tab.click(button, row=row)
        tab.until(f"{FORM} !== null", f"the form of {button}")

    def leave_form(self, tab: Tab) -> None:
        """Leaves the form that is open."""
        tab.key("Escape")
        tab.until("!document.getElementById('dialog').open")

    def put_cursor(self, tab: Tab, name: str) -> None:
        """Puts the cursor into a field of the form that is open, or on its button."""
        place = f"[name='{name}']" if name else ".end button:last-child"
        tab.run(f"{FORM}.querySelector(\"{place}\").focus()")

    def values(self, tab: Tab) -> Json:
        """Returns what stands in the fields of the form that is open."""
        return tab.run(f"Object.fromEntries([...{FORM}.querySelectorAll('input, select:not([name$=list])')].map((it) => [it.name, it.value]))")

    def test_cursor_never_begins_in_a_note(self) -> None:
        self.serve()
        tab = self.open_silent("warehouse/DOUGH")
        for place, button, row in [*((place, button, row) for place, button, row, *_ in FORMS), *OTHERS, ("warehouse/DOUGH", "Receive a lot", None)]:
            self.open_form(tab, place, button, row)
            self.check_true(f"{button}: {tab.run(CURSOR)}", tab.run(CURSOR) not in ("note", "title"))
            if button in ("Consume", "Scrap", "Move", "Split"):
                self.check(button, tab.run("[document.activeElement.name, document.activeElement.value]"), ["from", ""])
            self.leave_form(tab)

    def test_enter_books_in_the_last_field_alone(self) -> None:
        self.serve()
        tab = self.open_silent("warehouse/DOUGH")
        tab.click("Move", row="D-1/0")
        for name, text in (("from", ""), ("amount", "5"), ("place", "A7")):
            self.check("where the cursor is", tab.run(CURSOR), name)
            tab.type(text)
            tab.key("Enter")
            self.check_nothing_booked(f"Enter in {name}")
        self.check("where the cursor is", tab.run(CURSOR), "note")
        tab.key("Enter")
        tab.has(f"5 kg of D-1 brought to A7. Number {MORNINGS + 1}.")

    def test_scan_chooses_the_lot_wherever_the_cursor_is(self) -> None:
        self.serve()
        tab = self.open_silent("warehouse/DOUGH")
        for place, button, row, _, _ in FORMS:
            self.open_form(tab, place, button, row)
            names = self.fields(tab)
            for name in [*names, ""]:
                before = self.values(tab)
                self.put_cursor(tab, name)
                tab.scan("D-1")
                tab.until(f"{FORM}.querySelector('[name=from]').value === 'D-1'", f"the lot of {button} behind a scan in {name}")
                tab.has("D-1/0 at", f"{FORM}.querySelector('.said')")
                after = self.values(tab)
                self.check(f"{button}, {name}: the rest", {**after, "from": 0}, {**before, "from": 0})
                tab.until("document.activeElement.name === 'amount'", f"the cursor of {button} behind a scan in {name}")
            self.check_nothing_booked(f"scans in {button}")
            self.leave_form(tab)
        self.check("tones", tab.run("tones"), 0)

    def test_wrong_lot_is_said_in_red_and_never_booked(self) -> None:
        self.serve()
        tab = self.open_silent("warehouse/DOUGH")
        tones = 0
        for place, button, row, def_, _ in FORMS:
            self.open_form(tab, place, button, row)
            for name in [*self.fields(tab), ""]:
                wrong = {"F-1": f"Lot F-1 is FLOUR, and not {def_}.", "ZZ-OLD": "There is no lot ZZ-OLD.", "4711": "There is no lot L-4711."}
                for code, why in wrong.items():
                    self.put_cursor(tab, name)
                    tab.scan(code)
                    if name == "new" and code != "F-1":  # a lot that isn't there is one that comes to be
                        tab.until(f"{FORM}.querySelector('[name=new]').value.endsWith('{code}')")
                        continue
                    tab.has(why, f"{FORM}.querySelector('.lot .wrong')")
                    tones += 1
                    self.check(f"{button}, {name}: what is chosen", tab.run(f"{FORM}.querySelector('.said').innerText"), "")
            self.leave_form(tab)
            self.check_nothing_booked(f"wrong scans in {button}")
        self.check("tones", tab.run("tones"), tones)
        self.served.told(at=self.served.ask("/moment")["at"], by="ben", do="hold", lot="D-1", hold="H-9")
        for place, button, row, _, may_be_held in FORMS[1:]:
            tab.run("location.hash = 'planner'")
            tab.until(f"document.getElementById('view').dataset.ready === 'planner {MORNINGS + 1}'")
            if not may_be_held:
                continue
            self.open_form(tab, place, button, row)
            tab.scan("D-1")
            tab.has("D-1/0 at", f"{FORM}.querySelector('.said')")
            tab.has("on hold", f"{FORM}.querySelector('.said')")
            self.leave_form(tab)

    def test_lot_is_chosen_of_the_list(self) -> None:
        self.serve()
        tab = self.open_silent("shift/B-3")
        self.open_form(tab, "shift/B-3", "Consume", None)
        tab.fill("from-list", "D-1/0")
        tab.has("D-1/0 at", f"{FORM}.querySelector('.said')")
        self.check("the lot", tab.value("from"), "D-1/0")
        tab.run(f"(() => {{ const e = {FORM}.querySelector('[name=from]'); e.value = ''; e.dispatchEvent(new Event('input', {{bubbles: true}})); }})()")
        tab.fill("amount", 5)
        tab.run(f"{FORM}.querySelector('.end button:last-child').focus()")
        tab.key("Enter")
        self.check("whether a form without a lot is whole", tab.run(f"{FORM}.querySelector('form').checkValidity()"), False)
        self.check_nothing_booked("a form without a lot")

    def test_held_lot_is_not_consumed(self) -> None:
        self.serve()
        tab = self.open_silent("shift/B-3")
        tab.click("Consume")
        self.served.told(at=self.served.ask("/moment")["at"], by="ben", do="hold", lot="D-1", hold="H-9")
        tab.scan("D-1")
        tab.has("Lot D-1 is on hold.", f"{FORM}.querySelector('.lot .wrong')")
        tab.click("Consume", within=FORM)
        self.check("the number", self.served.ask("/desk")["seq"], MORNINGS + 1)

    def test_forms_without_a_lot_take_no_scan(self) -> None:
        self.serve()
        tab = self.open_silent("planner")
        for place, button, row in OTHERS:
            self.open_form(tab, place, button, row)
            before = self.values(tab)
            for name in [*self.fields(tab), ""]:
                self.put_cursor(tab, name)
                tab.scan("ZZ-OLD")
                tab.has("This form takes no scan. Nothing was booked.", FORM)
                self.check(f"{button}, {name}", self.values(tab), before)
            self.leave_form(tab)
            self.check_nothing_booked(button)

    def test_scan_opens_consume_or_produce_at_a_batch_and_finds_elsewhere(self) -> None:
        self.serve()
        tab = self.open_silent("shift/B-3")
        tab.scan("D-1")
        tab.has("Consume DOUGH in B-3", FORM)
        tab.has("D-1/0 at", f"{FORM}.querySelector('.said')")
        self.check("the cursor", tab.run(CURSOR), "amount")
        tab.key("Escape")
        tab.scan("NEW-26482")
        tab.has("Produce BREAD of B-3", FORM)
        self.check("the new lot", tab.value("lot"), "NEW-26482")
        tab.key("Escape")
        tab.scan("F-1")
        tab.has("Lot F-1 is FLOUR, which batch B-3 doesn't consume.")
        self.check("tones", tab.run("tones"), 1)
        tab.scan("B-2")
        tab.until("location.hash === '#shift/B-2'")
        for place, code, to in (
            ("planner", "F-1", "quality/lot/F-1"), ("warehouse/FLOUR", "D-1", "warehouse/DOUGH/D-1"), ("quality", "B-2", "quality/batch/B-2"),
            ("quality", "O-4", "planner/O-4"),
        ):
            tab.run(f"location.hash = '{place}'")
            tab.until(f"document.getElementById('view').dataset.ready.startsWith('{place.split('/')[0]}')")
            tab.scan(code)
            tab.until(f"location.hash === '#{to}'")
        tab.scan("PS-26482")
        tab.has("There is no lot, no batch, no order, no recall, no material, no recipe and no place PS-26482.")
        self.check("the view that digits of a scan don't change", tab.run("location.hash"), "#planner/O-4")
        self.check_nothing_booked("scans without a form")
        self.check("what the console tells of errors", tab.errors(), [])

    def test_scan_presses_no_button_and_no_shortcut(self) -> None:
        self.serve()
        tab = self.open_silent("planner")
        tab.run("[...document.querySelectorAll('[data-row=\"O-4\"] button')][0].focus()")
        tab.scan("PS-26482")
        tab.has("There is no lot, no batch, no order, no recall, no material, no recipe and no place PS-26482.")
        self.check("whether a form is open", tab.run("document.getElementById('dialog').open"), False)
        self.check("the view", tab.run("location.hash"), "#planner")
        for key in "12":
            tab.key(key, after=0.005)
        tab.run("new Promise((then) => setTimeout(() => then(true), 200))")
        self.check("the view behind keys without Enter", tab.run("location.hash"), "#planner")
        tab.key("2")
        tab.until("location.hash === '#shift'")

    def test_same_code_twice_asks_before_it_books(self) -> None:
        self.serve()
        tab = self.open_silent("shift/B-3")
        tab.scan("D-1")
        tab.scan("D-1")
        tab.has("D-1 was scanned twice within two seconds.", FORM)
        tab.fill("amount", 5)
        tab.run(f"{FORM}.querySelector('.end button:last-child').focus()")
        tab.key("Enter")
        tab.has("Consume all the same", f"{FORM}.querySelector('.end')")
        self.check_nothing_booked("a code that was scanned twice")
        tab.until("performance.now() > openForm().notBefore", "the time in which a second press doesn't count")
        tab.key("Enter")
        tab.has(f"5 kg of D-1 consumed. Number {MORNINGS + 1}.")

    def test_supplier_s_code_becomes_a_lot(self) -> None:
        self.serve()
        tab = self.open_silent("warehouse/FLOUR")
        for code, lot in (("4711-22", "L-4711-22"), ("4006381333931", "L-4006381333931")):
            for name in ("lot", "amount", "place", "note", ""):
                self.open_form(tab, "warehouse/FLOUR", "Receive a lot", None)
                self.put_cursor(tab, name)
                tab.scan(code)
                tab.has(f"{code} is no id of the desk: the lot is {lot}, and the code goes into the note.", FORM)
                tab.until("document.activeElement.name === 'amount'", f"the cursor behind a scan in {name}")
                self.check(f"a scan in {name!r}", self.values(tab), {"lot": lot, "amount": "", "place": "", "note": f"supplier's code {code}"})
                self.leave_form(tab)
            self.open_form(tab, "warehouse/FLOUR", "Receive a lot", None)
            for scanned in ("F-77", code):  # the same code twice at once would be asked for again
                tab.scan(scanned)
            tab.has(f"the lot is {lot}", FORM)
            for key in ("7", "Enter", "Enter", "Enter"):
                tab.key(key)
            tab.has(f"7 kg as {lot} received.")
            tab.until("!document.getElementById('dialog').open")
            self.check("the note", self.served.ask(f"/lists/movements/{lot}")["movements"][0]["note"], f"supplier's code {code}")
        tab.click("Receive a lot")
        tab.type("12/7")
        tab.key("Enter")
        self.check("a code that is typed", self.values(tab)["lot"], "L-12-7")
        tab.key("Escape")
        tab.scan("4711-22")
        tab.until("location.hash === '#warehouse/FLOUR/L-4711-22'")

    def test_scan_adds_a_part_to_a_merge(self) -> None:
        self.serve()
        self.served.told(at=self.served.ask("/moment")["at"], by="ben", do="receive", lot="F-8", **{"def": "FLOUR"}, amount=20, place="A8")
        tab = self.open_silent("warehouse/FLOUR")
        tab.run("document.querySelector('[aria-label=\"Choose F-1/0 for a merge\"]').click()")
        tab.click("Merge\u2026")
        self.check("the cursor", tab.run(CURSOR), "from")
        tab.fill("new", "F-9")
        tab.scan("F-8")
        tab.has("Merge 2 parts", FORM)
        self.check("the new lot", tab.value("new"), "F-9")
        tab.scan("D-1")
        tab.has("Lot D-1 is DOUGH, and not FLOUR.", FORM)
        self.check("the number", self.served.ask("/desk")["seq"], MORNINGS + 1)
