"""What is typed into forms of the page, in a browser: it is there again once the page was loaded anew, until it is booked or cancelled."""
from __future__ import annotations

from tests.support.browser import Tab
from tests.support.pages import MORNINGS, BrowserTestCase

FORM = "document.querySelector('dialog[open]')"
BACK = "What was typed before the page was loaded anew is put back."

# What this tab keeps of forms.
KEPT_FORMS = "JSON.parse(sessionStorage.getItem('desk.typed') || '[]').length"


class Typed(BrowserTestCase):
    """What is typed into forms."""

    IS_LONG = True

    def open_form(self, tab: Tab, button: str, row: str | None = None) -> None:
        """Opens a form by its button."""
        tab.until("document.getElementById('view').dataset.ready")
        tab.click(button, row=row)
        tab.until(f"{FORM} !== null", f"the form of {button}")

    def go(self, tab: Tab, place: str) -> None:
        """Goes to a view, and waits until it is drawn."""
        tab.run(f"location.hash = '{place}'")
        tab.until(f"location.hash === '#{place}' && drawn === location.hash", place)

    def fill(self, tab: Tab, **fields: str | int) -> None:
        for name, value in fields.items():
            tab.fill(name, value)

    def load_anew(self, tab: Tab) -> None:
        """Loads the page anew, and waits until it is another document."""
        tab.run("document.isOld = true")
        tab.reload()
        tab.until("!document.isOld && document.getElementById('view').dataset.ready", "the page")

    def values(self, tab: Tab, *names: str) -> list[str]:
        return [tab.value(it) for it in names]

    def leave(self, tab: Tab) -> None:
        tab.key("Escape")
        tab.until("!dialog.open")

    def press(self, tab: Tab) -> None:
        tab.run(f"{FORM}.querySelector('.end button:last-child').focus()")
        tab.key("Enter")

    def test_typed_values_are_there_again_until_the_form_is_cancelled(self) -> None:
        self.serve()
        tab = self.open("warehouse/FLOUR")
        self.open_form(tab, "Receive a lot")
        self.fill(tab, lot="f-9", amount=1250, place="K1-07", note="wet sacks")
        self.load_anew(tab)
        self.check("the dialog", tab.run("dialog.open"), False)
        self.go(tab, "warehouse/DOUGH")
        self.open_form(tab, "Receive a lot")
        tab.has("Receive DOUGH", FORM)
        self.check("another form", [self.values(tab, "lot", "amount", "place", "note"), BACK in tab.text(FORM)], [["", "", "", ""], False])
        self.leave(tab)
        self.go(tab, "warehouse/FLOUR")
        self.open_form(tab, "Receive a lot")
        tab.has(BACK, FORM)
        self.check("the form", self.values(tab, "lot", "amount", "place", "note"), ["f-9", "1250", "K1-07", "wet sacks"])
        self.leave(tab)
        self.open_form(tab, "Receive a lot")
        self.check("the form once it was cancelled", [self.values(tab, "lot", "amount"), BACK in tab.text(FORM)], [["", ""], False])
        self.check("what the console tells of errors", tab.errors(), [])

    def test_chosen_lot_is_there_again_until_it_is_booked(self) -> None:
        self.serve()
        tab = self.open("shift/B-3")
        self.open_form(tab, "Consume")
        tab.fill("from", "d-1")
        tab.key("Enter")
        tab.has("D-1/0 at", f"{FORM}.querySelector('.said')")
        self.fill(tab, amount=7, note="late")
        self.load_anew(tab)
        self.open_form(tab, "Consume")
        tab.has("D-1/0 at", f"{FORM}.querySelector('.said')")
        self.check("the form", self.values(tab, "from", "amount", "note"), ["D-1", "7", "late"])
        self.press(tab)
        tab.has("this makes 127 kg", FORM)
        tab.until("performance.now() > openForm().notBefore")
        self.press(tab)
        tab.has(f"7 kg of D-1 consumed. Number {MORNINGS + 1}.")
        tab.until("!dialog.open")
        self.check("what is kept", tab.run(KEPT_FORMS), 0)
        self.load_anew(tab)
        self.open_form(tab, "Consume")
        self.check("the form once it was booked", self.values(tab, "from", "note"), ["", ""])
        tab.fill("from", "d-1")
        self.load_anew(tab)
        self.open_form(tab, "Consume")
        self.leave(tab)
        tab.run("lotNow('D-1').then(() => true)")
        self.check("what is kept once the form was left before its lot was looked up", tab.run(KEPT_FORMS), 0)

    def test_part_of_each_row_has_values_of_its_own(self) -> None:
        self.serve()
        tab = self.open("warehouse/FLOUR")
        self.open_form(tab, "Scrap", "F-1/0")
        self.fill(tab, amount=3, note="burst")
        self.load_anew(tab)
        self.open_form(tab, "Scrap", "F-2/0")
        self.check("another part", self.values(tab, "amount", "note"), ["", ""])
        self.leave(tab)
        self.open_form(tab, "Scrap", "F-1/0")
        self.check("the part", self.values(tab, "amount", "note"), ["3", "burst"])

    def test_booking_on_its_way_leaves_nothing_typed(self) -> None:
        self.serve()
        tab = self.open("warehouse/FLOUR")
        tab.run("(() => { const real = fetch; globalThis.fetch = (...told) => (told[0] === '/v1/commands' ? new Promise(() => {}) : real(...told)); })()")
        self.open_form(tab, "Receive a lot")
        self.fill(tab, lot="f-9", amount=1250)
        self.press(tab)
        tab.until("JSON.parse(localStorage.getItem('desk.bookings') || '[]').length === 1", "the booking on its way")
        self.load_anew(tab)
        self.open_form(tab, "Receive a lot")
        self.check("the form", self.values(tab, "lot", "amount"), ["", ""])
        self.leave(tab)
        tab.click("Send again")
        tab.has(f"1 250 kg as F-9 received. Number {MORNINGS + 1}.")

    def test_refused_values_are_there_again(self) -> None:
        self.serve()
        tab = self.open("warehouse/FLOUR")
        self.open_form(tab, "Receive a lot")
        self.fill(tab, lot="f-1", amount=1250)
        self.press(tab)
        tab.has("That id is taken already. Take another one. (Exists)", FORM)
        self.load_anew(tab)
        self.open_form(tab, "Receive a lot")
        self.check("the form", self.values(tab, "lot", "amount"), ["f-1", "1250"])
        self.check("the number", self.served.ask("/desk")["seq"], MORNINGS)
