"""Who books at the page, in a browser: the name that forms show, and the question who is there once nobody was for half an hour."""
from __future__ import annotations

import json

from tests.support.browser import Tab
from tests.support.pages import MORNINGS, BrowserTestCase

FORM = "document.querySelector('dialog[open]')"

# The field by which a proxy says who is logged in.
FIELD = "X-Operator"

# More than half an hour, in seconds.
LONG = 1801


class Operators(BrowserTestCase):
    """The operator of the page."""

    IS_LONG = True

    def leave(self, tab: Tab, *names: str) -> None:
        """Has nobody at the page for half an hour, at which these booked last."""
        tab.run(f"keep('names', {json.dumps(names)}); keep('active', clock() - {LONG}); true")

    def consider(self, tab: Tab) -> None:
        """Waits until the question can be answered."""
        tab.run("new Promise((then) => setTimeout(() => then(true), 650))")

    def check_by(self, tab: Tab, name: str, number: int) -> None:
        """Checks by whom the booking of a number is, and that the page says so."""
        tab.has(f"Number {number}. By {name}.")
        tab.until("!document.getElementById('dialog').open")
        self.check("the operators in the header and in the store", tab.run("[operator.value, kept('operator')]"), [name, name])
        commands = self.served.ask("/lists/commands")["commands"]
        self.check(f"by whom number {number} is", [it["by"] for it in commands if it["seq"] == number], [name])

    def buttons(self, tab: Tab) -> list[str]:
        names: list[str] = tab.run(f"[...{FORM}.querySelectorAll('.still button')].map((it) => it.innerText)")
        return names

    def test_form_says_as_whom_it_books(self) -> None:
        self.serve()
        tab = self.open("warehouse/FLOUR")
        tab.click("Receive a lot")
        tab.has("as anna", f"{FORM}.querySelector('.end')")
        self.check("whether it asks", self.buttons(tab), [])
        tab.key("Escape")
        tab.fill("operator", "ben")
        tab.click("Receive a lot")
        tab.has("as ben", f"{FORM}.querySelector('.end')")
        tab.fill("lot", "F-3")
        tab.fill("amount", 5)
        tab.click("Receive", within=FORM)
        self.check_by(tab, "ben", MORNINGS + 1)
        self.check("the names used last", tab.run("kept('names')"), ["ben"])

    def test_form_that_was_left_open_asks_and_keeps_what_is_typed(self) -> None:
        self.serve()
        tab = self.open("warehouse/FLOUR")
        tab.click("Receive a lot")
        for name, value in (("lot", "F-3"), ("amount", "7"), ("place", "A7")):
            tab.fill(name, value)
        self.leave(tab, "anna", "ben", "carl", "dora", "erna", "fritz", "gerd")
        tab.key("Enter")
        tab.click("Receive", within=FORM)
        tab.has("Still anna?", FORM)
        self.check("the names", self.buttons(tab), ["Yes, anna", "ben", "carl", "dora", "erna", "fritz", "Another name"])
        self.check("what is typed", [tab.value(it) for it in ("lot", "amount", "place")], ["F-3", "7", "A7"])
        self.check("the number", self.served.ask("/desk")["seq"], MORNINGS)
        tab.click("carl")
        tab.has("Still anna?", FORM)
        self.consider(tab)
        tab.click("carl")
        self.check_by(tab, "carl", MORNINGS + 1)
        self.check("the lot", self.served.ask("/lots/F-3")["sublots"], [{"no": 0, "place": "A7", "stock": 7}])
        tab.click("Receive a lot")
        tab.has("as carl", FORM)
        self.check("whether it asks again", self.buttons(tab), [])

    def log_in(self, tab: Tab, name: str) -> None:
        """Has all requests of a tab pass a login, as a proxy has them, and loads the page anew."""
        tab.call("Network.setExtraHTTPHeaders", headers={FIELD: name} if name else {})
        tab.run("delete view.dataset.ready")
        tab.call("Page.reload")
        tab.until("document.getElementById('view') && document.getElementById('view').dataset.ready", "the page")

    def test_operator_of_a_login_is_shown_and_cannot_be_another(self) -> None:
        self.serve("--operator-field", FIELD)
        tab = self.open("warehouse/FLOUR")
        tab.has("or to who is logged in. (403)")
        self.log_in(tab, "erna")
        self.check("the operator in the header", tab.run("[operator.value, operator.readOnly]"), ["erna", True])
        tab.fill("operator", "anna")
        self.check("the operator once another is typed", tab.run("operator.value"), "erna")
        self.leave(tab, "anna", "ben")
        tab.click("Receive a lot")
        tab.has("as erna", f"{FORM}.querySelector('.end')")
        self.check("whether it asks", self.buttons(tab), [])
        tab.fill("lot", "F-3")
        tab.fill("amount", 5)
        tab.click("Receive", within=FORM)
        tab.has(f"Number {MORNINGS + 1}. By erna.")
        self.log_in(tab, "fritz")
        self.check("the operator of another login", tab.run("operator.value"), "fritz")
        self.check("what the console tells of errors", tab.errors(), [])

    def test_press_without_a_form_asks_once(self) -> None:
        self.serve()
        tab = self.open("shift/B-2")
        self.leave(tab, "ben")
        tab.key("x")
        tab.reload()
        tab.click("Phase RISE done")
        tab.has("Still anna?", FORM)
        self.consider(tab)
        tab.key("Enter")
        self.check_by(tab, "anna", MORNINGS + 1)
        tab.click("Pause")
        tab.has(f"Number {MORNINGS + 2}. By anna.")
        self.leave(tab, "anna", "ben")
        tab.click("Hold")
        tab.has("Still anna?", FORM)
        self.consider(tab)
        tab.click("ben")
        tab.has("as ben", f"{FORM}.querySelector('.end')")
        self.check("the number behind a name in a form with a field", self.served.ask("/desk")["seq"], MORNINGS + 2)
        tab.click("Hold", within=FORM)
        self.check_by(tab, "ben", MORNINGS + 3)
        self.check("what the console tells of errors", tab.errors(), [])

    def test_another_name_is_typed_in_the_form(self) -> None:
        self.serve()
        tab = self.open("shift/B-2")
        self.leave(tab)
        tab.scan("Y-1")
        tab.has("Y-1/0 at", f"{FORM}.querySelector('.said')")
        tab.has("Still anna?", FORM)
        self.consider(tab)
        tab.click("Another name")
        self.check("where the cursor is", tab.run("document.activeElement.name"), "operator")
        tab.type("zoe")
        tab.fill("amount", 600)
        tab.click("Consume", within=FORM)
        self.check_by(tab, "zoe", MORNINGS + 1)
        self.check("what the console tells of errors", tab.errors(), [])

    def test_scan_answers_nothing(self) -> None:
        self.serve()
        tab = self.open("shift/B-2")
        self.leave(tab, "ben")
        tab.click("Phase RISE done")
        self.consider(tab)
        tab.scan("Y-1")
        tab.has("This form takes no scan. Nothing was booked.", FORM)
        self.check("the number", self.served.ask("/desk")["seq"], MORNINGS)
        self.check("the names", self.buttons(tab), ["Yes, anna", "ben", "Another name"])

    def test_name_in_the_header_ends_the_doubt(self) -> None:
        self.serve()
        tab = self.open("shift/B-2")
        self.leave(tab)
        tab.fill("operator", "kim")
        tab.key("Enter")
        tab.click("Phase RISE done")
        self.check_by(tab, "kim", MORNINGS + 1)
