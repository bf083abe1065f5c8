"""The page as a reader of the screen has it, in a browser: each control is in the tree of the browser, with a name of its own; and what a finger presses."""
from __future__ import annotations

import collections

from tests.support.browser import Tab
from tests.support.pages import KEPT, BrowserTestCase

FORM = "document.querySelector('dialog[open]')"

# What can have the keyboard and is no control: the page, its view, heads to which the keyboard is led, and what a field offers.
NO_CONTROLS = {"RootWebArea", "main", "heading", "dialog", "generic", "none", "StaticText", "option"}

# The parts of a field for a day, which the browser makes and names.
MADE_BY_THE_BROWSER = {"spinbutton", "Date"}

# The places whose controls are read, and the forms: where each is opened, the button of it, and its row.
PLACES = (
    "today", "board", "planner", "planner/O-4", "shift", "shift/B-3", "warehouse/FLOUR", "warehouse/FLOUR/F-1", "warehouse/place/A1", "quality",
    "quality/lot/F-1", "quality/batch/B-1", "quality/recall/RC-1",
)
FORMS = (
    ("planner", "Release", "O-4"), ("planner", "One order by hand", None), ("planner", "New recipe", None), ("planner", "Lines", "BREAD 1"),
    ("shift/B-3", "Consume", "in DOUGH"), ("shift/B-3", "Produce", "out BREAD"), ("shift/B-3", "With a note\u2026", None), ("shift/B-3", "Sheet", None),
    ("warehouse/YEAST", "Receive a lot", None), ("warehouse/YEAST", "Move", "Y-1/0"), ("warehouse/YEAST", "Split", "Y-1/0"),
    ("warehouse/YEAST", "Label", "Y-1/0"),
    ("quality/lot/F-1", "Hold", None), ("quality/lot/F-1", "Recall", None), ("quality/lot/F-1", "Balance", None), ("quality/lot/F-1", "History", None), ("quality", "?", None),
)

# What can be pressed or written into and is lower than 44 pixels; a link in a sentence may be.
LOW = """[...document.querySelectorAll("button, a, input, select, summary, textarea")]
  .filter((it) => it.getClientRects().length && !it.closest("p, li, svg") && it.getBoundingClientRect().height < 44)
  .map((it) => it.getAttribute("aria-label") || it.innerText || it.name)"""

# By how much the page is wider than the screen, and what in it is scrolled sideways.
WIDE = """[document.documentElement.scrollWidth - innerWidth,
  ...[...document.querySelectorAll(".wide, .card, dialog")].filter((it) => it.scrollWidth > it.clientWidth).map((it) => it.innerText.slice(0, 40))]"""


class Controls(BrowserTestCase):
    """What the page gives a reader of the screen and a finger."""

    IS_LONG = True

    def recalled(self) -> None:
        """Serves a desk with a hold and a recall."""
        self.serve()
        for command in ({"do": "hold", "lot": "D-1", "hold": "H-9", "note": "too wet"}, {"do": "recall", "recall": "RC-1", "lot": "F-1", "note": "moths"}):
            self.served.told(at=self.served.ask("/moment")["at"], by="dora", **command)

    def go(self, tab: Tab, place: str) -> None:
        tab.run(f"location.hash = '{place}'")
        tab.until(f"location.hash === '#{place}' && drawn === location.hash && view.dataset.ready.startsWith('{place.split('/')[0]}')", place)
        tab.until("view.dataset.whole === view.dataset.ready", f"all of {place}")

    def open_form(self, tab: Tab, button: str, row: str | None) -> None:
        tab.click(button, row=row)
        tab.until("dialog.open", f"the form of {button}")

    def controls(self, tab: Tab) -> list[tuple[str, str, str]]:
        """Returns the role, the name and the address of each control in the tree of the browser."""
        found = []
        for it in tab.call("Accessibility.getFullAXTree")["nodes"]:
            more = {one["name"]: one["value"].get("value") for one in it.get("properties", [])}
            role = it.get("role", {}).get("value", "")
            if not it["ignored"] and (more.get("focusable") or role in ("button", "link", "textbox", "combobox", "checkbox")) and role not in NO_CONTROLS:
                found.append((role, it.get("name", {}).get("value", "").strip(), str(more.get("url", ""))))
        return [it for it in found if it[0] not in MADE_BY_THE_BROWSER]

    def check_controls(self, tab: Tab, what: str) -> None:
        """Checks that each control is named, and once; links of one name lead to one place."""
        all_found = self.controls(tab)
        self.check_true(f"{what} has controls", len(all_found) > 1)
        self.check(f"controls of {what} without a name", [it for it in all_found if not it[1]], [])
        counts = collections.Counter(it for it in all_found if it[0] != "link")
        self.check(f"controls of {what} that are named twice", [it for it, count in counts.items() if count > 1], [])
        names = collections.Counter((name, url) for name, url in {(name, url) for role, name, url in all_found if role == "link"})
        places = collections.Counter(name for name, _ in names)
        self.check(f"links of {what} of one name that lead to several places", [it for it, count in places.items() if count > 1], [])

    def test_each_control_is_named_once_in_the_tree_of_the_browser(self) -> None:
        self.recalled()
        for width in (1280, 390):
            tab = self.open("today", width=width)
            tab.call("Accessibility.enable")
            for place in PLACES:
                self.go(tab, place)
                if place != "board":
                    self.check_controls(tab, f"{place} at {width}")
            self.check("what the console tells of errors", tab.errors(), [])

    def test_each_control_of_a_form_is_named_once(self) -> None:
        self.serve()
        tab = self.open("today")
        tab.call("Accessibility.enable")
        for place, button, row in FORMS:
            self.go(tab, place)
            self.open_form(tab, button, row)
            self.check_controls(tab, f"the form of {button} in {place}")
            tab.key("Escape")
            tab.until("!dialog.open")
        self.check("what the console tells of errors", tab.errors(), [])

    def test_each_control_is_named_once_in_german(self) -> None:
        self.recalled()
        tab = self.open("today", kept=KEPT + """localStorage.setItem("desk.language", '"de"');""")
        tab.call("Accessibility.enable")
        for place in PLACES:
            self.go(tab, place)
            if place != "board":
                self.check_controls(tab, f"{place} in German")

    def test_all_that_a_finger_presses_is_high(self) -> None:
        self.recalled()
        for width in (1180, 1920):
            tab = self.open("today", width=width)
            tab.call("Emulation.setDeviceMetricsOverride", width=width, height=860, deviceScaleFactor=1, mobile=True)
            tab.call("Emulation.setTouchEmulationEnabled", enabled=True)
            tab.until("matchMedia('(pointer: coarse)').matches", "a finger that points")
            for place in PLACES:
                self.go(tab, place)
                self.check(f"what is low in {place} at {width}", tab.run(LOW), [])
                self.check(f"what is wide in {place} at {width}", tab.run(WIDE), [0])
