"""Orders and recipes at the page, in a browser: filters and sorts, what a release wants of the stock, several released at once, versions of recipes."""
from __future__ import annotations

import json
import time

from tests.support import Json
from tests.support.browser import Tab
from tests.support.pages import MORNINGS, BrowserTestCase

FORM = "document.querySelector('dialog[open]')"
BUTTON = f"{FORM}.querySelector('.end button:last-child')"

# The orders that are shown.
ORDERS = "[...document.querySelectorAll('.stack [data-row^=\"O-\"]')].map((it) => it.dataset.row)"

# The row of an order, and what it says that the order lacks.
ROW = "document.querySelector('[data-row=\"%s\"]')"
LACKS = "(document.querySelector('[data-row=\"%s\"] .over')?.innerText ?? 'no mark')"

# What a release wants: material, asked, free and short.
NEEDS = f"[...{FORM}.querySelectorAll('.needs tbody tr')].map((it) => [...it.children].map((one) => one.innerText.replaceAll('\\u202f', ' ')))"

# Has every request counted that is no look at how far the desk is.
COUNTED = """(() => { const real = fetch; globalThis.asks = []; globalThis.fetch = (...told) => { asks.push(told[0]); return real(...told); }; })()"""

# The orders besides those of the mornings: id, recipe, size, days from now until they are due, priority.
MORE = (("O-11", "BREAD", 100, 3, 9), ("O-12", "DOUGH", 300, 1, 1), ("O-13", "BREAD", 500, 40, 5), ("O-14", "DOUGH", 900, 40, 7))


class Orders(BrowserTestCase):
    """What the planner does with orders."""

    IS_LONG = True

    def open_orders(self, address: str = "planner", width: int = 1280) -> Tab:
        """Opens the planner's view of a desk with more orders."""
        self.serve()
        orders = [{"order": it, "recipe": recipe, "version": 1, "size": size, "due": self.day(days), "priority": priority}
                  for it, recipe, size, days, priority in MORE]
        self.told("import_orders", orders=orders)
        return self.open(address, width=width)

    def day(self, days: int) -> str:
        return time.strftime("%Y-%m-%d", time.localtime(time.time() + 86_400 * days))

    def told(self, word: str, **fields: Json) -> None:
        self.served.told(at=self.served.ask("/moment")["at"], by="dora", do=word, **fields)

    def shown(self, tab: Tab, *wanted: str) -> None:
        """Waits until these orders are shown, in this order."""
        tab.until(f"JSON.stringify({ORDERS}) === JSON.stringify({list(wanted)})", f"the orders {wanted}")

    def press(self, tab: Tab) -> None:
        """Presses the button of the form that is open."""
        tab.run(f"{BUTTON}.focus()")
        tab.key("Enter")

    def choose(self, tab: Tab, *orders: str) -> None:
        """Ticks orders."""
        for it in orders:
            tab.run(f"document.querySelector('[aria-label=\"Choose {it} to be released\"]').click()")
        tab.has(f"{len(orders)} orders are chosen.")

    def end(self, tab: Tab, number: int) -> None:
        """Checks that the page met no error, and how far the desk is."""
        self.check("what the console tells of errors", tab.errors(), [])
        self.check("the number", self.served.ask("/desk")["seq"], number)

    def test_orders_are_filtered_by_text_and_recipe(self) -> None:
        tab = self.open_orders()
        first = ("O-5", "O-12", "O-4", "O-11", "O-14", "O-13")
        self.shown(tab, *first)
        tab.run("document.getElementById('ordertext').focus()")
        tab.type("bre")
        self.shown(tab, "O-4", "O-11", "O-13")
        self.check("where the keyboard is", tab.run("[document.activeElement.id, document.activeElement.value]"), ["ordertext", "bre"])
        tab.type("ad o-11")
        self.shown(tab, "O-11")
        tab.until("location.hash === '#planner?text=bread%20o-11'", "the filter in the address")
        tab.reload()
        self.shown(tab, "O-11")
        self.check("the field", tab.run("document.getElementById('ordertext').value"), "bread o-11")
        tab.fill("ordertext", "nothing of it")
        tab.has("No order fits the filter.")
        tab.click("No filter")
        self.shown(tab, *first)
        tab.fill("orderrecipe", "DOUGH")
        self.shown(tab, "O-5", "O-12", "O-14")
        self.check("the address", tab.run("location.hash"), "#planner?recipe=DOUGH")
        tab.fill("ordertext", "O-1")
        self.shown(tab, "O-12", "O-14")
        tab.run("history.back()")
        self.shown(tab, *first)
        self.end(tab, MORNINGS + 1)

    def test_orders_are_sorted_by_a_click_on_a_head(self) -> None:
        tab = self.open_orders()
        for head, way, wanted in (
            ("Size", "ascending", ("O-4", "O-11", "O-12", "O-13", "O-5", "O-14")), ("Size \u25b4", "descending", ("O-5", "O-14", "O-13", "O-12", "O-4", "O-11")),
            ("Order", "ascending", ("O-11", "O-12", "O-13", "O-14", "O-4", "O-5")), ("Due", "ascending", ("O-5", "O-12", "O-4", "O-11", "O-14", "O-13")),
        ):
            tab.click(head)
            self.shown(tab, *wanted)
            self.check(f"what is said of {head}", tab.run("[...document.querySelectorAll('th[aria-sort]:not([aria-sort=none])')].map((it) => it.ariaSort)"), [way])
        by_recipe = ("O-4", "O-11", "O-13", "O-5", "O-12", "O-14")
        tab.click("Recipe")
        self.shown(tab, *by_recipe)
        tab.reload()
        self.shown(tab, *by_recipe)
        self.end(tab, MORNINGS + 1)

    def test_release_says_what_is_short(self) -> None:
        tab = self.open_orders()
        tab.has("short: ", ROW % "O-14")
        tab.run(COUNTED)
        tab.run("show().then(() => true)")
        self.check("what is asked of single orders or recipes for the list", tab.run("asks.filter((it) => /recipes\\/[A-Z]|orders\\/|stock/.test(it))"), [])
        tab.click("Release", row="O-14")
        tab.has("Release order O-14", FORM)
        lines = self.served.ask("/recipes/DOUGH/1")
        free = {it["def"]: it["usable"] for it in self.served.ask("/lists/stocks/RAW")["stocks"]}
        needs = tab.run(NEEDS)
        wanted = []
        for it in lines["lines"]:
            if it["kind"] == "in":
                asked = (2 * it["qty"] * 900 + lines["base"]) // (2 * lines["base"])
                short = asked - free[it["def"]]
                wanted.append([it["def"], f"{asked} {it['unit']}", f"{free[it['def']]} {it['unit']}", f"{short} {it['unit']}" if short > 0 else ""])
        self.check("what it wants", [[cell.replace(" ", "") for cell in row] for row in needs], [[cell.replace(" ", "") for cell in row] for row in wanted])
        self.press(tab)
        tab.has("Order O-14 released as B-14.")
        tab.until("!dialog.open")
        batch = {it["def"]: it["asked"] for it in self.served.ask("/batches/B-14/lines")["lines"] if it["kind"] == "in"}
        self.check("what its batch asks", [f"{it}{batch[it]}" for it in batch], [row[0] + row[1].replace(" ", "").rstrip("kg") for row in needs])
        self.end(tab, MORNINGS + 2)

    def test_orders_say_what_they_lack_and_the_units_of_their_sizes(self) -> None:
        tab = self.open_orders()
        recipes = {it: self.served.ask(f"/recipes/{it}/1") for it in ("BREAD", "DOUGH")}
        orders = [("O-5", "DOUGH", 900), ("O-4", "BREAD", 100), *((order, recipe, size) for order, recipe, size, *_ in MORE)]
        for wanted in ("short", "enough"):
            free = {it["def"]: it["usable"] for group in ("RAW", "GOODS") for it in self.served.ask(f"/lists/stocks/{group}")["stocks"]}
            for order, recipe, size in orders:
                it = recipes[recipe]
                asked = {one["def"]: (one["unit"], (2 * one["qty"] * size + it["base"]) // (2 * it["base"])) for one in it["lines"] if one["kind"] == "in"}
                lacks = [f"{name} {amount - free[name]} {unit}" for name, (unit, amount) in asked.items() if amount > free[name]]
                found = f"{LACKS % order}.replaceAll('\\u202f', '')"
                tab.until(f"{found} === {json.dumps('short: ' + ', '.join(lacks) if lacks else '')}", f"what {order} lacks: {lacks}")
                self.check_true(f"the size of {order}", f"{size} {it['unit']}" in tab.text(ROW % order))
            if wanted == "short":
                self.check_true("some lack something", tab.run("[...document.querySelectorAll('td .over')].some((it) => it.innerText !== '')"))
                for lot, name in (("F-77", "FLOUR"), ("Y-77", "YEAST"), ("D-77", "DOUGH")):
                    self.told("receive", lot=lot, **{"def": name}, amount=100_000, place="A1")
                tab.run("lookAgain()")
        tab.click("finished")
        tab.has("300 kg", ROW % "O-1")
        self.check("what finished orders lack", tab.run("[...document.querySelectorAll('td .over')].length"), 0)
        self.end(tab, MORNINGS + 4)

    def test_order_is_said_not_to_change(self) -> None:
        tab = self.open_orders()
        tab.click("One order by hand")
        tab.has("An order can't be changed: a slip is cancelled, and taken in anew under another id.", FORM)

    def test_several_orders_are_released_at_once(self) -> None:
        tab = self.open_orders()
        self.choose(tab, "O-11", "O-13")
        tab.click("Release\u2026")
        tab.has("Release 2 orders", FORM)
        self.check("what they want in all", tab.run(NEEDS)[0][:2], ["DOUGH", "360 kg"])
        self.check("their batches", [tab.value("batch O-11"), tab.value("batch O-13")], ["B-11", "B-13"])
        tab.fill("batch O-13", "b-13-night")
        tab.fill("note", "of the week")
        tab.run(f"(() => {{ const form = {FORM}.querySelector('form'); for (let k = 0; k < 5; k += 1) form.requestSubmit(); }})()")
        tab.has("2 of 2 orders are released.")
        tab.until("!dialog.open")
        self.shown(tab, "O-5", "O-12", "O-4", "O-14")
        self.check("the bar", tab.run("document.querySelector('.chosen').hidden"), True)
        self.check("their batches", [self.served.ask(f"/orders/{it}")["batch"] for it in ("O-11", "O-13")], ["B-11", "B-13-NIGHT"])
        self.end(tab, MORNINGS + 3)

    def test_release_of_several_ends_at_the_first_refusal(self) -> None:
        tab = self.open_orders()
        self.choose(tab, "O-11", "O-12", "O-13")
        self.told("release", order="O-12", batch="B-OTHER")
        tab.click("Release\u2026")
        tab.has("Release 3 orders", FORM)
        self.press(tab)
        tab.has("1 of 3 orders is released. O-12: The order is released, finished or cancelled already.", FORM)
        self.check("the number", self.served.ask("/desk")["seq"], MORNINGS + 3)
        tab.key("Escape")
        tab.until("!dialog.open")
        tab.has("1 order is chosen.")
        tab.click("Release\u2026")
        tab.has("Release 1 order", FORM)
        self.press(tab)
        tab.has("1 of 1 order is released.")
        self.check("the states", [self.served.ask(f"/orders/{it}")["state"] for it in ("O-11", "O-12", "O-13", "O-14")], ["released"] * 3 + ["open"])
        self.end(tab, MORNINGS + 4)

    def test_version_of_a_recipe_is_made_from_another(self) -> None:
        self.serve()
        tab = self.open("planner")
        tab.click("Lines", row="BREAD 1")
        tab.click("New version from this one", within=FORM)
        tab.has("New version of recipe BREAD", FORM)
        before = self.served.ask("/recipes/BREAD/1")
        self.check("the fields", [tab.value(it) for it in ("recipe", "version", "title", "product", "base", "min", "max")],
                   ["BREAD", "2", *(str(before[it]) for it in ("title", "product", "base", "min", "max"))])
        self.press(tab)
        tab.has("Recipe BREAD 2 drafted.")
        tab.until("!dialog.open")
        self.check("its lines", self.served.ask("/recipes/BREAD/2")["lines"], before["lines"])
        tab.click("Lines", row="BREAD 1")
        tab.click("New version from this one", within=FORM)
        tab.has("New version of recipe BREAD", FORM)
        self.check("the next version", tab.value("version"), "3")
        self.end(tab, MORNINGS + 1)

    def choose_in(self, tab: Tab, name: str, value: str) -> None:
        """Writes into a field of the form by the name that a reader of the screen has, or chooses in it."""
        field = f"{FORM}.querySelector('[aria-label=\"{name}\"]')"
        tab.until(f"{field} !== null", f"the field {name}")
        told = "for (const one of ['input', 'change']) it.dispatchEvent(new Event(one, {bubbles: true}));"
        tab.run(f"(() => {{ const it = {field}; it.value = {json.dumps(value)}; {told} }})()")

    def test_lines_of_a_recipe_are_chosen_one_by_one(self) -> None:
        self.serve()
        tab = self.open("planner")
        tab.click("New recipe")
        for field, value in {"recipe": "RYE", "version": "1", "title": "Rye bread", "product": "BREAD", "base": "100", "min": "50", "max": "500"}.items():
            tab.fill(field, value)
        tab.click("Add an input", within=FORM)
        tab.until("document.activeElement.getAttribute('aria-label') === 'Material of line 1'", "the keyboard in the new line")
        tab.until("document.activeElement.options.length === 5", "the materials")
        offered = tab.run("[...document.activeElement.options].map((it) => it.label)")
        self.check("the materials", offered, ["choose a material", "BREAD: Bread", "DOUGH: Dough", "FLOUR: Flour", "YEAST: Yeast"])
        self.choose_in(tab, "Material of line 1", "DOUGH")
        tab.has("kg", f"{FORM}.querySelector('.line')")
        self.choose_in(tab, "Amount of line 1", "60")
        for button, fields in (
            ("Add an output", {"Material": "BREAD", "Amount": "100"}), ("Add a phase", {"Unit": "oven", "Operation": "bake", "Phase": "bake"}),
            ("Add a parameter", {"Name": "temp", "Value": "230 C"}),
        ):
            tab.click(button, within=FORM)
            number = tab.run(f"{FORM}.querySelectorAll('.line').length")
            for name, value in fields.items():
                self.choose_in(tab, f"{name} of line {number}", value)
        self.check("the text", tab.value("lines"), "in DOUGH 60\nout BREAD 100\nphase OVEN BAKE BAKE\npar TEMP 230 C")
        tab.run(f"{FORM}.querySelector('[aria-label=\"Line 4 up\"]').click()")
        tab.click("Add a phase", within=FORM)
        tab.run(f"{FORM}.querySelector('[aria-label=\"Take line 5 away\"]').click()")
        text = "in DOUGH 60\nout BREAD 100\npar TEMP 230 C\nphase OVEN BAKE BAKE"
        self.check("the text with the parameter before its phase", tab.value("lines"), text)
        tab.fill("lines", f"{text}\npar SALT 2\nsomething else")
        tab.until(f"{FORM}.querySelectorAll('.line').length === 6", "what is typed as lines")
        self.check("what is in them", tab.run(f"[...{FORM}.querySelectorAll('.line:nth-child(n+5) input')].map((it) => it.value)"),
                   ["OVEN", "BAKE", "BAKE", "SALT", "2", "something else"])
        self.choose_in(tab, "Kind of line 6", "par")
        self.check("a line of another kind", tab.value("lines").split("\n")[-1], "par else")
        tab.run(f"{FORM}.querySelector('[aria-label=\"Take line 6 away\"]').click()")
        tab.reload()
        tab.until("document.getElementById('view').dataset.ready")
        tab.click("New recipe")
        tab.has("What was typed before the page was loaded anew is put back.", FORM)
        self.check("the lines behind a reload", tab.run(f"{FORM}.querySelectorAll('.line').length"), 5)
        self.press(tab)
        tab.has("Recipe RYE 1 drafted.")
        lines = self.served.ask("/recipes/RYE/1")["lines"]
        self.check("its lines", [it["kind"] for it in lines], ["in", "out", "par", "phase", "par"])
        self.check("a line", {it: lines[0][it] for it in ("def", "qty")}, {"def": "DOUGH", "qty": 60})
        self.end(tab, MORNINGS + 1)

    def test_form_of_a_recipe_is_not_too_wide(self) -> None:
        self.serve()
        for width in (390, 820, 1280, 1920):
            tab = self.open("planner", width=width)
            tab.click("Lines", row="DOUGH 1")
            tab.click("New version from this one", within=FORM)
            tab.until(f"{FORM}.querySelectorAll('.line').length === 5", "its lines")
            wide = "[...document.querySelectorAll('html, dialog, .lines, .line')].filter((it) => it.scrollWidth > it.clientWidth).length"
            low = f"[...{FORM}.querySelectorAll('button, input, select')].filter((it) => it.getBoundingClientRect().height < 44).map((it) => it.outerHTML)"
            self.check(f"what is scrolled sideways at {width}", tab.run(wide), 0)
            self.check(f"what is low at {width}", tab.run(low) if width < 980 else [], [])

    def test_orders_are_not_too_wide(self) -> None:
        for width in (390, 820, 1280, 1920):
            tab = self.open_orders(width=width)
            self.choose(tab, "O-11", "O-13")
            wide = "[...document.querySelectorAll('html, dialog, .wide')].filter((it) => it.scrollWidth > it.clientWidth).length"
            low = "[...document.querySelectorAll('#view button, #view input, #view select')].filter((it) => it.getClientRects().length && " \
                  "it.getBoundingClientRect().height < 44).map((it) => it.outerHTML)"
            self.check(f"what is scrolled sideways at {width}", tab.run(wide), 0)
            self.check(f"what is low at {width}", tab.run(low) if width < 980 else [], [])
            tab.click("Release\u2026")
            tab.has("Release 2 orders", FORM)
            self.check(f"what is scrolled sideways in the form at {width}", tab.run(wide), 0)
            self.served.end()
