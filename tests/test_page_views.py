"""What views of the page have in common, in a browser: addresses with filters, a desk that doesn't answer, the day, names of controls, contrast."""
from __future__ import annotations

from tests.support.browser import Tab
from tests.support.pages import MORNINGS, BrowserTestCase

FORM = "document.querySelector('dialog[open]')"

# The names of what can be pressed in the view, as a reader of the screen has them, that are there more than once.
TWICE = """(() => {
  const all = [...document.querySelectorAll("#view button, #view input, #view select")].map((it) => it.getAttribute("aria-label") || it.innerText || it.id);
  return all.filter((it, k) => all.indexOf(it) !== k);
})()"""

# The least contrast of the borders of what can be written into or pressed, to what is in and around it (WCAG 2.2, 1.4.11), and of the words in buttons.
CONTRASTS = """(() => {
  const light = (text) => {
    const [r, g, b] = text.match(/[0-9.]+/g).map((it) => it / 255).map((it) => (it <= 0.03928 ? it / 12.92 : ((it + 0.055) / 1.055) ** 2.4));
    return 0.2126 * r + 0.7152 * g + 0.0722 * b;
  };
  const contrast = (one, other) => { const [a, b] = [light(one), light(other)]; return (Math.max(a, b) + 0.05) / (Math.min(a, b) + 0.05); };
  const isSeen = (it) => getComputedStyle(it).backgroundColor !== "rgba(0, 0, 0, 0)";
  const around = (it) => { let up = it.parentElement; while (!isSeen(up)) up = up.parentElement; return getComputedStyle(up).backgroundColor; };
  const all = [...document.querySelectorAll("input:not([type=checkbox]), select, textarea, button:not(.main)")].filter((it) => it.getClientRects().length
    && parseFloat(getComputedStyle(it).borderTopWidth) > 0);
  const borders = all.flatMap((it) => [contrast(getComputedStyle(it).borderTopColor, around(it)),
    contrast(getComputedStyle(it).borderTopColor, isSeen(it) ? getComputedStyle(it).backgroundColor : around(it))]);
  const words = [...document.querySelectorAll("button.main")].map((it) => contrast(getComputedStyle(it).color, getComputedStyle(it).backgroundColor));
  return [all.length > 3, Math.min(...borders) >= 3, Math.min(4.5, ...words) >= 4.5];
})()"""


class Views(BrowserTestCase):
    """What views have in common."""

    IS_LONG = True

    def at(self, tab: Tab, address: str) -> None:
        """Waits until an address is drawn."""
        name = address.split("/")[0].split("?")[0]
        tab.until(f"location.hash === '#{address}' && drawn === location.hash && view.dataset.ready.startsWith('{name}')", address)

    def go(self, tab: Tab, address: str) -> None:
        tab.run(f"location.hash = '{address}'")
        self.at(tab, address)

    def now(self) -> int:
        moment: int = self.served.ask("/moment")["at"]
        return moment

    def test_filters_are_in_the_address(self) -> None:
        self.serve()
        tab = self.open("planner")
        tab.click("released")
        self.at(tab, "planner?orders=released")
        tab.reload()
        tab.has("O-2", "document.querySelector('[data-row=\"O-2\"]')")
        tab.click("O-2", tag="a")
        self.at(tab, "planner/O-2?orders=released")
        tab.has("Order O-2")
        tab.click("Show withdrawn")
        self.at(tab, "planner/O-2?orders=released&withdrawn=shown")
        tab.run("history.back()")
        self.at(tab, "planner/O-2?orders=released")
        tab.has("Show withdrawn")
        tab.run("history.back()")
        self.at(tab, "planner?orders=released")
        tab.click("open")
        self.at(tab, "planner")
        tab.has("O-4", "document.querySelector('[data-row=\"O-4\"]')")
        tab.click("Shift", tag="a")
        tab.click("closed")
        self.at(tab, "shift?batches=closed")
        tab.click("B-1", tag="a")
        self.at(tab, "shift/B-1?batches=closed")
        tab.click("Shift", tag="a")
        self.at(tab, "shift")
        for address in ("planner?orders=nothing", "planner/o-4", "shift/B-2", "quality/lot/F-1?recalls=lifted", "quality/batch/B-1?record=text"):
            self.go(tab, address)
        tab.has("BATCH RECORD B-1")
        self.check("what the console tells of errors", tab.errors(), [])

    def test_order_file_is_seen_whatever_was_chosen(self) -> None:
        self.serve()
        tab = self.open("planner?orders=finished")
        file = self.folder / "right.csv"
        file.write_text("order,recipe,version,size,due,priority\nO-6,BREAD,1,100,2030-03-01,5\n")
        tab.choose_file("orderfile", file)
        tab.click("Take the file in")
        tab.has("O-6", "document.querySelector('[data-row=\"O-6\"]')")
        self.check("the address", tab.run("location.hash"), "#planner")

    def test_ids_are_offered_as_they_are_typed(self) -> None:
        self.serve()
        tab = self.open("planner")
        offered = "[...document.getElementById('begun').options].map((it) => it.label)"
        wanted = {"b": "BR-1: lot,B-1: batch,B-2: batch,B-3: batch,BREAD: material, recipe", "br": "BR-1: lot,BREAD: material, recipe", "br-1": "BR-1: lot", "br 1": "",
                  "o": "O-1: order,O-2: order,O-3: order,O-4: order,O-5: order", "zz": ""}
        for text, offers in wanted.items():
            tab.fill("find", text)
            tab.until(f"{offered}.join() === '{offers}'", f"what begins with {text}")
        tab.fill("find", "bread")
        tab.key("Enter")
        tab.until("location.hash === '#warehouse/BREAD'", "the material")

    def test_materials_are_found_by_words_of_their_names(self) -> None:
        self.serve()
        self.served.told(**{"at": self.now(), "by": "ben", "do": "add_definition", "def": "WF550", "class": "RAW", "name": "Wheat flour 550", "unit": "kg"})
        tab = self.open("planner")
        offered = "[...document.getElementById('begun').options].map((it) => it.label)"
        for text, offers in {"wheat": "WF550: Wheat flour 550", "flour": "FLOUR: material,WF550: Wheat flour 550", "fl 55": "WF550: Wheat flour 550", "rye": ""}.items():
            tab.fill("find", text)
            tab.until(f"{offered}.join() === '{offers}'", f"what is named {text}")
        tab.fill("find", "flou")
        tab.key("Enter")
        tab.has("Several materials are named so: FLOUR, WF550")
        tab.fill("find", "wheat")
        tab.key("Enter")
        tab.until("location.hash === '#warehouse/WF550'", "the material")

    def test_places_are_found_by_their_names_and_recipes_by_their_ids(self) -> None:
        self.serve()
        for lot, place in (("N-1", "Cold room 1"), ("N-2", "Cold room 2")):
            self.served.told(at=self.now(), by="carl", do="receive", lot=lot, **{"def": "FLOUR"}, amount=1, place=place)
        lines = [{"kind": "out", "def": "BREAD", "qty": 1}, {"kind": "phase", "unit": "OVEN", "oper": "BAKE", "phase": "BAKE"}]
        recipe = {"recipe": "RYE", "version": 1, "product": "BREAD", "base": 1, "min": 1, "max": 9, "title": "", "lines": lines}
        self.served.told(at=self.now(), by="carl", do="add_recipe", **recipe)
        tab = self.open("planner")
        for typed, address in (("cold room 2", "warehouse/place/Cold%20room%202"), ("shop", "warehouse/place/SHOP"), ("a1", "warehouse/place/A1"),
                               ("rye", "planner?recipe=RYE")):
            tab.fill("find", typed)
            tab.key("Enter")
            self.at(tab, address)
        tab.fill("find", "cold r")
        tab.key("Enter")
        tab.has("no recipe and no place")
        tab.run("document.activeElement.blur()")
        tab.scan("A2")
        self.at(tab, "warehouse/place/A2")
        self.check("what the console tells of errors", tab.errors(), [])

    def test_parts_of_which_nothing_is_left_are_not_shown(self) -> None:
        self.serve()
        lot = self.served.ask("/lots/F-1")["sublots"]
        self.served.told(at=self.now(), by="ben", do="divide", lot="F-1", sub=0, amount=lot[0]["stock"], place="A9")
        tab = self.open("warehouse/FLOUR/F-1")
        tab.has("A9")
        self.check("rows of part 0", tab.run("document.querySelectorAll('[data-row=\"F-1/0\"]').length"), 0)
        self.go(tab, "quality/lot/F-1")
        tab.has("Part 2 at A9")
        self.check_true("part 0 in the lot's view", "Part 0" not in tab.text("document.querySelector('.facts')"))

    def test_view_of_a_desk_that_does_not_answer_has_nothing_of_another(self) -> None:
        self.serve()
        tab = self.open("planner")
        self.served.kill()
        tab.click("Shift", tag="a")
        tab.has("No answer")
        tab.has("no answer", "document.getElementById('stand')")
        tab.lacks("Take orders in")
        tab.click("?")
        tab.has("Move, Split", FORM)
        for it in ("Complete, Close", "Hold, Recall", "Stop, Abort", "Free, On hold, Recalled", "Draft, Approve, Withdraw", "Take off, Lift", "0 today"):
            tab.has(it, FORM)
        tab.key("Escape")
        self.served.start_again()
        tab.click("Try again")
        tab.has("Batch B-3")
        self.served.kill()
        tab.run("show()")
        tab.has("The desk doesn't answer.", "document.getElementById('notice')")
        tab.has("Batch B-3")

    def test_day_that_is_over_is_seen_without_a_booking(self) -> None:
        self.serve()
        tab = self.open("planner")
        before = tab.run("document.querySelectorAll('td .pill.bad').length")
        tab.run("desk.today = () => '2099-01-01'; lookAgain()")
        tab.until("document.querySelectorAll('td .pill.bad').length === 2", "two orders that are late")
        self.check_true(f"fewer were late before: {before}", before < 2)

    def test_each_control_has_a_name_of_its_own(self) -> None:
        self.serve()
        self.served.told(at=self.now(), by="ben", do="hold", lot="F-2", hold="H-2", note="still wet")
        tab = self.open("planner")
        for place in (
            "today", "planner", "planner/O-4", "shift/B-3", "warehouse/place/A1", "warehouse/FLOUR", "quality", "quality/lot/F-2", "quality/batch/B-1",
        ):
            self.go(tab, place)
            self.check(f"names in {place} that are there twice", tab.run(TWICE), [])
        self.go(tab, "planner")
        names = tab.run("[...document.querySelectorAll('[data-row=\"O-4\"] button')].map((it) => it.getAttribute('aria-label'))")
        self.check("the buttons of an order", names, ["Release O-4", "Cancel O-4"])

    def test_what_was_booked_is_said_over_no_button(self) -> None:
        self.serve()
        for width, height in ((390, 600), (1280, 500)):
            tab = self.open("planner", width=width, height=height)
            tab.run("notice('good', 'Order file week.csv taken in. Number 44. By anna.'); scrollTo(0, 99999); true")
            ends = tab.run("[Math.max(...[...view.querySelectorAll('button')].map((it) => it.getBoundingClientRect().bottom)), "
                           "document.getElementById('notice').getBoundingClientRect().top]")
            self.check_true(f"the last button ends above it at {width}: {ends}", ends[0] <= ends[1])

    def test_lines_of_a_recipe_begin_at_their_top(self) -> None:
        self.serve()
        lines = [{"kind": "out", "def": "BREAD", "qty": 100}, *({"kind": "phase", "unit": "U", "oper": "O", "phase": f"P-{k}"} for k in range(30))]
        recipe = {"recipe": "LONG", "version": 1, "product": "BREAD", "base": 100, "min": 1, "max": 900, "title": "Long", "lines": lines}
        self.served.told(at=self.now(), by="ben", do="add_recipe", **recipe)
        tab = self.open("planner", height=500)
        tab.click("Lines", row="LONG 1")
        tab.has("P-29", FORM)
        self.check("how far it is scrolled", tab.run("dialog.scrollTop"), 0)
        self.check("where the keyboard is", tab.run("document.activeElement.innerText"), "Close")

    def test_step_of_a_batch_takes_a_note(self) -> None:
        self.serve()
        tab = self.open("shift/B-2")
        tab.click("With a note\u2026")
        self.check("the steps", tab.run(f"[...{FORM}.querySelector('select').options].map((it) => it.label)"), ["Phase RISE done", "Pause"])
        tab.fill("note", "core 74 C")
        tab.click("Book it", within=FORM)
        tab.has(f"Phase RISE of B-2 done. Number {MORNINGS + 1}.")
        tab.until("!dialog.open")
        tab.click("With a note\u2026")
        tab.fill("step", 1)
        tab.fill("note", "belt slips")
        tab.click("Book it", within=FORM)
        tab.has(f"Batch B-2: pause. Number {MORNINGS + 2}.")
        record = self.served.ask("/lists/commands")["commands"]
        self.check("the notes", [(it["do"], it["note"]) for it in record[-2:]], [("phase_done", "core 74 C"), ("batch", "belt slips")])

    def test_letters_that_the_desk_lacks_are_offered_as_plain_ones(self) -> None:
        self.serve()
        tab = self.open("warehouse/FLOUR")
        tab.click("Receive a lot")
        for name, value in (("lot", "F-3"), ("amount", "5"), ("place", "K\u00fchlhaus 1")):
            tab.fill(name, value)
        tab.fill("note", "plain")
        tab.click("Take \u201cKuehlhaus 1\u201d", within=FORM)
        self.check("the place", tab.value("place"), "Kuehlhaus 1")
        tab.lacks("plain letters alone", FORM)
        tab.fill("place", "\u4e2d")
        tab.fill("note", "plain")
        self.check_true("nothing is offered for other letters", "plain letters alone" not in tab.text(FORM))
        tab.fill("place", "A7")
        tab.click("Receive", within=FORM)
        tab.has(f"Number {MORNINGS + 1}.")

    def test_wide_screen_is_used(self) -> None:
        self.serve()
        for width, least in ((1280, 1200), (1920, 1750)):
            tab = self.open("planner", width=width)
            size = tab.run("[document.querySelector('[data-row=\"O-4\"]').getBoundingClientRect().height, view.getBoundingClientRect().width]")
            self.check_true(f"the height of a row and the width at {width}: {size}", size[0] < 60 and size[1] >= least)
            self.check(f"the width of the page at {width}", tab.run("document.documentElement.scrollWidth"), width)

    def test_borders_and_buttons_can_be_seen(self) -> None:
        self.serve()
        for scheme in ("light", "dark"):
            tab = self.open("planner")
            tab.call("Emulation.setEmulatedMedia", features=[{"name": "prefers-color-scheme", "value": scheme}])
            self.go(tab, "today")
            self.check(f"contrasts in today, {scheme}", tab.run(CONTRASTS), [True, True, True])
            for place, press in (("planner", "One order by hand"), ("shift/B-3", "Consume"), ("warehouse/FLOUR", "Receive a lot"), ("quality/lot/F-1", "Hold")):
                self.go(tab, place)
                tab.click(press)
                tab.until("dialog.open")
                self.check(f"contrasts in {place}, {scheme}", tab.run(CONTRASTS), [True, True, True])
                tab.key("Escape")
                tab.until("!dialog.open")
            self.check("the number", self.served.ask("/desk")["seq"], MORNINGS)
