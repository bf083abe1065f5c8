"""All inputs of a batch booked at once, in a browser: from the oldest lots, once each, whatever is lost, refused or booked by others meanwhile."""
from __future__ import annotations

import json
import pathlib
import time

from tests.support import Json
from tests.support.browser import Tab
from tests.support.pages import BrowserTestCase

FORM = "document.querySelector('dialog[open]')"
BUTTON = f"{FORM}.querySelector('.end button:last-child')"

# The parts that the form shows, each with what is taken of it.
SHOWN = f"[...{FORM}.querySelectorAll('.part')].map((it) => it.innerText.replaceAll('\\u202f', ' ').split(/\\s*\\n\\s*/).filter(Boolean))"

# Does something once the page got the answer to its first booking, and before it is told of it.
BEHIND_THE_FIRST = """(() => {
  const real = fetch;
  let count = 0;
  globalThis.fetch = async (...told) => {
    const isBooking = told[0] === "/v1/commands";
    const reply = await real(...told);
    if (!isBooking) return reply;
    count += 1;
    %s
    return reply;
  };
})()"""

# Another client's command, told in between.
TOLD = """if (count === 1) {
  const { at } = await (await real("/v1/moment")).json();
  await real("/v1/commands", { method: "POST", body: JSON.stringify({ at, by: "dora", ...%s }), headers: { "Content-Type": "application/json" } });
}"""

# The number of commands before a test.
BEGUN = 20


def line(do: str, **fields: Json) -> bytes:
    """Returns the line of a command."""
    return json.dumps({"at": NOW, "by": "carl", "do": do, **fields}).encode() + b"\n"


def stocked() -> bytes:
    """Returns the commands of a batch that wants 250 kg of flour, 30 g of yeast and 10 l of water, and of what there is of these."""
    lines = [{"kind": "in", "def": it, "qty": qty} for it, qty in (("FLOUR", 250), ("YEAST", 30), ("WATER", 10))]
    lines += [{"kind": "out", "def": "DOUGH", "qty": 300}, {"kind": "phase", "unit": "MIX", "oper": "BLEND", "phase": "STIR"}]
    order = {"order": "O-1", "recipe": "DOUGH", "version": 1, "size": 300, "due": "2030-03-01", "priority": 5}
    lots = [("Z-9", "FLOUR", 100), ("H-9", "FLOUR", 100), ("M-1", "FLOUR", 120), ("B-9", "FLOUR", 500), ("Y-1", "YEAST", 21), ("W-1", "WATER", 4000)]
    told = [
        line("add_class", **{"class": "RAW"}, name=""),
        *(line("add_definition", **{"def": it, "class": "RAW"}, name=name, unit=unit)
          for it, name, unit in (("FLOUR", "Wheat flour", "kg"), ("YEAST", "", "g"), ("WATER", "", "l"), ("DOUGH", "", "kg"))),
        line("add_recipe", recipe="DOUGH", version=1, product="DOUGH", base=300, min=100, max=900, title="Dough", lines=lines),
        line("approve", recipe="DOUGH", version=1),
        line("import_orders", orders=[order]),
        line("release", order="O-1", batch="B-1"),
        line("batch", batch="B-1", word="start"),
        *(line("receive", lot=lot, **{"def": of}, amount=amount, place="W1") for lot, of, amount in lots),
        line("hold", lot="H-9", hold="H-1"),
        line("divide", lot="B-9", sub=0, amount=100, place="W2"),
        line("consume", batch="B-1", lot="B-9", sub=1, amount=50),
        line("scrap", lot="B-9", sub=1, amount=50),
    ]
    return b"".join(told)


NOW = int(time.time())

# The bookings that the form comes to, as lot, part and amount.
ASKED = [("Z-9", 0, 100), ("M-1", 0, 100), ("Y-1", 0, 21), ("W-1", 0, 10)]


class AllInputs(BrowserTestCase):
    """One press for all inputs."""

    IS_LONG = True

    # The file of that desk.
    stocked: pathlib.Path

    @classmethod
    def setUpClass(cls) -> None:
        super().setUpClass()
        cls.stocked = cls.made("stocked", stocked())

    def open_form(self, width: int = 1280) -> Tab:
        """Opens the form of all inputs of the batch."""
        self.serve(begun=self.stocked)
        tab = self.open("shift/B-1", width=width)
        self.ask(tab)
        return tab

    def ask(self, tab: Tab) -> None:
        tab.click("Book all inputs as asked")
        tab.has("Book all inputs of B-1 as asked", FORM)

    def press(self, tab: Tab) -> None:
        """Presses the button of the form that is open."""
        tab.run(f"{BUTTON}.focus()")
        tab.key("Enter")

    def consumed(self) -> list[tuple[str, int, int]]:
        """Returns what the batch consumed behind what it had, in the order of the bookings."""
        return [(it["lot"], it["sub"], it["amount"]) for it in self.served.ask("/batches/B-1")["consumed"]][1:]

    def check_booked(self, tab: Tab, wanted: list[tuple[str, int, int]], number: int) -> None:
        self.check("what is consumed", self.consumed(), wanted)
        self.check("the number", self.served.ask("/desk")["seq"], number)
        self.check("what the console tells of errors", tab.errors(), [])

    def test_all_inputs_are_booked_from_the_oldest_lots(self) -> None:
        tab = self.open_form()
        day = time.strftime("%Y-%m-%d", time.localtime(NOW))
        for it in ("Wheat flour", "200 kg left of 250 kg", "30 g left", "9 g short", "10 l left"):
            tab.has(it, FORM)
        self.check("what is taken", tab.run(SHOWN), [[f"{lot}/0 at W1, came {day}", amount] for lot, amount in (
            ("Z-9", "100 kg"), ("M-1", "100 of 120 kg"), ("Y-1", "21 g"), ("W-1", "10 of 4 000 l"))])
        self.check("where the keyboard is", tab.run("document.activeElement.innerText"), "Book all")
        self.press(tab)
        tab.has(f"4 of 4 bookings on B-1 are booked. The last is number {BEGUN + 4}.")
        tab.until("!dialog.open")
        tab.has("9 g", "document.querySelector('[data-row=\"in YEAST\"]')")
        self.check_booked(tab, ASKED, BEGUN + 4)
        self.ask(tab)
        tab.has("9 g short", FORM)
        self.press(tab)
        tab.has("There is nothing that could be booked.", FORM)
        self.check_booked(tab, ASKED, BEGUN + 4)

    def test_lot_whose_tick_is_taken_away_is_left_out(self) -> None:
        tab = self.open_form()
        tab.run(f"{FORM}.querySelector('[aria-label=\"Take Z-9/0\"]').click()")
        tab.until(f"{SHOWN}.length === 5")
        self.check("what is taken", [it[1] for it in tab.run(SHOWN)], ["none", "120 kg", "80 of 400 kg", "21 g", "10 of 4 000 l"])
        tab.run(f"{FORM}.querySelector('[aria-label=\"Take W-1/0\"]').click()")
        tab.has("10 l short", FORM)
        tab.fill("note", "night shift")
        tab.key("Enter")
        tab.has("3 of 3 bookings on B-1 are booked.")
        tab.until("!dialog.open")
        self.check_booked(tab, [("M-1", 0, 120), ("B-9", 0, 80), ("Y-1", 0, 21)], BEGUN + 3)
        self.check("notes", [it["note"] for it in self.served.ask("/lists/commands")["commands"]], ["night shift"] * 3)

    def test_many_presses_book_once(self) -> None:
        tab = self.open_form()
        tab.run(f"(() => {{ const form = {FORM}.querySelector('form'); for (let k = 0; k < 5; k += 1) form.requestSubmit(); }})()")
        tab.has("4 of 4 bookings on B-1 are booked.")
        tab.until("!dialog.open")
        self.check_booked(tab, ASKED, BEGUN + 4)

    def test_lost_answer_stops_it_and_is_sent_again_once(self) -> None:
        tab = self.open_form()
        tab.run(BEHIND_THE_FIRST % "if (count === 2) return new Response('bad gateway', {status: 502});")
        self.press(tab)
        tab.has("1 of 4 bookings on B-1 is booked. No answer came to the next one: send it again, and then book the rest.")
        tab.has("No answer came to \u201c100 kg of M-1 consumed\u201d.", "document.getElementById('waiting')")
        tab.until("!dialog.open")
        self.check_booked(tab, ASKED[:2], BEGUN + 2)
        self.ask(tab)
        self.press(tab)
        tab.has("An earlier booking has no answer yet.", FORM)
        tab.key("Escape")
        tab.until("!dialog.open")
        tab.reload()
        tab.click("Send again")
        tab.has(f"100 kg of M-1 consumed. Number {BEGUN + 2}.")
        self.ask(tab)
        self.check("what is left", [it[1] for it in tab.run(SHOWN)], ["21 g", "10 of 4 000 l"])
        self.press(tab)
        tab.has("2 of 2 bookings on B-1 are booked.")
        tab.until("!dialog.open")
        self.check_booked(tab, ASKED, BEGUN + 4)

    def test_lost_request_is_booked_once(self) -> None:
        tab = self.open_form()
        tab.run("(() => { const real = fetch; let count = 0; globalThis.fetch = (...told) => { count += told[0] === '/v1/commands' ? 1 : 0; "
                "return count === 2 ? new Promise(() => {}) : real(...told); }; })()")
        self.press(tab)
        tab.until("JSON.parse(localStorage.getItem('desk.bookings') || '[]').some((it) => it.fields.lot === 'M-1')", "the second booking on its way")
        tab.reload()
        tab.click("Send again")
        tab.has(f"100 kg of M-1 consumed. Number {BEGUN + 2}.")
        self.ask(tab)
        self.press(tab)
        tab.has("2 of 2 bookings on B-1 are booked.")
        tab.until("!dialog.open")
        self.check_booked(tab, ASKED, BEGUN + 4)

    def test_refusal_stops_it_and_says_how_far_it_came(self) -> None:
        tab = self.open_form()
        tab.run(BEHIND_THE_FIRST % TOLD % '{do: "hold", lot: "M-1", hold: "H-2"}')
        self.press(tab)
        tab.has("1 of 4 bookings on B-1 is booked. 100 kg of M-1 consumed: The lot is on hold.", FORM)
        self.check("what is left", [it[1] for it in tab.run(SHOWN)], ["100 of 400 kg", "21 g", "10 of 4 000 l"])
        self.check_booked(tab, ASKED[:1], BEGUN + 2)
        self.press(tab)
        tab.has("3 of 3 bookings on B-1 are booked.")
        tab.until("!dialog.open")
        self.check_booked(tab, [ASKED[0], ("B-9", 0, 100), *ASKED[2:]], BEGUN + 5)

    def test_what_others_book_is_not_booked_again(self) -> None:
        tab = self.open_form()
        self.served.told(at=self.served.ask("/moment")["at"], by="dora", do="consume", batch="B-1", lot="B-9", sub=0, amount=150)
        self.press(tab)
        tab.has("What is booked or in stock has changed meanwhile. Look at the amounts, and press once more.", FORM)
        self.check("what is left", [it[1] for it in tab.run(SHOWN)], ["50 of 100 kg", "21 g", "10 of 4 000 l"])
        tab.run(BEHIND_THE_FIRST % TOLD % '{do: "consume", batch: "B-1", lot: "Y-1", sub: 0, amount: 20}')
        self.press(tab)
        tab.has("1 of 3 bookings on B-1 is booked. 21 g of Y-1 consumed: Somebody else booked YEAST on the batch meanwhile.", FORM)
        self.press(tab)
        tab.has("2 of 2 bookings on B-1 are booked.")
        tab.until("!dialog.open")
        self.check_booked(tab, [("B-9", 0, 150), ("Z-9", 0, 50), ("Y-1", 0, 20), ("Y-1", 0, 1), ("W-1", 0, 10)], BEGUN + 5)

    def test_form_that_is_closed_ends_it(self) -> None:
        tab = self.open_form()
        tab.run(BEHIND_THE_FIRST % "if (count === 1) dialog.close();")
        self.press(tab)
        tab.has("1 of 4 bookings on B-1 is booked. The form was closed.")
        self.check_booked(tab, ASKED[:1], BEGUN + 1)

    def test_form_is_not_too_wide(self) -> None:
        for width in (390, 820, 1280):
            tab = self.open_form(width=width)
            low = f"[...{FORM}.querySelectorAll('button, input')].filter((it) => it.getBoundingClientRect().height < 44).length"
            self.check(f"what is low at {width}", tab.run(low) if width < 980 else 0, 0)
            wide = "[...document.querySelectorAll('html, dialog')].filter((it) => it.scrollWidth > it.clientWidth).length"
            self.check(f"what is scrolled sideways at {width}", tab.run(wide), 0)
            self.served.end()
