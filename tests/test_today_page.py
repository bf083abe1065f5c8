"""The first view of the page, in a browser: its figures, tables and plots, the same on the board, and the alarm."""
from __future__ import annotations

import time

from tests.support import Json
from tests.support.browser import Tab
from tests.support.pages import MORNINGS, BrowserTestCase

# The figures, by their names, and where each leads.
FIGURES = "Object.fromEntries([...document.querySelectorAll('.tile')].map((it) => [it.querySelector('h2').innerText, it.querySelector('.number').innerText]))"
PLACES = """Object.fromEntries([...document.querySelectorAll(".tile")].map((it) => [it.querySelector("h2").innerText,
  it.querySelector("a.number").getAttribute("href")]))"""
LINKS = "[...document.querySelectorAll('.tile p a')].map((it) => [it.innerText, it.getAttribute('href')])"

# What the mornings come to: an order that isn't released and two batches are late, two batches run, two orders wait, and F-2 is on hold.
MORNING_FIGURES = {"Late": "3", "Due today": "0", "Running": "2", "Waiting": "2", "On hold": "1", "Recalled": "0", "Short": "2"}

# Counts the tones of a page, which makes none.
TONES = """globalThis.tones = 0; globalThis.AudioContext = class {
  currentTime = 0;
  createOscillator() { return {frequency: {}, connect: (it) => it, start() { tones += 1; }, stop() {}}; }
  createGain() { return {gain: {}, connect: (it) => it}; }
  resume() {}
};"""

# Counts the questions of a page.
COUNTED = "globalThis.requests = 0; { const real = fetch; globalThis.fetch = (...told) => { requests += 1; return real(...told); }; }"


def day(days: int) -> str:
    """Returns the day so many days from now."""
    return time.strftime("%Y-%m-%d", time.localtime(time.time() + 86_400 * days))


class Today(BrowserTestCase):
    """What the first view shows of a desk, and where it leads."""

    IS_LONG = True

    def whole(self, tab: Tab, name: str = "today") -> None:
        """Waits until a view is drawn with its plots, as the desk is by now."""
        seq = self.served.ask("/desk")["seq"]
        tab.until(f"view.dataset.whole === '{name} {seq}'", f"all of {name}")

    def rows(self, tab: Tab, head: str) -> list[str]:
        """Returns the texts of the rows of the card with this head, with one blank where others are."""
        card = f"[...document.querySelectorAll('.card:not(.tile)')].find((it) => it.querySelector('h2').innerText.startsWith({head!r}))"
        rows: list[str] = tab.run(f"[...{card}.querySelectorAll('tbody tr')].map((it) => it.innerText.replaceAll('\\u202f', ' ').replace(/\\s+/g, ' ').trim())")
        return rows

    def book(self, **command: Json) -> None:
        """Has the desk book a command of somebody else."""
        reply = self.served.told(at=self.served.ask("/moment")["at"], by="ben", **command)
        self.check_true(f"{command} is accepted: {reply}", "ok" in reply)

    def test_figures_are_those_of_the_desk_and_lead_to_their_views(self) -> None:
        self.serve()
        tab = self.open("")
        self.whole(tab)
        self.check("the figures", tab.run(FIGURES), MORNING_FIGURES)
        self.check("where they lead", tab.run(PLACES), {
            "Late": "#planner", "Due today": "#planner", "Running": "#shift", "Waiting": "#planner", "On hold": "#quality", "Recalled": "#quality",
            "Short": "#warehouse/FLOUR",
        })
        self.check("further links", tab.run(LINKS), [
            ["1 order isn't released", "#planner"], ["2 batches are open", "#shift"], ["F-2", "#quality/lot/F-2"], ["FLOUR", "#warehouse/FLOUR"],
            ["YEAST", "#warehouse/YEAST"],
        ])
        tab.has("2 due within 7 days")
        tab.click("2", tag="a")
        tab.until("view.dataset.ready.startsWith('shift')", "the view of the shift")
        self.check("what the console tells of errors", tab.errors(), [])

    def test_figures_follow_what_is_booked(self) -> None:
        self.serve()
        tab = self.open("today")
        order = {"order": "O-6", "recipe": "BREAD", "version": 1, "size": 100, "due": day(0), "priority": 5}
        self.book(do="import_orders", orders=[order])
        self.book(do="recall", recall="RC-1", lot="D-1", note="bad flour")
        self.book(do="release", order="O-4", batch="B-4")
        tab.run("lookAgain()")
        self.whole(tab)
        self.check("the figures", tab.run(FIGURES), {**MORNING_FIGURES, "Due today": "1", "Recalled": "1"})
        self.check("where due today leads", tab.run(PLACES)["Due today"], f"#planner?text={day(0)}")
        tab.has("1 to be started")
        found = self.rows(tab, "On hold and recalled")
        self.check("bars, the last first", [it.split(" ben ")[0].split(" dora ")[0] for it in found], ["D-1 recall RC-1 bad flour", "F-2 hold H-1 wet sacks"])
        tab.click("1", tag="a", within="[...document.querySelectorAll('.tile')][1]")
        tab.until("location.hash.startsWith('#planner?text=')")
        tab.has("O-6", "document.querySelector('[data-row=\"O-6\"]')")
        self.check("the orders of that day", tab.run("[...document.querySelectorAll('[data-row^=\"O-\"]')].map((it) => it.dataset.row)"), ["O-6"])

    def test_what_is_short_is_what_orders_and_batches_still_take(self) -> None:
        self.serve()
        tab = self.open("today")
        self.whole(tab)
        self.check("what is short", self.rows(tab, "Short by"), [
            f"FLOUR Flour 800 kg 100 kg 700 kg {day(-4)}", f"YEAST Yeast 30 000 g 14 000 g 16 000 g {day(-1)}",
        ])
        tab.has(f"Short by {day(7)}")
        self.book(do="receive", lot="F-9", **{"def": "FLOUR"}, amount=699, place="A1")
        self.book(do="receive", lot="Y-9", **{"def": "YEAST"}, amount=16000, place="A1")
        tab.run("lookAgain()")
        self.whole(tab)
        self.check("what is short then", self.rows(tab, "Short by"), [f"FLOUR Flour 800 kg 799 kg 1 kg {day(-1)}"])
        self.book(do="scrap", lot="D-1", sub=0, amount=176)
        tab.click("1 day")
        self.whole(tab)
        self.check("the address", tab.run("location.hash"), "#today?ahead=1%20day")
        self.check("what is short within a day", self.rows(tab, "Short by"), [f"FLOUR Flour 800 kg 799 kg 1 kg {day(-1)}"])
        tab.has("1 due within 1 day")
        self.check("what the console tells of errors", tab.errors(), [])

    def test_plots_have_their_values_as_tables(self) -> None:
        self.serve()
        tab = self.open("today")
        self.whole(tab)
        tab.run("document.querySelectorAll('details').forEach((it) => { it.open = true; })")
        self.check("the yields", self.rows(tab, "Yield"), ["B-1 300 kg 296 kg 98.7"])
        tab.has("DOUGH: the last batch made 98.7 % of what was asked.")
        self.check("the stock today", self.rows(tab, "Stock over")[-1], f"{day(0)} 500 kg")
        tab.has("Flour: 500 kg of 2 lots in stock.")
        self.check("what is due", self.rows(tab, "Orders and batches"), [f"{day(-4)} 2", f"{day(-1)} 1", f"{day(2)} 1"])
        self.check("columns of what is late", tab.run("document.querySelectorAll('.column.bad').length >= 14"), True)
        self.check("pictures with a name", tab.run("[...document.querySelectorAll('.plot svg')].filter((it) => it.getAttribute('aria-label')).length"), 3)
        tab.run("location.hash = 'today?recipe=BREAD'")
        tab.has("No order of BREAD is finished.")
        tab.fill("yieldrecipe", "DOUGH")
        tab.has("DOUGH: the last batch made 98.7 % of what was asked.")
        tab.run("location.hash = 'today'")
        self.whole(tab)
        tab.fill("stockdef", "DOUGH")
        self.whole(tab)
        tab.has("Dough: 176 kg of 1 lot in stock.")
        self.check("the address", tab.run("location.hash"), "#today?def=DOUGH")
        tab.reload()
        tab.has("Dough: 176 kg of 1 lot in stock.")
        self.check("what the console tells of errors", tab.errors(), [])

    def test_yields_are_of_the_batches_that_were_finished_last(self) -> None:
        self.serve()
        for number in range(1, 34):
            order = {"order": f"P-{number:02}", "recipe": "BREAD", "version": 1, "size": 100, "due": day(number - 40), "priority": 5}
            self.book(do="import_orders", orders=[order])
            batch = f"B-P-{number:02}"
            self.book(do="release", order=f"P-{number:02}", batch=batch)
            self.book(do="batch", batch=batch, word="start")
            self.book(do="produce", batch=batch, lot=f"L-{number:02}", **{"def": "BREAD"}, amount=60 + number, place="")
            self.book(do="phase_done", batch=batch, phase=1)
            self.book(do="settle", batch=batch)
            self.book(do="close_batch", batch=batch)
        tab = self.open("today?recipe=BREAD", COUNTED)
        self.whole(tab)
        tab.run("document.querySelectorAll('details').forEach((it) => { it.open = true; })")
        wanted = [f"B-P-{it:02} 100 pcs {60 + it} pcs {60 + it}.0" for it in range(4, 34)]
        self.check("the yields", self.rows(tab, "Yield"), wanted)
        self.check("the recipes to choose from", tab.run("[...document.getElementById('yieldrecipe').options].map((it) => it.value)"), ["BREAD", "DOUGH"])
        before = tab.run("requests")
        self.book(do="hold", lot="F-1", hold="H-9", note="")
        tab.run("lookAgain()")
        self.whole(tab)
        self.check_true(f"what closed batches have isn't asked again: {before}", tab.run("requests") - before < 30)

    def test_desk_without_anything_says_so(self) -> None:
        self.serve(is_empty=True)
        tab = self.open("")
        tab.has("This desk is new")
        tab.run("location.hash = 'board'")
        tab.until("view.dataset.ready.startsWith('board')")
        self.check("what the console tells of errors", tab.errors(), [])

    def test_keys_lead_to_the_views(self) -> None:
        self.serve()
        tab = self.open("today")
        for key, name in (("1", "planner"), ("2", "shift"), ("3", "warehouse"), ("4", "quality"), ("0", "today")):
            tab.key(key)
            tab.until(f"view.dataset.ready.startsWith('{name}')", f"the view {name}")

    def test_board_has_the_figures_without_buttons(self) -> None:
        self.serve()
        tab = self.open("today?def=DOUGH")
        self.whole(tab)
        tab.click("Open the board", tag="a")
        self.whole(tab, "board")
        self.check("the address", tab.run("location.hash"), "#board?def=DOUGH")
        self.check("the figures", tab.run(FIGURES), MORNING_FIGURES)
        seen = "[...document.querySelectorAll('button, select, input, summary, nav a')].filter((it) => it.getClientRects().length).length"
        self.check("what can be pressed", tab.run(seen), 0)
        size = tab.run("parseFloat(getComputedStyle(document.querySelector('.tile .number')).fontSize)")
        self.check_true(f"numbers are large: {size}", size >= 48)
        self.book(do="unhold", lot="F-2", hold="H-1")
        tab.run("lookAgain()")
        self.whole(tab, "board")
        self.check("on hold", tab.run(FIGURES)["On hold"], "0")
        self.served.kill()
        tab.run("lookAgain()")
        tab.has("no answer", "document.getElementById('stand')")
        self.served.start_again()
        tab.run("lookAgain()")
        tab.lacks("no answer", "document.getElementById('stand')")
        tab.key("Escape")
        tab.until("location.hash === '#today'")
        self.check("what the console tells of errors", tab.errors(), [])

    def test_alarm_sounds_at_what_is_new_where_it_is_wanted(self) -> None:
        self.serve()
        tab = self.open("board", TONES)
        self.whole(tab, "board")
        self.book(do="hold", lot="F-1", hold="H-7", note="moths")
        tab.run("lookAgain()")
        self.whole(tab, "board")
        alarmed = "[document.body.classList.contains('alarm'), tones]"
        self.check("no alarm where none is wanted", tab.run(alarmed), [False, 0])
        tab.key("Escape")
        self.whole(tab)
        tab.run("document.getElementById('alarm').click()")
        self.check("a tone as the box is ticked", tab.run(alarmed), [False, 1])
        tab.run("location.hash = 'board'")
        self.whole(tab, "board")
        self.check("no alarm at what was there", tab.run(alarmed), [False, 1])
        self.book(do="recall", recall="RC-1", lot="F-1", note="moths")
        tab.run("lookAgain()")
        self.whole(tab, "board")
        tab.has("Recall RC-1 of lot F-1, by ben.", "document.getElementById('notice')")
        tab.until("document.body.classList.contains('alarm') && tones === 4", "a flash and three tones")
        self.book(do="unhold", lot="F-1", hold="H-7")
        tab.run("document.body.classList.remove('alarm'); lookAgain()")
        self.whole(tab, "board")
        self.check("no alarm at the end of a hold", tab.run(alarmed), [False, 4])
        self.check("what the browser keeps", tab.run("localStorage.getItem('desk.alarm')"), "true")

    def test_time_that_passes_is_seen_without_a_booking(self) -> None:
        self.serve()
        tab = self.open("today")
        self.whole(tab)
        before = self.rows(tab, "Running")
        tab.run("{ const time = desk.time(); desk.time = () => time + 3 * 86400; } lookAgain()")
        tab.until("/ [34] days /.test(document.querySelector('[data-row=\"B-2\"]').innerText.replace(/\\s+/g, ' '))", "days since the last step")
        self.check_true(f"the length of time is another one than {before}", self.rows(tab, "Running") != before)
        self.check("the number", self.served.ask("/desk")["seq"], MORNINGS)
