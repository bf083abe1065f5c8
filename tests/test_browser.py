"""The page in a browser: journeys of the four roles in a headless Chromium, each over a desk of its own, which is verified at its end."""
from __future__ import annotations

import json
import pathlib
import shutil
import time

from tests.support.browser import Tab
from tests.support.pages import MORNINGS, BrowserTestCase

# Sets the clock of a page back by so many seconds.
CLOCK_BACK = """(() => {
  const back = %d * 1000, RealDate = Date;
  globalThis.Date = class extends RealDate {
    constructor(...told) { super(...(told.length ? told : [RealDate.now() - back])); }
    static now() { return RealDate.now() - back; }
  };
})();"""

# Has the answers to bookings lost, of which the page then gets `lost` instead.
LOSE_ANSWERS = """(() => {
  const real = fetch;
  globalThis.fetch = async (...told) => { const reply = await real(...told); return told[1].method === "POST" ? lost() : reply; };
})()"""

# Has the answers to checks lost, and counts them.
LOSE_CHECKS = """(() => {
  const real = fetch;
  globalThis.lostChecks = 0;
  globalThis.fetch = (...told) => { if (told[0] !== "/v1/check") return real(...told); lostChecks += 1; return lost(); };
})()"""

# Counts the checks that were answered.
ANSWERED_CHECK = """(() => {
  const real = fetch;
  globalThis.answeredChecks = 0;
  globalThis.fetch = async (...told) => {
    const reply = await real(...told);
    if (told[0] === "/v1/check") answeredChecks += 1;
    return reply;
  };
})()"""

# Lasts until the page was drawn twice.
TWO_FRAMES = "new Promise((then) => requestAnimationFrame(() => requestAnimationFrame(() => then(true))))"

HEADER = "order,recipe,version,size,due,priority\n"


class Journeys(BrowserTestCase):
    """What the four roles do at the page."""

    IS_LONG = True

    def go(self, tab: Tab, place: str) -> None:
        """Goes to a view, and waits until it is shown."""
        anew = f"if (location.hash === '#{place}') show(); else location.hash = '{place}';"
        tab.run(f"(() => {{ document.getElementById('view').dataset.ready = ''; {anew} }})()")
        tab.until("document.getElementById('view').dataset.ready", f"the view {place}")

    def check_booked(self, tab: Tab, what: str, number: int) -> None:
        """Checks that the page says that this was booked under this number, shows the desk as it is then, and that the desk has come so far."""
        tab.has(f"{what} Number {number}.")
        tab.until(f"document.getElementById('view').dataset.ready.endsWith(' {number}')", f"the view of a desk of {number} bookings")
        tab.until("!document.getElementById('dialog').open", "the form to be closed")
        self.check(f"the number behind {what!r}", self.served.ask("/desk")["seq"], number)

    def end(self, tab: Tab, number: int) -> None:
        """Checks that the page met no error, and that the desk's file is good."""
        self.check("what the console tells of errors", tab.errors(), [])
        self.served.end()
        self.check_verified("the file", self.served.file, number)

    def send(self, tab: Tab, **fields: str | int) -> None:
        """Fills a form that is open and presses its button by Enter."""
        for name, value in fields.items():
            tab.fill(name, value)
        tab.run("document.querySelector('dialog[open] .end button:last-child').focus()")
        tab.key("Enter")

    def choose(self, tab: Tab, lot: str) -> None:
        """Types a lot into the form that is open, and waits until it is chosen."""
        tab.fill("from", lot)
        tab.key("Enter")
        tab.has(f"{lot.upper()}/", "document.querySelector('dialog .said')")

    def test_order_file_is_taken_in_whole_or_not_at_all(self) -> None:
        self.serve()
        tab = self.open("planner")
        wrong, right = self.folder / "wrong.csv", self.folder / "right.csv"
        wrong.write_text(f"{HEADER}O-6,BREAD,1,100,2030-03-01,5\nO-7,BREAD,1,100,2030-02-30,5\n")
        right.write_text(f"{HEADER}O-6,BREAD,1,100,2030-03-01,5\nO-7,BREAD,1,200,2020-03-01,5\n")
        tab.choose_file("orderfile", wrong)
        tab.click("Take the file in")
        tab.has("Row 2 of the file, the header being row 0: The due date isn't a day like 2027-03-01. (Due) Nothing was taken in.")
        self.check("the number behind a file with a fault", self.served.ask("/desk")["seq"], MORNINGS)
        tab.choose_file("orderfile", right)
        tab.click("Take the file in")
        self.check_booked(tab, "Order file right.csv taken in.", 35)
        ids = tab.run("[...document.querySelectorAll('[data-row^=\"O-\"]')].map((e) => e.dataset.row)")
        self.check("the open orders, by their due dates", ids, ["O-7", "O-5", "O-4", "O-6"])
        late = tab.run("[...document.querySelectorAll('[data-row^=\"O-\"]')].filter((e) => e.innerText.includes('late')).map((e) => e.dataset.row)")
        self.check("the orders that are marked as late", late, ["O-7", "O-5"])
        tab.choose_file("orderfile", right)
        tab.click("Take the file in")
        self.check_booked(tab, "Order file right.csv taken in.", 36)
        self.check("an order of the file", self.served.ask("/orders/O-7")["size"], 200)
        self.end(tab, 36)

    def test_order_is_released_made_and_closed(self) -> None:
        self.serve()
        tab = self.open("planner")
        tab.click("Lines", row="BREAD 1")
        tab.has("OVEN BAKE BAKE", "document.getElementById('dialog')")
        tab.key("Escape")
        tab.click("Release", row="O-4")
        self.send(tab, batch="b-4")
        self.check_booked(tab, "Order O-4 released as B-4.", 35)
        self.go(tab, "shift/B-4")
        tab.click("Start")
        self.check_booked(tab, "Batch B-4: start.", 36)
        tab.click("Consume")
        self.check("the amount that is left", tab.value("amount"), "60")
        self.choose(tab, "d-1")
        self.send(tab, amount=1000)
        tab.has("Asked 60 kg, booked 0 kg: this makes 1 000 kg, 16 times what was asked.")
        tab.until("performance.now() > openForm().notBefore", "the time in which the question isn't answered yet")
        tab.key("Enter")
        tab.has("There is less than that in this part of the lot. (TooLittle)")
        self.send(tab, amount=60, note="of the morning")
        self.check_booked(tab, "60 kg of D-1 consumed.", 37)
        tab.click("Phase BAKE done")
        self.check_booked(tab, "Phase BAKE of B-4 done.", 38)
        tab.click("Produce")
        self.send(tab, place="SHOP")
        self.check_booked(tab, "100 pcs as BREAD-B-4 produced.", 39)
        tab.click("Finish: complete")
        self.check_booked(tab, "Batch B-4 is complete.", 40)
        tab.click("Close")
        tab.click("Close it", within="document.getElementById('dialog')")
        self.check_booked(tab, "Batch B-4 closed.", 41)
        batch = self.served.ask("/batches/B-4")
        self.check("the batch", (batch["closed"], batch["state"], batch["consumed"][0]["amount"]), (True, "complete", 60))
        self.check("what was produced", self.served.ask("/lots/BREAD-B-4")["sublots"], [{"no": 0, "place": "SHOP", "stock": 100}])
        tab.click("closed")
        tab.has("all phases done", "document.querySelector('[data-row=\"B-4\"]')")
        self.go(tab, "quality/batch/B-4")
        record = tab.text("document.querySelector('.record')")
        for text in ("Batch record B-4", "of the morning", "BREAD-B-4", "OVEN BAKE BAKE", time.strftime("%Y-%m-%d")):
            self.check_true(f"{text!r} in the record", text in record)
        tab.click("text")
        tab.has("BATCH RECORD B-4")
        self.end(tab, 41)

    def test_hold_bars_a_lot_until_it_is_taken_away(self) -> None:
        self.serve()
        tab = self.open("quality")
        tab.fill("find", "d-1")
        tab.key("Enter")
        tab.has("Lot D-1")
        tab.click("Hold")
        self.send(tab, hold="h-2", note="too wet")
        self.check_booked(tab, "Lot D-1 is on hold.", 35)
        tab.has("too wet")
        self.go(tab, "quality")
        tab.has("H-2", "document.querySelector('[data-row=\"D-1.H-2\"]')")
        tab.has("too wet", "document.querySelector('[data-row=\"35\"]')")
        for held in ("F-2.H-1", "D-1.H-2"):
            tab.has("Take the hold off", f"document.querySelector('[data-row=\"{held}\"]')")
        self.go(tab, "shift/B-3")
        tab.click("Consume")
        tab.has("All DOUGH in stock is on hold or recalled.")
        self.go(tab, "quality/lot/D-1")
        tab.click("Take the hold off", row="H-2")
        tab.fill("note", "dry again")
        tab.key("Enter")
        self.check_booked(tab, "Hold H-2 is taken off D-1.", 36)
        tab.has("No hold is on it.")
        self.check("whether the lot is held", self.served.ask("/lots/D-1")["held"], False)
        self.end(tab, 36)

    def test_lots_are_moved_split_and_merged(self) -> None:
        self.serve()
        tab = self.open("warehouse/FLOUR")
        tab.click("Receive a lot")
        self.send(tab, lot="f-3", amount=50, place="A4")
        self.check_booked(tab, "50 kg as F-3 received.", 35)
        tab.click("Receive a lot")
        self.send(tab, lot="F-3", amount=50)
        tab.has("That id is taken already. Take another one. (Exists)")
        tab.key("Escape")
        tab.click("Move", row="F-1/0")
        self.send(tab, amount=30, place="A9")
        self.check_booked(tab, "30 kg of F-1 brought to A9.", 36)
        tab.click("Split", row="F-1/0")
        self.send(tab, amount=20, new="F-5", place="<b>A5</b>")
        self.check_booked(tab, "20 kg of F-1 split off as F-5.", 37)
        tab.has("<b>A5</b>")
        for part in ("F-1/2", "F-3/0"):
            box = f"document.querySelector('[aria-label=\"Choose {part} for a merge\"]')"
            tab.until(f"{box} && ({box}.checked || {box}.click() || {box}.checked)", f"the box of {part}")
        tab.click("Merge\u2026")
        self.send(tab, new="F-6", place="A1", **{"F-3/0": 10})
        self.check_booked(tab, "Merged as F-6.", 38)
        stocks = {it: self.served.ask(f"/lots/{it}")["stock"] for it in ("F-1", "F-3", "F-5", "F-6")}
        self.check("the stocks", stocks, {"F-1": 50, "F-3": 40, "F-5": 20, "F-6": 40})
        tab.click("Scrap", row="F-5/0")
        self.send(tab, amount=20, note="burst")
        self.check_booked(tab, "20 kg of F-5 scrapped.", 39)
        tab.lacks("F-5", "document.getElementById('view')")
        self.end(tab, 39)

    def test_form_says_why_it_would_be_refused_before_it_is_sent(self) -> None:
        self.serve()
        tab = self.open("warehouse/FLOUR")
        form, said = "document.querySelector('dialog[open]')", "As it stands, this would be refused"
        tab.click("Receive a lot")
        tab.fill("lot", "f-1")
        tab.fill("amount", 5)
        tab.has(f"{said}. That id is taken already. Take another one. (Exists)", form)
        self.check("the number behind a form that is filled", self.served.ask("/desk")["seq"], MORNINGS)
        tab.fill("lot", "f-5")
        tab.lacks(said, form)
        tab.run(ANSWERED_CHECK)
        tab.fill("amount", 6)
        tab.until("answeredChecks === 1", "the answer to a check")
        tab.run(TWO_FRAMES)
        self.check_true("nothing is said against a form that would be taken", said not in tab.text(form))
        self.check("the number behind checks", self.served.ask("/desk")["seq"], MORNINGS)
        self.send(tab)
        self.check_booked(tab, "6 kg as F-5 received.", 35)
        self.end(tab, 35)

    def test_form_is_sent_where_its_check_has_no_answer(self) -> None:
        self.serve()
        tab = self.open("warehouse/FLOUR")
        tab.run(f"globalThis.lost = () => new Promise(() => {{}}); {LOSE_CHECKS}")
        tab.click("Receive a lot")
        tab.fill("lot", "f-1")
        tab.fill("amount", 5)
        tab.until("lostChecks === 1", "a check")
        self.send(tab, lot="f-5")
        self.check_booked(tab, "5 kg as F-5 received.", 35)
        self.end(tab, 35)

    def test_recall_in_the_middle_of_a_batch_bars_what_came_of_its_lot(self) -> None:
        self.serve()
        tab = self.open("quality/lot/F-1")
        self.check("the boxes of the picture", tab.run("document.querySelectorAll('svg .box').length"), 6)
        tab.click("Recall")
        tab.has("It reaches 3 lots and 3 batches now")
        self.send(tab, recall="rc-1", note="moths")
        self.check_booked(tab, "Lot F-1 is recalled.", 35)
        tab.until("document.querySelectorAll('svg .recalled').length === 3", "three lots that are marked")
        self.check("the recall", self.served.ask("/lists/recalls")["recalls"][0]["note"], "moths")
        self.go(tab, "shift/B-3")
        tab.click("Produce")
        self.send(tab, lot="BR-2", amount=4)
        self.check_booked(tab, "4 pcs as BR-2 produced.", 36)
        self.served.told(at=int(time.time()) + 1, by="ben", do="unhold", lot="F-2", hold="H-1")
        tab.click("Consume")
        tab.has("All DOUGH in stock is on hold or recalled.")
        self.go(tab, "warehouse/BREAD")
        tab.has("recalled", "document.querySelector('[data-row=\"BR-2/0\"]')")
        self.go(tab, "quality/lot/BR-2")
        tab.has("recalled", "document.querySelector('.stack:last-child .top')")
        tab.click("Lift", row="RC-1")
        self.send(tab, note="a false alarm")
        self.check_booked(tab, "Recall RC-1 is lifted.", 38)
        tab.has("No recall is open.")
        self.check("the lots that are marked", tab.run("document.querySelectorAll('svg .recalled').length"), 0)
        tab.click("lifted")
        tab.has("a false alarm", "document.querySelector('[data-row=\"RC-1\"]')")
        self.end(tab, 38)


    def test_aborted_batch_is_reset_and_begins_anew(self) -> None:
        self.serve()
        tab = self.open("shift/B-2")
        tab.click("Abort")
        self.send(tab, note="no power")
        self.check_booked(tab, "Batch B-2: abort.", 35)
        tab.click("Finish: aborted")
        self.check_booked(tab, "Batch B-2 is aborted.", 36)
        tab.click("Reset")
        tab.has("What was booked on it stays booked.")
        self.send(tab, note="power is back")
        self.check_booked(tab, "Batch B-2: reset.", 37)
        tab.has("0 of 2")
        tab.click("Start")
        self.check_booked(tab, "Batch B-2: start.", 38)
        batch = self.served.ask("/batches/B-2")
        self.check("the batch", (batch["state"], batch["attempt"], batch["next"], len(batch["consumed"])), ("running", 2, 1, 1))
        self.go(tab, "quality/batch/B-2")
        tab.has("no power")
        self.end(tab, 38)

    def test_double_click_books_once(self) -> None:
        self.serve()
        tab = self.open("planner")
        tab.click("Release", row="O-4", times=2)
        tab.fill("batch", "B-4")
        tab.click("Release", within="document.getElementById('dialog')", times=2)
        self.check_booked(tab, "Order O-4 released as B-4.", 35)
        self.go(tab, "shift/B-4")
        x, y = tab.place("Start")
        tab.click_at(x, y, times=2)
        self.check_booked(tab, "Batch B-4: start.", 36)
        self.check("what stands there now", tab.run(f"document.elementFromPoint({x}, {y}).innerText"), "Phase BAKE done")
        tab.click_at(x, y, first=3)
        tab.run("show().then(() => true)")
        self.check("the number behind a third click", self.served.ask("/desk")["seq"], 36)
        tab.run("[...document.querySelectorAll('button')].find((e) => e.innerText === 'Phase BAKE done').focus()")
        tab.key("Enter", repeats=5)
        self.check_booked(tab, "Phase BAKE of B-4 done.", 37)
        self.check("the state", self.served.ask("/batches/B-4")["state"], "running")
        tab.click("Produce")
        tab.fill("place", "SHOP")
        tab.run("(() => { const form = document.querySelector('dialog form'); for (let k = 0; k < 5; k += 1) form.requestSubmit(); })()")
        self.check_booked(tab, "100 pcs as BREAD-B-4 produced.", 38)
        self.end(tab, 38)

    def test_desk_that_was_killed_under_a_booking_gets_it_once(self) -> None:
        self.serve()
        tab = self.open("warehouse/FLOUR")
        self.served.kill()
        tab.click("Move", row="F-1/0")
        self.send(tab, amount=20, place="A9")
        tab.has("No answer came to \u201c20 kg of F-1 brought to A9\u201d.")
        tab.click("Send again")
        tab.has("Still no answer.")
        self.served.start_again()
        tab.click("Send again")
        self.check_booked(tab, "20 kg of F-1 brought to A9.", 35)
        tab.lacks("No answer came")
        self.check_lost_answer_is_asked_for_again_after_a_reload(tab)
        self.end(tab, 37)

    def check_lost_answer_is_asked_for_again_after_a_reload(self, tab: Tab) -> None:
        """Checks that a booking that the desk took, and whose answer was lost, counts once when it is sent again behind a later one."""
        tab.run(f"globalThis.lost = () => new Response('bad gateway', {{status: 502}}); {LOSE_ANSWERS}")
        tab.click("Receive a lot")
        self.send(tab, lot="F-7", amount=7)
        tab.has("No answer came to \u201c7 kg as F-7 received\u201d.")
        self.check("the number behind a lost answer", self.served.ask("/desk")["seq"], 36)
        self.served.told(at=int(time.time()) + 5, by="ben", do="unhold", lot="F-2", hold="H-1")
        tab.reload()
        tab.click("Send again")
        tab.has("7 kg as F-7 received. Number 36.")
        tab.lacks("No answer came")
        self.check("the number behind a booking that was sent again", self.served.ask("/desk")["seq"], 37)
        self.check("the lot", self.served.ask("/lots/F-7")["stock"], 7)

    def test_booking_without_an_answer_isnt_sent_to_another_desk(self) -> None:
        """Desks that are served in turn at one address share what the browser keeps."""
        other = self.other_desk()
        self.serve()
        self.served.told(at=int(time.time()), by="ben", do="unhold", lot="F-2", hold="H-1", ref="FIRST-1")
        tab = self.open("warehouse/FLOUR")
        self.served.kill()
        tab.click("Move", row="F-1/0")
        self.send(tab, amount=20, place="A9")
        tab.has("No answer came to \u201c20 kg of F-1 brought to A9\u201d.")
        self.served.start_again(other)
        tab.click("Send again")
        tab.has("It was sent to another desk than the one that is served here now.")
        tab.reload()
        tab.until("desk.name !== undefined")
        tab.lacks("No answer came")
        self.check("the number of the other desk", self.served.ask("/desk")["seq"], MORNINGS + 1)
        self.served.kill()
        self.served.start_again()
        tab.reload()
        tab.click("Send again")
        self.check_booked(tab, "20 kg of F-1 brought to A9.", 36)
        self.end(tab, 36)

    def other_desk(self) -> pathlib.Path:
        """Makes a desk that began as this one did, and whose first command under a reference is another one."""
        file = self.folder / "other.db"
        shutil.copy(self.mornings, file)
        command = {"at": int(time.time()), "by": "ben", "do": "add_class", "class": "OTHER", "name": "Other goods", "ref": "OTHER-1"}
        self.desk.run("run", file.name, told=json.dumps(command).encode() + b"\n")
        return file

    def check_device(self, back: int, said: str) -> None:
        """Books by a device whose clock is so many seconds behind, and sees that the booking has the machine's time."""
        self.serve()
        tab = self.open("shift/B-2", CLOCK_BACK % back)
        tab.has(f"This device's clock is {said} that of the desk's machine.")
        tab.click("Pause")
        self.check_booked(tab, "Batch B-2: pause.", 35)
        at = self.served.ask("/moment")["at"]
        self.check_true(f"{said}: the moment of the booking, {at}", abs(at - time.time()) < 60)
        self.end(tab, 35)

    def test_device_whose_clock_is_behind_books_with_the_machines_time(self) -> None:
        self.check_device(365 * 86_400, "365 days behind")

    def test_device_whose_clock_is_ahead_books_with_the_machines_time(self) -> None:
        self.check_device(-365 * 86_400, "365 days ahead of")

    def test_moment_of_the_desk_that_is_later_is_taken(self) -> None:
        self.serve()
        tab = self.open("shift/B-2")
        tab.click("Pause")
        self.check_booked(tab, "Batch B-2: pause.", 35)
        before = self.served.ask("/moment")["at"]
        self.served.told(at=before + 3600, by="ben", do="unhold", lot="F-2", hold="H-1")
        tab.click("Finish: paused")
        self.check_booked(tab, "Batch B-2 is paused.", 37)
        self.check("the moment of the last booking", self.served.ask("/moment")["at"], before + 3600)
        self.end(tab, 37)

    def test_keyboard_alone_suffices(self) -> None:
        self.serve(is_empty=True)
        tab = self.open("planner", kept="")
        tab.has("This desk is new")
        self.make_materials_by_keys(tab)
        self.make_recipe_by_keys(tab)
        tab.tab_to("One order by hand")
        tab.key("Enter")
        for text in ("o-1", None, "300", None):
            tab.type(text) if text else None
            tab.key("Tab")
        tab.key("Enter") if tab.run("document.activeElement.tagName") == "BUTTON" else tab.tab_to("Take it in")
        self.send_by_keys(tab, "Order O-1 taken in.", 6)
        tab.tab_to("Release")
        tab.key("Enter")
        tab.until("document.getElementById('dialog').open")
        self.send_by_keys(tab, "Order O-1 released as B-1.", 7)
        tab.key("2")
        tab.has("Batch B-1")
        tab.tab_to("Start")
        tab.key("Enter")
        self.check_booked(tab, "Batch B-1: start.", 8)
        tab.key("/")
        tab.type("b-1")
        tab.key("Enter")
        tab.until("location.hash === '#shift/B-1'")
        tab.key("Escape")
        tab.key("4")
        tab.has("No recall is open.")
        self.end(tab, 8)

    def test_what_is_pressed_right_behind_a_form_counts(self) -> None:
        """Until its next frame, which is when a browser tells that a form was closed, another form can be opened and a key pressed."""
        self.serve(is_empty=True)
        tab = self.open("planner")
        opened = "form('%s', [textField('note', 'Note')], 'Send', () => null);"
        tab.run(f"(() => {{ {opened % 'The first'} dialog.close(); {opened % 'The second'} }})()")
        tab.run(TWO_FRAMES)
        self.check("the form that is open", tab.run("[dialog.open, dialog.querySelector('h2').innerText]"), [True, "The second"])
        self.check("where the keyboard is", tab.run("document.activeElement.innerText"), "Send")
        tab.run("dialog.close(); dispatchEvent(new KeyboardEvent('keydown', {key: '2'}));")
        tab.has("No batch is open.")
        self.end(tab, 0)

    def send_by_keys(self, tab: Tab, what: str, number: int) -> None:
        """Sends a form by Enter."""
        tab.key("Enter")
        self.check_booked(tab, what, number)

    def make_materials_by_keys(self, tab: Tab) -> None:
        """Makes a class and two materials. The first form asks for the operator, who isn't known yet."""
        tab.key("3")
        tab.has("Materials")
        tab.tab_to("New class")
        tab.key("Enter")
        for text in ("raw", "Raw goods", "erna"):
            tab.type(text)
            tab.key("Tab") if text != "erna" else None
        self.send_by_keys(tab, "Class RAW made.", 1)
        for number, name in enumerate(("flour", "dough"), 2):
            tab.tab_to("New material")
            tab.key("Enter")
            tab.type(name)
            for _ in range(3):
                tab.key("Tab")
            tab.type("kg")
            self.send_by_keys(tab, f"Material {name.upper()} made.", number)

    def make_recipe_by_keys(self, tab: Tab) -> None:
        """Writes a recipe and approves it."""
        tab.key("1")
        tab.has("Recipes")
        tab.tab_to("New recipe")
        tab.key("Enter")
        tab.type("cake")
        for text in (None, "Cake", "dough", "300", "100", "900"):
            tab.key("Tab")
            tab.type(text) if text else None
        tab.tab_to("Lines")
        for line in ("in flour 200", "out dough 300", "phase mix blend stir"):
            tab.type(line)
            tab.key("Enter")
        tab.key("Tab")
        tab.key("Tab")
        self.send_by_keys(tab, "Recipe CAKE 1 drafted.", 4)
        tab.tab_to("Approve")
        tab.key("Enter")
        self.check_booked(tab, "Recipe CAKE 1 approved.", 5)
        self.check("by whom the last bookings are", tab.run("localStorage.getItem('desk.operator')"), '"erna"')


class NarrowScreens(BrowserTestCase):
    """The page on a narrow screen."""

    def test_no_view_is_wider_than_a_narrow_screen(self) -> None:
        self.serve()
        for width in (380, 1280):
            for place in ("planner", "shift/B-2", "warehouse/FLOUR", "quality/lot/F-1", "quality/batch/B-1"):
                tab = self.open(place, width=width)
                self.check(f"the width of {place} at {width}", tab.run("document.documentElement.scrollWidth"), width)
                self.check(f"errors of {place} at {width}", tab.errors(), [])
