"""The page in German, in a browser: a short journey of each role, and how its language is chosen."""
from __future__ import annotations

import re

from tests.support import pages, texts
from tests.support.browser import Tab
from tests.support.pages import BrowserTestCase

# What the browser of a German journey has kept.
GERMAN = pages.KEPT + """localStorage.setItem("desk.language", '"de"');"""

# A browser whose languages are these.
WANTED = """Object.defineProperty(navigator, "languages", {value: %s});"""

# The texts that are in the page, also those that are read aloud; of a table the German ones that are another text than the English one, by that.
SHOWN = """[...document.body.querySelectorAll("*")].filter((it) => !it.closest("noscript, pre, [lang=en]")).flatMap((it) => [
  ...[...it.childNodes].filter((one) => one.nodeType === Node.TEXT_NODE).map((one) => one.data.trim()),
  ...["title", "placeholder", "aria-label"].map((name) => it.getAttribute(name))]).filter(Boolean)"""


class German(BrowserTestCase):
    """The page in German: a short journey of each role, and how the language is chosen."""

    def german(self, place: str, script: str = "", **size: int) -> Tab:
        """Opens a view of the page in German."""
        return self.open(place, script, GERMAN, **size)

    def check_shown(self, tab: Tab, what: str) -> None:
        """Checks that no text that is shown is an English one that German has in other words."""
        table = texts.others()["german"]
        others = {text for text, other in table.items() if other != text and re.search(r"[A-Z ].*[a-z]", text)} - set(table.values())
        self.check(f"{what}: English texts", sorted(set(tab.run(SHOWN)) & others), [])
        self.check(f"{what}: what the console tells of errors", tab.errors(), [])

    def test_planner_releases_an_order(self) -> None:
        self.serve()
        tab = self.german("planner")
        self.check("the language of the page", tab.run("document.documentElement.lang"), "de")
        self.check_shown(tab, "the view")
        tab.click("Freigeben", row="O-4")
        tab.has("Die Schicht kann seine Charge sofort starten.")
        self.check_shown(tab, "the form")
        tab.fill("batch", "B-4")
        tab.click("Freigeben", within="document.querySelector('dialog')")
        tab.has("Auftrag O-4 freigegeben als B-4. Nummer")
        self.check("the order", self.served.ask("/orders/O-4")["state"], "released")
        self.check_shown(tab, "the view after it")

    def test_shift_consumes_a_lot(self) -> None:
        self.serve()
        before = self.served.ask("/desk")["seq"]
        tab = self.german("shift/B-3")
        tab.has("l\u00e4uft")
        tab.click("Verbrauchen", row="in DOUGH")
        tab.has("Los scannen oder eintippen")
        self.check_shown(tab, "the form")
        tab.fill("amount", 5)
        tab.fill("note", "h\u00e4rter")
        tab.key("Tab")
        tab.click("\u201ehaerter\u201c nehmen")
        tab.fill("from", "D-1")
        tab.key("Enter")
        tab.has("D-1/0 (C1): 176 kg, Zugang ", "document.querySelector('dialog .said')")
        tab.click("Verbrauchen", within="document.querySelector('dialog .end')")
        tab.has("Soll 120 kg, gebucht 120 kg: damit sind es 125 kg.", "document.querySelector('dialog form > .wrong')")
        tab.until("performance.now() > openForm().notBefore", "the time in which nothing is confirmed")
        tab.click("Trotzdem: Verbrauchen", within="document.querySelector('dialog .end')")
        tab.has("5 kg aus D-1 verbraucht. Nummer")
        self.check("the booking", (self.served.ask("/desk")["seq"], self.served.ask("/batches/B-3")["consumed"][-1]["amount"]), (before + 1, 5))
        self.check_shown(tab, "the batch")

    def test_warehouse_receives_a_lot_and_hears_why_another_is_refused(self) -> None:
        self.serve()
        tab = self.german("warehouse/FLOUR")
        self.check_shown(tab, "the view")
        tab.click("Los annehmen")
        tab.fill("lot", "F-1")
        tab.fill("amount", 40)
        tab.fill("place", "A1")
        tab.has("So w\u00fcrde das abgelehnt. Diese Kennung ist schon vergeben. Bitte eine andere nehmen. (Exists)")
        tab.fill("lot", "F-77")
        tab.click("Annehmen", within="document.querySelector('dialog')")
        tab.has("40 kg als F-77 angenommen. Nummer")
        self.check("the lot", self.served.ask("/lots/F-77")["stock"], 40)
        moment = self.served.ask("/moment")["at"]
        tab.has(tab.run(f"((d) => `${{two(d.getDate())}}.${{two(d.getMonth() + 1)}}.${{d.getFullYear()}}`)(new Date({moment} * 1000))"))
        self.check_shown(tab, "the view after it")

    def test_quality_holds_a_lot(self) -> None:
        self.serve()
        tab = self.german("quality/lot/F-1")
        self.check_shown(tab, "the view")
        tab.click("Sperren")
        tab.fill("hold", "H-77")
        tab.fill("note", "Siebprobe")
        tab.click("Sperren", within="document.querySelector('dialog')")
        tab.has("Los F-1 ist gesperrt. Nummer")
        self.check_true("the lot", self.served.ask("/lots/F-1")["held"])
        self.check_shown(tab, "the view after it")

    def test_figures_and_records_are_in_german(self) -> None:
        self.serve()
        for place, seen in [("today", "\u00dcberf\u00e4llig"), ("board", "Fehlmengen bis"), ("quality/batch/B-1", "Chargenprotokoll B-1"), ("warehouse/place", "Pl\u00e4tze")]:
            tab = self.german(place)
            tab.has(seen)
            if place in ("today", "board"):
                tab.until("document.getElementById('view').dataset.whole", "all of it")
            self.check_shown(tab, place)
        tab.key("?")
        tab.has("Tasten und Hilfe")
        self.check_shown(tab, "the help")

    def test_language_is_that_of_the_browser_until_it_is_chosen(self) -> None:
        self.serve()
        for wanted, language in [('["de-AT", "en"]', "de"), ('["fr", "de"]', "de"), ('["en-GB", "de"]', "en"), ('["fr"]', "en"), ("[]", "en")]:
            tab = self.open("quality", WANTED % wanted)
            self.check(wanted, tab.run("document.documentElement.lang"), language)
        tab = self.open("quality", WANTED % '["de"]')
        tab.has("R\u00fcckrufe")
        tab.key("?")
        tab.click("English")
        tab.has("Recalls")
        self.check("what is kept", tab.run("localStorage.getItem('desk.language')"), '"en"')
        tab.key("?")
        tab.has("Keys and help")
        self.check("the choice", tab.run("document.querySelector('dialog [aria-pressed=true]').innerText"), "English")
        tab.click("Deutsch")
        tab.has("R\u00fcckrufe")

    def test_page_is_english_where_its_texts_do_not_come(self) -> None:
        self.serve()
        tab = self.german("quality", "const own = fetch; fetch = (path, ...more) => (path === '/german.json' ? Promise.reject(new TypeError()) : own(path, ...more));")
        tab.has("Recalls")
        self.check("the language", tab.run("document.documentElement.lang"), "en")

    def test_language_that_the_desk_is_served_in_comes_before_the_browsers_own_and_after_a_chosen_one(self) -> None:
        for served, wanted, chosen, language in (("de", '["en"]', "", "de"), ("en", '["de"]', "", "en"), ("de", '["fr"]', '"en"', "en")):
            self.serve("--language", served)
            kept = pages.KEPT + (f"localStorage.setItem('desk.language', '{chosen}');" if chosen else "")
            tab = self.open("quality", WANTED % wanted, kept)
            self.check(f"served in {served}, wanted {wanted}, chosen {chosen}", tab.run("document.documentElement.lang"), language)
            self.served.end()


class Named(BrowserTestCase):
    """The name under which the desk is served."""

    def test_name_is_in_the_header_the_title_and_on_paper(self) -> None:
        for name in ("Bakery <1>", None):
            self.serve(*(["--name", name] if name else []))
            tab = self.open("quality/batch/B-1")
            self.check("the header", tab.run("document.querySelector('h1').innerText"), name or "Desk")
            self.check("the title", tab.run("document.title"), f"{name or 'Desk'}: quality")
            tab.run("dispatchEvent(new Event('beforeprint')); true")
            printed = tab.run("document.querySelector('.printed').textContent")
            self.check_true(f"what is printed: {printed}", printed.startswith(f"{name}. Printed " if name else "Printed "))
            self.served.end()

    def test_page_that_learns_no_name_is_the_desks(self) -> None:
        self.serve("--name", "Bakery")
        tab = self.open("quality", "const own = fetch; fetch = (path, ...more) => (path === '/v1/health' ? Promise.reject(new TypeError()) : own(path, ...more));")
        self.check("the header", tab.run("document.querySelector('h1').innerText"), "Desk")
