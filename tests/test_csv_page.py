"""Lists that the page saves as files, in a browser: all of their items, as a spreadsheet reads them."""
from __future__ import annotations

import csv
import pathlib
import time

from tests.support.browser import Tab
from tests.support.pages import MORNINGS, BrowserTestCase

# Has the browser say that it is of a country whose decimals have a comma.
GERMAN = """Object.defineProperty(navigator, "language", {value: "de-DE"});"""

# The columns of batches.
BATCHES = "Batch,Order,State,Attempt,Phases done,Phases,Next phase,Closed,On unit,Last event,Due,Priority,Recipe,Version,Title,Product,Size,Unit"

# How many seconds a file may take, in so many presses of its button.
LIMIT, PRESSES = 60, 3


class SavedLists(BrowserTestCase):
    """Lists saved as files."""

    IS_LONG = True

    def open_saving(self, place: str, script: str = "") -> Tab:
        """Opens a view whose files come into the folder of the test."""
        tab = self.open(place, script)
        (self.folder / "saved").mkdir(exist_ok=True)
        self.browser.call(
            "Browser.setDownloadBehavior", behavior="allow", browserContextId=tab.context, downloadPath=str(self.folder / "saved"),
        )
        return tab

    def saved(self, tab: Tab, name: str) -> bytes:
        """Presses the button that saves a list, and returns the file, which is then removed. It is pressed again where the browser, busy with others,
        has made no file."""
        file: pathlib.Path = self.folder / "saved" / f"{name}-{tab.run('desk.today()')}.csv"
        button = f"document.querySelector('[aria-label=\"CSV of {name}\"]')"
        for _ in range(PRESSES):
            tab.until(f"(() => {{ const it = {button}; it?.click(); return it !== null; }})()", f"the button of {name}")
            tab.has(f"saved as {file.name}.")
            end = time.monotonic() + LIMIT / PRESSES
            while not file.is_file() and time.monotonic() < end:
                time.sleep(0.02)
            if file.is_file():
                text = file.read_bytes()
                file.unlink()
                return text
        raise AssertionError(f"there is no file {file.name}: {[it.name for it in file.parent.iterdir()]}")

    def rows(self, tab: Tab, name: str, separator: str = ",") -> list[list[str]]:
        """Returns the rows of such a file, as a program reads them."""
        return list(csv.reader(self.saved(tab, name).decode("ascii").split("\r\n")[:-1], delimiter=separator))

    def now(self) -> int:
        moment: int = self.served.ask("/moment")["at"]
        return moment

    def test_balance_is_saved(self) -> None:
        self.serve()
        tab = self.open_saving("quality/lot/F-1")
        tab.until("document.querySelector('[aria-label=\"Balance of lot F-1\"]') !== null", "the button of the balance")
        tab.run("document.querySelector('[aria-label=\"Balance of lot F-1\"]').click()")
        rows = self.rows(tab, "balance-of-F-1")
        heads = "Material,Lot,Unit,Received,Produced,Of other lots,Consumed,Scrapped,To other lots,In stock,Where,On hold,Recalled"
        self.check("the columns", ",".join(rows[0]), heads)
        self.check("the materials", rows[1:4], [
            ["BREAD", "", "pcs", "0", "196", "0", "0", "0", "0", "196", "SHOP: 196", "", ""],
            ["DOUGH", "", "kg", "0", "296", "0", "120", "0", "0", "176", "C1: 176", "", ""],
            ["FLOUR", "", "kg", "500", "0", "0", "400", "0", "0", "100", "A1: 100", "", ""],
        ])
        self.check("the lots", [row[:2] for row in rows[4:]], [["BREAD", "BR-1"], ["DOUGH", "D-1"], ["FLOUR", "F-1"]])

    def test_each_list_is_saved(self) -> None:
        self.serve()
        self.served.told(at=self.now(), by="dora", do="recall", recall="RC-1", lot="F-1", note="moths, seen by \"erna\"")
        later = {"order": "O-9", "recipe": "BREAD", "version": 1, "size": 100, "due": "2030-03-01", "priority": 5}
        self.served.told(at=self.now(), by="dora", do="import_orders", orders=[later], ref="ORDERS-9")
        tab = self.open_saving("planner")
        for place, name, head, row in (
            ("planner", "orders-open", "Order,State,Due,Priority,Recipe,Version,Size", ("O-4", 6, "100")),
            ("planner", "recipes", "Recipe,Version,State,Title,Product,Base size,Least size,Greatest size", ("BREAD", 2, "approved")),
            ("shift", "batches-open", BATCHES, ("B-2", 6, "RISE")),
            ("shift?batches=closed", "batches-closed", BATCHES, ("B-1", 15, "DOUGH")),
            ("warehouse/FLOUR", "materials", "Class,Material,Name,Unit,Lots,Free,On hold,Recalled", ("GOODS", 3, "pcs")),
            ("warehouse/FLOUR", "lots-FLOUR", "Lot,Material,Part,Place,Stock,Unit,On hold,Recalled,Came,By,Note,Number", ("F-2", 11, "14")),
            ("warehouse/place", "places", "Place,Parts,Materials", ("A1", 1, "1")),
            ("quality", "commands", "Number,When,By,What,Note,Reference", (str(MORNINGS + 2), 3, "import_orders")),
            ("quality", "holds", "Lot,Hold,When,By,Note", ("F-2", 4, "wet sacks")),
            ("quality", "recalls-open", "Recall,Lot,When,By,Note,Lifted,Lifted by,Lifted for", ("RC-1", 4, "moths, seen by \"erna\"")),
            ("quality/recall/RC-1", "goods-of-RC-1", "Place,Lot,Part,Material,Amount,Unit,On hold,Recalled,Seen", ("A1", 7, "yes")),
            ("quality/lot/F-1", "ledger-F-1", "Number,Line,When,By,What,Amount,Unit,Lot,Part,To lot,To part,Batch,Note", ("12", 4, "received")),
            ("quality/batch/B-1", "record-B-1", "Table,Number,What,Lot,Material,Amount,Unit,Asked,Scrapped,Value,When,By,Note", ("Produced", 5, "296")),
        ):
            tab.run(f"location.hash = '{place}'")
            rows = self.rows(tab, name)
            self.check(f"the head of {name}", ",".join(rows[0]), head)
            self.check(f"a row of {name}", [it[row[1]] for it in rows if it[0] == row[0]][:1], [row[2]])
            self.check(f"the width of {name}", {len(it) for it in rows}, {len(rows[0])})
        self.check("what the console tells of errors", tab.errors(), [])

    def test_all_items_are_saved_as_a_spreadsheet_takes_them(self) -> None:
        self.serve()
        order = {"recipe": "BREAD", "version": 1, "size": 100, "due": "2030-03-01", "priority": 5}
        for start in (0, 100, 200):
            self.served.told(at=self.now(), by="ben", do="import_orders", orders=[{"order": f"M-{k:03}", **order} for k in range(start, start + 100)])
        for lot, place in (("X-1", "=HYPERLINK(1)"), ("X-2", "A;B"), ("X-3", "-1")):
            self.served.told(at=self.now(), by="ben", do="receive", lot=lot, **{"def": "FLOUR"}, amount=1, place=place)
        tab = self.open_saving("planner", GERMAN)
        rows = self.rows(tab, "orders-open", ";")
        self.check("how many orders", len(rows), 1 + 2 + 300)
        self.check("the orders shown", tab.run("document.querySelectorAll('[data-row^=\"M-\"], [data-row^=\"O-\"]').length"), 100)
        tab.run("location.hash = 'warehouse/FLOUR'")
        text = self.saved(tab, "lots-FLOUR").decode("ascii")
        came = time.strftime("%Y-%m-%d", time.localtime(self.now()))
        for number, line in enumerate(("X-1;FLOUR;0;'=HYPERLINK(1);1;kg;no;no", "X-2;FLOUR;0;\"A;B\";1;kg;no;no", "X-3;FLOUR;0;'-1;1;kg;no;no"), MORNINGS + 4):
            self.check_true(line, f"{line};{came};ben;;{number}\r\n" in text)
        self.served.kill()
        tab.run("document.querySelector('[aria-label=\"CSV of lots-FLOUR\"]').click()")
        tab.has("The desk doesn't answer. Nothing was saved.")
