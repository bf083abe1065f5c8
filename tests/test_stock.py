"""What is in stock, over the built desk: that the sums of a class are those of its lots, by lines and by requests, and what is answered where there
is nothing. tests/support/stock.py computes the answers of whole sessions, which test_sessions, test_keepers and test_sizes run."""
from __future__ import annotations

import json
from collections.abc import Iterator

from tests.support import Json, model, stock
from tests.support.commands import GOODS, add_definition, compact, receive
from tests.support.http import Server, answer, got
from tests.support.large import LimitTestCase
from tests.support.stock import Item

# The most requests of a server.
REQUESTS = 1_000_000

UNKNOWN_DEFINITION = '{"name":"UnknownDefinition","refused":5}'
UNKNOWN_CLASS = '{"name":"UnknownClass","refused":4}'
BAD_FORM = '{"name":"BadForm","refused":1}'

# What isn't there, with the path and the answer.
UNKNOWN = [
    ('{"ask":"stock","def":"X-9"}', "stock/X-9", UNKNOWN_DEFINITION),
    ('{"above":"1.L-1","ask":"stock","def":"RAW"}', "stock/RAW/1.L-1", UNKNOWN_DEFINITION),
    ('{"ask":"stocks","class":"X-9"}', "stocks/X-9", UNKNOWN_CLASS),
    ('{"above":"SUGAR","ask":"stocks","class":"SUGAR"}', "stocks/SUGAR/SUGAR", UNKNOWN_CLASS),
]

# Lines that ask in no form, with the paths that have the same flaw, where there are such.
BAD = [
    ('{"ask":"stock"}', "stock"),
    ('{"ask":"stock","class":"RAW"}', None),
    ('{"ask":"stock","def":"sugar"}', "stock/sugar"),
    ('{"above":1,"ask":"stock","def":"SUGAR"}', "stock/SUGAR/1"),
    ('{"above":"L-1","ask":"stock","def":"SUGAR"}', "stock/SUGAR/L-1"),
    ('{"above":"1.","ask":"stock","def":"SUGAR"}', "stock/SUGAR/1."),
    ('{"above":"1.l-1","ask":"stock","def":"SUGAR"}', "stock/SUGAR/1.l-1"),
    ('{"above":"L-1.1","ask":"stock","def":"SUGAR"}', "stock/SUGAR/L-1.1"),
    ('{"above":"12345678901234567.L-1","ask":"stock","def":"SUGAR"}', "stock/SUGAR/12345678901234567.L-1"),
    ('{"above":"1.L-1.1","ask":"stock","def":"SUGAR"}', "stock/SUGAR/1.L-1.1"),
    ('{"ask":"stocks"}', "stocks"),
    ('{"ask":"stocks","def":"SUGAR"}', None),
    ('{"above":"1.SUGAR","ask":"stocks","class":"RAW"}', "stocks/RAW/1.SUGAR"),
]


class Sums(LimitTestCase):
    """What there is of a class, held against the lots of its definitions."""

    def test_sums_of_each_definition_are_those_of_its_lots(self) -> None:
        for session in [*stock.every(), *model.genealogies(self.chance)]:
            self.check_run(session.name, ["run", "sums.db"], session.ended(), session.told)
            with Server(self.desk, "sums.db", REQUESTS) as server:
                for told in self.pages(server, "stocks/RAW", "stocks"):
                    rows = list(self.pages(server, f"stock/{told['def']}", "lots"))
                    case = f"{session.name}, {told['def']}"
                    self.check(f"the sums of {case}", {name: told[name] for name in stock.totals(rows)}, stock.totals(rows))
                    places = [(it["seq"], it["lot"]) for it in rows]
                    self.check(f"the order of {case}", places, sorted(set(places)))
                    self.check_true(f"each lot of {case} has stock", all(it["stock"] == sum(s["stock"] for s in it["sublots"]) > 0 for it in rows))
            (self.folder / "sums.db").unlink()

    def pages(self, server: Server, path: str, name: str) -> Iterator[Item]:
        """Yields the rows of all pages of a list, each page asked for behind the last row of the one before."""
        above, more = "", True
        while more:
            head, _, text = server.answered(got(f"/v1/lists/{path}{above}")).partition(b"\r\n\r\n")
            if not self.check(f"{path}{above} is answered", head.partition(b"\r\n")[0], b"HTTP/1.1 200 OK"):
                return
            page: Json = json.loads(text)
            yield from page[name]
            more = page["more"]
            if more:
                self.check(f"{path}{above} is a whole page", len(page[name]), 100)
                last = page[name][-1]
                above = f"/{last['def']}" if name == "stocks" else f"/{last['seq']}.{last['lot']}"


class Nothing(LimitTestCase):
    """What is answered where there is nothing, and of what is none."""

    def test_empty_lists_and_what_is_not_there(self) -> None:
        file = "nothing.db"
        self.send(file, *GOODS, '"do":"add_class","class":"NONE","name":""')
        told: list[Item] = [{"def": "SUGAR", "held": 0, "lots": 0, "name": "", "recalled": 0, "unit": "g", "usable": 0}]
        self.check_alike(file, [
            ("no lot", '{"ask":"stock","def":"SUGAR"}', "/v1/lists/stock/SUGAR", '{"lots":[],"more":false}'),
            ("no lot behind a place", '{"above":"1.A","ask":"stock","def":"SUGAR"}', "/v1/lists/stock/SUGAR/1.A", '{"lots":[],"more":false}'),
            ("a definition of nothing", '{"ask":"stocks","class":"RAW"}', "/v1/lists/stocks/RAW", compact({"more": False, "stocks": told})),
            ("no definition", '{"ask":"stocks","class":"NONE"}', "/v1/lists/stocks/NONE", '{"more":false,"stocks":[]}'),
        ])
        asked = "".join(f"{question}\n" for question, *_ in UNKNOWN).encode()
        self.check_run("what isn't there", ["run", file], (1, "".join(f"{it}\n" for *_, it in UNKNOWN).encode(), b""), asked)
        self.check_requests(file, [(path, got(f"/v1/lists/{path}"), answer(text, 404)) for _, path, text in UNKNOWN])

    def test_lines_and_paths_in_no_form_are_refused(self) -> None:
        file = "bad.db"
        self.send(file, *GOODS, receive("L-1", 5))
        for question, _ in BAD:
            self.check_run(question, ["run", file], (1, BAD_FORM.encode() + b"\n", b""), question.encode() + b"\n")
        paths = [path for _, path in BAD if path]
        self.check_requests(file, [(path, got(f"/v1/lists/{path}"), answer('{"status":404}', 404)) for path in paths])

    def test_number_of_a_place_has_leading_zeros(self) -> None:
        file = "zeros.db"
        self.send(file, *GOODS, receive("L-1", 5), add_definition("SALT", "RAW"), receive("L-0", 6))
        row: Item = {"at": 200, "by": "", "held": False, "note": "", "recalled": False}
        row = {**row, "lot": "L-0", "seq": 5, "stock": 6, "sublots": [{"no": 0, "place": "", "stock": 6}]}
        text = compact({"lots": [row], "more": False})
        self.check_alike(file, [
            (at, compact({"above": at, "ask": "stock", "def": "SUGAR"}), f"/v1/lists/stock/SUGAR/{at}", text)
            for at in ("3.L-1", "0000000000000003.L-1", "4.Z", "5.A", "5.L-")
        ])
