"""The built desk at the limits of what it promises to take: by lines over a file, and by the words and requests that ask the same.

No call may answer want of memory, or a fault of the store, because something is large. Rows that would take long to be booked are written into
the file by the SQLite that comes with Python. Where time is looked at, two times of one program are compared, and the bounds are wide: they
tell a cost that grows with each command from one that doesn't.
"""
from __future__ import annotations

import pathlib
import re
import subprocess
from collections.abc import Callable, Sequence

from tests.support import scenarios, sqlite
from tests.support.commands import (
    GOODS, MOST, PLANNED, add_recipe, approve, begin_batch, compact, consume, import_orders, lift, line, produce, recall, receive, replies, scrap, split,
)
from tests.support.http import answer, got, posted
from tests.support.large import LimitTestCase, consumed_row, received_row, scrapped_row, split_row
from tests.support.program import SECONDS, Program
from tests.support.scenarios import lots_told, traced
from tests.support.sessions import LINE_LIMIT
from tests.support.sqlite import Row

# The longest text, and who books with it.
LONG = "note " * 12
STAMP = f'"at":200,"by":"{LONG}","note":"{LONG}"'

# How many bookings a batch has, and how many times a lot is scrapped.
BOOKINGS = 5_000

# How many lots stand behind the first of a chain, and of a fan, and how many lots of the greatest amount a batch consumes.
NODES = 32_000

# How many lots of a large desk are received, each to be scrapped nine times, and how many movements it has at least.
LARGE_LOTS = 22_000
LARGE = 250_000

# How many commands are given while the log is looked at.
SCRAPS = 5000

# How many bookings a batch of a large desk has.
LARGE_BOOKINGS = 2000

# How many times each batch consumes, and each genealogy is asked for, whose times are compared, and how many orders an import has at most.
REPEATED = 1000
MOST_ORDERS = 1000

# The first lines of the record of a batch of the recipe CAKE that is running.
RECORD_HEAD = [
    "BATCH RECORD B-1",
    "order O-1 due 2027-03-01 priority 5 state released",
    "recipe CAKE 1 product DOUGH size 300 base 300",
    "released at 200 by ",
    "state running attempt 1 phases 0 of 1 open",
    "CONTROL RECIPE",
    "  1 in FLOUR 100 kg",
    "  2 out DOUGH 300 kg",
    "  3 phase MIX BLEND STIR",
    "EVENTS",
]


class Counts(LimitTestCase):
    """A lot and a batch that have as much as they may."""

    def test_lot_of_a_thousand_sublots_is_told(self) -> None:
        session, file = scenarios.sublots_of_a_lot(), "sublots.db"
        self.check_run("a thousand sublots", ["run", file], session.ended(), session.told)
        sublots = [{"no": it, "place": "", "stock": 1 if it else 1001} for it in range(1000)]
        text = compact({"def": "SUGAR", "held": False, "lot": "L-1", "stock": 2000, "sublots": sublots})
        self.check_alike(file, [("a thousand sublots", '{"ask":"lot","lot":"L-1"}', "/v1/lots/L-1", text)])

    def test_batch_of_99_attempts_is_told_and_recorded(self) -> None:
        session, file = scenarios.attempts_of_a_batch(), "attempts.db"
        self.check_run("99 attempts", ["run", file], session.ended(), session.told)
        batch = {"attempt": 99, "batch": "B-1", "closed": False, "consumed": [], "next": 1, "order": "O-0", "phases": 1}
        batch.update({"produced": [], "recipe": "R", "size": 1, "state": "aborted", "version": 1})
        self.check_alike(file, [("99 attempts", '{"ask":"batch","batch":"B-1"}', "/v1/batches/B-1", compact(batch))])
        words = ["start", "abort", "done", "reset"] * 98 + ["start", "stop", "done", "abort", "done"]
        self.check_record("99 attempts", file, [
            "BATCH RECORD B-1",
            "order O-0 due 2027-03-01 priority 5 state released",
            "recipe R 1 product SUGAR size 1 base 1",
            "released at 100 by ",
            "state aborted attempt 99 phases 0 of 1 open",
            "CONTROL RECIPE",
            "  1 out SUGAR 1 g",
            "  2 phase U O P",
            "EVENTS",
            *[f"{7 + number:6} {word} at 100 by " for number, word in enumerate(words)],
            "CONSUMED",
            "PRODUCED",
            "TOTALS",
            "out SUGAR asked 1 booked 0",
            "END",
        ])


class Imports(LimitTestCase):
    """Imports of 1,000 orders."""

    ROWS = b"order,recipe,version,size,due,priority\n" + b"".join(b"P-%d,R,1,1,2027-03-01,5\n" % it for it in range(MOST_ORDERS))

    def test_thousand_orders_are_imported_by_request_word_and_line(self) -> None:
        """Imports by a command of the longest body, by an order file that is posted, and by the word; the posted one again under its
        reference returns its number, and another one is refused."""
        file, rows = "imports.db", self.ROWS
        goods = [*GOODS, add_recipe(1), approve()]
        self.check_lines("a recipe", file, b"".join(line(it, '"at":100,"by":""') for it in goods), replies(1, 4))
        command = b'{"at":100,"by":"",%s' % import_orders(MOST_ORDERS).encode()
        command += b" " * (LINE_LIMIT - len(command) - 1) + b"}"
        last = f'{{"batch":null,"due":"2027-03-01","order":"P-{MOST_ORDERS - 1}","priority":5,"recipe":"R","size":1,"state":"open","version":1}}'
        self.check_requests(file, [
            ("a command of the longest body", posted("/v1/commands", command), answer('{"ok":5}')),
            ("an order file of 1,000 rows", posted("/v1/orders", rows, "Desk-At: 100", "Desk-Ref: FILE-1"), answer('{"ok":6}')),
            ("a last order", got(f"/v1/orders/P-{MOST_ORDERS - 1}"), answer(last)),
            ("a command without a byte", posted("/v1/commands", b""), answer('{"name":"BadForm","refused":1}', 400)),
            ("an order file without a byte", posted("/v1/orders", b"", "Desk-At: 100"), answer('{"csv":"Header","row":0}', 400)),
        ])
        words = ["import", file, "--at", "100"]
        self.check_run("an order file of 1,000 rows, by the word", words, (0, b'{"ok":7}\n', b""), rows.replace(b"P-", b"Q-"))
        self.check_run("the same by a line", ["run", file], (0, b'{"ok":8}\n', b""), command + b"\n")
        referred = [*words, "--by", "", "--ref", "FILE-1"]
        self.check_run("the file that was posted, under its reference", referred, (0, b'{"ok":6}\n', b""), rows)
        reused = (1, b'{"name":"RefReused","refused":31}\n', b"")
        self.check_run("another file under that reference", referred, reused, rows.replace(b"P-9", b"R-9"))
        orders = "".join(f"P-{it}\nR\n1\n1\n2027-03-01\n5\n" for it in range(MOST_ORDERS))
        receipt = ("FILE-1", 6, f"100\n\n\nimport_orders\n{MOST_ORDERS}\n{orders}")
        self.check("its receipt", sqlite.rows(self.path(file), "SELECT * FROM receipt"), [receipt])


class Bookings(LimitTestCase):
    """Many bookings, and great ones."""

    def test_batch_and_lot_of_5000_bookings_are_told_and_booked_again(self) -> None:
        """Books often on one batch, and scraps often of what it produced, each time with the longest texts; asks, and books again."""
        file, amount = "bookings.db", 10 * BOOKINGS
        first = [*PLANNED, receive("F-1", amount, "FLOUR"), *begin_batch("B-1", 1), produce("B-1", "D-1", amount=amount)]
        self.check_lines("a batch begins", file, b"".join(map(line, first)), replies(1, len(first)))
        seq = begun = len(first) + 1
        for name, body in [("bookings", consume("B-1")), ("scraps", scrap("D-1", 1))]:
            self.check_lines(f"{BOOKINGS} {name}", file, line(body, STAMP) * BOOKINGS, replies(seq, BOOKINGS))
            seq += BOOKINGS
        self.check_many_bookings(file, begun, amount)
        self.check_lines("one booking and one scrap more", file, line(consume("B-1")) + line(scrap("D-1", 1)), replies(seq, 2))
        self.check_good("many bookings", file, seq + 1)

    def check_many_bookings(self, file: str, begun: int, amount: int) -> None:
        """Asks about the batch, whose bookings begin at this number, and about its product, and has the batch recorded."""
        rows = [{"amount": 1, "def": "FLOUR", "lot": "F-1", "seq": begun + it, "sub": 0} for it in range(BOOKINGS)]
        batch = {"attempt": 1, "batch": "B-1", "closed": False, "consumed": rows, "next": 1, "order": "O-1", "phases": 1}
        made = {"amount": amount, "def": "DOUGH", "lot": "D-1", "seq": begun - 1}
        batch.update({"produced": [made], "recipe": "CAKE", "size": 300, "state": "running", "version": 1})
        stock = amount - BOOKINGS
        lot = {"def": "DOUGH", "held": False, "lot": "D-1", "stock": stock, "sublots": [{"no": 0, "place": "", "stock": stock}]}
        self.check_alike(file, [
            ("a batch of many bookings", '{"ask":"batch","batch":"B-1"}', "/v1/batches/B-1", compact(batch)),
            ("a lot of many scraps", '{"ask":"lot","lot":"D-1"}', "/v1/lots/D-1", compact(lot)),
        ])
        end = f"at 200 by {LONG} note {LONG}"
        self.check_record("many bookings", file, [
            *RECORD_HEAD,
            f"{begun - 2:6} start at 200 by ",
            "CONSUMED",
            *[f"{begun + it:6} F-1/0 FLOUR 1 kg {end}" for it in range(BOOKINGS)],
            "PRODUCED",
            f"{begun - 1:6} D-1 DOUGH {amount} kg scrapped {BOOKINGS} at 200 by ",
            "TOTALS",
            f"in FLOUR asked 100 booked {BOOKINGS}",
            f"out DOUGH asked 300 booked {amount}",
            "END",
        ])

    def test_record_of_more_than_64_bits_hold_is_exact(self) -> None:
        """Has a batch consume lots of the greatest amount: its record is exact, and so are the tests of the file, by which an amount that is
        one less is found."""
        file, lots = "amounts.db", [f"F-{it}" for it in range(NODES)]
        first = [*PLANNED, *begin_batch("B-1", 1)]
        self.check_lines("a batch of great amounts begins", file, b"".join(map(line, first)), replies(1, len(first)))
        seq, taken = len(first) + 1, len(first) + 1 + NODES
        sqlite.filled(self.path(file), {
            "lot": [(it, "FLOUR") for it in lots],
            "sublot": [(it, 0, "", 0) for it in lots],
            "movement": [received_row(seq + it, lot, MOST) for it, lot in enumerate(lots)]
            + [consumed_row(taken + it, lot, MOST) for it, lot in enumerate(lots)],
            "edge": [(1, it, "B-1") for it in lots],
        }, taken + NODES - 1)
        self.check_good("great amounts", file, taken + NODES - 1)
        self.check_record("great amounts", file, [
            *RECORD_HEAD,
            f"{len(first):6} start at 200 by ",
            "CONSUMED",
            *[f"{taken + it:6} {lot}/0 FLOUR {MOST} kg at 200 by " for it, lot in enumerate(lots)],
            "PRODUCED",
            "TOTALS",
            f"in FLOUR asked 100 booked {NODES * MOST}",
            "out DOUGH asked 300 booked 0",
            "END",
        ])
        sqlite.changed(self.path(file), f"UPDATE movement SET amount = amount - 1 WHERE seq = {taken}")
        self.check_run("a great amount that is one less", ["verify", file], (3, b"", b"fault: damaged G7\n"))

    def test_what_a_batch_made_costs_its_bookings_nothing(self) -> None:
        """Lets a batch that has led to many lots consume what was received, and one that has led to nothing: it takes as long."""
        file = "made.db"
        first = [*PLANNED, receive("F-1", 9000, "FLOUR"), *begin_batch("B-1", 1), *begin_batch("B-2", 2)]
        first += [produce("B-1", f"D-{it}") for it in range(BOOKINGS)]
        self.check_lines("a batch makes many lots", file, b"".join(map(line, first)), replies(1, len(first)))
        seconds, seq = [], len(first) + 1
        for batch in ["B-2", "B-1"]:
            seconds.append(self.check_lines(f"{batch} consumes", file, line(consume(batch)) * REPEATED, replies(seq, REPEATED)))
            seq += REPEATED
        self.check_as_soon("what a batch has made costs its bookings nothing", *seconds)


class Chains(LimitTestCase):
    """A lot that was split into a chain of 32,000 more."""

    def chain(self, file: str, nodes: int) -> int:
        """Makes the file of a chain of so many lots behind the first, and returns the number of its last command."""
        seq = self.send(file, *GOODS)
        lots = [f"C-{it}" for it in range(nodes + 1)]
        splits = [split_row(seq + 1 + it, lots[it - 1], lots[it], nodes + 1 - it) for it in range(1, nodes + 1)]
        sqlite.filled(self.path(file), {
            "lot": [(it, "SUGAR") for it in lots],
            "sublot": [(it, 0, "", 1) for it in lots],
            "movement": [received_row(seq + 1, lots[0], nodes + 1), *splits],
            "edge": [(3, lots[it - 1], lots[it]) for it in range(1, nodes + 1)],
        }, seq + 1 + nodes)
        return seq + 1 + nodes

    def test_long_chain_is_verified_traced_recalled_and_freed(self) -> None:
        """Verifies a chain and one of half its length, traces the longer one, and recalls its first lot."""
        half, whole, lots = "half.db", "chain.db", sorted(f"C-{it}" for it in range(1, NODES + 1))
        seconds = [self.check_good(f"a chain of {it}", file, self.chain(file, it)) for file, it in [(half, NODES // 2), (whole, NODES)]]
        self.check_as_soon(f"a chain of {NODES} is verified in the time of its length", *seconds)
        self.check_alike(whole, [("a long trace", '{"ask":"forward","lot":"C-0"}', "/v1/lots/C-0/forward", traced(lots))])
        text = "".join(f"lot {it}\n" for it in lots)
        self.check_run("a long trace, by the word", ["trace", whole, "forward", "C-0"], (0, text.encode(), b""))
        self.check_recall(whole, 3 + NODES, lots, seconds[1])

    def check_recall(self, file: str, seq: int, lots: Sequence[str], seconds: float) -> None:
        """Recalls the first lot of the chain, which is verified in so many seconds, and lifts the recall: the marks cost no more than the edges."""
        self.check_lines("a recall of a chain", file, line(recall("C-0")), replies(seq + 1, 1))
        text = compact({"lot": "C-0", "nodes": lots_told(["C-0", *lots]), "recall": "RC-1", "state": "open"})
        self.check_lines("all that it reaches", file, b'{"ask":"recall","recall":"RC-1"}\n', text.encode() + b"\n")
        marked = self.check_good("a recalled chain", file, seq + 1)
        self.check_as_soon("a recalled chain is verified in the time of both", seconds, marked)
        last = line(split(f"C-{NODES}", 1, "E-1"))
        self.check_run("its last lot is blocked", ["run", file], (1, b'{"name":"Recalled","refused":32}\n', b""), last)
        self.check_lines("its last lot is free", file, line(lift()) + last, replies(seq + 2, 2))
        self.check_good("a chain whose recall was lifted", file, seq + 3)


class LargeDesk(LimitTestCase):
    """A desk of 250,000 movements and 32,000 edges, many of one lot and of one batch."""

    PROGRAMS = ("desk", "desk_check")

    def test_large_desk_is_verified_traced_and_migrated_from_the_first_schema(self) -> None:
        file, fan = "large.db", [f"T-{it}" for it in range(NODES)]
        first = [*PLANNED, receive("F-1", LARGE_BOOKINGS, "FLOUR"), *begin_batch("B-1", 1)]
        self.check_lines("a large desk begins", file, b"".join(map(line, first)), replies(1, len(first)))
        seq = self.fill(self.path(file), fan, len(first))
        [(movements,)] = sqlite.rows(self.path(file), "SELECT count(*) FROM movement")
        self.check_true(f"a large desk has so many movements, {movements}", movements >= LARGE)
        self.check_good("a large desk", file, seq)
        self.check("a large desk, looked into", Program("desk_check", self.folder).run(file, timeout=SECONDS).status, 0)
        text = "".join(f"lot {it}\n" for it in sorted(fan))
        self.check_run("a large fan", ["trace", file, "forward", "T"], (0, text.encode(), b""))
        self.check_genealogies(file)
        sqlite.changed(self.path(file), sqlite.TO_SCHEMA_1)
        self.check_lines("a large desk is raised", file, line(scrap("L-1", 1)), replies(seq + 1, 1))
        self.check_good("a large desk that was raised", file, seq + 1)

    @staticmethod
    def fill(file: pathlib.Path, fan: list[str], seq: int) -> int:
        """Writes the rows of bookings of one batch, of a fan of splits, and of lots that are received and scrapped; returns the last number."""
        lots = [f"L-{it}" for it in range(LARGE_LOTS)]
        movements: list[Row] = []

        def add(row: Callable[..., Row], *values: str | int) -> None:
            movements.append(row(seq + 1 + len(movements), *values))

        for _ in range(LARGE_BOOKINGS):
            add(consumed_row, "F-1", 1)
        add(received_row, "T", NODES)
        for lot in fan:
            add(split_row, "T", lot, 1)
        for lot in lots:
            add(received_row, lot, 100)
        for it in range(9 * LARGE_LOTS):
            add(scrapped_row, lots[it % LARGE_LOTS])
        sqlite.filled(file, {
            "lot": [("T", "DOUGH")] + [(it, "DOUGH") for it in fan + lots],
            "sublot": [("T", 0, "", 0)] + [(it, 0, "", 1) for it in fan] + [(it, 0, "", 91) for it in lots],
            "movement": movements,
            "edge": [(1, "F-1", "B-1")] + [(3, "T", it) for it in fan],
        }, seq + len(movements))
        sqlite.changed(file, "UPDATE sublot SET stock = 0 WHERE lot = 'F-1'")
        return seq + len(movements)

    def check_genealogies(self, file: str) -> None:
        """Asks for the genealogy of a lot that came of nothing, and back of one that was split off beside many others: it takes as long."""
        seconds = []
        for lots in ({"L-7": 91}, {"T": 0, "T-7": 1}):
            *sources, last = lots
            known = {"def": "DOUGH", "held": False, "recalled": False, "unit": "kg"}
            genealogy = compact({
                "edges": [{"amount": 1, "from": {"lot": it}, "to": {"lot": last}} for it in sources],
                "nodes": [{**known, "lot": it, "stock": stock} for it, stock in lots.items()],
            })
            told, text = f'{{"ask":"back_edges","lot":"{last}"}}\n' * REPEATED, f"{genealogy}\n" * REPEATED
            seconds.append(self.check_lines(f"the genealogy of {last}", file, told.encode(), text.encode()))
        self.check_as_soon("what went elsewhere costs a genealogy nothing", *seconds)


class Reads(LimitTestCase):
    """How a run reads its input."""

    def test_run_reads_by_the_piece(self) -> None:
        """Counts the reads of a run over memory, by what the system says of it while it waits: far fewer than bytes."""
        question, count = b'{"ask":"desk"}\n', 4000
        with self.desk.start(stdin=subprocess.PIPE) as run:
            reads = []
            for _ in range(2):
                run.stdin.write(question * count)
                run.stdin.flush()
                for _ in range(count):
                    run.stdout.readline()
                counts = pathlib.Path(f"/proc/{run.pid}/io").read_text()
                [calls] = re.findall(r"syscr: (\d+)", counts)
                reads.append(int(calls))
            run.stdin.close()
            self.check("a run that was counted", run.wait(timeout=SECONDS), 0)
        # a pipe gives less than a piece at a time only where the writer is slow
        self.check_true(f"a run reads by the piece, {reads}", reads[1] - reads[0] < len(question) * count // 100)


class Log(LimitTestCase):
    """The log of a file that a run has open."""

    IN_MEMORY = False

    def test_log_stays_within_4_mb_and_a_command(self) -> None:
        """Books until several times as much was written, and looks at the log's size after each few commands."""
        self.send("log.db", *GOODS, receive("L-1", SCRAPS))
        sizes, few = [], 100
        with self.desk.start("run", "log.db", stdin=subprocess.PIPE) as run:
            for _ in range(SCRAPS // few):
                run.stdin.write(line(scrap("L-1", 1)) * few)
                run.stdin.flush()
                for _ in range(few):
                    run.stdout.readline()
                sizes.append((self.folder / "log.db-wal").stat().st_size)
            run.stdin.close()
            self.check("a run of many commands", run.wait(timeout=SECONDS), 0)
        self.check_true(f"the log stays within 4 MB and a command, {max(sizes)}", 2 << 20 < max(sizes) < 5 << 20)
        self.check_good("the file behind it", "log.db", 3 + SCRAPS)
