"""The built programs above sizes at which a program may be tempted to give up: thousands of nodes around a lot, a million bytes of an answer,
100,000 receipts; and what a genealogy costs that has few lots and very many ways.

Rows that would take long to be booked are written into the file by the SQLite that comes with Python. The two times of a ladder and of a chain
are those of one program, and the bound is wide: a program that goes along each way of the ladder by itself never ends.
"""
from __future__ import annotations

import json
import resource
from collections.abc import Sequence

from tests.support import scenarios, sqlite
from tests.support.commands import (
    GOODS, PLANNED, add_recipe, approve, begin_batch, compact, import_orders, line, recall, receive, release, replies, say,
)
from tests.support.http import ACCEPTED, ASK, answer, desk_answer, got, posted
from tests.support.large import LimitTestCase, chain_tables, consumed_row, fan_tables, merged_rows, produced_row, received_row, scrapped_row, split_row
from tests.support.program import Program
from tests.support.scenarios import Item, lots_told
from tests.support.sessions import lines_of

# How many lots stand behind the first of a chain and of a fan, and before and behind a batch: their genealogies are told in more than 2*10^6 bytes.
NODES = 16_000

# How many lots a recall reaches that the check of a file looks at.
MARKED = 1_500

# How many receipts a file has, and how many questions a run answers.
RECEIPTS = 100_001
QUESTIONS = 1_000_001

# How many rungs a ladder has, each of a split and a merge of both lots, and how many seconds a word over it may take.
RUNGS = 3_000
SECONDS = 60

# How many lots have stock, among how many that are used up, and how many times they are asked for.
STOCKED = 50
USED_UP = 20_000
TIMES = 200

# How many rungs has a ladder that is checked and drawn by the other programs.
FEWER_RUNGS = 300

# The longest note, and the longest name of somebody.
NOTE = "n" * 60
NAME = "a" * 60

# The word of each question for a page, with the member that says of what, where it has one.
LISTS = {
    "orders": "state", "batches": None, "lots": "def", "holds": "lot", "recalls": None, "definitions": "class", "recipes": "state",
    "movements": "lot", "closed_batches": None, "lifted_recalls": None, "classes": None, "all_holds": None, "orders_by_due": "state",
    "commands": None, "history": "id", "stock": "def", "stocks": "class",
}

REUSED = b'{"name":"RefReused","refused":31}\n'


# A lot or a batch: its kind and its id.
Node = tuple[str, str]


def lot_told(lot: str, stock: int, definition: str = "SUGAR") -> Item:
    """Returns a lot of one sublot as it is answered."""
    return {"def": definition, "held": False, "lot": lot, "recalled": False, "stock": stock, "sublots": [{"no": 0, "place": "", "stock": stock}]}


def node_told(lot: str, stock: int, definition: str = "SUGAR", unit: str = "g") -> Item:
    """Returns a lot as it is answered among the nodes of a genealogy."""
    return {"def": definition, "held": False, "lot": lot, "recalled": False, "stock": stock, "unit": unit}


def edge_told(start: Node, end: Node, amount: int) -> Item:
    """Returns an edge as it is answered; each end is a kind and an id."""
    return {"amount": amount, "from": dict([start]), "to": dict([end])}


class Around(LimitTestCase):
    """Thousands of nodes around a lot or a batch."""

    def check_around(
        self, file: str, case: str, node: Node, direction: str, nodes: Sequence[Item], edges: Sequence[Item],
    ) -> int:
        """Asks for the genealogy of a lot or a batch, a kind and an id, forward or back."""
        word, (kind, name) = f"{direction}_edges", node
        paths = {"lot": "lots", "batch": "batches"}
        text = compact({"edges": edges, "nodes": nodes})
        self.check_alike(file, [(f"{case}, {direction}", compact({"ask": word, kind: name}), f"/v1/{paths[kind]}/{name}/{word}", text)])
        return len(text)

    def check_stands(self, file: str, case: str, node: Node, lots: Sequence[Item]) -> None:
        """Asks where the goods of a lot or a batch stand."""
        kind, name = node
        paths = {"lot": "lots", "batch": "batches"}
        text = compact({"lots": lots})
        self.check_alike(file, [(f"{case}, where they stand", compact({"ask": "stands", kind: name}), f"/v1/{paths[kind]}/{name}/stands", text)])

    def test_16000_lots_in_a_chain_are_told_with_their_edges_and_where_they_stand(self) -> None:
        file, seq = "chain.db", self.send("chain.db", *GOODS)
        lots = [f"C-{it:05}" for it in range(NODES + 1)]
        sqlite.filled(self.path(file), chain_tables(seq + 1, lots), seq + 1 + NODES)
        nodes = [node_told(it, 1) for it in lots]
        edges = [edge_told(("lot", first), ("lot", second), NODES - at) for at, (first, second) in enumerate(zip(lots, lots[1:]))]
        size = self.check_around(file, "a chain", ("lot", lots[0]), "forward", nodes, edges)
        self.check_true(f"an answer of more than two million bytes, {size}", size > 2 * 10**6)
        self.check_around(file, "a chain", ("lot", lots[-1]), "back", nodes, edges)
        self.check_stands(file, "a chain", ("lot", lots[0]), [lot_told(it, 1) for it in lots])
        self.check_stands(file, "the end of a chain", ("lot", lots[-1]), [lot_told(lots[-1], 1)])

    def test_16000_lots_split_off_one_are_told_with_their_edges_and_where_they_stand(self) -> None:
        file, seq = "fan.db", self.send("fan.db", *GOODS)
        lots = [f"T-{it:05}" for it in range(NODES)]
        sqlite.filled(self.path(file), fan_tables(seq + 1, "T", lots, 5, 2), seq + 1 + NODES)
        edges = [edge_told(("lot", "T"), ("lot", it), 2) for it in lots]
        self.check_around(file, "a fan", ("lot", "T"), "forward", [node_told("T", 5), *(node_told(it, 2) for it in lots)], edges)
        self.check_around(file, "a lot of a fan", ("lot", lots[-1]), "back", [node_told("T", 5), node_told(lots[-1], 2)], edges[-1:])
        self.check_stands(file, "a fan", ("lot", "T"), [lot_told("T", 5), *(lot_told(it, 2) for it in lots)])
        self.check_good("a fan", file, seq + 1 + NODES)

    def test_batch_of_16000_lots_before_and_behind_it_is_told_with_its_edges(self) -> None:
        file, seq = "batch.db", self.send("batch.db", *PLANNED, *begin_batch("B-1", 1))
        sources, products = ([f"{name}-{it:05}" for it in range(NODES)] for name in "FP")
        made: dict[str, list[sqlite.Row]] = {"lot": [], "sublot": [], "movement": [], "edge": []}
        for it in sources:
            made["lot"].append((it, "FLOUR"))
            made["sublot"].append((it, 0, "", 1))
            made["movement"] += [received_row(seq + 1, it, 3), consumed_row(seq + 2, it, 2)]
            made["edge"].append((1, it, "B-1"))
            seq += 2
        for it in products:
            seq += 1
            made["lot"].append((it, "DOUGH"))
            made["sublot"].append((it, 0, "", 4))
            made["movement"].append(produced_row(seq, it, 4))
            made["edge"].append((2, "B-1", it))
        sqlite.filled(self.path(file), made, seq)
        self.check_good("a batch of many lots", file, seq)
        batch, nodes = ("batch", "B-1"), [node_told(it, 1, "FLOUR", "kg") for it in sources]
        taken = [edge_told(("lot", it), batch, 2) for it in sources]
        self.check_around(file, "a batch", batch, "back", [*nodes, dict([batch])], taken)
        last = products[-1]
        nodes.append(node_told(last, 4, "DOUGH", "kg"))
        self.check_around(file, "a product", ("lot", last), "back", [*nodes, dict([batch])], [*taken, edge_told(batch, ("lot", last), 4)])
        nodes = [node_told(it, 4, "DOUGH", "kg") for it in products]
        self.check_around(file, "a batch", batch, "forward", [*nodes, dict([batch])], [edge_told(batch, ("lot", it), 4) for it in products])
        self.check_stands(file, "a batch", batch, [lot_told(it, 4, "DOUGH") for it in products])


class Pages(LimitTestCase):
    """Lists above a page."""

    def test_lists_above_a_page_are_told_alike_by_a_line_and_by_a_request(self) -> None:
        for session in [*scenarios.above_a_page(), scenarios.lists(201), scenarios.by_due(201), scenarios.booked(201), scenarios.histories(201)]:
            file = "pages.db"
            self.check_run(session.name, ["run", file], session.ended(), session.told)
            asked = [json.loads(it) for it in sorted(set(lines_of(session.told))) if b'"ask":' in it]
            questions = [it for it in asked if it["ask"] in LISTS]
            self.check_true(f"{session.name} asks for lists", questions or session.name.endswith("recalls"))
            answers = self.desk.run("run", file, told=b"".join(compact(it).encode() + b"\n" for it in questions)).output.decode().splitlines()
            requests = [(str(it), got(path_of(it)), answer(text)) for it, text in zip(questions, answers)]
            self.check(f"{session.name} is answered", len(requests), len(questions))
            self.check_requests(file, requests or [("a desk", ASK, desk_answer(session.count()))])
            self.path(file).unlink()


def path_of(asked: Item) -> str:
    """Returns the path of HTTP of a question for a page."""
    member = LISTS[asked["ask"]]
    return "/".join(["/v1/lists", asked["ask"], *([asked[member]] if member else []), *([str(asked["above"])] if "above" in asked else [])])


class Lines(LimitTestCase):
    """A run of very many lines."""

    def test_more_than_a_million_questions_are_answered(self) -> None:
        told, wanted = b'{"ask":"moment"}\n' * QUESTIONS, b'{"at":0}\n' * QUESTIONS
        self.check_run("a million questions and one", ["run", ":memory:"], (0, wanted, b""), told)


class Receipts(LimitTestCase):
    """References: many of them, and those of commands that are as long as they may be."""

    def test_100001_receipts_are_verified_and_answered_again(self) -> None:
        file = "receipts.db"
        self.desk.run("init", file)
        sqlite.filled(self.path(file), {
            "receipt": [(f"K-{it}", it, f"200\n\n\nadd_class\nC-{it}\n\n") for it in range(1, RECEIPTS + 1)],
        }, RECEIPTS)
        self.check_good("many receipts", file, RECEIPTS)

        def told(name: str, reference: str) -> bytes:
            return line(f'"do":"add_class","class":"{name}","name":"","ref":"{reference}"')

        commands = [told(f"C-{it}", f"K-{it}") for it in (1, 50_000, RECEIPTS)]
        commands += [told("C-1", f"K-{RECEIPTS}"), told("C-0", "K-0"), told("C-0", "K-0")]
        wanted = b'{"ok":1}\n{"ok":50000}\n{"ok":100001}\n' + REUSED + b'{"ok":100002}\n' * 2
        self.check_run("commands again", ["run", file], (1, wanted, b""), b"".join(commands))
        self.check_good("many receipts and one more", file, RECEIPTS + 1)

    def test_command_of_a_reference_and_a_note_of_60_bytes_acts_once(self) -> None:
        """Tells a command with the longest note, name and reference by a line and by a request."""
        file, reference = "notes.db", "K" * 24
        body = f'{{"at":200,"by":"{NAME}","note":"{NOTE}","ref":"{reference}","do":"add_class","class":"RAW","name":"{NOTE}"}}'.encode()
        for case in "once", "again":
            self.check_lines(f"a command, {case}", file, body + b"\n", b'{"ok":1}\n')
            self.check_requests(file, [(f"a command, {case}", posted("/v1/commands", body), ACCEPTED)])
        self.check_run("another note", ["run", file], (1, REUSED, b""), body.replace(NOTE.encode(), b"n" * 59, 1) + b"\n")
        long = b'{"name":"BadForm","refused":1}\n'
        self.check_run("a longer note", ["run", file], (1, long, b""), body.replace(NOTE.encode(), b"n" * 61, 1) + b"\n")
        receipt = (reference, 1, f"200\n{NAME}\n{NOTE}\nadd_class\nRAW\n{NOTE}\n")
        self.check("its receipt", sqlite.rows(self.path(file), "SELECT * FROM receipt"), [receipt])
        self.check_good("a command that acts once", file, 1)

    def test_import_of_1000_orders_under_a_reference_is_taken_once(self) -> None:
        """Imports by the word with each of its options, twice, and then by a line: it is taken once; each other option makes another import."""
        file, seq = "imports.db", self.send("imports.db", *GOODS, add_recipe(1), approve())
        rows = b"order,recipe,version,size,due,priority\n" + b"".join(b"O-%d,R,1,1,2027-03-01,5\n" % it for it in range(1000))
        words = {"--at": "300", "--by": NAME, "--ref": "FILE-7"}
        accepted = b'{"ok":%d}\n' % (seq + 1)

        def imported(case: str, wanted: bytes, **changed: str) -> None:
            options = {**words, **{f"--{name}": value for name, value in changed.items()}}
            self.check_run(case, ["import", file, *(word for pair in options.items() for word in pair)], (int(wanted == REUSED), wanted, b""), rows)

        imported("an import", accepted)
        imported("the import again", accepted)
        self.check_run("the import by a line", ["run", file], (0, accepted, b""), line(
            import_orders(1000) + ',"ref":"FILE-7"', f'"at":300,"by":"{NAME}"'))
        imported("another moment", REUSED, at="301")
        imported("another name", REUSED, by="anna")
        self.check("its orders", sqlite.rows(self.path(file), "SELECT count(*), min(size), max(size) FROM job"), [(1000, 1, 1)])
        stamp = sqlite.rows(self.path(file), "SELECT id, seq, substr(content, 1, 90) FROM receipt")
        self.check("its receipt", stamp, [("FILE-7", seq + 1, f"300\n{NAME}\n\nimport_orders\n1000\nO-0\nR\n"[:90])])
        imported("another reference", b'{"ok":%d}\n' % (seq + 2), ref="FILE-8")
        self.check_good("an import that was taken once", file, seq + 2)


class Marks(LimitTestCase):
    """A recall that reaches more than a thousand lots, as the check of a file looks at it."""

    PROGRAMS = ("desk", "desk_check")

    def test_each_mark_of_a_recall_of_1500_lots_is_checked(self) -> None:
        file, seq = "marks.db", self.send("marks.db", *GOODS)
        lots = [f"C-{it:04}" for it in range(MARKED)]
        sqlite.filled(self.path(file), chain_tables(seq + 1, lots), seq + MARKED)
        self.check_lines("a recall", file, line(recall(lots[0])), replies(seq + MARKED + 1, 1))
        checker = Program("desk_check", self.folder)
        told = [f"It holds a desk of schema 4 and {seq + MARKED + 1} commands, the last at 200.",
                f"Orders: 0, batches: 0, lots: {MARKED}, movements: {MARKED}.", "No rule is broken."]
        text = "".join(f"{it}\n" for it in ["The file opens.", *told])
        self.check("a recall of many lots", checker.run(file), (0, text.encode(), b""))
        for lot in [lots[1], lots[1_023], lots[-1]]:
            sqlite.changed(self.path(file), f"DELETE FROM mark WHERE id = '{lot}'")
            self.check_missing(checker, file, lot)
            sqlite.changed(self.path(file), f"INSERT INTO mark VALUES ('RC-1', 1, '{lot}')")
        self.check("a recall of many lots again", checker.run(file).status, 0)
        self.check_good("a recall of many lots", file, seq + MARKED + 1)

    def check_missing(self, checker: Program, file: str, lot: str) -> None:
        """Checks a file in which the mark of a lot is missing."""
        status, output, _ = checker.run(file, "--json")
        broken = [(it["rule"], it["row"] and (it["row"]["table"], it["row"]["key"])) for it in json.loads(output)["desk"]["broken"]]
        self.check(f"no mark of {lot}", (status, broken), (3, [(14, ("mark", ["RC-1", 1, lot]))]))
        self.check_run(f"no mark of {lot}, verified", ["verify", file], (3, b"", b"fault: damaged G14\n"))


class Ladders(LimitTestCase):
    """A lot that is split and merged again and again, so that two ways lead up each rung: few lots, and very many ways."""

    PROGRAMS = ("desk", "desk_check", "genealogy_picture")

    @staticmethod
    def lots_of(rungs: int) -> dict[str, int]:
        """Returns the lots of a ladder of so many rungs, in the order in which they come to be, and what each has at the end."""
        return {"R-0000": 0, **{f"{name}-{it:04}": 0 for it in range(1, rungs + 1) for name in "SR"}, f"R-{rungs:04}": 2}

    def ladder(self, file: str, rungs: int) -> int:
        """Makes the file of a ladder, whose first lot a batch makes, and by each of whose rungs half of a lot of 2 is split off and merged with
        the rest; returns its last number."""
        recipe = add_recipe(1).replace('"lines":[', '"lines":[{"kind":"in","def":"SUGAR","qty":1},')
        seq = self.send(file, *GOODS, recipe, approve(), import_orders(1), release("O-0", "B-1"), say("start")) + 1
        lots, movements, edges = self.lots_of(rungs), [produced_row(seq, "R-0000", 2)], [(2, "B-1", "R-0000")]
        for it in range(1, rungs + 1):
            first, other, last = f"R-{it - 1:04}", f"S-{it:04}", f"R-{it:04}"
            movements += [split_row(seq + 1, first, other, 1), *merged_rows(seq + 2, [(first, 1), (other, 1)], last)]
            edges += [(3, first, other), (3, first, last), (3, other, last)]
            seq += 2
        sqlite.filled(self.path(file), {
            "lot": [(it, "SUGAR") for it in lots],
            "sublot": [(it, 0, "", stock) for it, stock in lots.items()],
            "movement": movements,
            "edge": edges,
        }, seq)
        return seq

    def chain(self, file: str, nodes: int) -> int:
        """Makes the file of a chain with so many splits; returns its last number."""
        seq = self.send(file, *GOODS) + 1
        sqlite.filled(self.path(file), chain_tables(seq, [f"C-{it:05}" for it in range(nodes + 1)]), seq + nodes)
        return seq + nodes

    def fan(self, file: str, nodes: int) -> int:
        """Makes the file of a lot that was split into so many; returns its last number."""
        seq = self.send(file, *GOODS) + 1
        sqlite.filled(self.path(file), fan_tables(seq, "T", [f"C-{it:05}" for it in range(nodes)]), seq + nodes)
        return seq + nodes

    def check_within(
        self, case: str, words: Sequence[str], wanted: tuple[int, bytes, bytes], told: bytes = b"",
    ) -> None:
        """Checks how a run of the desk ends, which may take some seconds and no more."""
        self.check(case, self.desk.run(*words, told=told, timeout=SECONDS), wanted)

    def test_ladder_is_verified_in_the_time_of_a_chain_and_its_circle_refused(self) -> None:
        seconds = []
        for case, make, size in [("fan", self.fan, 3 * RUNGS // 2), ("chain", self.chain, 3 * RUNGS), ("ladder", self.ladder, RUNGS)]:
            seq = make(f"{case}.db", size)
            seconds.append(self.check_good(f"a {case}", f"{case}.db", seq))
        self.check_as_soon("a chain is verified as soon as a fan of half its movements", *seconds[:2])
        self.check_as_soon("a ladder is verified as soon as a chain of as many movements", *seconds[1:])
        last = f"R-{RUNGS:04}"
        self.make_circle("ladder.db", seq, last)
        for words in ["verify", "ladder.db"], ["run", "ladder.db"], ["trace", "ladder.db", "back", last]:
            self.check_within(f"{words} of a circle", words, (3, b"", b"fault: damaged G12\n"))

    def test_ladder_and_its_circle_are_told_by_the_check_of_a_file(self) -> None:
        seq, checker = self.ladder("ladder.db", FEWER_RUNGS), Program("desk_check", self.folder)
        self.check("a ladder, checked", checker.run("ladder.db", timeout=SECONDS).status, 0)
        self.make_circle("ladder.db", seq, f"R-{FEWER_RUNGS:04}")
        status, output, errors = checker.run("ladder.db", "--json", timeout=SECONDS)
        broken = [(it["rule"], it["row"]) for it in json.loads(output)["desk"]["broken"]]
        self.check("a circle, checked", (status, broken, errors), (3, [(12, None)], b""))

    def test_ladder_is_drawn(self) -> None:
        self.ladder("ladder.db", FEWER_RUNGS)
        told = self.desk.run("run", "ladder.db", told=b'{"ask":"forward_edges","batch":"B-1"}\n').output
        picture, edges = Program("genealogy_picture", self.folder), 3 * FEWER_RUNGS + 1
        # In SVG the head of an arrow is a path, too.
        for word, mark, marks in ("--dot", b" -> ", edges), ("--svg", b"<path ", edges + 1):
            status, output, errors = picture.run(word, told=told, timeout=SECONDS)
            self.check(f"a ladder, drawn by {word}", (status, output.count(mark), errors), (0, marks, b""))

    def make_circle(self, file: str, seq: int, last: str) -> None:
        """Lets the batch that made the first lot consume of the last one."""
        sqlite.filled(self.path(file), {"movement": [consumed_row(seq + 1, last, 1)], "edge": [(1, last, "B-1")]}, seq + 1)
        sqlite.changed(self.path(file), f"UPDATE sublot SET stock = 1 WHERE lot = '{last}'")

    def test_ladder_is_traced_recalled_and_told(self) -> None:
        file, lots = "ladder.db", self.lots_of(RUNGS)
        seq, last = self.ladder(file, RUNGS), f"R-{RUNGS:04}"
        for direction, node in [("forward", "R-0000"), ("back", last)]:
            others = [it for it in sorted(lots) if it != node]
            text = "".join([*(f"lot {it}\n" for it in others), "batch B-1\n" * (direction == "back")])
            self.check_within(f"a ladder, {direction}", ["trace", file, direction, node], (0, text.encode(), b""))
        edges = []
        for it in range(1, RUNGS + 1):
            first, other, end = f"R-{it - 1:04}", f"S-{it:04}", f"R-{it:04}"
            edges += [(first, end), (first, other), (other, end)]
        told, batch = [edge_told(("lot", first), ("lot", end), 1) for first, end in sorted(edges)], ("batch", "B-1")
        told.insert(0, edge_told(batch, ("lot", "R-0000"), 2))
        text = compact({"edges": told, "nodes": [*(node_told(it, lots[it]) for it in sorted(lots)), dict([batch])]})
        for question in [{"ask": "back_edges", "lot": last}, {"ask": "forward_edges", "batch": "B-1"}]:
            self.check_within(f"a ladder, {question}", ["run", file], (0, text.encode() + b"\n", b""), compact(question).encode() + b"\n")
        self.check_within("a ladder, where it stands", ["run", file], (0, compact({"lots": [lot_told(last, 2)]}).encode() + b"\n", b""),
                          b'{"ask":"stands","lot":"R-0000"}\n')
        recalled = compact({"lot": "R-0000", "nodes": lots_told(sorted(lots)), "recall": "RC-1", "state": "open"}).encode()
        self.check_within("a ladder is recalled", ["run", file], (0, b'{"ok":%d}\n%s\n' % (seq + 1, recalled), b""),
                          line(recall("R-0000")) + b'{"ask":"recall","recall":"RC-1"}\n')
        self.check_within("a recalled ladder, verified", ["verify", file], (0, b"good schema 4 seq %d\n" % (seq + 1), b""))


class UsedUp(LimitTestCase):
    """Lots with stock, and many that are used up."""

    IN_MEMORY = False

    def fill(self, file: str, used_up: int) -> None:
        """Makes a file of lots with stock, and before them so many of which all was scrapped."""
        seq = self.send(file, *GOODS) + 1
        used, lots = [f"A-{it:05}" for it in range(used_up)], [f"L-{it:05}" for it in range(STOCKED)]
        movements = [row for at, it in enumerate(used) for row in (received_row(seq + 2 * at, it, 1), scrapped_row(seq + 2 * at + 1, it))]
        seq += 2 * used_up
        sqlite.filled(self.path(file), {
            "lot": [(it, "SUGAR") for it in [*used, *lots]],
            "sublot": [*((it, 0, "", 0) for it in used), *((it, 0, "", 5) for it in lots)],
            "movement": [*movements, *(received_row(seq + at, it, 5) for at, it in enumerate(lots))],
        }, seq + STOCKED - 1)

    def seconds(self, file: str, question: str, answer: Item) -> float:
        """Asks a question again and again; returns the processor time of the answers, without that of the opening."""
        spent = []
        for times in 0, TIMES:
            began = resource.getrusage(resource.RUSAGE_CHILDREN)
            self.check_run(f"{question} of {file}", ["run", file], (0, (compact(answer) + "\n").encode() * times, b""), f"{question}\n".encode() * times)
            ended = resource.getrusage(resource.RUSAGE_CHILDREN)
            spent.append(ended.ru_utime - began.ru_utime)
        return spent[1] - spent[0]

    def test_lots_with_stock_are_found_as_soon_among_20000_that_are_used_up(self) -> None:
        seconds = {}
        for file, used_up in ("few.db", 1), ("many.db", USED_UP):
            self.fill(file, used_up)
            sums = {"def": "SUGAR", "held": 0, "lots": STOCKED, "name": "", "recalled": 0, "unit": "g", "usable": 5 * STOCKED}
            seconds[file] = self.seconds(file, '{"ask":"stocks","class":"RAW"}', {"more": False, "stocks": [sums]})
        self.check_true(f"lots with stock, {seconds}", seconds["many.db"] < 2 * seconds["few.db"] + 0.2)


class Alone(LimitTestCase):
    """A lot from which nothing came, and that came of nothing."""

    def test_lot_that_leads_nowhere_is_traced_to_nothing(self) -> None:
        file = "alone.db"
        self.send(file, *GOODS, receive("L-1", 5))
        for direction in "back", "forward":
            self.check_run(f"a trace {direction}", ["trace", file, direction, "L-1"], (0, b"", b""))
        genealogy = compact({"edges": [], "nodes": [node_told("L-1", 5)]})
        self.check_alike(file, [
            *((f"a trace {it}", f'{{"ask":"{it}","lot":"L-1"}}', f"/v1/lots/L-1/{it}", '{"nodes":[]}') for it in ("back", "forward")),
            *((it, f'{{"ask":"{it}","lot":"L-1"}}', f"/v1/lots/L-1/{it}", genealogy) for it in ("back_edges", "forward_edges")),
            ("stands", '{"ask":"stands","lot":"L-1"}', "/v1/lots/L-1/stands", compact({"lots": [lot_told("L-1", 5)]})),
        ])
