"""Sessions of the built desk whose answers are written out, over memory and over a file, which another SQLite reads; what its words print;
files of earlier schemas; and connections that break."""
from __future__ import annotations

import pathlib
import shutil

from tests.support import http, scenarios, sessions, sqlite
from tests.support.cases import DeskTestCase, good
from tests.support.commands import EACH_COMMAND, GOODS, add_recipe, approve, import_orders, lift, line, recall, replies, scrap, split
from tests.support.http import ASK, NEW, POST, Server, answered, connected, rest_of
from tests.support.program import EXAMPLES, File
from tests.support.sessions import Session, SessionTestCase

# The record of the batch of the session a_batch_runs_to_its_close.
RECORD = b"""BATCH RECORD B-1
order O-1 due 2027-03-01 priority 5 state finished
recipe CAKE 1 product DOUGH size 500 base 300
released at 200 by anna
state complete attempt 1 phases 1 of 1 closed
CONTROL RECIPE
  1 in FLOUR 167 kg
  2 out DOUGH 500 kg
  3 par TEMP 80 C
  4 phase MIX BLEND STIR
EVENTS
     9 start at 210 by ben
    11 phase 1 at 230 by ben
    14 done at 260 by ben
    15 close at 300 by anna
CONSUMED
    10 F-1/0 FLOUR 167 kg at 220 by ben
PRODUCED
    12 D-1 DOUGH 490 kg scrapped 10 at 240 by ben
TOTALS
in FLOUR asked 167 booked 167
out DOUGH asked 500 booked 490
END
"""

ORDER_HEAD = b"order,recipe,version,size,due,priority\n"

# How many commands a desk of many has accepted, and the statements over good_desk.sql that say so, and that give its last rows, up to the one of
# number 17, the last numbers.
MANY = 5_000_000
TO_MANY = f"UPDATE meta SET seq = {MANY};"
ROWS_TO_MANY = "".join(f"UPDATE {it} SET seq = seq + {MANY - 17} WHERE seq > 10;" for it in ("movement", "batch_event", "receipt"))

# For each older schema the statements that lead back to it, and the tables that it doesn't have and that are empty once it is raised.
OLDER = {
    1: (sqlite.TO_SCHEMA_1, ("receipt", "recall", "mark")),
    2: (sqlite.TO_SCHEMA_2, ("receipt", "recall", "mark")),
    3: (sqlite.TO_SCHEMA_3, ("recall", "mark")),
}


def with_a_test_for_each_file(case: type[SessionTestCase]) -> type[SessionTestCase]:
    """Gives a test case a test for each file of examples/sessions, of the name of the file."""
    for path in sessions.files():
        def test(self: SessionTestCase, path: pathlib.Path = path) -> None:
            self.check_session(sessions.read(path))

        test.__name__ = f"test_{path.stem}"
        test.__doc__ = f"Runs the session of {path.name}."
        setattr(case, test.__name__, test)
    return case


def rows_of_tables(file: File) -> dict[str, list[sqlite.Row]]:
    """Returns the rows of each table of a desk."""
    return {table: sqlite.rows(file, f"SELECT * FROM {table} ORDER BY {', '.join(keys[0].split())}") for table, (_, keys) in sqlite.TABLES.items()}


@with_a_test_for_each_file
class WrittenSessions(SessionTestCase):
    """The sessions of examples/sessions, and the batch of examples."""

    def test_batch_of_the_examples_is_answered_as_written(self) -> None:
        told, wanted = ((EXAMPLES / name).read_bytes() for name in ("batch.jsonl", "batch.out"))
        self.check_session(Session("the batch of the examples", told, wanted))


class LimitSessions(SessionTestCase):
    """Limits of commands, each reached and passed by one."""

    def test_recipe_has_128_lines_and_import_1000_orders(self) -> None:
        self.check_session(scenarios.lines_of_a_recipe())

    def test_sixteen_lots_become_one_of_the_greatest_amount(self) -> None:
        self.check_session(scenarios.greatest_amount())

    def test_merge_has_sixteen_parts_at_most(self) -> None:
        self.check_session(scenarios.parts_of_a_merge())

    def test_batch_has_99_attempts(self) -> None:
        self.check_session(scenarios.attempts_of_a_batch())

    def test_lot_has_a_thousand_sublots_at_most(self) -> None:
        self.check_session(scenarios.sublots_of_a_lot())


class TraceSessions(SessionTestCase):
    """Genealogies of hundreds of lots."""

    def test_long_chain_is_traced_and_recalled(self) -> None:
        self.check_session(scenarios.long_chain())

    def test_wide_fan_is_traced_and_recalled(self) -> None:
        self.check_session(scenarios.wide_fan())

    def test_goods_of_many_lots_stand_close_and_apart(self) -> None:
        self.check_session(scenarios.standing())


class PageSessions(SessionTestCase):
    """Lists that are told by the page."""

    def test_lists_of_orders_lots_holds_and_recalls_are_told_by_the_page(self) -> None:
        for count in scenarios.COUNTS:
            self.check_session(scenarios.lists(count))

    def test_recipes_and_ledgers_are_told_by_the_page(self) -> None:
        for count in scenarios.COUNTS:
            self.check_session(scenarios.paired_lists(count))

    def test_ledger_has_all_that_came_to_a_lot_and_left_it(self) -> None:
        self.check_session(scenarios.long_ledger())

    def test_batches_of_a_recipe_of_128_lines_are_told_by_the_page(self) -> None:
        self.check_session(scenarios.long_batches())

    def test_250_versions_of_one_recipe_are_told_by_the_page(self) -> None:
        self.check_session(scenarios.versions_of_one_recipe())

    def test_201_definitions_and_cancelled_orders_are_told_by_the_page(self) -> None:
        self.check_session(scenarios.definitions_and_cancelled_orders())


class RecallSessions(SessionTestCase):
    """A lot under many recalls."""

    IN_MEMORY = True

    def test_lot_under_120_recalls_stays_blocked_until_the_last_is_lifted(self) -> None:
        self.check_session(scenarios.recalls_of_one_lot())


class LineSessions(SessionTestCase):
    """Bytes that are a line, a bad one, or none."""

    def test_bad_lines_are_refused_and_end_nothing(self) -> None:
        for session in scenarios.lines():
            self.check_session(session)

    def test_numbers_and_members_of_a_line_are_read_or_bad(self) -> None:
        self.check_session(scenarios.scraps())


class OrderFiles(DeskTestCase):
    """The word `import`."""

    def test_order_files_are_imported_or_refused(self) -> None:
        planned = Session().accepted(*GOODS, add_recipe(1), approve())
        self.desk.run("run", "orders.db", told=planned.told)
        head, row = ORDER_HEAD.replace(b"\n", b"\r\n"), b"O-1,R,1,500,2027-03-01,5\r\n"
        other_size = b"O-2,R,1,500,2027-03-01,5\r\nO-1,R,1,501,2027-03-01,5\r\n"
        for case, told, status, wanted in [
            ("orders are imported", b"\xef\xbb\xbf" + head + row, 0, b'{"ok":5}\n'),
            ("orders are imported again", head + row, 0, b'{"ok":6}\n'),
            ("an order in quotes", head + b'"O-3","R",1,0000000000000500,2027-03-08,1\n', 0, b'{"ok":7}\n'),
            ("an order of another size is refused", head + other_size, 1, b'{"name":"OrderConflict","refused":16}\n'),
            ("a recipe has to be there", head + row.replace(b"R", b"S"), 1, b'{"name":"UnknownRecipe","refused":6}\n'),
            ("an order file has a header", b"", 1, b"csv row 0 Header\n"),
            ("a day is in the calendar", head + row.replace(b"03-01", b"02-29"), 1, b"csv row 1 Due\n"),
            ("a file without orders is imported", head, 0, b'{"ok":8}\n'),
        ]:
            self.check_run(case, ["import", "orders.db", "--at", "100", "--by", "anna"], (status, wanted, b""), told)

    def test_first_fault_of_an_order_file_is_told(self) -> None:
        head, row = ORDER_HEAD, b"O-1,CAKE,1,500,2027-03-01,5\r\n"
        mark, longest = b"\xef\xbb\xbf", 262_144
        for told, wanted in [
            (head, '{"ok":1}'),
            (b'\n\r\n"order",recipe,version,size,due,priority', '{"ok":1}'),
            (head + b"\n" * (longest - len(head)), '{"ok":1}'),
            (head + b"\n" * (longest - len(head) + 1), "csv row 0 TooLong"),
            (mark * 2 + head + row, "csv row 0 Header"),
            (head.replace(b",priority", b""), "csv row 0 Header"),
            (head.replace(b"priority", b" priority"), "csv row 0 Header"),
            (row, "csv row 0 Header"),
            (head + row + b"O-2,CAKE,1,500,2027-03-01\n", "csv row 2 Shape"),
            (head + b"o-2,CAKE,1,500,2027-03-01,5,6\n", "csv row 1 Shape"),
            (head + b"o-1,cake,0,0,2027-02-29,0\n", "csv row 1 Order"),
            (head + b"O-1,cake,0,0,2027-02-29,0\n", "csv row 1 Recipe"),
            (head + b"O-1,CAKE,0,0,2027-02-29,0\n", "csv row 1 Version"),
            (head + b"O-1,CAKE,1,1000000000000001,2027-02-29,0\n", "csv row 1 Size"),
            (head + b"O-1,CAKE,1,00000000000000500,2027-02-29,0\n", "csv row 1 Size"),
            (head + b"O-1,CAKE,1,+5,2027-02-29,0\n", "csv row 1 Size"),
            (head + b"O-1,CAKE,1,500,2027-03-01,10\n", "csv row 1 Priority"),
            (mark + head + row + b"O-2,CAKE,1,500,2027-02-29,0\n", "csv row 2 Due"),
            (head + row + b"O-2,CAKE,1,500,2100-01-01,5\n", "csv row 2 Due"),
            (head + row * 1000 + b"O-2\n", "csv row 1001 TooManyRows"),
        ]:
            ended = (int("ok" not in wanted), wanted.encode() + b"\n", b"")
            self.check_run(f"{wanted}: {told[:60]!r}", ["import", ":memory:", "--at", "100"], ended, told)


class Words(DeskTestCase):
    """What the words print over the file of a batch that was closed."""

    def test_words_print_traces_and_the_record(self) -> None:
        session, file = sessions.whole_batch(), "words.db"
        for words, wanted in [
            (["verify", file], good(0)),
            (["init", file], (0, b"ready schema 4\n", b"")),
            (["run", file], session.ended()),
            (["init", file], (0, b"ready schema 4\n", b"")),
            (["trace", file, "forward", "F-1"], (0, b"lot D-1\nbatch B-1\n", b"")),
            (["trace", file, "back", "D-1"], (0, b"lot F-1\nbatch B-1\n", b"")),
            (["trace", file, "forward", "F-9"], (1, b'{"name":"UnknownLot","refused":9}\n', b"")),
            (["record", file, "B-1"], (0, RECORD, b"")),
            (["record", file, "B-9"], (1, b'{"name":"UnknownBatch","refused":8}\n', b"")),
        ]:
            self.check_run(" ".join(words), words, wanted, session.told)


class References(DeskTestCase):
    """Commands under a reference."""

    def test_repeat_under_reference_acts_once_and_receipts_are_as_published(self) -> None:
        """Tells one desk a command of each kind, and another each twice under a reference: the receipts are as published, and all other tables
        are alike."""
        once, twice, receipts = Session("each word once"), Session("each word twice"), []
        for number, (body, content) in enumerate(EACH_COMMAND, 1):
            told = f'{{"at":{100 + number},"by":"anna",{body},"note":"{number}"'.encode()
            once.told += told + b"}\n"
            twice.told += 2 * (told + b',"ref":"K-%03d"}\n' % number)
            once.wanted += b'{"ok":%d}\n' % number
            twice.wanted += 2 * (b'{"ok":%d}\n' % number)
            lines = [str(100 + number), "anna", str(number), *content.replace(" ", "|", 1).split("|")]
            receipts.append((f"K-{number:03}", number, "".join(f"{it}\n" for it in lines)))
        found = {}
        for session in (once, twice):
            file = f"{session.name}.db"
            self.check_run(session.name, ["run", file], session.ended(), session.told)
            found[session.name] = {it: sqlite.rows(self.folder / file, f"SELECT * FROM {it} ORDER BY 1, 2") for it in sqlite.TABLES}
        self.check("receipts", found[twice.name].pop("receipt"), receipts)
        self.check("no receipts", found[once.name].pop("receipt"), [])
        self.check("other tables", found[twice.name], found[once.name])

    def test_repeat_under_reference_by_line_word_or_request_returns_same_number(self) -> None:
        """Gives one import under one reference by a line, by a word and by a request: it acts once, and any other one is refused."""
        file, head, row = "roads.db", ORDER_HEAD, b"O-0,R,1,1,2027-03-01,5\n"
        told = Session().accepted(*GOODS, add_recipe(1), approve()).told
        told += f'{{"at":100,"by":"anna",{import_orders(1)},"ref":"FILE-7"}}\n'.encode()
        self.check("by a line", self.desk.run("run", file, told=told).output.splitlines()[-1], b'{"ok":5}')
        words = ["import", file, "--at", "100", "--by", "anna", "--ref"]
        again, reused = b'{"ok":5}\n', b'{"name":"RefReused","refused":31}\n'
        self.check_run("by a word", [*words, "FILE-7"], (0, again, b""), head + row)
        self.check_run("by a word, another file", [*words, "FILE-7"], (1, reused, b""), head)
        self.check("by a word, no id", self.desk.run(*words, "file-7", told=head + row)[:2], (2, b""))
        with Server(self.desk, file, 4) as server:
            for case, fields, body, wanted in [
                ("by a request", b"Desk-Ref: FILE-7\r\n", head + row, (b"200", again[:-1])),
                ("by a request, another file", b"Desk-Ref: FILE-7\r\n", head, (b"409", reused[:-1])),
                ("by a request, no id", b"Desk-Ref: file-7\r\n", head + row, (b"400", b'{"status":400}')),
                ("by a request, twice", b"Desk-Ref: FILE-7\r\n" * 2, head + row, (b"400", b'{"status":400}')),
            ]:
                request = b"POST /v1/orders HTTP/1.1\r\nHost: a\r\nDesk-At: 100\r\nDesk-By: anna\r\n%sContent-Length: %d\r\n\r\n%s"
                answer = server.answered(request % (fields, len(body), body))
                self.check(case, (answer.split()[1], answer.partition(b"\r\n\r\n")[2]), wanted)


class Files(DeskTestCase):
    """The file of a desk: its schemas, its indexes, its size and its tables."""

    def test_older_schema_is_migrated_and_keeps_its_edges(self) -> None:
        session, file = sessions.whole_batch(), self.folder / "older.db"
        self.desk.run("run", file.name, told=session.told)
        edges = sqlite.edges(file)
        self.check("edges", edges, [(1, "F-1", "B-1"), (2, "B-1", "D-1")])
        sqlite.changed(file, sqlite.TO_SCHEMA_1)
        trace = (0, b"lot F-1\nbatch B-1\n", b"")
        self.check_run("a trace of the first schema", ["trace", file.name, "back", "D-1"], trace)
        self.check_verified("the first schema", file.name, session.count())
        self.check("edges that were raised", sqlite.edges(file), edges)

    def test_older_schema_of_five_million_commands_is_migrated_and_keeps_its_rows(self) -> None:
        """Raises the good desk from each older schema by a verification: its rows have small numbers, or the last of them great ones."""
        file = self.folder / "raised.db"
        self.desk.run("init", "first.db")
        sqlite.good_desk(self.folder / "first.db")
        for schema, (statements, lost) in OLDER.items():
            for case, more in [("small numbers", ""), ("great numbers", ROWS_TO_MANY)]:
                case = f"schema {schema}, {case}"
                shutil.copyfile(self.folder / "first.db", file)
                sqlite.changed(file, TO_MANY + more)
                wanted = {**rows_of_tables(file), **dict.fromkeys(lost, [])}
                sqlite.changed(file, statements)
                self.check(f"{case}, before", sqlite.rows(file, "SELECT * FROM meta"), [(1, schema, MANY, 300)])
                self.check_verified(case, file.name, MANY)
                self.check(f"{case}, its rows", rows_of_tables(file), wanted)
                command = line('"do":"add_class","class":"NEW","name":""', '"at":400,"by":""')
                self.check_run(f"{case}, the next command", ["run", file.name], (0, replies(MANY + 1, 1), b""), command)
                self.check_verified(f"{case}, behind that", file.name, MANY + 1)

    def test_desk_needs_no_index_and_makes_them_again(self) -> None:
        """Takes the indexes away: the file is as good, answers and accepts as before, and gets them again when it is opened, but for one whose
        name a view has by then. A recall blocks and frees a lot as before."""
        session, file = sessions.whole_batch(), self.folder / "plain.db"
        self.desk.run("run", file.name, told=session.told)
        made = sqlite.rows(file, "SELECT name, sql FROM sqlite_schema WHERE type = 'index' AND sql IS NOT NULL ORDER BY name")
        self.check("indexes", made, sorted((name, f"CREATE INDEX {name} ON {of}") for name, of in sqlite.INDEXES.items()))
        dropped = "".join(f"DROP INDEX {name};" for name in sqlite.INDEXES)
        sqlite.changed(file, dropped + "CREATE VIEW lot_by_def AS SELECT id FROM lot")
        more, last = self.recall_behind(session), session.count()
        self.check_verified("verified without an index", file.name, last)
        trace = (0, b"lot F-1\nbatch B-1\n", b"")
        self.check_run("traced without an index", ["trace", file.name, "back", "D-1"], trace)
        self.check_run("run without an index", ["run", file.name], (1, more.wanted, b""), more.told)
        self.check_verified("verified again", file.name, last + 4)
        made = sqlite.rows(file, "SELECT name FROM sqlite_schema WHERE type = 'index' AND sql IS NOT NULL ORDER BY name")
        self.check("indexes made again", [name for name, in made], sorted(set(sqlite.INDEXES) - {"lot_by_def"}))
        beside = sqlite.rows(file, "SELECT type, name FROM sqlite_schema WHERE name = 'lot_by_def'")
        self.check("what is in their way", beside, [("view", "lot_by_def")])

    @staticmethod
    def recall_behind(session: Session) -> Session:
        """Returns a session behind another, in which a scrap, a recall, a split and a lift of the recall are told."""
        more = Session(wanted=session.wanted).accepted(scrap("D-1", 1), recall("F-1"))
        more.refused("Recalled", 32, split("D-1", 1, "D-2")).accepted(lift(), split("D-1", 1, "D-2"))
        return Session(told=more.told.replace(b'"at":100', b'"at":400'), wanted=more.wanted[len(session.wanted):])

    def test_commands_are_numbered_up_to_their_limit(self) -> None:
        file = self.folder / "numbers.db"
        self.desk.run("init", file.name)
        sqlite.changed(file, "UPDATE meta SET seq = 999999999999999")
        session = Session(told=http.COMMAND + b"\n", wanted=b'{"ok":1000000000000000}\n')
        session.refused("TooMany", 28, '"do":"add_class","class":"WIP","name":""')
        session.asked('{"ask":"desk"}', '{"schema":4,"seq":1000000000000000}')
        self.check_run("the last number", ["run", file.name], session.ended(), session.told)

    def test_desk_of_70000_movements_is_adopted(self) -> None:
        """Writes the rows of a desk of which each lot was received once and scrapped nine times."""
        file, lots, at = self.folder / "large.db", range(7000), 100
        self.desk.run("run", file.name, told=Session().accepted(*GOODS).told)
        [(seq,)] = sqlite.rows(file, "SELECT seq FROM meta")
        with sqlite.opened(file) as store:
            store.executemany("INSERT INTO lot VALUES (?, 'SUGAR')", ((f"L-{it}",) for it in lots))
            store.executemany("INSERT INTO sublot VALUES (?, 0, 'A1', 91)", ((f"L-{it}",) for it in lots))
            store.executemany(
                "INSERT INTO movement VALUES (?, 1, ?, ?, 0, NULL, NULL, NULL, ?, 100, '', '')",
                ((seq + 10 * lot + it + 1, 4 if it else 1, f"L-{lot}", 1 if it else 100) for lot in lots for it in range(10)),
            )
            store.execute("UPDATE meta SET seq = ?, at = ?", (seq + 10 * len(lots), at))
        self.check_verified("a desk of 70,000 movements", file.name, seq + 10 * len(lots))
        question = b'{"ask":"lot","lot":"L-6999"}\n'
        answer = b'{"def":"SUGAR","held":false,"lot":"L-6999","stock":91,"sublots":[{"no":0,"place":"A1","stock":91}]}\n'
        self.check_run("its last lot", ["run", file.name], (0, answer, b""), question)

    def test_tables_are_as_published(self) -> None:
        file = self.folder / "tables.db"
        self.desk.run("init", file.name)
        with sqlite.opened(file) as store:
            names = [it for it, in store.execute("SELECT name FROM sqlite_master WHERE type = 'table'")]
            self.check("tables", sorted(names), sorted(sqlite.TABLES))
            for name, (columns, keys) in sqlite.TABLES.items():
                found = [sqlite.column_told(it) for it in store.execute(f'PRAGMA table_info("{name}")')]
                self.check(f"columns of {name}", found, columns.split())
                unique = [it for _, it, is_unique, *_ in store.execute(f'PRAGMA index_list("{name}")') if is_unique]
                members = [store.execute(f'PRAGMA index_info("{it}")').fetchall() for it in unique]
                self.check(f"keys of {name}", sorted(" ".join(column for *_, column in it) for it in members), sorted(keys))
            self.check("integrity", store.execute("PRAGMA integrity_check").fetchall(), [("ok",)])


class BrokenConnections(DeskTestCase):
    """Connections that break while the desk serves."""

    def test_next_client_is_answered_behind_a_broken_connection(self) -> None:
        """Breaks off connections in each way, and asks after each where the desk stands, which no such request has changed."""
        broken = [
            ("without a byte", b""),
            ("within its head", ASK[:9]),
            ("within its body", POST[:-9]),
            ("within its body, which is none", POST[:-59]),
        ]
        with Server(self.desk, "breaks.db", 1 + 4 * len(broken) + 3) as server:
            self.check("a server answers", server.answered(ASK), NEW)
            for place, sent in broken:
                for is_reset in (False, True):
                    with connected(server.port) as it:
                        it.sendall(sent)
                        http.closed(it, is_reset)
                    how = "reset" if is_reset else "closed"
                    self.check(f"a connection {how} {place}", server.answered(ASK), NEW)
            self.lose_an_answer(server.port)
            self.check("the server ends", server.end(), http.WELL)

    def lose_an_answer(self, port: int) -> None:
        """Resets a connection whose whole command has come, while the server waits for the request of another. The command may be
        kept or not, by what the system keeps of such a connection; the other client and the next one are answered, and no command is lost
        that the first of them was answered."""
        kept = http.desk_answer(1)
        with connected(port) as slow:
            slow.sendall(ASK[:-1])
            with connected(port) as it:
                it.sendall(POST)
                http.closed(it, True)
            slow.sendall(ASK[-1:])
            first = rest_of(slow)
        self.check_true("a slow client, and one behind a lost answer", (first, answered(port, ASK)) in [(NEW, NEW), (NEW, kept), (kept, kept)])
