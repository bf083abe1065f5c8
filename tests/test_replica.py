"""Desks on several machines (examples/replica): the log and its nodes without etcd, the gateway, and three members, desks and gateways that are killed.

Without etcd the log is in memory and is asked as etcd is, and nodes are threads of the test; the desks are real ones. With etcd all are processes of
their own. What is killed, and when, comes of the seed; how the machine runs the processes doesn't.
"""
from __future__ import annotations

import collections
import concurrent.futures
import contextlib
import io
import itertools
import json
import pathlib
import random
import shutil
import socket
import threading
import time
import unittest
from collections.abc import Mapping
from typing import Any
from unittest import mock

from tests.support import replica
from tests.support.cases import CountedTestCase, DeskTestCase
from tests.support.http import Server, free_port
from tests.support.program import SECONDS
from tests.support.replica import AT, PLANT, Answered, Asked, Cluster, FakeEtcd, Machine, Members, command
from tests.support.sqlite import rows
from tests.test_backup import tables_of

import desk_replica  # isort: skip  (tests.support.replica has put its folder on the path)
import replica_etcd  # isort: skip
import replica_node  # isort: skip
from replica_etcd import EtcdLog  # isort: skip
from replica_node import COMMANDS, ORDERS, Desk, Entry, Halt, Journal, Node, Outcome, Reply  # isort: skip

# How many commands a run has, how many runs there are at most, and after how many seconds none is begun any more.
COMMANDS_A_RUN, RUNS, MOST_SECONDS = 300, 20, 75


def order_file(order: str) -> bytes:
    """An order file whose recipe no desk here has."""
    return f"order,recipe,version,size,due,priority\n{order},NONE,1,1,2027-03-01,1\n".encode()


class Entries(CountedTestCase):
    """Entries, and how they are put into a log."""

    def test_own_reference_is_added_before_the_client_s_members(self) -> None:
        for body, wanted in [
            (b'{"at":1}', b'{"ref":"LOG-A-1","at":1}'), (b' {"at":1,"ref":"X"}', b' {"ref":"LOG-A-1","at":1,"ref":"X"}'), (b"{ }", b'{"ref":"LOG-A-1" }'),
        ]:
            self.check(body, Entry("A-1", COMMANDS, {}, body).request(), (wanted, {}))
        self.check("an order file", Entry("A-1", ORDERS, {"Desk-At": "7"}, b"x").request(), (b"x", {"Desk-Ref": "LOG-A-1", "Desk-At": "7"}))
        own = Entry("A-1", ORDERS, {"Desk-Ref": "X"}, b"x")
        self.check("an order file with its own", (own.request(), own.reference()), ((b"x", {"Desk-Ref": "X"}), "X"))
        for body, wanted, reference in [(b'{"at":1}', b'{"ref":"X","at":1}', "X"), (b'{"ref":"Y"}', b'{"ref":"X","ref":"Y"}', "Y")]:
            told = Entry("A-1", COMMANDS, {"Desk-Ref": "X"}, body)
            self.check(f"{body!r} with one in the head", (told.request(), told.reference()), ((wanted, {}), reference))

    def test_reference_is_the_last_of_equal_members(self) -> None:
        for body, wanted in [
            (b"{}", "LOG-A-1"), (b'{"ref":"X"}', "X"), (b'{"ref":"X","r\\u0065f":"Y"}', "Y"), (b'{"ref":1}', "LOG-A-1"), (b"[", "LOG-A-1"), (b"[]", "LOG-A-1"),
        ]:
            self.check(body, Entry("A-1", COMMANDS, {}, body).reference(), wanted)

    def test_packed_entry_is_the_entry(self) -> None:
        for body in (b"", b"{}", b"a\nb\n", bytes(range(256))):
            entry = Entry("A-1", ORDERS, {"Desk-By": "\u00e4"}, body)
            self.check(body, Entry.unpacked(entry.packed()), entry)

    def appended(self, etcd: FakeEtcd) -> list[str]:
        """Has three logs append 60 entries each, one to four at once, and returns the ids of what is there in the end."""
        logs = [EtcdLog(etcd, PLANT) for _ in range(3)]
        logs[0].found(Outcome(0, "-", "-"))

        def append(number: int) -> None:
            made = [Entry(f"{number}-{it}", COMMANDS, {}, b"{}") for it in range(60)]
            chance = random.Random(number)
            while made:
                count = chance.randrange(1, 5)
                first = logs[number].append(made[:count])
                found = [it.id for _, it in logs[number].read(first, min(count, len(made)))]
                self.check(f"what is at {first}", found, [it.id for it in made[:count]])
                made = made[count:]

        threads = [threading.Thread(target=append, args=(it,)) for it in range(3)]
        for it in threads:
            it.start()
        for it in threads:
            it.join()
        found = logs[0].read(1, 1000)
        self.check("their numbers", [it for it, _ in found], list(range(1, len(found) + 1)))
        return [it.id for _, it in found]

    def test_each_entry_is_appended_once_whatever_is_lost_or_late(self) -> None:
        chance = self.chance("appends")
        for number in range(5):
            with mock.patch.object(replica_etcd, "AGAIN", 0.001):
                found = self.appended(FakeEtcd(random.Random(chance.random())))
            self.check(f"log {number}", sorted(found), sorted(f"{it}-{at}" for it in range(3) for at in range(60)))

    def test_another_number_after_a_lost_answer_is_caught(self) -> None:
        """The test above sees it where an append that wasn't answered goes on to the next number."""
        chance, whole = self.chance("wrong appends"), EtcdLog.put_after

        def next_number(log: EtcdLog, number: int, entries: Any) -> Any:
            answer = whole(log, number, entries)
            return answer if answer is not None else whole(log, log.newest(float("inf")) + 1, entries)

        with mock.patch.object(EtcdLog, "put_after", next_number), mock.patch.object(replica_etcd, "AGAIN", 0.001):
            log = EtcdLog(FakeEtcd(random.Random(chance.random())), PLANT)
            log.found(Outcome(0, "-", "-"))
            for number in range(200):
                log.append([Entry(f"1-{number}", COMMANDS, {}, b"{}")])
            found = collections.Counter(it.id for _, it in log.read(1, 1000))
        self.check_true(f"entries that are there twice: {found.most_common(1)}", found.most_common(1)[0][1] > 1)


class MachinesTestCase(DeskTestCase):
    """A test case over machines and a log in memory."""

    IN_MEMORY = True

    def setUp(self) -> None:
        super().setUp()
        self.etcd = FakeEtcd()
        self.log = EtcdLog(self.etcd, PLANT)
        self.machines: list[Machine] = []
        self.copies = itertools.count()

    def machine(self, name: str) -> Machine:
        """A machine that is stopped after the test."""
        made = Machine(self.desk, self.folder, name, self.etcd)
        self.machines.append(made)
        self.addCleanup(made.stop)
        return made

    def started(self, count: int) -> list[Machine]:
        """Machines that are started over a new log, with a class and a definition."""
        self.log.found(Outcome(0, "-", "-"))
        made = [self.machine(f"n{it}") for it in range(count)]
        for it in made:
            it.start()
        self.check("a class", made[0].book("add_class", class_="RAW", name=""), (200, {"ok": 1}))
        self.check("a definition", made[-1].book("add_definition", def_="FLOUR", class_="RAW", name="", unit="kg"), (200, {"ok": 2}))
        return made

    def level(self, *machines: Machine) -> None:
        """Waits until these have all entries, and have published them."""
        newest = self.log.newest(float("inf"))
        for it in machines:
            it.wait_for(lambda node: node.index == newest and self.log.published(node.name) == newest)

    def typed(self, *words: str) -> tuple[int, str]:
        """The status of the gateway's program over this log, and what it says."""
        said = io.StringIO()
        with mock.patch.object(desk_replica, "log_of", lambda _: self.log), contextlib.redirect_stdout(said), contextlib.redirect_stderr(said):
            return desk_replica.main([*words, "--etcd", "http://memory:1"]), said.getvalue()

    def copy(self, machine: Machine) -> pathlib.Path:
        """Copies the desk of a machine, which is stopped meanwhile."""
        self.level(machine)
        machine.stop()
        copy = machine.copy(self.folder / f"copy{next(self.copies)}.db")
        machine.start()
        return copy

    def check_equal(self, *machines: Machine) -> None:
        """Checks that the desks have equal tables, each reference once."""
        self.level(*machines)
        digests = [it.digest() for it in machines]
        self.check("the digests", digests, digests[:1] * len(machines))
        found = []
        for it in machines:
            it.kill_desk()
            self.desk.run("verify", it.file)
            found.append(tables_of(it.file))
            it.start_desk()
        for machine, tables in zip(machines, found):
            self.check_true(f"the tables of {machine.name} are those of {machines[0].name}", tables == found[0])
        self.check_true("something is there", found[0]["receipt"])

    def check_halts(self, machine: Machine, why: str) -> None:
        """Checks that the node ends, and why."""
        try:
            if machine.node is None:
                machine.start_node()
            machine.wait_for(lambda node: node.halted is not None)
            found = str(machine.node and machine.node.halted)
        except Halt as halt:
            found = str(halt)
            machine.node = None
        self.check_true(f"{why!r} in {found!r}", why in found)

    def refused_between(self, machines: list[Machine]) -> None:
        """Books so that splits are refused that would be accepted later."""
        for number in range(3):
            at = machines[number % len(machines)]
            self.check("a lot", at.book("receive", lot=f"L-{number}", def_="FLOUR", amount=10, place="A")[0], 200)
            self.check("a split that is too much now", at.book("split", lot="L-0", sub=0, amount=7, new=f"S-{number}", place="B")[0], 409 if number else 200)
            self.check("another one", at.book("split", lot="N-1", sub=0, amount=7, new=f"T-{number}", place="B")[0], 409)


class Nodes(MachinesTestCase):
    """Nodes that are stopped, and desks that are put back, are new, or are others'."""

    def test_commands_go_to_all_desks_and_act_once(self) -> None:
        first, second, third = self.started(3)
        self.check("a lot", first.book("receive", lot="L-1", def_="FLOUR", amount=10, place="A", ref="R-1"), (200, {"ok": 3}))
        self.check("again elsewhere", second.book("receive", lot="L-1", def_="FLOUR", amount=10, place="A", ref="R-1"), (200, {"ok": 3}))
        self.check("other content", third.book("receive", lot="L-2", def_="FLOUR", amount=10, place="A", ref="R-1"), (409, {"name": "RefReused", "refused": 31}))
        self.check("without a reference", third.book("scrap", lot="L-1", sub=0, amount=1), (200, {"ok": 4}))
        self.check("again", third.book("scrap", lot="L-1", sub=0, amount=1), (200, {"ok": 5}))
        self.check("too much", third.book("scrap", lot="L-1", sub=0, amount=9), (409, {"name": "TooLittle", "refused": 13}))
        self.check_equal(first, second, third)
        receipts = rows(self.copy(first), "SELECT id, seq FROM receipt ORDER BY seq")
        self.check("the numbers of the receipts", [it for _, it in receipts], [1, 2, 3, 4, 5])
        self.check_true("the references that the log gives", all(it.startswith("LOG-") for it, seq in receipts if seq != 3))

    def test_desk_that_was_put_back_goes_on_after_the_entry_of_its_seq(self) -> None:
        machines = self.started(2)
        first, second = machines
        early = self.copy(first)
        self.refused_between(machines)
        late = self.copy(first)
        self.check("a lot that makes the splits good", second.book("receive", lot="N-1", def_="FLOUR", amount=100, place="A")[0], 200)
        self.check("and more of it", second.book("receive", lot="N-2", def_="FLOUR", amount=100, place="A")[0], 200)
        self.level(*machines)
        for case, copy, keeps in (("with its journal", early, True), ("without", early, False), ("late", late, True), ("late, without", late, False)):
            first.stop()
            first.put_back(copy)
            if not keeps:
                first.journal.unlink()
            self.check(f"{case}: a booking meanwhile", second.book("hold", lot="L-1", hold=f"H-{case[:4].upper()}-{keeps}".upper())[0], 200)
            first.start()
            self.check_equal(first, second)

    def test_replay_from_an_older_entry_is_caught(self) -> None:
        """The test above would see it where a desk goes on after an older entry than that of its seq."""
        machines = self.started(2)
        first, second = machines
        self.check("a split that is refused", second.book("split", lot="N-1", sub=0, amount=7, new="T-1", place="B")[0], 409)
        self.check("a lot that makes it good", second.book("receive", lot="N-1", def_="FLOUR", amount=100, place="A")[0], 200)
        late = self.copy(first)
        self.check("one command more", second.book("hold", lot="N-1", hold="H-1")[0], 200)
        self.level(*machines)
        first.stop()
        first.put_back(late)
        first.journal.unlink()
        first.start_desk()
        with mock.patch.object(Node, "published_place", lambda *_: (2, Outcome(3, first_reference(late, 3), "-"))):
            self.check_halts(first, "at another")

    def test_desk_that_is_put_back_under_a_running_node_is_found_at_the_next_entry(self) -> None:
        machines = self.started(2)
        first, second = machines
        early = self.copy(first)
        self.refused_between(machines)
        self.level(*machines)
        first.kill_desk()
        first.put_back(early)
        first.start_desk()
        self.check("a booking at the other", second.book("hold", lot="L-1", hold="H-1")[0], 200)
        self.check("a booking here", first.book("unhold", lot="L-1", hold="H-1")[0], 200)
        self.check_equal(first, second)
        self.check_true("that it is said", any("goes on after entry" in it for it in first.said))

    def test_desk_that_is_newer_than_its_journal_goes_on_where_it_is(self) -> None:
        machines = self.started(2)
        first, second = machines
        first.stop()
        shutil.copyfile(first.journal, self.folder / "older")
        first.start()
        self.refused_between(machines)
        self.level(*machines)
        first.stop()
        for it in self.folder.glob(f"{first.name}.journal*"):
            it.unlink()
        shutil.copyfile(self.folder / "older", first.journal)
        first.start()
        self.check("a booking", first.book("hold", lot="L-1", hold="H-1")[0], 200)
        self.check_equal(first, second)

    def test_entry_in_doubt_acts_once(self) -> None:
        """The desk has executed an entry, and the node stopped before it noted that."""
        [first, second] = self.started(2)
        self.level(first, second)
        first.stop_node()
        self.check("a booking", second.book("receive", lot="L-1", def_="FLOUR", amount=10, place="A")[0], 200)
        entry = self.log.read(3, 1)[0][1]
        self.check("what the desk answers it", Desk(first.port).give(entry, 2), mock.ANY)
        first.start_node()
        self.check("the next one", first.book("scrap", lot="L-1", sub=0, amount=1), (200, {"ok": 4}))
        self.check_equal(first, second)

    def test_node_waits_for_what_a_killed_one_left_with_the_desk(self) -> None:
        """A request that reached the desk in part before the node was killed may be executed after questions that come later."""
        [first, second] = self.started(2)
        self.level(first, second)
        first.stop_node()
        body = command("receive", lot="L-1", def_="FLOUR", amount=10, place="A", ref="R-1")
        with socket.create_connection(("127.0.0.1", first.port)) as left:
            left.sendall(b"POST /v1/commands HTTP/1.1\r\nHost: a\r\nContent-Length: %d\r\n\r\n" % len(body) + body[:-1])
            thread = threading.Thread(target=first.start_node)
            thread.start()
            time.sleep(0.5)
            self.check("that the node waits", (thread.is_alive(), first.node and first.node.is_ready), (True, False))
            self.check("the entry at the other", second.book("receive", lot="L-1", def_="FLOUR", amount=10, place="A", ref="R-1"), (200, {"ok": 3}))
            left.sendall(body[-1:])
            thread.join()
        self.check("the next one", first.book("scrap", lot="L-1", sub=0, amount=1), (200, {"ok": 4}))
        self.check_equal(first, second)

    def test_cut_log_takes_a_new_machine_and_no_old_desk(self) -> None:
        machines = self.started(2)
        first, second = machines
        early = self.copy(first)
        for number in range(6):
            self.check("a class", machines[number % 2].book("add_class", class_=f"C-{number}", name="")[0], 200)
            self.check("a refusal", machines[number % 2].book("add_class", class_=f"C-{number}", name="")[0], 409)
        self.level(*machines)
        copy = self.copy(second)
        newest = self.log.newest(0)
        self.check("the nodes", self.typed("nodes"), (0, f"the log {self.log.name()} {newest}\nn0 {newest}\nn1 {newest}\n"))
        self.check("nothing is cut", self.typed("trim"), (0, "the log begins after entry 0\n"))
        self.check("where the log begins", self.typed("trim", "--keep", "0"), (0, f"the log begins after entry {newest}\n"))
        self.check("a booking", second.book("add_class", class_="D-1", name="")[0], 200)
        third = self.machine("n2")
        third.put_back(copy)
        third.start()
        self.check("a booking at the new one", third.book("add_class", class_="D-2", name="")[0], 200)
        self.check_equal(first, second, third)
        for name, desk in (("n3", None), ("n4", early)):
            old = self.machine(name)
            if desk:
                old.put_back(desk)
            old.start_desk()
            self.check_halts(old, "put a newer backup in its place")
        self.check("the nodes", set(self.log.nodes()), {"n0", "n1", "n2"})
        self.check("dropping one", self.typed("drop", "n2"), (0, ""))
        self.check("without one", set(self.log.nodes()), {"n0", "n1"})

    def test_log_may_begin_from_a_desk_that_has_commands(self) -> None:
        made = [self.machine(f"n{it}") for it in range(2)]
        self.desk.run("run", made[0].file, told=command("add_class", class_="RAW", name="") + b"\n" + command("add_class", class_="C", name="", ref="R-9") + b"\n")
        made[1].put_back(made[0].file)
        made[0].start_desk()
        status, said = self.typed("found", "--desk", str(made[0].port))
        name = self.log.name()
        self.check("the first time", (status, said), (0, f"log {name} begins after command 2\n"))
        self.check("a second time", self.typed("found", "--desk", str(made[0].port)), (5, f"desk_replica: there is a log of this plant, {name}\n"))
        made[0].start_node()
        made[1].start()
        self.check("the next command", made[1].book("add_class", class_="D", name=""), (200, {"ok": 3}))
        self.check_equal(*made)
        other = self.machine("n2")
        self.desk.run("run", other.file, told=command("add_class", class_="X", name="") + b"\n" + command("add_class", class_="Y", name="", ref="R-8") + b"\n")
        other.start_desk()
        self.check_halts(other, "isn't that of entry 0")

    def test_desk_at_which_something_else_books_is_left(self) -> None:
        first, second = self.started(2)
        self.level(first, second)
        self.check("a foreign booking", Asked(first.port).ask("POST", COMMANDS, command("add_class", class_="X", name=""))[0], 200)
        self.check("a booking at the other", second.book("add_class", class_="Y", name=""), (200, {"ok": 3}))
        self.check_halts(first, "something else books at this desk")
        self.check("the other goes on", second.book("add_class", class_="Z", name=""), (200, {"ok": 4}))

    def test_entry_is_kept_off_where_something_else_booked_after_the_question(self) -> None:
        """A booking past the node, between its question for the desk's number and the entry: the entry isn't executed at another number."""
        [first, second] = self.started(2)
        self.level(first, second)
        give, foreign = Desk.give, command("add_class", class_="X", name="")

        def late(desk: Desk, entry: Entry, seq: int) -> Reply | None:
            if desk.port == first.port and seq == 2:
                Asked(first.port).ask("POST", COMMANDS, foreign)
            return give(desk, entry, seq)

        with mock.patch.object(Desk, "give", late):
            self.check("a booking", second.book("receive", lot="L-1", def_="FLOUR", amount=10, place="A")[0], 200)
            self.check_halts(first, "something else books at this desk")
        self.check("the lot", Asked(first.port).ask("GET", "/v1/lots/L-1")[0], 404)
        self.check("the desk", Asked(first.port).ask("GET", "/v1/desk"), (200, b'{"schema":4,"seq":3}'))

    def test_desks_that_part_are_found(self) -> None:
        first, second = self.started(2)
        self.level(first, second)
        second.stop_node()
        with mock.patch.object(Reply, "digest", lambda _: "another"):
            self.check("a booking", first.book("add_class", class_="Y", name=""), (200, {"ok": 3}))
            self.level(first)
        self.check_halts(second, "at another")

    def test_journal_is_of_one_log_and_one_gateway(self) -> None:
        [first] = self.started(1)
        with self.assertRaises(Halt) as raised:
            Journal(first.journal)
        self.check_true(raised.exception, "does another gateway use this journal?" in str(raised.exception))
        first.stop_node()
        self.etcd.pairs.clear()
        with self.assertRaises(Halt) as raised:
            first.start_node()
        self.check_true(raised.exception, "no log of this plant yet" in str(raised.exception))
        self.log.found(Outcome(0, "-", "-"))
        self.check_halts(first, "the journal is of log")

    def test_desk_that_looks_at_the_clock_is_refused(self) -> None:
        self.log.found(Outcome(0, "-", "-"))
        machine = self.machine("n0")
        machine.server = Server(self.desk, machine.file, 100, "--page", port=machine.port)
        self.check_halts(machine, "--ahead 0")
        machine.kill_desk()
        machine.server = Server(self.desk, machine.file, 100, "--page", "--ahead", "0", port=machine.port)
        machine.start_node()
        self.check("a booking", machine.book("add_class", class_="A", name=""), (200, {"ok": 1}))

    def test_large_order_files_are_put_into_the_log_in_parts(self) -> None:
        """Nine of the largest at once are more than etcd takes at once."""
        [first] = self.started(1)
        bodies = [order_file(f"O-{it}").ljust(desk_replica.LARGEST, b"x") for it in range(9)]

        def status(body: bytes) -> int | None:
            reply = first.node and first.node.replicate(ORDERS, {"Desk-At": str(AT)}, body, SECONDS)
            return reply.status if reply else None

        with concurrent.futures.ThreadPoolExecutor(len(bodies)) as pool:
            found = list(pool.map(status, bodies))
        self.check_true(f"{found}, {first.said}", set(found) <= {400, 409})
        self.check("how many entries there are", self.log.newest(0), 2 + len(bodies))

    def test_old_lines_of_the_journal_are_taken_away(self) -> None:
        with mock.patch.object(replica_node, "KEPT", 5):
            journal = Journal(self.folder / "journal")
            for number in range(1, 21):
                journal.add("LOG", number, Outcome(number // 2, f"R-{number // 2}", "x"))
        self.check("what is left", [it for it, _ in journal.after(0)], [16, 17, 18, 19, 20])
        self.check("by seq", journal.of_seq(9), (18, Outcome(9, "R-9", "x")))
        journal.move("LOG", 18, Outcome(9, "R-9", "-"))
        self.check("after a move", (journal.log(), journal.last()), ("LOG", (18, Outcome(9, "R-9", "-"))))
        journal.close()

    def test_lost_answers_of_the_log_and_of_desks_part_nothing(self) -> None:
        """Three machines and many lost or late answers, with nodes that are stopped and desks that are killed between."""
        chance = self.chance("lost answers")
        self.etcd.chance = random.Random(chance.random())
        machines = [self.machine(f"n{it}") for it in range(3)]
        self.log.found(Outcome(0, "-", "-"))
        for it in machines:
            it.chance = random.Random(chance.random())
            it.start()
        sent = replica.commands(chance, 150)
        for at in range(0, len(sent), 15):
            replies = [(machine, it) for machine, it in ((chance.choice(machines), it) for it in sent[at:at + 15])]
            for machine, body in replies:
                reply = machine.node and machine.node.replicate(COMMANDS, {}, body, SECONDS)
                self.check_true(f"{body!r}: {reply}, {machine.said}", reply and reply.status in (200, 400, 409))
            again = chance.choice(machines)
            again.stop_node()
            if chance.random() < 0.5:
                again.kill_desk()
                again.start_desk()
            again.start_node()
        self.check_equal(*machines)
        self.check("how many entries there are", self.log.newest(0), len(sent))


def first_reference(file: pathlib.Path, seq: int) -> str:
    """The reference of the command with this number, in a desk that isn't served."""
    found: str = rows(file, f"SELECT id FROM receipt WHERE seq = {seq}")[0][0]
    return found


class Gateways(MachinesTestCase):
    """The gateway's port: what it passes on, what it puts into the log, and what it refuses by itself."""

    def setUp(self) -> None:
        super().setUp()
        self.log.found(Outcome(0, "-", "-"))
        self.one = self.machine("n0")
        self.one.start()
        assert self.one.node
        self.handler: type[desk_replica.Handler] = desk_replica.Handler
        self.handler.node, self.handler.rules = self.one.node, desk_replica.Rules(["desk.example.org"], 300, None)
        self.server = desk_replica.Server(("127.0.0.1", free_port()), self.handler)
        thread = threading.Thread(target=self.server.serve_forever, args=(0.01,))
        thread.start()
        self.addCleanup(thread.join)
        self.addCleanup(self.server.server_close)
        self.addCleanup(self.server.shutdown)
        self.port = int(self.server.server_address[1])

    def told(self, method: str, path: str, body: bytes | None = None, fields: Mapping[str, str] | None = None) -> tuple[int | None, Any]:
        """The status and the body of an answer."""
        status, text = Asked(self.port).ask(method, path, body, fields)
        return status, json.loads(text) if text[:1] in b"{[" and text else text

    def test_commands_imports_and_questions_are_answered_as_by_a_desk(self) -> None:
        self.check("a command", self.told("POST", COMMANDS, command("add_class", class_="RAW", name="")), (200, {"ok": 1}))
        self.check("a refusal", self.told("POST", COMMANDS, command("add_class", class_="RAW", name="")), (409, {"name": "Exists", "refused": 3}))
        self.check("a wrong form", self.told("POST", COMMANDS, b'{"at":1}'), (400, {"name": "BadForm", "refused": 1}))
        self.check("a question", self.told("GET", "/v1/desk"), (200, {"schema": 4, "seq": 1}))
        self.check("a check", self.told("POST", "/v1/check", command("add_class", class_="C", name="")), (200, {"accepted": True}))
        self.check("no such path", self.told("GET", "/v1/none"), (404, {"status": 404}))
        self.check("a head", self.told("HEAD", "/v1/desk"), (200, b""))
        self.check("an import", self.told("POST", ORDERS, order_file("O-1"), {"Desk-At": "1000"}), (409, {"name": "UnknownRecipe", "refused": 6}))
        self.check("an import without a moment", self.told("POST", ORDERS, order_file("O-1")), (400, {"status": 400}))
        self.check("a wrong import", self.told("POST", ORDERS, b"x", {"Desk-At": "1000"})[0], 400)
        self.check("the node", self.told("GET", "/replica"), (200, {"index": 6, "log": self.log.name(), "name": "n0", "ready": True, "seq": 1}))

    def test_what_cannot_be_an_entry_is_refused_and_not_put_into_the_log(self) -> None:
        ahead = command("add_class", class_="A", name="").replace(b'"at": %d' % AT, b'"at": %d' % (time.time() + 1000))
        form, bare = {"name": "BadForm", "refused": 1}, {"status": 400}
        cases: list[tuple[str, str, bytes, dict[str, str], int, Any]] = [
            ("no JSON", COMMANDS, b"{", {}, 400, form), ("no object", COMMANDS, b"[]", {}, 400, form), ("no text", COMMANDS, b'{"at":"\xff"}', {}, 400, form),
            ("UTF-16", COMMANDS, "{}".encode("utf-16"), {}, 400, form), ("a deep one", COMMANDS, b"[" * 100_000, {}, 400, form),
            ("one of the log's references", COMMANDS, b'{"ref":"LOG-1"}', {}, 400, bare), ("the same, escaped", COMMANDS, b'{"r\\u0065f":"L\\u004fG-1"}', {}, 400, bare),
            ("one in the head", ORDERS, order_file("O-1"), {"Desk-At": "7", "Desk-Ref": " LOG-1"}, 400, bare),
            ("one in the head of a command", COMMANDS, b"{}", {"Desk-Ref": "LOG-1"}, 400, bare), ("no reference", COMMANDS, b"{}", {"Desk-Ref": "x"}, 400, bare),
            ("a number", COMMANDS, b"{}", {"Desk-Seq": "0"}, 400, bare), ("an import's", ORDERS, order_file("O-1"), {"Desk-At": "7", "Desk-Seq": "0"}, 400, bare),
            ("too large", COMMANDS, b" " * (desk_replica.LARGEST - desk_replica.ROOM + 1), {}, 413, {"status": 413}),
            ("another site's page", COMMANDS, b"{}", {"Origin": "http://elsewhere"}, 403, {"status": 403}),
            ("another host", COMMANDS, b"{}", {"Host": "elsewhere"}, 403, {"status": 403}),
            ("in chunks", COMMANDS, b"", {"Transfer-Encoding": "chunked"}, 501, {"status": 501}),
            ("ahead of the clock", COMMANDS, ahead, {}, 400, {"ahead": 300, "status": 400}),
            ("an import ahead", ORDERS, order_file("O-1"), {"Desk-At": str(int(time.time() + 1000))}, 400, {"ahead": 300, "status": 400}),
        ]
        for case, path, body, fields, status, told in cases:
            self.check(case, self.told("POST", path, body, fields), (status, told))
        self.check("the log", self.log.newest(0), 0)

    def test_own_pages_and_hosts_are_allowed(self) -> None:
        for fields in ({"Origin": f"http://127.0.0.1:{self.port}"}, {"Host": "desk.example.org", "Origin": "https://desk.example.org"}, {"Host": "localhost:8080"}):
            self.check(fields, self.told("GET", "/v1/desk", None, fields)[0], 200)
        for fields in ({"Host": "desk.example.org", "Origin": "https://127.0.0.1"}, {"Host": "127.0.0.1", "Origin": "https://127.0.0.1"}, {"Host": "a:80:80"}):
            self.check(fields, self.told("GET", "/v1/desk", None, fields)[0], 403)

    def test_operator_is_the_proxy_s(self) -> None:
        self.handler.rules = desk_replica.Rules([], 300, "X-Operator")
        for name, operator, status in (("X", "anna", 403), ("X-Operator", "ben", 403), ("X-Operator", "", 403), ("x-operator", "anna", 200)):
            self.check(operator, self.told("POST", COMMANDS, command("add_class", class_="RAW", name=""), {name: operator})[0], status)
        self.check("whom the head names", self.told("GET", "/v1/operator", None, {"X-Operator": "j\u00fcrgen".encode().decode("latin-1")}), (200, {"operator": "j\u00fcrgen"}))
        self.check("an import", self.told("POST", ORDERS, order_file("O-1"), {"Desk-At": "1000", "Desk-By": "ben", "X-Operator": "anna"}), (403, {"status": 403}))

    def test_fresh_question_waits_for_the_log(self) -> None:
        node = self.one.node
        assert node
        self.check("a class", self.one.book("add_class", class_="RAW", name="")[0], 200)
        self.one.kill_desk()
        self.log.append([Entry("X-1", COMMANDS, {}, command("add_class", class_="C-1", name=""))])
        threading.Timer(0.3, self.one.start_desk).start()
        self.check("a fresh question", self.told("GET", "/v1/desk", None, {"Desk-Fresh": "yes"}), (200, {"schema": 4, "seq": 2}))
        self.one.kill_desk()
        self.check("a desk that is gone", self.told("GET", "/v1/desk"), (502, {"status": 502}))
        self.log.append([Entry("X-2", COMMANDS, {}, command("add_class", class_="C-2", name=""))])
        with mock.patch.object(desk_replica, "FRESH_SECONDS", 0.2), mock.patch.object(desk_replica, "COMMAND_SECONDS", 0.2):
            self.check("no fresh one", self.told("GET", "/v1/desk", None, {"Desk-Fresh": "yes"}), (503, {"status": 503}))
            self.check("no reply", self.told("POST", COMMANDS, command("add_class", class_="C-3", name="")), (503, {"status": 503}))
        self.one.start_desk()


class Killed(DeskTestCase):
    """Three members of etcd, three desks and three gateways that are killed at random while clients send commands to each."""

    IN_MEMORY, IS_LONG = True, True

    def test_desks_stay_equal_whatever_is_killed(self) -> None:
        if shutil.which("etcd") is None:
            raise unittest.SkipTest("there is no etcd")
        chance, began, total = self.chance("kills"), time.monotonic(), collections.Counter[str]()
        members = Members(self.folder, chance)
        self.addCleanup(members.end)
        members.wait()
        for number in range(RUNS):
            if time.monotonic() - began > MOST_SECONDS:
                break
            total += self.run_once(number, members, chance, began + MOST_SECONDS)
        total["members killed"] = sum(it.kills for it in members.parts)
        self.note(", ".join(f"{count} {what}" for what, count in sorted(total.items())))

    def run_once(self, number: int, members: Members, chance: random.Random, until: float) -> collections.Counter[str]:
        """A run of its own log, in which no command is sent after a moment; returns what it came to."""
        folder = self.folder / f"run{number}"
        folder.mkdir()
        cluster = Cluster(self.desk.path, folder, members, f"run{number}", chance)
        try:
            answered: list[Answered] = []
            with cluster.disturbed(chance, answered):
                replica.send_all(cluster.ports, replica.commands(chance, COMMANDS_A_RUN), chance, until, answered)
            entries = cluster.entries(cluster.wait_level())
            self.check(f"run {number}: gateways that can't go on: {cluster.said()}", [it.has_halted for it in cluster.gateways], [False] * 3)
            outcomes = cluster.log.outcomes(1, len(entries))
        finally:
            cluster.end()
        check_run(self, f"run {number}", cluster, entries, answered, outcomes)
        shutil.rmtree(folder)
        return cluster.kills() + collections.Counter({"runs": 1, "entries": len(entries), "commands": len(answered)})


def check_run(case: DeskTestCase, name: str, cluster: Cluster, entries: list[Entry], answered: list[Answered], outcomes: dict[int, Outcome]) -> None:
    """Checks that the desks are equal, and are those of one that is given the log, in which each answered command is, as it was answered."""
    folder = cluster.folder
    for it in cluster.files:
        case.check(f"{name}: {it.name} is good", case.desk.run("verify", it).status, 0)
    tables = [tables_of(it) for it in cluster.files]
    told = b"".join(it.request()[0] + b"\n" for it in entries)
    replies = case.desk.run("run", folder / "fold.db", told=told).output.splitlines()
    case.check(f"{name}: replies", len(replies), len(entries))
    case.check_true(f"{name}: three desks with equal tables", tables[0] == tables[1] == tables[2])
    case.check_true(f"{name}: the tables of the log's fold", tables_of(folder / "fold.db") == tables[0])
    got: dict[bytes, list[bytes]] = collections.defaultdict(list)
    for number, (entry, reply) in enumerate(zip(entries, replies), 1):
        got[entry.body].append(reply)
        if number in outcomes:
            status = 200 if b'"ok"' in reply else 400 if b'"BadForm"' in reply else 409
            case.check(f"{name}: entry {number}", outcomes[number].digest, Reply(status, [], reply).digest())
    receipts: dict[str, int] = {it: seq for it, seq in rows(folder / "fold.db", "SELECT id, seq FROM receipt ORDER BY seq")}
    case.check(f"{name}: each number has one reference", list(receipts.values()), list(range(1, len(receipts) + 1)))
    check_answers(case, name, answered, got, receipts)


def check_answers(case: DeskTestCase, name: str, answered: list[Answered], got: dict[bytes, list[bytes]], receipts: dict[str, int]) -> None:
    """Checks what clients were answered by what the entries of these commands came to."""
    without = collections.Counter(it.body for it in answered if it.reference is None)
    lost = collections.Counter(it.body for it in answered if it.status is None)
    for it in answered:
        if it.status is not None:
            case.check_true(f"{name}: {it} is one of {got[it.body]}", it.told in got[it.body])
        if it.status == 200 and it.reference is not None:
            case.check(f"{name}: the number of {it.reference}", receipts[it.reference], json.loads(it.told)["ok"])
    for body, count in without.items():
        case.check_true(f"{name}: how often {body!r} is there", count - lost[body] <= len(got[body]) <= count)
