"""Commands, checks and imports under a condition of their head (`Desk-Seq`), and the reference that a head gives a command (`Desk-Ref`), over sockets."""
from __future__ import annotations

import concurrent.futures
import json

from tests.support.cases import DeskTestCase
from tests.support.http import ASK, ORDERS, Server, answer, answered, booked, checked, command, desk_answer, imported, posted, status_answer

BAD = status_answer(400)
BAD_FORM = answer('{"name":"BadForm","refused":1}', 400)
MISSING = answer('{"reference":"missing","status":400}', 400)
MOMENT_BACK = answer('{"name":"MomentBack","refused":2}', 409)

# An order file with a fault.
NO_ORDERS = b"order\n"

# Values that break the rule of Desk-Seq.
NO_NUMBERS = ("", "+0", "-0", "0 0", "0,0", "0.0", "0x0", "none", "*", "\"0\"", "1000000000000001", "9999999999999999", "00000000000000000")

# Values that name no accepted command.
NOUGHTS = ("0", "00", "0000000000000000")

# Values of the rule that name others.
OTHERS = ("1", "01", "7", "0000000000000009", "1000000000000000")

# A field by which a proxy says who books.
FIELD = "X-Operator"


def at_another(seq: int) -> bytes:
    """Returns what is answered where the desk has accepted so many commands, and another number was asked for."""
    return answer('{"seq":%d,"status":412}' % seq, 412)


def status_of(it: bytes) -> int:
    """Returns the status of an answer."""
    return int(it.split()[1])


def references(it: bytes) -> list[tuple[int, str]]:
    """Returns the numbers and the references of a page of commands."""
    return [(row["seq"], row["ref"]) for row in json.loads(it.partition(b"\r\n\r\n")[2])["commands"]]


class Numbers(DeskTestCase):
    """What is done at one number of accepted commands alone."""

    def test_command_check_and_import_at_another_number_are_refused_and_change_nothing(self) -> None:
        with Server(self.desk, "plant.db", 3 * len(OTHERS) + 1) as server:
            for seq in OTHERS:
                field = f"Desk-Seq: {seq}"
                for case, it in (("a command", booked(command(), field)), ("a check", checked(command(), field)), ("an import", imported(field))):
                    self.check(f"{case} at {seq}", answered(server.port, it), at_another(0))
            self.check("nothing was done", answered(server.port, ASK), desk_answer(0))
        self.check_verified("the file", "plant.db", 0)

    def test_at_the_desks_number_all_is_as_without_the_field(self) -> None:
        said = []
        for fields in ((), ("Desk-Seq: 0",)):
            with Server(self.desk, ":memory:", 6) as server:
                asks = (checked(command(), *fields), checked(b"{}", *fields), booked(b"{}", *fields), imported(*fields), imported(*fields, file=NO_ORDERS), booked(command(), *fields))
                said.append([answered(server.port, it) for it in asks])
        self.check("the answers", said[1], said[0])
        self.check("the last one was accepted", said[1][-1], answer('{"ok":1}'))

    def test_number_is_one_to_sixteen_digits_whatever_the_case_of_the_field(self) -> None:
        for place, value in enumerate(NOUGHTS):
            with Server(self.desk, ":memory:", 2) as server:
                name = ("Desk-Seq", "desk-seq", "DESK-SEQ")[place]
                self.check(value, answered(server.port, booked(command(), f"{name}: {value}")), answer('{"ok":1}'))
                self.check(f"{value} again", answered(server.port, booked(command(name="B"), f"{name}: {value}")), at_another(1))

    def test_value_that_breaks_the_rule_is_a_bad_request(self) -> None:
        heads = [[f"Desk-Seq: {it}"] for it in NO_NUMBERS] + [["Desk-Seq: 0", "Desk-Seq: 0"], ["Desk-Seq: 0", "desk-seq: 1"]]
        with Server(self.desk, ":memory:", 3 * len(heads) + 1) as server:
            for fields in heads:
                for case, it in (("a command", booked(command(), *fields)), ("a check", checked(command(), *fields)), ("an import", imported(*fields))):
                    self.check(f"{case}, {fields}", answered(server.port, it), BAD)
            self.check("nothing was done", answered(server.port, ASK), desk_answer(0))

    def test_condition_comes_before_all_that_the_body_and_the_desk_say(self) -> None:
        other = "Desk-Seq: 5"
        asks = {
            "no JSON": booked(b"?", other), "no command": booked(b"{}", other), "a check of none": checked(b"{}", other), "no order file": imported(other, file=NO_ORDERS),
            "no reference": booked(command(name="B", by="bob"), other), "another operator": booked(command(name="B", by="eve", ref="R-9"), f"{FIELD}: bob", other),
            "no operator": booked(command(name="B", ref="R-9"), other), "ahead": booked(command(name="B", at=200_000_000_000, ref="R-9"), f"{FIELD}: anna", other),
            "an older moment": booked(command(name="B", at=1, ref="R-9"), f"{FIELD}: anna", other), "a repeat": booked(command(ref="R-1"), f"{FIELD}: anna", other),
            "an import without a reference": imported(other), "an empty body": booked(b"", other),
        }
        with Server(self.desk, "plant.db", len(asks) + 2, "--references", "--operator-field", FIELD, "--ahead", "60") as server:
            self.check("the first", answered(server.port, booked(command(ref="R-1"), f"{FIELD}: anna", "Desk-Seq: 0")), answer('{"ok":1}'))
            for case, it in asks.items():
                self.check(case, answered(server.port, it), at_another(1))
            self.check("nothing else was done", answered(server.port, ASK), desk_answer(1))
        self.check_verified("the file", "plant.db", 1)

    def test_what_the_head_decides_comes_before_it(self) -> None:
        other = "Desk-Seq: 5"
        asks = {
            "no moment": (posted("/v1/orders", ORDERS, other), 400), "two references": (imported("Desk-Ref: A", "Desk-Ref: B", other), 400),
            "no path": (posted("/v1/command", command(), other), 404), "no length": (b"POST /v1/commands HTTP/1.1\r\nHost: a\r\nDesk-Seq: 5\r\n\r\n", 411),
            "a question": (b"GET /v1/desk HTTP/1.1\r\nHost: a\r\nDesk-Seq: 5\r\n\r\n", 200), "a question with no number": (b"GET /v1/desk HTTP/1.1\r\nHost: a\r\nDesk-Seq: x\r\n\r\n", 200),
            "another method": (b"GET /v1/commands HTTP/1.1\r\nHost: a\r\nDesk-Seq: 5\r\n\r\n", 405),
        }
        with Server(self.desk, ":memory:", len(asks)) as server:
            for case, (it, status) in asks.items():
                self.check(case, status_of(answered(server.port, it)), status)

    def test_body_that_ended_early_is_a_bad_request_and_another_site_forbidden(self) -> None:
        with Server(self.desk, ":memory:", 2, "--page") as server:
            here = booked(command(), "Desk-Seq: 5").replace(b"Host: a\r\n", b"Host: localhost\r\n")
            self.check("a cut body", answered(server.port, here[:-1], is_last=True), BAD)
            self.check("of another site", answered(server.port, booked(command(), "Desk-Seq: 5")), status_answer(403))

    def test_of_many_at_one_number_one_is_executed(self) -> None:
        with Server(self.desk, "plant.db", 33) as server, concurrent.futures.ThreadPoolExecutor(16) as pool:
            asks = [booked(command(name=f"C-{place}"), "Desk-Seq: 0") for place in range(32)]
            said = list(pool.map(lambda it: answered(server.port, it), asks))
            self.check("accepted", said.count(answer('{"ok":1}')), 1)
            self.check("refused with the number", said.count(at_another(1)), 31)
            self.check("the desk", answered(server.port, ASK), desk_answer(1))
        self.check_verified("the file", "plant.db", 1)

    def test_log_of_commands_is_replayed_at_its_numbers_and_stops_at_a_foreign_booking(self) -> None:
        with Server(self.desk, ":memory:", 8) as server:
            for seq in range(3):
                self.check(f"command {seq + 1}", answered(server.port, booked(command(name=f"C-{seq}"), f"Desk-Seq: {seq}")), answer('{"ok":%d}' % (seq + 1)))
            self.check("one that the desk refuses", answered(server.port, booked(command(name="D", at=1), "Desk-Seq: 3")), MOMENT_BACK)
            self.check("and the next, at the same number", answered(server.port, booked(command(name="D"), "Desk-Seq: 3")), answer('{"ok":4}'))
            self.check("a foreign booking", answered(server.port, booked(command(name="E"))), answer('{"ok":5}'))
            self.check("the next", answered(server.port, booked(command(name="F"), "Desk-Seq: 4")), at_another(5))
            self.check("its check", answered(server.port, checked(command(name="F"), "Desk-Seq: 4")), at_another(5))


class References(DeskTestCase):
    """The reference that the head gives a command."""

    def test_command_acts_once_under_the_reference_of_its_head(self) -> None:
        with Server(self.desk, "plant.db", 5) as server:
            self.check("a command", answered(server.port, booked(command(), "Desk-Ref: R-1")), answer('{"ok":1}'))
            self.check("sent again", answered(server.port, booked(command(), "desk-ref: R-1")), answer('{"ok":1}'))
            self.check("sent again in its body", answered(server.port, booked(command(ref="R-1"))), answer('{"ok":1}'))
            self.check("the same without", status_of(answered(server.port, booked(command()))), 409)
            self.check("the receipt", references(answered(server.port, b"GET /v1/lists/commands HTTP/1.0\r\n\r\n")), [(1, "R-1")])
        self.check_verified("the file", "plant.db", 1)

    def test_reference_of_the_body_counts_first(self) -> None:
        with Server(self.desk, ":memory:", 3) as server:
            self.check("both", answered(server.port, booked(command(ref="R-1"), "Desk-Ref: R-2")), answer('{"ok":1}'))
            self.check("another under that of the head", answered(server.port, booked(command(name="B"), "Desk-Ref: R-2")), answer('{"ok":2}'))
            self.check("the receipts", sorted(references(answered(server.port, b"GET /v1/lists/commands HTTP/1.0\r\n\r\n"))), [(1, "R-1"), (2, "R-2")])

    def test_reference_of_the_head_is_one_that_is_needed(self) -> None:
        with Server(self.desk, ":memory:", 3, "--references") as server:
            self.check("none", answered(server.port, booked(command())), MISSING)
            self.check("that of the head", answered(server.port, booked(command(), "Desk-Ref: R-1")), answer('{"ok":1}'))
            self.check("and at its number", answered(server.port, booked(command(name="B"), "Desk-Ref: R-2", "Desk-Seq: 1")), answer('{"ok":2}'))

    def test_check_is_made_under_the_same_reference(self) -> None:
        with Server(self.desk, ":memory:", 3) as server:
            self.check("a command", answered(server.port, booked(command(), "Desk-Ref: R-1")), answer('{"ok":1}'))
            self.check("its check again", answered(server.port, checked(command(), "Desk-Ref: R-1")), answered(server.port, checked(command(ref="R-1"))))

    def test_reference_that_is_none_is_a_bad_request(self) -> None:
        heads = [[f"Desk-Ref: {it}"] for it in ("", "r-1", "1R", "R_1", "R" * 25, "R 1", "\"R\"")] + [["Desk-Ref: A", "Desk-Ref: A"], ["Desk-Ref: A", "desk-ref: B"]]
        with Server(self.desk, ":memory:", 3 * len(heads) + 1) as server:
            for fields in heads:
                self.check(f"a command, {fields}", answered(server.port, booked(command(), *fields)), BAD)
                self.check(f"one with its own, {fields}", answered(server.port, booked(command(ref="R-1"), *fields)), BAD)
                self.check(f"a check, {fields}", answered(server.port, checked(command(), *fields)), BAD)
            self.check("nothing was done", answered(server.port, ASK), desk_answer(0))

    def test_body_that_is_no_command_stays_none(self) -> None:
        with Server(self.desk, ":memory:", 2) as server:
            self.check("no command", answered(server.port, booked(b"{}", "Desk-Ref: R-1")), BAD_FORM)
            self.check("a wrong reference", answered(server.port, booked(command(ref="r-1"), "Desk-Ref: R-1")), BAD_FORM)
