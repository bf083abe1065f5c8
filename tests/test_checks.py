"""The built checks of order files and of lines: on inputs that are long or have no end, and on streams that fail.

What they tell of files and lines that are short stands beside each program, which the gate runs on it.
"""
from __future__ import annotations

import contextlib
import os
import subprocess
from collections.abc import Iterator
from typing import TYPE_CHECKING

from tests.support.cases import ProgramTestCase
from tests.support.program import Program

# The most bytes of an order file, and of a line.
LONGEST = 262_144

FAULTY_ORDERS = b"""order,recipe,version,size,due,priority
O-1,CAKE,1,500,2027-03-01,5
O-2,CAKE,1,500,2027-02-29,5
"""
FAULT = b"csv row 2 Due: due is not a date like 2027-03-01, of the years 2000 to 2099; it is 2027-02-29\n"

# Each kind of fault of a row, and two orders that conflict with the first.
MANY_FAULTS = "order,recipe,version,size,due,priority\n" + \
    "O-1,CAKE,1,500,2027-03-01,5\n" + \
    "Ö-2,CAKE,0,12.5,01.03.2027,\n" + \
    "O-3,CAKE,1\n" + \
    "O-1,CAKE,1,500,2027-03-02,5\n" + \
    "O-1,CAKE,1,500,2027-03-01,5\n" + \
    f"O-1,{'x' * 70},1,500,2027-03-01,5\n" + \
    "O-1,CAKE,2,500,2027-03-01,5\n" + \
    "O-4,\"a'b\tc\\d\"\"e\x7f\n\",1,500,2027-03-01,5\n"
THEIR_TEXTS = rb"""csv row 2 Order: order is not an id: 1 to 24 of A to Z, 0 to 9 and -, the first a letter; it is \xc3\x96-2
csv row 2 Version: version is not a whole number from 1 to 999; it is 0
csv row 2 Size: size is not a whole number from 1 to 1000000000000000; it is 12.5
csv row 2 Due: due is not a date like 2027-03-01, of the years 2000 to 2099; it is 01.03.2027
csv row 2 Priority: priority is not a whole number from 1 to 9
csv row 3 Shape: the row hasn't six fields with commas between
csv row 6 Recipe: recipe is not an id: 1 to 24 of A to Z, 0 to 9 and -, the first a letter; it is """ + b"x" * 60 + rb""" ..
csv row 8 Recipe: recipe is not an id: 1 to 24 of A to Z, 0 to 9 and -, the first a letter; it is a\'b\tc\\d\"e\x7f\n
csv row 4 OrderConflict: row 1 has the same order with other values
csv row 7 OrderConflict: row 1 has the same order with other values
"""

HEADER = b"""csv row 0 Header: the first line isn't order,recipe,version,size,due,priority in UTF-8, with commas between and neither semicolons nor tabs
"""

TOO_LONG = b"csv row 0 TooLong: the file is longer than 262144 bytes\n"

# The first line of an order file.
ORDER_HEAD = b"order,recipe,version,size,due,priority\n"

# More lines than a million.
MANY = 1_000_001

GOOD_LINES = b"""{"ask":"desk"}

{"at":1,"by":"","do":"settle","batch":"B"}
{"ask":"lot","lot":"L"}"""


# Bad lines, each with its hint.
HINTS = [
    (b'{"at":1,"by":"","do":"recieve","lot":"F-1","def":"F","amount":1,"place":""}', b"perhaps receive is meant"),
    (b'{"at":1,"by":"","do":"receive","lott":"F-1","def":"F","amount":1,"place":""}', b"perhaps lot is meant"),
    (b'{"at":1,"by":"","do":"receive","lot":"F-1","def":"F","amount":1,"place":"","plac":""}', b"perhaps place is meant"),
    (b'{"ask":"lotts","def":"F"}', b"perhaps lots is meant"),
    (b'{"at":"2027-03-01T08:00:00Z","by":"","do":"settle","batch":"B"}', b"at is a number of seconds since 1970-01-01T00:00:00Z, here 1803888000"),
    (b'{"at":1803888000000,"by":"","do":"settle","batch":"B"}', b"at is a number of seconds since 1970-01-01T00:00:00Z, here 1803888000"),
    (b'{"at":1803888000000000,"by":"","do":"settle","batch":"B"}', b"at is a number of seconds since 1970-01-01T00:00:00Z"),
    (b'{"at":"2027-03-01","by":"","do":"settle","batch":"B"}', b"at is a number of seconds since 1970-01-01T00:00:00Z"),
    (b"{'ask':'desk'}", b"at byte 2: texts and names stand in double quotes"),
    (b'{"ask":"desk",}', b"at byte 15: nothing follows the comma before it"),
    (b'{"ask":"desk"}{"ask":"desk"}', b"at byte 15: a second object begins, and a line is one"),
    (b'{"ask":"desk"', b"at byte 13: the text ends too soon: a bracket or a quote is missing"),
    (b'{"at":1,"by":"a\tb","do":"settle","batch":"B"}', b"at byte 14: a control character in a text is written as an escape, as \\t"),
    (b'{"ask" "desk"}', b"at byte 8: something else is expected"),
    (b'\xef\xbb\xbf{"ask":"desk"}', b"a mark of byte order goes before the line: save the file as UTF-8 without one"),
    (b'{"at":1,"by":"M\xfcller","do":"settle","batch":"B"}', b"byte 16 is no UTF-8: save the file as UTF-8"),
]

# Bad lines without a hint: nothing that may stand there is near, or the words are long.
UNHINTED = [
    b'{"at":1,"by":"","do":"wait"}', b'{"at":1,"by":"","do":1}', b'{"ask":""}', b'{"ask":"%s"}' % (b"lots" * 20), b"[]", b"{}",
    b'{"at":1,"by":"","do":"settle","batch":"b"}', b'{"at":1,"by":"","do":"settle","batch":"B","colour":1}',
]

# So many lines of an input have hints.
MOST_HINTED = 1000


# What CheckTests is mixed into: by itself it is no test case, so that its tests aren't run without a program.
if TYPE_CHECKING:
    Checks = ProgramTestCase
else:
    Checks = object


class CheckTests(Checks):
    """What both checks have to do."""

    # An input, and how the check ends over it.
    INPUT, STATUS, OUTPUT = b"", 0, b""

    # What follows the name of the program in its help.
    USAGE = "[FILE]"

    # An input that is short.
    SHORT = b""

    def setUp(self) -> None:
        super().setUp()
        [name] = self.PROGRAMS
        self.program = Program(name, self.folder)

    def check_tells(self, case: str, told: bytes, status: int, output: bytes) -> None:
        """Runs the check on these bytes."""
        self.check(case, self.program.run(told=told), (status, output, b""))

    @contextlib.contextmanager
    def endless(self) -> Iterator[int]:
        """An input that has no byte and no end."""
        reading, writing = os.pipe()
        yield reading
        os.close(reading)
        os.close(writing)

    def test_file_that_is_named_is_read_and_no_input(self) -> None:
        (self.folder / "file").write_bytes(self.INPUT)
        with self.endless() as reading:
            self.check("a file", self.program.run("file", stdin=reading), (self.STATUS, self.OUTPUT, b""))
            self.check("a file that isn't there", self.program.run("nowhere/orders.csv", stdin=reading), (3, b"", b"fault: open\n"))
            status, output, errors = self.program.run("a", "b", stdin=reading)
            self.check("two files", (status, output, errors[:7]), (2, b"", b"error: "))

    def test_help_and_version_are_told(self) -> None:
        name = self.program.path.name
        for word in "--help", "-h":
            status, output, errors = self.program.run(word)
            self.check(word, (status, f"\nUsage: {name} {self.USAGE}\n".encode() in output, errors), (0, True, b""))
        for word in "--version", "-V":
            self.check(word, self.program.run(word), (0, f"{name} 1.0.0\n".encode(), b""))

    def test_failed_read_is_a_fault(self) -> None:
        """Runs the check on a folder, of which no byte can be read."""
        folder = os.open("/", os.O_RDONLY)
        ended = self.program.run(stdin=folder)
        os.close(folder)
        self.check("a failed read", ended, (3, b"", b"fault: read\n"))

    def test_failed_write_is_a_fault(self) -> None:
        """Runs the check with a device as its output that is full."""
        with open("/dev/full", "wb") as full:
            ended = self.program.run(told=self.SHORT, stdout=full)
        self.check("a failed write", (ended.status, ended.errors), (3, b"fault: write\n"))


class OrderCheck(CheckTests, ProgramTestCase):
    """The check of order files."""

    PROGRAMS = ("order_check",)
    INPUT, STATUS, OUTPUT = FAULTY_ORDERS, 1, FAULT
    SHORT = FAULTY_ORDERS

    def test_fault_is_told_in_words(self) -> None:
        self.check_tells("a fault in words", FAULTY_ORDERS, 1, FAULT)

    def test_every_fault_is_told_with_what_stands_there(self) -> None:
        self.check_tells("faults of each kind", MANY_FAULTS.encode(), 1, THEIR_TEXTS)
        rows = b"".join(b"O-%d,CAKE,1,500,2027-03-01,0\n" % it for it in range(1000))
        told = b"".join(b"csv row %d Priority: priority is not a whole number from 1 to 9; it is 0\n" % it for it in range(1, 1001))
        self.check_tells("a fault in each of a thousand rows", ORDER_HEAD + rows, 1, told)
        status, output, errors = self.program.run(told=ORDER_HEAD + b"o,c,0,0,0,0\n" * 1000)
        self.check("six faults in each of a thousand rows", (status, len(output.splitlines()), errors), (1, 6000, b""))
        self.check_tells("one row more", ORDER_HEAD + rows + b"O\n", 1, told + b"csv row 1001 TooManyRows: the file has more than 1000 orders\n")

    def test_first_fault_is_the_one_of_an_import(self) -> None:
        desk = Program("desk", self.folder)
        row = b"O-1,CAKE,1,500,2027-03-01,5\n"
        bad = [b"o,CAKE,1,500,2027-03-01,5\n", b"O-1,,1,500,2027-03-01,5\n", b"O-1,CAKE,1000,0,2027-03-01,5\n", b"O-1,CAKE,1,0,2027-02-29,5\n", b"O-1\n", b"O-1,CAKE,1,500,2027-03-01,10"]
        for told in [b"", ORDER_HEAD[1:], b"\n" * (LONGEST + 1), ORDER_HEAD + row * 1001, MANY_FAULTS.encode()] + [ORDER_HEAD + row * n + it for n in (0, 2) for it in bad]:
            first = self.program.run(told=told).output.split(b":")[0]
            self.check(f"{told[-80:]!r}", desk.run("import", ":memory:", "--at", "1", told=told).output, first + b"\n")
        self.check("no fault", desk.run("import", ":memory:", "--at", "1", told=ORDER_HEAD).output, b'{"ok":1}\n')

    def test_order_that_stands_twice_conflicts_where_it_differs(self) -> None:
        rows = b"O-1,CAKE,1,500,2027-03-01,5\n" * 999
        self.check_tells("alike", ORDER_HEAD + rows, 0, b"999 orders\n")
        told = b"csv row 1000 OrderConflict: row 1 has the same order with other values\n"
        for row in b"O-1,CAKO,1,500,2027-03-01,5", b"O-1,CAKE,2,500,2027-03-01,5", b"O-1,CAKE,1,501,2027-03-01,5", b"O-1,CAKE,1,500,2027-03-02,5", b"O-1,CAKE,1,500,2027-03-01,4":
            self.check_tells(f"another {row!r}", ORDER_HEAD + rows + row, 1, told)

    def test_header_alone_is_an_order_file(self) -> None:
        for head in ORDER_HEAD, ORDER_HEAD[:-1], b"\xef\xbb\xbf" + ORDER_HEAD, b"\n" + ORDER_HEAD.replace(b"\n", b"\r\n\r\n"):
            self.check_tells(f"a header alone, {head!r}", head, 0, b"0 orders\n")
        self.check_tells("a header of spaces", ORDER_HEAD.replace(b",size", b", size"), 1, HEADER)
        self.check_tells("a file in UTF-16", ORDER_HEAD.decode().encode("utf-16"), 1, HEADER)

    def test_thousand_orders_are_counted_and_no_more(self) -> None:
        rows = b"O-1,CAKE,1,500,2027-03-01,5\n"
        self.check_tells("a thousand orders", ORDER_HEAD + rows * 1000, 0, b"1000 orders\n")
        status, output, errors = self.program.run(told=ORDER_HEAD + rows * 1001)
        self.check("an order more", (status, output.split(b":")[0], errors), (1, b"csv row 1001 TooManyRows", b""))

    def test_file_that_is_too_long_is_told(self) -> None:
        self.check_tells("a longest file", b"\n" * LONGEST, 1, HEADER)
        self.check_tells("a file of more than 4 MB", b"\n" * (5 << 20), 1, TOO_LONG)

    def test_input_without_end_is_told(self) -> None:
        """Runs the check on line ends that don't end."""
        with subprocess.Popen(["yes", ""], stdout=subprocess.PIPE) as lines:
            ended = self.program.run(stdin=lines.stdout)
            lines.kill()
        self.check("an input without end", ended, (1, TOO_LONG, b""))


class LineCheck(CheckTests, ProgramTestCase):
    """The check of lines."""

    PROGRAMS = ("line_check",)
    USAGE = "[OPTIONS] [FILE]"
    INPUT, STATUS, OUTPUT = GOOD_LINES, 0, b"1 commands, 2 questions\n"
    SHORT = b"{}\n"

    def check_tells(self, case: str, told: bytes, status: int, output: bytes) -> None:
        """Runs the check on these bytes; hints on bad lines may go to standard error."""
        ended = self.program.run(told=told)
        self.check(case, (ended.status, ended.output), (status, output))
        self.check_true(f"{case}, hints alone", all(it.startswith(b"hint on line ") for it in ended.errors.splitlines()))

    def test_hint_names_what_is_meant(self) -> None:
        for line, hint in HINTS:
            ended = self.program.run(told=line)
            found = (ended.status, ended.output.count(b"\n"), ended.errors)
            self.check(f"{line!r}: {ended.output!r}", found, (1, 1, b"hint on line 1: " + hint + b"\n"))
        for line in UNHINTED:
            ended = self.program.run(told=line)
            self.check(f"{line!r}: {ended.output!r}", (ended.status, ended.errors), (1, b""))
        self.check("good lines", self.program.run(told=GOOD_LINES).errors, b"")

    def test_first_thousand_lines_have_hints(self) -> None:
        line, hint = HINTS[0]
        errors = self.program.run(told=(line + b"\n") * (MOST_HINTED + 9)).errors
        self.check("many bad lines", errors, b"".join(b"hint on line %d: %s\n" % (it, hint) for it in range(1, MOST_HINTED + 1)))
        errors = self.program.run(told=b"\n" * (MOST_HINTED - 1) + (line + b"\n") * 9).errors
        self.check("empty lines before", errors, b"hint on line %d: %s\n" % (MOST_HINTED, hint))

    def test_good_lines_are_counted(self) -> None:
        self.check_tells("good lines", GOOD_LINES, 0, b"1 commands, 2 questions\n")
        self.check_tells("lines of more than 4 MB", b'{"ask":"desk"}\n' * 400_000, 0, b"0 commands, 400000 questions\n")

    def test_more_than_a_million_lines_are_read_and_numbered(self) -> None:
        self.check_tells("a million empty lines and a bad one", b"\n" * MANY + b"{}\n", 1, b"line %d: neither do nor ask is there\n" % (MANY + 1))
        self.check_tells("a million questions of 50 MB", (b'{"ask":"desk"}' + b" " * 35 + b"\n") * MANY, 0, b"0 commands, %d questions\n" % MANY)
        self.check_tells("a million bad lines", b"x\n" * MANY, 1, b"".join(b"line %d: not a JSON text\n" % it for it in range(1, MANY + 1)))

    def test_line_that_is_too_long_is_told(self) -> None:
        self.check_tells("a longer line", b" " * (LONGEST + 1), 1, b"line 1: longer than 262144 bytes\n")
        self.check_tells("a longest line", b" " * LONGEST, 1, b"line 1: not a JSON text\n")
