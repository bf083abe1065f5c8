"""Words that the built desk can't follow: files that hold no desk, a port that is taken, values out of their range, refused memory, full
devices; and its help, its notes of requests, and what a terminal is told of a file that takes long to open."""
from __future__ import annotations

import contextlib
import os
import pty
import re
import shlex
import socket
import time

from tests.support import faults, http, sqlite
from tests.support.cases import DeskTestCase, good
from tests.support.program import SECONDS

STORE = (3, b"", b"fault: store\n")

# How the usage of each word stands in its help, behind the program's name: the arguments in their order.
USAGES = {
    "init": "init <FILE>",
    "run": "run <FILE>",
    "import": "import [OPTIONS] --at <SECONDS> <FILE>",
    "trace": "trace <FILE> <DIRECTION> <LOT>",
    "record": "record <FILE> <BATCH>",
    "verify": "verify <FILE>",
    "serve": "serve [OPTIONS] <FILE> <PORT> <COUNT>",
}

# Each word that names a file, with what stands behind the file.
WORDS_OVER_FILES = [["init"], ["run"], ["verify"], ["record", "B-1"], ["trace", "back", "L-1"], ["import", "--at", "1"], ["serve", "8080", "1"]]

# Words whose values are out of their range, or are none.
WRONG_VALUES = [
    ["serve", "wrong.db", "0", "1"],
    ["serve", "wrong.db", "65536", "1"],
    ["serve", "wrong.db", "8080", "0"],
    ["serve", "wrong.db", "8080", "1000001"],
    ["serve", "wrong.db", "x", "1"],
    ["serve", "wrong.db", "8080", "1", "--page", "--host"],
    ["serve", "wrong.db", "8080", "1", "--page", "--host", ""],
    ["serve", "wrong.db", "8080", "1", "--page", "--host", "a" * 61],
    ["serve", "wrong.db", "8080", "1", "--page", *["--host", "a"] * 9],
    ["serve", "wrong.db", "8080", "1", "--page=yes"],
    ["serve", "wrong.db", "8080", "1", "--ahead"],
    ["serve", "wrong.db", "8080", "1", "--ahead", "-1"],
    ["serve", "wrong.db", "8080", "1", "--ahead", "1000001"],
    ["serve", "wrong.db", "8080", "1", "--ahead", "x"],
    ["serve", "wrong.db", "8080", "1", "--references", "yes"],
    ["serve", "wrong.db", "8080", "1", "--operator-field"],
    ["serve", "wrong.db", "8080", "1", "--operator-field", ""],
    ["serve", "wrong.db", "8080", "1", "--operator-field", "A" * 61],
    ["serve", "wrong.db", "8080", "1", "--operator-field", "A", "--operator-field", "B"],
    ["serve", "wrong.db", "8080", "1", "--name"],
    ["serve", "wrong.db", "8080", "1", "--name", "A", "--name", "B"],
    ["serve", "wrong.db", "8080", "1", "--language"],
    ["serve", "wrong.db", "8080", "1", "--language", "fr"],
    ["import", "wrong.db", "--at", "x"],
    ["import", "wrong.db", "--at", "253402300800"],
    ["import", "wrong.db", "--at", "1", "--by", "a" * 61],
    ["trace", "wrong.db", "up", "L-1"],
    ["trace", "wrong.db", "back", "l-1"],
    ["record", "wrong.db", "b-1"],
]

# The rule of a name of a host.
HOST = b"NAME of --host is 1 to 60 of a to z, 0 to 9, - and ., the first no - and no .; 8 of them at most, and only with --page"

# The rule of the name of a field.
FIELD = b"NAME of --operator-field is 1 to 60 of A to Z, a to z, 0 to 9 and -"

# Those of what the page shows.
NAME, LANGUAGE = b"TEXT of --name is 1 to 60 characters from the space to ~", b"LANGUAGE of --language is en or de"

# The rule that is told where clap takes the words and a value breaks it: that of the first such value.
BROKEN_RULES = [
    (["import", "wrong.db", "--at", "1", "--by", "a" * 61, "--ref", "r-1"], b"TEXT of --by is at most 60 characters from the space to ~"),
    (["import", "wrong.db", "--at", "1", "--ref", "r-1"], b"ID of --ref is 1 to 24 of A to Z, 0 to 9 and -, the first a letter"),
    (["trace", "wrong.db", "up", "l-1"], b"DIRECTION is back or forward"),
    (["trace", "wrong.db", "back", "l-1"], b"LOT is 1 to 24 of A to Z, 0 to 9 and -, the first a letter"),
    (["record", "wrong.db", "b-1"], b"BATCH is 1 to 24 of A to Z, 0 to 9 and -, the first a letter"),
    (["serve", "wrong.db", "8080", "1", "--host", "a"], HOST),
    (["serve", "wrong.db", "8080", "1", "--page", "--host", "a", "--host", "A"], HOST),
    (["serve", "wrong.db", "8080", "1", "--page", "--host", ".a"], HOST),
    (["serve", "wrong.db", "8080", "1", "--page", "--host", "a:80"], HOST),
    (["serve", "wrong.db", "8080", "1", "--page", "--host", "a/b"], HOST),
    (["serve", "wrong.db", "8080", "1", "--operator-field", "X-Operator:"], FIELD),
    (["serve", "wrong.db", "8080", "1", "--operator-field", "X_Operator"], FIELD),
    (["serve", "wrong.db", "8080", "1", "--name", ""], NAME),
    (["serve", "wrong.db", "8080", "1", "--name", "a" * 61], NAME),
    (["serve", "wrong.db", "8080", "1", "--name", "B\u00e4ckerei"], NAME),
    (["serve", "wrong.db", "8080", "1", "--language", "DE"], LANGUAGE),
    (["serve", "wrong.db", "8080", "1", "--language", ""], LANGUAGE),
]

# What connections send, and how each is noted behind its moment.
NOTED = [
    (b"GET /v1/desk HTTP/1.1\r\nHost: desk\r\n\r\n", b'"GET /v1/desk HTTP/1.1" 200'),
    (b"GET /" + b"A" * 200 + b" HTTP/1.1\r\nHost: desk\r\n\r\n", b'"GET /' + b"A" * 115 + b'" 404'),
    (b'GET "\xff HTTP/1.1\r\n\r\n', b'"GET " 400'),
    (b"", b'"" 0'),
]

# How far the opening of a file is, as a terminal is told.
STAGES = [b"opening the file: its pages are tested", b"opened the file: its tables are read and tested"]

# How many seconds a client pauses.
PAUSE = 0.5

# A line that is accepted by a new desk.
CLASS = b'{"at":1,"by":"","do":"add_class","class":"RAW","name":""}\n'


class FilesWithoutDesk(DeskTestCase):
    """Files that a word can't use."""

    def test_folder_text_or_missing_folder_is_a_fault_of_the_store(self) -> None:
        (self.folder / "folder").mkdir()
        text = self.folder / "text"
        text.write_bytes(b"FLOUR 500 kg\n" * 500)
        for word, *others in WORDS_OVER_FILES:
            for name in ["folder", "text", "nowhere/plant.db"]:
                self.check_run(f"{word} of {name}", [word, name, *others], STORE)
        self.check("a text stays", text.read_bytes(), b"FLOUR 500 kg\n" * 500)

    def test_file_of_a_later_schema_is_told_and_stays(self) -> None:
        file = self.folder / "later.db"
        self.desk.run("init", file.name)
        sqlite.changed(file, "UPDATE meta SET schema = 99")
        rows = sqlite.dumped(file)
        for word, *others in WORDS_OVER_FILES:
            self.check_run(f"{word} of a later schema", [word, file.name, *others], (3, b"", b"fault: newer 99\n"))
        self.check("a later schema stays", sqlite.dumped(file), rows)

    def test_name_that_begins_with_a_colon_is_a_file_but_for_memory(self) -> None:
        """Tells a command to each word over such a name, and looks whether the next run finds it."""
        orders = b"order,recipe,version,size,due,priority\n"
        for name in ":x", ":memory", ":memory:x", "::memory:", ":MEMORY:", ":memory: ", "memory:", "./:memory:":
            self.check_run(f"run of {name}", ["run", name], (0, b'{"ok":1}\n', b""), CLASS)
            self.check_true(f"{name} is a file", (self.folder / name).is_file())
            self.check_run(f"{name} again", ["run", name], (1, b'{"name":"Exists","refused":3}\n', b""), CLASS)
            self.check_run(f"import into {name}", ["import", name, "--at", "1"], (0, b'{"ok":2}\n', b""), orders)
            self.check_verified(f"{name}, verified", name, 2)
            self.check(f"the rows of {name}", sqlite.rows(self.folder / name, "SELECT id FROM class"), [("RAW",)])
            for end in "", "-wal":
                (self.folder / f"{name}{end}").unlink(missing_ok=True)
        self.check("no other file is made", list(self.folder.iterdir()), [])
        for _ in range(2):
            self.check_run("run of memory", ["run", ":memory:"], (0, b'{"ok":1}\n', b""), CLASS)
        self.check("memory is no file", list(self.folder.iterdir()), [])

    def test_view_beside_a_desk_stays(self) -> None:
        file = self.folder / "view.db"
        sqlite.changed(file, "CREATE TABLE shift (id TEXT); CREATE VIEW shifts AS SELECT id FROM shift; INSERT INTO shift VALUES ('night')")
        self.check_run("init beside a view", ["init", file.name], (0, b"ready schema 4\n", b""))
        self.check_run("run beside a view", ["run", file.name], (0, b'{"ok":1}\n', b""), CLASS)
        self.check_verified("verify beside a view", file.name, 1)
        self.check("the view", sqlite.rows(file, "SELECT * FROM shifts"), [("night",)])


class Streams(DeskTestCase):
    """Standard streams, memory and ports that fail."""

    def test_taken_port_is_a_fault_of_the_net(self) -> None:
        with socket.socket() as other:
            other.bind(("127.0.0.1", 0))
            other.listen()
            port = other.getsockname()[1]
            self.check_run("a port that is taken", ["serve", "taken.db", str(port), "1"], http.NET)

    def test_input_that_cannot_be_read_is_a_fault(self) -> None:
        """Gives a folder, of which no byte can be read, as standard input."""
        for words in [["import", ":memory:", "--at", "1"], ["run", ":memory:"]]:
            folder = os.open("/", os.O_RDONLY)
            ended = self.desk.run(*words, stdin=folder)
            os.close(folder)
            self.check(f"{words[0]} of a folder", ended, (3, b"", b"fault: read\n"))

    def test_full_device_is_told_on_standard_error_or_by_the_status_alone(self) -> None:
        for word in "init", "run", "verify":
            with open("/dev/full", "wb") as full:
                ended = self.desk.run(word, "full.db", told=CLASS, stdout=full)
                self.check(f"{word} to a full device", (ended.status, ended.errors), (3, b"fault: write\n"))
                ended = self.desk.run(word, "full.db", told=CLASS, stdout=full, stderr=full)
                self.check(f"{word} to two full devices", ended.status, 3)

    def test_refused_memory_is_told_and_makes_no_file(self) -> None:
        """Refuses one of the first allocations."""
        for number in 1, 2, 5:
            ended = self.desk.run("init", "memory.db", env=faults.refused_memory(number))
            self.check(f"allocation {number}", ended, (4, b"", b"fault: memory\n"))
        self.check_true("no file is made without memory", not (self.folder / "memory.db").exists())


class WrongWords(DeskTestCase):
    """Words that aren't understood."""

    def test_word_that_is_not_utf8_is_refused_in_each_place(self) -> None:
        for words in [[b"run", b"\xff.db"], [b"\xff"], [b"import", b"a.db", b"--at", b"\xff"]]:
            self.check_run(words, words, (2, b"", b"error: a word is not UTF-8\n"))

    def test_value_out_of_its_range_is_wrong_and_makes_no_file(self) -> None:
        for words in WRONG_VALUES:
            status, output, errors = self.desk.run(*words)
            told = errors.startswith(b"error: ") and errors.endswith(b"For more information, try '--help'.\n")
            self.check(f"{words}, {errors!r}", (status, output, told), (2, b"", True))
        self.check_true("no file is made", not (self.folder / "wrong.db").exists())

    def test_first_broken_rule_is_told_and_no_other(self) -> None:
        for words, rule in BROKEN_RULES:
            told = b"error: %s\n\nFor more information, try '--help'.\n" % rule
            self.check_run(words, words, (2, b"", told))


class Help(DeskTestCase):
    """The help of each word."""

    def test_help_lists_the_arguments_in_order_and_its_example_is_understood(self) -> None:
        (self.folder / "shift.jsonl").write_bytes(b'{"ask":"desk"}\n')
        (self.folder / "orders.csv").write_bytes(b"order,recipe,version,size,due,priority\n")
        for word, usage in USAGES.items():
            status, output, errors = self.desk.run(word, "--help")
            text = output.decode()
            self.check(f"{word} --help", (status, errors), (0, b""))
            self.check(f"the usage of {word}", re.findall(r"^Usage: (.*)$", text, re.M), [f"{self.desk.path.name} {usage}"])
            self.check(f"the arguments of {word}", listed(text), re.findall(r"<\w+>", usage.split("--at <SECONDS>")[-1]))
            [example] = re.findall(r"^Example: desk (.*)$", text, re.M)
            self.check_example(word, *example.split(" < "))

    def check_example(self, word: str, example: str, file: str | None = None) -> None:
        """Runs the words of an example, but for those that serve, which a port of 0 keeps from it."""
        words = shlex.split(example)
        self.check(f"the example of {word}", words[0], word)
        if word == "serve":
            words = [*words[:2], "0", *words[3:]]
        told = (self.folder / file).read_bytes() if file else b""
        status, _, errors = self.desk.run(*words, told=told)
        self.check(f"the example of {word}, {errors!r}", status, {"serve": 2, "trace": 1, "record": 1}.get(word, 0))


def listed(text: str) -> list[str]:
    """Returns the arguments that a help lists, in their order."""
    found = re.search(r"^Arguments:\n((?:  .*\n)+)", text, re.M)
    return re.findall(r"^  (<\w+>)", found[1] if found else "", re.M)


class Progress(DeskTestCase):
    """What is told while the desk works."""

    def test_requests_are_noted_with_log_and_not_without(self) -> None:
        options: list[list[str]] = [[], ["--log"]]
        for log in options:
            began = int(time.time())
            with http.Server(self.desk, "noted.db", len(NOTED), *log) as server:
                for sent, _ in NOTED:
                    server.answered(sent, is_last=True)
                status, output, errors = server.end()
            lines = errors.splitlines()
            wanted = [b"serving 127.0.0.1:%d" % server.port, *(line for _, line in NOTED)] if log else []
            found = [re.fullmatch(rb"(\d+) (.*) \d+", it) for it in lines[1:]]
            self.check(f"the end, {log}", (status, output), (0, b""))
            self.check(f"the lines, {log}", lines[:1] + [it and it[2] for it in found], wanted)
            self.check_true(f"the moments, {log}", all(it and began <= int(it[1]) <= time.time() for it in found))

    def test_microseconds_that_are_noted_are_those_of_the_connection(self) -> None:
        """Has a client pause within its request: so long the connection took at least, and no longer than the client saw; others took some time."""
        with http.Server(self.desk, ":memory:", 3, "--log") as server:
            seconds = []
            for pause in 0, PAUSE, 0:
                began = time.monotonic()
                with http.connected(server.port) as client:
                    client.sendall(http.POST[:-9])
                    time.sleep(pause)
                    client.sendall(http.POST[-9:])
                    http.rest_of(client)
                seconds.append(time.monotonic() - began)
            _, _, errors = server.end()
        found = [re.fullmatch(rb'\d+ "POST /v1/commands HTTP/1.1" (\d+) (\d+)', it) for it in errors.splitlines()[1:]]
        self.check("the statuses", [it and it[1] for it in found], [b"200", b"409", b"409"])
        took = [int(it[2]) for it in found if it]
        self.check_true(f"each took some time, {took}", all(0 < it < 10**6 * most for it, most in zip(took, seconds)))
        self.check_true(f"a client that pauses took as long, {took}", took[1] >= 10**6 * PAUSE)

    def test_terminal_alone_is_told_how_far_the_opening_of_a_large_file_is(self) -> None:
        """Verifies a file that takes seconds to open, and one that takes none."""
        for name, rows, wanted in [("small.db", 1, []), ("large.db", 700_000, STAGES)]:
            self.desk.run("init", name)
            with sqlite.opened(self.folder / name) as store:
                store.execute("CREATE TABLE beside (n INTEGER, text TEXT)")
                store.executemany("INSERT INTO beside VALUES (?, ?)", ((n, "x" * 400) for n in range(rows)))
                for index in "first", "second", "third":
                    store.execute(f"CREATE INDEX {index} ON beside (n)")
            self.check_verified(f"{name}, verified", name, 0)
            self.check(f"{name}, verified at a terminal", self.at_a_terminal("verify", name), (*good(0)[:2], wanted))
            (self.folder / name).unlink()

    def at_a_terminal(self, *words: str) -> tuple[int, bytes, list[bytes]]:
        """Runs the desk with a terminal as its standard error; returns its status, its output, and the terminal's lines."""
        ours, theirs = pty.openpty()
        with self.desk.start(*words, stderr=theirs) as ran:
            output, _ = ran.communicate(timeout=SECONDS)
        os.close(theirs)
        told = b""
        with contextlib.suppress(OSError):
            while more := os.read(ours, 4096):
                told += more
        os.close(ours)
        return ran.returncode, output, told.splitlines()
