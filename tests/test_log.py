"""The order of a desk's writes to its file and its log, on which copies of both rest that are made while it books.

strace records the writes over several checkpoints, and they are played in halves. At each moment the log is read as SQLite's format has it, with
its sums. So it is seen that the header, the log's first 32 bytes, changes whenever the log is begun anew, before an old frame is overwritten, and
that the file is written only with pages that have frames under the header of that moment.

Then readers are put between the writes, each of which sees the same header before and after. One reads the pages of the file, each at any moment, and
then the log: all pages that it doesn't find in the log have to be those of the state that the log stands for, whenever they were read. So all
interleavings are judged, page by page. The log itself is also read in two pieces, cut at each place that matters. A reader has to be caught that
reads the log first, or doesn't look at the header, or not at its first byte: that is 0 while the log is begun anew, before a round and after it, with
31 bytes that are the same.
"""
from __future__ import annotations

import functools
import json
import pathlib
import re
import shutil
import sqlite3
import struct
import subprocess
from collections.abc import Iterator
from typing import NamedTuple

from tests.support.cases import DeskTestCase
from tests.support.program import SECONDS

# The lengths of the log's header and of what precedes the page in a frame.
HEADER, HEAD = 32, 24

# A write, a cut or an output, as strace prints it: the call, the file, what is written, and numbers.
CALL = re.compile(r'(?:\d+ +)?(pwrite64|write|ftruncate)\((\d+)<([^>]*)>, (?:"([^"]*)", )?(\d+)(?:, (\d+))?\) += (\d+)')


class Event(NamedTuple):
    """What a desk does: writes to its file or its log, cuts one of them (`content` is none then), or replies."""

    kind: str
    at: int = 0
    content: bytes | None = None


def halves(event: Event) -> Iterator[Event]:
    """A write in two parts: a reader may come between them."""
    if event.content is None or len(event.content) < 2:
        yield event
    else:
        middle = len(event.content) // 2
        yield event._replace(content=event.content[:middle])
        yield Event(event.kind, event.at + middle, event.content[middle:])


def text_of(told: str) -> bytes:
    """The bytes that strace prints in hexadecimal digits."""
    return bytes.fromhex(told.replace("\\x", ""))


def read_events(trace: pathlib.Path) -> Iterator[Event]:
    """The events of a trace."""
    with trace.open() as lines:
        for found in filter(None, map(CALL.match, lines)):
            call, number, told, content, first, second, done = found.groups()
            name = text_of(told)
            kind = "log" if name.endswith(b".db-wal") else "file" if name.endswith(b".db") else ""
            if kind and call == "ftruncate":
                yield Event(kind, int(first))
            elif kind and call == "pwrite64":
                assert int(first) == int(done) == len(text_of(content))
                yield from halves(Event(kind, int(second), text_of(content)))
            elif call == "write" and number == "1" and text_of(content).startswith(b'{"ok":'):
                yield Event("reply")
            else:
                assert call == "write" and not kind, found[0][:200]


@functools.lru_cache(maxsize=10_000)
def summed(content: bytes, first: int, second: int) -> tuple[int, int]:
    """SQLite's sums of a log, gone on with over these bytes."""
    for low, high in struct.iter_unpack("<II", content):
        first = first + low + second & 0xFFFFFFFF
        second = second + high + first & 0xFFFFFFFF
    return first, second


def counts(header: bytes) -> bool:
    """Whether frames may count under a header: its first byte is 0 while the log is begun anew."""
    return header[:4] == b"\x37\x7f\x06\x82"


class Log:
    """A log, with the frames that count at this moment."""

    def __init__(self, content: bytes) -> None:
        self.content = bytearray(content)
        self.frames: list[tuple[int, int, tuple[int, int]]] = []  # the page, how many pages the file has where a commit ends, the sums

    def change(self, event: Event) -> None:
        """Writes or cuts; frames from there on have to be read again."""
        if event.content is None:
            del self.content[event.at:]
        self.content.extend(bytes(max(event.at - len(self.content), 0)))
        if event.content is not None:
            self.content[event.at:event.at + len(event.content)] = event.content
        whole = (event.at - HEADER) // self.step() if event.at >= HEADER and self.step() > HEAD else 0
        del self.frames[whole:]

    def step(self) -> int:
        """The length of a frame."""
        return HEAD + int.from_bytes(self.content[8:12], "big")

    def header(self) -> bytes:
        return bytes(self.content[:HEADER])

    def committed(self) -> int:
        """How many frames count: those up to the last that ends a commit."""
        header = self.header()
        if len(header) < HEADER or not counts(header) or summed(header[:24], 0, 0) != struct.unpack(">II", header[24:]):
            return 0
        while True:
            at = HEADER + len(self.frames) * self.step()
            frame = bytes(self.content[at:at + self.step()])
            if len(frame) < self.step() or frame[8:16] != header[16:24] or not any(frame[:4]):
                break
            sums = self.frames[-1][2] if self.frames else struct.unpack(">II", header[24:])
            sums = summed(frame[:8] + frame[HEAD:], *sums)
            if sums != struct.unpack(">II", frame[16:HEAD]):
                break
            page, ends = struct.unpack(">II", frame[:8])
            self.frames.append((page, ends, sums))
        return max((number for number, it in enumerate(self.frames, 1) if it[1]), default=0)

    def page(self, number: int) -> bytes:
        """What a frame has as its page."""
        at = HEADER + number * self.step() + HEAD
        return bytes(self.content[at:at + self.step() - HEAD])


class Moment(NamedTuple):
    """What a reader finds between two events: the header, how many commits file and log stand for, the pages that are read in the log, and the pages
    of the file that the event before it changed, with what they were before."""

    header: bytes
    commits: int
    logged: frozenset[int]
    before: dict[int, bytes]


class Play:
    """The events of a desk, played from its file and its log as they were."""

    def __init__(self, size: int, file: bytes, log: bytes, events: list[Event]) -> None:
        self.size, self.events = size, events
        self.file, self.log = bytearray(file), Log(log)
        self.states = [self.pages()]
        self.moments: list[Moment] = []
        self.wrong: list[str] = []  # what breaks the order
        self.answered, self.base, self.headers = 0, 0, [self.log.header()]
        self.note({})
        for number, event in enumerate(events):
            self.play(number, event)

    def pages(self) -> dict[int, bytes]:
        """The pages of the file."""
        return {at // self.size + 1: bytes(self.file[at:at + self.size]) for at in range(0, len(self.file), self.size)}

    def play(self, number: int, event: Event) -> None:
        """Plays an event, and notes what it leaves."""
        before: dict[int, bytes] = {}
        if event.kind == "reply":
            self.answered += 1
        elif event.kind == "log":
            end = HEADER + self.log.committed() * self.log.step()
            if HEADER <= event.at < end and self.log.committed():
                self.wrong.append(f"event {number} overwrites a frame that counts")
            self.log.change(event)
        else:
            before = self.change_file(number, event)
        self.note(before)

    def change_file(self, number: int, event: Event) -> dict[int, bytes]:
        """Changes the file, and returns the pages that are changed as they were."""
        if event.content is None:
            gone = {page: it for page, it in self.pages().items() if page * self.size > event.at} if event.at < len(self.file) else {}
            del self.file[event.at:]
            return gone
        page = event.at // self.size + 1
        if page not in self.moments[-1].logged:
            self.wrong.append(f"event {number} writes page {page}, which has no frame")
        before = bytes(self.file[(page - 1) * self.size:page * self.size])
        self.file.extend(bytes(max(event.at - len(self.file), 0)))
        self.file[event.at:event.at + len(event.content)] = event.content
        return {page: before}

    def note(self, before: dict[int, bytes]) -> None:
        """Notes a moment, and a state where a commit counts for the first time."""
        header = self.log.header()
        if self.moments and header != self.headers[-1]:
            if header in self.headers and counts(header):
                self.wrong.append("a header comes once more")
            self.headers.append(header)
            self.base = self.moments[-1].commits
        committed = self.log.committed()
        ends = [number for number, it in enumerate(self.log.frames[:committed], 1) if it[1]]
        for commit in range(len(self.states) - self.base, len(ends) + 1):
            first = ends[commit - 2] if commit > 1 else 0
            state = {**self.states[-1], **{self.log.frames[it][0]: self.log.page(it) for it in range(first, ends[commit - 1])}}
            self.states.append({page: it for page, it in state.items() if page <= self.log.frames[ends[commit - 1] - 1][1]})
        commits = self.base + len(ends)
        if commits < self.answered or self.moments and commits < self.moments[-1].commits:
            self.wrong.append(f"{commits} commits count where {self.answered} are answered")
        self.moments.append(Moment(header, commits, frozenset(it[0] for it in self.log.frames[:committed]), before))


class Readings:
    """What readers find who read the file and the log of a play."""

    def __init__(self, play: Play, file: bytes) -> None:
        self.play = play
        # The file as it was at each moment: each page with the moments from which it was so.
        self.history: dict[int, list[tuple[int, bytes]]] = {}
        now = bytearray(file)
        for number in range(len(play.moments)):
            event = play.events[number - 1] if number else Event("all")
            if event.kind == "file" and event.content is None:
                del now[event.at:]
            elif event.kind == "file" and event.content is not None:
                now.extend(bytes(max(event.at - len(now), 0)))
                now[event.at:event.at + len(event.content)] = event.content
            pages = {it // play.size + 1 for it in range(0, len(now), play.size)} if number == 0 else set(play.moments[number].before)
            for page in pages:
                self.history.setdefault(page, []).append((number, bytes(now[(page - 1) * play.size:page * play.size])))

    def seen(self, page: int, first: int, last: int) -> set[bytes]:
        """What a page of the file is at any moment from one to another."""
        history = self.history.get(page, [])
        later = {content for number, content in history if first < number <= last}
        return later | {content for number, content in history[:sum(number <= first for number, _ in history)][-1:]}

    def is_state(self, log_read: int, first: int, last: int) -> bool:
        """Whether the log as it was at one moment, and each page of the file as it was at any moment from `first` to `last`, are always a state."""
        log, state = self.play.moments[log_read], self.play.states[self.play.moments[log_read].commits]
        return all(self.seen(page, first, last) == {content} for page, content in state.items() if page not in log.logged)

    def reigns(self) -> list[tuple[int, int]]:
        """The first and the last moment of each header."""
        headers = [it.header for it in self.play.moments]
        starts = [it for it in range(len(headers)) if it == 0 or headers[it] != headers[it - 1]]
        return list(zip(starts, [it - 1 for it in [*starts[1:], len(headers)]]))

    def right(self) -> tuple[int, int]:
        """How many pairs of moments there are for a reader of the file and then the log, and how many of them give no state."""
        pairs = wrong = 0
        for first, last in self.reigns():
            for log_read in range(first, last + 1):
                # What holds of pages read at any moment from the header's first one on holds of all that begin later.
                pairs += log_read - first + 1
                wrong += not self.is_state(log_read, first, log_read)
        return pairs, wrong

    def log_first(self) -> int:
        """How many pairs of moments give no state to a reader of the log and then the file, who sees the same header."""
        return sum(not self.is_state(log_read, last, last) for first, last in self.reigns() for log_read in range(first, last + 1))

    def without_first_byte(self) -> int:
        """How many rounds give no state to a reader of the file and then the log, who sees the same header before and after with 0 as its first byte."""
        first: dict[bytes, int] = {}
        for moment, it in enumerate(self.play.moments):
            if not counts(it.header):
                first.setdefault(it.header, moment)
        return sum(not self.is_state(last, first.get(self.play.moments[last].header, last), last) for _, last in self.reigns())

    def without_header(self) -> int:
        """How many give no state to a reader of the file and then the log, who doesn't look at the header."""
        ends = [last for _, last in self.reigns()]
        return sum(not self.is_state(log_read, file_read, file_read) for file_read in ends for log_read in ends if file_read < log_read)


def cuts_of(log: Log) -> list[int]:
    """Where a reader may end its first piece of a log: at frames, at their gates, within their heads and their pages."""
    step = log.step()
    return [HEADER + at + it for at in range(0, max(len(log.content) - HEADER, 0), step) for it in (0, 4, 8, 9, 16, HEAD, step // 2)]


def wrong_pieces(play: Play, logs: list[Log]) -> tuple[int, int]:
    """How many logs that are read in two pieces, under one header, there are, and of how many the commits aren't between those of both moments."""
    count = wrong = 0
    for last, second in enumerate(logs):
        for first in range(last, -1, -1):
            if play.moments[first].header != play.moments[last].header:
                break
            for cut in cuts_of(second) if logs[first].content != second.content else []:
                copy = Log(bytes(logs[first].content[:cut]) + bytes(second.content[cut:]))
                commits = sum(bool(it[1]) for it in copy.frames[:copy.committed()])
                base = play.moments[first].commits - sum(bool(it[1]) for it in logs[first].frames[:logs[first].committed()])
                count += 1
                wrong += not play.moments[first].commits <= base + commits <= play.moments[last].commits
    return count, wrong


class LogTestCase(DeskTestCase):
    """A test case over the recorded writes of a desk."""

    IN_MEMORY = True

    def setUp(self) -> None:
        super().setUp()
        strace = shutil.which("strace")
        if strace is None:
            self.skipTest("there is no strace")
        if subprocess.run([strace, "-o", self.folder / "none", "true"], capture_output=True, timeout=SECONDS).returncode:
            self.skipTest("strace may not look at a program")

    def content(self, name: str) -> bytes:
        return (self.folder / name).read_bytes()

    def recorded(self, name: str, lines: list[bytes]) -> list[Event]:
        """Has the desk execute lines, and returns its events."""
        words = ["strace", "-f", "-y", "-xx", "-s", "10000000", "-o", "trace", "-e", "trace=pwrite64,write,ftruncate"]
        ran = subprocess.run(
            [*words, str(self.desk.path), "run", name], cwd=self.folder, input=b"".join(lines), capture_output=True, timeout=SECONDS)
        self.check_set_up(f"the desk under strace, {ran.stderr!r}", (ran.returncode, ran.stdout.count(b'"ok"')), (0, len(lines)))
        return list(read_events(self.folder / "trace"))

    def check_order(self, play: Play, readings: Readings, rounds: int) -> None:
        """Checks the order of the writes, and what readers find."""
        self.check("what breaks the order", play.wrong[:5], [])
        begun = len({it for it in play.headers if counts(it)})
        self.check_true(f"the log is begun anew {begun} times", begun >= rounds)
        pairs, wrong = readings.right()
        self.check(f"of {pairs} pairs of moments for file and then log, those that give no state", wrong, 0)
        self.count(pairs - 1)
        self.check_true("the log read first is caught", readings.log_first())
        self.check_true("a reader without the header is caught", readings.without_header())
        self.check_true("a reader without its first byte is caught", readings.without_first_byte())
        self.note(f"{len(play.events)} events, {len(play.states) - 1} commits, {begun} headers, {pairs} pairs of moments")


def commands(first: int, count: int) -> list[bytes]:
    """Lines that add classes, and receive lots once there is a definition."""
    made: list[dict[str, object]] = [{"do": "add_class", "class": "RAW", "name": ""}, {"do": "add_definition", "def": "SUGAR", "class": "RAW", "name": "", "unit": "g"}]
    made += [{"do": "receive", "lot": f"L-{it}", "def": "SUGAR", "amount": 5, "place": "A" * (it % 60)} for it in range(first + count)]
    return [json.dumps({"at": 100, "by": "anna", **it}).encode() + b"\n" for it in made[first:first + count]]


class Order(LogTestCase):
    """The order of the writes over checkpoints."""

    def test_checkpoints_as_runs_end(self) -> None:
        """Plays three runs of two commands over pages of 1,024 bytes; the log is read whole, and in two pieces."""
        self.check_set_up("a desk", self.desk.run("init", "plant.db").status, 0)
        file, log = self.content("plant.db"), self.content("plant.db-wal")
        events = [event for run in range(3) for event in self.recorded("plant.db", commands(2 * run, 2))]
        play = Play(1024, file, log, events)
        self.check("the file at the end", bytes(play.file), self.content("plant.db"))
        self.check("the log at the end", bytes(play.log.content), self.content("plant.db-wal"))
        self.check("the commits", len(play.states) - 1, 6)
        self.check_order(play, Readings(play, file), 3)
        logs, now = [Log(log)], Log(log)
        for event in events:
            if event.kind == "log":
                now.change(event)
            logs.append(Log(bytes(now.content)))
        count, wrong = wrong_pieces(play, logs)
        self.check(f"of {count} logs that are read in two pieces, those of no moment between", wrong, 0)
        self.count(count - 1)

    def test_checkpoints_while_the_desk_books(self) -> None:
        """Plays one run over pages of 65,536 bytes, of which 64 fill a log."""
        with sqlite3.connect(self.folder / "large.db") as database:
            database.executescript("PRAGMA page_size = 65536; CREATE TABLE t (x); DROP TABLE t; VACUUM;")
        database.close()
        self.check_set_up("a desk", self.desk.run("init", "large.db").status, 0)
        file, log = self.content("large.db"), self.content("large.db-wal")
        play = Play(65536, file, log, self.recorded("large.db", commands(0, 60)))
        self.check("the file at the end", bytes(play.file) == self.content("large.db"), True)
        self.check("the commits", len(play.states) - 1, 60)
        self.check_order(play, Readings(play, file), 4)
