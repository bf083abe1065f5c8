"""Sessions: lines that are told to a desk, and what it has to answer them."""
from __future__ import annotations

import dataclasses
import pathlib
import re

from tests.support import program, sqlite
from tests.support.cases import DeskTestCase, good

# The folder of the sessions that are written out. Of each file a line behind "> " is told to the desk, and the line after it is what the
# desk has to answer.
FOLDER = program.EXAMPLES / "sessions"

# The most bytes of a line.
LINE_LIMIT = 262_144

# What is done with the product of the batch of the session a_batch_runs_to_its_close, behind its fifteen commands.
MORE = [
    '"do":"split","lot":"D-1","sub":0,"amount":100,"new":"D-2","place":"A1"',
    '"do":"divide","lot":"D-1","sub":0,"amount":50,"place":"A2"',
    '"do":"merge","new":"D-3","place":"A3","parts":[{"lot":"D-2","sub":0,"amount":60},{"lot":"D-1","sub":1,"amount":50}]',
    '"do":"hold","lot":"D-1","hold":"H-1"',
    '"do":"unhold","lot":"D-1","hold":"H-1"',
]

# The edges of those twenty commands.
EDGES = [(1, "F-1", "B-1"), (2, "B-1", "D-1"), (3, "D-1", "D-2"), (3, "D-1", "D-3"), (3, "D-2", "D-3")]


@dataclasses.dataclass
class Session:
    """Lines that are told to a desk, and what it answers them."""

    name: str = ""
    told: bytes = b""
    wanted: bytes = b""

    def accepted(self, *bodies: str) -> Session:
        """Adds commands that are accepted."""
        for number, body in enumerate(bodies, self.count() + 1):
            self.told += b'{"at":100,"by":"",%s}\n' % body.encode()
            self.wanted += b'{"ok":%d}\n' % number
        return self

    def refused(self, name: str, number: int, body: str) -> Session:
        """Adds a command that is refused."""
        self.told += b'{"at":100,"by":"",%s}\n' % body.encode()
        self.wanted += b'{"name":"%s","refused":%d}\n' % (name.encode(), number)
        return self

    def asked(self, question: str, answer: str) -> Session:
        """Adds a question."""
        self.told += question.encode() + b"\n"
        self.wanted += answer.encode() + b"\n"
        return self

    def count(self) -> int:
        """Returns how many commands are accepted: a repeat is answered the number that it got."""
        return len({it for it in self.wanted.split(b"\n") if it.startswith(b'{"ok":')})

    def status(self) -> int:
        """Returns with which status a run of the session ends: 1 where a line is refused. That a command would be refused is an answer."""
        return int(any(b'"refused":' in it for it in self.wanted.split(b"\n") if not it.startswith(b'{"accepted":')))

    def ended(self) -> tuple[int, bytes, bytes]:
        """Returns how a run of the session ends."""
        return (self.status(), self.wanted, b"")


def lines_of(text: bytes) -> list[bytes]:
    """Returns the lines of a text, each with the LF that ends it."""
    return re.findall(rb"[^\n]*\n|[^\n]+", text)


def files() -> list[pathlib.Path]:
    """Returns the paths of the sessions that are written out."""
    return sorted(FOLDER.glob("*.txt"))


def read(path: pathlib.Path) -> Session:
    """Returns the session of a file."""
    session = Session(path.stem)
    for line in lines_of(path.read_bytes()):
        if line.startswith(b"> "):
            session.told += line[2:]
        elif not line.startswith(b"#"):
            session.wanted += line
    return session


def named(name: str) -> Session:
    """Returns the session of the file of this name."""
    return read(FOLDER / f"{name}.txt")


def whole_batch() -> Session:
    """Returns the session of a batch from its class to its closing."""
    return named("a_batch_runs_to_its_close")


def twenty_commands() -> Session:
    """Returns a session of twenty commands, of which the first fifteen are those of the whole batch that are accepted."""
    batch = whole_batch()
    pairs = zip(lines_of(batch.told), lines_of(batch.wanted))
    session = Session("twenty commands", told=b"".join(told for told, wanted in pairs if wanted.startswith(b'{"ok":')))
    session.told += b"".join(b'{"at":310,"by":"ben",%s}\n' % it.encode() for it in MORE)
    session.wanted = b"".join(b'{"ok":%d}\n' % it for it in range(1, 21))
    return session


class SessionTestCase(DeskTestCase):
    """A test case that runs sessions."""

    def check_session(self, session: Session) -> None:
        """Runs a session over memory, and over a file in two runs, the second of which reopens what the first left. The file is then good,
        with as many commands as were accepted, and the marks in it are what the open recalls reach."""
        self.check(session.name, self.desk.run(told=session.told), session.ended())
        self.check_over_file(session, "session.db")
        (self.folder / "session.db").unlink()

    def check_over_file(self, session: Session, file: str) -> None:
        """Runs a session over a file in two runs, and looks at what they leave."""
        told = lines_of(session.told)
        half = len(told) // 2
        runs = [self.desk.run("run", file, told=b"".join(it)) for it in (told[:half], told[half:])]
        found = (runs[0].status | runs[1].status, runs[0].output + runs[1].output, runs[0].errors + runs[1].errors)
        self.check(f"{session.name}, over a file", found, session.ended())
        self.check(f"{session.name}, verified", self.desk.run("verify", file), good(session.count()))
        marks, wanted = sqlite.marks_and_reached(self.folder / file)
        self.check(f"{session.name}, its marks", marks, wanted)

    def run_uncounted(self, file: str, session: Session) -> None:
        """Runs a session over a file that a test begins with."""
        ended = self.desk.run("run", file, told=session.told)
        if ended != session.ended():
            raise AssertionError(f"{session.name} over {file}: {ended}, wanted {session.ended()}")
