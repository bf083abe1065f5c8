"""The help of each program and of each word, which has to be the text of tests/help."""
from __future__ import annotations

import pathlib

from tests.support.cases import ProgramTestCase
from tests.support.program import PACKED, Program

FOLDER = pathlib.Path(__file__).resolve().parent / "help"

# The words of the desk.
WORDS = ("init", "run", "import", "trace", "record", "verify", "serve")

VERSION = b"1.0.0"


def text_of(name: str) -> bytes:
    """Returns the help that is kept under a name."""
    return (FOLDER / f"{name}.txt").read_bytes()


class Help(ProgramTestCase):
    """What --help and --version print, and where."""

    PROGRAMS = PACKED

    def test_help_of_each_program_is_as_kept(self) -> None:
        for name in PACKED:
            program = Program(name, self.folder)
            for word in "--help", "-h":
                self.check(f"{name} {word}", program.run(word), (0, text_of(name), b""))
            for word in "--version", "-V":
                self.check(f"{name} {word}", program.run(word), (0, b"%s %s\n" % (name.encode(), VERSION), b""))

    def test_help_of_each_word_of_the_desk_is_as_kept(self) -> None:
        desk = Program("desk", self.folder)
        for name in WORDS:
            for word in "--help", "-h":
                self.check(f"desk {name} {word}", desk.run(name, word), (0, text_of(f"desk_{name}"), b""))

    def test_help_is_kept_for_nothing_else(self) -> None:
        found = sorted(it.stem for it in FOLDER.glob("*"))
        self.check("the texts", found, sorted([*PACKED, *(f"desk_{it}" for it in WORDS)]))

    def test_help_makes_no_file_and_asks_no_input(self) -> None:
        desk = Program("desk", self.folder)
        for words in [["run", "help.db", "--help"], ["import", "help.db", "--at", "1", "--help"], ["serve", "help.db", "8080", "1", "-h"]]:
            self.check(words, desk.run(*words), (0, text_of(f"desk_{words[0]}"), b""))
        self.check("no file is made", list(self.folder.iterdir()), [])

    def test_help_that_is_not_written_is_a_fault(self) -> None:
        """Asks for help with a full device as standard output."""
        for name in PACKED:
            with open("/dev/full", "wb") as full:
                ended = Program(name, self.folder).run("--help", stdout=full)
            self.check(f"{name} --help to a full device", (ended.status, ended.errors), (3, b"fault: write\n"))
