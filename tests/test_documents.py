"""The examples of documents: each command is run, and prints what stands there, byte for byte (tests/support/documents.py)."""
from __future__ import annotations

import difflib
import pathlib

from tests.support import documents
from tests.support.cases import CountedTestCase, ProgramTestCase
from tests.support.documents import Example, WrongDocument, examples_of
from tests.support.http import free_port
from tests.support.program import TOP, path_of

# How often a document is run at most where another program has taken its port.
ATTEMPTS = 3


class Documents(ProgramTestCase):
    """The documents of the repository that have examples."""

    PROGRAMS = ("desk",)

    def test_examples_of_readme_print_what_stands_there(self) -> None:
        self.check_document("README.md")

    def test_examples_of_the_document_print_what_stands_there(self) -> None:
        self.check_document("docs/EXAMPLES.md")

    def check_document(self, name: str) -> None:
        """Runs the examples of a document, and compares what each prints."""
        examples = examples_of((TOP / name).read_bytes())
        for _ in range(ATTEMPTS):
            with self.new_folder() as folder:
                printed, why = documents.ran(examples, pathlib.Path(folder), path_of("desk"), free_port())
            wrong = [text for example, text in zip(examples, printed) if text != example.wanted]
            if not any(b"fault: net" in (text or b"") for text in wrong):
                break
        for example, text in zip(examples, printed):
            self.check_example(f"{name}:{example.line}: {example.typed()}", example, text)
        if why:
            self.fail(f"{name}: the examples break off: {why}")

    def check_example(self, case: str, example: Example, printed: bytes | None) -> None:
        """Compares what a command printed, none where it wasn't run, with what stands there."""
        self.count()
        with self.subTest(case=case):
            if printed is None:
                self.fail("it was not run")
            lines = difflib.unified_diff(documents.shown(example.wanted), documents.shown(printed), lineterm="", n=1)
            self.assertEqual(printed, example.wanted, "\n".join(list(lines)[2:]))


class Examples(CountedTestCase):
    """How examples are taken out of a document."""

    def test_commands_and_what_they_print_are_taken(self) -> None:
        [first, second] = examples_of(b"a\n```console\n$ cat << 'END'\n> b\n> END\nb\n$ true\n```\n$ none\n")
        self.check("a command of three lines", (first.line, first.command, first.wanted), (3, b"cat << 'END'\nb\nEND\n", b"b\n"))
        self.check("a command that prints nothing", (second.line, second.command, second.wanted), (7, b"true\n", b""))
        self.check("a command as it stands there", first.typed(), "$ cat << 'END'\n> b\n> END")

    def test_document_without_an_example_is_wrong(self) -> None:
        for text, why in [
            (b"```console\nb\n$ a\n```\n", "line 2 stands in a block before its first command"),
            (b"```console\n$ a\n", "its last block has no end"),
            (b"a\n", "it has no example"),
        ]:
            with self.assertRaises(WrongDocument) as raised:
                examples_of(text)
            self.check(text, str(raised.exception), why)
