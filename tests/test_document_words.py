"""make/words.py, which counts the words of the documents and of comments."""
from __future__ import annotations

import subprocess
import sys
from collections.abc import Mapping

from tests.support.cases import FolderTestCase
from tests.support.program import TOP
from tests.support.tools import loaded

TOOL = "make/words.py"


class DocumentWords(FolderTestCase):
    """What is counted, and what is above a limit."""

    def run_over(
        self, readme: str, *options: str, guide: str = "a\n", sources: Mapping[str, str] | None = None,
    ) -> tuple[int, str]:
        """Returns how the tool ends over a repository with these documents and these files of crates."""
        documents = {"README.md": readme, "CONTRIBUTING.md": "", "CHANGELOG.md": "", "bench/README.md": "", "docs/GUIDE.md": guide}
        for name, text in {**documents, **(sources or {})}.items():
            (self.folder / name).parent.mkdir(parents=True, exist_ok=True)
            (self.folder / name).write_text(text)
        (self.folder / "make").mkdir(exist_ok=True)
        (self.folder / TOOL).write_bytes((TOP / TOOL).read_bytes())
        ended = subprocess.run([sys.executable, self.folder / TOOL, *options], capture_output=True, text=True, timeout=60)
        return ended.returncode, ended.stdout

    def test_forms_are_counted_and_other_words_are_not(self) -> None:
        counted = loaded(TOOL).counted
        self.check("forms", counted("Tell tells told telling stand stands stood standing behind beside besides"), (11, 11))
        self.check("others", counted("standard understand outstanding stander teller"), (5, 0))
        self.check("code", counted("```\nask `stands`\n```\n"), (2, 1))
        self.check("signs", counted("| a | - | b2 |\n> $ :"), (2, 0))

    def test_each_document_is_printed_with_its_words(self) -> None:
        status, output = self.run_over("one two\n", guide="one\n")
        self.check("the status", status, 0)
        self.check("the lines", [it.split() for it in output.splitlines()], [
            ["2", "0.0", "README.md"], ["0", "0.0", "CONTRIBUTING.md"], ["0", "0.0", "CHANGELOG.md"], ["0", "0.0", "bench/README.md"],
            ["1", "0.0", "docs/GUIDE.md"], ["3", "all", "documents"],
        ])

    def test_five_of_a_thousand_are_too_many_and_fewer_are_not(self) -> None:
        self.check("five", self.run_over("word " * 995 + "told " * 5, "--check"), (1, "README.md: 5.0 of 1,000 words blur\n"))
        self.check("four", self.run_over("word " * 996 + "told " * 4, "--check"), (0, ""))

    def test_words_above_the_limit_are_reported(self) -> None:
        self.check("the limit", self.run_over("word " * 29_999, "--check"), (0, ""))
        self.check("one more", self.run_over("word " * 30_000, "--check"), (1, "all documents: 30001 words, above 30000\n"))

    def test_comments_of_a_crate_are_counted_and_its_code_is_not(self) -> None:
        sources = {
            "crates/desk/src/lib.rt": "//! One two\n//\nlet told = \"http://behind\"; // three told\n/// four\n",
            "crates/desk/src/page.rt": "const PAGE: &[u8] = br##\"\n// beside\n\"##;\n",
            "crates/desk/specs/A.antt": "-- five stands\ntold = x -- six\nx = y--z\n--\n-- ---- seven\n",
            "crates/desk/proofs/a/b/C.antt": "  -- eight\n",
            "crates/desk/README.md": "told\n",
            "crates/desk/must-fail/a.edit": "// told\n",
        }
        status, output = self.run_over("one\n", sources=sources)
        self.check("the status", status, 0)
        self.check("the last line", output.splitlines()[-1].split(), ["10", "200.0", "crates/desk,", "comments"])

    def test_comments_of_200_words_are_judged_and_fewer_are_not(self) -> None:
        for words, expected in ((199, (0, "")), (200, (1, "crates/desk: 5.0 of 1,000 words of comments blur\n")), (201, (0, ""))):
            sources = {"crates/desk/src/lib.rt": "// told" + " word" * (words - 1) + "\n"}
            self.check(f"{words} words", self.run_over("a\n", "--check", sources=sources), expected)

    def test_documents_and_comments_of_the_repository_keep_the_limits(self) -> None:
        ended = subprocess.run([sys.executable, TOP / TOOL, "--check"], capture_output=True, text=True, timeout=60)
        self.check("what is above a limit", (ended.returncode, ended.stdout), (0, ""))

    def test_unknown_option_ends_with_status_1(self) -> None:
        self.check("the status", self.run_over("a\n", "--all")[0], 1)
