"""make/questions.py, which writes what repeats the description of the questions: that the files are what it gives, and what another list changes.

It runs over a copy of the files that it writes, and of the documents that it reads.
"""
from __future__ import annotations

import shutil
import types
from collections.abc import Sequence
from typing import Any

from tests.support.program import TOP
from tests.support.regions import RegionsTestCase

DOCUMENTS = ("docs/FORMATS.md", "docs/openapi.json", "docs/schema.json")

# A list that is of something, with a cursor of two values, before the end of the description.
SHELVES = '    Listed("shelves", "The shelves of a lot.", of="lot", by="hold"),\n'

# What is said of that list where the documents don't have it.
LACKING = """docs/schema.json and the description differ in the question shelves
docs/openapi.json and the description differ in the path /v1/lists/shelves/{lot}
docs/openapi.json and the description differ in the path /v1/lists/shelves/{lot}/{above}
docs/FORMATS.md lacks the question shelves
docs/FORMATS.md lacks the path /v1/lists/shelves/LOT
"""


class QuestionsTestCase(RegionsTestCase):
    """A test case over a copy of the files."""

    TOOLS = ("make/questions.py", "make/question_files.py", "make/regions.py")

    def setUp(self) -> None:
        super().setUp()
        (self.repository.folder / "docs").mkdir()
        for document in DOCUMENTS:
            shutil.copy(TOP / document, self.repository.folder / document)

    def described(self, tool: types.ModuleType) -> Sequence[Any]:
        files: Sequence[Any] = tool.question_files.files(tool.described())
        return files

    def add_shelves(self) -> None:
        """Adds a list to the description."""
        self.replace(self.TOOLS[0], "]\n\n\ndef lacking(", f"{SHELVES}]\n\n\ndef lacking(")


class Files(QuestionsTestCase):
    """What is in the repository."""

    def test_files_are_what_the_description_gives(self) -> None:
        before = self.texts()
        self.check("the check", self.written("--check"), (0, ""))
        self.check("the writing", self.written(), (0, ""))
        self.check("the files", self.texts(), before)


class Changes(QuestionsTestCase):
    """What the tool finds and writes."""

    def test_changed_file_is_found_and_written_anew(self) -> None:
        self.check_found_and_written_anew("crates/plant_json_in/src/question_tables.rt", '"lot" => ', '"lots_of" => ')

    def test_question_that_the_documents_lack_is_told(self) -> None:
        self.add_shelves()
        self.check("the writing", self.written(), (1, LACKING))

    def test_path_that_the_description_lacks_is_told(self) -> None:
        self.replace("docs/openapi.json", '"/v1/moment"', '"/v1/minute"')
        told = "".join(f"docs/openapi.json and the description differ in the path /v1/{it}\n" for it in ("minute", "moment"))
        self.check("the check", self.written("--check"), (1, told))

    def test_another_list_has_its_lines(self) -> None:
        self.add_shelves()
        self.written()
        self.check_lines([
            ("crates/plant_json_in/src/question_tables.rt", "    Shelves,"),
            ("crates/plant_json_in/src/question_tables.rt", '        "shelves" => Some(AskedKind::List(ListKind::Shelves)),'),
            ("crates/plant_json_in/src/question_tables.rt", "        QuestionKind::List(ListKind::Shelves) => &[Lot, AfterHold],"),
            ("crates/plant_json_in/specs/QuestionValues.antt",
             "list_of list.Shelves (field.Id lot) cursor = option_map (L.Shelves lot) (hold_cursor cursor)"),
            ("crates/plant_json_in/proofs/QuestionsAreMade.antt",
             "list_made k.Shelves v = of_one k.Shelves (field.Id v.0) rule.HoldCursor tt (λ x. tt) v.1.0"),
            ("crates/plant_http_requests/src/route_table.rt", '            "/v1/lists/shelves/{lot}",'),
            ("crates/line_check/specs/QuestionWords.antt", f"place_of_asked (asked.List list.Shelves) = {len(self.tool.QUESTIONS) + 1}"),
        ])

    def test_other_words_are_answered_with_the_use(self) -> None:
        self.check_use()
