"""make/tables.py, which writes what repeats the description of the tables: that the files are what it gives, and what another table changes.

It runs over a copy of the files that it writes.
"""
from __future__ import annotations

import types
from collections.abc import Sequence
from typing import Any

from tests.support.regions import RegionsTestCase

# A table of the newest schema, before the end of the list, and the lookup of its rows.
DEPOT = '    Table("depot", "id:id name:text", "Depots.", schema=4, plain=True, looked_up="id"),\n]\n\n\n# ---- indexes and lookups\n'
DEPOT_BY_ID = '    ("depot_by_id", "depot", "id"),\n    ("edges", "edge", ""),\n'


class TablesTestCase(RegionsTestCase):
    """A test case over a copy of the files."""

    TOOLS = ("make/tables.py", "make/table_files.py", "make/schema_words.py", "make/table_homes.py", "make/table_words.py", "make/regions.py")

    def described(self, tool: types.ModuleType) -> Sequence[Any]:
        regions: Sequence[Any] = tool.table_files.files(tool.described())
        return regions

    def add_depot(self) -> None:
        """Adds a table to the description."""
        self.replace(self.TOOLS[0], "]\n\n\n# ---- indexes and lookups\n", DEPOT)
        self.replace(self.TOOLS[0], '    ("edges", "edge", ""),\n', DEPOT_BY_ID)


class Files(TablesTestCase):
    """What is in the repository."""

    def test_files_are_what_the_description_gives(self) -> None:
        self.check_files()


class Changes(TablesTestCase):
    """What the tool finds and writes."""

    def test_changed_file_is_found_and_written_anew(self) -> None:
        self.check_found_and_written_anew("crates/plant_tables/specs/DeskTableDefs.antt", 'name = codes "lot"', 'name = codes "lots"')

    def test_changed_region_is_found_and_written_anew(self) -> None:
        self.check_found_and_written_anew("crates/plant_tables/src/migration.rt", "table_defs::CREATE_EDGE]", "table_defs::CREATE_MARK]")

    def test_file_that_is_generated_as_a_whole_is_written_where_it_is_missing(self) -> None:
        before = self.texts()
        (self.repository.folder / "crates/plant_keyed/proofs/view/KeyedView/lot/Answers.antt").unlink()
        self.check("the check", self.written("--check")[0], 1)
        self.check("the writing", self.written(), (0, ""))
        self.check("the files", self.texts(), before)

    def test_missing_comment_of_a_region_is_reported(self) -> None:
        self.replace("crates/plant_tables/src/migration.rt", "---- end of the tables that each schema adds\n", "----\n")
        status, errors = self.written()
        self.check("the status", status, 1)
        self.check_true("the region", "migration.rt has 0 regions named the tables that each schema adds" in errors)

    def test_another_table_changes_what_is_generated_alone(self) -> None:
        before = self.texts()
        self.add_depot()
        self.check_regions_alone(before, ["crates/plant_keyed/proofs/view/KeyedView/depot/Answers.antt"])

    def test_another_table_has_its_lines(self) -> None:
        self.add_depot()
        self.written()
        count = len(self.tool.TABLES)
        self.check_lines([
            ("crates/plant_tables/src/table_defs.rt", '    "CREATE TABLE depot (id TEXT NOT NULL, name TEXT NOT NULL, UNIQUE (id)) STRICT";'),
            ("crates/plant_tables/src/table_defs.rt", f"pub fn desk_table_defs() -> [TableDef<'static>; {count + 1}]"),
            ("crates/plant_tables/specs/DeskTables.antt", f"rows_changed (change.Depot r) = changed_at {count} depot_table (row_of_depot r)"),
            ("crates/plant_tables/src/select_texts.rt", "        reading!(DEPOT, SELECT_DEPOT),"),
            ("crates/plant_keyed/src/lookup_texts.rt", 'pub(crate) const DEPOT_BY_ID: &str = "SELECT id, name FROM depot WHERE id = ?1 ORDER BY id";'),
        ])

    def test_other_words_are_answered_with_the_use(self) -> None:
        self.check_use()
