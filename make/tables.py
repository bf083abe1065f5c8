#!/usr/bin/env python3
"""The desk's tables, described once; writes the files that repeat the description.

    make/tables.py          writes each file anew
    make/tables.py --check  ends with status 1 where a file isn't what the description gives

make/templates/tables has the templates of the files, make/regions.py says how they are read, and make/table_files.py what they name. What isn't
alike for each table is written by hand.
"""
from __future__ import annotations

import dataclasses
import sys
from collections.abc import Sequence

import regions
import table_files
from regions import camel

# ---- kinds of columns


@dataclasses.dataclass(frozen=True)
class Kind:
    """What a column holds. Of a table whose rows are stored and read by generated code it also says how."""

    # The type in the file, and the rule in the check of rows: the name of a constant, or a variant.
    sql: str
    rule: str
    # The kind in specs, and its law.
    spec: str = ""
    law: str = ""
    # How code stores a field of a row, named @, and reads a column; why a value that was read obeys the rule.
    store: str = ""
    read: str = ""
    obeyed: str = ""
    # The number of a value in the order of rows, where it isn't the value.
    code: str = ""

    @property
    def is_number(self) -> bool:
        """Whether a value in the file is a number, and not a text."""
        return self.sql.startswith("INTEGER")


TEXT, INTEGER = "TEXT NOT NULL", "INTEGER NOT NULL"

KINDS = {
    "id": Kind(TEXT, "Id", "ids", "id_kind", "storing::id(&row.@)", "id", "id_obeyed"),
    "text": Kind(TEXT, "Text", "texts", "text_like", "storing::text(&row.@)", "text", "text_obeyed"),
    "unit": Kind(TEXT, "Unit", "units", "unit_kind", "storing::bytes(row.@.as_bytes())", "unit", "unit_obeyed"),
    "due": Kind(TEXT, "Due"),
    "content": Kind(TEXT, "AnyText"),
    "id_or_empty": Kind(TEXT, "IdOrEmpty"),
    "recipe_state": Kind(TEXT, "RecipeState"),
    "job_state": Kind(TEXT, "JobState"),
    "batch_state": Kind(TEXT, "BatchState"),
    "recall_state": Kind(TEXT, "RecallState"),
    "event_word": Kind(TEXT, "EventWord"),
    "id_or_null": Kind("TEXT", "IdOrNull"),
    "text_or_null": Kind("TEXT", "TextOrNull"),
    "moment_or_null": Kind("INTEGER", "MOMENT_OR_NULL"),
    "sublot_or_null": Kind("INTEGER", "SUBLOT_OR_NULL"),
    "line_number": Kind(INTEGER, "Whole"),
    "version": Kind(INTEGER, "VERSION"),
    "amount": Kind(INTEGER, "AMOUNT"),
    "quantity": Kind(INTEGER, "QUANTITY"),
    "priority": Kind(INTEGER, "PRIORITY"),
    "moment": Kind(
        INTEGER, "MOMENT", "moments", "below_kind greatest_moment", "storing::moment(row.@)", "moment", "(number_obeyed 0 greatest_moment)",
    ),
    "seq": Kind(INTEGER, "SEQ"),
    "sublot": Kind(INTEGER, "SUBLOT"),
    "attempt": Kind(INTEGER, "ATTEMPT"),
    "next": Kind(INTEGER, "NEXT"),
    "phase": Kind(INTEGER, "PHASE"),
    "flag": Kind(INTEGER, "Number(0, 1)"),
    "line_kind": Kind(INTEGER, "Number(1, 4)"),
    "movement_kind": Kind(INTEGER, "Number(1, 7)"),
    "edge_kind": Kind(INTEGER, "Number(1, 3)", code="edge_kind_number"),
    "mark_kind": Kind(INTEGER, "Number(1, 2)", code="mark_kind_number"),
    "number": Kind(INTEGER, ""),
}


@dataclasses.dataclass(frozen=True)
class Column:
    """A column: its name in the file, the row's field, and its kind."""

    name: str
    field: str
    kind: Kind


def columns_of(text: str) -> list[Column]:
    """Columns that are written NAME:KIND, or NAME=FIELD:KIND where the row's field has another name."""
    columns = []
    for word in text.split():
        place, kind = word.split(":")
        name, _, field = place.partition("=")
        columns.append(Column(name, field or name, KINDS[kind]))
    return columns


# ---- tables


@dataclasses.dataclass(frozen=True)
class Taken:
    """A change that takes rows away: the constant of its text, the columns that are given, and what keeps the other rows."""

    change: str
    fields: str
    constant: str
    columns: str
    less: str
    doc: str = ""


@dataclasses.dataclass
class Table:
    """A table. What is empty follows from the name."""

    # In the file; its columns as `columns_of` reads them; its rows in words.
    name: str
    written: dataclasses.InitVar[str]
    doc: str
    # The sets of columns that are unique, of which the first is the key; the first schema that has the table.
    unique: dataclasses.InitVar[Sequence[str]] = ("id",)
    schema: int = 1
    # The columns, and those of each unique set.
    columns: list[Column] = dataclasses.field(init=False)
    keys: list[list[Column]] = dataclasses.field(init=False)
    # In the names of functions. Where rows are stored as those of another type: that type, and in the names of functions of those.
    one: str = ""
    stored: str = ""
    stored_row: str = ""
    # The type of a row, the variant of RowChange, the field of the rows, the order of the rows, and that their values obey their rules.
    row: str = ""
    change: str = ""
    list: str = ""
    order: str = ""
    values: str = ""
    # Whether it is plant_base that says what values a row has, as of each plain one.
    base_values: bool = False
    # How a row is read from its columns, and why it is read again as it was written.
    read: str = ""
    again: str = ""
    # Whether a row may replace the one with its key, and whether rows are only added at the end.
    updates: bool = False
    grows: bool = False
    # What the text that only adds a row is for, of a table whose rows may be replaced.
    added: str = ""
    taken: Taken | None = None
    # Whether its rows have a field for each column and are found by one id, so that code stores, reads and finds them alike.
    plain: bool = False
    # Why its columns fit.
    fits: str = "refl"
    # Whether the state has its rows; the type and the field of those, how they are made of those of the table, and what they lack;
    # and how the rows of the table are made of a state s in a schema k.
    in_state: bool = True
    state_row: str = ""
    state_list: str = ""
    bare: str = ""
    lacks: str = ""
    made: str = ""
    # The name of the id by which a lookup finds a row, where a generated proof says that it does.
    looked_up: str = ""
    place: int = 0

    def __post_init__(self, written: str, unique: Sequence[str]) -> None:
        self.columns = columns_of(written)
        self.keys = [[next(it for it in self.columns if it.name == word) for word in key.split()] for key in unique]
        self.one = self.one or self.name
        self.stored = self.stored or self.one
        self.row = self.row or camel(self.one)
        self.stored_row = self.stored_row or self.row
        self.change = self.change or camel(self.one)
        self.list = self.list or self.one + "s"
        self.order = self.order or self.one + "_order"
        self.state_row = self.state_row or self.row
        self.state_list = self.state_list or self.list
        self.values = self.values or f"Has{self.row}Values"
        self.read = self.read or self.stored + "_from"
        self.again = self.again or f"(λ r h. {self.one}_reads.again r h tt)"

    @property
    def has_base_values(self) -> bool:
        """Whether it is plant_base that says what values a row has."""
        return self.plain or self.base_values

    @property
    def rows(self) -> str:
        """How the rows are made of a state s in a schema k."""
        return self.made or (f"s.{self.list}" if self.schema == 1 else f"{self.list}_in k s.{self.list}")

    def number(self, column: str) -> int:
        """The place of a column, from 1."""
        return [it.name for it in self.columns].index(column) + 1


TABLES = [
    Table(
        "meta", "k:number schema:number seq=position.seq:seq at=position.at:moment",
        "The one row with the schema of the tables, the number of accepted commands and the moment of the last.",
        unique=["k"], list="meta", updates=True, in_state=False,
    ),
    Table("class", "id:id name:text", "Material classes.", list="classes", plain=True, looked_up="id"),
    Table("definition", "id:id class:id name:text unit:unit", "Material definitions.", plain=True, looked_up="id"),
    Table(
        "recipe",
        "id=header.recipe:id version=header.version:version product:id base:amount low:amount high:amount title:text state:recipe_state",
        "Versions of master recipes, without their lines.", unique=["id version"], updates=True,
    ),
    Table(
        "recipe_line",
        "recipe:id version:version no=number:line_number kind:line_kind def:id_or_null qty:quantity t1:id_or_empty t2:text t3:id_or_empty",
        "The lines of master recipes.", unique=["recipe version no"], one="master_line", again="master_line_again",
    ),
    Table(
        "job", "id=order.order:id recipe:id version:version size:amount due:due priority:priority state:job_state",
        "Orders.", updates=True, looked_up="order",
    ),
    Table(
        "batch", "id=batch.id:id job:id at:moment by_who:text note:text state:batch_state attempt:attempt next:next closed:flag",
        "Batches, with the columns that are the fold of their events. No two are of one order.",
        unique=["id", "job"], row="BatchRow", list="batches", order="batch_row_order", updates=True,
        state_row="Batch", bare="map batch_of_row", lacks="the columns that follow from their events",
        made="map (batch_row s.control_lines s.events) s.batches",
    ),
    Table(
        "control_line", "batch:id no=number:line_number kind:line_kind def:id_or_null qty:quantity t1:id_or_empty t2:text t3:id_or_empty",
        "The lines of control recipes.", unique=["batch no"], again="control_line_again",
    ),
    Table(
        "batch_event", "seq:seq batch:id word:event_word phase:phase at:moment by_who:text note:text",
        "What happened to batches.",
        unique=["seq"], one="event", stored="batch_event", row="BatchEvent", values="HasEventRowValues", grows=True,
    ),
    Table("lot", "id:id def:id", "Material lots.", looked_up="id", base_values=True),
    Table(
        "sublot", "lot:id no=number:sublot place:text stock:quantity", "Material sublots, with their stock.",
        unique=["lot no"], updates=True, added="Adds a sublot of a lot that is added with it.",
        state_row="Place", state_list="places", bare="map place_of_row", lacks="their stock",
        made="map (sublot_row s.movements) s.places",
    ),
    Table(
        "movement",
        "seq:seq line:line_number kind:movement_kind lot:id sub:sublot lot2:id_or_null sub2:sublot_or_null batch:id_or_null"
        " amount:amount at:moment by_who:text note:text",
        "Bookings.", unique=["seq line"], stored="booked", stored_row="BookedRow",
        values="HasMovementRowValues", read="movement_read", again="movement_again", grows=True,
    ),
    Table(
        "hold", "lot:id id:id at:moment by_who=by:text note:text", "The holds of lots.",
        unique=["lot id"], base_values=True,
        taken=Taken("Unhold", "lot hold", "DELETE_HOLD", "lot id", less="without_hold"),
    ),
    Table(
        "edge", "kind:edge_kind a=from:id b=to:id", "Edges of the genealogy.",
        unique=["kind a b"], row="EdgeRow", values="HasEdgeValues", schema=2, updates=True, in_state=False,
        made="edges_in k s.movements",
    ),
    Table(
        "receipt", "id=reference:id seq:seq content:content", "What is kept of accepted commands that had a reference.",
        schema=3, values="HasReceiptRowValues", again="receipt_again",
    ),
    Table(
        "recall",
        "id:id lot:id state:recall_state at:moment by_who:text note:text lift_at:moment_or_null lift_by:text_or_null lift_note:text_or_null",
        "The recalls of lots.", schema=4, updates=True, stored="stated", stored_row="StatedRecall", read="recall_read", again="recall_again",
        fits="(stated_lawful.fits (stated_of c.in-Recall.row))", looked_up="id", base_values=True, made="recalls_in k s.recalls",
    ),
    Table(
        "mark", "recall:id kind:mark_kind id:id", "The marks on what open recalls reach.",
        unique=["recall kind id"], schema=4, in_state=False, made="marks_in k s.recalls s.movements",
        taken=Taken("Unmark", "recall", "DELETE_MARKS", "recall", less="without_marks", doc="Takes all marks of a recall away."),
    ),
]


# ---- indexes and lookups


@dataclasses.dataclass(frozen=True)
class Index:
    """An index TABLE_by_WHAT, by its columns, in the order in which they are made."""

    name: str
    columns: str
    doc: str
    # The first schema that has it.
    schema: int = 4

    @property
    def table(self) -> str:
        return self.name.split("_by_")[0]


INDEXES = [
    Index("batch_event_by_batch", "batch", "the events of a batch", schema=2),
    Index("movement_by_lot", "lot seq line", "the bookings that name a lot first, in their order", schema=2),
    Index("movement_by_batch", "batch", "the bookings for a batch", schema=2),
    Index("edge_by_end", "kind b a", "the edges that lead to a node, in the order of those that they come from", schema=2),
    Index("mark_by_node", "kind id", "the marks on a lot or batch"),
    Index("definition_by_class", "class id", "the definitions of a class, by their ids"),
    Index("job_by_state", "state id", "the orders in a state, by their ids"),
    Index("batch_by_closed", "closed id", "the batches that aren't closed, by their ids"),
    Index("lot_by_def", "def id", "the lots of a definition, by their ids"),
    Index("recall_by_state", "state id", "the recalls that weren't lifted, by their ids"),
    Index("recipe_by_state", "state id version", "the versions of recipes in a state, in their order"),
    Index("movement_by_lot2", "lot2 seq line", "those that name it second"),
    Index("job_by_due", "state due id", "the orders in a state, by when they are due, and those of one moment by their ids"),
    Index("receipt_by_seq", "seq", "the receipts of commands, by their numbers"),
    Index("sublot_by_stock", "stock lot no", "the sublots that have stock, by how much"),
]

# The lookups of single rows and of lists that are read as a whole: the name of each, its table, and the columns whose values are given.
LOOKUPS = [
    ("meta", "meta", ""),
    ("class_by_id", "class", "id"),
    ("definition_by_id", "definition", "id"),
    ("recipe_by_key", "recipe", "id version"),
    ("versions_of_recipe", "recipe", "id"),
    ("lines_of_recipe", "recipe_line", "recipe version"),
    ("job_by_id", "job", "id"),
    ("batch_by_id", "batch", "id"),
    ("batch_by_job", "batch", "job"),
    ("lines_of_batch", "control_line", "batch"),
    ("events_of_batch", "batch_event", "batch"),
    ("lot_by_id", "lot", "id"),
    ("sublot_by_key", "sublot", "lot no"),
    ("sublots_of_lot", "sublot", "lot"),
    ("movements_of_batch", "movement", "batch"),
    ("movements_of_lot", "movement", "lot"),
    ("movements_of_lot_and_kind", "movement", "lot kind"),
    ("movements_into_lot", "movement", "lot2"),
    ("hold_by_key", "hold", "lot id"),
    ("holds_of_lot", "hold", "lot"),
    ("receipt_by_id", "receipt", "id"),
    ("recall_by_id", "recall", "id"),
    ("marks_on_node", "mark", "kind id"),
    ("edges_from", "edge", "kind a"),
    ("edges_to", "edge", "kind b"),
    ("edges", "edge", ""),
]


@dataclasses.dataclass(frozen=True)
class Desk:
    """The description as a whole."""

    tables: list[Table]
    indexes: list[Index]
    lookups: list[tuple[str, str, str]]

    def table(self, name: str) -> Table:
        """The table of this name."""
        return next(it for it in self.tables if it.name == name)


def described() -> Desk:
    """The description, with the place of each table."""
    for place, table in enumerate(TABLES):
        table.place = place
    return Desk(TABLES, INDEXES, LOOKUPS)


def main() -> int:
    return regions.run("make/tables.py", __doc__, "tables", table_files.files(described()))


if __name__ == "__main__":
    sys.exit(main())
