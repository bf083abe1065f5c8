"""The files of make/tables.py: each from its template in make/templates/tables, at its path there, over these sets of tables and with these words."""
from __future__ import annotations

from collections.abc import Sequence
from typing import TYPE_CHECKING

from regions import Region, Words, chain, expanded, file, nested, packed, templates
from schema_words import added, later_words, lists_of_tables, made_in_code, schema_words, schemas
from table_homes import HOMES
from table_words import (
    check_words, constant, constants_of, is_stored_as_read, key_kinds, keyed, keys_after, later, plain, plain_words, rule, select_text,
    taken_words, used, words,
)

if TYPE_CHECKING:
    from tables import Desk, Table


def by_count(counts: dict[int, int]) -> str:
    """The number of a schema, in code."""
    *later_schemas, first = sorted(counts, reverse=True)
    branches = "".join(f"if schema >= {schema} {{\n        {counts[schema]}\n    }} else " for schema in later_schemas)
    return f"{branches}{{\n        {counts[first]}\n    }}"


def look_up_words(desk: Desk, name: str, table_name: str, columns: str) -> Words:
    """What a template may name of a lookup."""
    table = desk.table(table_name)
    numbers = range(1, len(columns.split()) + 1)
    return {
        "look_up": name,
        "look_up_table": table_name,
        "look_up_text": select_text(table, columns),
        "look_up_constant": constant(name.upper(), select_text(table, columns)),
        "look_up_places": f"({chain(str(table.number(column)) for column in columns.split())})" if columns else "[]",
        "look_up_parameters": chain(f'codes "?{number}"' for number in numbers),
    }


def sets_of(desk: Desk) -> dict[str, list[Words]]:
    """What templates go over."""
    tables, rows, sorted_tables = desk.tables, desk.tables[1:], keyed(desk.tables)
    many_keys = {it.name for it in tables if len(it.keys) > 1}
    by_kind = {it.name for it in tables if any(column.kind.code for column in it.keys[0])}

    def all_words(table: Table) -> dict[str, object]:
        total = f"{table.one}_total" if table.name in many_keys else f"{table.one}_key.total"
        put = f"sorted_put {table.order} {total} r t.{table.list} k.{table.list}"
        return {
            **words(table), "constants": constants_of(desk, table), "keyed_after": keys_after(table, put, sorted_tables),
            **(check_words(table) if table in rows else {}), **(plain_words(table) if table.plain else {}),
            **(later_words(desk, table) if table in later(tables) else {}), **(taken_words(table, sorted_tables) if table.taken else {}),
        }

    chosen = {
        "tables": tables,
        "rows": rows,
        "later": later(tables),
        "later_lists": [it for it in later(tables) if it.in_state and not it.made],
        "keyed": sorted_tables,
        "by_values": [it for it in sorted_tables if it.name not in many_keys | by_kind],
        "by_id": found_by_id(desk),
        "plain": plain(desk),
        "states": [it for it in tables if it.in_state],
        "upserts": [it for it in tables if it.updates],
        "adding": adding(desk),
        "taken": [it for it in tables if it.taken],
        "later_taken": [it for it in later(tables) if it.taken],
        # Movements are read before the other tables, and receipts are decoded in memory of their own.
        "rows_with_movements": [it for it in rows if it.name != "movement"],
        "tables_beside": [it for it in tables if it.name != "movement"],
        "rows_decoded": [it for it in rows if it.name != "receipt"],
    }
    return {
        **{name: [all_words(it) for it in these] for name, these in chosen.items()},
        "schemas": [schema_words(desk, schema) for schema in schemas(desk)],
        "lookups": [look_up_words(desk, *it) for it in desk.lookups],
        "each_index": [{"index": it.name, "INDEX": it.name.upper()} for it in desk.indexes],
    }


def found_by_id(desk: Desk) -> list[Table]:
    """The tables whose rows are those of the state, each with a key of one id."""
    return [it for it in desk.tables if it.in_state and not it.bare and key_kinds(it) == "text"]


def adding(desk: Desk) -> list[Table]:
    """The tables that have a text that only adds a row."""
    return [it for it in desk.tables if not it.updates or it.added]


def imported(desk: Desk) -> dict[str, object]:
    """The lines of code that use names of tables."""
    rows, own = desk.tables[1:], plain(desk)
    decoded = [it.row for it in rows if is_stored_as_read(it) and it.name != "receipt"]
    rules = sorted({rule(column, True) for it in rows for column in it.columns if column.kind.rule.isupper()})
    return {
        "use_by_id": used("plant_base", sorted(it.row for it in found_by_id(desk))),
        "use_plain": used("plant_base", sorted(it.row for it in own)),
        "use_plain_and_id": used("plant_base", sorted([*(it.row for it in own), "Id"])),
        "use_plain_readers": used("crate::reading", sorted({"columns", *(column.kind.read for it in own for column in it.columns)})),
        "use_table_defs": packed(sorted(it.name.upper() for it in desk.tables), "use crate::table_defs::{", "};"),
        "use_rules": used("crate::column_rules", rules),
        "use_decoded": used("plant_base", sorted(decoded)),
    }


def given(desk: Desk) -> dict[str, object]:
    """What templates name besides the words of sets."""
    tables, rows = desk.tables, desk.tables[1:]
    lacked = [it for it in later(tables) if it.in_state]
    counts = {schema: sum(it.schema <= schema for it in tables) for schema in [1, *schemas(desk)]}
    indexes = {schema: sum(it.schema <= schema for it in desk.indexes) for schema in sorted({0, *(it.schema for it in desk.indexes)})}
    puts = [f"inr upserts_{it.name}" if it.updates else f"inl inserts_{it.name}" for it in tables]
    return {
        **imported(desk), **lists_of_tables(desk),
        "tables": len(tables), "row_count": len(rows), "indexes": len(desk.indexes),
        "tables_by_schema": by_count(counts),
        "indexes_by_schema": by_count(indexes),
        "whole_in": " × ".join(f"({it.rows} ≡ s.{it.list})" for it in lacked),
        "lacks_each": "; ".join(f"{it.list} = λ lacking. rw lacking refl" for it in later(tables)),
        "all_tables": chain(f"table.{words(it)['Name']}" for it in rows),
        "create_all": chain(f"CREATE_{it.name.upper()}.now" for it in tables),
        "select_all": chain(f"SELECT_{it.name.upper()}.now" for it in tables),
        "put_all": "\n    ∷ ".join([*(f"PUT_{it.name.upper()}.now" for it in tables), "[]"]),
        "puts_all": "\n    ⋆ ".join([*puts, "tt"]),
        "refl_each": nested(["refl"] * len(tables), "tt"),
        "each_itself": "; ".join(f"{it.list} = {it.list}" for it in tables),
        "closed": ")" * len(tables),
        "all_stored": nested((f"s.{it.list}" for it in tables), "tt"),
        "no_rows": chain(["[]"] * len(rows)),
        "no_rows_each": nested(["refl"] * len(rows), "tt"),
        "the_lists": ", ".join(f"the_{it.list}" for it in rows),
    }


def files(desk: Desk) -> list[Region]:
    """All files, and the region of another."""
    sets, once = sets_of(desk), given(desk)
    found: list[Region] = [Region("plant_tables/src/migration.rt", "the tables that each schema adds", made_in_code(desk))]
    for path, about, text in templates("tables"):
        of: Sequence[Words] = [words(it) for it in desk.tables if it.looked_up] if "/ONE/" in path else [{}]
        for own in of:
            place = path.replace("/ONE/", f"/{own.get('one')}/")
            goal = (place.replace("/Answers.antt", ".Goals").replace("/", ".") + " as goal", "goal", place)
            found.append(file(place, about, expanded(text, sets, {**once, **own}), [goal, *HOMES]))
    return found
