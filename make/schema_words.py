"""The words of schemas that templates name: which tables a schema has, adds and lacks, and what is proved of those."""
from __future__ import annotations

from collections.abc import Iterable
from typing import TYPE_CHECKING

from regions import chain, nested
from table_words import later

if TYPE_CHECKING:
    from tables import Desk, Table


def schemas(desk: Desk) -> list[int]:
    """The schemas after the first."""
    return sorted({it.schema for it in later(desk.tables)})


def added(desk: Desk, schema: int) -> list[Table]:
    """The tables that a schema adds to the one before it."""
    return [it for it in desk.tables if it.schema == schema]


def declared(tables: Iterable[Table]) -> str:
    """The list of the declarations of these tables."""
    return chain(f"{it.name}_table" for it in tables)


def created(tables: Iterable[Table]) -> str:
    """The list of the texts that make these tables."""
    return chain(f"CREATE_{it.name.upper()}.now" for it in tables)


def choice(cases: Iterable[tuple[str, str]], otherwise: str) -> str:
    """The list of the first case whose test is passed, or else the last one."""
    text = otherwise
    for number, (test, items) in reversed(list(enumerate(cases))):
        text = f"{'' if number == 0 else '('}if {test} then {items} else\n    {text}{'' if number == 0 else ')'}"
    return text


def counted(number: int) -> str:
    """A number as a pattern."""
    return "zero" if number == 0 else f"(suc {counted(number - 1)})"


def lists_of_tables(desk: Desk) -> dict[str, object]:
    """The tables that a schema has, lacks and adds."""
    tables, numbers = desk.tables, schemas(desk)[::-1]

    def from_on(lowest: int, highest: int) -> str:
        return declared([it for it in tables if lowest <= it.schema <= highest])

    newest = numbers[0]
    return {
        "first_defs": from_on(1, 1),
        "own_defs": choice([(f"nat_le {schema} schema", from_on(2, schema)) for schema in numbers], "[]"),
        "lacking_defs": choice([(f"nat_le {schema} schema", from_on(schema + 1, newest)) for schema in numbers], from_on(2, newest)),
        "added_defs": choice([(f"schema == {schema}", from_on(schema, schema)) for schema in numbers[::-1]], "[]"),
        "omega_each": "(omega arith) " * newest,
        "none_each": " ".join(f"(no_added_{schema} t)" for schema in numbers[::-1]),
    }


def by_schema(desk: Desk, table: Table, older: str, newer: str, newest: str) -> str:
    """A proof for each schema: of those before a table's, of those from it on, and of the newest."""
    parts = [older if schema < table.schema else newer for schema in range(schemas(desk)[-1])]
    return " ".join(f"({part})" for part in [*parts, newest])


def later_words(desk: Desk, table: Table) -> dict[str, object]:
    """What a template may name of a table that the first schema lacks: why it is at its place in each schema that has it, and not in the others."""
    is_newest = table.schema == schemas(desk)[-1]
    having = by_schema(desk, table, "λ e. absurd cc", "λ _. refl", "λ s newest _. rw newest refl")
    statement = f"λ s. nat_le {table.schema} s ≡ true → slice_get (table_defs_of s) {table.place} ≡ Some {table.name}_table"
    return {
        "there": "schema newest = rw newest refl" if is_newest else f"= by_schema ({statement}) {having}",
        "not_there": by_schema(
            desk, table, "λ _. refl", "λ e. absurd cc", f"λ s newest e. absurd {'cc' if is_newest else '(grind (arith, nat_tests))'}"),
    }


def schema_words(desk: Desk, schema: int) -> dict[str, object]:
    """What a template may name of a schema: the tables that it adds to the one before it."""
    tables = added(desk, schema)
    made = [f"makes CREATE_{it.name.upper()}.now {it.name}_table refl" for it in tables]
    return {
        "schema": schema,
        "schema_before": schema - 1,
        "schema_texts": created(tables),
        "schema_made": nested(["record { apart = λ tree. refl }", *made, "tt"]),
        "schema_call": "create_tables" + ("" if schema == schemas(desk)[0] else f"-then-schema-eq{schema}"),
        "schema_defs": declared(tables),
        "schema_place": tables[0].place,
        "schema_rows": "\n".join([
            *(f"no_added_{schema} t lacks {counted(at)} table_def is = ap (map row_of_{it.one}) (lacks.{it.list} refl)" for at, it in enumerate(tables)),
            f"no_added_{schema} t lacks {counted(len(tables)).replace('zero', 'j')} table_def is = absurd cc"]),
    }


def made_in_code(desk: Desk) -> str:
    """The calls that make the tables that a schema adds."""
    calls = []
    for schema in schemas(desk):
        texts = [f"table_defs::CREATE_{it.name.upper()}" for it in added(desk, schema)]
        call = f"create_tables(tx, &[{', '.join(texts)}])"
        if len(", ".join(texts)) > 60:
            items = "".join(f"                {text},\n" for text in texts)
            call = f"create_tables(\n            tx,\n            &[\n{items}            ],\n        )"
        calls.append(f"if schema == {schema} {{\n    return {call};\n}}".replace("\n        ", "\n    "))
    return "\n".join(calls)
