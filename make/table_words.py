"""The words of a table that templates name, and the layouts that the files of make/tables.py share."""
from __future__ import annotations

import re
from collections.abc import Iterable, Sequence
from typing import TYPE_CHECKING

from regions import camel, chain, nested, packed

if TYPE_CHECKING:
    from tables import Column, Desk, Table

# ---- layouts


def bracketed(items: Sequence[str], width: int = 60) -> str:
    """The items of an array in a block, in the layout of code: in one line where they are short."""
    if len(", ".join(items)) <= width:
        return f"[{', '.join(items)}]"
    return "[\n" + "".join(f"        {item},\n" for item in items) + "    ]"


def used(path: str, items: Sequence[str], before: str = "use ") -> str:
    """The names that code uses of a module, in one line or in lines that are as full as they can be."""
    line = f"{before}{path}::{{{', '.join(items)}}};"
    return line if len(line) <= 98 else packed(items, f"{before}{path}::{{", "};")


# ---- kinds of tables


def later(tables: Iterable[Table]) -> list[Table]:
    """The tables that the first schema lacks."""
    return [it for it in tables if it.schema > 1]


def plain(desk: Desk) -> list[Table]:
    """The tables whose rows have a field for each column and are found by one id."""
    return [it for it in desk.tables if it.plain]


def keyed(tables: Sequence[Table]) -> list[Table]:
    """The tables whose rows are in the order of their keys by a premise."""
    return [it for it in tables[1:] if not it.grows]


# ---- texts


def constant(name: str, text: str, doc: str = "") -> str:
    """A fixed text in code."""
    line = f'pub(crate) const {name}: &str = "{text}";'
    if len(line) > 100:
        line = f'pub(crate) const {name}: &str =\n    "{text}";'
    return f"/// {doc}\n{line}" if doc else line


def insert_text(table: Table) -> str:
    """The text that adds a row."""
    places = ", ".join(f"?{number}" for number in range(1, len(table.columns) + 1))
    return f"INSERT INTO {table.name} ({names(table.columns)}) VALUES ({places})"


def put_text(table: Table) -> str:
    """The text that puts a row."""
    if not table.updates:
        return insert_text(table)
    updates = ", ".join(f"{column.name} = excluded.{column.name}" for column in table.columns)
    return f"{insert_text(table)} ON CONFLICT ({names(table.keys[0])}) DO UPDATE SET {updates}"


def compared(columns: str) -> str:
    """The test of the columns whose values are given."""
    return " AND ".join(f"{column} = ?{number}" for number, column in enumerate(columns.split(), 1))


def select_text(table: Table, columns: str = "") -> str:
    """The text that reads the rows with given values in these columns, by the key."""
    where = f" WHERE {compared(columns)}" if columns else ""
    return f"SELECT {names(table.columns)} FROM {table.name}{where} ORDER BY {names(table.keys[0])}"


def create_text(table: Table) -> str:
    """The text that makes a table."""
    columns = [f"{column.name} {column.kind.sql}" for column in table.columns]
    return f"CREATE TABLE {table.name} ({', '.join(columns + [f'UNIQUE ({names(key)})' for key in table.keys])}) STRICT"


def declared(column: Column) -> str:
    """The declaration of a column in code."""
    kind = "Integer" if column.kind.is_number else "Text"
    return f'{kind}{"" if column.kind.sql.endswith("NOT NULL") else "OrNull"}(b"{column.name}")'


def declaration(table: Table) -> str:
    """The constant that declares a table."""
    keys = ", ".join(f"&[{', '.join(str(table.number(column.name)) for column in key)}]" for key in table.keys)
    columns = bracketed([declared(column) for column in table.columns])
    return f"""\
/// {table.doc}
pub const {table.name.upper()}: TableDef<'static> = TableDef {{
    name: b"{table.name}",
    columns: &{columns},
    keys: &[{keys}],
}};"""


def constants_of(desk: Desk, table: Table) -> str:
    """The constants of a table."""
    indexes = sorted((it for it in desk.indexes if it.table == table.name), key=lambda it: table.number(it.columns.split()[0]))
    parts = [declaration(table), constant(f"CREATE_{table.name.upper()}", create_text(table))]
    for it in indexes:
        text = f"CREATE INDEX {it.name} ON {table.name} ({', '.join(it.columns.split())})"
        parts.append(constant(f"CREATE_{it.name.upper()}", text, f"The index that finds {it.doc}."))
    if table.added:
        parts.append(constant(f"ADD_{table.name.upper()}", insert_text(table), table.added))
    parts.append(constant(f"PUT_{table.name.upper()}", put_text(table)))
    if table.taken:
        parts.append(constant(table.taken.constant, f"DELETE FROM {table.name} WHERE {compared(table.taken.columns)}", table.taken.doc))
    return "\n\n".join(parts)


# ---- names and keys


def names(columns: Iterable[Column]) -> str:
    """Columns by their names."""
    return ", ".join(column.name for column in columns)


def is_stored_as_read(table: Table) -> bool:
    """Whether what is stored is a row, and not one whose columns may be those of another kind or state."""
    return table.stored_row == table.row


def key_kinds(table: Table) -> str:
    """The kinds of the columns of a table's key, as the names of lemmas have them."""
    kinds = ["number" if column.kind.is_number else "text" for column in table.keys[0]]
    pairs = {"text text": "two_texts", "number number": "two_numbers", "text number number": "text_numbers", "number text text": "number_two_texts"}
    joined = " ".join(kinds)
    return pairs.get(joined, "_".join(kinds))


def key_of(column: Column, row: str) -> str:
    """A column of a key as proofs compare it."""
    return f"({column.kind.code} {row}.{column.field})" if column.kind.code else f"{row}.{column.field}"


def key_pairs(table: Table, one: str, other: str) -> str:
    """The columns of the keys of two rows, one pair after the other."""
    return " ".join(f"{key_of(column, one)} {key_of(column, other)}" for column in table.keys[0])


def key_total(table: Table) -> str:
    """Why the order of a table's rows is total."""
    proof = ""
    for column in table.keys[0]:
        total = "nat_cmp_total" if column.kind.is_number else "nat_list_cmp_total"
        part = f"on_total (λ r. r.{column.field}) {total}"
        proof = f"then_total ({proof}) ({part})" if proof else part
    return proof


# What a template names as the description has it.
NAMED = (
    "name one stored stored_row row rows change list state_row state_list order values read again fits place schema doc looked_up"
).split()


def words(table: Table) -> dict[str, object]:
    """What a template may name of each table."""
    key, own = table.keys[0], is_stored_as_read(table)
    put = f"t.{table.list} ++ r ∷ []" if table.grows else f"put {table.order} r t.{table.list}"
    by_key = len(table.keys) == 1 and not table.grows and table.name != "meta"
    return {
        **{name: getattr(table, name) for name in NAMED},
        "NAME": table.name.upper(),
        "Name": camel(table.name),
        "keys": chain(f"({places(table, columns)})" for columns in table.keys),
        "key_places": places(table, key),
        "key_field": key[0].field,
        "key_kinds": key_kinds(table),
        "key_pairs": key_pairs(table, "a", "b"),
        "key_met": key_pairs(table, "x", "r"),
        "key_total": key_total(table),
        "key_tie": key_kinds(table) if len(key) > 1 else f"one_{key_kinds(table)}",
        "letter": table.row[0].lower(),
        "adds": adds(table),
        "select_constant": constant(f"SELECT_{table.name.upper()}", select_text(table)),
        # The rows as they are read, meant and written; and after a row was put.
        "meant": f"r.{table.list}" if own else f"filter_map {table.one}_from r.{table.list}",
        "meant_rows": f"r.{table.list}" if own else f"(filter_map {table.one}_from r.{table.list})",
        "as_stored": f"t.{table.list}" if own else f"map {table.stored}_of t.{table.list}",
        "put_rows": put,
        "rows_after": "(row_of_meta r ∷ [])" if table.name == "meta" else f"(map row_of_{table.one} ({put}))",
        "why_after": f"(put_typed {table.one}_key r t.{table.list} keyed.{table.list})" if by_key else f"({table.one}_put r t keyed fresh)",
        "without_kept": f"{table.bare} t.{table.list}".strip(),
        "read_again": read_again(table),
        **state_words(table),
    }


def places(table: Table, columns: Iterable[Column]) -> str:
    """The list of the places of columns."""
    return chain(str(table.number(column.name)) for column in columns)


def adds(table: Table) -> str:
    """The constant of the text that only adds a row."""
    return ("ADD_" if table.added else "PUT_") + table.name.upper()


def read_again(table: Table) -> str:
    """That the loaded rows of a table are read as its rows."""
    own, there = is_stored_as_read(table), f"{table.name}_table"
    again = f"same_again {table.stored}_from row_of_{table.one}" if own else f"table_again {table.stored}_from row_of_{table.one} {table.stored}_of"
    law = table.again if own else f"{table.one}_row_again"
    by_key = f"(λ a b. by_{key_kinds(table)} {key_pairs(table, 'a', 'b')})"
    proof = f"{again} {table.values} {law} {there} {table.order} {by_key} db _ t.{table.list}"
    ordered = f"ordered.{table.list}" if table.grows else f"ordered.keyed.{table.list}"
    if table.schema == 1:
        return f"{proof} (are.tables {table.place} {there} refl) (holds.each {table.place} {there} refl) {ordered} valid.{table.list}"
    rows = f"t.{table.list}" if own else f"(map {table.stored}_of t.{table.list})"
    none = f"lacks.{table.list}" if own else f"(λ l. ap (map {table.stored}_of) (lacks.{table.list} l))"
    kept = f"(nat_le {table.schema} schema) ({table.name}_place schema) (no_{table.name}_place schema)"
    return (f"later_read_again schema db t holds x are {table.stored}_from {table.place} {there} {rows} {kept} {none} "
            f"(λ loads has_rows. {proof} loads has_rows {ordered} valid.{table.list})")


def state_words(table: Table) -> dict[str, object]:
    """What a template may name of a table whose rows the state has."""
    rows, there = f"{'t' if table.bare else 's'}.{table.list}", f"{table.name}_table"
    shown = f"abstract_rows {table.order} {table.read} db {there}"
    in_order = f"(in_order newest_schema s valid){'' if table.grows else '.keyed'}.{table.list}"
    again = (f"abstraction_again {table.order} ({key_total(table)}) row_of_{table.one} {table.read} {table.values} {table.again} db {there} {rows}"
             f" (holds.each {table.place} {there} refl) {in_order} values.{table.list}")
    put = f"s.{table.state_list} ++ r ∷ []" if table.grows else f"put {table.order} r s.{table.state_list}"
    if table.bare:
        shown, again = f"{table.bare} ({shown})", f"ap ({table.bare}) ({again}) ∙ {table.state_list}_bare s"
        put = f"put {table.state_row.lower()}_order ({table.bare.split()[1]} r) s.{table.state_list}"
    lacking = f"  -- without {table.lacks}\n" if table.bare else ""
    return {
        "shown": shown,
        "shown_line": f"{lacking}  {table.state_list} = {shown};",
        "shown_again": again,
        "applied": f"record s {{ {table.state_list} = {put} }}" if table.in_state else "s",
    }


def plain_words(table: Table) -> dict[str, object]:
    """What a template may name of a table whose rows have a field for each column."""
    columns, letter = table.columns, table.row[0].lower()
    fields = [column.field for column in columns]
    held = ["g" + ".1" * place + ("" if place + 1 == len(fields) else ".0") for place in range(len(fields))]
    return {
        "width": len(columns),
        "value_rules": "\n".join(f"  pub {it.field} : is_{it.kind.rule.lower()} {letter}.{it.field} ≡ true" for it in columns),
        "stored_values": bracketed([it.kind.store.replace("@", it.field) for it in columns]),
        "decoded_fields": "\n".join(f"            {it.field}: {it.kind.read}(row, {place})?," for place, it in enumerate(columns)),
        "fields_nested": nested(fields),
        "fields_made": "; ".join(f"{field} = {field}" for field in fields),
        "fields_of_row": nested(f"{letter}.{field}" for field in fields),
        "columns_in_turn": " ⊗ ".join(f'one (codes "{it.name}") {it.kind.spec}' for it in columns),
        "fields_kept": "; ".join(f"{field} = {place}" for field, place in zip(fields, held)),
        "fields_held": nested(f"h.{field}" for field in fields),
        "fields_whole": nested(["tt"] * len(fields)),
        "laws_in_turn": " ⊕ ".join(f"one_lawful {it.kind.law}" for it in columns),
        "line_or_blank": "\n    " if len(fields) > 2 else " ",
    }


def taken_words(table: Table, sorted_tables: Sequence[Table]) -> dict[str, object]:
    """What a template may name of a change that takes rows of a table away."""
    change = table.taken
    assert change
    kept = f"IsStrictlySortedBy-filter {table.order} _ t.{table.list} k.{table.list}"
    given = chain(f"Text {it}" for it in change.fields.split())
    return {
        "pattern": f"(change.{change.change} {change.fields})",
        "row_pattern": f"(row.{change.change} {change.fields})",
        "fields": change.fields,
        "less": change.less,
        "key": f"({chain(str(table.number(name)) for name in change.columns.split())})",
        "given": f"({given})",
        "applied_less": f"record s {{ {table.list} = {change.less} {change.fields} s.{table.list} }}" if table.in_state else "s",
        "keyed_less": keys_after(table, kept, sorted_tables),
    }


def keys_after(changed: Table, proof: str, sorted_tables: Sequence[Table]) -> str:
    """That the keys stay in order after a change of one table."""
    return "; ".join(f"{it.list} = {proof if it is changed else 'k.' + it.list}" for it in sorted_tables)


# ---- the check of rows


def rule(column: Column, in_code: bool) -> str:
    """The rule of a column, as code or as specs name it."""
    name = column.kind.rule
    if name.isupper():
        return name if in_code else name.lower()
    return f"ValueRule::{name}" if in_code else "rule." + re.sub(r"[(), ]+", " ", name).rstrip()


# The keys of stored rows, by the kinds of their columns.
KEYS = {
    "text": "Id", "text number": "IdNumber", "text number number": "IdNumbers", "number": "Number", "number number": "Numbers",
    "text text": "Ids", "number text text": "NumberIds", "text number text": "IdNumberId",
}


def check_words(table: Table) -> dict[str, object]:
    """What a template may name of a table whose rows are checked."""
    kinds = ["number" if column.kind.is_number else "text" for column in table.keys[0]]
    key, read = KEYS[" ".join(kinds)], ["number" if kind == "number" else "id" for kind in kinds]
    rules = [(camel(column.name), rule(column, False), rule(column, True)) for column in table.columns]
    in_code = bracketed([f"(Column::{name}, {it})" for name, _, it in rules])
    return {
        "rules": chain(f"(column.{name}, {it})" for name, it, _ in rules),
        "rules_in_code": in_code.replace("\n", "\n    "),
        "key_read": f"{key} " + " ".join(f"(← {it}_at row {place})" for place, it in enumerate(read)),
        "key_in_code": f"{key}({', '.join(f'{it}(row, {place})?' for place, it in enumerate(read))})",
    }
