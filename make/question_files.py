"""The files of make/questions.py: the tables of questions in code and in specs."""
from __future__ import annotations

import dataclasses
from collections.abc import Iterable, Sequence
from typing import TYPE_CHECKING

from regions import Region, chain, packed

if TYPE_CHECKING:
    from questions import Around, Listed, Member, Topic

SCHEMA = "plant_json_in"
ROUTES = "plant_http_requests"
NODES = (("lot", "Lot"), ("batch", "Batch"))


@dataclasses.dataclass(frozen=True)
class Described:
    """What is described: the questions by their forms, and all words in order, each with its form and its variant there."""

    topics: Sequence[Topic]
    around: Sequence[Around]
    lists: Sequence[Listed]
    words: Sequence[tuple[str, str, str]]


# ---- layouts


def variants(items: Iterable[tuple[str, str]]) -> str:
    """Variants of an enumeration, each with what it means."""
    return "\n".join(f"    /// {meaning}\n    {variant}," for variant, meaning in items)


def arm(pattern: str, value: str) -> str:
    """An arm of a match, in as many lines as it needs."""
    line = f"        {pattern} => {value},"
    return line if len(line) <= 99 else f"        {pattern} => {{\n            {value}\n        }}"


def slice_of(members: Sequence[Member], kind: str = "") -> str:
    """Members as a slice."""
    return "&[" + ", ".join(kind + it.variant for it in members) + "]"


def members_of(members: Sequence[Member]) -> str:
    """Members as a list of specs."""
    return chain(f"m.{it.variant}" for it in members)



# ---- kinds

# What a word asks for, by the form of its question.
ASKED = {"Topic": "AskedKind::About(Topic::{})", "Around": "AskedKind::Around(Around::{})", "Listed": "AskedKind::List(ListKind::{})"}
ASKED_IN_SPECS = {"Topic": "(asked.About topic.{})", "Around": "(asked.Around around.{})", "Listed": "(asked.List list.{})"}


def kinds(described: Described) -> str:
    topics, around, lists = described.topics, described.around, described.lists
    words = [('"check"', "AskedKind::Check"), *((f'"{word}"', ASKED[form].format(variant)) for word, form, variant in described.words)]
    members = [
        *((f"QuestionKind::About(Topic::{it.variant})", slice_of(it.values)) for it in topics),
        *((f"QuestionKind::Around(_, NodeKind::{variant})", f"&[{variant}]") for _, variant in NODES),
        *((f"QuestionKind::List(ListKind::{it.variant})", slice_of(it.values)) for it in lists),
    ]
    used = sorted({it.variant for values in [*(it.values for it in topics), *(it.values for it in lists)] for it in values})
    return f'''//! The kinds of questions, their words, and the members that each has.
ghost use Rattle.std.specs.Prelude.{{◌≡◌, ◌≤◌, length}};
ghost use Rattle.{SCHEMA}.specs.QuestionTables.{{asked_kind, question_members}};
ghost use Rattle.{SCHEMA}.specs.Tables.{{most_members}};

{packed(["self", *used], "use crate::members::Member::{", "};")}

/// What is asked about: one thing, or the desk itself.
#[derive(Clone, Copy, Debug, PartialEq, Eq)]
pub enum Topic {{
{variants((it.variant, it.meaning) for it in topics)}
}}

/// What is asked around a lot or batch.
#[derive(Clone, Copy, Debug, PartialEq, Eq)]
pub enum Around {{
{variants((it.variant, it.meaning) for it in around)}
}}

/// Whether a node is a lot or a batch.
#[derive(Clone, Copy, Debug, PartialEq, Eq)]
pub enum NodeKind {{
    Lot,
    Batch,
}}

/// Which list a page is asked of.
#[derive(Clone, Copy, Debug, PartialEq, Eq)]
pub enum ListKind {{
{variants((it.variant, it.meaning) for it in lists)}
}}

/// Which question is asked: its members follow from it.
#[derive(Clone, Copy, Debug, PartialEq, Eq)]
pub enum QuestionKind {{
    /// About one thing, or about the desk.
    About(Topic),
    /// What lies around a lot or batch.
    Around(Around, NodeKind),
    /// A page of a list.
    List(ListKind),
}}

/// What a word asks for.
#[derive(Clone, Copy, Debug, PartialEq, Eq)]
pub enum AskedKind {{
    /// What would become of a command.
    Check,
    /// About one thing, or about the desk.
    About(Topic),
    /// What lies around a lot or batch, which another member names.
    Around(Around),
    /// A page of a list.
    List(ListKind),
}}

/// What a word asks for.
/// `None` where it asks for nothing.
pub fn asked_kind(word: &str) -> Option<AskedKind>
    ensures {{ result ≡ asked_kind word.now }}
{{
    match word {{
{chr(10).join(arm(word, f"Some({kind})") for word, kind in words)}
        _ => None,
    }}
}}

/// The members of a question besides its word, in the order in which problems are reported and a path has them.
pub fn question_members(kind: QuestionKind) -> &'static [Member]
    ensures members {{ result.now ≡ question_members kind }}
    ensures few {{ length result.now ≤ most_members }}
{{
    match kind {{
{chr(10).join(arm(kind, it) for kind, it in members)}
    }}
}}'''


def kinds_in_specs(described: Described) -> str:
    topics, lists = described.topics, described.lists
    words = [("check", "asked.Check"), *((word, ASKED_IN_SPECS[form].format(variant)) for word, form, variant in described.words)]
    tests = "\n".join(f'    if bytes_eq word (codes "{word}") then Some {kind} else (' for word, kind in words)
    members = [
        *((f"(q.About topic.{it.variant})", members_of(it.values)) for it in topics),
        *((f"(q.Around around node.{variant})", f"m.{variant} ∷ []") for _, variant in NODES),
        *((f"(q.List list.{it.variant})", members_of(it.values)) for it in lists),
    ]
    declared = f"Rattle.{SCHEMA}.specs.declared.question_tables"
    return f'''-- The words of questions, and the members that each has.
use Rattle.std.specs.Prelude.{{ℕ, List, [], ◌∷◌, if◌then◌else◌, codes, Option, Some, None, bytes_eq}}
use Rattle.{SCHEMA}.specs.declared.members.Member.{{Member}}
use Rattle.{SCHEMA}.specs.declared.members.Member.TheVariants as m
use {declared}.AskedKind.{{AskedKind}}
use {declared}.AskedKind.TheVariants as asked
use {declared}.Topic.TheVariants as topic
use {declared}.Around.TheVariants as around
use {declared}.NodeKind.TheVariants as node
use {declared}.ListKind.TheVariants as list
use {declared}.QuestionKind.{{QuestionKind}}
use {declared}.QuestionKind.TheVariants as q

-- what a word asks for
abbrev pub asked_kind : List ℕ → Option AskedKind
asked_kind word =
{tests}
    None{")" * len(words)}

-- the members of a question besides its word, in the order in which problems are reported and a path has them
abbrev pub question_members : QuestionKind → List Member
{chr(10).join(f"question_members {kind} = {it}" for kind, it in members)}'''


# ---- the question of a kind and of values


def value_of(member: Member) -> tuple[str, str]:
    """A value in a pattern, and its name."""
    return f"Field::{member.value}({member.name})", member.name


def cursor_of(listed: Listed, name: str) -> str:
    """The cursor of a page, of the value of this name."""
    return f"{CURSORS[listed.values[-1].value]}({name})"


# What reads a cursor, by the variant of its value.
CURSORS = {
    "Id": "id_cursor", "Amount": "number_cursor", "RecipeCursor": "recipe_cursor", "DueCursor": "due_cursor", "HoldCursor": "hold_cursor",
    "MovementCursor": "movement_cursor", "BirthCursor": "birth_cursor",
}

CURSOR_TYPES = {
    "Id": "Id", "Amount": "u64", "RecipeCursor": "Cursor<Id, u16>", "DueCursor": "Cursor<Due, Id>", "HoldCursor": "Cursor<Id, Id>",
    "MovementCursor": "Cursor<u64, u16>", "BirthCursor": "Cursor<u64, Id>",
}

CURSOR_MEANINGS = {
    "Id": "List ℕ", "Amount": "ℕ", "RecipeCursor": "Cursor (List ℕ) ℕ", "DueCursor": "Cursor (List ℕ) (List ℕ)",
    "HoldCursor": "Cursor (List ℕ) (List ℕ)", "MovementCursor": "Cursor ℕ ℕ",
    "BirthCursor": "Cursor ℕ (List ℕ)",
}


def cursor_readers() -> str:
    """The functions that read cursors."""
    return "\n".join(
        f"""fn {name}(field: Field) -> Option<Option<{CURSOR_TYPES[value]}>>
    ensures {{ result ≡ {name} field }}
{{
    match field {{
        Field::Absent => Some(None),
        Field::{value}(cursor) => Some(Some(cursor{'.get()' if value == 'Amount' else ''})),
        _ => None,
    }}
}}
"""
        for value, name in CURSORS.items()
    )


def made(described: Described) -> str:
    topics, around, lists = described.topics, described.around, described.lists

    def about(topic: Topic) -> str:
        values = [value_of(it) for it in topic.values]
        made = f"({', '.join(it for _, it in values)})" if values else ""
        fields = ", ".join(it for it, _ in values)
        pattern = (f"Topic::{topic.variant}", f"(Topic::{topic.variant}, {fields})", f"(Topic::{topic.variant}, &[{fields}])")[len(values)]
        return arm(pattern, f"Some(Question::{topic.variant}{made})")

    def abouts(count: int) -> str:
        return newline.join(about(it) for it in topics if len(it.values) == count)

    def page(listed: Listed) -> str:
        if not listed.of:
            return arm(f"ListKind::{listed.variant}", f"Some(ListQuestion::{listed.variant}({cursor_of(listed, 'cursor')}?))")
        pattern, value = value_of(listed.values[0])
        return arm(f"(ListKind::{listed.variant}, {pattern})", f"Some(ListQuestion::{listed.variant}({value}, {cursor_of(listed, 'cursor')}?))")

    newline = "\n"
    whole, others = [it for it in lists if not it.of], [it for it in lists if it.of]
    rest = "\n        | ".join(f"ListKind::{it.variant}" for it in others)
    return f'''//! The question of a kind and of the values of its members.
ghost use Rattle.std.specs.Prelude.{{◌≡◌}};
ghost use Rattle.{SCHEMA}.specs.QuestionValues.{{about_by, about_desk, about_thing, about_version}};
ghost use Rattle.{SCHEMA}.specs.QuestionValues.{{around_by, birth_cursor, due_cursor}};
ghost use Rattle.{SCHEMA}.specs.QuestionValues.{{hold_cursor, id_cursor, list_by, list_of}};
ghost use Rattle.{SCHEMA}.specs.QuestionValues.{{movement_cursor}};
ghost use Rattle.{SCHEMA}.specs.QuestionValues.{{number_cursor, question_by, recipe_cursor}};
ghost use Rattle.{SCHEMA}.specs.QuestionValues.{{whole_list}};

use crate::fields::Field;
use crate::question_tables::{{Around, ListKind, NodeKind, QuestionKind, Topic}};
use plant_base::{{Due, Id}};
use plant_questions::{{Cursor, ListQuestion, Question}};
use plant_trace::{{Direction, Node}};

{cursor_readers()}
/// What is asked of the desk itself.
fn about_desk(topic: Topic) -> Option<Question>
    ensures {{ result ≡ about_desk topic }}
{{
    match topic {{
{abouts(0)}
        _ => None,
    }}
}}

/// What is asked of one thing.
fn about_thing(topic: Topic, thing: Field) -> Option<Question>
    ensures {{ result ≡ about_thing topic thing }}
{{
    match (topic, thing) {{
{abouts(1)}
        _ => None,
    }}
}}

/// What is asked of a version of a thing.
fn about_version(topic: Topic, fields: &[Field]) -> Option<Question>
    ensures {{ result ≡ about_version topic fields.now }}
{{
    match (topic, fields) {{
{abouts(2)}
        _ => None,
    }}
}}

fn about_by(topic: Topic, fields: &[Field]) -> Option<Question>
    ensures {{ result ≡ about_by topic fields.now }}
{{
    match fields {{
        &[] => about_desk(topic),
        &[thing] => about_thing(topic, thing),
        _ => about_version(topic, fields),
    }}
}}

fn around_by(around: Around, node: Node) -> Question
    ensures {{ result ≡ around_by around node }}
{{
    match around {{
{newline.join(arm(f"Around::{it.variant}", f"Question::{it.question}") for it in around)}
    }}
}}

/// A page of a list that is of nothing.
fn whole_list(list: ListKind, cursor: Field) -> Option<ListQuestion>
    ensures {{ result ≡ whole_list list cursor }}
{{
    match list {{
{newline.join(page(it) for it in whole)}
        {rest} => None,
    }}
}}

/// A page of a list that is of this.
fn list_of(list: ListKind, of: Field, cursor: Field) -> Option<ListQuestion>
    ensures {{ result ≡ list_of list of cursor }}
{{
    match (list, of) {{
{newline.join(page(it) for it in others)}
        _ => None,
    }}
}}

fn list_by(list: ListKind, fields: &[Field]) -> Option<ListQuestion>
    ensures {{ result ≡ list_by list fields.now }}
{{
    match fields {{
        &[cursor] => whole_list(list, cursor),
        &[of, cursor] => list_of(list, of, cursor),
        _ => None,
    }}
}}

/// The question of a kind whose members besides its word have these values.
/// `None` where they have other types than the rules of the members give.
pub fn question_by(kind: QuestionKind, fields: &[Field]) -> Option<Question>
    ensures {{ result ≡ question_by kind fields.now }}
{{
    match (kind, fields) {{
        (QuestionKind::About(topic), _) => about_by(topic, fields),
        (QuestionKind::Around(around, NodeKind::Lot), &[Field::Id(lot)]) => {{
            Some(around_by(around, Node::Lot(lot)))
        }}
        (QuestionKind::Around(around, NodeKind::Batch), &[Field::Id(batch)]) => {{
            Some(around_by(around, Node::Batch(batch)))
        }}
        (QuestionKind::Around(_, _), _) => None,
        (QuestionKind::List(list), _) => Some(Question::List(list_by(list, fields)?)),
    }}
}}'''


def applied(pattern: str) -> str:
    """A constructor with its values in specs."""
    name, _, values = pattern.partition("(")
    values = values.rstrip(")")
    return " ".join([name.replace("Field::", "field."), *values.replace(".get()", "").split(", ")]).strip() if values else name.replace("Field::", "field.")


def made_in_specs(described: Described) -> str:
    topics, around, lists = described.topics, described.around, described.lists

    def about(topic: Topic) -> str:
        values = [value_of(it) for it in topic.values]
        name = ("about_desk", "about_thing", "about_version")[len(values)]
        made = " ".join([f"Q.{topic.variant}", *(it for _, it in values)])
        fields = [f"({chain(applied(it) for it, _ in values)})"] if len(values) == 2 else [f"({applied(it)})" for it, _ in values]
        return " ".join([name, f"topic.{topic.variant}", *fields, "= Some", f"({made})" if values else made])

    def abouts(count: int) -> str:
        return newline.join(about(it) for it in topics if len(it.values) == count)

    def page(listed: Listed) -> str:
        reader = CURSORS[listed.values[-1].value]
        if not listed.of:
            return f"whole_list list.{listed.variant} cursor = option_map L.{listed.variant} ({reader} cursor)"
        pattern, value = value_of(listed.values[0])
        return f"list_of list.{listed.variant} ({applied(pattern)}) cursor = option_map (L.{listed.variant} {value}) ({reader} cursor)"

    def of_node(it: Around) -> str:
        name, _, values = it.question.partition("(")
        return f"around_by around.{it.variant} node = Q.{name} {values.rstrip(')').replace('Direction::', '').replace(',', '')}"

    whole, others = [it for it in lists if not it.of], [it for it in lists if it.of]
    cursors = [
        f"abbrev pub {name} : Field → Option (Option ({CURSOR_MEANINGS[value]}))\n{name} field.Absent = Some None\n"
        f"{name} (field.{value} cursor) = Some (Some cursor)\n{name} _ = None\n"
        for value, name in CURSORS.items()
    ]
    newline = "\n"
    declared = f"Rattle.{SCHEMA}.specs.declared.question_tables"
    return f'''-- The question of a kind and of the values of its members.
use Rattle.std.specs.Prelude.{{ℕ, List, [], ◌∷◌, Option, Some, None, option_map}}
use Rattle.plant_questions.specs.{{Question}}
use Rattle.plant_questions.specs.declared.question.Question.TheVariants as Q
use Rattle.plant_trace.specs.{{Node}}
use Rattle.plant_trace.specs.declared.direction.Direction.TheVariants.{{Forward, Back}}
use Rattle.plant_trace.specs.declared.node.Node.TheVariants.{{Lot, Batch}}
use Rattle.plant_questions.specs.{{Cursor, ListQuestion}}
use Rattle.plant_questions.specs.declared.list_question.ListQuestion.TheVariants as L
use Rattle.{SCHEMA}.specs.declared.fields.Field.{{Field}}
use Rattle.{SCHEMA}.specs.declared.fields.Field.TheVariants as field
use {declared}.Topic.{{Topic}}
use {declared}.Topic.TheVariants as topic
use {declared}.Around.{{Around}}
use {declared}.Around.TheVariants as around
use {declared}.NodeKind.TheVariants as node_kind
use {declared}.ListKind.{{ListKind}}
use {declared}.ListKind.TheVariants as list
use {declared}.QuestionKind.{{QuestionKind}}
use {declared}.QuestionKind.TheVariants as q

-- the cursor that a page goes on from, none where none is given
{newline.join(cursors)}
-- what is asked of the desk itself
abbrev pub about_desk : Topic → Option Question
{abouts(0)}
about_desk _ = None

-- what is asked of one thing
abbrev pub about_thing : Topic → Field → Option Question
{abouts(1)}
about_thing _ thing = None

-- what is asked of a version of a thing
abbrev pub about_version : Topic → List Field → Option Question
{abouts(2)}
about_version _ _ = None

abbrev pub about_by : Topic → List Field → Option Question
about_by topic [] = about_desk topic
about_by topic (thing ∷ []) = about_thing topic thing
about_by topic fields = about_version topic fields

abbrev pub around_by : Around → Node → Question
{newline.join(of_node(it) for it in around)}

-- a page of a list that is of nothing
abbrev pub whole_list : ListKind → Field → Option ListQuestion
{newline.join(page(it) for it in whole)}
whole_list _ cursor = None

-- a page of a list that is of this
abbrev pub list_of : ListKind → Field → Field → Option ListQuestion
{newline.join(page(it) for it in others)}
list_of _ of cursor = None

abbrev pub list_by : ListKind → List Field → Option ListQuestion
list_by list (cursor ∷ []) = whole_list list cursor
list_by list (of ∷ cursor ∷ []) = list_of list of cursor
list_by list _ = None

-- the question of a kind whose members besides its word have these values
abbrev pub question_by : QuestionKind → List Field → Option Question
question_by (q.About topic) fields = about_by topic fields
question_by (q.Around around node_kind.Lot) (field.Id lot ∷ []) = Some (around_by around (Lot lot))
question_by (q.Around around node_kind.Batch) (field.Id batch ∷ []) = Some (around_by around (Batch batch))
question_by (q.Around around _) _ = None
question_by (q.List list) fields = option_map Q.List (list_by list fields)'''


def made_proofs(described: Described) -> str:
    topics, around, lists = described.topics, described.around, described.lists

    def page(listed: Listed) -> str:
        rule = listed.values[-1].value
        if not listed.of:
            return f"list_made k.{listed.variant} v = whole k.{listed.variant} rule.{rule} tt (λ x. tt) v.0"
        of = listed.values[0].value
        return f"list_made k.{listed.variant} v = of_one k.{listed.variant} (field.{of} v.0) rule.{rule} tt (λ x. tt) v.1.0"

    newline = "\n"
    declared = f"Rattle.{SCHEMA}.specs.declared"
    return f'''-- Values of the types of their rules make a question.
use Rattle.std.proofs.Common.{{List, [], ◌∷◌, false, Option, Some, None}}
use Rattle.std.specs.Prelude.{{⊤}}
use Rattle.{SCHEMA}.specs.{{ListKind, QuestionKind, Topic, or_malformed, is_reported, question_members, question_by, Means, Values, field_in, fields_in, may_in}}
use {declared}.fields.Field.{{Field}}
use {declared}.fields.Field.TheVariants as field
use {declared}.members.MemberRule.{{MemberRule}}
use {declared}.members.MemberRule.TheVariants as rule
use {declared}.question_tables.ListKind.TheVariants as k
use {declared}.question_tables.NodeKind.TheVariants as node
use {declared}.question_tables.QuestionKind.TheVariants as q
use {declared}.question_tables.Topic.TheVariants as topic
use Rattle.{SCHEMA}.proofs.FieldsAreTyped.{{Good}}

-- these values make a question of the kind
abbrev pub Make : QuestionKind → List Field → Type 0
Make kind fields = Good is_reported (λ x. ⊤) (or_malformed (question_by kind fields))

whole : (list : ListKind) (r : MemberRule) → Make (q.List list) (field.Absent ∷ []) → ((x : Means r) → Make (q.List list) (field_in r x ∷ [])) → (o : Option (Means r)) → Make (q.List list) (may_in false r o ∷ [])
whole list r none some None = none
whole list r none some (Some x) = some x

of_one : (list : ListKind) (of : Field) (r : MemberRule) → Make (q.List list) (of ∷ field.Absent ∷ []) → ((x : Means r) → Make (q.List list) (of ∷ field_in r x ∷ [])) → (o : Option (Means r)) → Make (q.List list) (of ∷ may_in false r o ∷ [])
of_one list of r none some None = none
of_one list of r none some (Some x) = some x

about_made : (t : Topic) (v : Values (question_members (q.About t))) → Make (q.About t) (fields_in (question_members (q.About t)) v)
{newline.join(f"about_made topic.{it.variant} v = tt" for it in topics)}

list_made : (list : ListKind) (v : Values (question_members (q.List list))) → Make (q.List list) (fields_in (question_members (q.List list)) v)
{newline.join(page(it) for it in lists)}

pub question_made : (kind : QuestionKind) (v : Values (question_members kind)) → Make kind (fields_in (question_members kind) v)
question_made (q.About t) v = about_made t v
question_made (q.Around around node.Lot) v = tt
question_made (q.Around around node.Batch) v = tt
question_made (q.List list) v = list_made list v'''


# ---- routes


def routes(described: Described) -> list[tuple[str, tuple[str, ...]]]:
    """Each path with its route: constructors, each of what follows."""
    nodes = [(f"/v1/{folder}/{{{name}}}", variant) for (name, variant), folder in zip(NODES, ("lots", "batches"))]
    return [
        *((it.path, ("Question", "About", it.variant)) for it in described.topics),
        *((f"{before}/{it.word}", ("Question", "Around", it.variant, variant)) for before, variant in nodes for it in described.around),
        ("/v1/batches/{batch}/record", ("Record",)),
        ("/v1/commands", ("Post", "Command")),
        ("/v1/check", ("Post", "Check")),
        ("/v1/orders", ("Post", "Orders")),
        *((f"{it.path}{cursor}", ("Question", "List", it.variant)) for it in described.lists for cursor in ("", "/{above}")),
    ]


def route_in_code(route: tuple[str, ...]) -> str:
    kind, *rest = route
    if kind != "Question":
        return f"Route::Post(Post::{rest[0]})" if kind == "Post" else f"Route::{kind}"
    by, *of = rest
    values = {"About": "Topic::{0}", "Around": "Around::{0}, NodeKind::{1}", "List": "ListKind::{0}"}[by].format(*of, "")
    return f"Route::Question(QuestionKind::{by}({values}))"


def route_in_specs(route: tuple[str, ...]) -> str:
    kind, *rest = route
    if kind != "Question":
        return f"route.Post post.{rest[0]}" if kind == "Post" else f"route.{kind}"
    by, *of = rest
    values = {"About": "topic.{0}", "Around": "around.{0} node.{1}", "List": "list.{0}"}[by].format(*of, "")
    return f"route.Question (q.{by} {values})"


# The widest row that rt fmt leaves in one line.
ROW_WIDTH = 60


def row_in_code(path: str, route: str) -> str:
    """A row of the table, in as many lines as it needs."""
    row = f'"{path}", {route}'
    return f"        ({row})," if len(row) <= ROW_WIDTH else f'        (\n            "{path}",\n            {route},\n        ),'


def route_table(described: Described) -> str:
    rows = "\n".join(row_in_code(path, route_in_code(route)) for path, route in routes(described))
    return f'''//! The path of each question and of what is brought by POST.
ghost use Rattle.std.specs.Prelude.{{◌≡◌, map}};
ghost use Rattle.{ROUTES}.specs.RouteTable.{{route_table}};

use crate::routes::{{Post, Route}};
use plant_json_in::{{Around, ListKind, NodeKind, QuestionKind, Topic}};

/// Each path with its route. Parameters are in braces.
pub(crate) fn routes() -> &'static [(&'static str, Route)]
    ensures {{ map (λ row. (row.0.now, row.1)) result.now ≡ route_table }}
{{
    &[
{rows}
    ]
}}'''


def route_table_in_specs(described: Described) -> str:
    rows = " ∷\n".join(f'    (codes "{path}", {route_in_specs(route)})' for path, route in routes(described))
    schema = f"Rattle.{SCHEMA}.specs.declared.question_tables"
    return f'''-- The path of each question and of what is brought by POST.
use Rattle.std.specs.Prelude.{{ℕ, List, [], ◌∷◌, codes}}
use {schema}.Topic.TheVariants as topic
use {schema}.Around.TheVariants as around
use {schema}.NodeKind.TheVariants as node
use {schema}.ListKind.TheVariants as list
use {schema}.QuestionKind.TheVariants as q
use Rattle.{ROUTES}.specs.declared.routes.Post.TheVariants as post
use Rattle.{ROUTES}.specs.declared.routes.Route.{{Route}}
use Rattle.{ROUTES}.specs.declared.routes.Route.TheVariants as route

-- each path with its route; parameters are in braces
abbrev pub route_table : List (List ℕ × Route)
route_table =
{rows} ∷
    []'''


# ---- the words of line_check


def question_words(described: Described) -> str:
    words = "\n".join(f'        "{word}",' for word in ["check", *(it for it, _, _ in described.words)])
    return f'''//! The words of questions, all of them.
ghost use Rattle.std.specs.Prelude.{{◌≡◌, Some, map}};
ghost use Rattle.{SCHEMA}.specs.{{AskedKind}};
ghost use Rattle.line_check.specs.QuestionWords.{{asked_at, place_of_asked}};

/// The words of questions. Each question has its word here.
pub(crate) fn question_words() -> &'static [&'static str]
    ensures {{ (kind : AskedKind) → asked_at (place_of_asked kind) (map (λ word. word.now) result.now) ≡ Some kind }}
{{
    &[
{words}
    ]
}}'''


def question_words_in_specs(described: Described) -> str:
    schema = f"Rattle.{SCHEMA}.specs.declared.question_tables"
    places = "\n".join(
        f"place_of_asked {ASKED_IN_SPECS[form].format(variant)} = {place}" for place, (_, form, variant) in enumerate(described.words, 1)
    )
    return f'''-- Where the words of questions are in the list of them.
use Rattle.std.specs.Prelude.{{ℕ, List, Option, option_and_then, slice_get}}
use Rattle.{SCHEMA}.specs.{{asked_kind, AskedKind}}
use {schema}.AskedKind.TheVariants as asked
use {schema}.Topic.TheVariants as topic
use {schema}.Around.TheVariants as around
use {schema}.ListKind.TheVariants as list

-- what the word at a place asks for
abbrev pub asked_at : ℕ → List (List ℕ) → Option AskedKind
asked_at place words = option_and_then asked_kind (slice_get words place)

-- where the word of each is
abbrev pub place_of_asked : AskedKind → ℕ
place_of_asked asked.Check = 0
{places}'''


def question_words_proofs(described: Described) -> str:
    schema = f"Rattle.{SCHEMA}.specs.declared.question_tables"
    proofs = "\n".join(f"returns _ {ASKED_IN_SPECS[form].format(variant)} = refl" for _, form, variant in described.words)
    return f'''use Rattle.std.proofs.Common.{{refl}}
use {schema}.AskedKind.TheVariants as asked
use {schema}.Topic.TheVariants as topic
use {schema}.Around.TheVariants as around
use {schema}.ListKind.TheVariants as list
use Rattle.line_check.proofs.question_words.question_words.Goals as goal

pub returns : goal.returns
returns _ asked.Check = refl
{proofs}'''


def files(described: Described) -> list[Region]:
    """Every file, from the description."""
    return [
        Region(f"{SCHEMA}/src/question_tables.rt", "the kinds of questions", kinds(described), whole=True),
        Region(f"{SCHEMA}/specs/QuestionTables.antt", "the words and members of questions", kinds_in_specs(described), whole=True),
        Region(f"{SCHEMA}/src/question_values.rt", "questions of values", made(described), whole=True),
        Region(f"{SCHEMA}/specs/QuestionValues.antt", "questions of values", made_in_specs(described), whole=True),
        Region(f"{SCHEMA}/proofs/QuestionsAreMade.antt", "values make questions", made_proofs(described), whole=True),
        Region(f"{ROUTES}/src/route_table.rt", "the routes", route_table(described), whole=True),
        Region(f"{ROUTES}/specs/RouteTable.antt", "the routes", route_table_in_specs(described), whole=True),
        Region("line_check/src/question_words.rt", "the words of questions", question_words(described), whole=True),
        Region("line_check/specs/QuestionWords.antt", "the words of questions", question_words_in_specs(described), whole=True),
        Region("line_check/proofs/question_words/question_words/Answers.antt", "the words of questions", question_words_proofs(described), whole=True),
    ]
