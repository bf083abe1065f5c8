"""The files of make/commands.py: each from its template in make/templates/commands, at its path there, over these sets of commands and with these
words; and the regions of plant_rules, where each command has files of its own."""
from __future__ import annotations

from collections.abc import Callable, Iterable, Sequence
from typing import TYPE_CHECKING

from regions import Region, Words, chain, expanded, file, nested, packed, templates

if TYPE_CHECKING:
    from commands import Command, Member

# ---- words of a command


def named(text: str, member: Member) -> str:
    """The text of a member's kind with its name."""
    return text.replace("@", member.name)


def obeying(command: Command) -> list[Member]:
    """The members whose types keep a rule."""
    return [it for it in command.members if it.kind.values]


def numbers(command: Command) -> list[Member]:
    """The members that are numbers which their types alone bound."""
    return [it for it in command.members if it.kind.bits]


def part(proof: str, members: list[Member], member: Member) -> str:
    """The part of a proof about some members that is about one of them."""
    return f"{proof}.{members.index(member)}" if len(members) > 1 else proof


def proved(text: str, command: Command, member: Member) -> str:
    """The text of a member's kind with its name, and with the proofs about it."""
    if "%" in text:
        text = text.replace("%", part("v", obeying(command), member))
    if "#" in text:
        text = text.replace("#", part("n", numbers(command), member))
    return named(text, member)


def is_line(command: Command, member: Member) -> str:
    """Why the line of a member has no LF."""
    return proved(member.kind.is_line, command, member)


def kept(command: Command, member: Member) -> str:
    """A member as it is read again."""
    return f"{proved(member.kind.back, command, member)} i" if member.kind.back else f"c.{member.name}"


def fields(command: Command, value: Callable[[Member], str]) -> str:
    """The fields of a command, with the value of each."""
    return "record { " + "; ".join(f"{it.name} = {value(it)}" for it in command.members) + " }"


def ruled(command: Command) -> list[Member]:
    """The members that have a rule which their types don't keep."""
    return [it for it in command.members if it.kind.rule]


def linked(items: Iterable[str], width: int = 118) -> str:
    """A list in specs, in lines that are as full as they can be."""
    lines = [""]
    for item in [*items, "[]"]:
        if lines[-1] and len(lines[-1]) + len(item) + 7 > width:
            lines.append("")
        lines[-1] += f"{' ∷ ' if lines[-1] else ''}{item}"
    return "\n".join(f"    {'∷ ' if at else ''}{line}" for at, line in enumerate(lines))


# ---- code


# What shows the values of several members in one call: their names, and the function.
TOGETHER: list[tuple[tuple[str, ...], str]] = [
    (("lot", "def", "amount", "place"), "show_goods"),
    (("lot", "amount"), "show_amount"),
]


def calls(command: Command) -> list[str]:
    """The calls that show to a proof that the values of a command obey their rules."""
    left = obeying(command)
    if [it.kind.values for it in left] == ["is_id", "is_id"]:
        return [f"show_ids(&c.{left[0].name}, &c.{left[1].name})"]
    found = []
    while left:
        names, function = next((it for it in TOGETHER if tuple(member.name for member in left[: len(it[0])]) == it[0]), ((), ""))
        found.append(f"{function}({', '.join(f'&c.{name}' for name in names)})" if names else named(left[0].kind.shown, left[0]))
        left = left[len(names) or 1 :]
    return found


def arm(command: Command, statements: Sequence[str]) -> str:
    """The arm of a command, with one expression or a block."""
    if len(statements) == 1:
        return f"Command::{command.variant}(c) => {statements[0]},"
    lines = "".join(f"                {it};\n" for it in statements)
    return f"Command::{command.variant}(c) => {{\n{lines}            }}"


def own_members(command: Command) -> str:
    """The members that a command has of its own, in code."""
    names = [it.variant for it in command.members]
    if len(", ".join(names)) <= 60:
        return f"&[{', '.join(names)}]"
    return packed(names, "&[", "]", width=91).replace("\n", "\n        ")


def made_of_values(command: Command) -> str:
    """How a command is made of the values of a line, in code."""
    pattern = f"    &[{', '.join(f'{it.kind.field}({it.name})' for it in command.members)}] =>"
    names, head = [it.name for it in command.members], f"{pattern} Some(Command::{command.variant}("
    line = f"{head}{command.type} {{ {', '.join(names)} }})),"
    if len(line) > 92 or len(", ".join(names)) > 18:
        if len(head) + len(command.type) + 2 <= 92:
            line = "\n".join([f"{head}{command.type} {{", *(f"        {it}," for it in names), "    })),"])
        else:
            line = "\n".join([head, f"        {command.type} {{", *(f"            {it}," for it in names), "        },", "    )),"])
    return line.strip()[:-1].replace("\n", "\n        ")


# Where the names come from that files of specs and proofs use.
HOMES = [
    ("plant_base.specs.declared.command.*", r"(?!Has|Is|Command$|Type$)[A-Z]\w+", "plant_base/specs"),
    ("plant_base.specs", "Command", "plant_json_in/specs"),
    ("std.specs.Prelude", r"decimal|IsTrue|◌\^◌|option_and_then|slice_get", ""),
    ("std.specs.List", "list_any", ""),
    ("plant_values.specs", r"is_(id|text|unit|amount)|greatest_sublot", ""),
    ("plant_base.specs.Words", "word_name", ""),
    ("plant_base.specs.PlantState", "same", ""),
    ("plant_base.specs.WellFormedCommands", "is_(version|phase_number|command_word)|is_well_formed_(merge|add_recipe|import_orders)", ""),
    ("plant_base.specs.WellFormedCommands", "Has(Merge|AddRecipe|ImportOrders)Values", ""),
    ("plant_base.specs.ContentLines", "(merge|add_recipe|import_orders)_lines|Has(Merge|AddRecipe|ImportOrders)Numbers", ""),
    ("plant_base.specs.declared.commands.Command", "Command", ""),
    ("plant_base.specs.declared.commands.Command.TheVariants as body", "body", ""),
    ("plant_base.specs", "HasBodyValues|HasNumbers|body_lines", ""),
    ("plant_base.proofs.LinesReadBack", r"number_in|word_in|nothing|(amount|short|byte|word)_back|(merge|add_recipe|import_orders)_(in|back)", ""),
    ("plant_base.proofs.LinesHaveNoLf", r"AreLines|\w+_line|(merge|add_recipe|import_orders)_are", ""),
    ("plant_json_in.specs.declared.members.Member", "Member", ""),
    ("plant_json_in.specs.declared.members.Member.TheVariants as m", "m", ""),
    ("plant_json_in.specs.declared.fields.Field", "Field", ""),
    ("plant_json_in.specs.declared.fields.Field.TheVariants as field", "field", ""),
    ("plant_json_in.specs.declared.command_tables.CommandKind", "CommandKind", ""),
    ("plant_json_in.specs.declared.command_tables.CommandKind.TheVariants as k", "k", ""),
    ("plant_json_in.specs", "command_kind", ""),
]

# What the commands in code call of those with one.
SHOWING = "is_command_word is_phase_number is_version show_amount show_goods show_id show_ids show_number show_phase show_text".split()


# ---- what templates name


def plain_words(command: Command) -> dict[str, object]:
    """What a template may name of a command that its values alone make."""
    members = command.members
    back = f"λ i. body.{command.variant} ({fields(command, lambda it: kept(command, it))})" if any(it.kind.back for it in members) else "refl"
    bound = [it.kind.bound or it.name for it in members]
    return {
        "lines": chain([f'codes "{command.word}"', *(named(it.kind.lined, it) for it in members)]),
        "written_values": "\n".join(f"        let {it.name} = self.0.{it.name}{it.kind.line};" for it in members),
        "written_text": "".join(f"{{{it.name}}}\\n" for it in members),
        "rooms": " × ".join(f"c.{it.name} < 2 ^ {it.kind.bits}" for it in numbers(command)) or "⊤",
        "rules": " && ".join(named(it.kind.ruled, it) for it in ruled(command)) or "true",
        "rule_in_code": " && ".join(named(it.kind.rule, it) for it in ruled(command)),
        "values": " × ".join(f"IsTrue ({it.kind.values} c.{it.name})" for it in obeying(command)),
        "shown_values": arm(command, calls(command)),
        "shown_numbers": arm(command, [named(it.kind.shown, it) for it in numbers(command)]),
        "bound": " ∷ ".join(bound),
        "read": fields(command, lambda it: it.kind.read.replace("@", it.kind.bound or it.name)),
        "back": back,
        "are": nested(["refl", *(is_line(command, it) for it in members)], "tt"),
        "fields_read": chain(f"field.{it.kind.field} {it.name}" for it in members),
        "fields_made": fields(command, lambda it: it.name),
        "made_in_code": made_of_values(command),
    }


def words(command: Command, place: int) -> dict[str, object]:
    """What a template may name of a command."""
    return {
        **{name: getattr(command, name) for name in ("word", "type", "variant", "kind", "content")},
        "place": place,
        "members": chain(f"m.{it.variant}" for it in command.members),
        "members_in_code": own_members(command),
        **({} if command.has_list else plain_words(command)),
    }


def sets_of(commands: Sequence[Command], decided: Sequence[Command]) -> dict[str, list[Words]]:
    """What templates go over."""
    each = {it.word: words(it, place) for place, it in enumerate(commands)}
    plain = [it for it in commands if not it.has_list]
    chosen = {
        "commands": commands, "but_last": commands[:-1], "decided": decided, "plain": plain, "listed": [it for it in commands if it.has_list],
        "ruled": [it for it in plain if ruled(it)], "numbered": [it for it in plain if numbers(it)],
        **{f"{about}_of": [it for it in plain if it.about == about] for about in ("goods", "blocks", "plans", "batches")},
    }
    return {name: [each[it.word] for it in these] for name, these in chosen.items()}


def given(commands: Sequence[Command]) -> dict[str, object]:
    """What templates name besides."""
    plain = [it for it in commands if not it.has_list]
    read = sorted({member.kind.field for it in plain for member in it.members})
    types = sorted(it.type for it in plain)
    return {
        "use_all": packed([*sorted(it.type for it in commands), *SHOWING], "use crate::command::{", "};"),
        "use_plain_here": packed(types, "use crate::command::{", "};"),
        "use_plain": packed(sorted([*types, "Command"]), "use plant_base::{", "};"),
        "use_members": packed(["self", *sorted({member.variant for it in commands for member in it.members})], "use crate::members::Member::{", "};"),
        "use_fields": f"use crate::Field::{{self, {', '.join(read)}}};",
        "last_read": f"{commands[-1].word}_in ls{')' * (len(commands) - 1)}",
        "plain_reads": " ".join(f"{it.word}_in" for it in plain),
        "closed": ")" * len(commands),
        "all_words": "\n" + linked(f'codes "{it.word}"' for it in commands),
    }


def in_rules(decided: Sequence[Command]) -> list[Region]:
    """The regions of plant_rules: what each command means there stands in files of its own."""
    return [
        Region("plant_rules/specs/Wrong.antt", "all commands", "\n".join(f"wrong_body s (body.{it.variant} c) = wrong_{it.word} s c" for it in decided)),
        Region("plant_rules/specs/Step.antt", "all commands", "\n".join(f"step_body s t (body.{it.variant} c) = {it.effect} s t c" for it in decided)),
        Region("plant_rules/src/commands.rt", "all commands", "\n".join(
            f"Command::{it.variant}(c) => decide_{it.word}(alloc, view, seq, stamp, c)," for it in decided)),
    ]


def files(commands: Sequence[Command]) -> list[Region]:
    """All files, and the regions of others."""
    decided = sorted(commands, key=lambda it: it.is_last)
    sets, once = sets_of(commands, decided), given(commands)
    found = []
    for path, about, text in templates("commands"):
        goal = (path.replace("/Answers.antt", ".Goals").replace("/", ".") + " as goal", "goal", path)
        found.append(file(path, about, expanded(text, sets, once), [goal, *HOMES]))
    return [*found, *in_rules(decided)]
