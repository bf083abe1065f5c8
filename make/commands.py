#!/usr/bin/env python3
"""The desk's commands, described once; writes the files that repeat the description.

    make/commands.py          writes each file anew
    make/commands.py --check  ends with status 1 where a file isn't what the description gives

make/templates/commands has the templates of the files, make/regions.py says how they are read, and make/command_files.py what they name. What a
command does is written by hand, and of one that has a list what the list asks for.
"""
from __future__ import annotations

import dataclasses
import sys

import command_files
import regions
from regions import camel


@dataclasses.dataclass(frozen=True)
class Kind:
    """What a member is. `@` is its name, `%` the proof that its value obeys its rule, `#` the proof that its number has room."""

    # The variant of what is read of a line, and the rule that its type keeps.
    field: str
    values: str = ""
    # Its line in a content: in code, in specs, and why it has no LF.
    line: str = ""
    lined: str = "c.@"
    is_line: str = ""
    # How it is read from that line again, under which name, and why it is the same.
    bound: str = ""
    read: str = "@"
    back: str = ""
    # How many bits its number has, where its type alone bounds it, and what shows this to a proof.
    bits: int = 0
    shown: str = ""
    # The rule that its type doesn't keep, in code and in specs.
    rule: str = ""
    ruled: str = ""


def number(field: str, bits: int, shown: str, rule: str, ruled: str, back: str) -> Kind:
    """A member that is a number which its type alone bounds."""
    return Kind(
        field, lined="decimal c.@", is_line="number_line c.@", read="number_in @", back=f"{back} c.@ #", bits=bits, shown=f"{shown}(c.@)",
        rule=rule, ruled=ruled,
    )


KINDS = {
    "id": Kind("Id", "is_id", ".as_str()", is_line="id_line c.@ %", shown="show_id(&c.@)"),
    "text": Kind("Text", "is_text", ".as_str()", is_line="text_line c.@ %", shown="show_text(&c.@)"),
    "unit": Kind("Unit", "is_unit", ".as_str()", is_line="unit_line c.@ %", shown="let _@ = c.@.as_bytes()"),
    "amount": Kind(
        "Amount", "is_amount", ".get()", "decimal c.@", "number_line c.@", read="number_in @", back="amount_back c.@ %", shown="let _@ = c.@.get()",
    ),
    "sub": number("Number", 16, "show_number", "c.@ <= GREATEST_SUBLOT", "nat_le c.@ greatest_sublot", "short_back"),
    "version": number("Number", 16, "show_number", "is_version(c.@)", "is_version c.@", "short_back"),
    "phase": number("Small", 8, "show_phase", "is_phase_number(c.@)", "is_phase_number c.@", "byte_back"),
    "word": Kind(
        "Word", line=".name()", lined="word_name c.@", is_line="word_line c.@", bound="w", read="word_in @", back="word_back c.@",
        rule="is_command_word(c.@)", ruled="is_command_word c.@",
    ),
}

# What each member is of a command that has a list.
OF_LIST = Kind("")


@dataclasses.dataclass(frozen=True)
class Member:
    """A member of a command: its name, and what it is."""

    name: str
    kind: Kind

    @property
    def variant(self) -> str:
        """Its name among the members of messages."""
        return "Definition" if self.name == "def" else camel(self.name)


@dataclasses.dataclass
class Command:
    """A command. What is empty follows from the word."""

    # In lines; its members as they are written, each as NAME:KIND, or of a command that has a list by its name alone.
    word: str
    written: dataclasses.InitVar[str]
    members: list[Member] = dataclasses.field(init=False)
    # Its type, its variant among the commands, and among the kinds of commands.
    type: str = ""
    variant: str = ""
    kind: str = ""
    # In the names of its lines in a content, and of its effect.
    content: str = ""
    effect: str = ""
    # What it is about, where its values alone make it.
    about: str = ""
    # Whether it comes after the others where they are decided.
    is_last: bool = False

    def __post_init__(self, written: str) -> None:
        words = [it.partition(":") for it in written.split()]
        self.members = [Member(name, KINDS.get(kind, OF_LIST)) for name, _, kind in words]
        self.variant = self.variant or camel(self.word)
        self.type = self.type or self.variant
        self.kind = self.kind or camel(self.word)
        self.content = self.content or self.word
        self.effect = self.effect or self.word

    @property
    def has_list(self) -> bool:
        """Whether it has a list."""
        return any(it.kind is OF_LIST for it in self.members)


# In the order of the formats.
COMMANDS = [
    Command("add_class", "class:id name:text", about="goods"),
    Command("add_definition", "def:id class:id name:text unit:unit", about="goods"),
    Command("receive", "lot:id def:id amount:amount place:text", about="goods"),
    Command("scrap", "lot:id sub:sub amount:amount", about="goods"),
    Command("divide", "lot:id sub:sub amount:amount place:text", about="goods"),
    Command("split", "lot:id sub:sub amount:amount new:id place:text", about="goods"),
    Command("merge", "new place parts"),
    Command("hold", "lot:id hold:id", type="HoldLot", about="blocks"),
    Command("unhold", "lot:id hold:id", type="UnholdLot", about="blocks"),
    Command("recall", "recall:id lot:id", type="RecallLot", about="blocks", is_last=True),
    Command("lift", "recall:id", type="LiftRecall", about="blocks", is_last=True),
    Command("add_recipe", "recipe version product base least greatest title lines"),
    Command("approve", "recipe:id version:version", about="plans"),
    Command("withdraw", "recipe:id version:version", about="plans"),
    Command("import_orders", "orders"),
    Command("cancel_order", "order:id", about="plans"),
    Command("release", "order:id batch:id", about="plans"),
    Command("batch", "batch:id word:word", variant="BatchCommand", kind="Batch", content="batch_command", effect="command_batch", about="batches"),
    Command("settle", "batch:id", about="batches"),
    Command("phase_done", "batch:id phase:phase", about="batches"),
    Command("close_batch", "batch:id", about="batches"),
    Command("consume", "batch:id lot:id sub:sub amount:amount", about="batches"),
    Command("produce", "batch:id lot:id def:id amount:amount place:text", about="batches"),
]


def main() -> int:
    return regions.run("make/commands.py", __doc__, "commands", command_files.files(COMMANDS))


if __name__ == "__main__":
    sys.exit(main())
