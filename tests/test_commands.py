"""make/commands.py, which writes what repeats the description of the commands: that the files are what it gives, and what another command changes.

It runs over a copy of the files that it writes.
"""
from __future__ import annotations

import types
from collections.abc import Sequence
from typing import Any

from tests.support.regions import RegionsTestCase

# A command on goods with a member of each kind, before the end of the list.
WEIGH = '    Command("weigh", "lot:id sub:sub amount:amount version:version phase:phase word:word unit:unit place:text", about="goods"),\n'


class CommandsTestCase(RegionsTestCase):
    """A test case over a copy of the files."""

    TOOLS = ("make/commands.py", "make/command_files.py", "make/regions.py")

    def described(self, tool: types.ModuleType) -> Sequence[Any]:
        regions: Sequence[Any] = tool.command_files.files(tool.COMMANDS)
        return regions

    def add_weigh(self) -> None:
        """Adds a command to the description."""
        self.replace(self.TOOLS[0], "]\n\n\ndef main()", f"{WEIGH}]\n\n\ndef main()")


class Files(CommandsTestCase):
    """What is in the repository."""

    def test_files_are_what_the_description_gives(self) -> None:
        self.check_files()


class Changes(CommandsTestCase):
    """What the tool finds and writes."""

    def test_changed_file_is_found_and_written_anew(self) -> None:
        self.check_found_and_written_anew("crates/plant_json_in/src/command_tables.rt", '"add_class" => ', '"make_class" => ')

    def test_another_command_changes_what_is_generated_alone(self) -> None:
        before = self.texts()
        self.add_weigh()
        self.check_regions_alone(before, [])

    def test_another_command_has_its_lines(self) -> None:
        self.add_weigh()
        self.written()
        self.check_lines([
            ("crates/plant_base/src/commands.rt", "    Weigh(Weigh),"),
            ("crates/plant_base/src/commands.rt",
             "            Command::Weigh(c) => c.sub <= GREATEST_SUBLOT && is_version(c.version) && is_phase_number(c.phase) && is_command_word(c.word),"),
            ("crates/plant_base/src/lines.rt",
             r'        write!(f, "weigh\n{lot}\n{sub}\n{amount}\n{version}\n{phase}\n{word}\n{unit}\n{place}\n")'),
            ("crates/plant_base/specs/EachCommand.antt", "HasBodyValues (body.Weigh c) = "
             "IsTrue (is_id c.lot) × IsTrue (is_amount c.amount) × IsTrue (is_unit c.unit) × IsTrue (is_text c.place)"),
            ("crates/plant_base/proofs/CommandsReadBack.antt", f"    weigh_in ls{')' * len(self.tool.COMMANDS)}"),
            ("crates/plant_base/proofs/CommandsReadBack.antt", "body_back (body.Weigh c) v n = λ i. body.Weigh (record { lot = c.lot;"
             " sub = short_back c.sub n.0 i; amount = amount_back c.amount v.1 i; version = short_back c.version n.1 i;"
             " phase = byte_back c.phase n.2 i; word = word_back c.word i; unit = c.unit; place = c.place })"),
            ("crates/plant_json_in/specs/Plain.antt", "goods_of k.Weigh (field.Id lot ∷ field.Number sub ∷ field.Amount amount"
             " ∷ field.Number version ∷ field.Small phase ∷ field.Word word ∷ field.Unit unit ∷ field.Text place ∷ [])"
             " = Some (body.Weigh (record { lot = lot; sub = sub; amount = amount; version = version; phase = phase; word = word; unit = unit; place = place }))"),
            ("crates/line_check/specs/CommandWords.antt", f"place_of_command k.Weigh = {len(self.tool.COMMANDS)}"),
            ("crates/plant_rules/src/commands.rt", "        Command::Weigh(c) => decide_weigh(alloc, view, seq, stamp, c),"),
        ])

    def test_other_words_are_answered_with_the_use(self) -> None:
        self.check_use()
