"""Answers of the built desk that are computed here by itself (tests/support/model.py), and the rows that a command of each kind leaves."""
from __future__ import annotations

from tests.support import model, sqlite
from tests.support.commands import EACH_COMMAND
from tests.support.sessions import Session, SessionTestCase


class ComputedSessions(SessionTestCase):
    """Sessions whose answers are computed."""

    def test_each_word_leads_a_batch_from_each_state_as_the_table_says(self) -> None:
        self.check_session(model.states())

    def test_closed_batch_moves_no_more(self) -> None:
        self.check_session(model.closings())

    def test_batch_has_127_phases(self) -> None:
        self.check_session(model.phases())

    def test_recipe_is_accepted_where_it_is_well_formed(self) -> None:
        self.check_session(model.forms())

    def test_amounts_of_recipes_are_scaled_or_refused(self) -> None:
        self.check_session(model.scalings(self.chance)[0])

    def test_genealogies_traces_and_recalls_are_as_searched(self) -> None:
        for session in model.genealogies(self.chance):
            self.check_session(session)


class Rows(SessionTestCase):
    """What stands in the file behind commands."""

    def test_control_recipe_has_the_scaled_amounts(self) -> None:
        session, amounts = model.scalings(self.chance)
        self.check_over_file(session, "scaled.db")
        found: dict[str, list[int]] = {}
        for batch, amount in sqlite.rows(self.folder / "scaled.db", "SELECT batch, qty FROM control_line WHERE kind < 3 ORDER BY batch, no"):
            found.setdefault(batch, []).append(amount)
        self.check("scaled amounts", found, amounts)

    def test_each_command_leaves_its_rows_and_a_table_of_another_program_stays(self) -> None:
        file, session = self.folder / "rows.db", Session("each word")
        for number, (body, _) in enumerate(EACH_COMMAND, 1):
            operator, reference = ("anna", "ben")[number % 2], ',"ref":"K-1"' if number == len(EACH_COMMAND) else ""
            session.told += f'{{"at":{100 + number},"by":"{operator}","note":"n{number}",{body}{reference}}}\n'.encode()
            session.wanted += b'{"ok":%d}\n' % number
        self.desk.run("init", file.name)
        sqlite.changed(file, sqlite.OTHER_TABLE)
        self.check_over_file(session, file.name)
        keys = {**{name: keys[0].split() for name, (_, keys) in sqlite.TABLES.items()}, "shift": ["id"]}
        found = [
            sqlite.row_told(name, row)
            for name, key in keys.items()
            for row in sqlite.rows(file, f"SELECT * FROM {name} ORDER BY {', '.join(key)}")
        ]
        self.check("the rows of each word", found, sqlite.rows_of_each_command())
