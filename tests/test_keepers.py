"""Both keepers side by side: a desk over a file, and a run over the keeper of lists, which have to print the same, byte for byte."""
from __future__ import annotations

import re
from collections.abc import Sequence

from tests.support import model, scenarios, sessions, sqlite
from tests.support.cases import DeskTestCase
from tests.support.program import Program

# What may be asked about an id.
QUESTIONS = [
    '{"ask":"lot","lot":"%s"}',
    '{"ask":"order","order":"%s"}',
    '{"ask":"batch","batch":"%s"}',
    '{"ask":"recall","recall":"%s"}',
    '{"ask":"back","lot":"%s"}',
    '{"ask":"forward","lot":"%s"}',
    '{"ask":"back","batch":"%s"}',
    '{"ask":"forward","batch":"%s"}',
    '{"ask":"stands","lot":"%s"}',
    '{"ask":"stands","batch":"%s"}',
    '{"ask":"balance","lot":"%s"}',
    '{"ask":"balance","batch":"%s"}',
    '{"ask":"needs","order":"%s"}',
    '{"ask":"back_edges","lot":"%s"}',
    '{"ask":"back_edges","batch":"%s"}',
    '{"ask":"forward_edges","lot":"%s"}',
    '{"ask":"forward_edges","batch":"%s"}',
    '{"ask":"orders","state":"open","above":"%s"}',
    '{"ask":"orders","state":"finished","above":"%s"}',
    '{"ask":"batches","above":"%s"}',
    '{"ask":"lots","def":"%s"}',
    '{"ask":"lots","def":"DOUGH","above":"%s"}',
    '{"ask":"holds","lot":"%s"}',
    '{"ask":"holds","lot":"D-1","above":"%s"}',
    '{"ask":"recalls","above":"%s"}',
    '{"ask":"definition","def":"%s"}',
    '{"ask":"recipe","recipe":"%s","version":1}',
    '{"ask":"batch_lines","batch":"%s"}',
    '{"ask":"classes","above":"%s"}',
    '{"ask":"closed_batches","above":"%s"}',
    '{"ask":"lifted_recalls","above":"%s"}',
    '{"ask":"orders_by_due","state":"open","above":"2027-03-02.%s"}',
    '{"ask":"all_holds","above":"%s.H-1"}',
    '{"ask":"all_holds","above":"D-1.%s"}',
    '{"ask":"definitions","class":"%s"}',
    '{"ask":"definitions","class":"RAW","above":"%s"}',
    '{"ask":"recipes","state":"approved","above":"%s.1"}',
    '{"ask":"movements","lot":"%s"}',
    '{"ask":"movements","lot":"%s","above":"9.1"}',
    '{"ask":"stock","def":"%s"}',
    '{"ask":"stock","def":"DOUGH","above":"17.%s"}',
    '{"ask":"stocks","class":"%s"}',
    '{"ask":"stocks","class":"RAW","above":"%s"}',
    '{"ask":"find","id":"%s"}',
    '{"ask":"history","id":"%s"}',
    '{"ask":"history","id":"%s","above":7}',
]

# What is asked of nothing.
FRONTS = ["desk", "moment", "batches", "recalls", "classes", "closed_batches", "lifted_recalls", "all_holds", "commands"]

# Two recalls behind the twenty commands, what they refuse, and a lift.
RECALLS = b"".join(
    b'{"at":320,"by":"ben",%s}\n' % it
    for it in [
        b'"do":"recall","recall":"RC-1","lot":"F-1"',
        b'"do":"recall","recall":"RC-2","lot":"D-2"',
        b'"do":"split","lot":"D-3","sub":0,"amount":1,"new":"D-4","place":""',
        b'"do":"lift","recall":"RC-1"',
        b'"do":"split","lot":"D-3","sub":0,"amount":1,"new":"D-4","place":""',
        b'"do":"split","lot":"D-1","sub":0,"amount":1,"new":"D-4","place":""',
    ]
)
TOLD = b"""{"ok":21}
{"ok":22}
{"name":"Recalled","refused":32}
{"ok":23}
{"name":"Recalled","refused":32}
{"ok":24}
"""


def questions_about(commands: bytes) -> list[str]:
    """Returns each question about each id of the commands, and about one that isn't there, and each list from its front."""
    ids = sorted(set(re.findall(rb'"([A-Z][A-Z0-9-]*)"', commands))) + [b"X-9"]
    fronts = [f'{{"ask":"{it}"}}' for it in FRONTS]
    return fronts + [question % name.decode() for name in ids for question in QUESTIONS]


class KeeperTestCase(DeskTestCase):
    """A test case over the desk and the keeper of lists."""

    PROGRAMS = ("desk", "lists")

    def setUp(self) -> None:
        super().setUp()
        self.lists = Program("lists", self.folder)


class Questions(KeeperTestCase):
    """Every question about every id."""

    def test_questions_behind_commands_and_recalls_are_answered_alike(self) -> None:
        """Tells the twenty commands and the recalls, each twice under a reference, and asks each question; asks again once the file was taken
        back to the first schema and is raised."""
        session = sessions.twenty_commands()
        commands, replies = session.told + RECALLS, session.wanted + TOLD
        questions = questions_about(commands)
        self.note(f"{len(questions)} questions")
        repeated = b"".join(2 * (line[:-1] + b',"ref":"K-%d"}\n' % number) for number, line in enumerate(commands.splitlines()))
        told = repeated + "".join(it + "\n" for it in questions).encode()
        wanted = b"".join(2 * it for it in replies.splitlines(keepends=True))
        status, answers, errors = self.desk.run("run", "twenty.db", told=told)
        self.check("a desk over a file", (status, answers[:len(wanted)], errors), (1, wanted, b""))
        self.check("its answers", answers.count(b"\n"), wanted.count(b"\n") + len(questions))
        self.check_migrated_file(questions, answers.splitlines(keepends=True)[wanted.count(b"\n"):])
        self.check("the keeper of lists", self.lists.run(told=told), (1, answers, b""))

    def check_migrated_file(self, questions: Sequence[str], answers: Sequence[bytes]) -> None:
        """Takes the file back to the first schema, and asks what was known there: it has no recalls, so that none reaches a lot or counts in a sum,
        and no receipts."""
        sqlite.changed(self.folder / "twenty.db", sqlite.TO_SCHEMA_1)
        gone = ("recall", '"commands"', '"history"', '"stocks"', '"find"')
        lasting = [(question, answer) for question, answer in zip(questions, answers) if not any(it in question for it in gone)]
        told = "".join(question + "\n" for question, _ in lasting).encode()
        wanted = b"".join(answer.replace(b'"recalled":true', b'"recalled":false') for _, answer in lasting)
        self.check_run("the file raised from the first schema", ["run", "twenty.db"], (1, wanted, b""), told)


class Sessions(KeeperTestCase):
    """The keeper of lists answers all sessions that a desk answers."""

    def test_lists_answer_all_sessions(self) -> None:
        for session in scenarios.every():
            self.check(f"{session.name}, by lists", self.lists.run(told=session.told), session.ended())

    def test_lists_answer_all_computed_sessions(self) -> None:
        for session in model.every(self.chance):
            self.check(f"{session.name}, by lists", self.lists.run(told=session.told), session.ended())
