"""make/run.py, which shows README's session and the batch by a quick build: each line with its reply, and how it ends."""
from __future__ import annotations

import json

from tests.support.cases import FolderTestCase
from tests.support.program import TOP
from tests.support.tools import Repository, ToolEnded, loaded

TOOL = "make/run.py"

SESSION = '{"ask":"desk"}\n'
BATCH = '{"ask":"desk"}\n{"at":7,"do":"x"}\n{"ask":"moment"}\n'
REPLIES = '{"schema":4,"seq":0}\n{"ok":1}\n{"at":107}\n'


class QuickRun(FolderTestCase):
    """Runs of the tool, with a command rt that prints what a file says."""

    def quick_run(self, replies: str, ends: str = "0", path: str | None = None) -> ToolEnded:
        """Returns how the tool ends where `rt try` prints these replies and ends with this status."""
        files = {"src/main.rt": "a\n", "src/says": replies, "src/ends": ends, "stdin": SESSION}
        self.repository = Repository(self.folder, {"desk:": files}, [TOOL])
        self.repository.write("examples/batch.jsonl", BATCH)
        return self.repository.run(TOOL, path=path)

    def test_each_line_is_shown_with_its_reply(self) -> None:
        status, output, errors = self.quick_run(REPLIES)
        self.check("the status", (status, errors), (0, ""))
        wanted = ["", '> {"ask":"desk"}', '{"schema":4,"seq":0}', "", '> {"at":107,"do":"x"}', '{"ok":1}', '> {"ask":"moment"}', '{"at":107}']
        self.check("the lines", output.splitlines()[-8:], wanted)
        self.check("what rt is told", self.repository.calls(), [("desk", ["try"])])

    def test_missing_reply_ends_with_status_1(self) -> None:
        status, _, errors = self.quick_run(REPLIES.splitlines()[0] + "\n")
        self.check("one reply", (status, errors), (1, "1 of 3 lines have a reply; rt try ended with status 0\n"))

    def test_status_of_rt_is_handed_on(self) -> None:
        status, _, errors = self.quick_run(REPLIES, ends="3")
        self.check("a status of 3", (status, errors), (3, "3 of 3 lines have a reply; rt try ended with status 3\n"))

    def test_missing_command_rt_is_told(self) -> None:
        status, _, errors = self.quick_run(REPLIES, path=str(self.folder))
        self.check("no rt", (status, errors), (2, "there is no command rt: README says which toolchain is wanted\n"))

    def test_batch_comes_behind_the_session_and_makes_nothing_twice(self) -> None:
        session, batch = loaded(TOOL).lines_of_both(TOP)
        told = [json.loads(it) for it in session + batch]
        moments = [it["at"] for it in told if "at" in it]
        self.check("the moments", moments, sorted(moments))
        self.check("the classes that are made", [it["class"] for it in told if it.get("do") == "add_class"], ["RAW"])
        self.check("the session", session, (TOP / "crates/desk/stdin").read_text().splitlines())
