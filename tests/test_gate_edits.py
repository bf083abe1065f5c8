"""gate/edits.py, which tries wrong bodies: how they are read and applied, which are tried together, and how the prover's words are judged.

It runs over small repositories. Where the prover is needed, a program stands in its place that says of each function what a file tells it to.
"""
from __future__ import annotations

import json
import sys
from collections.abc import Mapping, Sequence
from typing import Any

from tests.support.cases import FolderTestCase
from tests.support.tools import Repository, ToolEnded, loaded

TOOLS = ["gate/edits.py", "make/side_by_side.py"]

# A crate of three functions and a constant.
SOURCE = """\
const MOST: u64 = 9;

pub fn double(n: u64) -> u64 {
    n + n
}

impl Stock {
    pub fn least(&self) -> u64 {
        self.amount.min(MOST)
    }

    fn nothing() {}
}
"""

# Wrong bodies, one of each function, and one of the constant.
DOUBLE = "refused by: `double`\nfile: src/lib.rt\nold: n + n\nnew: n\n"
LEAST = "refused by: `Stock::least`, and no other\nfile: src/lib.rt\nold: self.amount.min(MOST)\nnew: self.amount\n"
CONSTANT = "refused by: `Stock::least`\nfile: src/lib.rt\nold: u64 = 9\nnew: u64 = 8\n"

# An edit, as the tool reads it. The tool is loaded by its path, so that its types aren't known here.
Edit = Any

# The kit's prover: a program that says what the file `said` beside it has for each function that --only names, and then its last line.
PROVER = """#!{python}
import json, pathlib, sys
said = json.loads((pathlib.Path(__file__).parent / "said").read_text())
names = [sys.argv[at + 1] for at, it in enumerate(sys.argv) if it == "--only"]
source = pathlib.Path("src/lib.rt").read_text()
for name in names:
    print(said[name][0 if said[name][1] in source else 2])
print("only=" + str(len(names)))
"""


class EditTestCase(FolderTestCase):
    """A test case over the crate `stock` of a small repository, in which the tool looks."""

    def setUp(self) -> None:
        super().setUp()
        self.repository = Repository(self.folder, {"stock:": {"src/lib.rt": SOURCE}}, TOOLS)
        self.tool = loaded(TOOLS[0])
        setattr(self.tool, "TOP", self.repository.folder)

    def edit(self, text: str, name: str = "wrong", folder: str = "must-fail") -> Edit:
        """Writes an edit of the crate, and returns it as the tool reads it."""
        path = f"crates/stock/{folder}/{name}.edit"
        self.repository.write(path, text)
        return self.tool.Edit(self.repository.folder / path)


class Edits(EditTestCase):
    """How an edit is read and applied."""

    def test_function_and_texts_are_read(self) -> None:
        edit = self.edit(LEAST)
        self.check("its name", str(edit), "stock/wrong")
        self.check("the function", edit.function, "Stock::least")
        self.check("the texts", edit.pairs, [("src/lib.rt", "self.amount.min(MOST)", "self.amount")])

    def test_further_pairs_apply_to_what_the_earlier_ones_made(self) -> None:
        edit = self.edit(DOUBLE.replace("new: n\n", "new: n * n\n") + "old: n * n\nnew: n * 0\n")
        texts: dict[str, str] = {}
        self.check("both are applied", edit.apply(texts), None)
        self.check_true("the last one", "    n * 0\n" in texts["src/lib.rt"])

    def test_edit_that_cannot_be_applied_says_why(self) -> None:
        for case, text, why in [
            ("the old text stands four times", DOUBLE.replace("n + n", "u64"), "the text stands 4 times in src/lib.rt: u64"),
            ("the old text isn't there", DOUBLE.replace("n + n", "n - n"), "the text stands 0 times in src/lib.rt: n - n"),
            ("there is no such file", DOUBLE.replace("lib.rt", "main.rt"), "there is no file src/main.rt"),
            ("no file is told", DOUBLE.replace("file: src/lib.rt\n", ""), "there is no file None"),
            ("no function is told", DOUBLE.replace("`double`", "double"), "it doesn't say by which function it is refused"),
            ("nothing is changed", "refused by: `double`\nfile: src/lib.rt\n", "it changes nothing"),
            ("it is good", DOUBLE, None),
        ]:
            self.check(case, self.edit(text).apply({}), why)

    def test_function_spans_its_lines(self) -> None:
        for function, wanted in [("double", [(2, 4)]), ("least", [(7, 9)]), ("nothing", [(11, 11)]), ("none", [])]:
            self.check(function, list(self.tool.spans(SOURCE, function)), wanted)

    def test_edit_is_local_where_it_changes_its_own_function_alone(self) -> None:
        for case, text, wanted in [("a body", DOUBLE, True), ("a method", LEAST, True), ("a constant", CONSTANT, False)]:
            self.check(case, self.edit(text).is_local(), wanted)


class Commands(EditTestCase):
    """The words of the tool."""

    def test_apply_refuses_an_edit_whose_old_text_stands_twice(self) -> None:
        self.edit(DOUBLE, "good")
        self.edit(DOUBLE, "beside", "edits")
        ended = self.repository.run(TOOLS[0], "apply")
        self.check("two good ones", (ended.status, ended.output), (0, "1 edits for the gate and 1 beside them, 0 can't be applied\n"))
        self.edit(DOUBLE.replace("n + n", "MOST"), "twice")
        ended = self.repository.run(TOOLS[0], "apply")
        told = "stock/twice: the text stands 2 times in src/lib.rt: MOST\n2 edits for the gate and 1 beside them, 1 can't be applied\n"
        self.check("one whose text stands twice", (ended.status, ended.output), (1, told))

    def test_copy_leaves_edits_and_what_was_built_out(self) -> None:
        self.edit(DOUBLE)
        for name in ("build/desk", "crates/stock/out/rlib/stock.rlib", ".git/config", "make/__pycache__/a.pyc", "docs/MODEL.md"):
            self.repository.write(name, "")
        self.repository.write("build/copy/left", "from before")
        ended = self.repository.run(TOOLS[0], "copy", "build/copy")
        copy = self.repository.folder / "build/copy"
        found = sorted(str(it.relative_to(copy)) for it in copy.rglob("*") if it.is_file())
        self.check("the status", ended.status, 0)
        self.check("the files", found, ["HANDLES", "crates.txt", "crates/stock/src/lib.rt", "docs/MODEL.md", *sorted(TOOLS)])
        self.check_true("the top of a repository", (copy / ".git").is_dir())

    def test_wrong_words_are_answered_with_the_use(self) -> None:
        for words in [(), ("gate",), ("else",)]:
            ended = self.repository.run(TOOLS[0], *words)
            self.check(words, (ended.status, "gate/edits.py apply" in ended.errors), (1, True))


class Rounds(EditTestCase):
    """Which edits are tried together."""

    def test_edits_of_different_functions_are_tried_together(self) -> None:
        edits = [self.edit(DOUBLE, "a"), self.edit(LEAST, "b")]
        self.check("both", self.tool.first_round(edits), edits)

    def test_edits_of_one_function_are_tried_one_after_the_other(self) -> None:
        first, second = self.edit(DOUBLE, "a"), self.edit(DOUBLE.replace("new: n", "new: 0"), "b")
        self.check("the first", self.tool.first_round([first, second]), [first])

    def test_edit_outside_its_function_is_tried_by_itself(self) -> None:
        constant, double = self.edit(CONSTANT, "a"), self.edit(DOUBLE, "b")
        self.check("the local one first", self.tool.first_round([constant, double]), [double])
        self.check("then the other", self.tool.first_round([constant]), [constant])

    def test_edits_that_change_one_text_are_not_tried_together(self) -> None:
        double, other = self.edit(DOUBLE, "a"), self.edit(DOUBLE.replace("`double`", "`Stock::double`"), "b")
        self.check("the first", self.tool.first_round([double, other]), [double])


def said(*lines: str) -> str:
    """What the prover says, with its last line."""
    return "\n".join([*lines, "only=1 checked"])


class Judgements(EditTestCase):
    """How the prover's words are judged."""

    OPEN = "no proof: `search` did not prove result == 2 * n; 1 more"

    def judged(self, text: str, *lines: str, is_alone: bool = True) -> tuple[bool | None, str]:
        refused, why = self.tool.judged(self.edit(text), self.tool.Verdicts(said(*lines)), is_alone)
        return refused, why

    def test_function_is_found_by_the_end_of_its_path(self) -> None:
        verdicts = self.tool.Verdicts(said("fn stock::Stock::least: proved", "fn stock::other::least: proved", "fn stock::double: proved"))
        for function, wanted in [("double", "double"), ("Stock::least", "Stock::least"), ("least", None), ("none", None)]:
            self.check(function, verdicts.path(function), wanted)

    def test_edit_is_refused_where_a_goal_of_its_function_is_open(self) -> None:
        found = self.judged(DOUBLE, f"fn stock::double: {self.OPEN}")
        self.check("an open goal", found, (True, "refused by double: result == 2 * n"))

    def test_edit_that_is_still_proved_is_not_refused(self) -> None:
        self.check("proved", self.judged(DOUBLE, "fn stock::double: proved"), (False, "NOT REFUSED: double is still proved"))

    def test_edit_of_no_one_function_is_not_refused(self) -> None:
        self.check("another function", self.judged(DOUBLE, "fn stock::triple: proved"), (False, "no one function is double"))

    def test_refused_call_alone_and_a_search_without_end_judge_nothing(self) -> None:
        for status in ("no proof: it calls other::f, which isn't proved", "could not tell: `search` did not prove a goal"):
            refused, why = self.judged(DOUBLE, f"fn stock::double: {status}")
            self.check(status, (refused, why), (None, f"double: {status}"))

    def test_words_without_a_last_line_judge_nothing(self) -> None:
        verdicts = self.tool.Verdicts("error: no such crate\n")
        self.check("an error", self.tool.judged(self.edit(DOUBLE), verdicts, True), (None, "error: no such crate"))
        self.check("nothing", self.tool.judged(self.edit(DOUBLE), self.tool.Verdicts(""), True), (None, ""))

    def test_wrong_answer_in_a_proof_refuses_and_one_that_names_what_is_gone_does_not(self) -> None:
        for error, wanted in [("the goal is false", True), ("`amount` is not in scope", None)]:
            lines = [f"proofs/double/1.antt:3:1: error: {error}", "fn stock::double: not proved"]
            self.check(error, self.judged(DOUBLE, *lines)[0], wanted)


class FakeProver:
    """A prover that says of the functions what it is told to, by how many edits are tried together."""

    def __init__(self, together: Mapping[str, str], alone: Mapping[str, str]) -> None:
        self.together, self.alone = together, alone
        self.tried: list[list[str]] = []
        self.listed: dict[str, list[str]] = {"stock": []}

    def said(self, crate: str, tried: Sequence[Edit], kept: str) -> str:
        self.tried.append([it.path.stem for it in tried])
        lines = self.together if len(tried) > 1 else self.alone
        return said(*(f"fn stock::{it.function}: {lines[it.function]}" for it in tried))


class Tries(EditTestCase):
    """The edits of a crate, tried in rounds."""

    OPEN = "no proof: `search` did not prove its contract"
    CALLS = "no proof: it calls double, which is not proved"

    def test_edit_that_a_round_does_not_judge_is_tried_by_itself(self) -> None:
        edits = [self.edit(DOUBLE, "a"), self.edit(LEAST, "b")]
        prover = FakeProver({"double": self.OPEN, "Stock::least": self.CALLS}, {"Stock::least": self.OPEN})
        told = self.tool.try_crate(prover, "stock", edits, "kept")
        self.check("the rounds", prover.tried, [["a", "b"], ["b"]])
        self.check("the judgements", [(str(it), refused) for it, refused, _ in told], [("stock/a", True), ("stock/b", True)])

    def test_edit_that_is_not_judged_by_itself_fails(self) -> None:
        prover = FakeProver({}, {"double": self.CALLS})
        [(_, refused, why)] = self.tool.try_crate(prover, "stock", [self.edit(DOUBLE, "a")], "kept")
        self.check("it", (refused, why), (False, f"NOT JUDGED: double: {self.CALLS}"))


class Gate(EditTestCase):
    """The tries of the gate, by a program in the prover's place."""

    def prove(self, edits: Mapping[str, str], said_of: Mapping[str, Sequence[str]]) -> ToolEnded:
        """Writes edits of the gate and what the prover says of each function: where its body stands in the source, and where it doesn't."""
        for name, text in edits.items():
            self.edit(text, name)
        prover = self.repository.bin / "kit/bin/rattle"
        prover.parent.mkdir(parents=True)
        prover.write_text(PROVER.replace("{python}", sys.executable))
        prover.chmod(0o755)
        (prover.parent / "said").write_text(json.dumps(said_of))
        return self.repository.run(TOOLS[0], "gate", ".")

    def test_status_is_0_where_all_edits_are_refused(self) -> None:
        ended = self.prove({"a": DOUBLE, "b": LEAST}, {
            "double": ["fn stock::double: proved", "n + n", "fn stock::double: no proof: `search` did not prove result == 2 * n"],
            "Stock::least": ["fn stock::Stock::least: proved", "min(MOST)", "fn stock::Stock::least: no proof: `search` did not prove result <= 9"],
        })
        lines = ["stock/a: refused by double: result == 2 * n", "stock/b: refused by Stock::least: result <= 9", "2 edits refused, 0 not"]
        self.check("the gate", (ended.status, ended.output.splitlines(), ended.errors), (0, lines, ""))

    def test_status_is_1_where_an_edit_is_still_proved(self) -> None:
        ended = self.prove({"a": DOUBLE}, {"double": ["fn stock::double: proved", "n + n", "fn stock::double: proved"]})
        lines = ["stock/a: NOT REFUSED: double is still proved", "0 edits refused, 1 not"]
        self.check("the gate", (ended.status, ended.output.splitlines()), (1, lines))

    def test_status_is_1_where_there_is_no_edit(self) -> None:
        ended = self.prove({}, {})
        self.check("the gate", (ended.status, ended.output), (1, "0 edits refused, 0 not\n"))

    def test_sources_stay_as_they_are(self) -> None:
        self.prove({"a": DOUBLE}, {"double": ["", "n + n", "fn stock::double: proved"]})
        self.check("the source", self.repository.read("crates/stock/src/lib.rt"), SOURCE)
