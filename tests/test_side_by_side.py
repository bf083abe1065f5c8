"""make/side_by_side.py, which builds crates side by side: what it begins, in which order, what it passes over, and how it ends.

It runs in a small repository, with a command rt that proves nothing.
"""
from __future__ import annotations

from tests.support.cases import FolderTestCase
from tests.support.tools import Repository, ToolEnded, loaded

TOOL = "make/side_by_side.py"

# Two programs over a library over another, and a crate that nothing stands on. Each library has a line more than the one below it.
CRATES = {
    "low: std_extra": {"src/lib.rt": "a\n"},
    "middle: low": {"src/lib.rt": "a\nb\n"},
    "aside: low": {"src/lib.rt": "a\n"},
    "large: middle low": {"src/main.rt": "a\n", "stdin": "told\n"},
    "small: low": {"src/main.rt": "a\n", "stdin": ""},
}


class RepositoryTestCase(FolderTestCase):
    """A test case over a small repository."""

    def setUp(self) -> None:
        super().setUp()
        self.repository = Repository(self.folder, CRATES, [TOOL])

    def build(self, *programs: str, path: str | None = None) -> tuple[ToolEnded, list[str]]:
        """Builds programs; returns how that ended, and the crates that were built, in their order."""
        ended = self.repository.run(TOOL, *programs, path=path)
        return ended, [crate for crate, _ in self.repository.calls()]


class Builds(RepositoryTestCase):
    """What is built."""

    def test_crates_are_built_each_behind_those_below_it(self) -> None:
        ended, built = self.build("large")
        self.check("the status", (ended.status, ended.errors), (0, ""))
        self.check("what is built, in order", built, ["low", "middle", "large"])
        self.check("the program", self.repository.read("build/large"), "#!/bin/sh\n")
        self.check("the library", self.repository.read("crates/low/out/rlib/low.rlib"), "low")
        self.check_true("the last line", ended.output.splitlines()[-1].endswith("large: proved and built, in build/"))

    def test_two_programs_are_built_with_what_both_stand_on_once(self) -> None:
        ended, built = self.build("large", "small")
        self.check("the status", ended.status, 0)
        self.check("what is built", sorted(built), ["large", "low", "middle", "small"])

    def test_library_is_made_and_program_is_run_with_its_words(self) -> None:
        self.repository.write("crates/small/args", "one\ntwo words\n")
        self.repository.run(TOOL, "small")
        calls = dict(self.repository.calls())
        self.check("a library", calls["low"][:2], ["lib", "--jobs"])
        self.check("a program", (calls["small"][:2], calls["small"][3:]), (["run", "--jobs"], ["--", "one", "two words"]))

    def test_unchanged_crate_is_passed_over(self) -> None:
        self.build("large")
        ended, built = self.build("large")
        self.check("built once more", (ended.status, built), (0, []))
        ended, built = self.build("small")
        self.check("another program over a library that is built", (ended.status, built), (0, ["small"]))

    def test_changed_crate_is_built_with_those_above_it(self) -> None:
        self.build("large", "small")
        for file in ("crates/middle/src/lib.rt", "crates/middle/specs/Middle.antt", "crates/middle/proofs/answer.antt"):
            self.repository.write(file, "changed\n")
            self.check(file, self.build("large", "small")[1], ["middle", "large"])
        self.repository.write("crates/aside/src/lib.rt", "changed\n")
        self.check("a crate that none of them needs", self.build("large", "small")[1], [])

    def test_all_is_built_again_by_another_toolchain(self) -> None:
        self.build("large")
        (self.repository.bin / "version.txt").write_text("kit 2")
        self.check("another toolchain", self.build("large")[1], ["low", "middle", "large"])

    def test_program_that_was_removed_is_built_again(self) -> None:
        self.build("large")
        (self.repository.folder / "build/large").unlink()
        self.check("a program that isn't there", self.build("large")[1], ["large"])

    def test_copies_are_removed_at_the_end(self) -> None:
        self.build("large")
        self.check("what is left in build", sorted(it.name for it in (self.repository.folder / "build").iterdir()),
                   ["built.json", "large", "large.log", "low.log", "middle.log"])


class Failures(RepositoryTestCase):
    """What isn't built."""

    def test_failing_crate_ends_with_status_1_and_its_last_lines(self) -> None:
        self.repository.write("crates/middle/src/says", "".join(f"line {it}\n" for it in range(1, 41)))
        self.repository.write("crates/middle/src/fails", "")
        ended, built = self.build("large")
        self.check("the status", ended.status, 1)
        self.check("nothing above it is begun", built, ["low", "middle"])
        shown = ended.output.split("middle is not built. The last lines of build/middle.log:\n")[1].split("\n\n")[0]
        self.check("its last 20 lines", shown.splitlines(), [*(f"  line {it}" for it in range(22, 41)), "  not proved"])

    def test_what_was_built_before_a_failure_is_kept(self) -> None:
        self.repository.write("crates/middle/src/fails", "")
        self.build("large")
        (self.repository.folder / "crates/middle/src/fails").unlink()
        self.check("the next time", self.build("large")[1], ["middle", "large"])

    def test_program_has_to_end_with_its_status(self) -> None:
        for ends, wanted, status in [("3", None, 1), ("3", "3\n", 0), ("0", "3\n", 1)]:
            self.repository.write("crates/small/src/ends", ends)
            if wanted:
                self.repository.write("crates/small/status", wanted)
            self.check(f"a program that ends with {ends}, and has to with {wanted}", self.build("small")[0].status, status)

    def test_what_is_no_program_is_told(self) -> None:
        for name in ("none", "low"):
            ended, built = self.build(name)
            self.check(name, (ended.status, ended.errors, built), (2, f"{name} is no program of crates.txt\n", []))

    def test_missing_command_rt_is_told(self) -> None:
        ended, _ = self.build("small", path=str(self.folder))
        self.check("no rt", (ended.status, ended.errors), (2, "there is no command rt: README says which toolchain is wanted\n"))

    def test_no_words_are_answered_with_the_use(self) -> None:
        for words, status in (((), 2), (("--help",), 0)):
            ended, built = self.build(*words)
            self.check(words, (ended.status, "make/side_by_side.py PROGRAM" in ended.output, built), (status, True, []))


class Order(FolderTestCase):
    """In which order crates are begun."""

    def setUp(self) -> None:
        super().setUp()
        self.tool = loaded(TOOL)
        self.lines = {line.split(":")[0]: line for line in CRATES}
        self.listed = self.tool.stands_on(self.lines)

    def test_crates_stand_on_those_of_the_list_alone(self) -> None:
        self.check("what low stands on", self.listed["low"], [])
        self.check("what large stands on", self.listed["large"], ["middle", "low"])

    def test_all_below_a_crate_are_told_in_the_order_of_the_list(self) -> None:
        for name, wanted in [("low", []), ("middle", ["low"]), ("large", ["low", "middle"]), ("small", ["low"])]:
            self.check(name, self.tool.below(self.listed, name), wanted)

    def test_chain_of_a_crate_is_the_longest_way_up_by_its_lines(self) -> None:
        files = {"low": ("", 10), "middle": ("", 5), "large": ("", 100), "small": ("", 7)}
        self.check("the chains", self.tool.chains(self.listed, files), {"small": 7, "large": 100, "middle": 105, "low": 115})

    def test_crate_with_the_longest_chain_is_begun_first(self) -> None:
        work = object.__new__(self.tool.Work)
        work.needed, work.listed, work.running = ["low", "middle", "large", "small"], self.listed, []
        work.chains = {"small": 7, "large": 100, "middle": 105, "low": 115}
        for built, wanted in [("", ["low"]), ("low", ["middle", "small"]), ("low middle", ["large", "small"])]:
            work.built = set(built.split())
            self.check(f"behind {built or 'nothing'}", work.ready(), wanted)

    def test_comments_and_empty_lines_of_the_list_are_passed_over(self) -> None:
        text = "# the crates\n\nlow:  # the lowest\nmiddle: low\n"
        repository = Repository(self.folder, {}, [])
        repository.write("crates.txt", text)
        script = f"import os, sys; os.chdir({str(repository.folder)!r}); sys.path.insert(0, {str(self.tool.__file__)!r}.rpartition('/')[0]); "
        script += "import side_by_side; print(side_by_side.lines_listed())"
        repository.write("show.py", script)
        self.check("the list", repository.run("show.py").output, "{'low': 'low:', 'middle': 'middle: low'}\n")

    def test_time_is_told_in_minutes_and_seconds(self) -> None:
        for seconds, wanted in [(0, "0:00"), (61.9, "1:01"), (3600, "60:00")]:
            self.check(seconds, self.tool.clock(seconds), wanted)
