"""make/package.py with helps.py and completions.py: what a help is read as, what is completed by it, what a program asks of the system, and how
archives are put together.

The packages of the built programs are looked at in tests/test_packages.py.
"""
from __future__ import annotations

import contextlib
import gzip
import io
import pathlib
import shutil
import subprocess
import tarfile

from tests.support.cases import CountedTestCase, FolderTestCase
from tests.support.tools import loaded

HELP = """\
Traces where goods came from.

Usage: desk trace [OPTIONS] <FILE> <DIRECTION>

Arguments:
  <FILE>       The file of the desk
  <DIRECTION>  back: where from; forward: where to

Options:
      --at <N>   The moment
  -h, --help     Print help

Example: desk trace plant.db back
"""

WHOLE = """\
A desk.

Usage: desk <COMMAND>

Commands:
  trace  Traces where goods came from

Options:
  -h, --help  Print help
"""

# Completes the words behind a first one, which is the file of the completion.
BASH = 'source "$0"; COMP_WORDS=("$@"); COMP_CWORD=$(($# - 1)); _desk; printf "%s\\n" "${COMPREPLY[@]}"'


class Helps(CountedTestCase):
    """What is read of a help."""

    def setUp(self) -> None:
        super().setUp()
        self.helps = loaded("make/helps.py")
        self.help = self.helps.Help(HELP)

    def test_parts_of_a_help_are_read(self) -> None:
        self.check("what it is about", self.help.about, "Traces where goods came from.")
        self.check("the usage", self.help.usage, "desk trace [OPTIONS] <FILE> <DIRECTION>")
        self.check("the lists", list(self.help.lists), ["Arguments", "Options"])
        self.check("the notes", self.help.notes, ["Example: desk trace plant.db back"])
        self.check("a list that isn't there", self.help.items("Commands"), [])

    def test_items_tell_their_flags_values_and_choices(self) -> None:
        file, direction = self.help.items("Arguments")
        at, word = self.help.items("Options")
        self.check("values", [it.value() for it in (file, direction, at, word)], ["FILE", "DIRECTION", "N", None])
        self.check("flags", [it.flags() for it in (file, at, word)], [[], ["--at"], ["-h", "--help"]])
        self.check("choices", [it.choices() for it in (file, direction)], [[], ["back", "forward"]])
        self.check("what is said", at.about, "The moment")

    def test_help_without_a_usage_or_with_a_bad_line_is_wrong(self) -> None:
        for text in ("Traces.\n", "Usage: desk\n", "A.\n\nUsage: desk\n\nOptions:\nbad\n"):
            with self.assertRaises(self.helps.Wrong):
                self.helps.Help(text)
            self.count()

    def test_text_of_a_page_is_written_so_that_groff_takes_nothing_for_else(self) -> None:
        for text, wanted in [("a-b", r"a\-b"), ("it's", r"it\(aqs"), ("\\", r"\e"), (".x\ny", "\\&.x\n.br\ny")]:
            self.check(text, self.helps.plain(text), wanted)

    def test_page_has_a_section_of_each_list(self) -> None:
        page = self.helps.page("line_check", "1.0.0", self.help, {}, ["desk"], "")
        for part in ('.TH LINE_CHECK 1 "" "desk 1.0.0"', ".SH ARGUMENTS\n", ".SH OPTIONS\n", ".SH SEE ALSO\n.BR desk (1)"):
            self.check_true(part, part in page)
        self.check_true("no exit status that no help tells", "EXIT STATUS" not in page)

    def test_exit_statuses_of_a_help_are_a_section(self) -> None:
        told = self.helps.Help(HELP + "Exit status: 0 where it is\nwell; 1 where it isn't.\n")
        page = self.helps.page("line_check", "1.0.0", told, {}, ["desk"], "")
        wanted = ".SH EXIT STATUS\n.TP\n.B 0\nwhere it is well\n.TP\n.B 1\nwhere it isn\\(aqt\n.SH SEE ALSO\n"
        self.check_true(f"the section, {page}", wanted in page)
        self.check_true("neither an example nor a status in the description", ".SH DESCRIPTION" not in page)

    def test_sections_by_hand_have_lines_to_type_and_files_with_their_contents(self) -> None:
        text = "EXAMPLES\n\nA file\nis made:\n\n    desk init a\n    desk verify a\n\nFILES\n\nplant.db\n\n    The\n    records.\n"
        wanted = [".SH EXAMPLES", ".PP", "A file is made:", ".PP", ".RS 4", ".nf", "desk init a", "desk verify a", ".fi", ".RE"]
        wanted += [".SH FILES", ".TP", ".B plant.db", "The records."]
        self.check("the sections", self.helps.manual(text).splitlines(), wanted)


class Completions(FolderTestCase):
    """What is completed behind a program, by its help."""

    def setUp(self) -> None:
        super().setUp()
        self.completions, helps = loaded("make/completions.py"), loaded("make/helps.py")
        self.whole, self.words = helps.Help(WHOLE), {"trace": helps.Help(HELP)}

    def test_bash_completes_words_options_and_choices(self) -> None:
        file = self.folder / "desk"
        file.write_text(self.completions.bash(self.whole, self.words))
        for typed, wanted in [
            ("tr", ["trace"]),
            ("", ["trace", "-h", "--help"]),
            ("trace --", ["--at", "--help"]),
            ("trace plant.db ", ["back", "forward"]),
            ("trace --at 1 plant.db f", ["forward"]),
            ("trace --at ", [""]),
            ("sing ", [""]),
        ]:
            words = ["bash", "--noprofile", "--norc", "-c", BASH, str(file), "desk", *typed.split(" ")]
            found = subprocess.run(words, capture_output=True, text=True, check=True).stdout.splitlines()
            self.check(f"desk {typed}", found, wanted)

    def test_zsh_and_fish_are_told_words_and_options(self) -> None:
        for shell, text, parts in [
            ("zsh", self.completions.zsh(self.whole, self.words), ("#compdef desk", "'trace:", "--at", "--help")),
            ("fish", self.completions.fish(self.whole, self.words), ("complete -c desk -f", " -a trace ", " -l at ", " -l help ")),
        ]:
            self.check(shell, [it for it in parts if it not in text], [])

    def test_program_without_words_has_its_options_completed(self) -> None:
        told = self.words["trace"]
        for shell, text, part in [
            ("bash", self.completions.bash_alone("check", told), "complete -o default -W '--at -h --help' check\n"),
            ("zsh", self.completions.zsh_alone("check", told), "#compdef check\n"),
            ("fish", self.completions.fish_alone("check", told), "complete -c check "),
        ]:
            self.check_true(f"{shell}: {text}", part in text)


class Archives(FolderTestCase):
    """How files are put together."""

    FILES = {"bin/desk": (b"program", 0o755), "share/doc/README.md": (b"text", 0o644)}

    def setUp(self) -> None:
        super().setUp()
        self.package = loaded("make/package.py")

    def test_bytes_are_pressed_with_no_name_and_no_moment(self) -> None:
        pressed = self.package.pressed(b"text")
        self.check("the bytes", gzip.decompress(pressed), b"text")
        self.check("flags and moment", pressed[3:8], bytes(5))

    def test_archive_has_folders_modes_and_one_moment(self) -> None:
        archive = self.package.packed(self.FILES, "desk-1/")
        with tarfile.open(fileobj=io.BytesIO(archive)) as tar:
            found = {it.name: (it.mode, it.isdir(), it.mtime, it.uname) for it in tar.getmembers()}
            program = tar.extractfile("desk-1/bin/desk")
            assert program
            content = program.read()
        moment = self.package.MOMENT
        folders = ["desk-1", "desk-1/bin", "desk-1/share", "desk-1/share/doc"]
        wanted = {it: (0o755, True, moment, "root") for it in folders}
        wanted.update({"desk-1/bin/desk": (0o755, False, moment, "root"), "desk-1/share/doc/README.md": (0o644, False, moment, "root")})
        self.check("the members", found, wanted)
        self.check("a file", content, b"program")

    def test_member_of_an_ar_archive_has_an_even_size(self) -> None:
        for content in (b"even", b"odd"):
            member = self.package.member("name", content)
            self.check(content, (len(member) % 2, member[:4], member[48:58], member[58:60]), (0, b"name", b"%-10d" % len(content), b"`\n"))
            self.check(f"{content!r} behind its head", member[60:60 + len(content)], content)

    def test_folders_and_kilobytes_of_files_are_counted(self) -> None:
        self.check("the folders", self.package.folders(self.FILES), {"bin", "share", "share/doc"})
        self.check("kilobytes", self.package.kilobytes({**self.FILES, "large": (bytes(1025), 0o644)}), 1 + 1 + 2 + 3)

    def test_file_is_written_in_one_step(self) -> None:
        file, told = self.folder / "archive", io.StringIO()
        with contextlib.redirect_stdout(told):
            self.package.write(file, b"bytes")
        self.check("the file", [(it.name, it.read_bytes()) for it in self.folder.iterdir()], [("archive", b"bytes")])
        self.check("what is told", told.getvalue(), f"{file}: 5 bytes\n")


class Programs(FolderTestCase):
    """What a program asks of the system that loads it, as its file tells."""

    def setUp(self) -> None:
        super().setUp()
        self.package = loaded("make/package.py")

    def test_libraries_and_versions_of_a_program_are_read(self) -> None:
        elf = self.package.Elf(self.system_program())
        self.check_true(f"the C library is named, {elf.libraries()}", "libc.so.6" in elf.libraries())
        self.check_true(f"versions are named, {elf.versions()}", elf.versions() and all(it[0] == 2 for it in elf.versions()))

    def test_packages_of_debian_are_told_with_the_least_version(self) -> None:
        program = self.system_program()
        told = self.package.depends([program])
        version = ".".join(map(str, max(self.package.Elf(program).versions())))
        self.check_true(f"{told}", f"libc6 (>= {version})" in told and told.startswith("Depends: ") and told.endswith("\n"))

    def test_what_is_no_program_is_refused(self) -> None:
        file = self.folder / "script"
        file.write_bytes(b"#!/bin/sh\n")
        with self.assertRaises(self.package.Wrong) as raised:
            self.package.Elf(file)
        self.check("a script", str(raised.exception), f"{file} is no program for x86-64")

    def test_library_that_no_package_is_known_of_is_refused(self) -> None:
        setattr(self.package, "LIBRARIES", {})
        with self.assertRaises(self.package.Wrong) as raised:
            self.package.depends([self.system_program()])
        self.check_true(raised.exception, "it isn't known which package has" in str(raised.exception))

    def system_program(self) -> pathlib.Path:
        """Returns a copy of a program of the system that wants the C library alone."""
        program = shutil.which("true")
        assert program
        return pathlib.Path(shutil.copy(program, self.folder))
