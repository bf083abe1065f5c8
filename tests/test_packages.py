"""The packages of the built programs: made twice, unpacked, and what stands in them.

What was unpacked runs the batch of examples in a folder of its own, with no toolchain on its PATH. Pages, completions and the unit are looked
at by groff, bash, zsh, fish and systemd-analyze; what wants a program that isn't there is left out.
"""
from __future__ import annotations

import gzip
import hashlib
import io
import json
import os
import pathlib
import re
import shutil
import stat
import subprocess
import tarfile
import time
from typing import Any

from tests.support.cases import ProgramTestCase
from tests.support.http import free_port, listens
from tests.support.program import PACKED, SECONDS, TOP, File, path_of

# Folders that are on every machine.
COMMON = [pathlib.Path(it) for it in ("/", "/usr", "/usr/bin", "/usr/local", "/usr/local/bin")]

# What the unpacked programs are given of the system.
PLAIN = {"PATH": "/usr/bin:/bin", "LC_ALL": "C"}

# Completes the words behind a first one, which is the file of the completion.
BASH = 'source "$0"; COMP_WORDS=("$@"); COMP_CWORD=$(($# - 1)); _desk; printf "%s\\n" "${COMPREPLY[@]}"'

# Programs that have no words, each with an option of its help.
ALONE = [("order_check", "--version"), ("line_check", "--schema"), ("desk_check", "--json"), ("genealogy_picture", "--dot"), ("desk-backup", "--keep"),
         ("desk-watch", "--max-age")]

# The scripts of a package, and all that it installs to be run.
SCRIPTS = {"desk-backup": TOP / "make/packaged/desk_backup.py", "desk-watch": TOP / "make/packaged/desk_watch.py"}
INSTALLED = (*PACKED, *SCRIPTS)

# The documents of a package.
DOC = "share/doc/desk"


def ran(*words: File, **how: Any) -> tuple[int, str, str]:
    """Returns the status of a program, what it printed, and what it printed of errors."""
    options: dict[str, Any] = {
        "stdin": subprocess.DEVNULL, "capture_output": True, "text": True, "timeout": SECONDS, **how,
    }
    it = subprocess.run([str(word) for word in words], **options)
    return it.returncode, it.stdout, it.stderr


def members(package: pathlib.Path) -> dict[str, bytes]:
    """Returns the members of an ar archive by their names."""
    found: dict[str, bytes] = {}
    content, at = package.read_bytes(), len(b"!<arch>\n")
    while at < len(content):
        name, size = content[at:at + 16].decode().strip(), int(content[at + 48:at + 58])
        found[name] = content[at + 60:at + 60 + size]
        at += 60 + size + size % 2
    return found


def unpack(archive: bytes, folder: pathlib.Path) -> None:
    """Unpacks a tar archive, given as bytes."""
    with tarfile.open(fileobj=io.BytesIO(archive)) as tar:
        safely: dict[str, Any] = {"filter": "data"} if hasattr(tarfile, "data_filter") else {}
        tar.extractall(folder, **safely)


def files_of(folder: pathlib.Path) -> dict[str, tuple[bytes, int]]:
    """Returns the files below a folder by their places, each with its bytes and its mode."""
    return {str(it.relative_to(folder)): (it.read_bytes(), it.stat().st_mode) for it in folder.rglob("*") if it.is_file()}


def help_text(program: pathlib.Path, *words: str) -> str:
    return ran("desk", *words, "--help", executable=program)[1]


def words_of(text: str) -> list[str]:
    """Returns the words that the help of the desk lists."""
    return re.findall(r"^  (\w+) ", text.partition("Commands:\n")[2].partition("\n\n")[0], re.M)


def long_options(text: str) -> list[str]:
    """Returns the long options that a help lists."""
    return re.findall(r"^  (?:-\w, |    )(--[\w-]+)", text.partition("Options:\n")[2], re.M)


class PackageTestCase(ProgramTestCase):
    """A test case over the packages, which are made and unpacked once, in a folder of the class."""

    PROGRAMS = PACKED

    # The folder of the class, the built programs, and of the desk its version, its words and the options of each.
    place: pathlib.Path
    programs: dict[str, pathlib.Path]
    version: str
    words: list[str]
    options: dict[str, list[str]]

    # The names of the packages, and the folders in which what was unpacked of them stands.
    archive: str
    debian: str
    tops: dict[str, pathlib.Path]

    # Of the package for Debian its members, how it was unpacked, and its files, each with its bytes and its mode.
    parts: dict[str, bytes]
    unpacked: tuple[int, str, str]
    files: dict[str, tuple[bytes, int]]

    @classmethod
    def setUpClass(cls) -> None:
        super().setUpClass()
        cls.place = cls.class_folder()
        cls.programs = {name: path_of(name) for name in PACKED}
        cls.version = ran("desk", "--version", executable=cls.programs["desk"])[1].split()[-1]
        cls.words = words_of(help_text(cls.programs["desk"]))
        cls.options = {it: long_options(help_text(cls.programs["desk"], it)) for it in cls.words}
        cls.archive, cls.debian = f"desk-{cls.version}.tar.gz", f"desk_{cls.version}_amd64.deb"
        cls.make("first")
        cls.unpack()

    @classmethod
    def has(cls, program: str, what: str) -> bool:
        """Returns whether the system has a program; what wants one that it hasn't is left out."""
        found = shutil.which(program) is not None
        if not found:
            cls.leave_out(what, f"there is no {program}")
        return found

    @classmethod
    def make(cls, name: str, **where: str) -> None:
        """Makes the packages in a folder of this name, with these variables more in the environment."""
        folder, copies = cls.place / name, cls.place / f"{name} programs"
        folder.mkdir()
        copies.mkdir()
        given = [shutil.copy(program, copies / it) for it, program in cls.programs.items()]
        status, _, errors = ran(TOP / "make/package.py", *given, folder, cwd=folder, env={**os.environ, **where})
        cls.check_set_up(f"the packages are made, {errors}", status, 0)

    @classmethod
    def unpack(cls) -> None:
        """Unpacks both packages."""
        cls.parts = members(cls.place / "first" / cls.debian)
        if cls.has("dpkg-deb", "how dpkg-deb unpacks the package for Debian"):
            cls.unpacked = ran("dpkg-deb", "-x", cls.place / "first" / cls.debian, cls.place / "deb")
        else:
            cls.unpacked = (0, "", "")
            unpack(cls.parts["data.tar.gz"], cls.place / "deb")
        unpack(cls.parts["control.tar.gz"], cls.place / "control")
        unpack((cls.place / "first" / cls.archive).read_bytes(), cls.place / "tar")
        cls.tops = {"tar": cls.place / "tar" / f"desk-{cls.version}", "deb": cls.place / "deb/usr"}
        cls.files = files_of(cls.tops["deb"])

    def check_names_all(self, case: str, text: str, word_form: str, option_form: str) -> None:
        """Looks for each word and each long option of the desk's help in a text."""
        missing = [it for it in self.words if not re.search(word_form.format(word=it), text)]
        options = sorted({"--help", "--version"}.union(*self.options.values()))
        missing += [it for it in options if not re.search(option_form.format(option=it, bare=it[2:]), text)]
        self.check(f"what {case} doesn't name", missing, [])


class Packages(PackageTestCase):
    """The packages as a whole."""

    def test_packages_made_twice_are_the_same_bytes(self) -> None:
        """Makes the packages once more, with another environment."""
        self.make("second", TZ="Asia/Tokyo", LC_ALL="C", HOME=str(self.place))
        for name in (self.archive, self.debian):
            first, second = ((self.place / it / name).read_bytes() for it in ("first", "second"))
            self.check_true(f"{name}, made twice, is there and the same", first and first == second)

    def test_both_packages_hold_one_tree(self) -> None:
        """The same stands in both, but for README, which stands on top of the archive as well."""
        self.check("the members", list(self.parts), ["debian-binary", "control.tar.gz", "data.tar.gz"])
        scripts = {it.name: it.read_bytes() for it in (TOP / "make/packaged/debian").iterdir()}
        modes = {it: stat.S_IMODE((self.place / "control" / it).stat().st_mode) for it in scripts}
        self.check("what dpkg runs", {it: (self.place / "control" / it).read_bytes() for it in scripts}, scripts)
        self.check("its modes", modes, {it: 0o755 for it in ("postinst", "prerm", "postrm")})
        self.check("dpkg-deb", self.unpacked, (0, "", ""))
        with_readme = {**self.files, "README.md": self.files[f"{DOC}/README.md"]}
        self.check_true("one tree in both", files_of(self.tops["tar"]) == with_readme)
        for name, program in {**self.programs, **SCRIPTS}.items():
            self.check_true(f"{name} is the built one", self.files[f"bin/{name}"][0] == program.read_bytes())

    def test_debian_is_told_the_version_the_sums_and_the_c_library(self) -> None:
        told = (self.place / "control/control").read_text()
        fields = dict(it.split(": ", 1) for it in told.splitlines() if not it.startswith(" "))
        self.check("the package", (fields["Package"], fields["Version"], fields["Architecture"]), ("desk", self.version, "amd64"))
        lines = (self.place / "control/md5sums").read_text().splitlines()
        sums = {place: checksum for checksum, place in (it.split("  ") for it in lines)}
        self.check("the sums", sums, {f"usr/{it}": hashlib.md5(content).hexdigest() for it, (content, _) in self.files.items()})
        if self.has("ldd", "what the package for Debian depends on"):
            self.check("Depends", fields.get("Depends"), f"{self.wanted_of_debian()}, python3 (>= 3.9)")

    def wanted_of_debian(self) -> str:
        """Returns the package of the C library in the least version that holds all that the programs ask it for, as ldd finds that."""
        found = []
        for program in self.programs.values():
            own = ran("ldd", "-v", program, env=PLAIN)[1].partition("Version information:\n")[2].split("\n\t/")[0]
            self.check(f"other libraries of {program.name}", re.findall(r"^\t\t(?!lib[cm]\.|ld-linux)\S+", own, re.M), [])
            found += re.findall(r"\(GLIBC_([\d.]+)\)", own)
        return f"libc6 (>= {max(found, key=lambda it: [int(part) for part in it.split('.')])})"

    def test_no_file_names_a_place_of_this_machine(self) -> None:
        """Looks for places of this machine in all files but the programs."""
        places = [TOP, pathlib.Path.home(), self.place, *(it.parent for it in self.programs.values())]
        toolchain = shutil.which("rt")
        if self.has("rt", "whether a file names the place of the toolchain") and toolchain:
            places.append(pathlib.Path(toolchain).resolve().parent.parent)
        forms = [rf"(?<![\w.-]){re.escape(str(it))}(?![\w-])".encode() for it in places if it not in COMMON]
        for name, (content, _) in self.files.items():
            text = gzip.decompress(content) if name.endswith(".gz") else content
            if not name.startswith("bin/"):
                self.check(f"places in {name}", [it for it in forms if re.search(it, text)], [])

    def test_changelog_begins_with_the_version(self) -> None:
        text = self.files[f"{DOC}/CHANGELOG.md"][0].decode()
        self.check("the newest version of CHANGELOG", re.findall(r"^## (\S+)", text, re.M)[:1], [self.version])


class UnpackedPrograms(PackageTestCase):
    """The programs of both packages, with the unpacked examples."""

    def test_programs_of_the_archive_run_the_batch(self) -> None:
        self.check_batch("tar")

    def test_programs_of_the_package_for_debian_run_the_batch(self) -> None:
        self.check_batch("deb")

    def check_batch(self, name: str) -> None:
        """Runs the batch of the examples by the unpacked programs."""
        top = self.tops[name]
        examples = top / DOC / "examples"

        def of(program: str, file: File, *words: str) -> tuple[int, str, str]:
            with open(file) as it:
                return ran(top / "bin" / program, *words, cwd=self.folder, env=PLAIN, stdin=it)

        wanted = (examples / "batch.out").read_text()
        end = json.loads(wanted.splitlines()[-1])
        self.check(f"{name}: the batch", of("desk", examples / "batch.jsonl", "run", "plant.db"), (0, wanted, ""))
        verified = f"good schema {end['schema']} seq {end['seq']}\n"
        self.check(f"{name}: the file", of("desk", os.devnull, "verify", "plant.db"), (0, verified, ""))
        status, output, errors = of("desk_check", os.devnull, "plant.db")
        self.check(f"{name}: desk_check, {output}", (status, output.endswith("\nNo rule is broken.\n"), errors), (0, True, ""))
        self.check(f"{name}: order_check", of("order_check", examples / "orders.csv"), (0, "3 orders\n", ""))
        counted = f"{end['seq']} commands, {len(wanted.splitlines()) - end['seq']} questions\n"
        self.check(f"{name}: line_check", of("line_check", examples / "batch.jsonl"), (0, counted, ""))
        empty = (0, "digraph genealogy {\n  rankdir=LR;\n}\n", "")
        self.check(f"{name}: genealogy_picture", of("genealogy_picture", os.devnull, "--dot"), empty)


class Texts(PackageTestCase):
    """What the package for Debian has beside the programs: pages, completions and a unit."""

    def test_pages_are_set_without_a_warning_and_name_each_word_and_option(self) -> None:
        """Sets the page of each program by groff, which has to find nothing wrong."""
        for name in INSTALLED:
            source = gzip.decompress(self.files[f"share/man/man1/{name}.1.gz"][0]).decode()
            text = source.replace("\\-", "-")
            if self.has("groff", "how groff sets the pages of the manual"):
                status, text, errors = ran("groff", "-man", "-ww", "-Kutf8", "-Tascii", "-P-c", stdin=None, input=source)
                self.check(f"groff on {name}", (status, errors), (0, ""))
            text = re.sub(r".\x08", "", text)
            self.check_true(f"the page of {name} names it", re.search(rf"\b{name}\b", text))
            if name == "desk":
                self.check_names_all("the page", text, r"\bdesk {word}\b", r"(?<!\S){option}\b")

    def test_examples_of_the_manual_run_as_printed(self) -> None:
        """Runs what each page has to be typed, one block after the other, but for what serves without an end."""
        for name in INSTALLED:
            folder = self.folder / name
            folder.mkdir()
            examples = (TOP / f"make/packaged/manual/{name}.txt").read_text().partition("\nFILES\n")[0]
            for block in re.findall(r"(?:^    .*\n)+", examples, re.M):
                typed = block.replace("/usr/", f"{self.tops['deb']}/")
                if "desk serve" in typed:
                    continue
                status, output, errors = ran("bash", "-ec", typed, cwd=folder, env={**PLAIN, "PATH": f"{self.tops['deb']}/bin:/usr/bin:/bin"})
                self.check(f"the manual of {name}: {block.strip()}, {output}", (status, errors), (0, ""))

    def test_bash_completes_words_options_and_values(self) -> None:
        file = self.tops["deb"] / "share/bash-completion/completions/desk"
        cases = [("ver", ["verify"]), ("", [*self.words, "-h", "--help", "-V", "--version"]), ("trace plant.db ", ["back", "forward"])]
        cases += [(f"{it} --", options) for it, options in self.options.items()]
        cases += [("import --at 1 plant.db --b", ["--by"]), ("import --at = 1 plant.db --r", ["--ref"])]
        cases += [("import --at ", [""]), ("sing ", [""])]
        for typed, wanted in cases:
            found = ran("bash", "--noprofile", "--norc", "-c", BASH, file, "desk", *typed.split(" "), env=PLAIN)
            self.check(f"bash behind desk {typed}", found, (0, "".join(f"{it}\n" for it in wanted), ""))

    def test_zsh_and_fish_are_told_each_word_and_option(self) -> None:
        share = self.tops["deb"] / "share"
        for shell, place, word_form, option_form in (
            ("zsh", "zsh/vendor-completions/_desk", r"'{word}:", r"'(\(- \*\))?{option}[=\[]"),
            ("fish", "fish/vendor_completions.d/desk.fish", r" -a {word} ", r" -l {bare} "),
        ):
            self.check_names_all(f"the completion of {shell}", (share / place).read_text(), word_form, option_form)
            self.check_read(shell, share / place)

    def test_options_of_programs_without_words_are_completed(self) -> None:
        share = self.tops["deb"] / "share"
        for program, known in ALONE:
            options = long_options(ran(program, "--help", executable={**self.programs, **SCRIPTS}[program])[1])
            self.check_true(f"the options of {program}", known in options)
            for shell, place, form in (
                ("bash", f"bash-completion/completions/{program}", r"[' ]{option}[' ]"),
                ("zsh", f"zsh/vendor-completions/_{program}", r"{option}=?\["),
                ("fish", f"fish/vendor_completions.d/{program}.fish", r" -l {bare} "),
            ):
                text = (share / place).read_text()
                missing = [it for it in options if not re.search(form.format(option=it, bare=it[2:]), text)]
                self.check(f"what the completion of {program} for {shell} doesn't name", missing, [])
                self.check_read(shell, share / place)

    def check_read(self, shell: str, file: pathlib.Path) -> None:
        """Has a shell read a completion, where the shell is there."""
        if self.has(shell, f"how {shell} reads its completions"):
            self.check(f"{shell} reads {file.name}", ran(shell, "-n", file), (0, "", ""))

    def test_unit_is_sound_and_its_words_are_understood(self) -> None:
        """Has systemd look at the unit with the unpacked program in the place of the installed one, and gives that program its words."""
        text = self.files["lib/systemd/system/desk@.service"][0].decode()
        [line] = re.findall(r"^ExecStart=(.*)$", text, re.M)
        settings = [re.findall(r"\b(PORT|COUNT)=(\d+)", it) for it in (text, self.files[f"{DOC}/desk.conf"][0].decode())]
        self.check("PORT and COUNT", settings, [[("PORT", "8080"), ("COUNT", "1000000")]] * 2)
        for name, value in settings[0]:
            line = line.replace("${%s}" % name, value)
        line = line.replace(" $PAGE $HOSTS $BOOKS $LOG", "")
        self.check("the words of the unit", line, "/usr/bin/desk serve /var/lib/desk/%i.db 8080 1000000 --page")
        words = line.replace("/var/lib/desk/%i.db", "nowhere/plant.db").split()[1:]
        found = ran(self.tops["deb"] / "bin/desk", *words, cwd=self.folder, env=PLAIN)
        self.check("the words of the unit, over a file in no folder", found, (3, "", "fault: store\n"))
        self.check_waits(text)
        self.check("what the unit does last", re.findall(r"^ExecStopPost=(.*)$", text, re.M)[1:], ["-/usr/bin/desk verify /var/lib/desk/%i.db"])
        self.check_unit("desk@.service", text)

    def check_waits(self, text: str) -> None:
        """Has a shell do what the unit does once the desk is begun: it waits for one that opens its file, and not for one that has ended."""
        [line] = re.findall(r"^ExecStartPost=-/bin/sh -c '(.*)'$", text, re.M)
        desk, port = self.tops["deb"] / "bin/desk", free_port()
        line = line.replace("/usr/bin/", f"{self.tops['deb']}/bin/").replace("$$", "$").replace("${PORT}", str(port))
        words = ["sh", "-c", 'sleep 1; exec "$@"', "sh", str(desk), "serve", "waited.db", str(port), "100"]
        with subprocess.Popen(words, cwd=self.folder, stderr=subprocess.DEVNULL) as process:
            self.check("a desk that begins a second later", ran("sh", "-c", line.replace("$MAINPID", str(process.pid))), (0, "", ""))
            self.check_true("it answers then", listens(port))
            process.kill()
        began = time.monotonic()
        self.check("a desk that has ended", ran("sh", "-c", line.replace("$MAINPID", str(process.pid))), (0, "", ""))
        self.check_true("it isn't waited for", time.monotonic() - began < 5)

    def test_units_of_backups_are_sound_and_their_words_are_understood(self) -> None:
        text = self.files["lib/systemd/system/desk-backup@.service"][0].decode()
        [line] = re.findall(r"^ExecStart=(.*)$", text, re.M)
        self.check("the words of the unit", line, "/usr/bin/desk-backup /var/lib/desk/%i.db ${BACKUP} --keep ${KEEP}")
        words = ["nowhere/plant.db", str(self.folder), "--keep", "48"]
        found = ran(self.tops["deb"] / "bin/desk-backup", *words, cwd=self.folder, env=PLAIN)
        self.check("the words of the unit, over no file", found, (3, "", "desk-backup: nowhere/plant.db is no file\n"))
        for it in ("desk-backup@.service", "desk-backup@.timer"):
            self.check_unit(it, self.files[f"lib/systemd/system/{it}"][0].decode())

    def check_unit(self, name: str, text: str) -> None:
        """Has systemd look at a unit with the unpacked programs in the place of the installed ones."""
        unit = self.folder / name
        unit.write_text(re.sub("=(-?)/usr/bin/(desk|desk-backup) ", rf"=\1{self.tops['deb']}/bin/\2 ", text))
        if self.has("systemd-analyze", "what systemd finds in the units"):
            status, _, errors = ran("systemd-analyze", "--man=no", "verify", unit)
            self.check(name, (status, [it for it in errors.splitlines() if "desk" in it]), (0, []))
