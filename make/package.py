#!/usr/bin/env python3
"""Puts the built programs together with what belongs to them, as an archive and as a package for Debian.

    make/package.py DESK ORDER_CHECK LINE_CHECK DESK_CHECK GENEALOGY_PICTURE FOLDER

Leaves FOLDER/desk-VERSION.tar.gz and FOLDER/desk_VERSION_amd64.deb, VERSION being what `desk --version` prints. In both stand the programs,
pages of the manual and completions, which are made from the helps of the desk, of desk_check and of genealogy_picture, a unit for systemd, the documents
and the examples. The same programs and texts give the same bytes, whenever and wherever it is done. Ends with status 1 where something isn't as it has to be.
"""
from __future__ import annotations

import gzip
import hashlib
import io
import pathlib
import re
import struct
import subprocess
import sys
import tarfile
from collections.abc import Iterable, Mapping

import completions
import helps
from helps import Wrong

TOP = pathlib.Path(__file__).resolve().parent.parent
BESIDE = TOP / "make" / "packaged"

# The programs that are built.
PROGRAMS = ("desk", "order_check", "line_check", "desk_check", "genealogy_picture")

# The scripts, by the names under which they are installed.
SCRIPTS = {"desk-backup": BESIDE / "desk_backup.py", "desk-watch": BESIDE / "desk_watch.py"}

# What has no words of its own.
ALONE = (*PROGRAMS[1:], *SCRIPTS)

# The interpreter of the scripts.
PYTHON = "python3 (>= 3.9)"

# The units.
UNITS = ("desk@.service", "desk-backup@.service", "desk-backup@.timer")

# What dpkg runs of the package for Debian.
MAINTAINER = ("postinst", "prerm", "postrm")

# Where documents and examples stand.
DOC = "share/doc/desk"

# When every file was changed, as both packages say: the first second of 1980.
MOMENT = 315_532_800

# In which package of Debian each library stands that a program may want.
LIBRARIES = {
    "ld-linux-x86-64.so.2": "libc6",
    "libc.so.6": "libc6",
    "libdl.so.2": "libc6",
    "libgcc_s.so.1": "libgcc-s1",
    "libm.so.6": "libc6",
    "libpthread.so.0": "libc6",
}

# Numbers of the format of programs: the machine, two kinds of segments, and three kinds of entries for the loader.
X86_64 = 62
LOADED, DYNAMIC = 1, 2
LIBRARY, NAMES, LENGTH = 1, 5, 10

CONTROL = """\
Package: desk
Version: %(version)s
Architecture: amd64
Maintainer: Sufteqan maintainers <maintainers@users.noreply.sufteqan.example>
Installed-Size: %(kilobytes)s
%(depends)sSection: misc
Priority: optional
Description: manufacturing desk of a batch plant
%(description)s"""

# The programs by their names, and a file of a package: its bytes and its mode.
Programs = Mapping[str, pathlib.Path]
File = tuple[bytes, int]


class Elf:
    """What a program for x86-64 asks of the system that loads it."""

    def __init__(self, path: pathlib.Path) -> None:
        self.bytes = path.read_bytes()
        if self.bytes[:6] != b"\x7fELF\x02\x01" or self.number("<H", 18) != X86_64:
            raise Wrong(f"{path} is no program for x86-64")
        first, size, count = self.number("<Q", 32), self.number("<H", 54), self.number("<H", 56)
        self.segments: list[tuple[int, ...]]
        self.segments = [struct.unpack_from("<IIQQQQ", self.bytes, first + size * it) for it in range(count)]
        self.entries: list[tuple[int, int]] = []
        for _, _, at, _, _, length in [it for it in self.segments if it[0] == DYNAMIC]:
            self.entries += ((kind, value) for kind, value in struct.iter_unpack("<qQ", self.bytes[at:at + length]))
        numbers = dict(self.entries)
        at = self.offset(numbers[NAMES]) if NAMES in numbers else 0
        self.names = self.bytes[at:at + numbers.get(LENGTH, 0)]

    def number(self, form: str, at: int) -> int:
        found: int = struct.unpack_from(form, self.bytes, at)[0]
        return found

    def offset(self, address: int) -> int:
        """Where in the file stands what is loaded to an address."""
        loaded = [(at, start, length) for kind, _, at, start, _, length in self.segments if kind == LOADED]
        return next(at + address - start for at, start, length in loaded if start <= address < start + length)

    def libraries(self) -> list[str]:
        """The libraries that it names."""
        return [self.names[at:self.names.index(b"\0", at)].decode() for kind, at in self.entries if kind == LIBRARY]

    def versions(self) -> list[tuple[int, ...]]:
        """The versions of the C library that its symbols ask for."""
        return [tuple(map(int, it.split(b"."))) for it in re.findall(rb"\0GLIBC_(\d+(?:\.\d+)+)(?=\0)", self.names)]


def depends(programs: Iterable[pathlib.Path]) -> str:
    """The line of the control file on which packages the programs and the scripts stand."""
    read = [Elf(it) for it in programs]
    wanted = {it for program in read for it in program.libraries()}
    unknown = sorted(wanted.difference(LIBRARIES))
    if unknown:
        raise Wrong(f"it isn't known which package has {', '.join(unknown)}")
    packages = {LIBRARIES[it]: "" for it in wanted}
    versions = [it for program in read for it in program.versions()]
    if "libc6" in packages and versions:
        packages["libc6"] = f" (>= {'.'.join(map(str, max(versions)))})"
    return f"Depends: {', '.join([*(it + packages[it] for it in sorted(packages)), PYTHON])}\n"


def version_of(program: pathlib.Path) -> str:
    found = re.fullmatch(r"desk (\d+\.\d+\.\d+)\n", helps.said(program, "--version"))
    if not found:
        raise Wrong("the desk doesn't tell its version")
    return found[1]


def pressed(content: bytes) -> bytes:
    """These bytes pressed by gzip, with no name and no moment."""
    room = io.BytesIO()
    with gzip.GzipFile(filename="", mode="wb", fileobj=room, mtime=0) as it:
        it.write(content)
    return room.getvalue()


def pages(programs: Programs, version: str, whole: helps.Help, words: dict[str, helps.Help]) -> dict[str, File]:
    """The pages of the manual, by their places."""
    told = {"desk": (whole, words)}
    for name in [it for it in programs if it != "desk"]:
        told[name] = (helps.Help(helps.said(programs[name], "--help", name=name)), {})
    texts = {}
    for name, it in told.items():
        by_hand = (BESIDE / "manual" / f"{name}.txt").read_text()
        texts[name] = helps.page(name, version, *it, [other for other in programs if other != name], by_hand)
    return {f"share/man/man1/{name}.1.gz": (pressed(text.encode()), 0o644) for name, text in texts.items()}


def documents() -> dict[str, File]:
    """The documents and the examples, as they stand to one another in the repository."""
    found = [TOP / it for it in ("README.md", "CHANGELOG.md", "CONTRIBUTING.md")] + sorted(it for it in TOP.glob("docs/*") if it.suffix in (".json", ".md", ".svg"))
    found += sorted(it for it in TOP.glob("examples/**/*") if it.is_file() and "__pycache__" not in it.parts)
    return {f"{DOC}/{it.relative_to(TOP)}": (it.read_bytes(), 0o755 if it.stat().st_mode & 0o100 else 0o644) for it in found}


def tree(programs: Programs, version: str) -> dict[str, File]:
    """All files of a package by their places, each with its bytes and its mode."""
    whole, words = helps.helps_of(programs["desk"])
    programs = {**programs, **SCRIPTS}
    files = {f"bin/{name}": (path.read_bytes(), 0o755) for name, path in programs.items()}
    files.update(pages(programs, version, whole, words))
    files.update(documents())
    alone = {it: helps.Help(helps.said(programs[it], "--help", name=it)) for it in ALONE}
    texts = {
        "share/bash-completion/completions/desk": completions.bash(whole, words),
        "share/fish/vendor_completions.d/desk.fish": completions.fish(whole, words),
        "share/zsh/vendor-completions/_desk": completions.zsh(whole, words),
        **{f"lib/systemd/system/{it}": (BESIDE / it).read_text() for it in UNITS},
        f"{DOC}/desk.conf": (BESIDE / "desk.conf").read_text(),
        f"{DOC}/copyright": (BESIDE / "copyright").read_text(),
    }
    for name, told in alone.items():
        texts[f"share/bash-completion/completions/{name}"] = completions.bash_alone(name, told)
        texts[f"share/fish/vendor_completions.d/{name}.fish"] = completions.fish_alone(name, told)
        texts[f"share/zsh/vendor-completions/_{name}"] = completions.zsh_alone(name, told)
    files.update({name: (text.encode(), 0o644) for name, text in texts.items()})
    return files


def folders(files: Iterable[str]) -> set[str]:
    """The folders in which files stand."""
    return {str(it) for name in files for it in pathlib.PurePosixPath(name).parents if str(it) != "."}


def packed(files: Mapping[str, File], front: str) -> bytes:
    """A tar archive of files with their folders, pressed, with this text before each name."""
    room = io.BytesIO()
    with tarfile.open(fileobj=room, mode="w", format=tarfile.GNU_FORMAT) as tar:
        for name in ["", *sorted(folders(files).union(files))]:
            content, mode = files.get(name, (b"", 0o755))
            it = tarfile.TarInfo(f"{front}{name}" if name else front.rstrip("/"))
            it.type = tarfile.REGTYPE if name in files else tarfile.DIRTYPE
            it.size, it.mode, it.mtime, it.uname, it.gname = len(content), mode, MOMENT, "root", "root"
            tar.addfile(it, io.BytesIO(content))
    return pressed(room.getvalue())


def kilobytes(files: Mapping[str, File]) -> int:
    """How many of 1,024 bytes the files take, and each folder one."""
    return sum(-(-len(content) // 1024) for content, _ in files.values()) + len(folders(files))


def control(programs: Programs, version: str, files: Mapping[str, File]) -> str:
    """The control file of the package for Debian; its description is the first paragraph of README."""
    description = "".join(f" {it}\n" for it in (TOP / "README.md").read_text().split("\n\n")[1].split("\n"))
    told = {"version": version, "kilobytes": kilobytes(files), "depends": depends(programs.values()), "description": description}
    return CONTROL % told


def member(name: str, content: bytes) -> bytes:
    """A member of an ar archive."""
    head = f"{name:<16}{MOMENT:<12}{0:<6}{0:<6}{100644:<8}{len(content):<10}`\n"
    return head.encode() + content + b"\n" * (len(content) % 2)


def debian(programs: Programs, version: str, files: Mapping[str, File]) -> bytes:
    """The package for Debian."""
    files = {f"usr/{name}": it for name, it in files.items()}
    sums = "".join(f"{hashlib.md5(files[it][0]).hexdigest()}  {it}\n" for it in sorted(files))
    about = {"control": (control(programs, version, files).encode(), 0o644), "md5sums": (sums.encode(), 0o644)}
    about.update({it: ((BESIDE / "debian" / it).read_bytes(), 0o755) for it in MAINTAINER})
    members = [("debian-binary", b"2.0\n"), ("control.tar.gz", packed(about, "./")), ("data.tar.gz", packed(files, "./"))]
    return b"!<arch>\n" + b"".join(member(*it) for it in members)


def write(path: pathlib.Path, content: bytes) -> None:
    """Writes a file in one step."""
    new = path.with_name(f"{path.name}.new")
    new.write_bytes(content)
    new.replace(path)
    print(f"{path}: {len(content)} bytes")


def main(words: list[str]) -> int:
    if len(words) != len(PROGRAMS) + 1:
        sys.exit(__doc__)
    programs = dict(zip(PROGRAMS, (pathlib.Path(it).resolve() for it in words)))
    folder = pathlib.Path(words[-1])
    try:
        version = version_of(programs["desk"])
        files = tree(programs, version)
        package = debian(programs, version, files)
        with_readme = {**files, "README.md": files[f"{DOC}/README.md"]}
        write(folder / f"desk-{version}.tar.gz", packed(with_readme, f"desk-{version}/"))
        write(folder / f"desk_{version}_amd64.deb", package)
    except (OSError, Wrong, subprocess.CalledProcessError) as error:
        print(f"no package is made: {error}", file=sys.stderr)
        return 1
    return 0


if __name__ == "__main__":
    sys.exit(main(sys.argv[1:]))
