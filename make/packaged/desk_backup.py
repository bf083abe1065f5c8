#!/usr/bin/env python3
"""Copies the file of a desk while a desk books, checks the copy, and keeps the newest ones.

The file and its log are copied so that the copy is the desk of one moment. The first 32 bytes of the log, its header, say which of its frames
count. They change before the first old frame is overwritten, and the file is written only with pages that have a frame under the header of that
moment. So a copy of the file, and after it of the log from its front, counts where the header was the same before and after; else it is made
again. It takes no lock, and so keeps nobody waiting. docs/ASSUMPTIONS.md has the argument and what it rests on.
"""
from __future__ import annotations

import argparse
import contextlib
import errno
import fcntl
import hashlib
import os
import pathlib
import re
import subprocess
import sys
import time
from collections.abc import Callable, Iterator
from typing import IO, NamedTuple, NoReturn

HELP = """\
Back up the file of a desk while a desk has it open

Usage: desk-backup [OPTIONS] <FILE> <FOLDER>

Arguments:
  <FILE>    The file of the desk's records
  <FOLDER>  Where copies are kept, each as NAME-YYYYmmddTHHMMSSZ-SEQ.db, SEQ being the number of its last command

Options:
      --keep <N>        Keep the newest N copies, 1 to 100000, and remove the older ones; all are kept where it isn't given
      --desk <PROGRAM>  The program that checks the copy; desk where it isn't given
      --clone           Share the blocks with the file where the file system can (btrfs, XFS), which takes no time
  -h, --help            Print help

A copy has every command that was acknowledged before it began, and of later ones those up to its SEQ. desk verify has checked it.
Next to it is its checksum, COPY.sha256, by which sha256sum -c COPY.sha256 finds later whether a bit of the copy has changed.
Nothing is removed where an older copy has more commands than the new one: then it is another desk, or one that was put back.

Example: desk-backup plant.db /backup --keep 48
To restore: stop the desk, copy a backup to FILE, remove FILE-wal, and run desk verify FILE.
Exit status: 0 where a copy was made, whose path is printed; 1 where none came about, since the log was begun anew during each try or
another backup runs; 2 where these words aren't understood; 3 where a file or folder can't be read or written; 4 where FILE holds no good desk.
"""

# The header of the log, and the bytes that it begins with where frames may count; while it is begun anew the first of them is 0.
HEADER = 32
BEGINS = b"\x37\x7f\x06"

# The least length of a log with a frame in it.
WITH_A_FRAME = HEADER + 24

# How much is read at once, and how often a copy is tried.
PIECE = 1 << 20
TRIES = 20

# The request of Linux that has two files share their blocks, and the errors by which a file system refuses it.
FICLONE = 0x40049409
NO_CLONE = (errno.EOPNOTSUPP, errno.EXDEV, errno.EINVAL, errno.ENOTTY)

# The most copies that can be asked for.
MOST = 100_000

GOOD = re.compile(r"good schema [0-9]+ seq ([0-9]+)\n")

# What a test puts its waits in place of.
Pause = Callable[[str], None]


class Failed(Exception):
    """Why there is no backup, and the exit status."""

    def __init__(self, status: int, text: str) -> None:
        super().__init__(text)
        self.status = status


class Moved(Exception):
    """The files changed under the copy so that it is of no moment; it is to be made again."""


class Backup(NamedTuple):
    """A copy in the folder: when it was made, the number of its last command, and its path."""

    made: str
    seq: int
    path: pathlib.Path


def no_pause(_place: str) -> None:
    """Waits for nothing."""


# ---- one copy


def opened(path: str) -> int | None:
    """A file that is opened for reading, none where there is none."""
    try:
        return os.open(path, os.O_RDONLY | os.O_CLOEXEC | os.O_NOFOLLOW)
    except FileNotFoundError:
        return None


def private(path: str, flags: int) -> int:
    """A file that is made for its owner alone."""
    return os.open(path, flags | os.O_CLOEXEC, 0o600)


@contextlib.contextmanager
def read_of(path: str) -> Iterator[int | None]:
    """A file that is read for a while, none where there is none."""
    file = opened(path)
    try:
        yield file
    finally:
        if file is not None:
            os.close(file)


def inode_of(file: int | None) -> tuple[int, int] | None:
    """Which file it is."""
    if file is None:
        return None
    found = os.fstat(file)
    return found.st_dev, found.st_ino


def header_of(log: int | None) -> bytes | None:
    """The first bytes of the log, fewer than 32 where it is shorter; none where there is no log."""
    return None if log is None else os.pread(log, HEADER, 0)


def may_count(header: bytes | None, length: int) -> bool:
    """Whether a log of this header and length may have frames that count."""
    return header is not None and len(header) == HEADER and header.startswith(BEGINS) and length >= WITH_A_FRAME


def copy_upward(source: int, target: IO[bytes], place: str, pause: Pause, piece: int = PIECE) -> int:
    """Copies a file from its front to the end that it has when that is reached, which is what the argument rests on; returns how much."""
    at = 0
    while True:
        pause(place)
        read = os.pread(source, piece, at)
        if not read:
            return at
        target.write(read)
        at += len(read)


def copied(source: int, target: IO[bytes], place: str, pause: Pause, clone: bool, piece: int) -> int:
    """Copies a file, or has it share its blocks; syncs the copy and returns its length."""
    try:
        if not clone:
            raise OSError(errno.EOPNOTSUPP, "not asked for")
        fcntl.ioctl(target.fileno(), FICLONE, source)
        length = os.fstat(target.fileno()).st_size
    except OSError as error:
        if error.errno not in NO_CLONE:
            raise
        length = copy_upward(source, target, place, pause, piece)
    target.flush()
    os.fsync(target.fileno())
    return length


def copy_once(file: str, target: pathlib.Path, pause: Pause = no_pause, clone: bool = False, piece: int = PIECE) -> None:
    """Copies a desk's file and then its log, or raises `Moved`."""
    beside = pathlib.Path(f"{target}-wal")
    with read_of(f"{file}-wal") as log, read_of(file) as data:
        if data is None:
            raise Failed(3, f"{file} is no file")
        before, first = header_of(log), os.fstat(data)
        pause("header")
        with open(target, "wb", opener=private) as out:
            copied(data, out, "file", pause, clone, piece)
        pause("between")
        length = 0
        if log is not None:
            with open(beside, "wb", opener=private) as out:
                length = copied(log, out, "log", pause, clone, piece)
        pause("after")
        with read_of(str(beside)) as copy:
            if header_of(log) != before or header_of(copy) != before:
                raise Moved("the log was begun anew")
        with read_of(f"{file}-wal") as log_now, read_of(file) as data_now:
            if inode_of(log_now) != inode_of(log) or inode_of(data_now) != inode_of(data):
                raise Moved("the file was replaced")
        # Where no frame counts no desk writes the file, so who did was another program, or a restore.
        last = os.fstat(data)
        if not may_count(before, length) and (last.st_mtime_ns, last.st_size) != (first.st_mtime_ns, first.st_size):
            raise Moved("the file was written")


def copy_of_a_moment(file: str, target: pathlib.Path, tries: int = TRIES, pause: Pause = no_pause, clone: bool = False) -> None:
    """Copies until a copy counts."""
    reason: Moved | None = None
    for number in range(1, tries + 1):
        try:
            return copy_once(file, target, pause, clone)
        except Moved as moved:
            reason = moved
            time.sleep(min(0.02 * number, 0.5))
    raise Failed(1, f"no copy came about in {tries} tries: {reason}. Try when less is booked, with --clone, or from a snapshot of the file system")


# ---- the folder of copies


def sync_folder(folder: pathlib.Path) -> None:
    """Makes the names in a folder last."""
    number = os.open(folder, os.O_RDONLY | os.O_DIRECTORY | os.O_CLOEXEC)
    try:
        os.fsync(number)
    finally:
        os.close(number)


def verified(desk: str, path: pathlib.Path) -> int:
    """Has the desk bring the log in and check every record; returns the number of the last command."""
    with path.open("rb") as it:
        if it.read(16) != b"SQLite format 3\0":
            raise Failed(4, "FILE holds no desk yet")  # `desk verify` would make one
    try:
        ended = subprocess.run([desk, "verify", str(path)], stdin=subprocess.DEVNULL, capture_output=True, text=True, check=False)
    except OSError as error:
        raise Failed(3, f"{desk} can't be run: {error.strerror}") from error
    good = GOOD.fullmatch(ended.stdout)
    if ended.returncode or not good:
        said = ended.stderr.strip() or ended.stdout.strip() or f"verify ended with status {ended.returncode}"
        raise Failed(4, f"the copy isn't a good desk: {said}")
    if good[1] == "0":
        raise Failed(4, "the desk has no command")
    return int(good[1])


def backups(folder: pathlib.Path, name: str) -> list[Backup]:
    """The copies of a desk of this name, the oldest first."""
    form = re.compile(re.escape(name) + r"-([0-9]{8}T[0-9]{6}Z)-([0-9]+)\.db")
    found = [(form.fullmatch(it.name), it) for it in folder.iterdir() if it.is_file() and not it.is_symlink()]
    return sorted(Backup(named[1], int(named[2]), path) for named, path in found if named)


def sum_of(path: pathlib.Path) -> pathlib.Path:
    """Where the checksum of a copy is kept."""
    return path.with_name(f"{path.name}.sha256")


def checksum(path: pathlib.Path) -> str:
    """The checksum of a file."""
    found = hashlib.sha256()
    with path.open("rb") as it:
        while piece := it.read(PIECE):
            found.update(piece)
    return found.hexdigest()


def write_sum(made: pathlib.Path, found: str, part: pathlib.Path) -> None:
    """Writes the checksum of a copy in the form of sha256sum; it has its name only once it is whole."""
    with open(part, "w", encoding="utf-8", opener=private) as out:
        out.write(f"{found}  {made.name}\n")
        out.flush()
        os.fsync(out.fileno())
    part.rename(sum_of(made))


def remove_older(folder: pathlib.Path, name: str, keep: int, made: pathlib.Path, source: str) -> str:
    """Removes all copies but the newest, and never the one just made nor the source; returns what is to be said."""
    found = backups(folder, name)
    seq = next(it.seq for it in found if it.path == made)
    if any(it.seq > seq for it in found):
        return f"nothing was removed: an older backup has more commands than {seq}"
    others = [it.path for it in found if it.path != made]
    for path in others[:max(len(others) - (keep - 1), 0)]:
        if not os.path.samefile(path, source):
            sum_of(path).unlink(missing_ok=True)
            path.unlink()
    sync_folder(folder)
    return ""


@contextlib.contextmanager
def alone_in(folder: pathlib.Path, name: str) -> Iterator[None]:
    """Keeps a second backup of this name out of a folder."""
    with open(folder / f".{name}.lock", "a", encoding="utf-8") as lock:
        try:
            fcntl.flock(lock, fcntl.LOCK_EX | fcntl.LOCK_NB)
        except BlockingIOError:
            raise Failed(1, "another backup to this folder runs") from None
        yield


def checked_file(file: str) -> str:
    """The place of a desk's file, as the desk finds it: its log is where a link leads."""
    place = os.path.realpath(file)
    if place.endswith("-wal"):
        raise Failed(2, "that is a log; name the file of the desk")
    if not os.path.isfile(place):
        raise Failed(3, f"{file} is no file")
    if os.path.exists(f"{place}-journal"):
        raise Failed(3, f"{file}-journal is there: sqlite3 was stopped within a change; open the file with sqlite3 first")
    return place


def back_up(file: str, folder: pathlib.Path, desk: str = "desk", clone: bool = False, pause: Pause = no_pause) -> pathlib.Path:
    """Makes a backup, which has its name only once it is whole; returns its path."""
    name = pathlib.Path(file).name.removesuffix(".db")
    part = folder / f".{name}.partial"
    parts = (part, pathlib.Path(f"{part}-wal"), sum_of(part))
    try:
        for left in parts:
            left.unlink(missing_ok=True)
        copy_of_a_moment(file, part, pause=pause, clone=clone)
        seq = verified(desk, part)
        with part.open("rb") as it:
            os.fsync(it.fileno())
        found = checksum(part)
        made = folder / f"{name}-{time.strftime('%Y%m%dT%H%M%SZ', time.gmtime())}-{seq}.db"
        part.rename(made)
        write_sum(made, found, sum_of(part))
        sync_folder(folder)
        return made
    finally:
        for left in parts:
            left.unlink(missing_ok=True)


# ---- the words


class Words(argparse.ArgumentParser):
    """The words of the command line, with the help above."""

    def format_help(self) -> str:
        return HELP

    def error(self, message: str) -> NoReturn:
        print(f"error: {message}\n\nFor more information, try '--help'.", file=sys.stderr)
        sys.exit(2)


def count(text: str) -> int:
    """How many copies are kept."""
    if not re.fullmatch("[0-9]{1,6}", text) or not 1 <= int(text) <= MOST:
        raise argparse.ArgumentTypeError(f"N is a whole number from 1 to {MOST}")
    return int(text)


def words_of(arguments: list[str]) -> argparse.Namespace:
    """What the words of the command line mean."""
    parser = Words(prog="desk-backup")
    parser.add_argument("file")
    parser.add_argument("folder")
    parser.add_argument("--keep", type=count)
    parser.add_argument("--desk", default="desk")
    parser.add_argument("--clone", action="store_true")
    return parser.parse_args(arguments)


def main(arguments: list[str]) -> int:
    words = words_of(arguments)
    folder = pathlib.Path(os.path.realpath(words.folder))
    try:
        file = checked_file(words.file)
        if not folder.is_dir():
            raise Failed(3, f"{words.folder} is no folder")
        name = pathlib.Path(file).name.removesuffix(".db")
        with alone_in(folder, name):
            made = back_up(file, folder, words.desk, words.clone)
            said = remove_older(folder, name, words.keep, made, file) if words.keep else ""
    except Failed as failed:
        print(f"desk-backup: {failed}", file=sys.stderr)
        return failed.status
    except OSError as error:
        print(f"desk-backup: {error.filename or 'a file'}: {error.strerror}", file=sys.stderr)
        return 3
    if said:
        print(f"desk-backup: {said}", file=sys.stderr)
    print(made)
    return 0


if __name__ == "__main__":
    sys.exit(main(sys.argv[1:]))
