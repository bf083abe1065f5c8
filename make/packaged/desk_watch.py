#!/usr/bin/env python3
"""Looks after a desk for a monitoring agent: its answer, its backups and the free room. It changes nothing and takes no lock."""
from __future__ import annotations

import argparse
import datetime
import http.client
import json
import os
import pathlib
import re
import sys
import threading
import urllib.request
from collections.abc import Callable
from typing import NamedTuple, NoReturn

HELP = """\
Look after a desk for a monitoring agent

Usage: desk-watch [OPTIONS]

Options:
      --url <URL>         Where the desk is served: it has to answer within 5 seconds
      --file <FILE>       The file of the desk's records; only backups of its name are looked at
      --backups <FOLDER>  Where desk-backup keeps copies: one has to be there, and none may have more commands than the desk
      --max-age <HOURS>   How many hours old the newest backup may be
      --min-free <MB>     How many megabytes have to be free where FILE is and in FOLDER
  -h, --help              Print help

What no option names isn't looked at. One line is printed: the state, what was found, and figures after a bar.

Example: desk-watch --url http://127.0.0.1:8080 --file plant.db --backups /backup --max-age 2 --min-free 500
Exit status: 0 OK; 1 WARNING where the newest backup is older or less room is free; 2 CRITICAL where the desk doesn't answer, FILE, FOLDER or a
backup is missing, a backup has more commands than the desk, or less than a tenth of that room is free; 3 UNKNOWN where these words aren't
understood, or something may not be looked at.
"""

STATES = ("OK", "WARNING", "CRITICAL", "UNKNOWN")
OK, WARNING, CRITICAL, UNKNOWN = range(4)
# How many seconds the desk has for its answer.
SECONDS = 5
BACKUP = re.compile(r"(.+)-([0-9]{8}T[0-9]{6}Z)-([0-9]{1,16})\.db")


class Found(NamedTuple):
    """What a look came to: a state, words, and figures."""

    state: int
    text: str
    figures: str = ""


class Health(NamedTuple):
    """What a desk answers of itself: the number of its last command, for how many seconds it has served, and how often it answered 503."""

    seq: int
    seconds: int
    failed: int


def health_of(url: str) -> Health:
    """What the desk answers; no proxy is asked."""
    with urllib.request.build_opener(urllib.request.ProxyHandler({})).open(f"{url.rstrip('/')}/v1/health", timeout=SECONDS) as answer:
        said = json.loads(answer.read(4096))
        return Health(int(said["seq"]), int(said["seconds"]), int(said["answers"]["503"]))


def asked(url: str) -> tuple[int | None, Found]:
    """Asks the desk how it fares, for as long as it may take."""
    answers: list[Health] = []
    reasons = [f"no answer within {SECONDS} seconds"]

    def ask() -> None:
        try:
            answers.append(health_of(url))
        except (KeyError, TypeError, ValueError):
            reasons.append("another answer than a desk's")
        except (OSError, http.client.HTTPException) as error:
            if not isinstance(getattr(error, "reason", error), TimeoutError):
                reasons.append(str(error))

    asking = threading.Thread(target=ask, daemon=True)
    asking.start()
    asking.join(SECONDS)
    if not answers:
        return None, Found(CRITICAL, f"{url}: {reasons[-1]}")
    seq, seconds, failed = answers[0]
    return seq, Found(OK, f"seq {seq}", f"seq={seq} uptime={seconds}s failed={failed}")


def backed_up(folder: str, name: str | None, seq: int | None, hours: int | None) -> list[Found]:
    """Looks at the backups: how old the newest is, and whether one has more commands than the desk."""
    named = [BACKUP.fullmatch(it) for it in os.listdir(folder)]
    found = [(it[2], int(it[3])) for it in named if it and name in (None, it[1])]
    if not found:
        return [Found(CRITICAL, f"no backup in {folder}")]
    made = datetime.datetime.strptime(f"{max(found)[0]}+0000", "%Y%m%dT%H%M%SZ%z")
    age = int((datetime.datetime.now(datetime.timezone.utc) - made).total_seconds())
    state = WARNING if hours is not None and age > 3600 * hours else OK
    looks = [Found(state, f"backup of seq {max(found)[1]}, {age / 3600:.1f} hours old", f"age={age}s backup_seq={max(found)[1]}")]
    if seq is not None and max(it for _, it in found) > seq:
        looks.append(Found(CRITICAL, f"a backup has seq {max(it for _, it in found)}, the desk {seq}"))
    return looks


def free(label: str, folder: str, least: int) -> list[Found]:
    """Looks at the free room of a folder."""
    room = os.statvfs(folder)
    megabytes = room.f_bavail * room.f_frsize // 1_000_000
    state = OK if megabytes >= least else WARNING if 10 * megabytes >= least else CRITICAL
    return [Found(state, f"{megabytes} MB free in {folder}", f"{label}={megabytes}MB")]


def tried(look: Callable[[], list[Found]]) -> list[Found]:
    """What a look came to, also where something is missing or may not be looked at."""
    try:
        return look()
    except OSError as error:
        return [Found(CRITICAL if isinstance(error, FileNotFoundError) else UNKNOWN, f"{error.filename}: {error.strerror}")]


def looked_at(words: argparse.Namespace) -> list[Found]:
    """Looks at all that the words name."""
    seq, answer = asked(words.url) if words.url else (None, None)
    looks = [answer] if answer else []
    file = pathlib.Path(os.path.realpath(words.file)) if words.file else None
    if file:
        looks += tried(lambda: [Found(OK, f"{words.file} is there", f"size={os.stat(str(file)).st_size}B")])
    if words.backups:
        looks += tried(lambda: backed_up(words.backups, file.name.removesuffix(".db") if file else None, seq, words.max_age))
    for label, folder in (("free", file and str(file.parent)), ("backups_free", words.backups)):
        if folder and words.min_free is not None:
            looks += tried(lambda: free(label, str(folder), words.min_free))
    return looks


class Words(argparse.ArgumentParser):
    """The words of the command line, with the help above."""

    def format_help(self) -> str:
        return HELP

    def error(self, message: str) -> NoReturn:
        print(f"UNKNOWN - {message}")
        sys.exit(UNKNOWN)


def main(arguments: list[str]) -> int:
    parser = Words(prog="desk-watch")
    for option in ("--url", "--file", "--backups", "--max-age", "--min-free"):
        parser.add_argument(option, type=int if option in ("--max-age", "--min-free") else str)
    looks = looked_at(parser.parse_args(arguments)) or [Found(UNKNOWN, "no option names what is to be looked at")]
    state = max((it.state for it in looks), key=(OK, WARNING, UNKNOWN, CRITICAL).index)
    figures = " ".join(it.figures for it in looks if it.figures)
    print(f"{STATES[state]} - {'; '.join(it.text for it in looks if it.state or not state)}{' | ' * bool(figures)}{figures}")
    return state


if __name__ == "__main__":
    sys.exit(main(sys.argv[1:]))
