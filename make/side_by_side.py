#!/usr/bin/env python3
"""Proves and builds programs, and the crates that they stand on side by side.

    make/side_by_side.py PROGRAM...

In the repository's folder. A crate of crates.txt is begun as soon as those below it are built: as many at once as free memory has 4 GB for,
and at most two more than there are processors, so that a longer one that comes late finds a place. Those with the longest chain of others
above them, by their lines, go first, since the end waits for them: they are begun first, the longest may use all processors, the next half
of them and so on, and where two want one processor it is mostly given to the longer. A crate that was built here and has not changed since, nor anything below it, is passed over.

rt lets one command at a time into a crate and those below it. So each crate is built in a copy of the repository, of which there are as
many as crates at once, in build/copies/; what it leaves in out/ comes back to the crate's own folder, and the copies are removed.

Leaves each program at build/PROGRAM, and what rt says of a crate in build/CRATE.log. Ends with status 0 where all are built; with 1 where
one isn't, whose last lines are shown; with 2 where nothing could be begun.
"""
from __future__ import annotations

import fcntl
import hashlib
import json
import os
import shutil
import signal
import subprocess
import sys
import time
from collections.abc import Iterable, Mapping, Sequence

COPIES = "build/copies"

# What was built here, by name: the sum of the texts of which it was.
BUILT = "build/built.json"

# The memory that a check may want, in bytes.
ROOM = 4_000_000_000

# How many more crates than there are processors may be built at once. Those of shorter chains stand back.
MORE = 2

# After how many seconds without news it is told what is under way.
SILENCE = 60

# By how much a crate stands back, as `nice` counts, behind the next longer one.
STEP = 5

# How many of the last lines are shown of a crate that isn't built.
SHOWN = 20

# The files of a crate on which it depends how it is built.
PARTS = ("src", "specs", "proofs", "stdin", "args", "status")

# Of each crate those of the repository on which it stands.
Listed = Mapping[str, Sequence[str]]


class Wrong(Exception):
    """Why nothing can be begun."""


def lines_listed() -> dict[str, str]:
    """The lines of crates.txt, in its order, by the crate that each is about."""
    with open("crates.txt") as it:
        lines = [line.split("#")[0].strip() for line in it]
    return {line.partition(":")[0].split()[0]: line for line in lines if line}


def stands_on(lines: Mapping[str, str]) -> dict[str, list[str]]:
    """The crates of the list, each with those of the repository on which it stands."""
    named = {name: line.partition(":")[2].split() for name, line in lines.items()}
    return {name: [it for it in words if it in named] for name, words in named.items()}


def below(listed: Listed, name: str) -> list[str]:
    """All crates on which a crate stands, in the order of the list."""
    found: set[str] = set()
    left = list(listed[name])
    while left:
        found.add(left[-1])
        left.extend(it for it in listed[left.pop()] if it not in found)
    return [it for it in listed if it in found]


def sum_of_files(name: str) -> tuple[str, int]:
    """A sum of the texts of one crate, and how many lines they have."""
    sum_of_all, count = hashlib.sha256(), 0
    for part in PARTS:
        top = f"crates/{name}/{part}"
        files = [top] if os.path.isfile(top) else sorted(f"{at}/{it}" for at, _, names in os.walk(top) for it in names)
        for file in files:
            with open(file, "rb") as it:
                text = it.read()
            sum_of_all.update(f"{file} {len(text)}\n".encode() + text)
            count += text.count(b"\n")
    return sum_of_all.hexdigest(), count


def sums_of(lines: Mapping[str, str], listed: Listed, files: Mapping[str, tuple[str, int]]) -> dict[str, str]:
    """For each crate needed a sum of all of which it is built: the toolchain, its texts, and those below it."""
    toolchain = subprocess.run(["rt", "version"], capture_output=True, check=True).stdout.decode()
    own = {name: f"{toolchain}{lines[name]} {sum_of_all}" for name, (sum_of_all, _) in files.items()}
    whole = {name: "\n".join(own[it] for it in [*below(listed, name), name]) for name in files}
    return {name: hashlib.sha256(text.encode()).hexdigest() for name, text in whole.items()}


def chains(listed: Listed, files: dict[str, tuple[str, int]]) -> dict[str, int]:
    """For each crate needed the lines of the longest chain of crates that begins with it, each of which stands on the one before."""
    found: dict[str, int] = {}
    for name in reversed(files):
        found[name] = files[name][1] + max((found[it] for it in found if name in listed[it]), default=0)
    return found


def clock(seconds: float) -> str:
    return f"{int(seconds) // 60}:{int(seconds) % 60:02}"


def processors() -> int:
    """How many processors there are."""
    return len(os.sched_getaffinity(0))


def most_at_once() -> int:
    """How many crates may be built at once."""
    with open("/proc/meminfo") as it:
        free = next(1024 * int(line.split()[1]) for line in it if line.startswith("MemAvailable"))
    return max(1, min(processors() + MORE, free // ROOM))


def link(one: str, other: str) -> None:
    """Gives a file a second name, or copies it: rt replaces such a file and never writes into it."""
    try:
        os.link(one, other)
    except OSError:
        shutil.copy2(one, other)


def move(one: str, other: str) -> None:
    """Moves a folder, where it is there, into the place of another."""
    if os.path.isdir(one):
        shutil.rmtree(other, ignore_errors=True)
        shutil.move(one, other)


class Copy:
    """A copy of the repository in which one crate at a time is built."""

    def __init__(self, number: int, lines: Mapping[str, str]) -> None:
        self.folder = f"{COPIES}/{number}"
        for name in lines:
            os.makedirs(f"{self.folder}/crates/{name}")
            for part in PARTS:
                whole, to = f"crates/{name}/{part}", f"{self.folder}/crates/{name}/{part}"
                if os.path.isdir(whole):
                    shutil.copytree(whole, to)
                elif os.path.isfile(whole):
                    shutil.copy2(whole, to)
        with open(f"{self.folder}/crates.txt", "w") as it:
            it.write("".join(f"{line}\n" for line in lines.values()))
        shutil.copy2("HANDLES", f"{self.folder}/HANDLES")

    def take_libraries(self, names: Iterable[str]) -> None:
        """Takes over the libraries that were built."""
        for name in names:
            library, to = f"crates/{name}/out/rlib", f"{self.folder}/crates/{name}/out/rlib"
            if os.path.isdir(library) and not os.path.isdir(to):
                shutil.copytree(library, to, copy_function=link)


def words_of(name: str) -> list[str]:
    """The words that a program is to be run with, one a line of its args, as rt takes them."""
    try:
        with open(f"crates/{name}/args") as it:
            return ["--", *it.read().splitlines()]
    except FileNotFoundError:
        return []


class Build:
    """A crate that is being built in a copy."""

    def __init__(self, listed: Listed, name: str, copy: Copy, is_program: bool, jobs: int) -> None:
        self.name, self.copy, self.is_program, self.began, self.nice = name, copy, is_program, time.monotonic(), 0
        self.own, self.there = f"crates/{name}", f"{copy.folder}/crates/{name}"
        copy.take_libraries(below(listed, name))
        move(f"{self.own}/out", f"{self.there}/out")
        if is_program and os.path.exists(f"{self.there}/out/{name}"):
            os.remove(f"{self.there}/out/{name}")
        given = f"{self.there}/stdin" if is_program else os.devnull
        words = ["rt", "run" if is_program else "lib", "--jobs", str(jobs), *(words_of(name) if is_program else [])]
        with open(f"build/{name}.log", "wb") as log, open(given, "rb") as it:
            self.process = subprocess.Popen(
                words, cwd=self.there, stdin=it, stdout=log, stderr=log, start_new_session=True,
            )

    def seconds(self) -> float:
        return time.monotonic() - self.began

    def stand_back(self, nice: int) -> None:
        """Has it stand back by so much. It is a session of its own, and Linux shares the processors among these; elsewhere nothing changes."""
        if nice == self.nice:
            return
        try:
            with open(f"/proc/{self.process.pid}/autogroup", "w") as it:
                it.write(str(nice))
            self.nice = nice
        except OSError:
            pass

    def end(self) -> None:
        """Ends what still runs of it, and has the crate's own folder keep what is there of its work."""
        if self.process.poll() is None:
            os.killpg(self.process.pid, signal.SIGTERM)
            self.process.wait()
        move(f"{self.there}/out", f"{self.own}/out")

    def is_good(self) -> bool:
        """Whether it ended as it has to: a program with the status that it is to have on its input."""
        wanted = 0
        if self.is_program and os.path.isfile(f"{self.own}/status"):
            with open(f"{self.own}/status") as it:
                wanted = int(it.read())
        is_there = not self.is_program or os.path.isfile(f"{self.own}/out/{self.name}")
        return self.process.returncode == wanted and is_there

    def print_failure(self) -> None:
        print(f"\n{self.name} is not built. The last lines of build/{self.name}.log:", flush=True)
        with open(f"build/{self.name}.log", errors="replace") as it:
            print("".join(f"  {line}" for line in it.readlines()[-SHOWN:]), flush=True)


class Work:
    """All that is to be built, what of it is under way, and what is built."""

    def __init__(self, programs: Sequence[str]) -> None:
        self.began, self.programs, lines = time.monotonic(), programs, lines_listed()
        self.listed = stands_on(lines)
        for name in programs:
            if name not in self.listed or not os.path.isfile(f"crates/{name}/src/main.rt"):
                raise Wrong(f"{name} is no program of crates.txt")
        wanted = set(programs).union(*(below(self.listed, it) for it in programs))
        self.needed = [it for it in self.listed if it in wanted]
        self.lines = {it: lines[it] for it in self.needed}
        files = {it: sum_of_files(it) for it in self.needed}
        self.chains, self.sums = chains(self.listed, files), sums_of(self.lines, self.listed, files)
        self.noted = self.read_noted()
        self.built = {it for it in self.needed if self.is_unchanged(it)}
        self.running: list[Build] = []
        self.news = time.monotonic()

    @staticmethod
    def read_noted() -> dict[str, str]:
        try:
            with open(BUILT) as it:
                noted: dict[str, str] = json.load(it)
                return noted
        except (OSError, ValueError):
            return {}

    def is_unchanged(self, name: str) -> bool:
        left = f"build/{name}" if name in self.programs else f"crates/{name}/out/rlib"
        return self.noted.get(name) == self.sums[name] and os.path.exists(left)

    def print_line(self, words: str) -> None:
        print(f"{clock(time.monotonic() - self.began):>6}  {words}", flush=True)
        self.news = time.monotonic()

    def print_running(self) -> None:
        shown = ", ".join(f"{it.name} {clock(it.seconds())}" for it in self.running)
        self.print_line(f"{len(self.built)} of {len(self.needed)} done; under way: {shown}")

    def ready(self) -> list[str]:
        """The crates that can be begun, those first that have the longest chain above them."""
        begun = self.built.union(it.name for it in self.running)
        found = [it for it in self.needed if it not in begun and self.built.issuperset(self.listed[it])]
        return sorted(found, key=lambda it: -self.chains[it])

    def begin(self, copies: Iterable[Copy]) -> None:
        ready = self.ready()
        longest = sorted([*ready, *(it.name for it in self.running)], key=lambda it: -self.chains[it])
        for name, copy in zip(ready, [it for it in copies if it not in [other.copy for other in self.running]]):
            jobs = max(1, processors() // (longest.index(name) + 1))
            self.running.append(Build(self.listed, name, copy, name in self.programs, jobs))
        for place, build in enumerate(sorted(self.running, key=lambda it: -self.chains[it.name])):
            build.stand_back(STEP * place)

    def note(self, build: Build) -> None:
        """Notes a crate as built, and leaves a program where it is looked for."""
        self.running.remove(build)
        self.built.add(build.name)
        if build.is_program:
            shutil.copy2(f"crates/{build.name}/out/{build.name}", f"build/{build.name}.new")
            os.replace(f"build/{build.name}.new", f"build/{build.name}")
        self.noted[build.name] = self.sums[build.name]
        with open(f"{BUILT}.new", "w") as it:
            json.dump(self.noted, it, indent=0)
        os.replace(f"{BUILT}.new", BUILT)
        left = len(self.needed) - len(self.built)
        self.print_line(f"{build.name} is built ({clock(build.seconds())}); {len(self.built)} of {len(self.needed)} done, {left} left")

    def build_all(self, copies: Sequence[Copy]) -> bool:
        """Builds what isn't built, and tells whether all of it is."""
        while len(self.built) < len(self.needed):
            self.begin(copies)
            time.sleep(0.1)
            for build in [it for it in self.running if it.process.poll() is not None]:
                build.end()
                if not build.is_good():
                    self.running.remove(build)
                    build.print_failure()
                    return False
                self.note(build)
            if time.monotonic() - self.news > SILENCE:
                self.print_running()
        return True

    def locked(self) -> list[int]:
        """Keeps other commands of rt out of the crates' folders until what is given is closed, as rt does itself."""
        held = [os.open(f"crates/{it}", os.O_RDONLY) for it in sorted(self.needed)]
        for it in held:
            try:
                fcntl.flock(it, fcntl.LOCK_EX | fcntl.LOCK_NB)
            except BlockingIOError:
                print("another command of rt works in these crates: waiting for it to end", flush=True)
                fcntl.flock(it, fcntl.LOCK_EX)
        return held

    def done(self) -> int:
        """Does all of it, and gives the status."""
        at_once = most_at_once()
        left = len(self.needed) - len(self.built)
        shown = ", ".join(self.programs)
        if left:
            print(f"{shown}: {left} of {len(self.needed)} crates are to be proved and built, {at_once} at once", flush=True)
            held = self.locked()
            shutil.rmtree(COPIES, ignore_errors=True)
            try:
                copies = [Copy(number, self.lines) for number in range(1, at_once + 1)]
                if not self.build_all(copies):
                    return 1
            finally:
                for build in self.running:
                    build.end()
                shutil.rmtree(COPIES, ignore_errors=True)
                for it in held:
                    os.close(it)
        self.print_line(f"{shown}: proved and built, in build/")
        return 0


def main(words: list[str]) -> int:
    if words[:1] in (["-h"], ["--help"]) or not words:
        print(__doc__, end="")
        return 0 if words else 2
    os.chdir(os.path.dirname(os.path.dirname(os.path.realpath(__file__))))
    os.makedirs("build", exist_ok=True)
    for it in (signal.SIGTERM, signal.SIGHUP):
        signal.signal(it, lambda number, _: sys.exit(128 + number))
    try:
        return Work(words).done()
    except KeyboardInterrupt:
        print("\nbroken off; what was built is kept", file=sys.stderr)
        return 130
    except FileNotFoundError as error:
        if error.filename != "rt":
            raise
        print("there is no command rt: README says which toolchain is wanted", file=sys.stderr)
    except Wrong as error:
        print(error, file=sys.stderr)
    return 2


if __name__ == "__main__":
    sys.exit(main(sys.argv[1:]))
