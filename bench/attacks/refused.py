"""Refuses each allocation of each word of the built desk over a file in turn. refused.sh calls it.

    refused.py PROGRAM LIBRARY FOLDER STEP

LIBRARY is bench/faults/refuse.c as it was built; with a STEP above 1 only each so many-th allocation is refused. A run ends with all
done, or with a front of the right lines and then want of memory (status 4) or a store that failed for it (status 3), or as with wrong
words before it has opened anything (status 2). Then the file is verified without refusals: what was answered is there, with at most
one command more.
"""
from __future__ import annotations

import os
import pathlib
import re
import shutil
import socket
import subprocess
import sys
import time
from collections.abc import Sequence

HERE = pathlib.Path(__file__).resolve().parent
SECONDS = 60
ORDERS = b"order,recipe,version,size,due,priority\r\n" + b"".join(b"O-9%d,CAKE,1,500,2027-03-01,5\r\n" % it for it in range(5))
STAMP = b'"at":999,"by":"anna"'
COMMAND = b'{%s,"do":"add_class","class":"NEW","name":""}' % STAMP
REQUEST = b"POST /v1/commands HTTP/1.1\r\nHost: a\r\nContent-Length: %d\r\n\r\n%s" % (len(COMMAND), COMMAND)
FAULTS = {3: b"fault: store\n", 4: b"fault: memory\n"}


class Failed(Exception):
    """A run ended as it must not."""


class Word:
    """A word of the desk over a file, with what it is told and what it answers where nothing is refused."""

    def __init__(self, trial: Trial, name: str, words: Sequence[str], told: bytes = b"", has_file: bool = True) -> None:
        self.trial, self.name, self.words, self.told, self.has_file = trial, name, words, told, has_file
        self.status, self.wanted, _ = self.run()
        self.before = trial.seq_of_the_first_file() if has_file else 0

    def run(self, number: int = 0) -> tuple[int, bytes, bytes]:
        self.trial.take_file(self.has_file)
        return self.trial.run(self.words, self.told, number)

    def end_of(self, status: int, out: bytes, err: bytes) -> str:
        """Returns how a run ended."""
        last = out.splitlines(keepends=True)[-1:]
        front = out[: -len(last[0])] if last and re.fullmatch(rb'\{"fault":[12]\}\n', last[0]) else out
        if (status, out, err) == (self.status, self.wanted, b""):
            return "all was done"
        if status == 2 and not out:
            return "no words"
        if status in FAULTS and err == FAULTS[status] and self.wanted.startswith(front):
            return "want of memory" if status == 4 else "the store failed"
        raise Failed(f"status {status}, {out!r}, {err!r}")


class Trial:
    """The built desk with a library that refuses, over a file of its own."""

    def __init__(self, program: str, library: str, folder: str) -> None:
        self.program, self.library, self.folder = str(pathlib.Path(program).resolve()), library, pathlib.Path(folder)
        self.first, self.file, self.mark = self.folder / "first.db", self.folder / "plant.db", self.folder / "refused"
        lines = (HERE / "batches.jsonl").read_bytes()
        ran = subprocess.run([self.program, "run", self.first], input=lines, capture_output=True)
        if ran.returncode not in (0, 1):
            raise Failed(f"the first file: {ran}")

    def take_file(self, has_file: bool) -> None:
        for path in (self.file, pathlib.Path(f"{self.file}-wal"), self.mark):
            path.unlink(missing_ok=True)
        if has_file:
            shutil.copyfile(self.first, self.file)

    def environment(self, number: int) -> dict[str, str]:
        return os.environ | {"REFUSE": str(number), "REFUSED": str(self.mark), "LD_PRELOAD": str(self.library)}

    def run(self, words: Sequence[str], told: bytes, number: int = 0) -> tuple[int, bytes, bytes]:
        ran = subprocess.run([self.program, *words], input=told, capture_output=True, env=self.environment(number), timeout=SECONDS)
        return ran.returncode, ran.stdout, ran.stderr

    def seq(self, file: pathlib.Path) -> int:
        ran = subprocess.run([self.program, "verify", file], capture_output=True, timeout=SECONDS)
        found = re.fullmatch(rb"good schema 4 seq (\d+)\n", ran.stdout)
        if ran.returncode or not found:
            raise Failed(f"the file isn't good: {ran}")
        return int(found[1])

    def seq_of_the_first_file(self) -> int:
        return self.seq(self.first)


def refuse_each(trial: Trial, word: Word, step: int) -> None:
    """Refuses the allocations of a word in turn, and tells how its runs ended."""
    ends: dict[str, int] = {}
    for number in range(1, 10**6, step):
        status, out, err = word.run(number=number)
        try:
            end = word.end_of(status, out, err)
            answered = word.before + out.count(b'{"ok":')
            if not answered <= trial.seq(trial.file) <= answered + 1:
                raise Failed("what was answered isn't there")
        except Failed as failed:
            raise Failed(f"{word.name}, allocation {number}: {failed}") from failed
        if not trial.mark.exists():
            told = ", ".join(f"{count} {it}" for it, count in sorted(ends.items()))
            print(f"{word.name}: {number - 1} allocations: {told}")
            return
        ends[end] = ends.get(end, 0) + 1


def request(trial: Trial, port: int, number: int) -> tuple[bytes, int, bytes, bytes]:
    """Serves one request with this allocation refused, and returns what it is answered and how the server ends."""
    trial.take_file(True)
    words = [trial.program, "serve", str(trial.file), str(port), "1"]
    server = subprocess.Popen(words, stdout=subprocess.PIPE, stderr=subprocess.PIPE, env=trial.environment(number))
    answer = b""
    while server.poll() is None:
        try:
            with socket.create_connection(("127.0.0.1", port), SECONDS) as it:
                it.sendall(REQUEST)
                while piece := it.recv(65536):
                    answer += piece
            break
        except (ConnectionRefusedError, ConnectionResetError, BrokenPipeError):
            time.sleep(0.005)
    out, err = server.communicate(timeout=SECONDS)
    return answer, server.returncode, out, err


def refuse_each_of_a_request(trial: Trial, port: int, step: int) -> None:
    """Refuses the allocations of a server of one request in turn."""
    ends: dict[str, int] = {}
    before = trial.seq_of_the_first_file()
    whole, *_ = request(trial, port, 0)
    if not whole.endswith(b'{"ok":%d}' % (before + 1)):
        raise Failed(f"a request without refusals: {whole!r}")
    for number in range(1, 10**6, step):
        answer, status, out, err = request(trial, port, number)
        seq = trial.seq(trial.file)
        is_answered = answer == whole
        is_fault = answer.startswith(b"HTTP/1.1 503 ") or answer.startswith(b"HTTP/1.1 500 ")
        if out or status not in (0, 2, 3, 4) or err not in (b"", *FAULTS.values()) and status != 2:
            raise Failed(f"a request, allocation {number}: status {status}, {out!r}, {err!r}")
        if not (is_answered or is_fault or whole.startswith(answer)):
            raise Failed(f"a request, allocation {number}: {answer!r}")
        if not before + is_answered <= seq <= before + 1:
            raise Failed(f"a request, allocation {number}: what was answered isn't there")
        if not trial.mark.exists():
            print(f"a request: {number - 1} allocations: {ends}")
            return
        end = "answered" if is_answered else "told a fault" if is_fault else "no whole answer"
        ends[end] = ends.get(end, 0) + 1


def main(program: str, library: str, folder: str, step: str) -> None:
    trial = Trial(program, library, folder)
    file, lines = str(trial.file), (HERE / "movements.jsonl").read_bytes()
    more = b"{%s,%s}\n" % (STAMP, b'"do":"add_class","class":"NEW","name":""') + b'{"ask":"lot","lot":"F-1"}\n{"ask":"batch","batch":"B-1"}\n'
    for word in [
        Word(trial, "init of a new file", ["init", file], has_file=False),
        Word(trial, "run of a new file", ["run", file], lines, has_file=False),
        Word(trial, "run", ["run", file], more),
        Word(trial, "verify", ["verify", file]),
        Word(trial, "import", ["import", file, "--at", "999", "--by", "anna"], ORDERS),
        Word(trial, "trace", ["trace", file, "forward", "F-1"]),
        Word(trial, "record", ["record", file, "B-1"]),
    ]:
        refuse_each(trial, word, int(step))
    with socket.socket() as it:
        it.bind(("127.0.0.1", 0))
        port = it.getsockname()[1]
    refuse_each_of_a_request(trial, port, int(step))


try:
    main(*sys.argv[1:])
except Failed as failed:
    sys.exit(f"refused memory: {failed}")
