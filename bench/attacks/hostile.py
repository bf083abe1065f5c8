"""Attacks the built desk. hostile.sh calls it.

    hostile.py PROGRAM FOLDER LINES KILLS

LINES lines and as many requests are made of good ones by changes at random places, the same ones by the same seed, which is printed; the
variable DESK_SEED says it. KILLS runs over one file are killed at a random moment. After each attack the file is verified, and what was
acknowledged is compared with what the file has: a command that was answered is there, and at most one more.
"""
from __future__ import annotations

import functools
import json
import pathlib
import random
import re
import resource
import signal
import socket
import subprocess
import sys
import threading
import time
from collections.abc import Callable
from typing import IO

HERE = pathlib.Path(__file__).resolve().parent
sys.path.insert(0, str(HERE.parents[1]))

from tests.support import seeds  # noqa: E402  (the top is on the path now)

SECONDS = 600
PIECE = 2000

# The commands that make a definition.
GOODS = (
    b'{"at":1,"by":"","do":"add_class","class":"RAW","name":""}\n'
    b'{"at":1,"by":"","do":"add_definition","def":"SUGAR","class":"RAW","name":"","unit":"g"}\n'
)

# What is put into a text.
PIECES = (b'"', b"{", b"}", b"[", b"]", b",", b"\\u0000", b"-1", b"1e9", b"null", b"\xff", b"\n", b"\r\n", b"0" * 30)


class Failed(Exception):
    """The desk did not withstand an attack."""


def expect(is_so: bool, told: str) -> None:
    if not is_so:
        raise Failed(told)


def good_lines() -> list[bytes]:
    """Returns the lines of the sessions."""
    return [it for name in ("session", "movements", "plans", "batches") for it in (HERE / f"{name}.jsonl").read_bytes().splitlines()]


def broken(text: bytes, chance: random.Random) -> bytes:
    """Returns a text with a few bytes changed, taken away, put in, or a piece of it doubled."""
    changed = bytearray(text)
    for _ in range(chance.randint(0, 3)):
        at = chance.randrange(len(changed) + 1)
        how = chance.randrange(5)
        if how == 0:
            changed[at:at] = bytes([chance.randrange(256)])
        elif how == 1:
            del changed[at : at + chance.randint(1, 8)]
        elif how == 2 and at < len(changed):
            changed[at] = chance.randrange(256)
        elif how == 3:
            changed[at:at] = changed[at : at + chance.randint(1, 40)]
        else:
            changed[at:at] = chance.choice(PIECES)
    return bytes(changed)


def replies_wanted(text: bytes) -> int:
    """Returns how many lines of a text have a reply: those that are not empty, without the CR before the LF that ends them."""
    lines = text.split(b"\n")
    last = lines.pop()
    return sum(it.removesuffix(b"\r") != b"" for it in lines) + (last != b"")


class Desk:
    """The built desk, and a file for it."""

    def __init__(self, program: str, folder: str) -> None:
        self.program, self.folder = str(pathlib.Path(program).resolve()), pathlib.Path(folder)

    def run(
        self, *words: str | pathlib.Path, told: bytes = b"", stdout: int | IO[bytes] = subprocess.PIPE,
        preexec_fn: Callable[[], None] | None = None,
    ) -> subprocess.CompletedProcess[bytes]:
        return subprocess.run(
            [self.program, *map(str, words)], input=told, stdout=stdout, stderr=subprocess.PIPE, timeout=SECONDS,
            preexec_fn=preexec_fn,
        )

    def seq(self, file: pathlib.Path) -> int:
        """Verifies a file, and returns how many commands it has accepted."""
        ran = self.run("verify", file)
        found = re.fullmatch(rb"good schema 4 seq (\d+)\n", ran.stdout)
        if ran.returncode or not found:
            raise Failed(f"{file}: {ran.stdout!r} {ran.stderr!r}")
        return int(found[1])

    def lines_are_answered(self, count: int, chance: random.Random) -> str:
        """Tells broken lines, some thousands a run, over one file: each has one reply of JSON, and what was accepted is there."""
        file, good, accepted = self.folder / "lines.db", good_lines(), 0
        for _ in range(0, count, PIECE):
            told = b"\n".join(broken(chance.choice(good), chance) for _ in range(PIECE)) + b"\n"
            ran = self.run("run", file, told=told)
            expect(ran.returncode in (0, 1), f"lines ended with {ran.returncode} {ran.stderr!r}")
            replies = ran.stdout.split(b"\n")[:-1]
            expect(len(replies) == replies_wanted(told), f"{len(replies)} replies to {replies_wanted(told)} lines")
            accepted += sum("ok" in json.loads(it) for it in replies)
        expect(self.seq(file) == accepted, f"{accepted} accepted, {self.seq(file)} kept")
        return f"{count} broken lines, {accepted} of them accepted"

    def requests_are_answered(self, count: int, chance: random.Random) -> str:
        """Sends broken requests: each has an answer that is whole, or none where it was cut off or said nothing."""
        file, good, accepted = self.folder / "requests.db", [request_of(it) for it in good_lines()], 0
        questions = (b"GET /v1/desk", b"HEAD /v1/lots/L-1", b"GET /v1/batches/B-1/record")
        good += [it + b" HTTP/1.1\r\nHost: a\r\n\r\n" for it in questions]
        server, port = self.serving(file, count)
        for _ in range(count):
            answer = sent(port, broken(chance.choice(good), chance))
            expect(is_whole(answer), f"an answer that isn't whole: {answer!r}")
            accepted += answer.startswith(b"HTTP/1.1 200") and b'{"ok":' in answer
        expect(server.wait(timeout=SECONDS) == 0, "the server ended with a fault")
        expect(self.seq(file) == accepted, f"{accepted} accepted over HTTP, {self.seq(file)} kept")
        return f"{count} broken requests, {accepted} of them accepted"

    def serving(self, file: pathlib.Path, count: int) -> tuple[subprocess.Popen[bytes], int]:
        port = free_port()
        server = subprocess.Popen([self.program, "serve", str(file), str(port), str(count + 1)], stderr=subprocess.PIPE)
        for _ in range(500):
            try:
                sent(port, b"GET /v1/desk HTTP/1.0\r\n\r\n")
                return server, port
            except ConnectionRefusedError:
                time.sleep(0.02)
        raise Failed("no server")

    def kills_lose_nothing(self, count: int, chance: random.Random) -> str:
        """Kills runs over one file at a random moment: what was answered is there, and at most one command more."""
        file = self.folder / "kills.db"
        self.run("init", file)
        self.run("run", file, told=GOODS)
        kept = self.seq(file)
        for number in range(count):
            lines = b"".join(receipt(f"K-{number}-{it}") for it in range(400))
            process = subprocess.Popen([self.program, "run", str(file)], stdin=subprocess.PIPE, stdout=subprocess.PIPE)
            assert process.stdin and process.stdout
            feeder = threading.Thread(target=feed, args=(process.stdin, lines))
            feeder.start()
            time.sleep(chance.uniform(0.002, 0.06))
            process.send_signal(signal.SIGKILL)
            replies = process.stdout.read().count(b'{"ok":')
            process.wait()
            feeder.join()
            found = self.seq(file)
            expect(kept + replies <= found <= kept + replies + 1, f"{replies} answered after {kept}, {found} kept")
            kept = found
        return f"{count} kills, {kept} commands kept"

    def files_may_not_grow(self, chance: random.Random) -> str:
        """Bounds how far a file may grow: the run ends with the fault of its store, and what was answered is there."""
        times = 0
        for most in [2**it for it in range(12, 20)] + [chance.randrange(5_000, 400_000) for _ in range(20)]:
            file = self.folder / f"bound-{most}.db"
            self.run("init", file)
            lines = GOODS + b"".join(receipt(f"G-{it}") for it in range(3000))
            ran = self.run("run", file, told=lines, preexec_fn=functools.partial(bound, most))
            answered = ran.stdout.count(b'{"ok":')
            expect(ran.returncode in (0, 3), f"a bound of {most}: status {ran.returncode}")
            if ran.returncode == 3 and not ran.stdout:
                # the store couldn't even be adopted
                continue
            expect(ran.returncode == 0 or ran.stdout.endswith(b'{"fault":1}\n'), f"a bound of {most}: {ran.stdout[-60:]!r}")
            found = self.seq(file)
            expect(answered <= found <= answered + 1, f"a bound of {most}: {answered} answered, {found} kept")
            times += ran.returncode == 3
        return f"{times} runs over files that could not grow"

    def outputs_may_be_full(self) -> str:
        """Writes to a device that is full: the run ends, and at most the one command that was under way is there."""
        file = self.folder / "full.db"
        self.run("init", file)
        with open("/dev/full", "wb") as full:
            ran = self.run("run", file, told=b'{"at":1,"by":"","do":"add_class","class":"RAW","name":""}\n' * 3, stdout=full)
        expect(ran.returncode not in (0, 1) and self.seq(file) <= 1, f"a full output: status {ran.returncode}")
        return f"a full output, status {ran.returncode}"

    def slow_clients_hold_for_a_while(self) -> str:
        """Lets a client say nothing, and another send a byte a second: the server drops each and answers the next."""
        server, port = self.serving(self.folder / "slow.db", 4)
        told = []
        for is_silent in (True, False):
            start = time.monotonic()
            with socket.create_connection(("127.0.0.1", port)) as slow:
                dripping = threading.Thread(target=drip, args=(slow, 0 if is_silent else 15))
                dripping.start()
                answer = sent(port, b"GET /v1/desk HTTP/1.0\r\n\r\n")
                took = time.monotonic() - start
                dripping.join()
            expect(answer.startswith(b"HTTP/1.1 200"), f"behind a slow client: {answer!r}")
            told.append(f"{took:.0f} s behind a client that {'says nothing' if is_silent else 'sends a byte a second for 15 s'}")
        expect(server.wait(timeout=SECONDS) == 0, "the server ended with a fault")
        return ", ".join(told)


def receipt(lot: str) -> bytes:
    return json.dumps({"at": 2, "by": "", "do": "receive", "lot": lot, "def": "SUGAR", "amount": 5, "place": ""}).encode() + b"\n"


def request_of(line: bytes) -> bytes:
    """Returns the request that has the line as its body."""
    return b"POST /v1/commands HTTP/1.1\r\nHost: a\r\nContent-Length: %d\r\n\r\n%s" % (len(line), line)


def feed(pipe: IO[bytes], lines: bytes) -> None:
    try:
        pipe.write(lines)
        pipe.close()
    except (BrokenPipeError, ConnectionResetError):
        pass


def drip(connection: socket.socket, count: int) -> None:
    try:
        for _ in range(count):
            connection.sendall(b"G")
            time.sleep(1)
    except OSError:
        pass


def bound(most: int) -> None:
    signal.signal(signal.SIGXFSZ, signal.SIG_IGN)
    resource.setrlimit(resource.RLIMIT_FSIZE, (most, most))


def free_port() -> int:
    with socket.socket() as it:
        it.bind(("127.0.0.1", 0))
        port: int = it.getsockname()[1]
        return port


def sent(port: int, request: bytes) -> bytes:
    """Sends a request, says that no more comes, and returns what is answered."""
    with socket.create_connection(("127.0.0.1", port), timeout=SECONDS) as it:
        answer = b""
        try:
            it.sendall(request)
            it.shutdown(socket.SHUT_WR)
            while piece := it.recv(65536):
                answer += piece
        except (BrokenPipeError, ConnectionResetError):
            pass
        return answer


def is_whole(answer: bytes) -> bool:
    """Returns whether an answer is none, or a head and as many bytes as it says, or none of them to HEAD."""
    if not answer:
        return True
    head, parted, body = answer.partition(b"\r\n\r\n")
    length = re.search(rb"\r\nContent-Length: (\d+)", head)
    return bool(parted and head.startswith(b"HTTP/1.1 ") and length and len(body) in (0, int(length[1])))


def main(program: str, folder: str, lines: str, kills: str) -> int:
    desk = Desk(program, folder)
    print(f"seed {seeds.seed()}", flush=True)
    try:
        print(desk.lines_are_answered(int(lines), seeds.chance("lines")), flush=True)
        print(desk.requests_are_answered(int(lines), seeds.chance("requests")), flush=True)
        print(desk.kills_lose_nothing(int(kills), seeds.chance("kills")), flush=True)
        print(desk.files_may_not_grow(seeds.chance("sizes")), flush=True)
        print(desk.outputs_may_be_full(), flush=True)
        print(desk.slow_clients_hold_for_a_while(), flush=True)
    except Failed as told:
        print(f"FAILED: {told}", flush=True)
        return 1
    return 0


sys.exit(main(*sys.argv[1:]))
