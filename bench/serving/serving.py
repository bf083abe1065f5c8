"""Measures what the built desk serves in a second. serve.sh calls it.

    serving.py PROGRAM FOLDER QUESTIONS COMMANDS

Each request is a connection of its own, made by a client in C (client.c, built in FOLDER with gcc). Where one process of it sends them
all, each once the one before it was answered, its own time is in the figure; where three share them, the next connection waits while one
is answered, and the figure is what the server does. Beside each stands what the server's own processor would do, which tells how many
requests a second one core would serve that did nothing else. The server of bare sockets does nothing but accept, read once, write a text
that it holds and close. Last, the desk in memory, the desk over a file and the server of the library stand side by side, and are asked
about a new desk in turn, in rounds, since a machine that others use too is now faster and now slower: what is told of a round is how many
times as many questions a second the desk answered. The file is in FOLDER. Commands are receipts of one definition, each of a lot of its
own; then questions ask about those lots in turn. What `run` does is measured from its start to its end.
"""
from __future__ import annotations

import http.server
import pathlib
import socket
import statistics
import subprocess
import sys
import time
from collections.abc import Sequence

SECONDS = 60

# How many processes send requests at once.
SHARES = 3

# How often servers that stand side by side are asked in turn, and how many questions each time.
ROUNDS = 15
ROUND_QUESTIONS = 2000

PREPARED = [
    b'{"at":1,"by":"","do":"add_class","class":"RAW","name":""}',
    b'{"at":1,"by":"","do":"add_definition","def":"SUGAR","class":"RAW","name":"","unit":"g"}',
]


def receipt(number: int) -> bytes:
    return b'{"at":2,"by":"","do":"receive","lot":"L-%d","def":"SUGAR","amount":500,"place":"A1"}' % number


def told(body: bytes) -> bytes:
    """Returns the request that gives a command."""
    return b"POST /v1/commands HTTP/1.1\r\nHost: a\r\nContent-Length: %d\r\n\r\n%s" % (len(body), body)


def asked(path: bytes) -> bytes:
    """Returns the request that asks a question."""
    return b"GET /v1/%s HTTP/1.1\r\nHost: a\r\n\r\n" % path


def free_port() -> int:
    with socket.socket() as it:
        it.bind(("127.0.0.1", 0))
        port: int = it.getsockname()[1]
        return port


def answer(port: int, request: bytes) -> bytes:
    """Sends a request on a connection of its own, and returns all that comes back."""
    with socket.create_connection(("127.0.0.1", port), SECONDS) as it:
        it.sendall(request)
        text = b""
        while piece := it.recv(65536):
            text += piece
        return text


def await_answer(port: int, request: bytes, server: subprocess.Popen[bytes]) -> bytes:
    """Returns the first answer of a server that may be about to listen."""
    end = time.monotonic() + SECONDS
    while True:
        try:
            return answer(port, request)
        except ConnectionRefusedError:
            if server.poll() is not None or time.monotonic() > end:
                raise
            time.sleep(0.02)


def told_of(name: str, count: int, seconds: float, of_processor: float | None = None) -> None:
    own = f"; its own processor would do {count / of_processor:.0f}" if of_processor else ""
    print(f"{name}: {count} in {seconds:.2f} s, {count / seconds:.0f} a second{own}", flush=True)


def processor_seconds(process: subprocess.Popen[bytes]) -> float:
    """Returns how long a process has had a processor."""
    return int(pathlib.Path(f"/proc/{process.pid}/schedstat").read_text().split()[0]) / 1e9


class Client:
    """The client, built in a folder."""

    def __init__(self, folder: pathlib.Path) -> None:
        self.program = folder / "client"
        source = pathlib.Path(__file__).with_name("client.c")
        subprocess.run(["gcc", "-O2", "-o", self.program, source], check=True)

    def seconds(self, name: str, port: int, requests: Sequence[bytes], wanted: bytes, shares: int) -> float:
        """Sends requests, which so many processes share, and each of whose answers has to have a text in it. Returns how long that took."""
        told = b"".join(b"%d\n%s" % (len(it), it) for it in requests)
        ran = subprocess.run([self.program, str(port), wanted, str(shares)], input=told, stdout=subprocess.PIPE)
        if ran.returncode != 0:
            sys.exit(f"{name}: the client ended with status {ran.returncode}")
        return float(ran.stdout)

    def timed(
        self, name: str, port: int, requests: Sequence[bytes], wanted: bytes, server: subprocess.Popen[bytes],
        shares: int = 1,
    ) -> None:
        """Sends requests, and tells how long that took, and the server's processor."""
        had = processor_seconds(server)
        took = self.seconds(name, port, requests, wanted, shares)
        shared = f", {shares} at once" if shares > 1 else ""
        told_of(name + shared, len(requests), took, processor_seconds(server) - had)

    def timed_both(
        self, name: str, port: int, requests: Sequence[bytes], wanted: bytes, server: subprocess.Popen[bytes],
    ) -> None:
        """Sends requests one after the other, and then once more, shared."""
        self.timed(name, port, requests, wanted, server)
        self.timed(name, port, requests, wanted, server, SHARES)


def serve(
    client: Client, program: pathlib.Path, file: str | pathlib.Path, name: str, questions: int, commands: int,
) -> bytes:
    """Measures a server over a file, and returns an answer about a lot."""
    port = free_port()
    about_desk = [asked(b"desk")] * questions
    about_lots = [asked(b"lots/L-%d" % (it % commands + 1)) for it in range(questions)]
    count = 1 + 2 * len(about_desk) + len(PREPARED) + commands + 2 * len(about_lots) + 1
    server = subprocess.Popen([program, "serve", file, str(port), str(count)])
    try:
        await_answer(port, asked(b"desk"), server)
        client.timed_both(f"{name}, questions about an empty desk", port, about_desk, b'"seq":0}', server)
        for it in PREPARED:
            answer(port, told(it))
        client.timed(f"{name}, commands", port, [told(receipt(it + 1)) for it in range(commands)], b'"ok":', server)
        client.timed_both(f"{name}, questions about {commands} lots", port, about_lots, b'"stock":500,', server)
        last = answer(port, about_lots[0])
        if server.wait(SECONDS) != 0:
            sys.exit(f"{name} ended with status {server.returncode}")
        return last
    finally:
        server.kill()


def run(program: pathlib.Path, file: pathlib.Path, questions: int, commands: int) -> None:
    """Measures the same lines by `run` over a file."""
    subprocess.run([program, "run", file], input=b"\n".join(PREPARED), check=True, stdout=subprocess.DEVNULL)
    lots = [b'{"ask":"lot","lot":"L-%d"}' % (it % commands + 1) for it in range(questions)]
    for name, lines in [
        ("run over a file, commands", [receipt(it + 1) for it in range(commands)]),
        (f"run over a file, questions about {commands} lots", lots),
    ]:
        start = time.monotonic()
        subprocess.run([program, "run", file], input=b"\n".join(lines), check=True, stdout=subprocess.DEVNULL)
        told_of(name, len(lines), time.monotonic() - start)


class Fixed(http.server.BaseHTTPRequestHandler):
    """Answers a text that stands from the start, with the fields of the desk's answers beside its own two, and closes."""

    protocol_version = "HTTP/1.1"
    body = b""

    def do_GET(self) -> None:
        self.send_response(200)
        self.send_header("Content-Type", "application/json")
        self.send_header("Content-Length", str(len(self.body)))
        self.send_header("Connection", "close")
        self.end_headers()
        self.wfile.write(self.body)

    def log_message(self, *_: object) -> None:
        pass


def serve_fixed(port: int, body: bytes) -> None:
    Fixed.body = body
    http.server.HTTPServer(("127.0.0.1", port), Fixed).serve_forever()


def serve_bare(port: int, text: bytes) -> None:
    with socket.create_server(("127.0.0.1", port)) as listener:
        while True:
            stream, _ = listener.accept()
            with stream:
                stream.recv(65536)
                stream.sendall(text)


def other_server(word: str, text: bytes) -> tuple[subprocess.Popen[bytes], int]:
    """Starts a server of this file, and returns it with its port."""
    port = free_port()
    server = subprocess.Popen([sys.executable, __file__, word, str(port)], stdin=subprocess.PIPE)
    try:
        assert server.stdin
        server.stdin.write(text)
        server.stdin.close()
        await_answer(port, asked(b"desk"), server)
    except BaseException:
        server.kill()
        raise
    return server, port


def other(client: Client, name: str, word: str, text: bytes, questions: int) -> None:
    """Measures a server of this file."""
    server, port = other_server(word, text)
    try:
        client.timed_both(name, port, [asked(b"desk")] * questions, text.rpartition(b"\r\n\r\n")[2], server)
    finally:
        server.kill()


def in_turn(client: Client, desks: Sequence[tuple[str, int]], other_port: int, body: bytes, shares: int) -> None:
    """Asks desks at their ports in turn with the server of the library, and tells of each round how many times as many it answered."""
    requests = [asked(b"desk")] * ROUND_QUESTIONS
    rounds: list[list[float]] = []
    for _ in range(ROUNDS):
        of_other = client.seconds("Python's http.server", other_port, requests, body, shares)
        rounds.append([of_other / client.seconds(name, port, requests, body, shares) for name, port in desks])
    for (name, _), times in zip(desks, zip(*rounds)):
        low, middle, high = min(times), statistics.median(times), max(times)
        shared = f", {shares} at once" if shares > 1 else ""
        print(f"{name}{shared}: {middle:.2f} times Python's http.server in the middle of {ROUNDS} rounds, {low:.2f} to {high:.2f}", flush=True)


def side_by_side(client: Client, program: pathlib.Path, file: pathlib.Path, body: bytes) -> None:
    """Measures desks and the server of the library in turn."""
    other, other_port = other_server("fixed", body)
    servers = [other]
    desks: list[tuple[str, int]] = []
    stores: list[tuple[str, str | pathlib.Path]] = [("serve in memory", ":memory:"), ("serve over a file", file)]
    count = 1 + 2 * ROUNDS * ROUND_QUESTIONS
    try:
        for name, store in stores:
            port = free_port()
            servers.append(subprocess.Popen([program, "serve", store, str(port), str(count)]))
            await_answer(port, asked(b"desk"), servers[-1])
            desks.append((name, port))
        for shares in (1, SHARES):
            in_turn(client, desks, other_port, body, shares)
    finally:
        for it in servers:
            it.kill()


def main(program: pathlib.Path, folder: pathlib.Path, questions: int, commands: int) -> None:
    client = Client(folder)
    serve(client, program, ":memory:", "serve in memory", questions, commands)
    text = serve(client, program, folder / "served.db", "serve over a file", questions, commands)
    run(program, folder / "run.db", questions, commands)
    body = text.rpartition(b"\r\n\r\n")[2]
    other(client, f"Python's http.server, {len(body)} bytes that it holds", "fixed", body, questions)
    other(client, "bare sockets in Python, the same", "bare", text, questions)
    side_by_side(client, program, folder / "new.db", b'{"schema":4,"seq":0}')


if __name__ == "__main__":
    if sys.argv[1] == "fixed":
        serve_fixed(int(sys.argv[2]), sys.stdin.buffer.read())
    elif sys.argv[1] == "bare":
        serve_bare(int(sys.argv[2]), sys.stdin.buffer.read())
    else:
        main(pathlib.Path(sys.argv[1]).resolve(), pathlib.Path(sys.argv[2]), int(sys.argv[3]), int(sys.argv[4]))
