"""The built desk, and how long a connection may stay as it is: both ends of each time.

What comes before the end of a time is served; what hasn't come by then is dropped, no sooner and not much later. The times are ten seconds in
which nothing comes, twenty for a request from its first byte on, and one after an answer.
"""
from __future__ import annotations

import concurrent.futures
import contextlib
import dataclasses
import time
from collections.abc import Sequence

from tests.support.cases import DeskTestCase
from tests.support.http import ACCEPTED, ASK, NEW, POST, WELL, Server, connected, got, rest_of, status_answer

# How many seconds nothing may move on a connection, a request may take, and the server reads on after an answer.
SILENCE, WHOLE, AFTER = 10, 20, 1

# How long before the end of a time something comes that is in time; a moment that is so within the time of silence.
BEFORE = 1.5
PAUSE = SILENCE - BEFORE

# Moments of which each follows the one before it within the time of silence, and the last comes within that of a request.
MOMENTS = (0, PAUSE, 2 * PAUSE, WHOLE - BEFORE)

# How much sooner than at its end nothing is dropped, since the server counts milliseconds, and how much later on a busy machine.
SOONER, LATER = 0.1, 5

# A question whose answer is always the same.
QUESTION, ANSWER = got("/nothing"), status_answer(404)

# How many bytes are passed over after a request at most.
PASSED_OVER = 128 * 4096

# How often it is looked whether a connection is closed, and how often this is tried on a busy machine.
LOOK, TRIES = 0.02, 5


@dataclasses.dataclass
class Client:
    """A client that sends pieces, each so many seconds after it began, and what it is answered, or after how many seconds it is dropped."""

    name: str
    pieces: Sequence[tuple[float, bytes]]
    wanted: bytes = b""
    dropped: float = 0


def cut(request: bytes, moments: Sequence[float], silent: float = 0) -> list[tuple[float, bytes]]:
    """Cuts a request into a piece for each of these moments, so many seconds later."""
    size = len(request) // len(moments)
    ends = [*(size * place for place in range(len(moments))), len(request)]
    return [(silent + moment, request[ends[place]:ends[place + 1]]) for place, moment in enumerate(moments)]


CLIENTS = [
    Client("is silent, and asks in time", [(PAUSE, QUESTION)], ANSWER),
    Client("is silent", [], dropped=SILENCE),
    Client("pauses in its head", cut(QUESTION, (0, PAUSE)), ANSWER),
    Client("stops in its head", [(0, QUESTION[:-1])], dropped=SILENCE),
    Client("pauses in its body", cut(POST, (0, PAUSE)), ACCEPTED),
    Client("stops in its body", [(0, POST[:-1])], dropped=SILENCE),
    Client("stops after a pause", cut(POST[:-1], (0, PAUSE)), dropped=PAUSE + SILENCE),
    Client("is whole in time", cut(QUESTION, MOMENTS), ANSWER),
    Client("has no whole head in time", cut(QUESTION[:-1], MOMENTS), dropped=WHOLE),
    Client("has no whole body in time", cut(POST[:-1], MOMENTS), dropped=WHOLE),
    Client("is silent, and then whole in time", cut(QUESTION, MOMENTS, PAUSE), ANSWER),
    Client("is silent, and then not whole in time", cut(QUESTION[:-1], MOMENTS, PAUSE), dropped=PAUSE + WHOLE),
]


def asks(port: int, client: Client) -> tuple[bytes, float]:
    """Returns what a client is answered, and after how many seconds its connection ends."""
    began = time.monotonic()
    text = b""
    with connected(port) as it:
        for moment, piece in client.pieces:
            time.sleep(max(0.0, began + moment - time.monotonic()))
            it.sendall(piece)
        with contextlib.suppress(ConnectionResetError):
            text = rest_of(it)
    return text, time.monotonic() - began


class Requests(DeskTestCase):
    """Requests that come late."""

    IS_LONG = True

    def test_what_comes_before_the_end_of_its_time_is_served_and_the_rest_dropped_then(self) -> None:
        """Has a client of each kind come at once, each in a thread of its own."""
        with Server(self.desk, "plant.db", len(CLIENTS)) as server, concurrent.futures.ThreadPoolExecutor(len(CLIENTS)) as threads:
            found = list(threads.map(lambda it: asks(server.port, it), CLIENTS))
            self.check("the server", server.end(), WELL)
        for client, (text, ended) in zip(CLIENTS, found):
            self.check(f"one that {client.name}", text, client.wanted)
            if client.dropped:
                in_time = client.dropped - SOONER < ended < client.dropped + LATER
                self.check_true(f"one that {client.name} is dropped after {client.dropped} seconds: {ended}", in_time)
        self.check_verified("what was executed", "plant.db", 1)


class AfterAnswers(DeskTestCase):
    """Connections after their answers, as clients stay that have read them."""

    def seconds_open(self, piece: bytes) -> float:
        """Asks, reads the answer and stays, with such a piece now and then; returns for how many seconds the server keeps the connection."""
        with Server(self.desk, ":memory:", 2) as server:
            files = server.open_files()
            with connected(server.port) as stays:
                stays.sendall(ASK)
                self.check("its answer", rest_of(stays), NEW)
                began = time.monotonic()
                while server.open_files() > files and time.monotonic() - began < AFTER + LATER:
                    with contextlib.suppress(BrokenPipeError, ConnectionResetError):
                        stays.sendall(piece)
                    time.sleep(LOOK)
                return time.monotonic() - began

    def test_connection_is_read_on_for_a_second_whether_or_not_more_comes(self) -> None:
        for case, piece in (("nothing more", b""), ("a byte now and then", b"-")):
            found = self.seconds_open(piece)
            self.check_true(f"{case}: it is closed after a second, {found}", AFTER - SOONER < found < AFTER + LATER)

    def test_connection_on_which_too_much_comes_is_closed_before(self) -> None:
        """Sends more at once than is passed over."""
        found = min(self.seconds_open(b"-" * (PASSED_OVER // 4)) for _ in range(TRIES))
        self.check_true(f"it is closed before a second is over, {found}", found < AFTER - SOONER)

    def test_connection_whose_client_ends_is_closed_at_once(self) -> None:
        for _ in range(TRIES):
            with Server(self.desk, ":memory:", 2) as server:
                files, began = server.open_files(), time.monotonic()
                self.check("its answer", server.answered(ASK), NEW)
                server.wait_closed(files)
                found = time.monotonic() - began
            if found < AFTER - SOONER:
                break
        self.check_true(f"it is closed before a second is over, {found}", found < AFTER - SOONER)
