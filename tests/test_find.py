"""Ids that begin with another, over the built desk: what is asked in no form, by lines and by requests. tests/support/finding.py computes the answers
of whole sessions, which test_sessions and test_keepers run."""
from __future__ import annotations

from tests.support.commands import GOODS, receive
from tests.support.http import answer, got
from tests.support.large import LimitTestCase

BAD_FORM = '{"name":"BadForm","refused":1}'

# Lines that ask in no form, with the paths that have the same flaw, where there are such.
BAD = [
    ('{"ask":"find"}', "find"),
    ('{"ask":"find","lot":"L-1"}', None),
    ('{"ask":"find","id":""}', "find/"),
    ('{"ask":"find","id":"l"}', "find/l"),
    ('{"ask":"find","id":"1"}', "find/1"),
    ('{"ask":"find","id":"-"}', "find/-"),
    ('{"ask":"find","id":"L 1"}', "find/L%201"),
    ('{"ask":"find","id":"L-1","lot":"L-1"}', None),
    ('{"above":"L-1","ask":"find","id":"L"}', "find/L/L-1"),
    ('{"ask":"find","id":"%s"}' % ("L" * 25), "find/" + "L" * 25),
]

NONE = '{"batches":[],"classes":[],"definitions":[],"lots":[],"orders":[],"recalls":[],"recipes":[]}'
TWO = NONE.replace('"lots":[]', '"lots":["L-1","L-2"]')


class Find(LimitTestCase):
    """What is found of a beginning, and what is none."""

    def test_what_begins_so_is_found_and_nothing_is_unknown(self) -> None:
        file = "find.db"
        self.send(file, *GOODS, receive("L-2", 5), receive("L-1", 5))
        self.check_alike(file, [
            ("two lots", '{"ask":"find","id":"L"}', "/v1/find/L", TWO),
            ("one lot", '{"ask":"find","id":"L-1"}', "/v1/find/L-1", NONE.replace('"lots":[]', '"lots":["L-1"]')),
            ("a definition", '{"ask":"find","id":"SUG"}', "/v1/find/SUG", NONE.replace('"definitions":[]', '"definitions":["SUGAR"]')),
            ("nothing", '{"ask":"find","id":"L-3"}', "/v1/find/L-3", NONE),
            ("a longest id", '{"ask":"find","id":"%s"}' % ("L" * 24), "/v1/find/" + "L" * 24, NONE),
        ])

    def test_lines_and_paths_in_no_form_are_refused(self) -> None:
        file = "bad.db"
        self.send(file, *GOODS, receive("L-1", 5))
        for question, _ in BAD:
            self.check_run(question, ["run", file], (1, BAD_FORM.encode() + b"\n", b""), question.encode() + b"\n")
        paths = [path for _, path in BAD if path]
        self.check_requests(file, [(path, got(f"/v1/{path}"), answer('{"status":404}', 404)) for path in paths])
