#!/usr/bin/env python3
"""A client of a desk that is served: asks, and books each command under a reference until it is answered.

    examples/client.py URL      receives a lot of flour and reports its stock, as http://127.0.0.1:8080 of the first session

A command without a reference that gets no answer may be kept or not. Under a reference it can be sent again: the desk lets it act once, and answers the
number that it got the first time. So keep the reference with the command, on disk where the client may stop, until the answer is there.
"""
import json
import secrets
import sys
import time
import urllib.error
import urllib.request


class Refused(Exception):
    """The desk's answer to what it refuses: its status, and the name and number of the refusal."""

    def __init__(self, status, body):
        super().__init__(f"{body.get('name', 'refused')} ({status})")
        self.status, self.body = status, body


class Desk:
    def __init__(self, url, operator):
        self.url, self.operator = url.rstrip("/"), operator

    def ask(self, path):
        """Returns the answer to a question, as `lots/F-1` or `lists/orders/open`."""
        return self._answer(urllib.request.Request(f"{self.url}/v1/{path}"))

    def pages(self, path, name, place):
        """Yields all items of a list, page by page; `place` gives of an item the place behind which the next page begins."""
        page = self.ask(path)
        yield from page[name]
        while page["more"] and page[name]:
            page = self.ask(f"{path}/{place(page[name][-1])}")
            yield from page[name]

    def book(self, do, reference=None, tries=10, **members):
        """Books a command, and returns its number. It is sent until it is answered; a refusal is raised."""
        at = max(int(time.time()), self.ask("moment")["at"])
        command = {"at": at, "by": self.operator, "do": do, "ref": reference or "C-" + secrets.token_hex(8).upper(), **members}
        request = urllib.request.Request(f"{self.url}/v1/commands", json.dumps(command).encode())
        for number in range(tries):
            try:
                return self._answer(request)["ok"]
            except (OSError, ValueError) as error:
                if number == tries - 1:
                    raise
                print(f"no answer yet, sending it again: {error}", file=sys.stderr)
                time.sleep(0.1 * 2 ** number)

    def _answer(self, request):
        try:
            with urllib.request.urlopen(request, timeout=30) as answer:
                return json.load(answer)
        except urllib.error.HTTPError as error:
            body = json.load(error)
            if error.code == 503:  # the desk is out of memory, or its store failed: it may have been kept
                raise OSError(f"fault {body['fault']}") from error
            raise Refused(error.code, body) from error


def main(url):
    desk = Desk(url, "anna")
    known = {it["class"] for it in desk.pages("lists/classes", "classes", lambda it: it["class"])}
    if "RAW" not in known:
        desk.book("add_class", **{"class": "RAW", "name": "Raw goods"})
        desk.book("add_definition", **{"def": "FLOUR", "class": "RAW", "name": "Flour", "unit": "kg"})
    lot = "F-" + secrets.token_hex(3).upper()
    number = desk.book("receive", **{"lot": lot, "def": "FLOUR", "amount": 500, "place": "A1"})
    print(f"{number} {lot} {desk.ask(f'lots/{lot}')['stock']} {desk.ask('definitions/FLOUR')['unit']}")


if __name__ == "__main__":
    main(sys.argv[1])
