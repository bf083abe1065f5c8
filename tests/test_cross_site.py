"""What pages of other sites can do to a desk that serves its page: in a headless Chromium, a page at another port of this machine and one of a
name that leads to this machine try to book, to read and to frame."""
from __future__ import annotations

import http.server
import json
import threading
import time

from tests.support import Json
from tests.support.browser import Tab
from tests.support.http import free_port
from tests.support.pages import MORNINGS, BrowserTestCase

# The name of another site, which the browser finds on this machine.
OTHER = "evil.test"

# What a request of the page of another site came to.
SENT = "fetch(%s, %s).then(async (reply) => `${reply.type} ${reply.status} ${await reply.text()}`, () => 'not sent or not read')"


class OtherSite(http.server.BaseHTTPRequestHandler):
    """Answers each request with an empty page."""

    def do_GET(self) -> None:
        body = b"<!doctype html><title>other</title><p>another site"
        self.send_response(200)
        self.send_header("Content-Type", "text/html")
        self.send_header("Content-Length", str(len(body)))
        self.end_headers()
        self.wfile.write(body)

    def log_message(self, *_: object) -> None:
        pass


class OtherSites(BrowserTestCase):
    """Pages of other sites."""

    NAMES = (OTHER,)

    # The port of the other site.
    port: int

    @classmethod
    def setUpClass(cls) -> None:
        super().setUpClass()
        cls.port = free_port()
        server = http.server.ThreadingHTTPServer(("127.0.0.1", cls.port), OtherSite)
        server.daemon_threads = True
        threading.Thread(target=server.serve_forever, daemon=True).start()
        cls.addClassCleanup(server.server_close)
        cls.addClassCleanup(server.shutdown)

    def setUp(self) -> None:
        super().setUp()
        self.serve()
        self.desk_url = self.served.url.rstrip("/")

    def visit(self, url: str, text: str | None = None) -> Tab:
        """Opens a page in a tab of its own."""
        tab = self.browser.tab(url)
        self.addCleanup(tab.close)
        tab.until("document.readyState === 'complete' && document.body !== null")
        if text:
            tab.has(text)
        return tab

    def sites(self) -> list[tuple[str, Tab]]:
        """Returns a tab of each other site with its name: another port of this machine, and another name."""
        names = ("127.0.0.1", "localhost", OTHER)
        return [(it, self.visit(f"http://{it}:{self.port}/", "another site")) for it in names]

    def check_nothing_booked(self, case: str) -> None:
        self.check(f"the number behind {case}", self.served.ask("/desk")["seq"], MORNINGS)

    def command(self) -> str:
        return json.dumps({"at": int(time.time()), "by": "evil", "do": "add_class", "class": "EVIL", "name": ""})

    def sent(self, tab: Tab, path: str, **options: Json) -> str:
        """Has a page send a request to the desk, and returns what it came to."""
        came_to: str = tab.run(SENT % (json.dumps(self.desk_url + path), json.dumps(options)))
        return came_to

    def test_other_site_books_nothing(self) -> None:
        for name, tab in self.sites():
            for mode in ("no-cors", "cors"):
                told = self.sent(tab, "/v1/commands", method="POST", mode=mode, body=self.command())
                self.check_true(f"{mode} of {name}: {told}", told in ("opaque 0 ", "not sent or not read"))
            fields = {"Desk-At": str(int(time.time()))}
            told = self.sent(tab, "/v1/orders", method="POST", headers=fields, body="order,recipe,version,size,due,priority\n")
            self.check(f"an order file of {name}", told, "not sent or not read")
            self.check_nothing_booked(name)

    def test_form_of_another_site_books_nothing(self) -> None:
        for name, tab in self.sites():
            tab.run(f"""(() => {{
              const form = document.createElement('form'), field = document.createElement('input');
              Object.assign(form, {{method: 'POST', action: {json.dumps(self.desk_url + '/v1/commands')}, enctype: 'text/plain'}});
              field.name = {json.dumps(self.command()[:-1] + ',"note":"')}; field.value = '"}}';
              form.append(field); document.body.append(form); form.submit();
            }})()""")
            tab.has('{"status":403}')
            self.check_nothing_booked(f"a form of {name}")

    def test_other_site_reads_nothing(self) -> None:
        for name, tab in self.sites():
            self.check(f"what {name} reads", self.sent(tab, "/v1/desk"), "not sent or not read")
            self.check(f"what of the page {name} reads", self.sent(tab, "/"), "not sent or not read")

    def test_name_that_leads_to_this_machine_reads_and_books_nothing(self) -> None:
        self.desk_url = self.desk_url.replace("127.0.0.1", OTHER)
        tab = self.visit(self.desk_url + "/", '{"status":403}')
        for path in ("/", "/v1/desk", "/v1/lists/recalls"):
            self.check(path, self.sent(tab, path), 'basic 403 {"status":403}')
        self.check("a booking", self.sent(tab, "/v1/commands", method="POST", body=self.command()), 'basic 403 {"status":403}')
        self.check_nothing_booked("a name that leads to this machine")

    def test_other_site_frames_nothing(self) -> None:
        for name, tab in self.sites():
            tab.run(f"""new Promise((then) => {{
              const frame = document.createElement('iframe');
              frame.addEventListener('load', then); frame.src = {json.dumps(self.desk_url + '/')}; document.body.append(frame);
            }}).then(() => true)""")
            frames = tab.call("Page.getFrameTree")["frameTree"].get("childFrames", [])
            urls = [it["frame"]["url"] for it in frames]
            self.check(f"the frame in {name}", [it for it in urls if it.startswith(self.desk_url)], [])

    def test_own_page_books(self) -> None:
        tab = self.open("planner")
        self.desk_url = ""
        told = self.sent(tab, "/v1/commands", method="POST", body=self.command())
        self.check("a booking of the page", told, 'basic 200 {"ok":%d}' % (MORNINGS + 1))
