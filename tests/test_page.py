"""The page that the desk serves, without a browser: what it is made of, the words that it has in common with the documents, and how its resources
are served; and the tool that makes them of the files of page/."""
from __future__ import annotations

import hashlib
import html.parser
import re

from tests.support import pages
from tests.support.cases import CountedTestCase, DeskTestCase, FolderTestCase
from tests.support.http import Server, answered
from tests.support.program import TOP, File
from tests.support.tools import Repository, ToolEnded

# What makes markup or code of a text, or reaches for another place.
BARRED = (
    "innerHTML", "outerHTML", "insertAdjacentHTML", "document.write", "DOMParser", "createContextualFragment", "srcdoc", "setHTML",
    "eval(", "new Function", "import(", "importScripts", "javascript:",
    "XMLHttpRequest", "WebSocket", "EventSource", "sendBeacon", "window.open", "postMessage",
)

# The one address that isn't one: the name by which a browser knows the elements of a picture.
NAMESPACE = "http://www.w3.org/2000/svg"

# Fields of the answer with the page, of which the other resources have one; and one that each of them has.
POLICY = (
    "default-src 'none'; script-src 'self'; style-src 'self'; connect-src 'self'; img-src data:; base-uri 'none'; form-action 'none'; "
    "frame-ancestors 'none'"
)
GUARDS = {"x-frame-options": "DENY", "x-content-type-options": "nosniff", "content-security-policy": POLICY, "cache-control": "no-cache"}
SHARED = {name: GUARDS[name] for name in ("x-content-type-options", "cache-control")}

# The scripts, in the order in which the page names them, and the sources of crate desk_page that they are in.
SCRIPTS = ("/values.js", "/desk.js", "/forms.js", "/records.js", "/views.js")
SOURCES = ("values", "frame", "forms", "records", "views")

# The media type of each resource.
TYPES = {
    "/": "text/html; charset=utf-8", "/desk.css": "text/css", **{path: "text/javascript" for path in SCRIPTS}, "/german.json": "application/json",
}


class Markup(html.parser.HTMLParser):
    """The elements of the page, each with its attributes."""

    def __init__(self, text: str) -> None:
        super().__init__()
        self.elements: list[tuple[str, dict[str, str | None]]] = []
        self.feed(text)

    def handle_starttag(self, tag: str, attrs: list[tuple[str, str | None]]) -> None:
        self.elements.append((tag, dict(attrs)))


def block(script: str, name: str) -> str:
    """Returns the text of an object that a constant of the script holds."""
    found = re.search(rf"^const {name} = {{\n(.*?)^}};", script, re.M | re.S)
    assert found, f"no constant {name}"
    return found.group(1)


def names_in(script: str, name: str) -> list[str]:
    """Returns the names of the members of an object, in their order."""
    return re.findall(r"^  (\w+): ", block(script, name), re.M)


def rows_of(document: str, heading: str) -> list[list[str]]:
    """Returns the rows of the first table below the heading of a document that begins so, each as its cells."""
    text = (TOP / "docs" / document).read_text().split(f"\n{heading}", 1)[1]
    table = re.search(r"\n(\|.*?)\n\n", text + "\n\n", re.S)
    assert table, f"no table below {heading}"
    lines = table.group(1).splitlines()
    return [[cell.strip() for cell in line.strip("|").split("|")] for line in lines[2:]]


class Page(CountedTestCase):
    """What the page is made of."""

    # All its resources, those that are scripts, and the elements of the page itself.
    resources: dict[str, str]
    script: str
    markup: Markup

    @classmethod
    def setUpClass(cls) -> None:
        super().setUpClass()
        cls.resources = pages.resources()
        cls.script = "".join(cls.resources[it] for it in SCRIPTS)
        cls.markup = Markup(cls.resources["/"])

    def test_nothing_makes_markup_or_code_of_a_text(self) -> None:
        for path, text in self.resources.items():
            for word in BARRED:
                self.check_true(f"{word} in {path}", word not in text)

    def test_markup_has_no_code_and_no_style_of_its_own(self) -> None:
        for tag, attributes in self.markup.elements:
            wrong = [name for name in attributes if name.startswith("on") or name == "style"]
            self.check(f"{tag} {attributes}", wrong, [])
        scripts = [attributes for tag, attributes in self.markup.elements if tag == "script"]
        self.check("scripts", scripts, [{"defer": None, "src": it} for it in SCRIPTS])
        self.check("elements style", [it for it, _ in self.markup.elements].count("style"), 0)
        self.check("styles that the script sets by attributes", re.findall(r"setAttribute\(\"style|[{ ]style: [\"`]", self.script), [])

    def test_page_names_no_address_outside(self) -> None:
        self.check("addresses", set(re.findall(r"[a-z]+://[^\s\"'`)]*", "".join(self.resources.values()))), {NAMESPACE})
        for tag, attributes in self.markup.elements:
            for name in ("src", "href", "action", "data", "poster"):
                if name in attributes:
                    place = attributes[name] or ""
                    self.check_true(f"{tag} {name}={place}", place in self.resources or re.match(r"#|data:,$", place))
        self.check("paths that are asked", {it.split("/")[1] for it in re.findall(r"[\"`](/[a-z0-9]+/)", self.script)}, {"v1"})

    def test_each_element_that_the_script_looks_up_is_there(self) -> None:
        ids = {attributes["id"] for _, attributes in self.markup.elements if "id" in attributes}
        self.check("ids", set(re.findall(r"\bat\(\"(\w+)\"\)", self.script)) - ids, set())

    def test_refusals_are_those_of_the_formats(self) -> None:
        cells = [cell for row in rows_of("FORMATS.md", "## Refusals") for cell in row if cell]
        names = [name for number, name in sorted((int(number), name) for number, name in zip(cells[::2], cells[1::2]))]
        self.check("how many", len(names), 34)
        self.check("names", sorted(names_in(self.script, "REFUSALS")), sorted(names))

    def test_faults_of_order_files_are_those_of_the_formats(self) -> None:
        kinds = [kind for row in rows_of("FORMATS.md", "## Order files") for kind in row[0].split(", ")]
        self.check("kinds", names_in(self.script, "FILE_FAULTS"), kinds)

    def test_state_table_is_that_of_the_model(self) -> None:
        table = {}
        for state, moves in rows_of("MODEL.md", "## Recipes and batches"):
            table[state] = dict(it.split(": ") for it in moves.split("; "))
        rows = re.findall(r"^  (\w+): {(.*)},$", block(self.script, "STATES"), re.M)
        found = {state: dict(re.findall(r"(\w+): \"(\w+)\"", moves)) for state, moves in rows}
        self.check("the state table", found, table)

    def test_states_in_which_a_batch_is_closed_have_no_other_end(self) -> None:
        may_close = re.search(r"^const MAY_CLOSE = \[(.*)\];$", self.script, re.M)
        assert may_close, "no constant MAY_CLOSE"
        self.check("states", re.findall(r"\"(\w+)\"", may_close.group(1)), ["complete", "stopped", "aborted"])

    def test_sources_are_what_the_files_give(self) -> None:
        for file, text in pages.page_tool.sources().items():
            self.check(file.name, file.read_text(), text)


class Served(DeskTestCase):
    """How the resources of the page are served."""

    IN_MEMORY = True

    def request(self, port: int, method: str, path: str = "/", *fields: str) -> tuple[int, dict[str, str], bytes]:
        """Returns the status, the fields and the body of an answer."""
        lines = [f"{method} {path} HTTP/1.1", f"Host: 127.0.0.1:{port}", *fields]
        text = answered(port, "".join(f"{it}\r\n" for it in [*lines, ""]).encode())
        head, _, body = text.partition(b"\r\n\r\n")
        first, *rest = head.decode().split("\r\n")
        return int(first.split()[1]), {name.lower(): value for name, value in (line.split(": ", 1) for line in rest)}, body

    def test_served_bytes_are_the_resources(self) -> None:
        with Server(self.desk, "plant.db", 100, "--page") as server:
            for path, text in pages.resources().items():
                status, fields, body = self.request(server.port, "GET", path)
                self.check(f"{path}: the status", status, 200)
                self.check(f"{path}: the bytes", body, text.encode())
                self.check(f"{path}: the type", fields["content-type"], TYPES[path])
                guards = GUARDS if path == "/" else SHARED
                self.check(f"{path}: the guards", {name: it for name, it in fields.items() if name in GUARDS}, guards)
                self.check(f"{path}: the tag", fields["etag"], f'"{hashlib.sha256(text.encode()).hexdigest()[:32]}"')
                head = self.request(server.port, "HEAD", path)
                self.check(f"{path}: a HEAD", (head[0], head[1] | {"date": ""}, head[2]), (200, fields | {"date": ""}, b""))
            status, fields, _ = self.request(server.port, "GET", "/v1/desk")
            self.check("fields of another answer", [it for it in (*GUARDS, "etag") if it in fields], [])

    def test_resource_that_the_browser_has_is_not_sent_again(self) -> None:
        with Server(self.desk, "plant.db", 100, "--page") as server:
            for path in TYPES:
                fields = self.request(server.port, "GET", path)[1]
                tag = fields["etag"]
                for method, named in [
                    ("GET", tag), ("HEAD", tag), ("GET", "*"), ("GET", f'"other", {tag}'), ("GET", f'W/{tag}, "other"'), ("GET", f'"a,b" ,{tag}'),
                ]:
                    status, again, body = self.request(server.port, method, path, f"if-none-match: {named}")
                    self.check(f"{method} {path} {named}", (status, again | {"date": ""}, body), (304, fields | {"date": ""}, b""))
                status, _, body = self.request(server.port, "GET", path, 'If-None-Match: "other"', f"If-None-Match: {tag}")
                self.check(f"{path}: the second of two fields", (status, body), (304, b""))

    def test_resource_that_has_changed_is_sent(self) -> None:
        with Server(self.desk, "plant.db", 100, "--page") as server:
            for path, text in pages.resources().items():
                tag = self.request(server.port, "GET", path)[1]["etag"]
                for named in ('"other"', tag[1:-1], tag[:-1], tag.upper() if tag.upper() != tag else "x", "", "**"):
                    status, _, body = self.request(server.port, "GET", path, f"If-None-Match: {named}")
                    self.check(f"{path} {named}", (status, body), (200, text.encode()))
                status, _, body = self.request(server.port, "GET", path, f"If-Match: {tag}")
                self.check(f"{path}: another field", (status, body), (200, text.encode()))

    def test_resource_is_read_alone(self) -> None:
        with Server(self.desk, "plant.db", 100, "--page") as server:
            for path in TYPES:
                status, fields, body = self.request(server.port, "POST", path, "Content-Length: 0")
                self.check(path, (status, fields["allow"], body), (405, "GET, HEAD", b'{"status":405}'))
            for path in ("/desk.css/", "/DESK.css", "/desk.js?", "//", "/start.js", "/index.html"):
                self.check(path, self.request(server.port, "GET", path)[0], 404)

    def test_page_is_served_where_it_is_asked_for_alone(self) -> None:
        with Server(self.desk, "plant.db", 100) as server:
            for path in TYPES:
                self.check(path, self.request(server.port, "GET", path)[0], 404)


INDEX = '<!doctype html>\n<link rel="stylesheet" href="/desk.css">\n<p>a\n<script type="module" src="start.js"></script>\n'
STYLE = "p { margin: 0 }\n"
ONE = "// One.\n\nexport const one = 1;\nlet inner = 2;\n"
TWO = '// Two.\n\nimport { one } from "./amounts.js";\n\nexport function two() { return one + 1; }\n'
START = '// It begins.\n\nimport { two } from "./moments.js";\n\ntwo();\n'
EMPTY = '"use strict";'
VALUES = '"use strict";\nconst one = 1;\nlet inner = 2;\n'
FRAME = '"use strict";\nfunction two() { return one + 1; }\n'
VIEWS = '"use strict";\ntwo();\n'
PAGE = INDEX.replace('<script type="module" src="start.js"></script>\n', "".join(f'<script defer src="{it}"></script>\n' for it in SCRIPTS))


class Tool(FolderTestCase):
    """`make/page.py`, which makes the resources of the page of the files of page/."""

    def setUp(self) -> None:
        super().setUp()
        files = {f"src/{it}.rt": "" for it in ("page", "style", *SOURCES)}
        self.repository = Repository(self.folder, {"desk_page:": files}, ["make/page.py"])
        tool = self.repository.read("make/page.py")
        few = 'SCRIPTS = {"values.js": ("amounts",), "desk.js": ("moments",), "forms.js": (), "records.js": (), "views.js": ("start",)}'
        self.repository.write("make/page.py", re.sub(r"^SCRIPTS = \{.*?^\}", few, tool, flags=re.M | re.S))
        self.write()

    def write(self, **files: str) -> None:
        """Writes the files of a small page, some of which are given."""
        given = {"index.html": INDEX, "desk.css": STYLE, "amounts.js": ONE, "moments.js": TWO, "start.js": START, **files}
        for name, text in given.items():
            self.repository.write(f"page/{name}", text)

    def run_tool(self, *words: File) -> ToolEnded:
        return self.repository.run("make/page.py", *words)

    def test_modules_are_joined_in_their_order(self) -> None:
        for path, text in {"/": PAGE, "/desk.css": STYLE, **dict(zip(SCRIPTS, (VALUES, FRAME, EMPTY, EMPTY, VIEWS)))}.items():
            self.check(path, self.run_tool("--print", path), (0, text, ""))
        self.check("another path", self.run_tool("--print", "/start.js"), (1, "", "no resource is at /start.js\n"))

    def test_sources_of_another_page_are_said_and_written(self) -> None:
        self.check("before", self.run_tool("--check"), (1, "", "page.rt isn't what page/ gives: make/page.py --write\n"))
        self.check("the writing", self.run_tool("--write"), (0, "", ""))
        self.check("after it", self.run_tool("--check"), (0, "", ""))
        for name, text in {"page": PAGE, "style": STYLE, **dict(zip(SOURCES, (VALUES, FRAME, EMPTY, EMPTY, VIEWS)))}.items():
            source = self.repository.read(f"crates/desk_page/src/{name}.rt")
            self.check_true(f"{name} in its source", f'br##"{text}"##;' in source)
            self.check_true(f"its tag", f'"\\"{hashlib.sha256(text.encode()).hexdigest()[:32]}\\""' in source)
        self.write(**{"desk.css": STYLE.replace("0", "1")})
        self.check("after a change", self.run_tool("--check"), (1, "", "style.rt isn't what page/ gives: make/page.py --write\n"))

    def test_page_that_can_not_be_served_is_refused(self) -> None:
        for files, why in [
            ({"desk.css": STYLE + "\u00e9"}, f"byte {len(STYLE)} of page/desk.css isn't ASCII"),
            ({"index.html": INDEX + '"##'}, 'page/index.html has "## in it, which ends the literal'),
            ({"index.html": INDEX.replace("\n", "\r\n")}, "page/index.html has a CR in it"),
            ({"index.html": INDEX + INDEX}, 'page/index.html has <script type="module" src="start.js"></script> 2 times'),
            ({"desk.css": STYLE + " " * 60_000}, f"/desk.css has {len(STYLE) + 60_000} bytes, and may have 60000"),
            ({"moments.js": TWO + "\n" * 400}, f"page/moments.js has {TWO.count(chr(10)) + 400} lines, and may have 400"),
        ]:
            self.write(**files)
            self.check(why, self.run_tool("--write"), (1, "", why + "\n"))
        self.check("the source", self.repository.read("crates/desk_page/src/page.rt"), "")

    def test_modules_that_can_not_be_joined_are_refused(self) -> None:
        for files, why in [
            ({"moments.js": TWO.replace("amounts", "start")}, "page/moments.js imports from start, which isn't before it"),
            ({"amounts.js": ONE.replace("export ", "")}, "page/moments.js imports one, which amounts doesn't export"),
            ({"moments.js": TWO.replace("{ one }", "* as one")}, 'page/moments.js has an import of another form: import * as one from "./amounts.js";'),
            ({"moments.js": TWO + "const inner = 3;\n"}, "page/moments.js and page/amounts.js both declare inner"),
            ({"more.js": ""}, "page/more.js is not among the SCRIPTS of make/page.py"),
        ]:
            self.write(**files)
            self.check(why, self.run_tool("--print", "/views.js"), (1, "", why + "\n"))
