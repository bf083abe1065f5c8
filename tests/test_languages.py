"""The languages of the page: that each text of its modules is in the table of each language, and that what is shown is said by it; how tables are made
into resources."""
from __future__ import annotations

import json
import re

from tests.support import texts
from tests.support.cases import CountedTestCase, FolderTestCase
from tests.support.tools import Repository, ToolEnded

# What is no text, though it is like one: names of keys, of fields of a head, of rows and of files; and titles that are said where a field is made.
NO_TEXTS = {
    "Shift", "Date", "at most 60 letters of plain ASCII", "a whole number from 1", "recall {0}", "lot {0}", "batch {0}", "after the phases", "no place",
    "by material",
}

# A text with a name for each place where something is put in.
PLACES = re.compile(r"\{\d\}")


class Tables(CountedTestCase):
    """The texts of the modules, held against the tables."""

    def test_each_text_is_in_each_language(self) -> None:
        english = texts.english()
        self.check_true("there are many", len(english) > 700)
        self.check("languages", sorted(texts.others()), ["german"])
        for language, table in texts.others().items():
            for text, homes in english.items():
                self.check_true(f"{text!r} of {homes} in {language}", table.get(text, "").strip())
            self.check(f"what {language} has and no module says", sorted(set(table) - set(english)), [])

    def test_what_is_put_in_is_put_in_each_language(self) -> None:
        for language, table in texts.others().items():
            for text, other in table.items():
                self.check(f"{text!r} in {language}", sorted(set(PLACES.findall(other))), sorted(set(PLACES.findall(text))))
                self.check(f"{text!r} in {language}: the space at its ends", (other[:1] == " ", other[-1:] == " "), (text[:1] == " ", text[-1:] == " "))

    def test_what_is_shown_is_said(self) -> None:
        known = set(texts.english())
        for name, script in texts.modules().items():
            self.check(name, [it for it in texts.unsaid_in(script, known) if it not in NO_TEXTS], [])

    def test_text_that_is_shown_unsaid_is_found(self) -> None:
        for script, found in [
            ('h("p", {}, "Two lots");', ["Two lots"]), ('cell("late");', ["late"]), ("card(`Lot ${id}`, null);", ["Lot {0}"]),
            ('h("p", { title: "An id" });', ["An id"]), ("it.textContent = isLate ? \"late\" : t`today`;", ["late"]), ('const x = "All lots";', ["All lots"]),
            ("card(t`Lot ${id}`, null); cell(`${a} ${b}`); h(\"p\", { class: \"soft\" }, t`late`, n === \"late\");", []),
        ]:
            self.check(script, texts.unsaid_in(script, {"All lots"}), found)

    def test_nothing_is_said_before_the_texts_are_there(self) -> None:
        for name, script in texts.modules().items():
            self.check(name, texts.said_too_early(script), [])
        self.check("a constant", texts.said_too_early("const A = [t`Lot`];\nconst b = () => t`Lots`;\nfunction c() { return t`Part`; }\n"), ["Lot"])

    def test_what_goes_into_notes_is_in_plain_letters(self) -> None:
        for language, table in texts.others().items():
            self.check_true(language, table["supplier's code {0}"].isascii())


LANGUAGE = '// Texts.\nexport default {\n  // Things.\n  "Lot": "Los",\n  "Lot {0}, over {1}": "Los {0} \u00fcber {1}",\n};\n'


class Tool(FolderTestCase):
    """`make/page.py`, which makes a resource of the texts of a language."""

    def setUp(self) -> None:
        super().setUp()
        files = {f"src/{it}.rt": "" for it in ("page", "style", "values", "frame", "forms", "records", "views", "german")}
        self.repository = Repository(self.folder, {"desk_page:": files}, ["make/page.py"])
        tool = self.repository.read("make/page.py")
        few = 'SCRIPTS = {"values.js": ("start",), "desk.js": (), "forms.js": (), "records.js": (), "views.js": ()}'
        self.repository.write("make/page.py", re.sub(r"^SCRIPTS = \{.*?^\}", few, tool, flags=re.M | re.S))
        for name, text in {"index.html": '<script type="module" src="start.js"></script>\n', "desk.css": "", "start.js": "// It begins.\n"}.items():
            self.repository.write(f"page/{name}", text)

    def print(self, **modules: str) -> ToolEnded:
        """Prints the texts of German modules."""
        for name, text in modules.items():
            self.repository.write(f"page/texts/german/{name}.js", text)
        return self.repository.run("make/page.py", "--print", "/german.json")

    def test_modules_of_a_language_are_one_resource_in_ascii(self) -> None:
        self.check("one", self.print(a=LANGUAGE), (0, '{\n"Lot":"Los","Lot {0}, over {1}":"Los {0} \\u00fcber {1}"\n}\n', ""))
        ended = self.print(b='export default {\n  "Batch":\n    "Charge"\n};\n')
        self.check("two", ended, (0, '{\n"Lot":"Los","Lot {0}, over {1}":"Los {0} \\u00fcber {1}","Batch":"Charge"\n}\n', ""))
        self.check("the writing", self.repository.run("make/page.py", "--write"), (0, "", ""))
        source = self.repository.read("crates/desk_page/src/german.rt")
        self.check_true("the source", source.isascii() and "pub const GERMAN: &[u8]" in source and json.dumps("\u00fcber")[1:-1] in source)

    def test_texts_of_another_form_are_refused(self) -> None:
        for name, text, why in [
            ("a", 'export const A = {\n  "Lot": "Los",\n};\n', "page/texts/german/a.js isn't an object of texts"),
            ("a", 'export default {\n  "Lot": 1,\n};\n', "page/texts/german/a.js isn't an object of texts"),
            ("a", 'export default {\n  "Lot": "Los"\n  "Part": "Teil"\n};\n', "page/texts/german/a.js isn't an object of texts"),
            ("a", 'export default {\n  "Lot": "\\"##",\n};\n', "page/texts/german/a.js isn't an object of texts"),
            ("a", 'export default {\n  "Lot": "Los",\n  "Lot": "Los",\n};\n', "page/texts/german has 'Lot' twice"),
            ("a", LANGUAGE + "\n" * 400, f"page/texts/german/a.js has {LANGUAGE.count(chr(10)) + 400} lines, and may have 400"),
        ]:
            self.check(why, self.print(**{name: text}), (1, "", why + "\n"))
        self.check("two modules", self.print(a=LANGUAGE, b=LANGUAGE), (1, "", "page/texts/german has 'Lot' twice\n"))
