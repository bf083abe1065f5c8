"""The texts of the page: those that its modules say in the language of who reads it, those that stand in a place that is seen and aren't said so, and
those of each other language."""
from __future__ import annotations

import html.parser
import re
from collections.abc import Iterator

from tests.support.pages import page_tool
from tests.support.program import TOP
from tests.support.scripts import Call, Token, calls, read, split, whole

PAGE = TOP / "page"

# The constants of the modules whose texts are said where they are used.
TABLES = (
    "REFUSALS", "FILE_FAULTS", "STATES", "MOVES", "SAID", "ID_RULE", "LINES_HINT", "FILE_HINT", "LISTS_OF", "TITLES", "PART_HEADS", "SORT_HEADS",
    "OPEN_HEADS", "CLOSED_HEADS", "LOT_HEADS", "PLACE_HEADS", "STAND_HEADS", "heads", "ORDER_STATES", "WAYS", "WHICH", "WHICH_RECALLS", "FORMS_OF_RECORD",
    "PICTURES", "GOODS_BY", "AHEAD", "SIGNED", "GRAVE", "KEYS", "SCANS", "BOOKINGS", "WORDS",
    "LINE_KINDS", "ADDED", "FIELD_NAMES",
)

# Those whose texts are words of the desk, each with what is behind it in a table; and those that name the columns of files.
MARKED = {"COMMANDS": "^command", "EVENTS": "^event"}
COLUMNS = ("COLUMNS", "MATERIAL", "WHEN", "AMOUNT")

# The calls whose texts are said by what is called, and where they stand among the arguments.
SAYING = {"table": (0, 0), "valuesOf": (1, 1), "counted": (1, 2), "many": (1, 2)}

# The calls that show what they are given: all from an argument on, and some.
SHOWING_ALL = {
    "h": 2, "svg": 2, "append": 0, "replaceChildren": 0, "tellStatus": 1, "cell": 0, "idCell": 0, "fact": 0, "facts": 0, "none": 0, "step": 1, "known": 0,
}
SHOWING = {
    "notice": (1,), "miss": (0,), "pill": (0,), "card": (0,), "button": (0,), "link": (1,), "choice": (0,), "filterChoice": (0,), "option": (1,),
    "big": (0,), "table": (2,), "say": (0,), "textField": (1,), "idField": (1,), "newLotField": (1,), "selectField": (1,), "halfField": (2,),
    "noteField": (0,), "placeField": (0,), "form": (0, 2), "bookingForm": (0, 2), "openPaper": (0, 2), "tell": (0,), "book": (0,), "act": (0,),
    "refuse": (0,), "bookAtOnce": (0, 2), "balanceButton": (2,), "historyButton": (1,), "signatures": (0,), "barPlot": (0,), "stepPlot": (0,), "valuesOf": (0,), "restOf": (2,),
    "barred": (1,), "amount": (0,),
}

# The members of objects that are shown.
SHOWN = ("title", "placeholder", "aria-label", "label", "hint", "marks", "barred", "textContent")

def modules() -> dict[str, str]:
    """Returns the text of each module of the page that has code, in their order."""
    return {name: (PAGE / f"{name}.js").read_text() for all_names in page_tool.SCRIPTS.values() for name in all_names}


def is_bracket(token: Token, *signs: str) -> bool:
    """Returns whether a token is one of these signs."""
    return token.kind == "sign" and token.text in signs


def texts_among(tokens: list[Token]) -> Iterator[str]:
    """Gives the texts among these tokens, those that + joins as one."""
    joined: str | None = None
    for k, it in enumerate(tokens):
        is_joined = k > 1 and tokens[k - 1].text == "+" and tokens[k - 2].kind == "text"
        if it.kind == "text":
            if joined is not None and not is_joined:
                yield joined
            joined = (joined or "") + it.text if is_joined else it.text
    if joined is not None:
        yield joined


def constant(tokens: list[Token], at: int) -> list[Token]:
    """Returns what a name is made to be, behind the sign = at a place."""
    if is_bracket(tokens[at + 1], "[", "{"):
        parts, end = split(tokens, at + 1)
        return tokens[at + 2:end]
    end = next((k for k in range(at, len(tokens)) if is_bracket(tokens[k], ";", ",")), len(tokens))
    return tokens[at + 1:end]


def said_in_constants(tokens: list[Token]) -> Iterator[str]:
    """Gives the texts of the constants that are said where they are used, and the titles of kinds of fields."""
    for k, it in enumerate(tokens[:-2]):
        if it.kind == "name" and tokens[k + 1].text == "=":
            texts = list(texts_among(constant(tokens, k + 1))) if it.text in (*TABLES, *MARKED, *COLUMNS) else []
            for text in texts:
                yield text + MARKED.get(it.text, "") if it.text not in COLUMNS else text[0].upper() + text[1:]
        if it.text == "title" and tokens[k + 1].text == ":" and tokens[k + 2].kind == "text":
            yield tokens[k + 2].text


def said_in(script: str, are_templates_meant: bool = True) -> set[str]:
    """Returns the English texts that a module says, those that its templates say being meant or not."""
    tokens, found = read(script), set[str]()
    for some in whole(tokens):
        found |= {template.text for name, template in zip(some, some[1:]) if are_templates_meant and is_said(name, template)}
        found |= set(said_in_constants(some))
    for call in calls(tokens):
        if call.name == "t" and call.arguments and all(it.kind == "text" or it.text == "+" for it in call.arguments[0]):
            found |= set(texts_among(call.arguments[0]))
        first, last = SAYING.get(call.name, (0, -1))
        for argument in call.arguments[first:last + 1]:
            found |= set(texts_among(argument))
    return {it.lstrip("#") for it in found if re.search(r"[A-Za-z]{2}|\{\d\}|\^", it)}


def is_said(name: Token, template: Token) -> bool:
    """Returns whether these are a template that is said: t`..`."""
    return name.kind == "name" and name.text == "t" and template.kind == "template" and name.end == template.start


class Markup(html.parser.HTMLParser):
    """The texts of the page's markup, but for what is told where there is no script."""

    def __init__(self, text: str) -> None:
        super().__init__()
        self.within: list[str] = []
        self.texts: set[str] = set()
        self.feed(text)

    def handle_starttag(self, tag: str, attrs: list[tuple[str, str | None]]) -> None:
        self.texts |= {it for name, it in attrs if name in ("aria-label", "placeholder", "title") and it}
        if tag not in ("meta", "link", "input"):
            self.within.append(tag)

    def handle_endtag(self, tag: str) -> None:
        while self.within and self.within.pop() != tag:
            pass

    def handle_data(self, data: str) -> None:
        if data.strip() and not {"noscript", "title"} & set(self.within):
            self.texts.add(data.strip())


def english() -> dict[str, list[str]]:
    """Returns each English text of the page, with the files that have it."""
    found: dict[str, list[str]] = {}
    for name, script in modules().items():
        for text in said_in(script):
            found.setdefault(text, []).append(name)
    for text in Markup((PAGE / "index.html").read_text()).texts:
        if re.search(r"[A-Za-z]{2}", text):
            found.setdefault(text, []).append("index.html")
    return found


def has_words(text: str) -> bool:
    """Returns whether a text has letters that are read, besides what is put into it."""
    return re.search(r"[A-Za-z]{2}|^[A-Za-z]$", re.sub(r"\{\d\}", "", text)) is not None


def unsaid_among(tokens: list[Token]) -> Iterator[str]:
    """Gives what of a value that is shown is a text and isn't said: not what it is compared with, and nothing within a call, which shows it by itself."""
    k = 0
    while k < len(tokens):
        it, before = tokens[k], tokens[k - 1] if k else None
        after = tokens[k + 1] if k + 1 < len(tokens) else None
        if it.kind == "name" and after and after.start == it.end and (after.kind == "template" or is_bracket(after, "(", "[")):
            k = k + 2 if after.kind == "template" else split(tokens, k + 1)[1] + 1
            continue
        is_compared = any(one is not None and one.text in ("===", "!==", "==", "!=") for one in (before, after))
        if it.kind in ("text", "template") and not is_compared:
            if has_words(it.text):
                yield it.text
            for part in it.inner:
                yield from unsaid_among(part)
        k += 1


def until(tokens: list[Token], at: int, *signs: str) -> list[Token]:
    """Returns the tokens from a place up to the first of these signs that isn't within brackets, or to the end of the brackets that the place is in."""
    k, deep = at, 0
    while k < len(tokens) and not (deep == 0 and is_bracket(tokens[k], *signs, ")", "]", "}")):
        deep += is_bracket(tokens[k], "(", "[", "{") - is_bracket(tokens[k], ")", "]", "}")
        k += 1
    return tokens[at:k]


def shown_by(call: Call) -> Iterator[list[Token]]:
    """Gives the arguments of a call that are shown."""
    first = SHOWING_ALL.get(call.name, len(call.arguments))
    for k, it in enumerate(call.arguments):
        if (k >= first or k in SHOWING.get(call.name, ())) and not is_function(it):
            yield it


def unsaid_in(script: str, known: set[str]) -> list[str]:
    """Returns the texts of a module that aren't said where they are shown, and those of more than a word that are known to be said elsewhere."""
    tokens, found = read(script), list[str]()
    for call in calls(tokens):
        for argument in shown_by(call):
            found += unsaid_among(argument)
    for some in whole(tokens):
        for k, it in enumerate(some[:-1]):
            if it.text in SHOWN and (is_bracket(some[k + 1], ":") or some[k + 1].text == "="):
                found += unsaid_among(until(some, k + 2, ",", ";"))
    elsewhere = {it for it in known if re.search(r"[A-Z \u202f]", it)} - set(said_in(script, False))
    for some in whole(tokens):
        for k, it in enumerate(some):
            if it.kind in ("text", "template") and it.text in elsewhere and not (k and (is_said(some[k - 1], it) or is_call_of_t(some, k))):
                found.append(it.text)
    return found


def is_call_of_t(tokens: list[Token], at: int) -> bool:
    """Returns whether a text is said by a call, as t("..")."""
    return at > 1 and tokens[at - 1].text == "(" and tokens[at - 2].text == "t"


def is_function(argument: list[Token]) -> bool:
    """Returns whether an argument is a function."""
    return any(it.text == "=>" for it in argument)


def said_too_early(script: str) -> list[str]:
    """Returns what a module says as it is loaded, before the texts of the language are there: outside of all functions."""
    tokens, found, at = read(script), list[str](), 0
    while at < len(tokens):
        statement = until(tokens, at, ";") or tokens[at:at + 1]
        is_code = any(it.text in ("=>", "function", "class") for it in statement)
        if not is_code:
            for some in whole(statement):
                found += [template.text for name, template in zip(some, some[1:]) if is_said(name, template) or (name.text == "t" and template.text == "(")]
        at += len(statement) + 1
    return found


def others() -> dict[str, dict[str, str]]:
    """Returns the texts of each other language by the English ones."""
    return {it.name: page_tool.texts_of(it.name) for it in page_tool.LANGUAGES}
