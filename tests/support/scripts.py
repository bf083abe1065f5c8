"""The modules of the page, read word by word: texts, templates with what is put into them, names and signs, and the calls that they stand in."""
from __future__ import annotations

import re
import typing
from collections.abc import Iterator

# The forms of what a module is made of. A regular expression stands where no value can end before it.
SPACE = re.compile(r"(?:\s|//[^\n]*|/\*.*?\*/)+", re.S)
TEXT = re.compile(r'"(?:[^"\\\n]|\\.)*"')
NAME = re.compile(r"[A-Za-z_$][\w$]*")
NUMBER = re.compile(r"\d[\w.]*")
PATTERN = re.compile(r"/(?:[^/\\\[\n]|\\.|\[(?:[^\]\\\n]|\\.)*\])+/[a-z]*")
SIGN = re.compile(r"=>|\.\.\.|\?\.|[-+*/%&|=!<>?^~]+|[{}()\[\];,.:@#]")
PIECE = re.compile(r"(?:[^`\\$]|\\.|\$(?!\{))*", re.S)

# The words after which a value begins.
BEFORE_A_VALUE = ("return", "typeof", "case", "in", "of", "void", "await", "delete", "throw", "new")


class Token(typing.NamedTuple):
    """A word or a sign of a module. `text` is what a text says, or a template with {0}, {1} where something is put in, each of which is in `inner`."""

    kind: str
    text: str
    start: int
    end: int
    inner: list[list[Token]] = []


class Call(typing.NamedTuple):
    """A call: what is called, and its arguments."""

    name: str
    arguments: list[list[Token]]
    start: int


def said(literal: str) -> str:
    """Returns what is between the marks of a text or a template."""
    def letter(found: re.Match[str]) -> str:
        return chr(int(found[2], 16)) if found[2] else {"n": "\n", "t": "\t", "r": "\r"}.get(found[1], found[1])
    return re.sub(r"\\(u([0-9a-f]{4})|.)", letter, literal, flags=re.S)


class Reader:
    """Reads a module."""

    def __init__(self, script: str) -> None:
        self.script, self.at = script, 0

    def tokens(self, end: str | None = None) -> list[Token]:
        """Reads up to the sign that ends it."""
        all_read: list[Token] = []
        deep = 0
        while True:
            space = SPACE.match(self.script, self.at)
            self.at = space.end() if space else self.at
            if self.at == len(self.script):
                return all_read
            if end and deep == 0 and self.script[self.at] == end:
                self.at += 1
                return all_read
            one = self.token(all_read[-1] if all_read else None)
            deep += (one.text in ("{", "(", "[")) - (one.text in ("}", ")", "]")) if one.kind == "sign" else 0
            all_read.append(one)

    def token(self, before: Token | None) -> Token:
        """Reads one word or sign."""
        start = self.at
        if self.script[start] == "`":
            return self.template()
        ends_a_value = before is not None and (
            before.kind in ("text", "template", "number") or before.text in (")", "]", "}") or (before.kind == "name" and before.text not in BEFORE_A_VALUE)
        )
        forms = [("text", TEXT), ("name", NAME), ("number", NUMBER), *([] if ends_a_value else [("pattern", PATTERN)]), ("sign", SIGN)]
        for kind, form in forms:
            if it := form.match(self.script, start):
                self.at = it.end()
                return Token(kind, said(it.group()[1:-1]) if kind == "text" else it.group(), start, self.at)
        raise ValueError(f"{self.script[start:start + 40]!r} can't be read")

    def template(self) -> Token:
        """Reads a template."""
        start, text, inner = self.at, "", list[list[Token]]()
        self.at += 1
        while True:
            piece = PIECE.match(self.script, self.at)
            assert piece
            text += said(piece.group())
            self.at = piece.end()
            if self.script[self.at] == "`":
                self.at += 1
                return Token("template", text, start, self.at, inner)
            self.at += 2
            text += f"{{{len(inner)}}}"
            inner.append(self.tokens("}"))


def read(script: str) -> list[Token]:
    """Returns what a module is made of."""
    return Reader(script).tokens()


def whole(tokens: list[Token]) -> Iterator[list[Token]]:
    """Gives what is read, and then what is put into each of its templates."""
    yield tokens
    for it in tokens:
        for part in it.inner:
            yield from whole(part)


def split(tokens: list[Token], at: int) -> tuple[list[list[Token]], int]:
    """Returns what stands between the bracket at a place and the one that closes it, divided at its commas, and where it ends."""
    parts: list[list[Token]] = [[]]
    deep = 0
    for k in range(at, len(tokens)):
        it = tokens[k]
        is_sign = it.kind == "sign"
        if is_sign and it.text in ("}", ")", "]"):
            deep -= 1
            if deep == 0:
                return [part for part in parts if part], k
        if is_sign and it.text == "," and deep == 1:
            parts.append([])
        elif deep:
            parts[-1].append(it)
        if is_sign and it.text in ("{", "(", "["):
            deep += 1
    raise ValueError("a bracket isn't closed")


def calls(tokens: list[Token]) -> Iterator[Call]:
    """Gives each call of a function that is named, also those within others and within templates."""
    for some in whole(tokens):
        for k, it in enumerate(some[:-1]):
            is_declared = k > 0 and some[k - 1].text in ("function", "class", "async")
            if it.kind == "name" and some[k + 1].text == "(" and some[k + 1].kind == "sign" and not is_declared:
                yield Call(it.text, split(some, k + 1)[0], it.start)
