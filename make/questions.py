#!/usr/bin/env python3
"""The desk's questions, described once; writes the files that repeat the description.

    make/questions.py          writes each file anew
    make/questions.py --check  ends with status 1 where a file isn't what the description gives, or where a document lacks a question

What a question means and how it is answered is written by hand. make/question_files.py has the files.
"""
from __future__ import annotations

import dataclasses
import json
import pathlib
import re
import sys
import typing

import question_files
import regions
from regions import camel

TOP = pathlib.Path(__file__).resolve().parent.parent


@dataclasses.dataclass(frozen=True)
class Member:
    """A member of a question, which is also a parameter of its path: its name in a path, its variant among the members of messages, and the variant
    of its value."""

    name: str
    variant: str
    value: str


ID_MEMBERS = {"lot": "Lot", "order": "Order", "batch": "Batch", "recall": "Recall", "def": "Definition", "recipe": "Recipe", "class": "Class", "id": "Beginning"}
MEMBERS = {
    **{name: Member(name, variant, "Id") for name, variant in ID_MEMBERS.items()},
    "version": Member("version", "Version", "Number"),
    "order_state": Member("state", "State", "OrderState"),
    "recipe_state": Member("state", "RecipeState", "RecipeState"),
}

# The members that a page goes on from, by what the list is ordered by.
CURSORS = {
    "id": Member("above", "Above", "Id"),
    "number": Member("above", "AfterNumber", "Amount"),
    "recipe": Member("above", "AfterRecipe", "RecipeCursor"),
    "due": Member("above", "AfterDue", "DueCursor"),
    "hold": Member("above", "AfterHold", "HoldCursor"),
    "movement": Member("above", "AfterMovement", "MovementCursor"),
    "birth": Member("above", "AfterBirth", "BirthCursor"),
}


@dataclasses.dataclass
class Topic:
    """A question about one thing, or about the desk itself."""

    word: str
    meaning: str
    members: str
    path: str

    @property
    def variant(self) -> str:
        """Its name among the topics and among the questions."""
        return camel(self.word)

    @property
    def values(self) -> list[Member]:
        """Its members besides its word."""
        return [MEMBERS[it] for it in self.members.split()]


@dataclasses.dataclass
class Around:
    """A question about what lies around a lot or a batch, and the question that it is, of a node."""

    word: str
    meaning: str
    question: str

    @property
    def variant(self) -> str:
        """Its name among what is asked around a lot or batch."""
        return camel(self.word)


@dataclasses.dataclass
class Listed:
    """A list: what it is of, and what it is ordered by."""

    word: str
    meaning: str
    of: str = ""
    by: str = "id"

    @property
    def variant(self) -> str:
        """Its name among the kinds of lists and among the questions for pages."""
        return camel(self.word)

    @property
    def values(self) -> list[Member]:
        """Its members besides its word, the cursor last."""
        return [MEMBERS[it] for it in self.of.split()] + [CURSORS[self.by]]

    @property
    def path(self) -> str:
        """Its path without a cursor."""
        return f"/v1/lists/{self.word}" + "".join(f"/{{{MEMBERS[it].name}}}" for it in self.of.split())


# In the order of the formats.
QUESTIONS: list[typing.Union[Topic, Around, Listed]] = [
    Topic("desk", "How many commands the desk accepted.", "", "/v1/desk"),
    Topic("lot", "What is known of a lot.", "lot", "/v1/lots/{lot}"),
    Topic("order", "What is known of an order.", "order", "/v1/orders/{order}"),
    Topic("batch", "What is known of a batch.", "batch", "/v1/batches/{batch}"),
    Topic("recall", "What is known of a recall.", "recall", "/v1/recalls/{recall}"),
    Topic("needs", "What an order needs, and what there is of it.", "order", "/v1/orders/{order}/needs"),
    Around("back", "What it was made from.", "Trace(Direction::Back, node)"),
    Around("forward", "What was made from it.", "Trace(Direction::Forward, node)"),
    Around("stands", "Where its goods are.", "Stands(node)"),
    Around("balance", "What entered its lots, what left them, and what is there.", "Balance(node)"),
    Around("back_edges", "The genealogy back from it.", "Edges(Direction::Back, node)"),
    Around("forward_edges", "The genealogy forward from it.", "Edges(Direction::Forward, node)"),
    Topic("moment", "When the last accepted command was given.", "", "/v1/moment"),
    Topic("definition", "What is known of a definition.", "def", "/v1/definitions/{def}"),
    Topic("recipe", "A version of a recipe, with its lines.", "recipe version", "/v1/recipes/{recipe}/{version}"),
    Topic("batch_lines", "The control recipe of a batch, and what was booked of each line.", "batch", "/v1/batches/{batch}/lines"),
    Listed("orders", "The orders in a state.", of="order_state"),
    Listed("orders_by_due", "The orders in a state by their due dates.", of="order_state", by="due"),
    Listed("batches", "The batches that aren't closed."),
    Listed("closed_batches", "The batches that are closed."),
    Listed("lots", "The lots of a definition.", of="def"),
    Listed("holds", "The holds of a lot.", of="lot"),
    Listed("all_holds", "The holds of all lots.", by="hold"),
    Listed("recalls", "The recalls that weren't lifted."),
    Listed("lifted_recalls", "The recalls that were lifted."),
    Listed("classes", "The classes."),
    Listed("definitions", "The definitions of a class.", of="class"),
    Listed("recipes", "The versions of recipes in a state.", of="recipe_state", by="recipe"),
    Listed("movements", "The ledger of a lot.", of="lot", by="movement"),
    Listed("commands", "The commands that had references.", by="number"),
    Listed("history", "The commands that had references and name an id.", of="id", by="number"),
    Listed("stock", "The lots of a definition that have stock, the oldest first.", of="def", by="birth"),
    Listed("stocks", "What there is of the definitions of a class.", of="class"),
    Topic("find", "The ids that begin with one.", "id", "/v1/find/{id}"),
]


def lacking() -> list[str]:
    """What documents and the description don't have alike: the words of questions, and the paths."""
    words = {"check", *(it.word for it in QUESTIONS)}
    paths = {path for path, _ in question_files.routes(described())}
    formats = (TOP / "docs/FORMATS.md").read_text(encoding="utf-8")
    schemas = {it[4:] for it in json.loads((TOP / "docs/schema.json").read_text(encoding="utf-8"))["$defs"] if it.startswith("ask_")}
    described_paths = json.loads((TOP / "docs/openapi.json").read_text(encoding="utf-8"))["paths"]
    # Who asks, and how the server fares, is no question to the desk: these paths have no route.
    served = {it for it in described_paths if it.startswith("/v1/")} - {"/v1/operator", "/v1/health"}
    in_formats = {re.sub(r"\{(\w+)\}", lambda it: it[1].upper(), path) for path in paths if "{above}" not in path}
    return [
        *(f"docs/schema.json and the description differ in the question {it}" for it in sorted(schemas ^ words)),
        *(f"docs/openapi.json and the description differ in the path {it}" for it in sorted(served ^ paths)),
        *(f"docs/FORMATS.md lacks the question {it}" for it in sorted(words) if f'"ask":"{it}"' not in formats and f"`{it}`" not in formats),
        *(f"docs/FORMATS.md lacks the path {it}" for it in sorted(in_formats) if f"`{it}`" not in formats),
    ]


def described() -> question_files.Described:
    """The questions by their forms."""
    return question_files.Described(
        [it for it in QUESTIONS if isinstance(it, Topic)],
        [it for it in QUESTIONS if isinstance(it, Around)],
        [it for it in QUESTIONS if isinstance(it, Listed)],
        [(it.word, type(it).__name__, it.variant) for it in QUESTIONS],
    )


def main() -> int:
    status = regions.run("make/questions.py", __doc__ or "", "questions", question_files.files(described()))
    if status == 2:
        return status
    for it in lacking():
        print(it, file=sys.stderr)
        status = 1
    return status


if __name__ == "__main__":
    sys.exit(main())
