#!/usr/bin/env python3
"""Makes docs/schema.json, JSON Schemas of all that is sent to a desk and answered by it, and docs/openapi.json, the description of its HTTP.

    make/schemas.py LINE_CHECK          writes both files
    make/schemas.py LINE_CHECK --check  ends with status 1 where a file isn't what would be written

Commands, questions and the rules of values are what `line_check --schema` prints, which is made of the tables by which lines are read. Answers
and routes are described here; tests/test_schemas.py holds all answers of the sessions against them, and all paths against the program.
"""
from __future__ import annotations

import json
import pathlib
import re
import subprocess
import sys
from collections.abc import Iterable, Mapping, Sequence
from typing import Any

TOP = pathlib.Path(__file__).resolve().parent.parent
DOCS = TOP / "docs"

# The greatest number of a command, and the greatest sum of amounts.
MOST_COMMANDS, MOST = 10**15, 2**64 - 1

# The statuses of answers.
STATUSES = (200, 304, 400, 403, 404, 405, 409, 411, 412, 413, 431, 501, 503)

STATES_OF_BATCHES = ("idle", "running", "complete", "pausing", "paused", "holding", "held", "restarting", "stopping", "stopped", "aborting", "aborted")
MOVEMENTS = ("received", "consumed", "produced", "scrapped", "divided", "split", "merged")
CSV_FAULTS = ("TooLong", "Header", "Shape", "Order", "Recipe", "Version", "Size", "Due", "Priority", "TooManyRows", "Memory")


# A value of JSON; and an object of JSON, such as a schema.
Json = Any
Schema = dict[str, Json]


def ref(name: str) -> Schema:
    """What a definition says."""
    return {"$ref": f"#/$defs/{name}"}


def number(least: int, most: int = MOST) -> Schema:
    """A whole number from the least to the most."""
    return {"type": "integer", "minimum": least, "maximum": most}


def one_of(*schemas: Schema) -> Schema:
    return {"oneOf": list(schemas)}


def or_null(schema: Schema) -> Schema:
    return {"anyOf": [schema, {"type": "null"}]}


def words(*those: str | int) -> Schema:
    return {"enum": list(those)}


def exact(**members: Schema) -> Schema:
    """An object of exactly these members, whose names have no underline at their ends."""
    members = {name.strip("_"): it for name, it in members.items()}
    return {"type": "object", "properties": members, "required": sorted(members), "additionalProperties": False}


def rows(schema: Schema, most: int | None = None) -> Schema:
    """A list of any number of these, or of at most so many."""
    return {"type": "array", "items": schema, **({"maxItems": most} if most else {})}


def page(name: str, row: Schema, **more: Schema) -> Schema:
    """A page of a list of this name."""
    return exact(**{name: rows(row, 100)}, more={"type": "boolean"}, **more)


BOOL = {"type": "boolean"}
ID, TEXT, UNIT, DUE, AMOUNT, MOMENT = map(ref, ("id", "text", "unit", "due", "amount", "moment"))
COUNT, SEQ = number(0), number(1, MOST_COMMANDS)
DIGITS: Schema = {"type": "string", "pattern": "^[0-9]{1,20}$"}
SUB, VERSION, PRIORITY, PHASES, NEXT, ATTEMPT = number(0, 999), number(1, 999), number(1, 9), number(0, 128), number(1, 129), number(1, 99)

LOT, BATCH = exact(lot=ID), exact(batch=ID)
NODES = rows(one_of(LOT, BATCH))
SUBLOTS = rows(exact(no=SUB, place=TEXT, stock=COUNT))
CONSUMED = rows(exact(amount=AMOUNT, def_=ID, lot=ID, seq=SEQ, sub=SUB))
PRODUCED = rows(exact(amount=AMOUNT, def_=ID, lot=ID, seq=SEQ))
PARAMETER = exact(kind={"const": "par"}, name=ID, value=TEXT)
PHASE = exact(kind={"const": "phase"}, oper=ID, phase=ID, unit=ID)
GOODS = words("in", "out")
RECIPE_LINE = one_of(exact(def_=ID, kind=GOODS, qty=AMOUNT, unit=or_null(UNIT)), PARAMETER, PHASE)
BATCH_LINE = one_of(exact(asked=COUNT, booked=COUNT, def_=ID, kind=GOODS, unit=or_null(UNIT)), PARAMETER, PHASE)
ORDER = {"due": DUE, "order": ID, "priority": PRIORITY, "recipe": ID, "size": AMOUNT, "version": VERSION}
HELD = {"at": MOMENT, "by": TEXT, "hold": ID, "note": TEXT}
RECALLED = {"at": MOMENT, "by": TEXT, "lot": ID, "note": TEXT, "recall": ID}
PLANNED = exact(due=DUE, priority=PRIORITY, product=ID, recipe=ID, size=AMOUNT, title=TEXT, unit=or_null(UNIT), version=VERSION)
BATCH_ROW = exact(
    at=MOMENT, attempt=ATTEMPT, batch=ID, next=NEXT, order=ID, phase=or_null(ID), phase_unit=or_null(ID), phases=PHASES, planned=or_null(PLANNED),
    state=words(*STATES_OF_BATCHES),
)
RECIPE_ROW = exact(base=AMOUNT, max=AMOUNT, min=AMOUNT, product=ID, recipe=ID, title=TEXT, version=VERSION)
MOVEMENT = exact(
    amount=AMOUNT, at=MOMENT, batch=or_null(ID), by=TEXT, kind=words(*MOVEMENTS), line=COUNT, lot=ID, note=TEXT, seq=SEQ, sub=SUB,
    to=or_null(ID), to_sub=or_null(SUB),
)
LOTS_AT = rows(exact(def_=ID, held=BOOL, lot=ID, recalled=BOOL, stock=COUNT, sublots=SUBLOTS))
BALANCES = rows(exact(
    def_=ID, entered=exact(merged=COUNT, produced=COUNT, received=COUNT, split=COUNT), held=BOOL,
    left=exact(consumed=COUNT, merged=COUNT, scrapped=COUNT, split=COUNT), lot=ID, recalled=BOOL, stock=COUNT, sublots=SUBLOTS, unit=or_null(UNIT),
))
NEEDS = rows(exact(asked=COUNT, def_=ID, short=COUNT, unit=or_null(UNIT), usable=COUNT))
STOCKED_LOT = exact(
    at=or_null(MOMENT), by=or_null(TEXT), held=BOOL, lot=ID, note=or_null(TEXT), recalled=BOOL, seq=or_null(SEQ), stock=AMOUNT, sublots=SUBLOTS,
)
DEFINITION_STOCK = exact(def_=ID, held=COUNT, lots=COUNT, name=TEXT, recalled=COUNT, unit=UNIT, usable=COUNT)
NODE_ROW = exact(def_=ID, held=BOOL, lot=ID, recalled=BOOL, stock=COUNT, unit=UNIT)
EDGES = exact(edges=rows(exact(amount=COUNT, from_=one_of(LOT, BATCH), to=one_of(LOT, BATCH))), nodes=rows(one_of(NODE_ROW, BATCH)))
CHECKED = one_of(
    exact(accepted={"const": True}),
    exact(accepted={"const": False}, name=ref("refusal_name"), refused=ref("refusal_number")),
    exact(accepted={"const": False}, item=number(1, 1000), name=ref("refusal_name"), refused=ref("refusal_number")),
    exact(accepted={"const": False}, name={"const": "BadForm"}, reason={"type": "string"}, refused={"const": 1}),
)


def answers(states_of_orders: Schema, states_of_recipes: Schema, commands: Iterable[str]) -> dict[str, Schema]:
    """The schema of the answer to each question, by its word; the states and the words of commands are the reader's."""
    batches, orders = page("batches", BATCH_ROW), page("orders", exact(**ORDER))
    return {
        "desk": exact(schema=number(1), seq=number(0, MOST_COMMANDS)),
        "moment": exact(at=MOMENT),
        "lot": exact(def_=ID, held=BOOL, lot=ID, stock=COUNT, sublots=SUBLOTS),
        "order": exact(batch=or_null(ID), state=states_of_orders, **ORDER),
        "batch": exact(
            attempt=ATTEMPT, batch=ID, closed=BOOL, consumed=CONSUMED, next=NEXT, order=ID, phases=PHASES, produced=PRODUCED, recipe=ID, size=AMOUNT,
            state=words(*STATES_OF_BATCHES), version=VERSION,
        ),
        "back": exact(nodes=NODES),
        "forward": exact(nodes=NODES),
        "stands": exact(lots=LOTS_AT),
        "balance": exact(lots=BALANCES),
        "back_edges": EDGES,
        "forward_edges": EDGES,
        "recall": exact(lot=ID, nodes=NODES, recall=ID, state=words("open", "lifted")),
        "needs": exact(needs=NEEDS),
        "definition": exact(class_=ID, def_=ID, name=TEXT, unit=UNIT),
        "recipe": exact(
            base=AMOUNT, lines=rows(RECIPE_LINE), max=AMOUNT, min=AMOUNT, product=ID, recipe=ID, state=states_of_recipes, title=TEXT,
            unit=or_null(UNIT), version=VERSION,
        ),
        "batch_lines": exact(batch=ID, lines=rows(BATCH_LINE)),
        "check": CHECKED,
        "orders": orders,
        "orders_by_due": orders,
        "batches": batches,
        "closed_batches": batches,
        "lots": page("lots", exact(held=BOOL, lot=ID, recalled=BOOL, stock=AMOUNT, sublots=SUBLOTS), last=or_null(ID)),
        "holds": page("holds", exact(**HELD)),
        "all_holds": page("holds", exact(lot=ID, **HELD)),
        "recalls": page("recalls", exact(**RECALLED)),
        "lifted_recalls": page("recalls", exact(lift=exact(at=MOMENT, by=TEXT, note=TEXT), **RECALLED)),
        "classes": page("classes", exact(class_=ID, name=TEXT)),
        "definitions": page("definitions", exact(def_=ID, name=TEXT, unit=UNIT)),
        "recipes": page("recipes", RECIPE_ROW),
        "movements": page("movements", MOVEMENT),
        "commands": page("commands", one_of(exact(at=MOMENT, by=TEXT, do=words(*commands), note=TEXT, ref=ID, seq=SEQ), exact(ref=ID, seq=SEQ))),
        "history": page(
            "commands", one_of(exact(at=MOMENT, by=TEXT, do=words(*commands), fields=rows(TEXT), note=TEXT, ref=ID, seq=SEQ), exact(fields=rows(TEXT), ref=ID, seq=SEQ)),
            last=or_null(SEQ),
        ),
        "stock": page("lots", STOCKED_LOT),
        "stocks": page("stocks", DEFINITION_STOCK),
        "find": exact(**{kind: rows(ID, 20) for kind in ("batches", "classes", "definitions", "lots", "orders", "recalls", "recipes")}),
    }


def refusals() -> list[tuple[str, int]]:
    """The names of refusals with their numbers, as the program has them."""
    text = (TOP / "crates/plant_base/src/refusal.rt").read_text()
    return [(name, int(no)) for name, no in re.findall(r"^    (\w+) = (\d+),$", text, re.M)]


def replies() -> dict[str, Schema]:
    """The schemas of replies and of what is answered in place of an answer."""
    pairs = [exact(name={"const": name}, refused={"const": no}) for name, no in refusals()]
    return {
        "refusal_name": words(*(name for name, _ in refusals())),
        "refusal_number": number(1, len(pairs)),
        "accepted": exact(ok=SEQ),
        "refusal": one_of(*pairs),
        "fault": exact(fault=number(1, 3)),
        "reply": one_of(ref("accepted"), ref("refusal"), ref("fault")),
        "status": exact(status=words(400, 403, 404, 405, 411, 413, 431, 501)),
        "ahead": exact(ahead=number(1, 1_000_000), status=words(400)),
        "another_seq": exact(seq=number(0, MOST_COMMANDS), status=words(412)),
        "no_reference": exact(reference=words("missing"), status=words(400)),
        "operator": exact(operator=TEXT),
        "health": exact(
            answers=exact(**{str(it): COUNT for it in STATUSES}, none=COUNT), at=MOMENT, digest=DIGITS, digested=COUNT, instance=DIGITS,
            language=or_null(words("en", "de")), name=or_null(TEXT), schema=number(1), seconds=COUNT, seq=number(0, MOST_COMMANDS)),
        "csv_fault": exact(csv=words(*CSV_FAULTS), row=number(0, 1001)),
    }


def schema_of(lines: Schema) -> Schema:
    """The schemas of lines, with those of replies and answers."""
    found = answers(ref("order_state"), ref("recipe_state"), [it[len("do_"):] for it in lines["$defs"] if it.startswith("do_")])
    asked = sorted(it[len("ask_"):] for it in lines["$defs"] if it.startswith("ask_"))
    if asked != sorted(found):
        sys.exit(f"questions without an answer here, or the other way round: {sorted(set(asked).symmetric_difference(found))}")
    answered = {f"answer_{word}": it for word, it in found.items()}
    whole = {"answer": {"anyOf": [ref(it) for it in sorted(answered)]}}
    return {**lines, "$defs": dict(sorted({**lines["$defs"], **answered, **replies(), **whole}.items()))}


# ---- HTTP

# What is asked by GET at a path, by the word of the question. A path of a list has another below it, which goes on behind {above}.
QUESTIONS = {
    "/v1/desk": "desk",
    "/v1/moment": "moment",
    "/v1/orders/{order}": "order",
    "/v1/orders/{order}/needs": "needs",
    "/v1/lots/{lot}": "lot",
    "/v1/lots/{lot}/back": "back",
    "/v1/lots/{lot}/forward": "forward",
    "/v1/lots/{lot}/stands": "stands",
    "/v1/lots/{lot}/balance": "balance",
    "/v1/lots/{lot}/back_edges": "back_edges",
    "/v1/lots/{lot}/forward_edges": "forward_edges",
    "/v1/batches/{batch}": "batch",
    "/v1/batches/{batch}/back": "back",
    "/v1/batches/{batch}/forward": "forward",
    "/v1/batches/{batch}/stands": "stands",
    "/v1/batches/{batch}/balance": "balance",
    "/v1/batches/{batch}/back_edges": "back_edges",
    "/v1/batches/{batch}/forward_edges": "forward_edges",
    "/v1/batches/{batch}/lines": "batch_lines",
    "/v1/definitions/{def}": "definition",
    "/v1/recipes/{recipe}/{version}": "recipe",
    "/v1/recalls/{recall}": "recall",
    "/v1/find/{id}": "find",
}

# Why a request isn't answered 200.
CAUSES = {
    400: "The head or the body isn't what it has to be",
    403: "With --page: Host or Origin isn't that of a page of the desk; with --operator-field: the head doesn't name the operator, or names another one",
    404: "No such path, or what is asked for isn't there",
    405: "The path has other methods, which Allow names",
    409: "The desk refuses the command or the import",
    411: "No Content-Length",
    412: "Desk-Seq is another number than that of accepted commands",
    413: "A Content-Length above 262,144",
    431: "The head doesn't end in 8,192 bytes, or has more than 32 fields",
    501: "A Transfer-Encoding",
    503: "The store failed, or memory was refused",
}

# The resources of the page, each with its media type.
RESOURCES = {
    "/": "text/html; charset=utf-8", "/desk.css": "text/css", "/values.js": "text/javascript", "/desk.js": "text/javascript", "/forms.js": "text/javascript",
    "/records.js": "text/javascript", "/views.js": "text/javascript", "/german.json": "application/json",
}

# Texts in another language, by the English ones.
TEXTS: Schema = {"type": "object"}

# Where a client asks who it is, with --operator-field alone, and how the server fares.
OPERATOR, HEALTH = "/v1/operator", "/v1/health"

# Fields of the head of a command or check, and those of an import.
FIELDS: list[tuple[str, bool, str, Schema]] = [
    ("Desk-Ref", False, "the reference, where the body says none", ID),
    ("Desk-Seq", False, "the number of accepted commands at which alone it is done", {"type": "string", "pattern": "^[0-9]{1,16}$"}),
]
FIELDS_OF_IMPORTS: list[tuple[str, bool, str, Schema]] = [
    ("Desk-At", True, "the moment of the import", {"type": "string", "pattern": "^[0-9]{1,12}$"}),
    ("Desk-By", False, "who gives it", TEXT),
    *FIELDS,
]


def lists(defs: Mapping[str, Schema]) -> dict[str, str]:
    """The paths of lists: of what they are, and their places, as in the questions."""
    paths: dict[str, str] = {}
    for name in sorted(it for it in defs if it.startswith("ask_")):
        members = defs[name].get("properties", {})
        if "above" in members:
            word = name[len("ask_"):]
            path = f"/v1/lists/{word}" + "".join(f"/{{{it}}}" for it in members if it not in ("ask", "above"))
            paths[path] = paths[f"{path}/{{above}}"] = word
    return paths


def with_places(value: Json) -> Json:
    """A schema with its references as OpenAPI has them."""
    if isinstance(value, dict):
        return {name: it.replace("#/$defs/", "#/components/schemas/") if name == "$ref" else with_places(it) for name, it in value.items()}
    return [with_places(it) for it in value] if isinstance(value, list) else value


def body(schema: Schema, kind: str = "application/json") -> Schema:
    return {"content": {kind: {"schema": schema}}}


def refusing(status: int, name: str, schema: Schema) -> dict[str, Schema]:
    """A response of a status other than 200, by its name."""
    found: Schema = {"description": CAUSES[status]}
    if status == 405:
        found["headers"] = {"Allow": {"description": "the methods of the path", "schema": {"type": "string"}}}
    return {name: {**found, **body(schema)}}


def responses() -> dict[str, Schema]:
    """The responses that several paths have, by their names: the status, and of what it is where there is more than one of it."""
    found: dict[str, Schema] = {}
    for it in CAUSES:
        schema = {409: ref("refusal"), 412: ref("another_seq"), 503: ref("fault")}.get(it, ref("status"))
        found.update(refusing(it, f"of_{it}", schema))
    found.update(refusing(400, "of_400_command", one_of(ref("status"), ref("ahead"), ref("no_reference"), ref("refusal"))))
    found.update(refusing(400, "of_400_check", one_of(ref("status"), ref("ahead"))))
    found.update(refusing(400, "of_400_orders", one_of(ref("status"), ref("ahead"), ref("no_reference"), ref("csv_fault"))))
    found.update(refusing(404, "of_404_question", one_of(ref("status"), ref("refusal"))))
    return found


def others(statuses: Iterable[int], **names: str) -> dict[str, Schema]:
    """References to the responses of statuses, each to the one of that status alone unless another is named."""
    return {str(it): {"$ref": f"#/components/responses/{names.get(f'of_{it}', f'of_{it}')}"} for it in statuses}


def parameter(name: str, defs: Mapping[str, Schema], word: str) -> Schema:
    """The parameter of a path, by the rule of the question's member; a version is digits there, and so is the number of a command that a page comes after."""
    schema = defs[f"ask_{word}"].get("properties", {}).get(name, ID)
    if name == "version":
        schema = {"type": "string", "pattern": "^[0-9]{1,3}$"}
    if name == "above" and word in ("commands", "history"):
        schema = {"type": "string", "pattern": "^[0-9]{1,16}$"}
    return {"name": name, "in": "path", "required": True, "schema": schema}


def asked(path: str, word: str, defs: Mapping[str, Schema], schema: Schema, kind: str = "application/json") -> Schema:
    """A path that is asked by GET and HEAD."""
    statuses = (400, 403, 404, 405, 413, 431, 501, 503)
    parameters = [parameter(it, defs, word) for it in re.findall(r"{(\w+)}", path)]
    name = re.sub(r"\W+", "_", path.replace("/v1/", "")).strip("_") or "page"
    found: Schema = {"parameters": parameters} if parameters else {}
    for method, answer in (("get", {"description": "The answer", **body(schema, kind)}), ("head", {"description": "As of GET, without the body"})):
        given = {"200": answer, **others(statuses, of_404="of_404_question")}
        found[method] = {"operationId": f"{method}_{name}", "responses": given}
    return found


def resource(path: str, kind: str, defs: Mapping[str, Schema]) -> Schema:
    """A resource of the page, which a client that has it as it is doesn't get again."""
    found = asked(path, "desk", defs, TEXTS if kind == "application/json" else {"type": "string"}, kind)
    named: Schema = {"name": "If-None-Match", "in": "header", "required": False, "description": "the ETag of what the client has", "schema": {"type": "string"}}
    tag: Schema = {"headers": {"ETag": {"description": "changes with the bytes", "schema": {"type": "string"}}}}
    for it in found.values():
        answers = it["responses"]
        it["parameters"] = [named]
        it["responses"] = {"200": {**answers.pop("200"), **tag}, "304": {"description": "The client has it as it is", **tag}, **answers}
    return found


def posted(
    name: str, about: str, taken: Schema, answered: Schema,
    fields: Sequence[tuple[str, bool, str, Schema]] = FIELDS, conflicts: Iterable[int] = (409,), **names: str,
) -> Schema:
    """A path to which a body is posted, with these fields of the head."""
    statuses = sorted({400, 403, 404, 405, *conflicts, 411, 412, 413, 431, 501, 503})
    given = [{"name": it, "in": "header", "required": needed, "description": what, "schema": schema} for it, needed, what, schema in fields]
    answers = {"200": {"description": about, **body(answered)}, **others(statuses, **names)}
    return {"post": {"operationId": f"post_{name}", "parameters": given, "requestBody": {"required": True, **taken}, "responses": answers}}


def paths_of(defs: Mapping[str, Schema]) -> dict[str, Schema]:
    """All paths of the server."""
    questions = {**QUESTIONS, **lists(defs)}
    found = {path: asked(path, word, defs, ref(f"answer_{word}")) for path, word in questions.items()}
    text = {"type": "string"}
    found["/v1/batches/{batch}/record"] = asked("/v1/batches/{batch}/record", "batch", defs, text, "text/plain")
    found[OPERATOR] = asked(OPERATOR, "desk", defs, ref("operator"))
    found[HEALTH] = asked(HEALTH, "desk", defs, ref("health"))
    found.update({path: resource(path, kind, defs) for path, kind in RESOURCES.items()})
    found["/v1/commands"] = posted("commands", "The command was accepted", body(ref("command")), ref("accepted"), of_400="of_400_command")
    found["/v1/check"] = posted("check", "What would become of it", body({"type": "object"}), ref("answer_check"), conflicts=(), of_400="of_400_check")
    file = body({"type": "string", "maxLength": 262144}, "text/csv")
    found["/v1/orders"] = posted("orders", "The orders were imported", file, ref("accepted"), FIELDS_OF_IMPORTS, of_400="of_400_orders")
    return dict(sorted(found.items()))


def version() -> str:
    """The newest version of CHANGELOG."""
    versions: list[str] = re.findall(r"^## (\S+)", (TOP / "CHANGELOG.md").read_text(), re.M)
    return versions[0]


def openapi_of(schema: Schema) -> Schema:
    """The description of the HTTP of a desk."""
    about = "What `desk serve` answers on 127.0.0.1. FORMATS.md says what members mean. Paths outside /v1/ are served with --page alone, /v1/operator with --operator-field alone."
    described: Schema = with_places({
        "openapi": "3.1.0",
        "info": {"title": "Desk", "version": version(), "description": about},
        "servers": [{"url": "http://127.0.0.1:8080"}],
        "paths": paths_of(schema["$defs"]),
        "components": {"responses": responses(), "schemas": schema["$defs"]},
    })
    return described


def made(program: pathlib.Path) -> dict[pathlib.Path, str]:
    """Both files by their paths, from what the program prints."""
    lines = json.loads(subprocess.run([program, "--schema"], capture_output=True, check=True, text=True, stdin=subprocess.DEVNULL).stdout)
    schema = schema_of(lines)
    return {path: json.dumps(it, indent=1) + "\n" for path, it in ((DOCS / "schema.json", schema), (DOCS / "openapi.json", openapi_of(schema)))}


def main(options: list[str]) -> int:
    if len(options) not in (1, 2) or options[1:] not in ([], ["--check"]):
        sys.exit(__doc__)
    found = made(pathlib.Path(options[0]).resolve())
    if len(options) == 1:
        for path, text in found.items():
            path.write_text(text)
        return 0
    wrong = [it.name for it, text in found.items() if not it.is_file() or it.read_text() != text]
    print("".join(f"docs/{it} isn't what make/schemas.py makes of line_check --schema\n" for it in wrong), end="")
    return int(bool(wrong))


if __name__ == "__main__":
    sys.exit(main(sys.argv[1:]))
