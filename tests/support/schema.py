"""JSON Schema (draft 2020-12): whether a value obeys a schema, by the keywords that the schemas of the desk have. A schema with another keyword is
an error."""
from __future__ import annotations

import re
from collections.abc import Callable, Iterable

from tests.support import Json

# Keywords that say nothing of a value.
NOTES = {"$schema", "$defs", "title", "description"}

# A schema, and a part of one.
Schema = dict[str, Json]

TYPES = {"object": dict, "array": list, "string": str, "boolean": bool, "null": type(None)}


def is_type(value: Json, name: str) -> bool:
    """Returns whether a value is of a type of JSON. A whole number may be written with a fraction of zeros."""
    if name == "integer":
        return not isinstance(value, bool) and (isinstance(value, int) or isinstance(value, float) and value.is_integer())
    return isinstance(value, TYPES[name])


def is_same(value: Json, wanted: Json) -> bool:
    """Returns whether two values are equal, of which true is not 1."""
    return value == wanted and isinstance(value, bool) == isinstance(wanted, bool)


def is_found(value: str, pattern: str) -> bool:
    """Returns whether a text matches a pattern, whose end is that of the text."""
    return re.search(re.sub(r"\$$", r"\\Z", pattern), value) is not None


def obeyed(value: Json, schemas: Iterable[Schema], root: Schema) -> int:
    """Returns how many of these schemas a value obeys."""
    return sum(not flaws(value, it, root) for it in schemas)


def of_object(keyword: str, rule: Json, value: dict[str, Json], schema: Schema, root: Schema) -> list[str]:
    """Returns the flaws of an object by a keyword."""
    if keyword == "required":
        return [f"{it} is missing" for it in rule if it not in value]
    if keyword == "additionalProperties":
        return [f"{it} doesn't belong there" for it in value if it not in schema["properties"]] if rule is False else [f"what {keyword} says isn't known"]
    return [f"{name}: {it}" for name in value if name in rule for it in flaws(value[name], rule[name], root)]


def of_list(keyword: str, rule: Json, value: list[Json], root: Schema) -> list[str]:
    """Returns the flaws of a list by a keyword."""
    if keyword == "items":
        return [f"{number}: {it}" for number, item in enumerate(value) for it in flaws(item, rule, root)]
    return [] if (len(value) >= rule if keyword == "minItems" else len(value) <= rule) else [f"{keyword} {rule}, and it has {len(value)}"]


def holds(keyword: str, rule: Json, value: Json, root: Schema) -> bool:
    """Returns whether a value obeys a keyword that is of no object or list."""
    if keyword in ("minimum", "maximum"):
        is_number = isinstance(value, (int, float)) and not isinstance(value, bool)
        return not is_number or (value >= rule if keyword == "minimum" else value <= rule)
    ways: dict[str, Callable[[], bool]] = {
        "type": lambda: is_type(value, rule),
        "const": lambda: is_same(value, rule),
        "enum": lambda: any(is_same(value, it) for it in rule),
        "pattern": lambda: not isinstance(value, str) or is_found(value, rule),
        "maxLength": lambda: not isinstance(value, str) or len(value) <= rule,
        "oneOf": lambda: obeyed(value, rule, root) == 1,
        "anyOf": lambda: obeyed(value, rule, root) > 0,
    }
    return ways[keyword]()


def flaws(value: Json, schema: Schema, root: Schema) -> list[str]:
    """Returns what is wrong with a value by a schema, nothing where it obeys it. References are to the root."""
    found = []
    for keyword, rule in schema.items():
        if keyword in NOTES:
            continue
        if keyword == "$ref":
            target = root
            for name in rule.removeprefix("#/").split("/"):
                target = target[name]
            found += flaws(value, target, root)
        elif keyword in ("required", "properties", "additionalProperties"):
            found += of_object(keyword, rule, value, schema, root) if isinstance(value, dict) else []
        elif keyword in ("items", "minItems", "maxItems"):
            found += of_list(keyword, rule, value, root) if isinstance(value, list) else []
        elif not holds(keyword, rule, value, root):
            found.append(f"{keyword} {rule}, and it is {value!r}"[:200])
    return found
