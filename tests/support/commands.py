"""Commands of the desk, each as the members of its JSON object behind its moment and its operator."""
from __future__ import annotations

import json
from collections.abc import Iterable

from tests.support import Json

# The greatest amount.
MOST = 10**15

# A class, and a definition of it in grams.
GOODS = [
    '"do":"add_class","class":"RAW","name":""',
    '"do":"add_definition","def":"SUGAR","class":"RAW","name":"","unit":"g"',
]

# A recipe of an input, an output and a phase, approved, and the materials of it.
PLANNED = [
    '"do":"add_class","class":"RAW","name":""',
    '"do":"add_definition","def":"FLOUR","class":"RAW","name":"","unit":"kg"',
    '"do":"add_definition","def":"DOUGH","class":"RAW","name":"","unit":"kg"',
    '"do":"add_recipe","recipe":"CAKE","version":1,"product":"DOUGH","base":300,"min":100,"max":900,"title":"","lines":['
    '{"kind":"in","def":"FLOUR","qty":100},{"kind":"out","def":"DOUGH","qty":300},'
    '{"kind":"phase","unit":"MIX","oper":"BLEND","phase":"STIR"}]',
    '"do":"approve","recipe":"CAKE","version":1',
]

# A command of each kind, all accepted in this order, with what is kept of each as its content behind its moment, its operator and its note.
EACH_COMMAND = [
    ('"do":"add_class","class":"RAW","name":"Raw goods"', "add_class RAW|Raw goods"),
    ('"do":"add_definition","def":"FLOUR","class":"RAW","name":"","unit":"kg"', "add_definition FLOUR|RAW||kg"),
    ('"do":"add_definition","def":"DOUGH","class":"RAW","name":"Dough","unit":"kg"', "add_definition DOUGH|RAW|Dough|kg"),
    (
        '"do":"add_recipe","recipe":"CAKE","version":1,"product":"DOUGH","base":300,"min":100,"max":900,"title":"A cake","lines":['
        '{"kind":"in","def":"FLOUR","qty":100},{"kind":"out","def":"DOUGH","qty":300},'
        '{"kind":"par","name":"TEMP","value":"80 C"},{"kind":"phase","unit":"MIX","oper":"BLEND","phase":"STIR"}]',
        "add_recipe CAKE|1|DOUGH|300|100|900|A cake|4|in|FLOUR|100|out|DOUGH|300|par|TEMP|80 C|phase|MIX|BLEND|STIR",
    ),
    ('"do":"approve","recipe":"CAKE","version":1', "approve CAKE|1"),
    (
        '"do":"import_orders","orders":['
        '{"order":"O-1","recipe":"CAKE","version":1,"size":500,"due":"2027-03-01","priority":5},'
        '{"order":"O-2","recipe":"CAKE","version":1,"size":100,"due":"2027-03-08","priority":1}]',
        "import_orders 2|O-1|CAKE|1|500|2027-03-01|5|O-2|CAKE|1|100|2027-03-08|1",
    ),
    ('"do":"cancel_order","order":"O-2"', "cancel_order O-2"),
    ('"do":"receive","lot":"F-1","def":"FLOUR","amount":1000,"place":"A1"', "receive F-1|FLOUR|1000|A1"),
    ('"do":"release","order":"O-1","batch":"B-1"', "release O-1|B-1"),
    ('"do":"batch","batch":"B-1","word":"start"', "batch B-1|start"),
    ('"do":"consume","batch":"B-1","lot":"F-1","sub":0,"amount":167', "consume B-1|F-1|0|167"),
    ('"do":"phase_done","batch":"B-1","phase":1', "phase_done B-1|1"),
    ('"do":"produce","batch":"B-1","lot":"D-1","def":"DOUGH","amount":490,"place":"A2"', "produce B-1|D-1|DOUGH|490|A2"),
    ('"do":"settle","batch":"B-1"', "settle B-1"),
    ('"do":"close_batch","batch":"B-1"', "close_batch B-1"),
    ('"do":"scrap","lot":"D-1","sub":0,"amount":10', "scrap D-1|0|10"),
    ('"do":"split","lot":"D-1","sub":0,"amount":100,"new":"D-2","place":""', "split D-1|0|100|D-2|"),
    ('"do":"divide","lot":"D-1","sub":0,"amount":50,"place":"A2"', "divide D-1|0|50|A2"),
    (
        '"do":"merge","new":"D-3","place":"A3","parts":[{"lot":"D-2","sub":0,"amount":60},{"lot":"D-1","sub":1,"amount":50}]',
        "merge D-3|A3|2|D-2|0|60|D-1|1|50",
    ),
    ('"do":"hold","lot":"D-1","hold":"H-1"', "hold D-1|H-1"),
    ('"do":"unhold","lot":"D-1","hold":"H-1"', "unhold D-1|H-1"),
    ('"do":"recall","recall":"RC-1","lot":"D-2"', "recall RC-1|D-2"),
    ('"do":"recall","recall":"RC-2","lot":"F-1"', "recall RC-2|F-1"),
    ('"do":"lift","recall":"RC-1"', "lift RC-1"),
    ('"do":"withdraw","recipe":"CAKE","version":1', "withdraw CAKE|1"),
]


def line(body: str, stamp: str = '"at":200,"by":""') -> bytes:
    """Returns the line of a command, with its moment and operator."""
    return b"{%s,%s}\n" % (stamp.encode(), body.encode())


def replies(first: int, count: int) -> bytes:
    """Returns the replies to so many commands that are accepted, from this number on."""
    return b"".join(b'{"ok":%d}\n' % it for it in range(first, first + count))


def compact(value: Json) -> str:
    """Returns a value as the desk writes it."""
    return json.dumps(value, separators=(",", ":"), sort_keys=True)


# ---- recipes and orders


def add_recipe(phases: int, name: str = "R", version: int = 1) -> str:
    """A version of a recipe of one output and so many phases."""
    phase = ',{"kind":"phase","unit":"U","oper":"O","phase":"P"}'
    return (
        f'"do":"add_recipe","recipe":"{name}","version":{version},"product":"SUGAR","base":1,"min":1,"max":900,"title":"",'
        f'"lines":[{{"kind":"out","def":"SUGAR","qty":1}}{phase * phases}]'
    )


def approve(name: str = "R", version: int = 1) -> str:
    return f'"do":"approve","recipe":"{name}","version":{version}'


def withdraw(name: str = "R", version: int = 1) -> str:
    return f'"do":"withdraw","recipe":"{name}","version":{version}'


def add_definition(name: str, group: str) -> str:
    """A definition in grams of a class."""
    return f'"do":"add_definition","def":"{name}","class":"{group}","name":"the {name}","unit":"g"'


def import_orders(count: int) -> str:
    """An import of so many orders of the recipe R."""
    rest = '"recipe":"R","version":1,"size":1,"due":"2027-03-01","priority":5'
    rows = ",".join(f'{{"order":"O-{it}",{rest}}}' for it in range(count))
    return f'"do":"import_orders","orders":[{rows}]'


# ---- batches


def release(order: str, batch: str) -> str:
    return f'"do":"release","order":"{order}","batch":"{batch}"'


def say(word: str, batch: str = "B-1") -> str:
    """A word of the state table that is said to a batch."""
    return f'"do":"batch","batch":"{batch}","word":"{word}"'


def settle(batch: str = "B-1") -> str:
    return f'"do":"settle","batch":"{batch}"'


def phase_done(batch: str, number: int) -> str:
    return f'"do":"phase_done","batch":"{batch}","phase":{number}'


def consume(batch: str, lot: str = "F-1", amount: int = 1) -> str:
    return f'"do":"consume","batch":"{batch}","lot":"{lot}","sub":0,"amount":{amount}'


def produce(batch: str, lot: str, definition: str = "DOUGH", amount: int = 1) -> str:
    return f'"do":"produce","batch":"{batch}","lot":"{lot}","def":"{definition}","amount":{amount},"place":""'


def begin_batch(batch: str, number: int) -> list[str]:
    """The commands by which an order of the recipe CAKE is imported, released as a batch, and the batch is started."""
    order = f'{{"order":"O-{number}","recipe":"CAKE","version":1,"size":300,"due":"2027-03-01","priority":5}}'
    return [f'"do":"import_orders","orders":[{order}]', release(f"O-{number}", batch), say("start", batch)]


# ---- lots


def receive(lot: str, amount: int, definition: str = "SUGAR") -> str:
    return f'"do":"receive","lot":"{lot}","def":"{definition}","amount":{amount},"place":""'


def scrap(lot: str, amount: int | str, sub: int | str = 0) -> str:
    return f'"do":"scrap","lot":"{lot}","sub":{sub},"amount":{amount}'


def split(lot: str, amount: int, new: str) -> str:
    return f'"do":"split","lot":"{lot}","sub":0,"amount":{amount},"new":"{new}","place":""'


def divide(lot: str, amount: int = 1, place: str = "") -> str:
    return f'"do":"divide","lot":"{lot}","sub":0,"amount":{amount},"place":"{place}"'


def merge(parts: Iterable[tuple[str, int, int]], new: str = "M-1") -> str:
    """A merge of these parts, each a lot, a sublot and an amount."""
    listed = ",".join(f'{{"lot":"{lot}","sub":{sub},"amount":{amount}}}' for lot, sub, amount in parts)
    return f'"do":"merge","new":"{new}","place":"","parts":[{listed}]'


def hold(lot: str, name: str = "H-1") -> str:
    return f'"do":"hold","lot":"{lot}","hold":"{name}"'


def recall(lot: str, name: str = "RC-1") -> str:
    return f'"do":"recall","recall":"{name}","lot":"{lot}"'


def lift(name: str = "RC-1") -> str:
    return f'"do":"lift","recall":"{name}"'
