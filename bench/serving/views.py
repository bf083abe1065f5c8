#!/usr/bin/env python3
"""Measures how long the views of the page take over a desk of many movements and open orders, in a headless Chromium.

    bench/serving/views.py [MOVEMENTS [ORDERS]]

Fills a file of 100,000 movements and 900 open orders, where nothing else is said: lots of one definition that were received and scrapped, of
which every second has stock, and 200 that were split off one. Has the desk of `build/` serve it (DESK_PROGRAMS names another place, as for the
tests), and goes to each view twice. Prints for each how many milliseconds it took from the change of the address to the view as it stands, and
how many requests it made; at the end the planner's view with all orders.
"""
from __future__ import annotations

import json
import pathlib
import sys
import tempfile
import time

sys.path.insert(0, str(pathlib.Path(__file__).resolve().parents[2]))

from tests.support import browser, cases, pages, sqlite  # noqa: E402  (the top is on the path now)
from tests.support.large import fan_tables, received_row, scrapped_row  # noqa: E402
from tests.support.program import Program  # noqa: E402

VIEWS = (
    "today", "planner", "shift/B-2", "warehouse/FLOUR", "warehouse/YEAST", "warehouse/place",
    "quality/lot/F-1", "quality/lot/FAN-0", "quality/lot/L-000100", "quality/batch/B-1",
)

# So many lots are split off one.
FAN = 200

# Counts the requests of a page.
COUNTED = "globalThis.requests = 0; { const real = fetch; globalThis.fetch = (...told) => { requests += 1; return real(...told); }; }"

# Shows a view, and gives the milliseconds and the requests that it took.
TIMED = """(async () => {
  const view = document.getElementById("view"), began = performance.now();
  view.dataset.ready = "";
  requests = 0;
  %s
  while (!view.dataset.ready) await new Promise((then) => setTimeout(then, 2));
  return [performance.now() - began, requests];
})()"""


def orders(count: int, now: int) -> bytes:
    """Returns the command that imports so many orders, due from 5 days before a moment to 55 days behind it."""
    due = [time.strftime("%Y-%m-%d", time.localtime(now + 86_400 * (it * 7 % 60 - 5))) for it in range(count)]
    rows = [
        {"order": f"P-{it:04}", "recipe": "BREAD", "version": 1, "size": 100 + it % 300, "due": due[it], "priority": 1 + it % 9}
        for it in range(count)
    ]
    return json.dumps({"at": now, "by": "anna", "do": "import_orders", "orders": rows}).encode() + b"\n"


def fill(file: pathlib.Path, seq: int, movements: int) -> None:
    """Adds so many movements to a file that has so many commands."""
    lots = [f"L-{it:06}" for it in range((movements - FAN) // 2)]
    tables: dict[str, list[sqlite.Row]] = {"lot": [(it, "FLOUR") for it in lots], "sublot": [], "movement": []}
    for number, lot in enumerate(lots):
        left = number % 2
        tables["movement"] += [received_row(seq + 1, lot, 1 + left), scrapped_row(seq + 2, lot)]
        tables["sublot"].append((lot, 0, "A1", left))
        seq += 2
    fan = fan_tables(seq + 1, "FAN-0", [f"FAN-{it:03}" for it in range(1, FAN)], goods="FLOUR")
    for name, rows in fan.items():
        tables[name] = tables.get(name, []) + rows
    seq += FAN
    with sqlite.opened(file) as store:
        at = store.execute("SELECT at FROM meta").fetchone()[0]
    tables["movement"] = [(*it[:9], at, *it[10:]) for it in tables["movement"]]
    sqlite.filled(file, tables, seq)
    sqlite.changed(file, f"UPDATE meta SET at = {at}")


def measure(tab: browser.Tab, name: str, code: str) -> None:
    milliseconds, requests = tab.run(TIMED % code)
    print(f"{name}: {milliseconds:.0f} ms, {requests} requests", flush=True)


def main() -> None:
    movements, count = [int(it) for it in sys.argv[1:3]] + [100_000, 900][len(sys.argv) - 1:]
    now = int(time.time())
    place = cases.MEMORY if cases.MEMORY.is_dir() else None
    with tempfile.TemporaryDirectory(dir=place) as folder, browser.Browser() as chromium:
        desk, file = Program("desk", folder), pathlib.Path(folder) / "plant.db"
        desk.run("run", file, told=pages.mornings(now) + orders(count, now))
        fill(file, pages.MORNINGS + 1, movements - 10)
        print(desk.run("verify", file).output.decode(), end="", flush=True)
        served = pages.ServedDesk(desk, file)
        try:
            tab = chromium.tab(f"{served.url}#quality", script=pages.KEPT + COUNTED)
            tab.until("document.getElementById('view') && document.getElementById('view').dataset.ready")
            for view in VIEWS * 2:
                measure(tab, view, f"location.hash = '{view}';")
            tab.run("location.hash = 'planner'; wantedItems.set('orders open', 1000); show().then(() => true)")
            measure(tab, f"planner with {count} orders", "show();")
        finally:
            served.end()


if __name__ == "__main__":
    main()
