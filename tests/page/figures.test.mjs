import assert from "node:assert/strict";
import test from "node:test";

import { changeOf, dayAfter, dueBy, dueByDay, lacksOf, newIn, roundUp, shortage, stockByDay, yieldOf } from "../../page/figures.js";

const dues = (...days) => days.map((due) => ({ due }));
const atNoon = (day) => new Date(`${day}T12:00:00`).getTime() / 1000;

test("days are counted over the ends of months and years", () => {
  assert.equal(dayAfter("2028-02-28", 1), "2028-02-29");
  assert.equal(dayAfter("2027-01-01", -1), "2026-12-31");
  assert.equal(dayAfter("2027-03-01", 0), "2027-03-01");
  assert.equal(dayAfter("2027-03-20", 30), "2027-04-19");
});

test("what is due before a day is late, and what is due on it is due that day", () => {
  const { late, today } = dueBy(dues("2027-03-01", "2027-03-02", "2027-03-03", "2027-02-28"), "2027-03-02");
  assert.deepEqual([late, today], [dues("2027-03-01", "2027-02-28"), dues("2027-03-02")]);
});

test("each due date is counted once: on its day, before these days or after them", () => {
  const { days, before, after } = dueByDay(dues("2027-03-01", "2027-03-02", "2027-03-02", "2027-03-04", "2027-02-01"), "2027-03-01", 3);
  assert.deepEqual(days, [{ day: "2027-03-01", count: 1 }, { day: "2027-03-02", count: 2 }, { day: "2027-03-03", count: 0 }]);
  assert.deepEqual([before, after], [1, 1]);
});

const STOCKS = new Map([["FLOUR", { usable: 100, name: "Flour", unit: "kg" }], ["YEAST", { usable: 50, name: "", unit: "g" }]]);
const demand = (def, amount, due) => ({ def, amount, due, unit: "pcs" });

test("a material is short by what is asked and neither free nor made, from the day on which the sum exceeds these", () => {
  const asked = [demand("FLOUR", 80, "2027-03-03"), demand("YEAST", 60, "2027-03-02"), demand("FLOUR", 70, "2027-03-01")];
  const short = shortage(asked, [{ def: "FLOUR", amount: 20 }], STOCKS);
  assert.deepEqual(short, [
    { def: "YEAST", name: "", unit: "g", asked: 60, free: 50, made: 0, from: "2027-03-02", short: 10 },
    { def: "FLOUR", name: "Flour", unit: "kg", asked: 150, free: 100, made: 20, from: "2027-03-03", short: 30 },
  ]);
});

test("a material of which there is just enough isn't short, and one that isn't known is short of all", () => {
  assert.deepEqual(shortage([demand("FLOUR", 100, "2027-03-01")], [], STOCKS), []);
  assert.deepEqual(shortage([demand("CARTON", 1, "2027-03-01")], [], STOCKS),
    [{ def: "CARTON", name: "", unit: "pcs", asked: 1, free: 0, made: 0, from: "2027-03-01", short: 1 }]);
});

test("an order lacks of each input what its lines come to and isn't free", () => {
  const line = (kind, def, qty) => ({ kind, def, qty, unit: "kg" });
  const recipe = { base: 100, lines: [line("in", "FLOUR", 20), line("in", "FLOUR", 5), line("in", "CARTON", 1), line("out", "BREAD", 100), { kind: "phase", phase: "BAKE" }] };
  assert.deepEqual(lacksOf(recipe, 400, STOCKS), [{ def: "CARTON", unit: "kg", short: 4 }]);
  assert.deepEqual(lacksOf(recipe, 404, STOCKS), [{ def: "FLOUR", unit: "kg", short: 1 }, { def: "CARTON", unit: "kg", short: 4 }]);
});

test("a yield is what was booked of the product against what was asked of it, and no other output counts", () => {
  const line = (kind, def, asked, booked) => ({ kind, def, asked, booked, unit: "kg" });
  const lines = [line("in", "DOUGH", 60, 60), line("out", "BREAD", 100, 96), line("out", "CRUMB", 5, 9), { kind: "phase", phase: "BAKE" }];
  assert.deepEqual(yieldOf(lines, "BREAD"), { asked: 100, booked: 96, percent: 96, unit: "kg" });
  assert.equal(yieldOf(lines, "DOUGH"), null);
});

test("rows of a ledger bring goods to a lot, take them from it, or leave it as it is", () => {
  const change = (kind, to = null) => changeOf({ kind, amount: 5, to }, "F-1");
  const found = { received: change("received"), produced: change("produced"), consumed: change("consumed"), scrapped: change("scrapped"),
    divided: change("divided", "F-1"),
    from: change("split", "F-2"), of: change("split", "F-1"), into: change("merged", "F-1"), gone: change("merged", "F-3") };
  assert.deepEqual(found, { received: 5, produced: 5, consumed: -5, scrapped: -5, divided: 0, from: -5, of: 5, into: 5, gone: -5 });
});

test("the stock of each day is what all ledgers come to at its end", () => {
  const row = (kind, amount, day) => ({ kind, amount, to: null, at: atNoon(day) });
  const ledgers = [
    { lot: "F-1", movements: [row("received", 50, "2027-02-01"), row("consumed", 20, "2027-03-02")] },
    { lot: "F-2", movements: [row("received", 10, "2027-03-03"), row("scrapped", 4, "2027-03-03"), row("scrapped", 1, "2027-03-09")] },
  ];
  assert.deepEqual(stockByDay(ledgers, "2027-03-01", 4).map((it) => it.stock), [50, 30, 36, 36]);
  assert.deepEqual(stockByDay([], "2027-03-01", 2).map((it) => it.stock), [0, 0]);
});

test("an axis ends at a round number that is at least the greatest value, and has a whole half", () => {
  for (const n of [0, 1, 2, 3, 7, 10, 11, 19, 25, 99, 100, 101, 9385, 999_999, 10 ** 15]) {
    const top = roundUp(n);
    assert.ok(top >= n && top <= Math.max(2, 2 * n) && Number.isSafeInteger(top / 2), `${n}: ${top}`);
  }
});

test("what is new is what wasn't there before", () => {
  assert.deepEqual(newIn(["a", "b", "c"], new Set(["b", "d"])), ["a", "c"]);
});
