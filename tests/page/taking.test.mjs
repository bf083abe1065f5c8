import assert from "node:assert/strict";
import test from "node:test";

import { openInputs, partsByPlace, takenOf } from "../../page/taking.js";

const PARTS = [{ lot: "Z-9", sub: 0, stock: 100 }, { lot: "M-1", sub: 0, stock: 200 }, { lot: "M-1", sub: 1, stock: 5 }];
const told = (amount) => { const { taken, short } = takenOf(PARTS, amount); return [taken.map((it) => [it.lot, it.sub, it.amount]), short]; };

test("parts are taken in their order, the last as far as is wanted", () => {
  assert.deepEqual(told(60), [[["Z-9", 0, 60]], 0]);
  assert.deepEqual(told(100), [[["Z-9", 0, 100]], 0]);
  assert.deepEqual(told(250), [[["Z-9", 0, 100], ["M-1", 0, 150]], 0]);
});

test("what isn't there is short", () => {
  assert.deepEqual(told(310), [[["Z-9", 0, 100], ["M-1", 0, 200], ["M-1", 1, 5]], 5]);
  assert.deepEqual(takenOf([], 7), { taken: [], short: 7 });
});

test("nothing is taken where nothing is wanted", () => assert.deepEqual(told(0), [[], 0]));

test("open inputs are those of which less is booked than was asked", () => {
  const lines = [{ kind: "in", def: "A", asked: 5, booked: 5 }, { kind: "in", def: "B", asked: 5, booked: 2 }, { kind: "in", def: "C", asked: 5, booked: 9 },
    { kind: "out", def: "D", asked: 5, booked: 0 }, { kind: "phase" }];
  assert.deepEqual(openInputs(lines).map((it) => [it.def, it.left]), [["B", 3]]);
});

test("parts come by the names of their places, and of each the oldest first", () => {
  const part = (lot, sub, seq, place, def = "FLOUR") => ({ lot, sub, seq, place, def });
  const all = partsByPlace([part("F-1", 0, 9, "B"), part("F-2", 1, 3, "A"), part("F-2", 0, 3, "A"), part("Y-1", 0, 2, "A", "YEAST"), part("F-3", 0, null, "")]);
  assert.deepEqual(all.map((it) => [it.place, it.materials, it.parts.map((one) => `${one.lot}/${one.sub}`).join(" ")]),
    [["", 1, "F-3/0"], ["A", 2, "Y-1/0 F-2/0 F-2/1"], ["B", 1, "F-1/0"]]);
});
