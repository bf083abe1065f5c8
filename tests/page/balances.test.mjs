import assert from "node:assert/strict";
import test from "node:test";

import { materialsOf, rowsOfBalance } from "../../page/balances.js";
import { COLUMNS, rowsOf } from "../../page/csv.js";

const NONE_IN = { merged: 0, produced: 0, received: 0, split: 0 }, NONE_OUT = { consumed: 0, merged: 0, scrapped: 0, split: 0 };
const lot = (name, def, entered, left, places) => ({ lot: name, def, unit: "kg", held: false, recalled: false, entered: { ...NONE_IN, ...entered },
  left: { ...NONE_OUT, ...left }, stock: places.reduce((all, [, stock]) => all + stock, 0), sublots: places.map(([place, stock], no) => ({ no, place, stock })) });

const FLOUR = lot("F-1", "FLOUR", { received: 1000 }, { consumed: 17, merged: 150 }, [["A1", 500], ["A2", 333]]);
const MERGED = lot("F-2", "FLOUR", { merged: 150 }, { consumed: 150 }, [["B1", 0]]);
const DOUGH = lot("D-1", "DOUGH", { produced: 490 }, { scrapped: 4, split: 90 }, [["C1", 396]]);
const SPLIT = lot("D-3", "DOUGH", { split: 90 }, {}, [["C1", 60], ["", 30]]);

// The numbers of each material, in the order of the table, and whether it closes.
const told = (lots) => materialsOf(lots).map((it) => [it.def, it.count, it.received, it.produced, it.others, it.consumed, it.scrapped, it.stock, it.closes]
  .map((one) => (typeof one === "bigint" ? Number(one) : one)));

test("each material is summed over its lots, and splits and merges among them cancel", () => assert.deepEqual(told([FLOUR, MERGED, DOUGH, SPLIT]), [
  ["DOUGH", 2, 0, 490, 0, 0, 4, 486, true], ["FLOUR", 2, 1000, 0, 0, 167, 0, 833, true],
]));

test("what came of lots that aren't among these is told", () => assert.deepEqual(told([MERGED, SPLIT]), [
  ["DOUGH", 1, 0, 0, 90, 0, 0, 90, true], ["FLOUR", 1, 0, 0, 150, 150, 0, 0, true],
]));

test("what doesn't close is told", () => assert.equal(materialsOf([{ ...FLOUR, stock: 832 }])[0].closes, false));

test("stock is told by place, and places of none are left out", () => {
  const places = (lots) => materialsOf(lots).map((it) => it.places.map(({ place, stock }) => [place, Number(stock)]));
  assert.deepEqual(places([DOUGH, SPLIT, MERGED]), [[["", 30], ["C1", 456]], []]);
});

test("sums are exact above 2^53", () => {
  const most = 10 ** 15, lots = Array.from({ length: 11 }, (_, k) => lot(`L-${k}`, "SALT", { received: most - 1 }, {}, [["A1", most - 1]]));
  assert.equal(materialsOf(lots)[0].received, 11n * (10n ** 15n - 1n));
});

test("the file has the materials and then the lots", () => assert.deepEqual(rowsOf(rowsOfBalance([SPLIT, MERGED]), COLUMNS.balance).slice(1)
  .map((row) => row.map((it) => (typeof it === "bigint" ? Number(it) : it))), [
  ["DOUGH", undefined, "kg", 0, 0, 90, 0, 0, 0, 90, "no place: 30; C1: 60", undefined, undefined],
  ["FLOUR", undefined, "kg", 0, 0, 150, 150, 0, 0, 0, "", undefined, undefined],
  ["DOUGH", "D-3", "kg", 0, 0, 90, 0, 0, 0, 90, "no place: 30; C1: 60", false, false],
  ["FLOUR", "F-2", "kg", 0, 0, 150, 150, 0, 0, 0, "", false, false],
]));
