import assert from "node:assert/strict";
import test from "node:test";

import { readPage } from "../../page/cursors.js";

test("a list goes on behind the key of its last item", () => {
  const keys = {
    "orders_by_due/open": [{ orders: [{ due: "2027-03-01", order: "O-1" }] }, "2027-03-01.O-1"],
    "recipes/draft": [{ recipes: [{ recipe: "CAKE", version: 2 }] }, "CAKE.2"],
    "movements/F-1": [{ movements: [{ seq: 12, line: 1 }] }, "12.1"],
    all_holds: [{ holds: [{ lot: "F-1", hold: "H-1" }] }, "F-1.H-1"],
    closed_batches: [{ batches: [{ batch: "B-1" }, { batch: "B-2" }] }, "B-2"],
    lifted_recalls: [{ recalls: [{ recall: "R-1" }] }, "R-1"],
    "stocks/RAW": [{ stocks: [{ def: "FLOUR" }, { def: "YEAST" }] }, "YEAST"],
    "definitions/RAW": [{ definitions: [{ def: "FLOUR" }, { def: "YEAST" }] }, "YEAST"],
  };
  for (const [path, [page, last]] of Object.entries(keys)) {
    assert.equal(readPage(path, { ...page, more: true }).last, last, path);
    assert.equal(readPage(path, { ...page, more: false }).last, null, path);
  }
});

test("lots in stock go on behind the booking that made the last of them, and one that has none counts as 0", () => {
  const page = (seq) => ({ lots: [{ seq: 3, lot: "Z-9" }, { seq, lot: "F-1" }], more: true });
  assert.equal(readPage("stock/FLOUR", page(12)).last, "12.F-1");
  assert.equal(readPage("stock/FLOUR", page(null)).last, "0.F-1");
  assert.equal(readPage("stock/FLOUR", { ...page(12), more: false }).last, null);
  assert.deepEqual(readPage("stock/FLOUR/3.Z-9", page(12)).items.map((it) => it.lot), ["Z-9", "F-1"]);
});

test("nothing stands behind a page without items", () => {
  assert.deepEqual(readPage("batches", { batches: [], more: true }), { items: [], last: null });
});
