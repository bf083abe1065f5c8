import assert from "node:assert/strict";
import test from "node:test";

import { isAbove, isSamePlace, placeFrom, readAddress, withFilter } from "../../page/addresses.js";

const filters = (hash) => Object.fromEntries(readAddress(hash).filters);

test("an address has a view, words and filters", () => {
  const { name, words } = readAddress("#quality/lot/F-1?recalls=lifted&record=text");
  assert.deepEqual([name, words], ["quality", ["lot", "F-1"]]);
  assert.deepEqual(filters("#quality/lot/F-1?recalls=lifted&record=text"), { recalls: "lifted", record: "text" });
  assert.deepEqual(filters("#planner/O-1"), {});
});

test("what is no filter is left out", () => {
  assert.deepEqual(filters("#planner?orders=<b>&x&=y&ORDERS=open&orders=released"), { orders: "released" });
});

test("a filter is set, replaced and taken away", () => {
  assert.equal(withFilter("#planner", "orders", "released"), "planner?orders=released");
  assert.equal(withFilter("#planner/O-1?orders=released", "orders", "finished"), "planner/O-1?orders=finished");
  assert.equal(withFilter("#planner?orders=released&withdrawn=shown", "orders", null), "planner?withdrawn=shown");
  assert.equal(withFilter("#planner?orders=released", "orders", null), "planner");
});

test("a filter may be a text", () => {
  const text = "O-1 & <b>=100%? m\u00fc/'()*!";
  const address = withFilter("#planner/O-1", "text", text);
  assert.match(address, /^planner\/O-1\?text=[A-Za-z0-9%_.~'()*!-]+$/);
  assert.deepEqual(filters(`#${address}`), { text });
  assert.deepEqual(filters("#planner?text=%E0%A4%A&orders=open"), { text: "", orders: "open" });
});

test("filters stay within a view", () => {
  assert.equal(placeFrom("#shift?batches=closed", "shift/B-1"), "shift/B-1?batches=closed");
  assert.equal(placeFrom("#shift?batches=closed", "quality/lot/F-1"), "quality/lot/F-1");
});

test("a place is the same under other filters, and a list is above its things", () => {
  assert.equal(isSamePlace("#shift/B-1?batches=closed", "#shift/B-1"), true);
  assert.equal(isSamePlace("#shift/B-1", "#shift"), false);
  assert.equal(isAbove("#warehouse/FLOUR?x=y", "#warehouse/FLOUR/F-1"), true);
  assert.equal(isAbove("#warehouse/FLOUR", "#warehouse/FLOUR"), false);
  assert.equal(isAbove("#warehouse/FLO", "#warehouse/FLOUR/F-1"), false);
});
