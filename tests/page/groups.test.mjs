import assert from "node:assert/strict";
import test from "node:test";

import { depthsOf, groupsOf, nameOfNode } from "../../page/groups.js";

const lot = (id, def, stock = 0, more = {}) => ({ lot: id, def, stock, unit: "kg", held: false, recalled: false, ...more });
const edge = (from, to, amount = 1) => ({ from, to, amount });
const named = (all) => new Map(all.map((it) => [nameOfNode(it), it]));

test("a node is one column behind the last of those that lead to it", () => {
  const depth = depthsOf(["c", "a", "b", "d"], [edge("a", "b"), edge("b", "c"), edge("a", "c"), edge("d", "c")]);
  assert.deepEqual(Object.fromEntries(depth), { a: 0, d: 0, b: 1, c: 2 });
});

test("a long chain needs no deep stack, and a cycle ends", () => {
  const names = Array.from({ length: 100_000 }, (_, k) => `n${k}`);
  assert.equal(depthsOf(names, names.slice(1).map((it, k) => edge(names[k], it))).get("n99999"), 99_999);
  assert.deepEqual([...depthsOf(["a", "b"], [edge("a", "b"), edge("b", "a")])], []);
});

const NODES = named([lot("F-1", "FLOUR", 5), lot("F-2", "FLOUR", 7, { held: true }), { batch: "B-1" }, { batch: "B-2" }, lot("D-1", "DOUGH"), lot("D-2",
  "DOUGH", 3, { recalled: true })]);
const EDGES = [edge("lot F-1", "batch B-1", 10), edge("lot F-2", "batch B-2", 20), edge("lot F-1", "batch B-2", 1), edge("batch B-1", "lot D-1", 9),
  edge("batch B-2", "lot D-2", 8)];

test("lots of a material and batches that made one are groups, with what they come to", () => {
  const { groups, edges, left } = groupsOf(NODES, EDGES, "lot NONE", () => true);
  assert.deepEqual([...groups.values()].map((it) => [it.key, it.count, it.stock, it.held, it.recalled, it.depth]), [
    ["back lots FLOUR", 2, 12, 1, 0, 0], ["back batches DOUGH", 2, 0, 0, 0, 1], ["back lots DOUGH", 2, 3, 0, 1, 2],
  ]);
  assert.deepEqual(edges, [edge("back lots FLOUR", "back batches DOUGH", 31), edge("back batches DOUGH", "back lots DOUGH", 17)]);
  assert.equal(left, 0);
});

test("what is looked at is a group of its own, between what came before it and what came of it", () => {
  const { groups } = groupsOf(NODES, EDGES, "batch B-2", (it) => it === "lot F-2" || it === "lot F-1");
  assert.deepEqual([...groups.keys()], ["back lots FLOUR", "forward batches DOUGH", "here batches DOUGH", "forward lots DOUGH"]);
});

test("a step to a group that begins no later is counted and not shown, so that groups have no cycle", () => {
  const nodes = named([lot("A-1", "A"), { batch: "B-1" }, lot("C-1", "C"), { batch: "B-2" }, lot("A-2", "A")]);
  const edges = [edge("lot A-1", "batch B-1"), edge("batch B-1", "lot C-1"), edge("lot C-1", "batch B-2"), edge("batch B-2", "lot A-2")];
  const found = groupsOf(nodes, edges, "lot NONE", () => true);
  assert.deepEqual(found.edges.map((it) => `${it.from} to ${it.to}`), ["back lots A to back batches C", "back batches C to back lots C",
    "back lots C to back batches A"]);
  assert.equal(found.left, 1);
});
