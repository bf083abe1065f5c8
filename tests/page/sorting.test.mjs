import assert from "node:assert/strict";
import test from "node:test";

import { filteredOrders, inAll, sortedBy, sortedOrders } from "../../page/sorting.js";

const order = (id, due, priority, recipe, version, size) => ({ order: id, due, priority, recipe, version, size });
const ORDERS = [order("O-3", "2027-03-02", 5, "BREAD", 2, 300), order("O-1", "2027-03-01", 5, "CAKE", 1, 200), order("O-2", "2027-03-01", 9, "BREAD", 10, 200)];
const ids = (orders) => orders.map((it) => it.order).join(" ");

test("orders are sorted by each of their values, and back", () => {
  const wanted = { due: "O-2 O-1 O-3", order: "O-1 O-2 O-3", priority: "O-2 O-1 O-3", recipe: "O-3 O-2 O-1", size: "O-2 O-1 O-3" };
  for (const by of Object.keys(wanted)) assert.equal(ids(sortedOrders(ORDERS, by, false)), wanted[by], by);
  const back = { due: "O-3 O-1 O-2", order: "O-3 O-2 O-1", priority: "O-1 O-3 O-2", recipe: "O-1 O-2 O-3", size: "O-3 O-2 O-1" };
  for (const by of Object.keys(back)) assert.equal(ids(sortedOrders(ORDERS, by, true)), back[by], by);
  assert.equal(ids(ORDERS), "O-3 O-1 O-2");
});

test("items are sorted by what is told of them, and those that are alike stay as they come", () => {
  const items = [{ n: 10, id: "A" }, { n: 9, id: "B" }, { n: 10, id: "C" }, { n: null, id: "D" }], sorted = (of, isBack) => sortedBy(items, of, isBack).map((it) => it.id);
  assert.equal(sorted((it) => it.n, false).join(""), "DBAC");
  assert.equal(sorted((it) => it.n, true).join(""), "ACBD");
  assert.equal(sorted((it) => it.id, true).join(""), "DCBA");
  assert.equal(items[0].id, "A");
});

test("orders are filtered by recipe and by each word of a text", () => {
  const titleOf = (it) => (it.recipe === "CAKE" ? "Plum cake" : "");
  const found = (recipe, text) => ids(filteredOrders(ORDERS, recipe, text, titleOf));
  assert.equal(found("", ""), "O-3 O-1 O-2");
  assert.equal(found("BREAD", " "), "O-3 O-2");
  assert.equal(found("", "plum"), "O-1");
  assert.equal(found("", "03-01 bread"), "O-2");
  assert.equal(found("CAKE", "bread"), "");
});

test("demands of one material are one", () => {
  const demands = [{ def: "A", amount: 2, unit: "kg" }, { def: "B", amount: 5, unit: "l" }, { def: "A", amount: 3, unit: "kg" }];
  assert.deepEqual(inAll(demands), [{ def: "A", unit: "kg", asked: 5 }, { def: "B", unit: "l", asked: 5 }]);
});
