import assert from "node:assert/strict";
import test from "node:test";

import { isNamed } from "../../page/names.js";

test("a name is found by the beginnings of its words, in any order and whatever their case", () => {
  for (const typed of ["wheat", "FLOUR", "wh fl", "flour wheat", "550", "type-55", "  wheat  "]) assert.ok(isNamed("Wheat flour, type 550", typed), typed);
  for (const typed of ["", "  ", "-", "heat", "wheat rye", "5500", "flours"]) assert.ok(!isNamed("Wheat flour, type 550", typed), typed);
});

test("letters of other languages are letters", () => {
  assert.ok(isNamed("Crème brûlée", "br\u00fb"));
  assert.ok(isNamed("M\u00fcsli", "M\u00dcS"));
  assert.ok(!isNamed("", "a"));
});
