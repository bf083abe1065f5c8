import assert from "node:assert/strict";
import test from "node:test";

import { idBefore, idOf, isId, plainText } from "../../page/ids.js";

test("an id has a capital letter first, then at most 23 capital letters, digits and -", () => {
  for (const id of ["F", "F-1", "A".repeat(24), "L-4006381333931"]) assert.ok(isId(id), id);
  for (const text of ["", "1", "-F", "f-1", "F 1", "F/1", "A".repeat(25), "\u00c4"]) assert.ok(!isId(text), text);
});

test("an id of parts is cut where it is too long", () => {
  assert.equal(idOf("BREAD", "B-4", 2), "BREAD-B-4-2");
  assert.equal(idOf("A".repeat(20), "BCDEF"), `${"A".repeat(20)}-BCD`);
});

test("right before an id comes the last one that is less", () => {
  const last = (start) => start.padEnd(24, "Z"), full = `A${"-".repeat(23)}`;
  const before = { FLOUR: last("FLOUQ"), "F-1": last("F-0"), "F-0": last("F--"), FA: last("F9"), "F-": "F", B: last("A"), A: "A", [full]: full.slice(0, 23) };
  for (const [id, wanted] of Object.entries(before)) {
    assert.equal(idBefore(id), wanted, id);
    assert.ok(isId(idBefore(id)) && (id === "A" || idBefore(id) < id), id);
  }
  assert.equal(idBefore(`${"A".repeat(23)}B`), "A".repeat(24));
});

test("a text becomes one of plain letters, where there are such", () => {
  assert.equal(plainText("K\u00fchlhaus \u00d61, gew\u00fcrzt, Gro\u00df"), "Kuehlhaus Oe1, gewuerzt, Gross");
  assert.equal(plainText("Ku\u0308hl, Zo\u00eb, \u0141\u00f3d\u017a"), "Kuehl, Zoe, Lodz");
  assert.equal(plainText("plain"), "plain");
  assert.equal(plainText("\u4e2d"), null);
});
