import assert from "node:assert/strict";
import test from "node:test";

import { GAP, NO_KEYS, isAgain, lotOf, lotOfSupplier, pressed, withCode } from "../../page/scans.js";

// What is scanned by keys, each a key and the milliseconds since the one before it.
function scanned(...strokes) {
  let keys = NO_KEYS, time = 1000;
  for (const [key, gap] of strokes) {
    time += gap;
    keys = pressed(keys, key, time);
  }
  return keys.code;
}
const typed = (text, gap) => [...text].map((key) => [key, gap]);

test("keys that follow one another closely and end in Enter are a scan", () => {
  assert.equal(scanned(...typed("ZZ-OLD", 5), ["Enter", 5]), "ZZ-OLD");
  assert.equal(scanned(...typed("4006381333931", GAP - 1), ["Enter", GAP - 1]), "4006381333931");
  assert.equal(scanned(["x", 5], ...typed("F-1", 0).map(([key], k) => [key, k ? 0 : 500]), ["Enter", 0]), "F-1");
});

test("what a person types is no scan", () => {
  assert.equal(scanned(...typed("ZZ-OLD", GAP), ["Enter", GAP]), null);
  assert.equal(scanned(...typed("ZZ-OLD", 5), ["Enter", 200]), null);
  assert.equal(scanned(["F", 200], ["1", 5], ["Enter", 200]), null);
  assert.equal(scanned(["1", 200], ["Enter", 5]), null);
  assert.equal(scanned(["Enter", 5]), null);
  assert.equal(scanned(...typed("F-1", 5), ["Tab", 5], ["Enter", 5]), null);
});

test("capitals that a scanner makes by Shift are of the scan", () => {
  assert.equal(scanned(["Shift", 500], ["Z", 5], ["Shift", 5], ["Z", 5], ["-", 5], ["Enter", 5]), "ZZ-");
});

test("a run says with which key it began", () => {
  const first = pressed(NO_KEYS, "2", 1000), second = pressed(first, "6", 1005);
  assert.deepEqual([first.isFirst, second.isFirst, second.text], [true, false, "26"]);
  assert.equal(pressed(second, "4", 1005 + GAP).isFirst, true);
});

test("the same code within two seconds may be the same scan", () => {
  assert.ok(isAgain({ code: "F-1", time: 1000 }, "F-1", 2999));
  assert.ok(!isAgain({ code: "F-1", time: 1000 }, "F-1", 3000));
  assert.ok(!isAgain({ code: "F-1", time: 1000 }, "F-2", 1001));
});

test("a code names a lot, and perhaps its part", () => {
  assert.deepEqual(lotOf("f-1"), { lot: "F-1", sub: null });
  assert.deepEqual(lotOf(" F-1/12 "), { lot: "F-1", sub: 12 });
  assert.deepEqual(lotOf("/F-1"), { lot: "F-1", sub: null });
  assert.deepEqual(lotOf("4711-22"), { lot: "L-4711-22", sub: null });
  assert.deepEqual(lotOf("?!"), { lot: null, sub: null });
});

test("a supplier's code becomes an id", () => {
  assert.equal(lotOfSupplier("4006381333931"), "L-4006381333931");
  assert.equal(lotOfSupplier("ab_12.3/4"), "L-AB-12-3-4");
  assert.equal(lotOfSupplier("(01)04006381333931(10)ABCDEF"), "L-01-04006381333931-10-A");
  assert.equal(lotOfSupplier("--"), null);
});

test("a note keeps a supplier's code, once and within 60 letters of ASCII", () => {
  assert.equal(withCode("", "4711-22"), "supplier's code 4711-22");
  assert.equal(withCode("wet", "4711-22"), "supplier's code 4711-22; wet");
  assert.equal(withCode("supplier's code 4711-22; wet", "4711-22"), "supplier's code 4711-22; wet");
  assert.equal(withCode("x".repeat(60), "47\u00dc").length, 60);
  assert.match(withCode("", "47\u00dc"), /^supplier's code 47\?$/);
});
