import assert from "node:assert/strict";
import test from "node:test";

import { capital, counted, doubtOf, excess, grouped } from "../../page/amounts.js";

test("digits stand in groups of three", () => {
  assert.equal(grouped(0), "0");
  assert.equal(grouped(1234), "1\u202f234");
  assert.equal(grouped(10 ** 15), "1\u202f000\u202f000\u202f000\u202f000\u202f000");
});

test("one of a thing is counted by its one word", () => {
  assert.equal(counted(1, "lot", "lots"), "1 lot");
  assert.equal(counted(0, "batch", "batches"), "0 batches");
  assert.equal(counted(2000, "lot", "lots"), "2\u202f000 lots");
});

test("a word is written with a capital", () => assert.equal(capital("start"), "Start"));

test("a doubt tells what was asked, what is booked and what it would be", () => {
  const line = { asked: 250, booked: 250, unit: "kg" };
  assert.equal(doubtOf(line, 2250, 250), "Asked 250 kg, booked 250 kg: this makes 2\u202f500 kg, 10 times what was asked.");
  assert.equal(doubtOf({ asked: 750, booked: 750, unit: "m" }, 750, 0),
    "Since the form was opened, 750 m was booked. Asked 750 m, booked 750 m: this makes 1\u202f500 m, 2 times what was asked.");
  assert.equal(doubtOf({ asked: 100, booked: 99, unit: "pcs" }, 2, 99), "Asked 100 pcs, booked 99 pcs: this makes 101 pcs.");
});

test("no doubt is there up to what was asked", () => {
  assert.equal(doubtOf({ asked: 250, booked: 0, unit: "kg" }, 250, 0), null);
  assert.equal(doubtOf({ asked: 250, booked: 100, unit: "kg" }, 150, 0), null);
  assert.deepEqual([excess({ asked: 250, booked: 2500 }), excess({ asked: 250, booked: 0 }), excess({ asked: 1, booked: 1 }, 1)], [2250, 0, 1]);
});
