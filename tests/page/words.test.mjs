import assert from "node:assert/strict";
import test from "node:test";

process.env.TZ = "Europe/Berlin";
const { REFUSALS, STATES, cameInWords, fieldsInWords, keyOfPart, partInWords, placeOfPart, plainly } = await import("../../page/words.js");

test("an answer that isn't what was wished for is told in plain words", () => {
  assert.equal(plainly({ status: 409, body: { name: "Held" } }), `${REFUSALS.Held} (Held)`);
  assert.equal(plainly({ status: 409, body: { name: "Later" } }), "The desk refuses that. (Later)");
  assert.match(plainly({ status: 400, body: { csv: "Due", row: 2 } }), /^Row 2 of the file, .*\(Due\) Nothing was taken in\.$/);
  assert.match(plainly({ status: 400, body: { ahead: 300, status: 400 } }), /more than 300 seconds ahead/);
  assert.match(plainly({ status: 503, body: { fault: 2 } }), /out of memory for now/);
  assert.match(plainly({ status: 503, body: { fault: 1 } }), /store failed/);
  assert.match(plainly({ status: 403, body: { status: 403 } }), /under this name/);
  assert.equal(plainly({ status: 404, body: { status: 404 } }), "The desk doesn't know that. (404)");
});

test("the fields of a command are told with what they are", () => {
  assert.equal(fieldsInWords("scrap", ["F-1", "0", "20000"]), "lot F-1, part 0, amount 20\u202f000");
  assert.equal(fieldsInWords("unhold", ["F-1", "H-2"]), "lot F-1, hold H-2");
  assert.equal(fieldsInWords("batch", ["B-1", "pause"]), "batch B-1, pause");
  assert.equal(fieldsInWords("merge", ["M-1", "A1", "2", "F-1", "0", "5", "F-2", "3", "6"]), "new lot M-1, place A1, lots 2, F-1/0, F-2/3");
  assert.equal(fieldsInWords("later", ["F-1"]), "");
});

test("each state that a word leads to is in the state table", () => {
  for (const moves of Object.values(STATES)) for (const state of Object.values(moves)) assert.ok(Object.hasOwn(STATES, state), state);
});

test("a part of a lot is told with the day on which it came and what bars it", () => {
  const part = { lot: "F-1", sub: 2, stock: 1500, place: "A1", at: 86_400 * 365, barred: "" };
  assert.equal(keyOfPart(part), "F-1/2");
  assert.equal(placeOfPart({ ...part, place: "" }), "F-1/2 at no place");
  assert.deepEqual([cameInWords(part), cameInWords({ ...part, at: null })], [", came 1971-01-01", ""]);
  assert.equal(partInWords(part, "kg"), "F-1/2 at A1: 1\u202f500 kg, came 1971-01-01");
  assert.equal(partInWords({ ...part, place: "", barred: "on hold" }, "kg"), "F-1/2 at no place: 1\u202f500 kg, came 1971-01-01, on hold");
  assert.equal(partInWords({ ...part, at: null }, "kg"), "F-1/2 at A1: 1\u202f500 kg");
});
