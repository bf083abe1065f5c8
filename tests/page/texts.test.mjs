import assert from "node:assert/strict";
import { readdirSync } from "node:fs";
import test from "node:test";

process.env.TZ = "Europe/Berlin";
const { sayAs, t } = await import("../../page/texts.js");
const { counted, decimal, marked } = await import("../../page/amounts.js");
const { dated, lengthOfTime, moment, shortDay, stamp } = await import("../../page/moments.js");
const { commandWord, eventInWords, partInWords, plainly, wordOf } = await import("../../page/words.js");

const FOLDER = new URL("../../page/texts/german/", import.meta.url);
const german = {};
for (const name of readdirSync(FOLDER)) Object.assign(german, (await import(new URL(name, FOLDER))).default);

test("a text is English where no table has it, without what says which of two things is meant", () => {
  sayAs({});
  assert.equal(t`Lot ${"F-1"}`, "Lot F-1");
  assert.equal(t("Hold^verb"), "Hold");
  assert.equal(t`Close^batch`, "Close");
  assert.equal(decimal(99.25, 1), "99.3");
  assert.equal(moment(0), "1970-01-01 01:00");
});

test("a text is what a table has, with what is put in where the table has it, and as it is", () => {
  sayAs({ "{0} of {1}": "{1}: {0}", "Lot {0}": "Los {0}", constructor: "Bau" });
  assert.equal(t`${1} of ${"{0}"}`, "{0}: 1");
  assert.equal(t`Lot ${"$& {1}"}`, "Los $& {1}");
  assert.equal(t("constructor"), "Bau");
  assert.equal(t("toString"), "toString");
});

test("numbers, days and moments are those of the language", () => {
  sayAs(german);
  assert.equal(decimal(99.25, 1), "99,3");
  assert.equal(marked("1.5M"), "1,5M");
  assert.equal(moment(1_772_323_199, true), "01.03.2026 00:59:59");
  assert.equal(stamp(1_772_323_199), "2026-03-01 00:59:59");
  assert.deepEqual([dated("2027-03-01"), dated(""), shortDay("2027-03-01")], ["01.03.2027", "", "01.03."]);
  assert.deepEqual([lengthOfTime(7200), counted(1, "lot", "lots"), counted(2000, "batch", "batches")], ["2 Stunden", "1 Los", "2\u202f000 Chargen"]);
});

test("words of the desk are said, and words of the data stay as they are", () => {
  sayAs(german);
  assert.deepEqual(["running", "released", "consumed", "FLOUR", "constructor"].map(wordOf), ["l\u00e4uft", "freigegeben", "verbraucht", "FLOUR", "constructor"]);
  assert.deepEqual([commandWord("hold"), commandWord("later")], ["Sperre", "later"]);
  assert.deepEqual([eventInWords("hold"), eventInWords("phase 1: MIX BLEND STIR"), eventInWords("other 2")], ["Anhalten", "Phase 1: MIX BLEND STIR", "other 2"]);
  assert.equal(partInWords({ lot: "F-1", sub: 2, stock: 1500, place: "", at: 0, barred: "" }, "kg"), "F-1/2 (ohne Platz): 1\u202f500 kg, Zugang 01.01.1970");
  assert.equal(plainly({ status: 409, body: { name: "Held" } }), "Das Los ist gesperrt. Die Qualit\u00e4t kann die Sperre aufheben. (Held)");
});

test("each language puts in what English puts in", () => {
  const places = (text) => [...new Set(text.match(/\{\d\}/g))].sort();
  assert.ok(Object.keys(german).length > 700);
  for (const [english, other] of Object.entries(german)) assert.deepEqual(places(other), places(english), english);
});
