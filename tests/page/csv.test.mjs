import assert from "node:assert/strict";
import test from "node:test";

import { COLUMNS, csvOf, partsOfLots, rowsOf, rowsOfRecord, separatorOf } from "../../page/csv.js";

test("a semicolon separates where numbers have a comma", () => {
  for (const [locale, separator] of [["en-GB", ","], ["de-DE", ";"], ["fr-FR", ";"], ["de-CH", ","], ["pl", ";"], ["ja-JP", ","]]) {
    assert.equal(separatorOf(locale), separator, locale);
  }
});

test("lines end as RFC 4180 has it, and what would break a value is quoted", () => {
  assert.equal(csvOf([["a", 1, null], ["b c", true, false]], ","), "a,1,\r\nb c,yes,no\r\n");
  assert.equal(csvOf([["a,b", "say \"no\"", "two\nlines", "x;y"]], ","), "\"a,b\",\"say \"\"no\"\"\",\"two\nlines\",x;y\r\n");
  assert.equal(csvOf([["a,b", "x;y"]], ";"), "a,b;\"x;y\"\r\n");
});

test("a text that a spreadsheet would take for a formula is harmless, and a number is one", () => {
  const texts = ["=1+1", "+49 30", "-1", "@SUM(A1)", "\t=1", "=HYPERLINK(\"x\",1)", "a=b", -5];
  assert.equal(csvOf([texts], ","), "'=1+1,'+49 30,'-1,'@SUM(A1),'\t=1,\"'=HYPERLINK(\"\"x\"\",1)\",a=b,-5\r\n");
});

test("a list has the names of its columns first", () => {
  const orders = [{ order: "O-1", state: "open", due: "2027-03-01", priority: 5, recipe: "CAKE", version: 1, size: 300 }];
  assert.deepEqual(rowsOf(orders, COLUMNS.orders), [["Order", "State", "Due", "Priority", "Recipe", "Version", "Size"],
    ["O-1", "open", "2027-03-01", 5, "CAKE", 1, 300]]);
});

test("lots have a row for each part with stock, with the booking that made the lot", () => {
  const made = { at: 86_400 * 365, by: "carl", note: "from the mill", seq: 12 };
  const lots = [
    { lot: "F-1", held: true, recalled: false, stock: 5, ...made, sublots: [{ no: 0, place: "A1", stock: 0 }, { no: 1, place: "A2", stock: 5 }] },
    { lot: "F-2", held: false, recalled: true, stock: 7, at: null, by: null, note: null, seq: null, sublots: [{ no: 0, place: "", stock: 7 }] },
  ];
  const rows = rowsOf(partsOfLots(lots).map((it) => ({ ...it, def: "FLOUR", unit: "kg" })), COLUMNS.lots);
  assert.deepEqual(rows, [
    ["Lot", "Material", "Part", "Place", "Stock", "Unit", "On hold", "Recalled", "Came", "By", "Note", "Number"],
    ["F-1", "FLOUR", 1, "A2", 5, "kg", true, false, "1971-01-01", "carl", "from the mill", 12],
    ["F-2", "FLOUR", 0, "", 7, "kg", false, true, "", null, null, null],
  ]);
});

test("materials have what there is of them", () => {
  const rows = rowsOf([{ class: "RAW", def: "FLOUR", name: "Flour", unit: "kg", lots: 3, usable: 350, held: 20, recalled: 5 }], COLUMNS.materials);
  assert.deepEqual(rows, [["Class", "Material", "Name", "Unit", "Lots", "Free", "On hold", "Recalled"], ["RAW", "FLOUR", "Flour", "kg", 3, 350, 20, 5]]);
});

test("a lifted recall says when and why", () => {
  const recall = { recall: "RC-1", lot: "F-1", at: 0, by: "dora", note: "moths", lift: { at: 60, by: "ben", note: "a false alarm" } };
  assert.deepEqual(rowsOf([recall], COLUMNS.recalls)[1].slice(6), ["ben", "a false alarm"]);
  assert.equal(rowsOf([{ ...recall, lift: undefined }], COLUMNS.recalls)[1][6], undefined);
});

test("a record has a row for each line of its tables", () => {
  const stamp = { at: 60, by: "ben", note: "" };
  const record = { lines: [{ kind: "in", def: "FLOUR", amount: 200, unit: "kg" }, { kind: "phase", path: "MIX BLEND STIR" }],
    events: [{ seq: 3, what: "start", words: ["start"], ...stamp }],
    consumed: [{ seq: 4, what: "", words: ["F-1/0", "FLOUR", "200", "kg"], ...stamp }],
    produced: [{ seq: 5, what: "", words: ["D-1", "DOUGH", "300", "kg", "scrapped", "10"], ...stamp }] };
  const rows = rowsOf(rowsOfRecord(record, [{ kind: "in", def: "FLOUR", asked: 200, booked: 200, unit: "kg" }]), COLUMNS.record);
  assert.deepEqual(rows.map((it) => it.slice(0, 9)).slice(1), [
    ["Control recipe", 1, "in", undefined, "FLOUR", 200, "kg", undefined, undefined],
    ["Control recipe", 2, "phase", undefined, "MIX BLEND STIR", undefined, undefined, undefined, undefined],
    ["Events", 3, "start", undefined, undefined, undefined, undefined, undefined, undefined],
    ["Consumed", 4, "consumed", "F-1/0", "FLOUR", 200, "kg", undefined, null],
    ["Produced", 5, "produced", "D-1", "DOUGH", 300, "kg", undefined, 10],
    ["Totals", undefined, "in", undefined, "FLOUR", 200, "kg", 200, undefined],
  ]);
});
