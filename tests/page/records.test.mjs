import assert from "node:assert/strict";
import test from "node:test";

import { readRecord } from "../../page/records.js";

const RECORD = `BATCH RECORD B-1
order O-1 due 2027-03-01 priority 5 state finished
recipe CAKE 1 product DOUGH size 500 base 300
released at 200 by anna note early
state complete attempt 1 phases 1 of 1 closed
CONTROL RECIPE
  1 in FLOUR 167 kg
  2 out DOUGH 500 kg
  3 par TEMP 80 C
  4 phase MIX BLEND STIR
EVENTS
     9 start at 210 by ben
    11 phase 1 at 230 by ben note at 20 C, by hand
CONSUMED
    10 F-1/0 FLOUR 167 kg at 220 by ben
PRODUCED
    12 D-1 DOUGH 490 kg scrapped 10 at 240 by ben note burnt
TOTALS
in FLOUR asked 167 booked 167
out DOUGH asked 500 booked 490
END`;

test("a batch record is read with its moments, operators and notes", () => {
  const record = readRecord(RECORD);
  assert.deepEqual(record.lines.map((it) => it.kind), ["in", "out", "par", "phase"]);
  assert.equal(record.lines[3].path, "MIX BLEND STIR");
  assert.equal(record.lines[2].value, "80 C");
  assert.deepEqual([record.released.at, record.released.by, record.released.note], [200, "anna", "early"]);
  assert.deepEqual(record.events.map((it) => [it.seq, it.what, it.at, it.note]), [[9, "start", 210, ""], [11, "phase 1: MIX BLEND STIR", 230, "at 20 C, by hand"]]);
  assert.deepEqual(record.consumed.map((it) => it.words), [["F-1/0", "FLOUR", "167", "kg"]]);
  assert.deepEqual([record.produced[0].words[5], record.produced[0].note], ["10", "burnt"]);
  assert.deepEqual(record.totals.map((it) => [it.kind, it.def, it.booked]), [["in", "FLOUR", 167], ["out", "DOUGH", 490]]);
});
