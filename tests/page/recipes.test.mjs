import assert from "node:assert/strict";
import test from "node:test";

import { LINES_EXAMPLE, LINES_HINT, isMaterial, lineOf, lineWords, linesText, procedureOf, recipeLines, scaled, withPath } from "../../page/recipes.js";

test("the example of the form is read", () => {
  assert.deepEqual(recipeLines(LINES_EXAMPLE), [[
    { kind: "in", def: "FLOUR", qty: 200 }, { kind: "out", def: "DOUGH", qty: 300 }, { kind: "par", name: "TEMP", value: "20 C" },
    { kind: "phase", unit: "MIX", oper: "BLEND", phase: "STIR" },
  ], null]);
});

test("small letters, empty lines and further spaces are taken", () => {
  assert.deepEqual(recipeLines("\n  in  flour   5 \n\npar note"), [[{ kind: "in", def: "FLOUR", qty: 5 }, { kind: "par", name: "NOTE", value: "" }], null]);
});

test("a line that can't be read is named by its number", () => {
  const wrong = ["in FLOUR", "in FLOUR 1 2", "in FLOUR x", "in 1FLOUR 2", "in FLOUR 12345678901234567", "add FLOUR 2", "par", "phase MIX BLEND",
    "phase A B C D"];
  for (const line of wrong) assert.deepEqual(recipeLines(`in FLOUR 1\n${line}`), [null, `Line 2 can't be read. ${LINES_HINT}`], line);
});

test("a phase has a path, and inputs and outputs are of materials", () => {
  assert.equal(withPath({ kind: "phase", unit: "MIX", oper: "BLEND", phase: "STIR" }).path, "MIX BLEND STIR");
  assert.deepEqual([{ kind: "in" }, { kind: "out" }, { kind: "par" }, { kind: "phase" }].map(isMaterial), [true, true, false, false]);
});

test("lines are written as they are read", () => {
  const [lines] = recipeLines(`${LINES_EXAMPLE}\npar NOTE`);
  assert.equal(linesText(lines), `${LINES_EXAMPLE}\npar NOTE`);
  assert.deepEqual(recipeLines(linesText(lines)), [lines, null]);
});

test("lines that are being written have as many words as their kind, and are written as they were", () => {
  const text = "in FLOUR 200\npar TEMP 20 C\nphase MIX BLEND STIR";
  assert.deepEqual(lineWords(text), [{ kind: "in", words: ["FLOUR", "200"] }, { kind: "par", words: ["TEMP", "20 C"] }, { kind: "phase", words: ["MIX", "BLEND", "STIR"] }]);
  assert.equal(lineWords(`\n  ${text.replaceAll("\n", "\n\n ")} `).map(lineOf).join("\n"), text);
  for (const [line, words] of [["in", ["", ""]], ["out DOUGH", ["DOUGH", ""]], ["par", ["", ""]], ["phase MIX", ["MIX", "", ""]]]) {
    assert.deepEqual(lineWords(line), [{ kind: line.split(" ")[0], words }], line);
    assert.equal(lineWords(line).map(lineOf).join(), line);
  }
  for (const line of ["in FLOUR 1 2", "add FLOUR 2", "phase A B C D", "toString"]) {
    assert.deepEqual(lineWords(line), [{ kind: null, words: [line] }], line);
    assert.equal(lineWords(line).map(lineOf).join(), line);
  }
  assert.deepEqual(lineWords("in flour 5\npar temp 20 c\nphase mix blend stir").map((it) => it.words.join()), ["FLOUR,5", "TEMP,20 c", "MIX,BLEND,STIR"]);
  assert.deepEqual(lineWords(" \n"), []);
});

test("amounts are scaled as the desk scales them", () => {
  assert.equal(scaled(100, 300, 500), 167);
  assert.equal(scaled(300, 300, 500), 500);
  assert.equal(scaled(1, 2, 1), 1);
  assert.equal(scaled(1, 3, 1), 0);
  assert.equal(scaled(10 ** 15, 10 ** 15, 999999999999999), 999999999999999);
  assert.equal(scaled(10 ** 15 - 1, 3, 3), 10 ** 15 - 1);
});

test("parameters belong to the phase after them, and those after the last phase to none", () => {
  const par = (name) => ({ kind: "par", name, value: "1" }), phase = (path) => ({ kind: "phase", path });
  const { phases, last } = procedureOf([{ kind: "in", def: "FLOUR" }, par("A"), par("B"), phase("P1"), phase("P2"), par("C"), { kind: "out", def: "DOUGH" },
    phase("P3"), par("D")]);
  assert.deepEqual(phases.map((it) => [it.path, it.parameters.map((one) => one.name).join("")]), [["P1", "AB"], ["P2", ""], ["P3", "C"]]);
  assert.deepEqual(last, [par("D")]);
  assert.deepEqual(procedureOf([]), { phases: [], last: [] });
});
