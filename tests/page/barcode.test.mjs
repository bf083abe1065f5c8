import assert from "node:assert/strict";
import test from "node:test";

import { QUIET, bars, codeWords, moduleFor } from "../../page/barcode.js";

// The widths of bars and gaps in a path, the quiet zones left out.
function widths(text) {
  const all = [...bars(text).path.matchAll(/M(\d+) 0h(\d+)/g)].map(([, from, width]) => [Number(from), Number(width)]);
  return all.flatMap(([from, width], k) => (k + 1 < all.length ? [width, all[k + 1][0] - from - width] : [width]));
}

test("a text has the code words of set B with their check word", () => {
  assert.deepEqual(codeWords("Wikipedia"), [104, 55, 73, 75, 73, 80, 69, 68, 73, 65, 88, 106]);
  assert.deepEqual(codeWords("F-1"), [104, 38, 13, 17, 13, 106]);
  assert.deepEqual(codeWords("F-1/2"), [104, 38, 13, 17, 15, 18, (104 + 38 + 26 + 51 + 60 + 90) % 103, 106]);
});

test("a letter that set B lacks has no code", () => {
  for (const it of ["", "\u00fc", "A\n", "F-1\u007f"]) assert.equal(codeWords(it), null, it);
});

test("the bars begin with the start of set B and end with the stop", () => {
  assert.equal(widths("A").join(""), "211214" + "111323" + "131123" + "2331112");
});

test("each code word is eleven modules wide, and no two are alike", () => {
  const seen = new Set();
  for (let code = 32; code < 127; code += 1) {
    const word = widths(String.fromCharCode(code)).slice(6, 12);
    assert.equal(word.reduce((sum, it) => sum + it), 11);
    assert.equal((word[0] + word[2] + word[4]) % 2, 0);
    seen.add(word.join(""));
  }
  assert.equal(seen.size, 95);
});

test("quiet zones stand on both sides", () => {
  const { path, width } = bars("F-1");
  assert.match(path, /^M10 0h2v1h-2z/);
  assert.equal(width, 5 * 11 + 13 + 2 * QUIET);
});

test("a module is as wide as the room allows", () => {
  assert.equal(moduleFor(100, 94), 0.5);
  assert.equal(moduleFor(200, 94), 0.375);
  assert.equal(moduleFor(bars("A".repeat(24)).width, 94), 0.25);
  assert.equal(moduleFor(1000, 94), 0.25);
});
