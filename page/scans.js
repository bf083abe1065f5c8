// Codes of scanners, which come as keys: what a scanner typed and what a person, and which lot a code names.

import { t } from "./texts.js";
import { idOf, isId } from "./ids.js";

// The keys of a scan follow one another within so many milliseconds; the same code within so many may not be meant a second time.
export const GAP = 30;
const TWICE = 2000;

// The fewest characters of a code.
const LEAST = 2;

// The keys so far that followed one another as those of a scan do: their text, and the moment of the last.
export const NO_KEYS = { text: "", last: -Infinity };

// The keys once another one was pressed, at a moment in milliseconds. `isFirst` says that a run begins with it, and `code` is what was scanned once
// an Enter ends it. Keys such as Shift, which a scanner presses for capitals, end no run.
export function pressed(keys, key, time) {
  const isQuick = time - keys.last < GAP;
  if (key === "Enter") return { ...NO_KEYS, code: isQuick && keys.text.length >= LEAST ? keys.text : null };
  if (key === "Shift" || key === "CapsLock") return isQuick ? { ...keys, last: time, isFirst: false } : NO_KEYS;
  if (key.length !== 1) return NO_KEYS;
  return isQuick ? { text: keys.text + key, last: time, isFirst: false } : { text: key, last: time, isFirst: true };
}

// Whether a code was scanned so soon after the one before that it may be the same scan.
export const isAgain = (before, code, time) => before.code === code && time - before.time < TWICE;

// The lot of a code that is no id, such as a supplier's 4711-22 or an EAN: L-4711-22. None where nothing is left of the code.
export function lotOfSupplier(code) {
  const word = code.toUpperCase().replace(/[^A-Z0-9]+/g, "-").replace(/^-|-$/g, "");
  return word ? idOf("L", word) : null;
}

// The lot that a code names, and the number of its part: F-1 is a lot, F-1/2 its part 2, and 4711-22 the lot of a supplier. A / before it counts for
// nothing.
export function lotOf(code) {
  const [, word, no] = /^\/?(.*?)(?:\/([0-9]{1,3}))?$/.exec(code.trim().toUpperCase());
  return { lot: isId(word) ? word : lotOfSupplier(word), sub: no === undefined ? null : Number(no) };
}

// A note with a supplier's code in it, in plain ASCII and at most 60 letters.
export function withCode(note, code) {
  const word = t`supplier's code ${code.replace(/[^ -~]/g, "?")}`;
  return (note.includes(word) ? note : note ? `${word}; ${note}` : word).slice(0, 60);
}
