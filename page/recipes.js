// Recipes: their lines, as they are written in the form and as the desk tells them.

import { t } from "./texts.js";
import { isId } from "./ids.js";

export const LINES_HINT = "One to a line: in MATERIAL AMOUNT, out MATERIAL AMOUNT, par NAME VALUE, phase UNIT OPERATION PHASE.";
export const LINES_EXAMPLE = "in FLOUR 200\nout DOUGH 300\npar TEMP 20 C\nphase MIX BLEND STIR";

// The lines of a recipe as they are written in the form, or what is wrong with one.
export function recipeLines(text) {
  const lines = [];
  for (const [k, line] of text.split("\n").entries()) {
    if (!line.trim()) continue;
    const read = recipeLine(line.trim().split(/\s+/));
    if (!read) return [null, `${t`Line ${k + 1} can't be read.`} ${t(LINES_HINT)}`];
    lines.push(read);
  }
  return [lines, null];
}
function recipeLine([kind, ...words]) {
  const ids = words.map((it) => it.toUpperCase()), isAmount = /^[0-9]{1,16}$/.test(words[1]);
  if ((kind === "in" || kind === "out") && words.length === 2 && isId(ids[0]) && isAmount) return { kind, def: ids[0], qty: Number(words[1]) };
  if (kind === "par" && words.length >= 1 && isId(ids[0])) return { kind, name: ids[0], value: words.slice(1).join(" ") };
  if (kind === "phase" && words.length === 3 && ids.every(isId)) return { kind, unit: ids[0], oper: ids[1], phase: ids[2] };
  return null;
}

// Lines of a recipe as they are written in the form.
const LINE_TEXTS = { in: (it) => `in ${it.def} ${it.qty}`, out: (it) => `out ${it.def} ${it.qty}`, par: (it) => `par ${it.name} ${it.value}`.trim(),
  phase: (it) => `phase ${it.unit} ${it.oper} ${it.phase}` };
export const linesText = (lines) => lines.map((it) => LINE_TEXTS[it.kind](it)).join("\n");

// Lines that are being written, each with its kind and as many words as that has, ids in capitals; the value of a parameter is one word. Another line has no
// kind, and itself as its word. And such a line as it is written.
const COUNTS = { in: 2, out: 2, par: 2, phase: 3 };
export const lineWords = (text) => text.split("\n").map((it) => it.trim()).filter(Boolean).map((line) => {
  const [kind, ...rest] = line.split(/\s+/), count = Object.hasOwn(COUNTS, kind) && COUNTS[kind];
  const words = kind === "par" ? [rest[0], rest.slice(1).join(" ")] : rest;
  const word = (it, k) => (k === 0 || kind === "phase" ? it.toUpperCase() : it);
  return count && words.length <= count ? { kind, words: Array.from({ length: count }, (_, k) => word(words[k] || "", k)) } : { kind: null, words: [line] };
});
export const lineOf = ({ kind, words }) => (kind ? [kind, ...words].join(" ").trim() : words[0]);

// An amount of a recipe for a base size, scaled to another size as the desk scales it: halves are rounded up.
export function scaled(amount, base, size) {
  const [q, b, s] = [amount, base, size].map(BigInt);
  return Number((2n * q * s + b) / (2n * b));
}

// A line of a recipe, which has a path where it is a phase.
export const withPath = (line) => (line.kind === "phase" ? { kind: "phase", phase: line.phase, path: `${line.unit} ${line.oper} ${line.phase}` } : line);

export const isMaterial = (line) => line.kind === "in" || line.kind === "out";

// The phases of a control recipe, each with the parameters between it and the phase before it; and the parameters after the last one.
export function procedureOf(lines) {
  const phases = [];
  let parameters = [];
  for (const it of lines) {
    if (it.kind === "par") parameters.push(it);
    if (it.kind !== "phase") continue;
    phases.push({ ...it, parameters });
    parameters = [];
  }
  return { phases, last: parameters };
}
