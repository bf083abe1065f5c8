// Lists as comma-separated values (RFC 4180), for spreadsheets.

import { t } from "./texts.js";
import { capital } from "./amounts.js";
import { dayOf, stamp } from "./moments.js";

// What separates values: a semicolon where this machine's numbers have a comma before their decimals, else a comma.
export const separatorOf = (locale) => (new Intl.NumberFormat(locale).formatToParts(1.5).some((it) => it.type === "decimal" && it.value === ",") ? ";" : ",");

// A value as it is written: a text that a spreadsheet would take for a formula begins with an apostrophe, and one with a separator, a quote or an end of
// line has quotes around it.
function written(value, separator) {
  if (typeof value === "number" || typeof value === "bigint") return String(value);
  const text = value == null ? "" : value === true ? t`yes` : value === false ? t`no` : String(value);
  const harmless = /^[=+\-@\t\r]/.test(text) ? `'${text}` : text;
  return /["\r\n]/.test(harmless) || harmless.includes(separator) ? `"${harmless.replaceAll("\"", "\"\"")}"` : harmless;
}
export const csvOf = (rows, separator) => rows.map((row) => `${row.map((it) => written(it, separator)).join(separator)}\r\n`).join("");

// The rows of items, the first with the names of their columns, which alone are in the language of the page. A column is the name of a member, or a name with
// how its value is made.
const column = (it) => (typeof it === "string" ? [capital(it), (item) => item[it]] : it);
export function rowsOf(items, columns) {
  const all = columns.map(column);
  return [all.map(([name]) => t(name)), ...items.map((item) => all.map(([, value]) => value(item)))];
}

const MATERIAL = ["Material", (it) => it.def], WHEN = ["When", (it) => stamp(it.at)], AMOUNT = ["Amount", (it) => it.amount];

// The columns of each list.
export const COLUMNS = {
  orders: ["order", "state", "due", "priority", "recipe", "version", "size"],
  batches: ["batch", "order", "state", "attempt", ["Phases done", (it) => it.next - 1], "phases", ["Next phase", (it) => it.phase], "closed",
    ["On unit", (it) => it.phase_unit], ["Last event", (it) => stamp(it.at)], "due", "priority", "recipe", "version", "title", "product", "size", "unit"],
  materials: ["class", MATERIAL, "name", "unit", "lots", ["Free", (it) => it.usable], ["On hold", (it) => it.held], "recalled"],
  stands: ["place", "lot", ["Part", (it) => it.no], MATERIAL, ["Amount", (it) => it.stock], "unit", ["On hold", (it) => it.held], "recalled", "seen"],
  balance: [MATERIAL, "lot", "unit", "received", "produced", ["Of other lots", (it) => it.others], "consumed", "scrapped", ["To other lots", (it) => it.passed],
    ["In stock", (it) => it.stock], ["Where", (it) => it.where], ["On hold", (it) => it.held], "recalled"],
  lots: ["lot", MATERIAL, ["Part", (it) => it.no], "place", "stock", "unit", ["On hold", (it) => it.held], "recalled", ["Came", (it) => dayOf(it.at)], "by", "note",
    ["Number", (it) => it.seq]],
  ledger: [["Number", (it) => it.seq], "line", WHEN, "by", ["What", (it) => it.kind], AMOUNT, "unit", "lot", ["Part", (it) => it.sub], ["To lot", (it) => it.to],
    ["To part", (it) => it.to_sub], "batch", "note"],
  places: [["Place", (it) => it.place], ["Parts", (it) => it.parts.length], ["Materials", (it) => it.materials]],
  history: [["Number", (it) => it.seq], ["When", (it) => it.at && stamp(it.at)], "by", ["What", (it) => it.do], ["Details", (it) => it.details], "note", ["Reference", (it) => it.ref]],
  commands: [["Number", (it) => it.seq], ["When", (it) => it.at && stamp(it.at)], "by", ["What", (it) => it.do], "note", ["Reference", (it) => it.ref]],
  holds: ["lot", "hold", WHEN, "by", "note"],
  recalls: ["recall", "lot", WHEN, "by", "note", ["Lifted", (it) => it.lift && stamp(it.lift.at)], ["Lifted by", (it) => it.lift?.by],
    ["Lifted for", (it) => it.lift?.note]],
  recipes: ["recipe", "version", "state", "title", "product", ["Base size", (it) => it.base], ["Least size", (it) => it.min], ["Greatest size", (it) => it.max]],
  record: ["table", "number", "what", "lot", MATERIAL, AMOUNT, "unit", "asked", "scrapped", "value", ["When", (it) => it.at && stamp(it.at)], "by", "note"],
};

// A row for each part of lots that has stock.
export const partsOfLots = (lots) => lots.flatMap((lot) => lot.sublots.filter((it) => it.stock).map((it) => ({ ...lot, ...it })));

// A row for each line of a batch record's tables; `lines` are those of the control recipe with what is booked.
export function rowsOfRecord(record, lines) {
  const booked = (table, what) => ({ seq, words: [lot, def, amount, unit, , scrapped], ...it }) => ({ ...it, table, number: seq, what, lot, def,
    amount: Number(amount), unit, scrapped: what === "produced" ? Number(scrapped) : null });
  return [
    ...record.lines.map((it, k) => ({ table: t`Control recipe`, number: k + 1, what: it.kind, def: it.def || it.name || it.path, amount: it.amount, unit: it.unit,
      value: it.value })),
    ...record.events.map(({ seq, words, ...it }) => ({ ...it, table: t`Events`, number: seq })),
    ...record.consumed.map(booked(t`Consumed`, "consumed")), ...record.produced.map(booked(t`Produced`, "produced")),
    ...lines.map((it) => ({ table: t`Totals`, what: it.kind, def: it.def, amount: it.booked, asked: it.asked, unit: it.unit })),
  ];
}
