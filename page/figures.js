// Figures of a desk as it is: what is late, what is short, how much of what was asked was made, and what there was of a material day by day.

import { dayOf } from "./moments.js";
import { scaled } from "./recipes.js";
import { inAll } from "./sorting.js";

// The day so many days after another one, or before it.
export function dayAfter(day, days) {
  const [year, month, date] = day.split("-").map(Number);
  return new Date(Date.UTC(year, month - 1, date + days)).toISOString().slice(0, 10);
}

// What is late and what is due on a day, of what has a due date.
export const dueBy = (items, today) => ({ late: items.filter((it) => it.due < today), today: items.filter((it) => it.due === today) });

// How many of what has a due date are due on each day from one to another, and before and after these.
export function dueByDay(items, first, count) {
  const days = Array.from({ length: count }, (_, k) => ({ day: dayAfter(first, k), count: 0 })), byDay = new Map(days.map((it) => [it.day, it]));
  let before = 0, after = 0;
  for (const { due } of items) {
    if (byDay.has(due)) byDay.get(due).count += 1;
    else if (due < first) before += 1;
    else after += 1;
  }
  return { days, before, after };
}

// The materials of which less is free than is asked. A demand has a material, an amount, and the day by which it is wanted; what is made meanwhile counts as
// there. Each has how much is short, and the day from which it is; those come first that are short first.
export function shortage(demands, made, stocks) {
  const all = new Map(), coming = new Map();
  for (const { def, amount } of made) coming.set(def, (coming.get(def) || 0) + amount);
  for (const it of [...demands].sort((a, b) => (a.due < b.due ? -1 : a.due > b.due ? 1 : 0))) {
    const { usable = 0, name = "", unit = it.unit || "" } = stocks.get(it.def) || {}, there = usable + (coming.get(it.def) || 0);
    const one = all.get(it.def) || { def: it.def, name, unit, asked: 0, free: usable, made: coming.get(it.def) || 0, from: null };
    one.asked += it.amount;
    if (one.from === null && one.asked > there) one.from = it.due;
    all.set(it.def, { ...one, short: one.asked - there });
  }
  return [...all.values()].filter((it) => it.short > 0).sort((a, b) => (a.from < b.from ? -1 : a.from > b.from ? 1 : a.def < b.def ? -1 : 1));
}

// What an order of a size wants more of than is free, by the lines of its recipe.
export function lacksOf({ lines, base }, size, stocks) {
  const asked = inAll(lines.filter((it) => it.kind === "in").map((it) => ({ def: it.def, unit: it.unit || "", amount: scaled(it.qty, base, size) })));
  return asked.map((it) => ({ def: it.def, unit: it.unit, short: it.asked - (stocks.get(it.def)?.usable || 0) })).filter((it) => it.short > 0);
}

// How much of a product was asked and booked, in percent; null where nothing was asked.
export function yieldOf(lines, product) {
  const outputs = lines.filter((it) => it.kind === "out" && it.def === product), sum = (what) => outputs.reduce((all, it) => all + it[what], 0);
  const asked = sum("asked"), booked = sum("booked");
  return asked ? { asked, booked, percent: (100 * booked) / asked, unit: outputs[0].unit || "" } : null;
}

// By how much a row of a lot's ledger changes its stock. What is divided stays in the lot; what is split or merged comes to the other lot.
export function changeOf(movement, lot) {
  const { kind, amount, to } = movement;
  if (kind === "divided") return 0;
  return kind === "received" || kind === "produced" || ((kind === "split" || kind === "merged") && to === lot) ? amount : -amount;
}

// What there was of lots at the end of each day from one on, by their ledgers.
export function stockByDay(ledgers, first, count) {
  const days = Array.from({ length: count }, (_, k) => ({ day: dayAfter(first, k), stock: 0 })), last = days.at(-1).day;
  for (const { lot, movements } of ledgers) {
    for (const it of movements) {
      const day = dayOf(it.at), change = changeOf(it, lot);
      const from = day > last ? count : day < first ? 0 : days.findIndex((one) => one.day === day);
      for (let k = from; k < count; k += 1) days[k].stock += change;
    }
  }
  return days;
}

// A round number that is at least this one, for the end of an axis, of which the half is whole: 2, 4 or 10 and zeros.
export function roundUp(n) {
  const power = 10 ** Math.floor(Math.log10(Math.max(n, 1)));
  return [2, 4, 6, 10, 20].map((it) => it * power).find((it) => it >= n);
}

// What is in one of two lists and not in the other, by their keys.
export const newIn = (keys, before) => [...keys].filter((it) => !before.has(it));
