// Where goods are now, as a table to walk along: a box for each row says that somebody was there, and this browser keeps it.

import { t } from "./texts.js";
import { counted, grouped } from "./amounts.js";
import { TONES, wordOf } from "./words.js";
import { partValue, sortedBy } from "./sorting.js";
import { h } from "./elements.js";
import { keep, kept } from "./store.js";
import { batchLink, card, cell, idCell, link, lotLink, numberCell, pill, row, table } from "./parts.js";
import { listOrder } from "./sorts.js";
import { csvButton } from "./saved.js";
import { desk } from "./questions.js";

// The rows that are ticked for a lot or a recall. Desks that are served in turn at one address share what the browser keeps.
const nameOfTicks = (of) => `ticks.${desk.name || ""}.${of}`;
function tick(of, key, isOn) {
  const others = kept(nameOfTicks(of), []).filter((it) => it !== key);
  keep(nameOfTicks(of), isOn ? [...others, key] : others);
}

// The parts of lots that have stock, in the order in which somebody walks along their places.
const byPlace = (a, b) => (a.place < b.place ? -1 : a.place > b.place ? 1 : a.key < b.key ? -1 : 1);
export const partsToSee = (lots) => lots.flatMap((lot) => lot.sublots.filter((it) => it.stock).map((it) => ({ ...it, key: `${lot.lot}/${it.no}`, lot: lot.lot,
  def: lot.def, held: lot.held, recalled: lot.recalled }))).sort(byPlace);

// What there is of each material, and in how many parts.
function totals(parts, units) {
  const all = new Map();
  for (const it of parts) {
    const total = all.get(it.def) || { stock: 0, count: 0, unit: units.get(it.lot) };
    all.set(it.def, { ...total, stock: total.stock + it.stock, count: total.count + 1 });
  }
  return [...all].sort().map(([def, it]) => row(`total ${def}`, [idCell(link("warehouse/" + def, def)), numberCell(it.stock, it.unit), numberCell(it.count)]));
}

// The table of the goods of `of`, a lot or a recall; `nodes` are what its lot leads to, each with its unit.
const STAND_HEADS = { place: "Place", lot: "Lot", material: "Material", stock: "#Amount" };
export function standsCard(of, lots, nodes) {
  const order = listOrder(STAND_HEADS), parts = sortedBy(partsToSee(lots), partValue(order.by), order.isBack);
  const units = new Map(nodes.filter((it) => it.lot).map((it) => [it.lot, it.unit]));
  const seen = new Set(kept(nameOfTicks(of), [])), told = h("span", { class: "soft small" });
  const count = () => { told.textContent = t`${grouped(parts.filter((it) => seen.has(it.key)).length)} of ${counted(parts.length, "row", "rows")} ticked`; };
  const ticked = (it, isOn) => {
    if (isOn) seen.add(it.key); else seen.delete(it.key);
    tick(of, it.key, isOn);
    count();
  };
  const box = (it) => h("input", { type: "checkbox", "aria-label": t`${it.key} at ${it.place || t`no place`} is seen`, checked: seen.has(it.key),
    onchange: (event) => ticked(it, event.target.checked) });
  const cells = (it) => [cell(box(it)), cell(it.place || h("span", { class: "soft" }, t`no place`)), idCell(lotLink(it.lot, it.no)), cell(it.def),
    numberCell(it.stock, units.get(it.lot)), cell(it.held && pill(t`on hold`, "warn")), cell(it.recalled && pill(t`recalled`, "bad"))];
  count();
  const rows = parts.map((it) => row(it.key, cells(it)));
  const csv = csvButton("stands", `goods-of-${of.split(" ")[1]}`, () => parts.map((it) => ({ ...it, unit: units.get(it.lot), seen: seen.has(it.key) })));
  return card(t`Where its goods are`, parts.length > 0 && [told, csv],
    parts.length > 1 && h("div", { class: "body row filter" }, order.field(t`Sort the goods`)),
    table(["Seen", "Place", "Lot", "Material", "#Amount", "On hold", "Recalled"], rows, t`Nothing of it is in stock.`, false, order.heads),
    parts.length > 0 && [h("h3", {}, t`In all`), table(["Material", "#Amount", "#Parts"], totals(parts, units), "", true)]);
}

// The batches among these that still run: what they made isn't all booked.
export async function runningCard(batches) {
  const open = new Map((await desk.batches(Infinity)).map((it) => [it.batch, it]));
  const running = batches.filter((it) => open.has(it.batch)).map((it) => open.get(it.batch));
  const rows = running.map((it) => row(it.batch, [idCell(batchLink(it.batch)), cell(pill(wordOf(it.state), TONES[it.state])), cell(it.order),
    cell(it.phase ? t`${it.phase}, ${it.next} of ${it.phases}` : t`all done`)]));
  return card(t`Batches that still run`, null, table(["Batch", "State", "Order", "Next phase"], rows, t`None.`));
}
