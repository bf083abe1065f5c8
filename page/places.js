// What is at a place: the parts of lots in stock, by where they are.

import { t } from "./texts.js";
import { counted, grouped } from "./amounts.js";
import { ageInDays, dated, dayOf } from "./moments.js";
import { partsByPlace } from "./taking.js";
import { partValue, sortedBy } from "./sorting.js";
import { h } from "./elements.js";
import { button, buttonsCell, card, cell, choice, go, idCell, link, listed, lotLink, none, numberCell, pill, row, table } from "./parts.js";
import { csvButton } from "./saved.js";
import { desk } from "./questions.js";
import { isNarrow } from "./frame.js";
import { listOrder } from "./sorts.js";
import { showLabels } from "./label.js";
import { moveGoods, scrap } from "./goods.js";

// By what the warehouse lists its goods.
const GOODS_BY = ["by material", "by place"];
export const byChoice = (by) => h("div", { class: "body row filter" }, choice(t`By what goods are listed`, GOODS_BY, by,
  (it) => go("warehouse", it === "by place" && "place")));

// The day on which a lot came, and how old it is.
export function cameCell(at) {
  const age = at !== null && h("div", { class: "soft small" }, ageInDays(at, desk.time()));
  return h("td", { class: "when" }, h("span", {}, dated(dayOf(at)), age));
}

// The parts of all lots in stock, of so many materials and lots at most, each with its material and unit; `left` has the materials that aren't read.
const MOST_READ_LOTS = 3000;
async function allParts() {
  const parts = [], left = [];
  let count = 0;
  for (const { def, name, unit, lots } of (await desk.materials()).filter((it) => it.lots > 0)) {
    if (count + lots > MOST_READ_LOTS) { left.push(def); continue; }
    count += lots;
    for (const lot of await desk.stock(def, Infinity)) {
      const barred = lot.held ? t`on hold` : lot.recalled ? t`recalled` : "";
      parts.push(...lot.sublots.filter((it) => it.stock > 0).map((it) => ({ ...it, ...lot, stock: it.stock, sub: it.no, def, name, unit, barred })));
    }
  }
  return { parts, left };
}

// The place of this name where something is in stock, or the one whose name begins so; null where there is none, or where several begin so.
export async function placeNamed(typed) {
  const name = typed.trim().toLowerCase(), all = new Set((await allParts()).parts.map((it) => it.place));
  const begun = [...all].filter((it) => it.toLowerCase().startsWith(name));
  return (name && (begun.find((it) => it.toLowerCase() === name) || (begun.length === 1 && begun[0]))) || null;
}

export const placeLink = (place, text) => link(`warehouse/place/${encodeURIComponent(place)}`, text || place || t`no place`);

export async function places(shown) {
  const { parts, left } = await allParts(), all = partsByPlace(parts), at = shown ?? (isNarrow() ? undefined : all[0]?.place);
  const rows = all.map((it) => row(encodeURIComponent(it.place), [cell(placeLink(it.place)), numberCell(it.parts.length), numberCell(it.materials)],
    `warehouse/place/${encodeURIComponent(it.place)}`, it.place === at));
  const csv = csvButton("places", "places", () => all);
  const list = card(t`Places`, all.length > 0 && csv, byChoice("by place"), table(["Place", "#Parts", "#Materials"], rows, t`Nothing is in stock.`, true),
    left.length > 0 && none(t`These materials have too many lots to be read here: ${left.join(", ")}.`));
  return ["list", listed(list), at !== undefined && h("div", { class: "stack" }, placeCard(at, all.find((it) => it.place === at)?.parts || []))];
}

// What is at one place, at first the oldest first, and what it comes to.
const PLACE_HEADS = { came: "Came", lot: "Lot and part", material: "Material", stock: "#Stock" };
function placeCard(place, parts) {
  const name = place || "no place", marks = (it) => it.barred && [" ", pill(it.barred, it.held ? "warn" : "bad")];
  const buttons = (it) => [button(t`Label`, () => showLabels(it.lot, it.sub)), button(t`Move`, () => moveGoods(it, it)),
    button(t`Scrap`, () => scrap(it, it), "bad")];
  const order = listOrder(PLACE_HEADS), sorted = sortedBy(parts, partValue(order.by), order.isBack);
  const rows = sorted.map((it) => row(`${it.lot}/${it.sub}`, [idCell(lotLink(it.lot, it.sub), marks(it)),
    cell(link("warehouse/" + it.def, it.def), it.name && h("div", { class: "soft small" }, it.name)), cameCell(it.at), numberCell(it.stock, it.unit),
    buttonsCell(buttons(it))]));
  const totals = new Map();
  for (const it of parts) totals.set(it.def, { ...it, sum: (totals.get(it.def)?.sum || 0) + it.stock });
  const sums = [...totals.values()].map((it) => row(`total ${it.def}`, [idCell(it.def), numberCell(it.sum, it.unit)]));
  const csv = csvButton("stands", `place-${name}`, () => parts.map((it) => ({ ...it, place, seen: "" })));
  return card(place ? t`At ${place}` : t`At no place`, parts.length > 0 && [h("span", { class: "soft small" }, counted(parts.length, "part", "parts")), csv],
    rows.length > 1 && h("div", { class: "body row filter" }, order.field(t`Sort the lots`)),
    table(["Lot and part", "Material", "Came", "#Stock", ""], rows, t`Nothing in stock is there.`, false, order.heads),
    parts.length > 0 && [h("h3", {}, t`In all`), table(["Material", "#Stock"], sums, "", true)]);
}
