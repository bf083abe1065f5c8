// Balances of lots, summed for each material: what came in, what left, and what is there. Sums are exact.

import { t } from "./texts.js";

const sum = (all, of) => all.reduce((total, it) => total + BigInt(of(it)), 0n);

// The amounts of a material's lots by their places.
function placesOf(lots) {
  const all = new Map();
  for (const { place, stock } of lots.flatMap((it) => it.sublots)) if (stock) all.set(place, (all.get(place) || 0n) + BigInt(stock));
  return [...all].sort(([a], [b]) => (a < b ? -1 : 1)).map(([place, stock]) => ({ place, stock }));
}

// Of each material of these lots what was received and produced, what came of lots that aren't among them, what was consumed and scrapped, what is in
// stock and where, and whether that closes. What is split off or merged of them is among them, so splits and merges leave what came of others.
export function materialsOf(lots) {
  return [...new Set(lots.map((it) => it.def))].sort().map((def) => {
    const own = lots.filter((it) => it.def === def), entered = (kind) => sum(own, (it) => it.entered[kind]), left = (kind) => sum(own, (it) => it.left[kind]);
    const it = { def, unit: own[0].unit || "", count: own.length, received: entered("received"), produced: entered("produced"),
      others: entered("split") + entered("merged") - left("split") - left("merged"), consumed: left("consumed"), scrapped: left("scrapped"),
      stock: sum(own, (one) => one.stock), places: placesOf(own) };
    return { ...it, closes: it.received + it.produced + it.others === it.consumed + it.scrapped + it.stock };
  });
}

// The rows of its file: the materials, and then the lots.
const flowsOf = ({ entered, left }) => ({ received: entered.received, produced: entered.produced, others: entered.split + entered.merged,
  consumed: left.consumed, scrapped: left.scrapped, passed: left.split + left.merged });
const wherever = (places) => places.map((it) => `${it.place || t`no place`}: ${it.stock}`).join("; ");
export const rowsOfBalance = (lots) => [
  ...materialsOf(lots).map((it) => ({ ...it, passed: 0, where: wherever(it.places) })),
  ...lots.map((it) => ({ def: it.def, lot: it.lot, unit: it.unit || "", stock: it.stock, held: it.held, recalled: it.recalled, ...flowsOf(it),
    where: wherever(placesOf([it])) })),
];
