// Orders, as a list of them is sorted and filtered.

import { dated } from "./moments.js";

const compared = (a, b) => (a < b ? -1 : a > b ? 1 : 0);

// Items in the order of what `of` gives of each, numbers by their size and words by their letters, or the other way round; those that are alike stay as they
// come.
export const sortedBy = (items, of, isBack) => [...items].sort((a, b) => (isBack ? -1 : 1) * compared(of(a), of(b)));

// What parts of lots are sorted by: when their lots came, or their lot, material, place or amount.
const OF_PARTS = { came: (it) => it.at ?? 0, lot: (it) => it.lot, material: (it) => it.def, place: (it) => it.place, stock: (it) => it.stock };
export const partValue = (by) => OF_PARTS[by];

// The first so many of items, and whether there are others: since more are there than these, or more than were read.
export const upTo = (items, count, isMore) => Object.assign(items.slice(0, count), { more: isMore || items.length > count });

// What orders are sorted by; at first by their due date, and of one day those of a higher priority first.
const bySooner = (a, b) => compared(a.due, b.due) || b.priority - a.priority;
const BY = {
  due: bySooner, order: (a, b) => compared(a.order, b.order), priority: (a, b) => b.priority - a.priority, size: (a, b) => a.size - b.size,
  recipe: (a, b) => compared(a.recipe, b.recipe) || a.version - b.version,
};
export const sortedOrders = (orders, by, isBack) => [...orders].sort((a, b) => (isBack ? -1 : 1) * BY[by](a, b) || bySooner(a, b));

// The orders of a recipe, if one is given, with each word of a text in their id, their recipe or its title. `titleOf` gives the title.
export function filteredOrders(orders, recipe, text, titleOf) {
  const words = text.toUpperCase().split(/\s+/).filter(Boolean);
  const isMeant = (it) => words.every((word) => `${it.order} ${it.recipe} ${it.version} ${titleOf(it)} ${it.due} ${dated(it.due)}`.toUpperCase().includes(word));
  return orders.filter((it) => (!recipe || it.recipe === recipe) && isMeant(it));
}

// What several demands, each with a material, an amount and a unit, come to for each material.
export function inAll(demands) {
  const all = new Map();
  for (const { def, amount, unit } of demands) all.set(def, { def, unit, asked: (all.get(def)?.asked || 0) + amount });
  return [...all.values()];
}
