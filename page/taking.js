// What is taken of which part of a lot.

// Takes an amount of parts in their order, of each as much as there is: what is taken of which, and how much is short.
export function takenOf(parts, amount) {
  let short = amount;
  const taken = [];
  for (const it of parts) {
    const some = Math.min(short, it.stock);
    if (some > 0) taken.push({ ...it, amount: some });
    short -= Math.max(0, some);
  }
  return { taken, short };
}

// The inputs of which less is booked than was asked, each with what is left.
export const openInputs = (lines) => lines.filter((it) => it.kind === "in" && it.booked < it.asked).map((it) => ({ ...it, left: it.asked - it.booked }));

// Parts by their places, the places in the order of their names, and of each the oldest part first.
export function partsByPlace(parts) {
  const all = new Map();
  for (const it of parts) all.set(it.place, [...(all.get(it.place) || []), it]);
  const byAge = (a, b) => (a.seq ?? 0) - (b.seq ?? 0) || (a.lot < b.lot ? -1 : a.lot > b.lot ? 1 : a.sub - b.sub);
  return [...all].sort(([a], [b]) => (a < b ? -1 : 1)).map(([place, some]) => ({ place, parts: some.sort(byAge),
    materials: new Set(some.map((it) => it.def)).size }));
}
