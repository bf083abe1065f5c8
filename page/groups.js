// Genealogies: how far each node is from the beginning, and large ones by their materials.

import { t } from "./texts.js";

// A node by its name, which has what it is; and as it is read.
export const nameOfNode = (node) => (node.lot ? "lot " + node.lot : "batch " + node.batch);
export function nodeInWords(name) {
  const [kind, id] = name.split(" ");
  return kind === "lot" ? t`lot ${id}` : t`batch ${id}`;
}

// The column of each node: behind those of all that lead to it. What is on a cycle, as in no desk, has none.
export function depthsOf(names, edges) {
  const next = new Map(names.map((it) => [it, []])), waits = new Map(names.map((it) => [it, 0])), depth = new Map();
  for (const { from, to } of edges) {
    next.get(from).push(to);
    waits.set(to, waits.get(to) + 1);
  }
  const ready = names.filter((it) => !waits.get(it));
  for (const name of ready) {
    if (!depth.has(name)) depth.set(name, 0);
    for (const to of next.get(name)) {
      depth.set(to, Math.max(depth.get(to) || 0, depth.get(name) + 1));
      waits.set(to, waits.get(to) - 1);
      if (!waits.get(to)) ready.push(to);
    }
  }
  return depth;
}

// What each batch made, by the lots that came of it.
export function productsOf(nodes, edges) {
  const made = new Map();
  for (const { from, to } of edges) if (nodes.get(from).batch && !made.has(from)) made.set(from, nodes.get(to).def);
  return made;
}

// The same genealogy by materials: the lots of one material are a group, and so are the batches that made one; what came before the lot or batch `here` and
// what came of it are groups apart, and `here` is one of its own. `isBack` says of a name whether it came before. Steps within a group aren't shown; those
// that lead to a group which begins no later are counted in `left`.
export function groupsOf(nodes, edges, here, isBack) {
  const depth = depthsOf([...nodes.keys()], edges), made = productsOf(nodes, edges), groups = new Map(), groupOf = new Map();
  for (const [name, node] of nodes) {
    const def = node.def || made.get(name) || "", side = name === here ? "here" : isBack(name) ? "back" : "forward";
    const key = `${side} ${node.lot ? "lots" : "batches"} ${def}`;
    if (!groups.has(key)) groups.set(key, { key, side, def, isOfLots: Boolean(node.lot), unit: node.unit, count: 0, stock: 0, held: 0, recalled: 0,
      first: name, depth: Infinity });
    const it = groups.get(key);
    it.count += 1;
    it.stock += node.stock || 0;
    it.held += node.held ? 1 : 0;
    it.recalled += node.recalled ? 1 : 0;
    it.depth = Math.min(it.depth, depth.get(name) ?? 0);
    groupOf.set(name, key);
  }
  const sums = new Map();
  let left = 0;
  for (const { from, to, amount } of edges) {
    const [one, other] = [groupOf.get(from), groupOf.get(to)];
    if (one === other) continue;
    if (groups.get(one).depth >= groups.get(other).depth) { left += 1; continue; }
    const key = `${one}>${other}`;
    sums.set(key, { from: one, to: other, amount: (sums.get(key)?.amount || 0) + amount });
  }
  return { groups, edges: [...sums.values()], left };
}
