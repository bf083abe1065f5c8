// The picture of a genealogy: each lot and batch stands to the right of all that it came of.

import { t } from "./texts.js";
import { counted, grouped } from "./amounts.js";
import { depthsOf, groupsOf, nameOfNode, nodeInWords, productsOf } from "./groups.js";
import { h, svg, view } from "./elements.js";
import { card, cell, link, none, numberCell, row, table } from "./parts.js";
import { filterChoice, filterOf, onceDrawn } from "./frame.js";

// A picture of more nodes is drawn by materials alone; one of fewer is so where that is chosen.
const LARGEST_PICTURE = 300, PICTURES = ["each", "by material"];

export function genealogyCard({ back, forward }, here) {
  const nodes = new Map([...back.nodes, ...forward.nodes].map((it) => [nameOfNode(it), it]));
  const named = [...back.edges, ...forward.edges].map((it) => ({ from: nameOfNode(it.from), to: nameOfNode(it.to), amount: it.amount }));
  const edges = [...new Map(named.map((it) => [`${it.from}>${it.to}`, it])).values()];
  if (nodes.size === 1) return card(t`Genealogy`, null, none(t`It came of nothing that is booked, and nothing came of it.`));
  const before = new Set(back.nodes.map(nameOfNode)), isLarge = nodes.size > LARGEST_PICTURE;
  const tools = [h("span", { class: "soft small" }, `${counted(nodes.size - 1, "other", "others")}`),
    !isLarge && filterChoice(t`How the genealogy is drawn`, "picture", PICTURES)];
  if (isLarge || filterOf("picture", PICTURES) === "by material") {
    return card(t`Genealogy`, tools, isLarge && none(t`${grouped(nodes.size)} lots and batches are drawn by their materials.`),
      picturesOfGroups(groupsOf(nodes, edges, here, (it) => before.has(it)), here), edgesList(nodes, edges));
  }
  const made = productsOf(nodes, edges), boxes = new Map([...nodes].map(([name, it]) => [name, boxOf(it, made.get(name), name === here)]));
  return card(t`Genealogy`, tools, picture(boxes, edges, here), edgesList(nodes, edges));
}
const unitOf = (nodes, edge) => nodes.get(edge.from).unit || nodes.get(edge.to).unit || "";

// What is drawn of a lot or a batch, and of a group of them.
const boxOf = (node, product, isHere) => ({ unit: node.unit, isHere, isOfLots: Boolean(node.lot), tone: node.recalled ? "recalled" : node.held ? "held" : "",
  texts: [node.lot || node.batch, node.lot ? node.def : product ? t`batch of ${product}` : t`batch`, node.lot ? `${grouped(node.stock)} ${node.unit}` : ""],
  marks: [node.held && t`HELD`, node.recalled && t`RECALLED`].filter(Boolean).join(" "),
    place: node.lot ? `quality/lot/${node.lot}` : `quality/batch/${node.batch}` });
function boxOfGroup(it) {
  const isOne = it.count === 1, [kind, id] = it.first.split(" "), count = it.isOfLots ? counted(it.count, "lot", "lots") : counted(it.count, "batch", "batches");
  const name = isOne ? id : count;
  return { unit: it.unit, isHere: it.side === "here", isOfLots: it.isOfLots, tone: it.recalled ? "recalled" : it.held ? "held" : "",
    texts: [name, it.isOfLots ? it.def : it.def ? t`of ${it.def}` : t`batch`, it.isOfLots ? `${grouped(it.stock)} ${it.unit}` : ""],
    marks: [it.held && [!isOne && grouped(it.held), t`HELD`], it.recalled && [!isOne && grouped(it.recalled), t`RECALLED`]].flat().filter(Boolean).join(" "),
    place: isOne ? `quality/${kind}/${id}` : it.def ? `warehouse/${it.def}` : null };
}
function picturesOfGroups({ groups, edges, left }, here) {
  const boxes = new Map([...groups].map(([key, it]) => [key, boxOfGroup(it)]));
  const sides = { back: t`before it`, here: t`itself`, forward: t`of it` };
  const sorted = [...groups.values()].sort((a, b) => a.depth - b.depth || (a.def < b.def ? -1 : 1));
  const rows = sorted.map((it) => row(it.key, [cell(sides[it.side]), cell(it.isOfLots ? t`lots` : t`batches`), cell(it.def), numberCell(it.count),
    it.isOfLots ? numberCell(it.stock, it.unit) : cell(), numberCell(it.held), numberCell(it.recalled)]));
  const backwards = left > 0 && none(t`${counted(left, "step", "steps")} back to an earlier material, not drawn.`);
  const heads = ["Came^side", "What", "Material", "#Count", "#In stock", "#On hold", "#Recalled"];
  return [picture(boxes, edges, here), backwards, h("details", {}, h("summary", {}, t`The materials as a table`), table(heads, rows, ""))];
}

// The edges in words, for those who can't see the picture.
function edgesList(nodes, edges) {
  const place = (name) => link("quality/" + name.replace(" ", "/"), nodeInWords(name));
  const cells = (it) => [cell(place(it.from)), numberCell(it.amount, unitOf(nodes, it)), cell(place(it.to))];
  const rows = edges.slice(0, MOST_STEPS).map((it) => row(`${it.from}>${it.to}`, cells(it)));
  const title = edges.length > MOST_STEPS ? t`The first ${grouped(MOST_STEPS)} steps in words` : t`The steps in words`;
  return h("details", { class: "noprint" }, h("summary", {}, title), table(["From", "#Amount", "To"], rows, ""));
}
const MOST_STEPS = 1000;

const BOX = { high: 62, across: 88, down: 16 };

// Where each node is drawn: its column is after those of all that leads to it, its row close to theirs.
function placed(boxes, edges) {
  const into = new Map([...boxes.keys()].map((it) => [it, []])), depth = depthsOf([...boxes.keys()], edges), columns = [], rows = new Map();
  for (const it of edges) into.get(it.to).push(it.from);
  for (const [name, deep] of depth) (columns[deep] ||= []).push(name);
  for (const column of columns) {
    const wish = (name) => into.get(name).reduce((sum, it) => sum + rows.get(it), 0) / (into.get(name).length || 1);
    const middle = column.length / 2;
    column.sort((a, b) => wish(a) - wish(b) || (a < b ? -1 : 1)).forEach((name, k) => rows.set(name, k - middle + 0.5));
  }
  return { depth, rows, columns };
}
function picture(boxes, edges, here) {
  const { depth, rows, columns } = placed(boxes, edges);
  const width = Math.max(104, ...[...boxes.values()].map((it) => 22 + 7.9 * Math.max(...[...it.texts, it.marks].map((text) => text.length))));
  const tall = Math.max(...columns.map((it) => it.length));
  const x = (name) => 8 + depth.get(name) * (width + BOX.across), y = (name) => 8 + (rows.get(name) + tall / 2 - 0.5) * (BOX.high + BOX.down);
  const wide = 16 + columns.length * (width + BOX.across) - BOX.across, high = 16 + tall * (BOX.high + BOX.down) - BOX.down;
  const it = svg("svg", { width: wide, height: high, viewBox: `0 0 ${wide} ${high}`, role: "img", "aria-label": t`Genealogy of ${nodeInWords(here)}` },
    svg("defs", {}, svg("marker", { id: "tip", viewBox: "0 0 8 8", refX: 8, refY: 4, markerWidth: 8, markerHeight: 8, orient: "auto" },
      svg("path", { class: "tip", d: "M0 0L8 4L0 8z" }))),
    edges.map((edge) => edgeLine(x(edge.from) + width, y(edge.from) + BOX.high / 2, x(edge.to), y(edge.to) + BOX.high / 2)),
    edges.map((edge) => svg("text", { class: "amount", "text-anchor": "middle", x: x(edge.to) - BOX.across / 2,
      y: y(edge.to) + BOX.high / 2 + amountDrop(x, y, edge, width) - 4 }, `${grouped(edge.amount)} ${unitOf(boxes, edge)}`)),
    [...boxes].map(([name, box]) => nodeBox(box, x(name), y(name), width)));
  // A picture that is a little too wide is made smaller; a wider one is scrolled.
  Object.assign(it.style, { maxWidth: "100%", minWidth: `${Math.round(wide * 0.75)}px`, height: "auto" });
  return scrolledToHere(h("div", { class: "picture", tabindex: 0, role: "group", "aria-label": t`Picture, can be scrolled`,
    "data-of": `${here} ${boxes.size}` }, it));
}
// A picture begins at what is looked at, and is left where it was scrolled to as long as it is of that.
function scrolledToHere(frame) {
  const before = [...view.querySelectorAll(".picture")].find((it) => it.dataset.of === frame.dataset.of), was = before && [before.scrollLeft, before.scrollTop];
  onceDrawn(() => {
    const box = frame.querySelector(".here"), outer = frame.getBoundingClientRect();
    if (was) { [frame.scrollLeft, frame.scrollTop] = was; return; }
    if (!box) return;
    const inner = box.getBoundingClientRect();
    frame.scrollLeft += inner.left + inner.width / 2 - outer.left - frame.clientWidth / 2;
    frame.scrollTop += inner.top + inner.height / 2 - outer.top - frame.clientHeight / 2;
  });
  return frame;
}
// An amount is written on its edge, in the gap before the node to which it leads.
function amountDrop(x, y, edge, width) {
  const run = x(edge.to) - x(edge.from) - width;
  return ((y(edge.from) - y(edge.to)) * BOX.across) / 2 / run;
}
const edgeLine = (x1, y1, x2, y2) => svg("line", { class: "edge", x1, y1, x2, y2, "marker-end": "url(#tip)" });
function nodeBox({ texts: [id, sub, stock], marks, tone, isHere, isOfLots, place }, x, y, width) {
  const text = (style, down, words) => svg("text", { class: style, x: x + width / 2, y: y + down, "text-anchor": "middle" }, words);
  return svg(place ? "a" : "g", place ? { href: `#${place}` } : {},
    svg("rect", { class: ["box", tone, isHere ? "here" : ""].join(" ").trim(), x, y, width, height: BOX.high, rx: isOfLots ? 14 : 2 }),
    text("name", 17, id), text("sub", 31, sub), stock && text("sub", 44, stock), marks && text("word", 56, marks));
}
