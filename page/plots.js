// Plots: bars and a line over days, in SVG, each with its values as a table.

import { t } from "./texts.js";
import { grouped, marked } from "./amounts.js";
import { roundUp } from "./figures.js";
import { h, svg } from "./elements.js";
import { cell, numberCell, row, table } from "./parts.js";

const EDGE = { left: 52, right: 10, top: 12, bottom: 24, high: 190, mostWide: 860, leastWide: 290 }, ON_BOARD = { wide: 400, high: 128 };

// How wide and high a plot is: as its card, so that its letters are as large as others; on the board it is drawn small, and made larger.
function sizeOf() {
  const wide = document.documentElement.clientWidth;
  if (location.hash.startsWith("#board")) return ON_BOARD;
  return { wide: Math.round(Math.max(EDGE.leastWide, Math.min(EDGE.mostWide, wide / (wide < 980 ? 1 : 2) - 66))), high: EDGE.high };
}

// The frame of a plot: its axis with two numbers, and the words below it. `inner` draws what is in it, given the place of a value and the width of a column.
function plot(said, values, top, lines, unit, inner) {
  const { wide, high } = sizeOf(), across = (wide - EDGE.left - EDGE.right) / values.length, down = high - EDGE.top - EDGE.bottom;
  const x = (k) => EDGE.left + k * across, y = (n) => EDGE.top + down * (1 - n / top);
  const line = (n) => [svg("line", { class: "axis", x1: EDGE.left, x2: wide - EDGE.right, y1: y(n), y2: y(n) }),
    svg("text", { class: "tick", x: EDGE.left - 6, y: y(n) + 4, "text-anchor": "end" }, shortly(n), unit)];
  const ticks = [0, Math.floor((values.length - 1) / 2), values.length - 1].filter((k, at, all) => all.indexOf(k) === at && values[k].tick);
  const anchor = (k) => (k === 0 ? "start" : k === values.length - 1 ? "end" : "middle");
  const at = (k) => (k === 0 ? EDGE.left : k === values.length - 1 ? wide - EDGE.right : x(k + 0.5));
  const it = svg("svg", { width: wide, height: high, viewBox: `0 0 ${wide} ${high}`, role: "img", "aria-label": said }, lines.map(line),
    ticks.map((k) => svg("text", { class: "tick", x: at(k), y: high - 7, "text-anchor": anchor(k) }, values[k].tick)), inner(x, y, across));
  Object.assign(it.style, { maxWidth: "100%", height: "auto" });
  return h("div", { class: "plot" }, it);
}
const SIZES = [[1e12, "T"], [1e9, "G"], [1e6, "M"], [1e4, "k"]];
function shortly(n) {
  const [size, word] = SIZES.find(([it]) => n >= it) || [1, ""], of = word === "k" ? 1e3 : size;
  return marked(grouped(Number((n / of).toPrecision(3)))) + word;
}

const thick = (across) => Math.max(1, Math.min(32, across * 0.76));

// Bars; each value has its number, its tone, and what is said of it. `mark` is a number with a line of its own.
export function barPlot(said, values, unit = "", mark = null) {
  const most = Math.max(...values.map((it) => it.n)), top = mark ? Math.max(1.2 * mark, most) : roundUp(most);
  return plot(said, values, top, mark ? [0, mark / 2, mark] : [0, top / 2, top], unit, (x, y, across) => [
    values.map((it, k) => svg("rect", { class: `column ${it.tone || ""}`.trim(), x: x(k + 0.5) - thick(across) / 2, width: thick(across), y: y(it.n),
      height: Math.max(0, y(0) - y(it.n)) }, svg("title", {}, it.said))),
    mark !== null && svg("line", { class: "mark", x1: x(0), x2: x(values.length), y1: y(mark), y2: y(mark) })].filter(Boolean));
}

// A line that goes in steps, with what is below it.
export function stepPlot(said, values, unit = "") {
  const top = roundUp(Math.max(...values.map((it) => it.n)));
  return plot(said, values, top, [0, top / 2, top], unit, (x, y) => {
    const path = values.map((it, k) => `${k ? "V" : `M${x(0)} `}${y(it.n)}H${x(k + 1)}`).join("");
    return [svg("path", { class: "below", d: `${path}V${y(0)}H${x(0)}Z` }), svg("path", { class: "line", d: path })];
  });
}

// The values in words, for those who can't see the plot.
export function valuesOf(what, heads, rows) {
  return h("details", { class: "noprint" }, h("summary", { "aria-label": t`${what}: the values as a table` }, t`The values as a table`), table(heads, rows,
    "", true));
}
export const valueRow = (name, ...values) => row(`value ${name}`, [cell(name), ...values.map(([n, unit]) => numberCell(n, unit))]);
