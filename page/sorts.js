// How a list is sorted: by a press of a head, or by a field where heads aren't seen. What it is sorted by is in the address, so that a link shows the same.

import { t } from "./texts.js";
import { withFilter } from "./addresses.js";
import { h } from "./elements.js";
import { filterOf, place } from "./frame.js";

const WAYS = ["up", "down"];
function setOrder(value, way) {
  const other = withFilter(`#${withFilter(location.hash || `#${place()[0]}`, "sort", value)}`, "way", way === "up" ? null : way);
  location.hash = `#${other}`;
}

// What the list of the view is sorted by, and how: `heads` has the head of each thing that it can be sorted by, the first of which is how it comes. What it
// gives has `heads` for its table, and `field`, the same where heads aren't seen.
export function listOrder(heads) {
  const names = Object.keys(heads), by = filterOf("sort", names), way = filterOf("way", WAYS), set = (it, to) => setOrder(it === names[0] ? null : it, to);
  const option = (it, to) => h("option", { value: `${it}.${to}`, selected: it === by && to === way }, `${t(heads[it].replace("#", ""))}, ${t(to)}`);
  return {
    by, isBack: way === "down", isAsItComes: by === names[0] && way === "up",
    heads: Object.fromEntries(names.map((it) => [heads[it], { way: it === by ? way : null, press: () => set(it, it === by && way === "up" ? "down" : "up") }])),
    field: (label) => h("select", { class: "phone", "aria-label": label, onchange: (event) => set(...event.target.value.split(".")) },
      names.flatMap((it) => WAYS.map((to) => option(it, to)))),
  };
}
