// Parts of views.

import { t } from "./texts.js";
import { excess, grouped } from "./amounts.js";
import { moment } from "./moments.js";
import { placeFrom } from "./addresses.js";
import { at, h } from "./elements.js";

let fading;
export function notice(tone, text, ...buttons) {
  clearTimeout(fading);
  const told = text && h("div", { class: tone, role: tone === "bad" ? "alert" : null }, h("span", {}, text), buttons);
  at("notice").replaceChildren(...(told ? [told] : []));
  if (text && (tone === "good" || !buttons.length)) fading = setTimeout(() => notice(), tone === "bad" ? 15000 : buttons.length ? 30000 : 6000);
}

export const card = (title, tools, ...body) => h("section", { class: "card" }, h("div", { class: "top" }, h("h2", { tabindex: -1 }, title), tools),
  ...body);
export const listed = (it) => { it.classList.add("listed"); return it; };
export const none = (...text) => h("p", { class: "none" }, ...text);
export const pill = (text, tone) => h("span", { class: "pill " + (tone || "") }, text);
export const button = (label, press, style, more) => h("button", { type: "button", class: style, onclick: press, ...more }, label);
export const fact = (name, ...value) => h("div", {}, name, h("b", {}, ...value));
export const facts = (...all) => h("div", { class: "body" }, h("div", { class: "facts" }, all));
// A choice among words, which are said as the language has them.
export const choice = (name, options, on, pick) => h("div", { class: "choice", role: "group", "aria-label": name },
  options.map((it) => button(t(it), () => pick(it), null, { "aria-pressed": String(it === on) })));

// Places of the view that is shown keep its filters.
const hashOf = (place) => `#${placeFrom(location.hash, place)}`;
export const link = (place, text, more) => h("a", { href: hashOf(place), ...more }, text);
export const lotLink = (id, sub) => [link("quality/lot/" + id, id), sub ? "/" + sub : ""];
export const batchLink = (id) => link("shift/" + id, id);
export function go(...parts) { location.hash = hashOf(parts.filter(Boolean).join("/")); }

// A table, whose heads are said as the language has them. A head that begins with # is of numbers; a row is made by `row`. On a narrow screen a row stands as a block of named values. `sorts` has the
// heads by which it can be sorted: whether it is, by this one, `up`, `down` or not, and what a press does.
export function table(heads, rows, without, isShort, sorts = {}) {
  if (!rows.length) return none(without);
  const names = heads.map((text) => t(text.replace("#", "")));
  for (const it of rows) [...it.children].forEach((cell, k) => { cell.dataset.label = names[k]; });
  const head = heads.map((text, k) => headCell(names[k], text.startsWith("#"), sorts[text]));
  return h("div", { class: "wide" }, h("table", { class: isShort ? null : "block" }, h("thead", {}, h("tr", {}, head)),
    h("tbody", {}, rows)));
}
function headCell(text, isOfNumbers, sort) {
  const kind = { class: isOfNumbers ? "num" : null, scope: "col" };
  if (!sort) return h("th", kind, text);
  const sign = { up: " \u25b4", down: " \u25be" }[sort.way] || "";
  return h("th", { ...kind, "aria-sort": { up: "ascending", down: "descending" }[sort.way] || "none" },
    button(text + sign, sort.press, "sort", { "aria-label": t`Sort by ${text}` }));
}
// What stands in a cell is one element, which stays together on a narrow screen; of an empty cell it is none.
const whole = (content) => (content.flat(9).some((it) => it || it === 0) ? h("span", {}, content) : null);
// A row with its name, by which the keyboard finds its place again, and of which each of its buttons is; `place` is where a click on it leads.
export function row(name, cells, place, isOn) {
  const follow = place && ((event) => { if (!event.target.closest("a, button, input")) go(place); });
  const it = h("tr", { "data-row": name, class: [place ? "pick" : "", isOn ? "on" : ""].join(" ").trim() || null, onclick: follow }, cells);
  const of = String(name).replace(/^(in|out) /, "").replace(".", " ");
  for (const one of it.querySelectorAll("button:not([aria-label])")) one.setAttribute("aria-label", `${one.textContent} ${of}`);
  return it;
}
export const cell = (...content) => h("td", {}, whole(content));
export const idCell = (...content) => h("td", { class: "id" }, whole(content));
export const numberCell = (n, unit) => h("td", { class: "num" }, h("span", {}, grouped(n), unit ? " " + unit : ""));
// How much more than was asked is booked of a line, in red; before it what is booked, where that is wanted.
export const overCell = (line, booked) => h("td", { class: "num" }, h("span", { class: "over" }, booked, t`over ${grouped(excess(line))} ${line.unit}`));
export const momentCell = (seconds) => h("td", { class: "when" }, moment(seconds));
export const buttonsCell = (...buttons) => h("td", { class: "do" }, h("div", {}, buttons));

export function firstSteps() {
  const step = (place, name, ...text) => h("li", {}, link(place, name), ": ", ...text);
  return card(t`This desk is new`, null, h("div", { class: "body" }, h("ol", {},
    step("warehouse", t`Warehouse`, t`make a class, such as RAW, and in it the materials, each with the unit in which it is counted.`),
    step("planner", t`Planner`, t`write a recipe and approve it. Then take orders in.`),
    step("warehouse", t`Warehouse`, t`receive lots of what goes in.`),
    step("planner", t`Planner`, t`release an order, which makes its batch.`),
    step("shift", t`Shift`, t`start the batch, book what goes in and comes out, do its phases, and close it.`),
    step("quality", t`Quality`, t`see where goods came from and went; hold and recall them.`))));
}
