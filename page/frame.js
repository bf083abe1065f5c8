// The frame: the view that the address names, drawn anew as the desk changes. A place names a view and then, where words or ids follow, a thing in it;
// a narrow screen has room for the view's list or for the thing.

import { t } from "./texts.js";
import { counted, grouped } from "./amounts.js";
import { lengthOfTime, moment } from "./moments.js";
import { isId } from "./ids.js";
import { decoded, isAbove, isSamePlace, placeFrom, readAddress, withFilter } from "./addresses.js";
import { PAGE } from "./cursors.js";
import { at, h, view } from "./elements.js";
import { focusAgain, focusRow, keyOf, released } from "./focus.js";
import { button, card, choice, link, none, notice } from "./parts.js";
import { Refusal, desk, want, wantedItems, whyNot } from "./questions.js";

export function more(items, name, what) {
  if (!items.more) return null;
  const ask = (count) => button(t`${grouped(count)} more`, () => { wantedItems.set(name, want(name) + count); show(); });
  return h("div", { class: "more" }, what ? what(grouped(items.length)) : t`The first ${grouped(items.length)} are shown, and there are more.`, ask(PAGE),
    ask(10 * PAGE));
}

// The views by their names, which the start puts in.
export const VIEWS = {};

// What follows # in the address: a view, and then words or ids; or `place` and the name of a place in the warehouse, which may be empty.
export function place() {
  const { name, words } = readAddress(location.hash);
  if (name === "warehouse" && words[0] === "place") return [name, words.slice(0, 2).map(decoded)];
  const kinds = ["lot", "batch", "recall"];
  const rest = words.map((it) => (kinds.includes(it) ? it : it.toUpperCase())).filter((it) => kinds.includes(it) || isId(it));
  return Object.hasOwn(VIEWS, name) ? [name, rest] : ["today", []];
}

// What the address says of a filter, the first of its options where it says none of them.
export function filterOf(name, options) {
  const it = readAddress(location.hash).filters.get(name);
  return options.includes(it) ? it : options[0];
}
const filtered = (name, options, value) => `#${withFilter(location.hash || `#${place()[0]}`, name, value === options[0] ? null : value)}`;

// What the address says of a filter that is a text, and such a filter put into it. What is being typed makes no step of the way back.
export const textOf = (name) => readAddress(location.hash).filters.get(name) || "";
export function setText(name, value, isTyped) {
  const address = `#${withFilter(location.hash || `#${place()[0]}`, name, value || null)}`;
  if (!isTyped) location.hash = address;
  else { history.replaceState(history.state, "", address); show(); }
}
export function setFilter(name, options, value) { location.hash = filtered(name, options, value); }
export const filterChoice = (label, name, options) => choice(label, options, filterOf(name, options), (it) => setFilter(name, options, it));

// Takes a filter away, as what is about to be booked is seen without it.
export function dropFilter(name) { history.replaceState(history.state, "", filtered(name, [null], null)); }

// Whether the screen has room for a list or a thing alone, as the style has it.
export const isNarrow = () => innerWidth < 980;
let wasNarrow = isNarrow();
addEventListener("resize", () => { if (wasNarrow !== isNarrow()) show(); wasNarrow = isNarrow(); });

// The status: how far the desk is, or why that isn't known.
export function tellStatus(tone, ...told) {
  at("stand").className = tone;
  at("stand").replaceChildren(...told);
}

const SLOW = 700;
let showing = 0;
export async function show() {
  const mine = ++showing, [name, rest] = place();
  markRole(name);
  const slow = setTimeout(() => tellStatus("", t`reading\u2026`), SLOW);
  try {
    await desk.look();
    const [layout, ...parts] = await VIEWS[name](rest);
    await released();
    if (mine !== showing) return;
    draw(layout, parts);
    view.dataset.ready = `${name} ${desk.seq}`;
    void readRest(mine);
  } catch (error) {
    if (mine === showing) drawFailure(name, error);
  } finally { clearTimeout(slow); }
}

// What a view has only once it is drawn, since it takes many questions: `read` gives it, and is told whether the view is still shown. Until then there is what
// was there of this name before.
const unread = new Map(), lastRead = new Map();
export function later(name, read) {
  const it = h("div", { class: "later" }, none(t`reading\u2026`));
  unread.set(it, { name, read });
  return it;
}
async function readRest(mine) {
  const all = [...unread].filter(([it]) => it.isConnected), isShown = () => mine === showing;
  unread.clear();
  delete view.dataset.whole;
  for (const [element, { name }] of all) element.replaceChildren(...(lastRead.get(name) || element.childNodes));
  for (const [element, { name, read }] of all) {
    const nodes = isShown() && (await read(isShown).catch((error) => [none(whyNot(error))])).flat(9).filter(Boolean);
    if (!isShown()) return;
    const key = element.contains(document.activeElement) ? keyOf(document.activeElement) : null;
    lastRead.set(name, nodes);
    element.replaceChildren(...nodes);
    if (key) focusAgain(key);
  }
  view.dataset.whole = view.dataset.ready;
}

// The address that is drawn, and when it was; how far each address was scrolled when it was left.
let drawn = "", drawnOn = "", drawnAt = 0;
export const isDayOver = () => drawnOn !== desk.today();
export const isDrawnBefore = (seconds) => drawnAt > 0 && desk.time() - drawnAt >= seconds;
const tops = new Map();
history.scrollRestoration = "manual";

function draw(layout, parts) {
  const now = document.activeElement, key = view.contains(now) && now !== view ? keyOf(now) : null, before = readAddress(drawn).words.at(-1);
  const isAnother = !isSamePlace(drawn, location.hash), isBack = isAnother && (history.state !== null || isAbove(location.hash, drawn));
  if (isAnother) tops.set(drawn, scrollY);
  view.className = layout;
  view.replaceChildren(...parts.filter(Boolean));
  drawBack();
  doDrawn();
  if (isAnother) scrollTo(0, (isBack && tops.get(location.hash)) || 0);
  if (isBack && (key || now === at("back"))) focusRow(before);
  else if (key) focusAgain(key);
  drawn = location.hash;
  drawnOn = desk.today();
  drawnAt = desk.time();
  if (history.state === null) history.replaceState({ isDrawn: true }, "");
  drawStatus();
}
// What is done to parts of a view once they are drawn, and have their places.
let toDo = [];
export function onceDrawn(act) { toDo.push(act); }
function doDrawn() {
  const all = toDo;
  toDo = [];
  for (const act of all) act();
}

// The way back from a thing to the list that it is in.
const LISTS_OF = { planner: "Back to the orders", shift: "Back to the batches", warehouse: "Back to the materials", quality: "Back to recalls and holds" };
function drawBack() {
  const [name, rest] = place(), isInside = name === "warehouse" && rest.length > 1, isList = !rest.length || (rest.length === 1 && rest[0] === "place");
  view.classList.toggle("thing", !isList);
  at("back").hidden = isList;
  at("back").href = `#${placeFrom(location.hash, isInside ? `warehouse/${rest[0]}` : name)}`;
  const text = !isInside ? t(LISTS_OF[name] || "") : rest[0] === "place" ? t`Back to the places` : t`Back to the lots of ${rest[0]}`;
  at("back").textContent = `\u2039 ${text}`;
}
function drawFailure(name, error) {
  if (error instanceof Refusal) return draw("", [card(t`Not here`, null, none(error.message, " ", link(name, t`Back`)))]);
  const why = t`The desk doesn't answer. It may be stopped, or the way to it is broken.`, again = button(t`Try again`, () => { notice(); show(); });
  if (drawn !== location.hash) draw("", [card(t`No answer`, null, none(why), h("div", { class: "body" }, again))]);
  else notice("bad", why, again);
  tellStatus("bad", t`no answer`);
}
const clockIsOff = (length) => (desk.offset < 0 ? t`This device's clock is ${length} ahead of that of the desk's machine.`
  : t`This device's clock is ${length} behind that of the desk's machine.`);
function drawStatus() {
  const isAhead = desk.moment > desk.time() + 60, isOff = Math.abs(desk.offset) > 60;
  at("clock").hidden = !isOff;
  at("clock").textContent = isOff ? `${clockIsOff(lengthOfTime(Math.abs(desk.offset)))} ${t`Bookings take the machine's time.`}` : "";
  const count = counted(desk.seq, "booking", "bookings"), last = moment(desk.moment);
  tellStatus(isAhead ? "warn" : "", desk.seq === 0 ? t`no booking yet` : isAhead ? t`${count}, ahead: ${last}` : t`${count}, last ${last}`);
  at("stand").title = isAhead ? t`The desk's last booking is later than its machine's clock. Bookings take the desk's moment.` : "";
}

// The name that the desk is served under, null where it has none.
export let deskName = null;
export function present(name) {
  deskName = name;
  if (name !== null) at("desk").textContent = name;
}
const TITLES = { today: "today^view", planner: "planner^view", shift: "shift^view", warehouse: "warehouse^view", quality: "quality^view", board: "board^view" };
function markRole(name) {
  for (const it of document.querySelectorAll("header nav a")) {
    if (it.hash === "#" + name) it.setAttribute("aria-current", "page");
    else it.removeAttribute("aria-current");
  }
  document.title = `${deskName ?? t`Desk`}: ${t(TITLES[name])}`;
}
