// The first view: what is late, due, running, waiting, on hold, recalled and short, and plots; and the same in large letters, for a wall.

import { t } from "./texts.js";
import { counted, decimal, grouped } from "./amounts.js";
import { dated, lengthOfTime, moment, shortDay } from "./moments.js";
import { scaled } from "./recipes.js";
import { MAY_CLOSE, TONES, wordOf } from "./words.js";
import { dayAfter, dueBy, dueByDay, shortage, stockByDay, yieldOf } from "./figures.js";
import { h } from "./elements.js";
import { batchLink, card, cell, choice, firstSteps, idCell, link, lotLink, none, numberCell, pill, row, table } from "./parts.js";
import { desk } from "./questions.js";
import { filterOf, later, setFilter, setText, textOf } from "./frame.js";
import { alarmBox, watchFor } from "./alarm.js";
import { barPlot, stepPlot, valueRow, valuesOf } from "./plots.js";

// So many rows of a list are read, the lines of so many batches, and so many rows of a table are shown, on a wall fewer.
const MOST = 1000, MOST_LINES = 40, MOST_ROWS = 8, MOST_ON_WALL = 4;
const firstOf = (rows, isBoard) => rows.slice(0, isBoard ? MOST_ON_WALL : MOST_ROWS);

// What is short is looked at so many days ahead.
const AHEAD = ["7 days", "1 day", "30 days"], SPANS = ["1 day", "7 days", "30 days"];

export const today = () => overview(false);
export const board = () => overview(true);

async function overview(isBoard) {
  const it = await figures(), stack = (...cards) => h("div", { class: "stack" }, cards);
  if (desk.seq === 0) return ["", firstSteps()];
  const running = runningBatches(it, isBoard), bars = latestBars(it, isBoard), short = shortCard(it, isBoard), due = dueCard(it);
  const yields = card(t`Yield`, null, later("yield", (isShown) => yieldPlot(isShown, isBoard)));
  const stock = card(t`Stock over ${STOCK_DAYS} days`, null, later("stock", (isShown) => stockPlot(it, isShown, isBoard)));
  if (isBoard) return ["today board", tiles(it, true), stack(running, stock), stack(bars, short), stack(due, yields)];
  return ["today", tiles(it, false), stack(running, short, yields), stack(bars, due, stock, boardCard())];
}

async function figures() {
  const day = desk.today(), ahead = filterOf("ahead", AHEAD), until = dayAfter(day, parseInt(ahead, 10));
  const orders = await desk.orders("open", MOST), batches = await desk.batches(MOST), holds = await desk.allHolds(MOST), recalls = await desk.recalls(MOST);
  const stocks = new Map((await desk.materials()).map((it) => [it.def, it]));
  watchFor(holds, recalls);
  const planned = batches.filter((it) => it.planned).map((it) => ({ ...it, due: it.planned.due }));
  const wanted = await demands(orders.filter((it) => it.due <= until), planned.filter((it) => it.due <= until));
  const isWhole = wanted.isWhole && !(orders.more && orders.at(-1).due <= until);
  return { day, ahead, until, orders, batches, planned, holds, recalls, stocks, isWhole, short: shortage(wanted.asked, wanted.made, stocks) };
}

// What orders, and batches that aren't at their end, still take and make.
async function demands(orders, batches) {
  const asked = [], made = [];
  const add = (line, amount, due) => (line.kind === "in" ? asked : made).push({ def: line.def, unit: line.unit, amount, due });
  const isUntouched = (it) => it.state === "idle" && it.attempt === 1, going = batches.filter((it) => !MAY_CLOSE.includes(it.state));
  for (const { recipe, version, size, due } of [...orders, ...going.filter(isUntouched).map((it) => it.planned)]) {
    const { lines, base } = await desk.recipeOnce(recipe, version);
    for (const it of lines) if (it.def) add(it, scaled(it.qty, base, size), due);
  }
  const begun = going.filter((it) => !isUntouched(it)).sort((a, b) => (a.due < b.due ? -1 : 1));
  for (const { batch, due } of begun.slice(0, MOST_LINES)) {
    for (const it of await desk.batchLines(batch)) if (it.def && it.booked < it.asked) add(it, it.asked - it.booked, due);
  }
  return { asked, made, isWhole: begun.length <= MOST_LINES };
}

// A figure, which leads to the view that shows it, and links to more of it.
const many = (list, one, several) => (list.more ? t`${grouped(list.length)} and more ${t(several)}` : counted(list.length, one, several));
function tile({ name, list, tone, place, more = [] }, isBoard) {
  const count = `${grouped(list.length)}${list.more ? "+" : ""}`, number = isBoard ? h("b", { class: "number" }, count)
    : h("a", { class: "number", href: `#${place}`, "aria-label": `${name}: ${count}` }, count);
  const told = more.filter(Boolean).map(([where, text]) => (isBoard || !where ? h("span", {}, text) : link(where, text)));
  return h("section", { class: `card tile ${list.length ? tone || "" : "nothing"}`.trim() }, h("h2", { tabindex: -1 }, name), number, h("p", {}, told));
}
function tiles(it, isBoard) {
  const orders = dueBy(it.orders, it.day), batches = dueBy(it.planned, it.day), all = [[...orders.late, ...batches.late], [...orders.today, ...batches.today]];
  const due = (mine, theirs, where = "planner") => [mine.length && [where, many(mine, "order isn't released", "orders aren't released")],
    theirs.length && ["shift", many(theirs, "batch is open", "batches are open")]];
  const running = it.batches.filter((one) => one.state === "running"), idle = it.batches.filter((one) => one.state === "idle");
  const broken = it.batches.filter((one) => !["running", "idle", "complete"].includes(one.state)), soon = it.orders.filter((one) => one.due <= it.until);
  const lots = Object.assign([...new Set(it.holds.map((one) => one.lot))], { more: it.holds.more });
  const of = (mine, theirs) => (mine.length || !theirs.length ? "planner" : "shift");
  const first = (list, place, name) => list.slice(0, 2).map((one) => [place(one), name(one)]);
  const figures = [
    { name: t`Late`, list: all[0], tone: "bad", place: of(orders.late, batches.late), more: due(orders.late, batches.late) },
    { name: t`Due today`, list: all[1], tone: "warn", place: orders.today.length ? `planner?text=${it.day}` : of(orders.today, batches.today),
      more: due(orders.today, batches.today, `planner?text=${it.day}`) },
    { name: t`Running`, list: running, tone: "good", place: "shift",
      more: [idle.length && ["shift", t`${grouped(idle.length)} to be started`],
        broken.length && ["shift", t`${grouped(broken.length)} paused, held or ended early`]] },
    { name: t`Waiting`, list: it.orders, place: "planner", more: [[null, t`${grouped(soon.length)} due within ${t(it.ahead)}`]] },
    { name: t`On hold`, list: lots, tone: "warn", place: "quality", more: first(lots, (one) => `quality/lot/${one}`, (one) => one) },
    { name: t`Recalled`, list: it.recalls, tone: "bad", place: "quality",
      more: first(it.recalls, (one) => `quality/recall/${one.recall}`, (one) => one.recall) },
    { name: t`Short`, list: it.short, tone: "bad", place: it.short.length ? `warehouse/${it.short[0].def}` : "warehouse",
      more: first(it.short, (one) => `warehouse/${one.def}`, (one) => one.def) },
  ];
  return h("div", { class: "tiles" }, figures.map((one) => tile(one, isBoard)));
}

// The first rows of a table, and how many there are.
const restOf = (rows, place, text) => rows.length > MOST_ROWS && h("div", { class: "more" }, t`${grouped(rows.length - MOST_ROWS)} more: `, link(place, text));

function runningBatches({ batches }, isBoard) {
  const now = desk.time(), going = batches.filter((it) => it.state !== "idle" && it.state !== "complete").sort((a, b) => a.at - b.at);
  const made = ({ planned }) => planned && h("div", { class: "under" }, planned.title || planned.product);
  const rows = firstOf(going, isBoard).map((it) => row(it.batch, [idCell(batchLink(it.batch), made(it)), cell(pill(wordOf(it.state), TONES[it.state])),
    cell(it.phase ? [h("div", {}, it.phase), h("div", { class: "soft small nowrap" }, t`on ${it.phase_unit}`)] : t`all phases done`),
    cell(h("div", {}, lengthOfTime(now - it.at)), !isBoard && h("div", { class: "soft small" }, moment(it.at)))]));
  return card(t`Running, the longest first`, null, table(["Batch", "State", "Next", "Last step ago"], rows, t`No batch runs.`),
    restOf(going, "shift", t`all batches`));
}

// The holds and recalls that came last.
function latestBars({ holds, recalls }, isBoard) {
  const all = [...holds.map((it) => ({ ...it, what: t`hold ${it.hold}` })),
    ...recalls.map((it) => ({ ...it, what: [t`recall `, link(`quality/recall/${it.recall}`, it.recall)], isRecall: true }))].sort((a, b) => b.at - a.at);
  const rows = firstOf(all, isBoard).map((it) => row(`${it.lot} ${it.hold || it.recall}`, [idCell(lotLink(it.lot)),
    cell(h("div", { class: it.isRecall ? "over" : null }, it.what), it.note && h("div", { class: "soft small" }, it.note)),
    cell(h("div", {}, it.by), h("div", { class: "soft small when" }, moment(it.at)))]));
  return card(t`On hold and recalled, the last first`, null, table(["Lot", "What", "By, since"], rows, t`No lot is on hold, and none is recalled.`),
    restOf(all, "quality", t`all holds and recalls`));
}

function shortCard({ short, until, ahead, isWhole }, isBoard) {
  const amount = (n, unit) => (n ? numberCell(n, unit) : cell());
  const rows = firstOf(short, isBoard).map((it) => row(it.def, [idCell(link("warehouse/" + it.def, it.def), it.name && h("div", { class: "under" }, it.name)),
    !isBoard && [numberCell(it.asked, it.unit), numberCell(it.free, it.unit), amount(it.made, it.unit)],
    h("td", { class: "num" }, h("span", { class: "over" }, grouped(it.short), " ", it.unit)), cell(dated(it.from))].flat().filter(Boolean)));
  const heads = ["Material", ...(isBoard ? [] : ["#Asked", "#Free", "#Made by then"]), "#Short", "From^day"];
  const pick = choice(t`Days to look ahead`, SPANS, ahead, (it) => setFilter("ahead", AHEAD, it));
  return card(t`Short by ${dated(until)}`, !isBoard && pick, table(heads, rows, t`Nothing is short for the open orders and batches that are due by then.`),
    restOf(short, "warehouse", t`the warehouse`),
    !isWhole && h("p", { class: "none" }, t`The first ${grouped(MOST)} orders and the lines of ${MOST_LINES} batches are counted, and there are more.`));
}

// How many open orders and batches are due on each day, before and after this one.
const BEFORE = 14, DAYS = 29;
function dueCard({ day, orders, planned }) {
  const { days, before, after } = dueByDay([...orders, ...planned], dayAfter(day, -BEFORE), DAYS);
  const values = days.map((it) => ({ n: it.count, tone: it.day < day ? "bad" : it.day === day ? "warn" : "",
    tick: it.day === day ? t`today, ${shortDay(day)}` : shortDay(it.day), said: `${dated(it.day)}: ${grouped(it.count)}` }));
  const late = before + days.filter((it) => it.day < day).reduce((sum, it) => sum + it.count, 0);
  const rest = [before && t`${grouped(before)} due before these days`, after && t`${grouped(after)} after them`].filter(Boolean).join(", ");
  return card(t`Orders and batches by their due dates`, null, barPlot(t`Open orders and batches by their due dates, ${late} late`, values),
    rest && h("p", { class: "none" }, `${rest}.`), valuesOf(t`Due dates`, ["Due", "#Open"],
      days.filter((it) => it.count).map((it) => valueRow(dated(it.day), [it.count]))));
}

// A field that chooses what a plot is of.
function plotOf(name, id, label, values, on) {
  return h("div", { class: "body row" }, h("select", { id, "aria-label": label, onchange: (event) => setText(name, event.target.value) },
    values.map((it) => h("option", { value: it, selected: it === on }, it))));
}

// The orders that were finished last, by their due dates: of ever more days, until there are enough of a recipe, or so many that not all are read.
const LAST_BATCHES = 30, LOW_YIELD = 95, MOST_FINISHED = 2000, BACK = [3, 14, 60, 240, 4000];
async function lastFinished(recipe, isShown) {
  let found = [], all = [], of = recipe;
  for (const days of BACK) {
    if (!isShown()) break;
    const read = await desk.ordersSince("finished", dayAfter(desk.today(), -days), MOST_FINISHED);
    if (read.more && all.length) break;
    all = read;
    of ||= all.at(-1)?.recipe || "";
    found = all.filter((it) => it.recipe === of).slice(-LAST_BATCHES);
    if (found.length === LAST_BATCHES) break;
  }
  return { of, found, recipes: [...new Set([...all.map((it) => it.recipe), of])].filter(Boolean).sort() };
}
async function yieldPlot(isShown, isBoard) {
  const { of, found, recipes } = await lastFinished(textOf("recipe"), isShown), values = [];
  const pick = !isBoard && recipes.length > 0 && plotOf("recipe", "yieldrecipe", t`Recipe of the yields`, recipes, of);
  for (const order of found) {
    if (!isShown()) return [];
    const { batch, lines } = await desk.finishedBatch(order.order), { product } = await desk.recipeOnce(order.recipe, order.version);
    const it = yieldOf(lines, product);
    if (it) values.push({ ...it, n: it.percent, batch, due: order.due, tone: it.percent < LOW_YIELD ? "bad" : "good", tick: shortDay(order.due),
      said: t`${batch}: ${decimal(it.percent, 1)}\u202f%, ${grouped(it.booked)} of ${grouped(it.asked)} ${it.unit}` });
  }
  if (!values.length) return [pick, none(of ? t`No order of ${of} is finished.` : t`No order is finished.`)];
  const asked = values.reduce((sum, it) => sum + it.asked, 0), booked = values.reduce((sum, it) => sum + it.booked, 0);
  const rows = values.map((it) => row(`yield ${it.batch}`, [idCell(batchLink(it.batch)), numberCell(it.asked, it.unit), numberCell(it.booked, it.unit),
    h("td", { class: "num" }, decimal(it.percent, 1))]));
  const percent = decimal((100 * booked) / asked, 1);
  const told = values.length === 1 ? t`${of}: the last batch made ${percent}\u202f% of what was asked`
    : t`${of}: the last ${values.length} batches made ${percent}\u202f% of what was asked`;
  return [pick, h("p", { class: "none" }, `${told}. ${t`Red is below ${LOW_YIELD}\u202f%.`}`), barPlot(told, values, "\u202f%", 100),
    valuesOf(t`Yield`, ["Batch", "#Asked", "#Booked", "#Percent"], rows)];
}

// The stock of a material in the last days, by the ledgers of its lots. The desk lists no lot that is used up, so that these are left out.
const STOCK_DAYS = 90, MOST_LOTS = 100, MOST_MOVEMENTS = 500;
async function stockPlot({ stocks, short, day }, isShown, isBoard) {
  const there = [...stocks.values()].filter((it) => it.lots > 0), most = [...there].sort((a, b) => b.lots - a.lots)[0];
  const def = textOf("def") || short.find((it) => stocks.get(it.def)?.lots)?.def || most?.def, known = stocks.get(def);
  const defs = [...new Set([...there.map((it) => it.def), def])].sort();
  const pick = !isBoard && there.length > 0 && plotOf("def", "stockdef", t`Material of the stock`, defs, def);
  if (!known?.lots) return [pick, none(def ? t`There is no ${def} in stock.` : t`Nothing is in stock.`)];
  const lots = await desk.stock(def, MOST_LOTS), ledgers = [];
  for (const { lot, stock } of lots) {
    if (!isShown()) return [];
    const movements = await desk.ledger(lot, stock, MOST_MOVEMENTS);
    if (!movements.more) ledgers.push({ lot, movements });
  }
  const left = lots.length - ledgers.length, days = stockByDay(ledgers, dayAfter(day, 1 - STOCK_DAYS), STOCK_DAYS), now = days.at(-1).stock;
  const told = t`${known.name || def}: ${grouped(now)} ${known.unit} of ${counted(ledgers.length, "lot", "lots")} in stock`;
  const limits = [lots.more && t`the ${MOST_LOTS} oldest lots alone`,
    left > 0 && t`${counted(left, "lot", "lots")} of more than ${MOST_MOVEMENTS} bookings left out`];
  const said = [t`Lots that are used up meanwhile aren't counted`, ...limits].filter(Boolean).join(", ");
  const weeks = days.filter((it, k) => (STOCK_DAYS - 1 - k) % 7 === 0);
  return [pick, h("p", { class: "none" }, `${told}. ${said}.`), stepPlot(t`${told}, day by day`, days.map((it) => ({ n: it.stock, tick: shortDay(it.day) })), ""),
    valuesOf(t`Stock`, ["Day", "#Stock"], weeks.map((it) => valueRow(dated(it.day), [it.stock, known.unit])))];
}

function boardCard() {
  const board = link(location.hash.replace(/^#?\w*/, "board"), t`Open the board`);
  const what = t`: the same in large letters, without buttons, for a screen on the wall. Esc leads back here.`;
  return card(t`The board`, null, h("div", { class: "body" }, h("p", {}, board, what), alarmBox()));
}
