// The planner's view: orders and recipes.

import { t } from "./texts.js";
import { grouped } from "./amounts.js";
import { dated, day } from "./moments.js";
import { LINES_EXAMPLE, LINES_HINT, linesText, recipeLines, withPath } from "./recipes.js";
import { FILE_FAULTS, wordOf } from "./words.js";
import { filteredOrders, sortedOrders } from "./sorting.js";
import { dialog, h } from "./elements.js";
import {
  batchLink, button, buttonsCell, card, cell, fact, facts, firstSteps, go, idCell, link, listed, none, notice, numberCell, pill, row, table,
} from "./parts.js";
import { csvButton } from "./saved.js";
import { desk, want, whyNot } from "./questions.js";
import { dropFilter, filterChoice, filterOf, more, setFilter, setText, show, textOf } from "./frame.js";
import { listOrder } from "./sorts.js";
import { amountField, halfField, idField, noteField, noted, openDialog, ownField, say, selectField } from "./forms.js";
import { act, bookAtOnce, bookingForm } from "./book.js";
import { release, releaseSeveral } from "./release.js";
import { wantsOf } from "./lacks.js";
import { chooseLines } from "./chooser.js";

const ORDER_STATES = ["open", "released", "finished", "cancelled"], WITHDRAWN = ["hidden", "shown"];

export async function planner([id]) {
  const orderState = filterOf("orders", ORDER_STATES), isWithdrawnShown = filterOf("withdrawn", WITHDRAWN) === "shown";
  const orders = await desk.orders(orderState, wantedOrders(orderState));
  const approved = await desk.recipes("approved", want("recipes")), drafts = await desk.recipes("draft", want("recipes"));
  const withdrawn = isWithdrawnShown ? await desk.recipes("withdrawn", want("recipes")) : [];
  const one = id && (await desk.foundOrder(id)), wants = await wantsOf(orders, orderState === "open");
  return ["side",
    h("div", { class: "stack" }, desk.seq === 0 && firstSteps(), id && orderCard(id, one), listed(ordersCard(orders, orderState, approved, wants))),
    listed(h("div", { class: "stack" }, takeInCard(approved), recipesCard(approved, drafts, isWithdrawnShown && withdrawn)))];
}

// The orders that are chosen to be released together.
export const chosenOrders = new Map();
const MOST_AT_ONCE = 50;

// Where orders are filtered or sorted otherwise than they come, so many of them are read.
const MOST_READ = 2000;
const isAsTheyCome = () => !textOf("recipe") && !textOf("text") && typed === null && listOrder(SORT_HEADS).isAsItComes;
const wantedOrders = (state) => (isAsTheyCome() ? want("orders " + state) : Math.max(MOST_READ, want("orders " + state)));

// The heads by which orders are sorted; at first by their due dates.
const SORT_HEADS = { due: "Due", order: "Order", priority: "#Priority", recipe: "Recipe", size: "#Size" };

function ordersCard(orders, orderState, approved, wants) {
  const recipes = new Map(approved.map((it) => [`${it.recipe}.${it.version}`, it])), recipeOf = (it) => recipes.get(`${it.recipe}.${it.version}`);
  const order = listOrder(SORT_HEADS), isFiltered = Boolean(textOf("recipe") || typedText());
  const meant = filteredOrders(orders, textOf("recipe"), typedText(), (it) => recipeOf(it)?.title || ""), sorted = sortedOrders(meant, order.by, order.isBack);
  const isOpen = orderState === "open", bar = chosenBar();
  for (const it of [...chosenOrders.keys()]) if (!isOpen || !orders.some((one) => one.order === it)) chosenOrders.delete(it);
  const rows = sorted.map((it) => orderRow(it, orderState, recipeOf(it), wants, () => drawChosenOrders(bar)));
  drawChosenOrders(bar);
  const late = MAY_BE_LATE.includes(orderState) ? orders.filter((it) => it.due < desk.today()).length : 0;
  const states = filterChoice(t`State of the orders`, "orders", ORDER_STATES);
  const csv = csvButton("orders", `orders-${orderState}`, async () => (await desk.orders(orderState, Infinity)).map((it) => ({ ...it, state: orderState })));
  const without = isFiltered && orders.length ? t`No order fits the filter.` : isOpen ? t`No order is open. Take an order file in, or one order by hand.`
    : t`No order is ${wordOf(orderState)}.`;
  const isAll = late === orders.length && orders.more, heads = ["Order", "Due", "#Priority", "Recipe", "#Size", ""];
  return card(t`Orders`, [late > 0 && pill(isAll ? t`${grouped(late)} and more late` : t`${grouped(late)} late`, "bad"), csv, states],
    orders.length > 0 && filterRow(orders, order), table(isOpen ? ["Choose", ...heads] : heads, rows, without, false, order.heads),
    more(orders, "orders " + orderState, firstOrders), isOpen && bar);
}

// What is said where there are more orders than are read.
const firstOrders = (count) => (isAsTheyCome() ? t`The first ${count} by their due dates are shown, and there are more.`
  : t`The first ${count} by their due dates are looked through; those that fit are shown, and there are more.`);

// What is typed into the filter and isn't in the address yet: a pause of so many milliseconds puts it there.
const TYPING = 300;
let typed = null, typing;
const typedText = () => (typed === null ? textOf("text") : typed);
function typeText(value) {
  typed = value;
  clearTimeout(typing);
  typing = setTimeout(() => { typed = null; setText("text", value.trim(), true); }, TYPING);
}
function filterRow(orders, order) {
  const recipe = textOf("recipe"), ids = [...new Set([...orders.map((it) => it.recipe), ...(recipe ? [recipe] : [])])].sort();
  const option = (value, label, isOn) => h("option", { value, selected: isOn }, label);
  const text = h("input", { type: "search", id: "ordertext", maxlength: 60, placeholder: t`Filter by a text`, "aria-label": t`Filter the orders by a text`,
    autocomplete: "off", oninput: (event) => typeText(event.target.value) });
  text.value = typedText();
  return h("div", { class: "body row filter" }, text,
    h("select", { id: "orderrecipe", "aria-label": t`Filter the orders by a recipe`, onchange: (event) => setText("recipe", event.target.value) },
      option("", t`all recipes`, !recipe), ids.map((it) => option(it, it, it === recipe))),
    order.field(t`Sort the orders`),
    (recipe || typedText()) && button(t`No filter`, () => { typed = null; clearTimeout(typing); setText("text", ""); setText("recipe", ""); }));
}

// The orders that are chosen, and their release.
function chosenBar() {
  const all = () => releaseSeveral([...chosenOrders.values()], (it) => chosenOrders.delete(it));
  return h("div", { class: "chosen" }, h("span", {}), button(t`Release\u2026`, all, "main", { "aria-label": t`Release the chosen orders` }),
    button(t`Choose none`, () => { chosenOrders.clear(); show(); }));
}
function drawChosenOrders(bar) {
  const count = chosenOrders.size, isTooMany = count > MOST_AT_ONCE;
  bar.hidden = !count;
  bar.firstChild.textContent = isTooMany ? t`At most ${MOST_AT_ONCE} orders are released at once.` : count === 1 ? t`1 order is chosen.` : t`${grouped(count)} orders are chosen.`;
  bar.children[1].disabled = isTooMany;
}
function orderBox(order, isOff, told) {
  const choose = (event) => {
    if (event.target.checked) chosenOrders.set(order.order, order); else chosenOrders.delete(order.order);
    told();
  };
  const name = t`Choose ${order.order} to be released`;
  return h("input", { type: "checkbox", "aria-label": name, checked: chosenOrders.has(order.order), disabled: isOff, onchange: choose });
}
function orderRow(order, orderState, recipe, wants, told) {
  const isOpen = orderState === "open", name = `${order.recipe} ${order.version}`;
  const title = recipe && recipe.title ? [recipe.title, " ", h("span", { class: "soft small" }, name)] : name;
  const mark = isOpen && !recipe && [" ", pill(t`not approved`, "warn")];
  const open = [button(t`Release`, () => release(order), "main"), button(t`Cancel^order`, () => cancelOrder(order), "bad")];
  const buttons = isOpen ? open : orderState !== "cancelled" && button(t`Batch`, () => showBatchOf(order.order));
  return row(order.order, [isOpen && cell(orderBox(order, !recipe, told)), idCell(link("planner/" + order.order, order.order)), cell(due(order, orderState)),
    h("td", { class: "num" }, order.priority),
    cell(title, mark, wants.lack(order)), h("td", { class: "num" }, h("span", {}, grouped(order.size), " ", wants.unit(order))),
    buttonsCell(buttons)].filter(Boolean));
}
const MAY_BE_LATE = ["open", "released"];
function due(order, state) {
  const today = desk.today(), mayBeLate = MAY_BE_LATE.includes(state);
  if (mayBeLate && order.due < today) return pill(t`${dated(order.due)} late`, "bad");
  return mayBeLate && order.due === today ? pill(t`${dated(order.due)} today`, "warn") : dated(order.due);
}
async function showBatchOf(id) {
  try { go("shift", (await desk.order(id)).batch); } catch (error) { notice("bad", error.message); }
}

// One order, which somebody looked for.
function orderCard(id, order) {
  const away = button(t`Close this`, () => go("planner"));
  if (!order) return card(t`Order ${id}`, away, none(t`There is no such order.`));
  const isOpen = order.state === "open";
  return card(t`Order ${id}`, [pill(wordOf(order.state), isOpen ? "warn" : order.state === "finished" ? "good" : ""), away],
    facts(fact(t`Due`, due(order, order.state)), fact(t`Priority`, order.priority), fact(t`Recipe`, `${order.recipe} ${order.version}`),
      fact(t`Size`, grouped(order.size)), order.batch && fact(t`Batch`, batchLink(order.batch))),
    isOpen && h("div", { class: "body row" }, button(t`Release`, () => release(order), "main", { "aria-label": t`Release the order ${id}` }),
      button(t`Cancel^order`, () => cancelOrder(order), "bad", { "aria-label": t`Cancel the order ${id}` })));
}

function cancelOrder(order) {
  bookingForm(t`Cancel order ${order.order}?`, [say(t`A cancelled order stays cancelled.`), noteField(t`Why`)], t`Cancel the order`,
    (v, tell) => tell(t`Order ${order.order} cancelled`, noted({ do: "cancel_order", order: order.order }, v.note)), { isGrave: true });
}

const FILE_HINT = "An order file has comma-separated values, with the first line order,recipe,version,size,due,priority. "
  + "All of its orders are taken in, or none.";
function takeInCard(approved) {
  const file = h("input", { type: "file", accept: ".csv,text/csv", "aria-label": t`Order file`, id: "orderfile", class: "full" });
  const buttons = [button(t`Take the file in`, () => importFile(file), "main"), button(t`One order by hand`, () => oneOrder(approved))];
  return card(t`Take orders in`, null, h("div", { class: "body" }, h("p", { class: "soft small" }, t(FILE_HINT)), file,
    h("p", { class: "row" }, buttons)));
}
async function importFile(field) {
  const file = field.files[0];
  if (!file) { field.focus(); return notice("bad", t`Choose a file first.`); }
  if (file.size > 262144) return notice("bad", t(FILE_FAULTS.TooLong));
  const content = await file.text(), what = t`Order file ${file.name} taken in`;
  dropFilter("orders");
  return bookAtOnce(what, { file: content }, t`Take it in`);
}
function oneOrder(approved) {
  if (!approved.length) return notice("bad", t`No recipe is approved, so that no order can be taken in.`);
  const label = (it) => t`${it.title || it.recipe} (${it.recipe} ${it.version}), ${grouped(it.min)} to ${grouped(it.max)}`;
  const recipes = approved.map((it) => ({ value: `${it.recipe}.${it.version}`, label: label(it) }));
  const priorities = [9, 8, 7, 6, 5, 4, 3, 2, 1].map((it) => ({ value: it, label: it }));
  const fields = [
    say(t`An order can't be changed: a slip is cancelled, and taken in anew under another id.`),
    idField("order", t`New order`), selectField("recipe", t`Recipe`, recipes), { ...amountField(), name: "size", label: t`Size` },
    halfField("due", "date", t`Due`, { value: day(new Date(Date.now() + 7 * 86400e3)) }),
    halfField("priority", "select", t`Priority, 9 before 1`, { value: 5, options: priorities }),
  ];
  bookingForm(t`One order`, fields, t`Take it in`, (v, tell) => {
    const [recipe, version] = v.recipe.split(".");
    const order = { order: v.order, recipe, version: Number(version), size: v.size, due: v.due, priority: Number(v.priority) };
    return tell(t`Order ${v.order} taken in`, { do: "import_orders", orders: [order] });
  });
}

function recipesCard(approved, drafts, withdrawn) {
  const rows = [...drafts.map((it) => recipeRow(it, "draft")), ...approved.map((it) => recipeRow(it, "approved")),
    ...(withdrawn || []).map((it) => recipeRow(it, "withdrawn"))];
  const tools = [button(withdrawn ? t`Hide withdrawn` : t`Show withdrawn`, () => setFilter("withdrawn", WITHDRAWN, withdrawn ? "hidden" : "shown")),
    csvButton("recipes", "recipes", allRecipes), button(t`New recipe`, () => newRecipe())];
  return card(t`Recipes`, tools, table(["Recipe", ""], rows, t`There is no recipe yet. Write one: its materials have to be there.`),
    [approved, drafts, withdrawn || []].map((it) => more(it, "recipes")).find(Boolean));
}
async function allRecipes() {
  const all = [];
  for (const state of ["draft", "approved", "withdrawn"]) all.push(...(await desk.recipes(state, Infinity)).map((it) => ({ ...it, state })));
  return all;
}
function recipeRow(it, state) {
  const name = `${it.recipe} ${it.version}`;
  const approve = () => act(t`Recipe ${name} approved`, { do: "approve", recipe: it.recipe, version: it.version });
  const mark = state !== "approved" && [" ", pill(wordOf(state), state === "draft" ? "warn" : "")];
  const title = [h("b", {}, it.title || it.recipe), " ", h("span", { class: "soft small" }, name), mark];
  const sizes = h("div", { class: "soft small" }, t`${grouped(it.min)} to ${grouped(it.max)} of ${it.product}`);
  const buttons = [button(t`Lines`, () => showRecipe(it)), state === "draft" && button(t`Approve`, approve),
    state === "approved" && button(t`Withdraw`, () => withdraw(it), "bad")];
  return row(name, [cell(title, sizes), buttonsCell(...buttons)]);
}
async function showRecipe({ recipe, version }) {
  let it;
  try { it = await desk.recipe(recipe, version); } catch (error) { return notice("bad", error.message); }
  const amount = (line) => (line.qty ? `${grouped(line.qty)} ${line.unit}` : line.value || "");
  const rows = it.lines.map(withPath).map((line, k) => row("line " + k, [cell(wordOf(line.kind)), cell(line.def || line.name || line.path), cell(amount(line))]));
  const away = button(t`Close`, () => dialog.close()), again = button(t`New version from this one`, () => newVersion(it));
  const sizes = t`For ${grouped(it.base)} ${it.unit} of ${it.product}; orders of ${grouped(it.min)} to ${grouped(it.max)} ${it.unit}.`;
  openDialog(h("form", { method: "dialog" }, h("h2", { id: "title" }, `${it.title || it.recipe} (${it.recipe} ${it.version}), ${wordOf(it.state)}`),
    h("p", { class: "soft" }, sizes), table(["Kind", "What", "Amount or value"], rows, ""), h("div", { class: "end" }, again, away)), away);
}
// Opens the form of a recipe with what another version of it has, under the next number that is free.
async function newVersion(it) {
  let { version } = it;
  try { do version += 1; while (await desk.foundRecipe(it.recipe, version)); } catch (error) { return notice("bad", whyNot(error)); }
  newRecipe({ ...it, version, lines: linesText(it.lines) });
}
function withdraw(it) {
  bookingForm(t`Withdraw recipe ${it.recipe} ${it.version}?`,
    [say(t`No order of this version can be released any more. Batches that are released go on.`), noteField(t`Why`)], t`Withdraw`,
    (v, tell) => tell(t`Recipe ${it.recipe} ${it.version} withdrawn`,
      noted({ do: "withdraw", recipe: it.recipe, version: it.version }, v.note)), { isGrave: true });
}

function newRecipe(values = {}) {
  const chooser = h("div", { class: "lines", role: "group", "aria-label": t`Lines, one by one` });
  const fields = [
    say(t`A draft can't be changed: a slip wants another version.`), halfField("recipe", "id", t`Recipe`),
    halfField("version", "amount", t`Version, 1 to 999`, { value: 1, more: { pattern: "0*[1-9][0-9]{0,2}" } }),
    halfField("title", "text", t`Title`), halfField("product", "id", t`Product, a material`),
    { name: "base", kind: "amount", label: t`Base size, for which the lines are written` },
    halfField("min", "amount", t`Least size of an order`), halfField("max", "amount", t`Greatest size`), ownField(chooser),
    { name: "lines", kind: "lines", label: t`Lines`, hint: t(LINES_HINT), more: { placeholder: LINES_EXAMPLE } },
  ].map((it) => ({ ...it, value: values[it.name] ?? it.value }));
  bookingForm(values.recipe ? t`New version of recipe ${values.recipe}` : t`New recipe`, fields, t`Make a draft`, ({ lines: text, ...header }, tell) => {
    const [lines, wrong] = recipeLines(text);
    return wrong || tell(t`Recipe ${header.recipe} ${header.version} drafted`, { do: "add_recipe", ...header, lines });
  });
  chooseLines(chooser, dialog.querySelector("[name=lines]"), desk.named().catch(() => []));
}
