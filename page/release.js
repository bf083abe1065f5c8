// The release of orders, one or several: what they want of each input, and whether it is there.

import { t } from "./texts.js";
import { counted, grouped } from "./amounts.js";
import { dated } from "./moments.js";
import { idOf } from "./ids.js";
import { LOST } from "./words.js";
import { inAll } from "./sorting.js";
import { h } from "./elements.js";
import { idCell, notice, numberCell, row, table } from "./parts.js";
import { desk, whyNot } from "./questions.js";
import { show } from "./frame.js";
import { form, idField, noteField, noted, openForm, ownField, say } from "./forms.js";
import { bookEach, bookingForm } from "./book.js";

// What orders need of each input, and how much of it is free.
async function needsOf(orders) {
  const needs = [];
  for (const it of orders) needs.push(...(await desk.needs(it.order)));
  const free = new Map(needs.map((it) => [it.def, it.usable]));
  const demands = needs.map((it) => ({ def: it.def, unit: it.unit || "", amount: it.asked }));
  return inAll(demands).map((it) => ({ ...it, free: free.get(it.def) }));
}
function needsTable(needs) {
  const short = (it) => h("td", { class: "num" }, it.free < it.asked && h("span", { class: "over" }, `${grouped(it.asked - it.free)} ${it.unit}`));
  const rows = needs.map((it) => row(`need ${it.def}`, [idCell(it.def), numberCell(it.asked, it.unit), numberCell(it.free, it.unit), short(it)]));
  return h("div", { class: "needs" }, table(["Input", "#Asked", "#Free", "#Short"], rows, t`No input is asked.`, true));
}

const batchOf = (order) => idOf("B", order.replace(/^O-?(?=.)/, ""));
const fieldsOf = (order, batch, note) => noted({ do: "release", order, batch }, note);
const inWords = (it) => t`${it.recipe} ${it.version}, size ${grouped(it.size)}, due ${dated(it.due)}`;

export async function release(order) {
  let needs;
  try { await desk.look(); needs = await needsOf([order]); } catch (error) { return notice("bad", whyNot(error)); }
  const text = say(`${inWords(order)}. ${t`The shift can start its batch at once.`}`), batch = idField("batch", t`New batch`, batchOf(order.order));
  const fields = [text, ownField(needsTable(needs)), batch, noteField()];
  bookingForm(t`Release order ${order.order}`, fields, t`Release`,
    (v, tell) => tell(t`Order ${order.order} released as ${v.batch}`, fieldsOf(order.order, v.batch, v.note)));
}

// Releases several orders, each with a batch of its own, up to the first that is refused. `isDone` is told of each that is released.
export async function releaseSeveral(orders, isDone) {
  let needs;
  try { await desk.look(); needs = await needsOf(orders); } catch (error) { return notice("bad", whyNot(error)); }
  const batches = orders.map((it) => ({ ...idField(`batch ${it.order}`, t`New batch of ${it.order}: ${inWords(it)}`, batchOf(it.order)) }));
  const fields = [say(t`Their batches can be started at once.`), ownField(needsTable(needs)), ...batches, noteField(t`Note on each, if any`)];
  const done = new Set();
  let mine = null;
  const take = async ({ note, ...v }) => {
    const left = orders.filter((it) => !done.has(it.order));
    const bookings = left.map((it) => ({ what: t`Order ${it.order} released`, fields: fieldsOf(it.order, v[`batch ${it.order}`], note) }));
    const isWanted = () => openForm() === mine;
    const { count, wrong } = await bookEach(bookings, async () => (isWanted() ? null : t`The form was closed.`));
    for (const it of left.slice(0, count)) { done.add(it.order); isDone(it.order); }
    await show();
    const number = grouped(done.size), all = counted(orders.length, "order", "orders");
    const far = done.size === 1 ? t`${number} of ${all} is released` : t`${number} of ${all} are released`;
    if (!wrong) { notice("good", `${far}.`); return null; }
    if (wrong === LOST) notice("bad", `${far}. ${t`No answer came to the next one: send it again, and then release the rest.`}`);
    else if (!isWanted()) notice("bad", `${far}. ${wrong}`);
    return wrong === LOST ? LOST : `${far}. ${left[count].order}: ${wrong}`;
  };
  form(t`Release ${counted(orders.length, "order", "orders")}`, fields, t`Release all`, take);
  mine = openForm();
}
