// The shift's view: the open batches, and one of them.

import { t } from "./texts.js";
import { doubtOf, excess, grouped } from "./amounts.js";
import { idOf } from "./ids.js";
import { dated, moment } from "./moments.js";
import { isMaterial, procedureOf } from "./recipes.js";
import { lotOf } from "./scans.js";
import { MAY_CLOSE, MOVES, STATES, TONES, wordOf } from "./words.js";
import { openInputs } from "./taking.js";
import { sortedBy, upTo } from "./sorting.js";
import { at, h } from "./elements.js";
import {
  batchLink, button, buttonsCell, card, cell, fact, firstSteps, idCell, link, listed, lotLink, none, notice, numberCell, overCell, pill, row, table,
} from "./parts.js";
import { csvButton } from "./saved.js";
import { desk, want } from "./questions.js";
import { filterChoice, filterOf, isNarrow, more, setText, show, textOf } from "./frame.js";
import { listOrder } from "./sorts.js";
import { partsToOffer } from "./lots.js";
import { amountField, lotField, newLotField, noteField, noted, openForm, placeField, say, selectField, textField } from "./forms.js";
import { act, bookingForm } from "./book.js";
import { showSheet } from "./sheet.js";
import { bookInputs } from "./inputs.js";

const WHICH = ["open", "closed"];

// The batch that is shown, if any.
let batchShown = null;

export async function shift([id]) {
  const areClosedShown = filterOf("batches", WHICH) === "closed", unit = areClosedShown ? "" : textOf("unit"), list = areClosedShown ? "closed" : "batches";
  const order = listOrder(areClosedShown ? CLOSED_HEADS : OPEN_HEADS), read = await readBatches(areClosedShown, order);
  const batches = upTo(sortedBatches(read.filter((it) => !unit || it.phase_unit === unit), order), want(list), read.more);
  const shown = id || (!isNarrow() && batches[0] && batches[0].batch);
  if (!shown || batchShown?.batch !== shown) batchShown = null;
  const rows = batches.map((it) => batchRow(it, it.batch === shown, areClosedShown));
  const noneOpen = unit ? t`No batch has its next phase on ${unit}.` : t`No batch is open. The planner releases an order, which makes its batch.`;
  const all = h("div", { class: "batches" }, table(["Batch", "State", "#Due"], rows, areClosedShown ? t`No batch is closed.` : noneOpen, true,
    order.heads));
  const which = filterChoice(t`Which batches`, "batches", WHICH);
  const csv = csvButton("batches", `batches-${areClosedShown ? "closed" : "open"}`, async () => (await (areClosedShown ? desk.closedBatches(Infinity)
    : desk.batches(Infinity))).map((it) => ({ ...it, ...it.planned, closed: areClosedShown })));
  const without = card(t`No batch`, null, none(t`Once an order is released, its batch is started, booked and closed here.`));
  const one = shown ? await batchCards(shown) : desk.seq === 0 ? firstSteps() : !isNarrow() && without;
  return ["list", listed(card(t`Batches`, [csv, which], !areClosedShown && unitRow(read, unit), all, more(batches, list))),
    h("div", { class: "stack" }, one)];
}

// By what batches are sorted: open ones at first by the due dates of their orders, closed ones as the desk has them. So many are read for it.
const OPEN_HEADS = { due: "#Due", batch: "Batch", state: "State" }, CLOSED_HEADS = { batch: "Batch", state: "State", due: "#Due" }, MOST_READ_BATCHES = 2000;
function readBatches(areClosed, { isAsItComes }) {
  const wanted = want(areClosed ? "closed" : "batches"), many = Math.max(MOST_READ_BATCHES, wanted);
  return areClosed ? desk.closedBatches(isAsItComes ? wanted : many) : desk.batches(many);
}
function sortedBatches(batches, { by, isBack }) {
  if (by !== "due") return sortedBy(batches, by === "batch" ? (it) => it.batch : (it) => wordOf(it.state), isBack);
  return [...batches].sort((one, other) => (isBack ? -1 : 1) * byDueDate(one, other));
}

// The units of the next phases, of which one can be chosen: what is left is the unit's worklist.
function unitRow(batches, unit) {
  const units = [...new Set([...batches.map((it) => it.phase_unit), unit].filter(Boolean))].sort(), option = (value, label) => h("option", { value,
    selected: value === unit }, label);
  if (!units.length) return null;
  return h("div", { class: "body row filter" }, h("select", { id: "batchunit", "aria-label": t`Filter the batches by the unit of their next phase`,
    onchange: (event) => setText("unit", event.target.value) }, option("", t`all units`), units.map((it) => option(it, t`next on ${it}`))));
}
// Batches by the due dates of their orders, and of one day those of a higher priority first.
function byDueDate({ planned: one }, { planned: other }) {
  if (!one || !other) return Boolean(other) - Boolean(one);
  return one.due < other.due ? -1 : one.due > other.due ? 1 : other.priority - one.priority;
}
function batchRow(batch, isShown, isClosed) {
  const { planned } = batch, small = (...text) => h("div", { class: "soft small" }, ...text);
  const next = batch.phase ? t`next ${batch.phase} on ${batch.phase_unit}, ${batch.next} of ${batch.phases}` : t`all phases done`;
  const cells = [idCell(batchLink(batch.batch), planned && h("div", { class: "under" }, planned.title || planned.product), small(batch.order)),
    cell(pill(wordOf(batch.state), TONES[batch.state]), small(next), small(t`since `, h("span", { class: "when" }, moment(batch.at)))),
    h("td", { class: "num" }, planned && h("span", {}, isClosed ? dated(planned.due) : dueMark(planned.due),
      small(`${grouped(planned.size)} ${planned.unit || ""}`)))];
  return row(batch.batch, cells, "shift/" + batch.batch, isShown);
}
function dueMark(due) {
  const today = desk.today();
  return [dated(due), due <= today && h("div", {}, pill(due < today ? t`late` : t`today`, due < today ? "bad" : "warn"))];
}
async function batchCards(id) {
  const batch = await desk.batch(id);
  batchShown = batch;
  return [progressCard(batch), await materialsCard(batch), bookingsCard(batch)];
}

function progressCard(batch) {
  const done = batch.next - 1, { phases, last } = procedureOf(batch.lines), next = phases[done];
  const path = phases.map((it, k) => [k ? " \u203a " : "", k === done ? h("b", {}, it.path) : it.path, k < done ? " \u2713" : ""]);
  const known = [fact(t`Order`, link("planner/" + batch.order, batch.order)), fact(t`Recipe`, `${batch.recipe} ${batch.version}`),
    fact(t`Size`, grouped(batch.size)), fact(t`Attempt`, batch.attempt), fact(t`Phases done`, t`${done} of ${batch.phases}`)];
  const tools = [pill(batch.closed ? t`closed` : wordOf(batch.state), batch.closed ? "" : TONES[batch.state]),
    link("quality/batch/" + batch.batch, t`Record and genealogy`), button(t`Sheet`, () => showSheet(batch.batch), null,
      { "aria-label": t`Sheet of ${batch.batch}` })];
  return card(t`Batch ${batch.batch}`, tools, h("div", { class: "body" }, h("div", { class: "facts" }, known), progressBar(done, batch.phases),
    h("p", { class: "soft small" }, path), parametersOf(next ? t`For ${next.path}` : t`After the phases`, next ? next.parameters : last),
    h("p", { class: "row" }, moves(batch, next))), procedureTable(phases, last, done));
}
// The parameters of the next phase, as its unit wants them.
function parametersOf(name, parameters) {
  if (!parameters.length) return null;
  return h("div", { class: "parameters", role: "group", "aria-label": t`Parameters: ${name}` }, h("span", { class: "soft small" }, name),
    h("div", { class: "facts" }, parameters.map((it) => fact(it.name, it.value))));
}
// All phases with their parameters, where there are some.
function procedureTable(phases, last, done) {
  if (!last.length && phases.every((it) => !it.parameters.length)) return null;
  const values = (parameters) => parameters.map((it) => h("div", {}, it.name, " ", h("b", {}, it.value)));
  const rows = phases.map((it, k) => row(`phase ${k + 1}`, [numberCell(k + 1), cell(values(it.parameters)), cell(it.path),
    cell(k < done ? t`done` : k === done ? t`next` : "")]));
  if (last.length) rows.push(row("after the phases", [cell(), cell(values(last)), cell(t`after the phases`), cell()]));
  return h("details", {}, h("summary", {}, t`All phases with their parameters`), table(["#No", "Parameters", "Phase", ""], rows, "", true));
}
function progressBar(done, phases) {
  const values = { "aria-valuemin": 0, "aria-valuemax": phases, "aria-valuenow": done };
  const bar = h("div", { class: "bar", role: "progressbar", "aria-label": t`Phases done`, ...values }, h("i"));
  bar.firstChild.style.width = `${(100 * done) / phases}%`;
  return bar;
}
// The buttons of what a batch can do in its state, and the id of that of its next phase.
const NEXT_PHASE = "nextphase";
function moves(batch, phase) {
  if (batch.closed) return t`This batch is closed. Nothing more is booked on it.`;
  const { done, ...words } = STATES[batch.state], id = batch.batch;
  const mayEnd = done && !(batch.state === "running" && phase);
  const steps = [
    batch.state === "running" && phase && { label: t`Phase ${phase.phase} done`, what: t`Phase ${phase.phase} of ${id} done`,
      fields: { do: "phase_done", batch: id, phase: batch.next }, look: "main", id: NEXT_PHASE },
    mayEnd && { label: t`Finish: ${wordOf(done)}`, what: t`Batch ${id} is ${wordOf(done)}`, fields: { do: "settle", batch: id }, look: "main" },
    ...Object.keys(words).filter((it) => !GRAVE[it] && it !== "hold").map((word) => ({ label: t(MOVES[word]), what: toldTo(id, word),
      fields: { do: "batch", batch: id, word }, look: QUICK.includes(word) ? "main" : null })),
  ].filter(Boolean);
  return [
    MAY_CLOSE.includes(batch.state) && button(t`Close^batch`, () => closeBatch(id), "main"),
    steps.map((it) => button(it.label, () => act(it.what, it.fields), it.look, it.id && { id: it.id })),
    Object.keys(words).filter((it) => GRAVE[it] || it === "hold").map((word) => button(t(MOVES[word]), () => move(id, word), GRAVE[word] && "bad")),
    steps.length > 0 && button(t`With a note\u2026`, () => withNote(id, steps))];
}
// Books one of the steps that need no form, with a note.
function withNote(id, steps) {
  const options = steps.map((it, k) => ({ value: k, label: it.label }));
  bookingForm(t`Batch ${id}, with a note`, [selectField("step", t`What`, options), textField("note", t`Note`, { required: true })], t`Book it`, (v, tell) => {
    const { what, fields } = steps[v.step];
    return tell(what, noted(fields, v.note));
  });
}
// A batch that is told a word.
const toldTo = (id, word) => t`Batch ${id}: ${t(MOVES[word]).toLowerCase()}`;
const QUICK = ["start", "resume", "restart"];
const GRAVE = {
  stop: "The batch ends before its time. It can be reset, and begins anew as another attempt.",
  abort: "The batch is broken off. It can be reset, and begins anew as another attempt.",
  reset: "The batch begins anew, from its first phase, as another attempt. What was booked on it stays booked.",
};
function move(id, word) {
  const fields = { do: "batch", batch: id, word }, what = toldTo(id, word), label = t(MOVES[word]);
  bookingForm(t`${label} batch ${id}?`, [GRAVE[word] && say(t(GRAVE[word])), noteField(t`Why`)].filter(Boolean), label,
    (v, tell) => tell(what, noted(fields, v.note)), { isGrave: Boolean(GRAVE[word]) });
}
function closeBatch(id) {
  bookingForm(t`Close batch ${id}?`, [say(t`A closed batch takes no more bookings, and its order is finished.`), noteField()], t`Close it`,
    (v, tell) => tell(t`Batch ${id} closed`, noted({ do: "close_batch", batch: id }, v.note)));
}

const takesBookings = (batch) => batch.state !== "idle" && !batch.closed;
async function materialsCard(batch) {
  const isOpen = takesBookings(batch), lines = batch.lines.filter(isMaterial), free = batch.closed ? null : await freeOf(lines);
  const rows = lines.map((it) => materialRow(batch, it, isOpen, free));
  const all = isOpen && openInputs(lines).length > 0 && button(t`Book all inputs as asked`, () => bookInputs(batch.batch), "main",
    { "aria-label": t`Book all inputs as asked, ${batch.batch}` });
  return card(t`Materials`, batch.state === "idle" ? h("span", { class: "soft small" }, t`booked once the batch is started`) : all,
    table(["In or out", "Material", "#Asked", "#Booked", "#Left", ...(free ? ["#Free in stock"] : []), ""], rows, ""));
}
// How much of each input is in stock, and neither on hold nor recalled.
async function freeOf(lines) {
  const free = new Map();
  for (const { kind, def } of lines) {
    const stock = kind === "in" && await desk.stockOf(def);
    if (stock) free.set(def, stock.usable);
  }
  return free;
}
// That amount of a line, in red where it is less than what is left.
function freeCell(line, free) {
  const amount = line.kind === "in" ? free.get(line.def) : undefined;
  if (amount === undefined) return cell();
  return h("td", { class: "num" }, h("span", { class: amount < line.asked - line.booked ? "over" : null }, `${grouped(amount)} ${line.unit}`));
}

function materialRow(batch, line, isOpen, free) {
  const isInput = line.kind === "in";
  const book = isInput ? button(t`Consume`, () => consume(batch, line)) : button(t`Produce`, () => produce(batch, line));
  return row(`${line.kind} ${line.def}`, [cell(pill(wordOf(line.kind), isInput ? "" : "good")), idCell(line.def), numberCell(line.asked, line.unit),
    numberCell(line.booked, line.unit), excess(line) ? overCell(line) : numberCell(line.asked - line.booked, line.unit),
    free && freeCell(line, free), buttonsCell(isOpen && book)].filter(Boolean));
}
function bookingsCard(batch) {
  const unit = (def) => (batch.lines.find((it) => it.def === def) || {}).unit;
  const booked = [...batch.consumed.map((it) => ({ ...it, kind: "consumed" })),
    ...batch.produced.map((it) => ({ ...it, kind: "produced" }))].sort((a, b) => b.seq - a.seq);
  const rows = booked.map((it) => row(it.seq, [cell(wordOf(it.kind)), idCell(lotLink(it.lot, it.sub)), cell(it.def),
    numberCell(it.amount, unit(it.def)), numberCell(it.seq)]));
  return card(t`Bookings, the last first`, null, table(["What", "Lot", "Material", "#Amount", "#Number"], rows, t`Nothing is booked yet.`));
}

async function consume(batch, line, ...scan) {
  const { def, unit } = line;
  let parts;
  try { await desk.look(); parts = await partsToOffer(def); } catch (error) { return notice("bad", error.message); }
  if (parts.every((it) => it.barred) && !scan.length) return notice("bad",
    parts.length ? t`All ${def} in stock is on hold or recalled.` : t`There is no ${def} in stock.`);
  const left = Math.max(1, line.asked - line.booked);
  let offered = left;
  const change = (inputs, part) => {
    if (Number(inputs.amount.value) === offered) inputs.amount.value = offered = Math.min(part.stock, left);
  };
  const fields = [sayBooked(line), lotField({ def, unit, parts, change }), amountField(unit, left), noteField()];
  bookingForm(t`Consume ${def} in ${batch.batch}`, fields, t`Consume`, ({ from: { lot, sub }, amount, note }, tell) => tell(
    t`${grouped(amount)} ${unit} of ${lot} consumed`, noted({ do: "consume", batch: batch.batch, lot, sub, amount }, note)), overbooked(batch, line));
  if (scan.length) await openForm().scanned(...scan);
}
// The doubt whether so much is meant: what is booked is read anew, since others book on the batch too. Without an answer what was read first counts.
const overbooked = (batch, line) => ({ doubt: async ({ amount }) => {
  const lines = await desk.linesNow(batch.batch).catch(() => batch.lines);
  return doubtOf(lines.find((it) => it.kind === line.kind && it.def === line.def) || line, amount, line.booked);
} });
const sayBooked = (line) => say(t`Asked ${grouped(line.asked)} ${line.unit}, booked ${grouped(line.booked)} ${line.unit}.`);

async function produce(batch, line, ...scan) {
  const before = batch.produced.filter((it) => it.def === line.def).length;
  const fields = [sayBooked(line), newLotField("lot", t`New lot`, idOf(line.def, batch.batch, ...(before ? [before + 1] : []))),
    amountField(line.unit, Math.max(1, line.asked - line.booked)), placeField(), noteField()];
  bookingForm(t`Produce ${line.def} of ${batch.batch}`, fields, t`Produce`, (v, tell) => tell(
    t`${grouped(v.amount)} ${line.unit} as ${v.lot} produced`,
    noted({ do: "produce", batch: batch.batch, lot: v.lot, def: line.def, amount: v.amount, place: v.place }, v.note)), overbooked(batch, line));
  if (scan.length) await openForm().scanned(...scan);
}

// Opens the form of a code that was scanned while a batch is shown: of a lot that the batch consumes, or of one that is to be produced. Gives false
// where the code is of neither, and in words why a lot is of no use to the batch.
export async function scanAtBatch(code, isAgain) {
  if (!batchShown) return false;
  if (await desk.look()) await show();
  const batch = batchShown && await desk.batch(batchShown.batch);
  if (!batch) return false;
  const { lot: id, sub } = lotOf(code), lot = id && await desk.foundLot(id), lines = batch.lines.filter(isMaterial);
  if (!lot && id === batch.batch && sub !== null) return pointToPhase(batch, sub);
  if (!takesBookings(batch)) return false;
  if (lot) {
    const line = lines.find((it) => it.kind === "in" && it.def === lot.def);
    return line ? consume(batch, line, code, isAgain) : t`Lot ${id} is ${lot.def}, which batch ${batch.batch} doesn't consume.`;
  }
  const outputs = lines.filter((it) => it.kind === "out"), line = outputs.find((it) => it.booked < it.asked) || outputs[0];
  const isOther = !id || await desk.foundBatch(id) || await desk.foundOrder(id) || await desk.recall(id);
  return line && !isOther ? produce(batch, line, code, isAgain) : false;
}

// Leads the keyboard to the button of the next phase, where there is one.
export const focusNextPhase = () => at(NEXT_PHASE)?.focus();

// What is scanned of a phase on the batch's sheet leads the keyboard to the button of that phase, and says why where it can't.
async function pointToPhase({ batch, next, phases, state }, number) {
  if (number < 1 || number > phases) return t`Batch ${batch} has no phase ${number}.`;
  if (number < next) return t`Phase ${number} of ${batch} is done already.`;
  if (number > next) return t`Phase ${next} of ${batch} is next, and not phase ${number}.`;
  if (state !== "running") return t`Batch ${batch} doesn't run.`;
  if (!at(NEXT_PHASE)) await show();
  at(NEXT_PHASE)?.focus();
  notice("", t`Phase ${number} of ${batch} is next. Nothing is booked yet: press its button, or Enter.`);
  return true;
}
