// The warehouse's view: materials by their classes, and the lots of one.

import { t } from "./texts.js";
import { counted, grouped } from "./amounts.js";
import { cameInWords, keyOfPart, placeOfPart } from "./words.js";
import { h } from "./elements.js";
import {
  button, buttonsCell, card, cell, fact, facts, firstSteps, go, idCell, link, listed, lotLink, none, numberCell, pill, row, table,
} from "./parts.js";
import { partsOfLots } from "./csv.js";
import { partValue, sortedBy, upTo } from "./sorting.js";
import { csvButton } from "./saved.js";
import { desk, want } from "./questions.js";
import { isNarrow, more, show } from "./frame.js";
import { listOrder } from "./sorts.js";
import { amountField, idField, lotField, newLotField, noteField, noted, openForm, placeField, say, selectField, textField } from "./forms.js";
import { partsOfLot, wholeLot } from "./lots.js";
import { showLabels } from "./label.js";
import { bookingForm } from "./book.js";
import { moveGoods, scrap, split } from "./goods.js";
import { byChoice, cameCell, places } from "./places.js";

// The parts of lots that are chosen for a merge, and their material.
export const chosen = new Map();
let chosenOf = null;

export async function warehouse([id, lotId]) {
  if (id === "place") return places(lotId);
  const classes = await desk.classes(), all = classes.flatMap((it) => it.stocks);
  const def = id || (!isNarrow() && all[0] && all[0].def);
  if (def !== chosenOf) chosen.clear();
  chosenOf = def;
  const side = listed(materialsSide(classes, def));
  const without = card(t`Lots`, null, none(t`There is no material yet.`));
  if (!def) return ["list", side, desk.seq === 0 ? firstSteps() : !all.length && without];
  const known = all.find((it) => it.def === def) || (await desk.stockOf(def));
  if (!known) return ["list", side, card(t`Lots`, null, none(t`There is no such material.`))];
  const order = listOrder(LOT_HEADS), wanted = want("lots " + def);
  const lots = await desk.stock(def, order.isAsItComes ? wanted : Math.max(MOST_SORTED, wanted));
  const others = Object.assign(lots.filter((it) => it.lot !== lotId), { more: lots.more });
  const lotsOf = lotsCard(known, others, order), one = await wholeLot(lotId);
  return ["list", side, h("div", { class: "stack" }, lotId && oneLotCard(lotId, one, known), lotId ? listed(lotsOf) : lotsOf)];
}

function materialsSide(classes, def) {
  const tools = [csvButton("materials", "materials", () => desk.materials()), button(t`New class`, newClass),
    classes.length > 0 && button(t`New material`, () => newMaterial(classes))];
  const without = none(t`There is no class yet.`);
  return card(t`Materials`, tools, byChoice("by material"), classes.length ? classes.map((it) => classTable(it, def)) : without, more(classes, "classes"));
}
function classTable({ id, name, stocks }, def) {
  const named = (it) => idCell(link("warehouse/" + it.def, it.def), it.name && h("div", { class: "under" }, it.name));
  const rows = stocks.map((it) => row(it.def, [named(it), numberCell(it.lots), freeCellOf(it)], "warehouse/" + it.def, it.def === def));
  return [h("h3", {}, name || id, name && [" ", h("span", { class: "soft small" }, id)]),
    h("div", { class: "stocks" }, table(["Material", "#Lots", "#Free in stock"], rows, t`No material is in this class.`, true)), more(stocks, "stocks " + id)];
}
// How much of a material is free, and below it what is on hold and what is recalled.
function freeCellOf({ usable, held, recalled, unit }) {
  const barred = (amount, what, tone) => amount > 0 && h("div", {}, pill(`${grouped(amount)} ${unit} ${what}`, tone));
  return h("td", { class: "num" }, h("span", {}, `${grouped(usable)} ${unit}`, barred(held, t`on hold`, "warn"), barred(recalled, t`recalled`, "bad")));
}

function newClass() {
  bookingForm(t`New class`, [say(t`A class is a group of materials, such as RAW or GOODS. It can't be changed once it is made.`), idField("group", t`New class`),
    textField("name", t`Name`)], t`Make it`,
  (v, tell) => tell(t`Class ${v.group} made`, { do: "add_class", class: v.group, name: v.name }));
}
function newMaterial(classes) {
  bookingForm(t`New material`, [say(t`It can't be changed once it is made.`), idField("def", t`New material`), textField("name", t`Name`),
    selectField("group", t`Class`, classes.map((it) => ({ value: it.id, label: it.name ? `${it.id} (${it.name})` : it.id }))),
    textField("unit", t`Unit in which it is counted, such as kg or pcs`,
      { pattern: "[A-Za-z0-9]{1,8}", title: t`1 to 8 letters and digits`, required: true })], t`Make it`,
  (v, tell) => tell(t`Material ${v.def} made`, { do: "add_definition", def: v.def, class: v.group, name: v.name, unit: v.unit }));
}

// By what the parts of a material's lots are sorted, at first by their age; so many of its oldest lots are read to be sorted otherwise.
const LOT_HEADS = { came: "Came", lot: "Lot", place: "Place", stock: "#Stock" }, MOST_SORTED = 2000;
const withState = (lot) => partsOfLot(lot).map((it) => ({ ...it, held: lot.held, recalled: lot.recalled }));

function lotsCard(known, lots, order) {
  const amount = (name, n) => fact(name, grouped(n), " ", known.unit);
  const bar = h("div", { class: "chosen", hidden: true }, h("span", {}), button(t`Merge\u2026`, () => merge(known), "main"),
    button(t`Choose none`, () => { chosen.clear(); show(); }));
  const told = () => drawChosen(bar);
  const parts = sortedBy(lots.flatMap(withState), partValue(order.by), order.isBack), name = "lots " + known.def;
  const shown = order.isAsItComes ? parts : upTo(parts, want(name), lots.more), rows = shown.map((it) => partRow(it, known, told));
  const further = order.isAsItComes ? more(lots, name, (count) => t`The first ${count} lots, the oldest first, are shown, and there are more.`)
    : more(shown, name, (count) => t`The first ${count} parts of the ${grouped(lots.length)} oldest lots are shown, and there are more.`);
  told();
  const title = h("span", {}, known.name || known.def, known.name && [" ", h("span", { class: "soft small" }, known.def)]);
  const without = t`There is no ${known.def} in stock. Receive a lot, or have one produced. A lot that is used up is found by its id.`;
  const csv = csvButton("lots", `lots-${known.def}`, async () => partsOfLots(await desk.stock(known.def, Infinity))
    .map((it) => ({ ...it, def: known.def, unit: known.unit })));
  return card(title, [csv, button(t`Receive a lot`, () => receive(known), "main")],
    facts(amount(t`Free`, known.usable), amount(t`On hold`, known.held), amount(t`Recalled`, known.recalled), fact(t`Lots with stock`, grouped(known.lots))),
    rows.length > 1 && h("div", { class: "body row filter" }, order.field(t`Sort the lots`)),
    table(PART_HEADS, rows, without, false, order.heads), further, bar);
}
function drawChosen(bar) {
  bar.hidden = !chosen.size;
  const isTooMany = chosen.size > MOST_PARTS;
  bar.firstChild.textContent = isTooMany ? t`A merge takes ${MOST_PARTS} parts at most.` : chosen.size === 1 ? t`1 part is chosen for a merge.` : t`${grouped(chosen.size)} parts are chosen for a merge.`;
  bar.children[1].disabled = isTooMany;
}
const PART_HEADS = ["Choose", "Lot", "#Part", "Came", "Place", "#Stock", ""];
// The row of a part of a lot, with what can be done with it; `told` is called once it is chosen for a merge.
function partRow(part, known, told) {
  const key = keyOfPart(part), isBarred = part.barred !== "";
  const marks = [part.held && [" ", pill(t`on hold`, "warn")], part.recalled && [" ", pill(t`recalled`, "bad")]];
  const buttons = [button(t`Label`, () => showLabels(part.lot, part.sub)), button(t`Move`, () => moveGoods(part, known)),
    button(t`Split`, () => split(part, known), null, { disabled: isBarred }), button(t`Scrap`, () => scrap(part, known), "bad")];
  return row(key, [cell(chooseBox(key, part, isBarred, told)), idCell(lotLink(part.lot), marks), h("td", { class: "num" }, part.sub),
    cameCell(part.at), cell(part.place || h("span", { class: "soft" }, t`no place`)), numberCell(part.stock, known.unit), buttonsCell(buttons)]);
}
function chooseBox(key, part, isBarred, told) {
  if (chosen.has(key)) chosen.set(key, part);
  const choose = (event) => {
    if (event.target.checked) chosen.set(key, part);
    else chosen.delete(key);
    told();
  };
  const name = t`Choose ${key} for a merge`;
  return h("input", { type: "checkbox", "aria-label": name, checked: chosen.has(key), disabled: isBarred, onchange: choose });
}
// One lot, which somebody looked for.
function oneLotCard(id, lot, known) {
  const away = button(t`Close this`, () => go("warehouse", known.def));
  if (!lot) return card(t`Lot ${id}`, away, none(t`There is no such lot.`));
  return card(t`Lot ${id}`, away, table(PART_HEADS, withState(lot).map((it) => partRow(it, known, show)), t`Nothing is left of it.`));
}

function receive({ def, unit }) {
  bookingForm(t`Receive ${def}`, [newLotField("lot", t`Scan or type the new lot`), amountField(unit), placeField(), noteField()], t`Receive`,
    (v, tell) => tell(t`${grouped(v.amount)} ${unit} as ${v.lot} received`,
      noted({ do: "receive", lot: v.lot, def, amount: v.amount, place: v.place }, v.note)));
}

// Merges the parts that are chosen. A lot that is scanned is one more of them; `values` are those that were typed before.
const MOST_PARTS = 16;
function merge(known, values = {}) {
  const parts = [...chosen.values()], { def, unit } = known;
  const label = (it) => t`Of ${placeOfPart(it)}${cameInWords(it)}, ${unit}`;
  const amounts = parts.map((it) => ({ ...amountField(unit, it.stock), name: keyOfPart(it), label: label(it) }));
  const take = async (v, tell) => {
    const taken = parts.map((it) => ({ lot: it.lot, sub: it.sub, amount: v[keyOfPart(it)] }));
    const wrong = await tell(t`Merged as ${v.new}`, noted({ do: "merge", new: v.new, place: v.place, parts: taken }, v.note));
    if (!wrong) { chosen.clear(); show(); }
    return wrong;
  };
  const change = (inputs, part) => {
    const key = keyOfPart(part);
    if (inputs[key]) return inputs[key];
    if (chosen.size >= MOST_PARTS) return openForm().refuse(t`A merge takes ${MOST_PARTS} parts at most.`);
    chosen.set(key, part);
    show();
    return merge(known, Object.fromEntries(Object.entries(inputs).map(([name, it]) => [name, it.value])));
  };
  const fields = [lotField({ def, unit, change, isOptional: true }), ...amounts, newLotField("new", t`New lot`), placeField(), noteField()];
  for (const it of fields) if (it.kind !== "lot" && values[it.name] !== undefined) it.value = values[it.name];
  bookingForm(t`Merge ${counted(parts.length, "part", "parts")}`, fields, t`Merge`, take);
}
