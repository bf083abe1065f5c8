// The batch record, with its moments as dates or as the desk tells it. It is what is printed.

import { t } from "./texts.js";
import { excess, grouped } from "./amounts.js";
import { moment } from "./moments.js";
import { isMaterial } from "./recipes.js";
import { TONES, eventInWords, wordOf } from "./words.js";
import { h, operator } from "./elements.js";
import { button, card, cell, fact, facts, idCell, link, numberCell, overCell, pill, row, table } from "./parts.js";
import { rowsOfRecord } from "./csv.js";
import { csvButton } from "./saved.js";
import { deskName, filterChoice, filterOf } from "./frame.js";

const FORMS_OF_RECORD = ["tables", "text"];
export function recordCard(batch, ...more) {
  const isPlain = filterOf("record", FORMS_OF_RECORD) === "text";
  const tools = [pill(batch.closed ? t`closed` : wordOf(batch.state), TONES[batch.state]),
    h("span", { class: "noprint" }, link("shift/" + batch.batch, t`To the shift's view`)),
    filterChoice(t`Form of the record`, "record", FORMS_OF_RECORD),
    csvButton("record", `record-${batch.batch}`, () => rowsOfRecord(batch.record, batch.lines.filter(isMaterial))), ...more, button(t`Print`, () => print())];
  const content = isPlain ? h("div", { class: "body" }, h("pre", {}, batch.record.text)) : recordTables(batch);
  const it = card(t`Batch record ${batch.batch}`, tools, printedLine(), content, signatures(t`batch record ${batch.batch}`));
  it.classList.add("record");
  return it;
}

// When and by whom something is printed is known as it is printed.
export const printedLine = () => h("p", { class: "printed" });
addEventListener("beforeprint", () => {
  for (const it of document.querySelectorAll(".printed")) {
    const printed = t`Printed ${moment(desk.time(), true)} by ${operator.value.trim() || t`nobody named`}, of the web page of the desk at ${location.host}.`;
    it.textContent = deskName === null ? printed : `${deskName}. ${printed}`;
  }
});

// Lines to sign, on paper alone.
const SIGNED = ["Made by", "Checked by", "Released by"];
export const signatures = (what) => h("div", { class: "sign" }, h("b", {}, t`Signed of ${what}`),
  SIGNED.map((it) => h("div", {}, h("span", {}, t(it)), h("span", {}, t`Date`), h("span", {}, t`Signature`))));

function recordTables({ record, ...batch }) {
  const number = (it) => h("td", { class: "num" }, it), stamp = (it) => [stampCell(it), cell(it.note)];
  const booking = ({ words: [lot, def, amount, unit] }) => [idCell(lot), cell(def), numberCell(amount, unit)];
  const what = (it) => [cell(wordOf(it.kind)), cell(it.def || it.name || it.path), it.amount ? numberCell(it.amount, it.unit) : cell(), cell(it.value || "")];
  const recipe = record.lines.map((it, k) => row("line " + k, [number(k + 1), ...what(it)]));
  const events = record.events.map((it) => row(it.seq, [number(it.seq), cell(eventInWords(it.what)), ...stamp(it)]));
  const consumed = record.consumed.map((it) => row(it.seq, [number(it.seq), ...booking(it), ...stamp(it)]));
  const produced = record.produced.map((it) => row(it.seq, [number(it.seq), ...booking(it), numberCell(it.words[5], it.words[3]), ...stamp(it)]));
  const total = (it) => [cell(wordOf(it.kind)), idCell(it.def), numberCell(it.asked, it.unit),
    excess(it) ? overCell(it, `${grouped(it.booked)} ${it.unit}, `) : numberCell(it.booked, it.unit)];
  const totals = batch.lines.filter(isMaterial).map((it) => row(`total ${it.kind} ${it.def}`, total(it)));
  return [recordFacts(batch, record.released),
    h("h3", {}, t`Control recipe`), table(["#No", "Kind", "What", "#Amount", "Value"], recipe, ""),
    h("h3", {}, t`Events`), table(["#Number", "Event", "When, by", "Note"], events, t`None.`),
    h("h3", {}, t`Consumed`), table(["#Number", "Lot and part", "Material", "#Amount", "When, by", "Note"], consumed, t`Nothing.`),
    h("h3", {}, t`Produced`), table(["#Number", "Lot", "Material", "#Amount", "#Scrapped", "When, by", "Note"], produced, t`Nothing.`),
    h("h3", {}, t`Totals`), table(["In or out", "Material", "#Asked", "#Booked"], totals, "")];
}
function recordFacts(batch, released) {
  return facts(fact(t`Order`, link("planner/" + batch.order, batch.order)), fact(t`Recipe`, `${batch.recipe} ${batch.version}`),
    fact(t`Size`, grouped(batch.size)), fact(t`State`, wordOf(batch.state)), fact(t`Attempt`, batch.attempt), fact(t`Phases`,
      t`${batch.next - 1} of ${batch.phases}`),
    fact(t`Released^when`, moment(released.at, true)), fact(t`By`, released.by), released.note && fact(t`Note`, released.note));
}
const stampCell = (it) => h("td", { class: "stamp" }, h("span", {}, h("span", { class: "when" }, moment(it.at, true)), " ", it.by));
