// The view of quality: a lot, a batch or a recall, and the recalls that are open.

import { t } from "./texts.js";
import { counted, grouped } from "./amounts.js";
import { moment, stampWord } from "./moments.js";
import { idOf } from "./ids.js";
import { PAGE } from "./cursors.js";
import { commandWord, wordOf } from "./words.js";
import { h } from "./elements.js";
import {
  batchLink, button, buttonsCell, card, cell, fact, facts, firstSteps, idCell, link, listed, lotLink, momentCell, none, numberCell, pill, row, table,
} from "./parts.js";
import { csvButton } from "./saved.js";
import { desk, want } from "./questions.js";
import { filterChoice, filterOf, more } from "./frame.js";
import { idField, noteField, noted, say, whyField } from "./forms.js";
import { showLabels } from "./label.js";
import { bookingForm } from "./book.js";
import { genealogyCard } from "./genealogy.js";
import { printedLine, recordCard } from "./record.js";
import { balanceButton } from "./balance.js";
import { historyButton } from "./history.js";
import { runningCard, standsCard } from "./stands.js";

const WHICH_RECALLS = ["open", "lifted"];

export async function quality([kind, id]) {
  const areLiftedShown = filterOf("recalls", WHICH_RECALLS) === "lifted";
  const recalls = areLiftedShown ? await desk.liftedRecalls(want("lifted")) : await desk.recalls(want("recalls"));
  const side = listed(h("div", { class: "stack" }, recallsCard(recalls, areLiftedShown), holdsCard(await desk.allHolds(want("all holds")))));
  const shown = { lot: lotCards, batch: batchRecordCards, recall: (it) => recallCards(it, recalls) }[kind];
  const hint = none(t`Find a lot, a batch or a recall by its id: at the top, or with `, h("kbd", {}, "/"),
    t`. Its holds, genealogy, ledger and record are shown here.`);
  if (!id || !shown) return ["list", side, desk.seq === 0 ? firstSteps()
    : h("div", { class: "stack" }, card(t`A lot, a batch or a recall`, null, hint), commandsCard(await desk.lastCommands(PAGE)))];
  return ["list", side, h("div", { class: "stack" }, await shown(id))];
}
// Who gave which command, also an approval or the end of a hold.
function commandsCard(commands) {
  const rows = commands.map((it) => row(it.seq, [numberCell(it.seq), momentCell(it.at), cell(it.by), cell(commandWord(it.do)), cell(it.note), cell(it.ref)]));
  const csv = csvButton("commands", "commands", () => desk.commands(Infinity));
  return card(t`The last commands with references`, commands.length > 0 && csv, table(["#Number", "When", "By", "What", "Note", "Reference"], rows, t`None.`));
}
// The holds of all lots.
function holdsCard(holds) {
  const told = (it) => [it.hold, h("div", { class: "soft small" }, `${it.by}, ${moment(it.at)}`), it.note && h("div", { class: "small" }, it.note)];
  const rows = holds.map((it) => row(`${it.lot}.${it.hold}`, [idCell(lotLink(it.lot)), cell(told(it)),
    buttonsCell(button(t`Take the hold off`, () => unhold(it.lot, it.hold)))]));
  const csv = csvButton("holds", "holds", () => desk.allHolds(Infinity));
  return card(t`On hold`, csv, table(["Lot", "Hold", ""], rows, t`No lot is on hold.`), more(holds, "all holds"));
}
function recallsCard(recalls, areLiftedShown) {
  const told = (it) => [h("b", {}, link("quality/recall/" + it.recall, it.recall)), h("div", { class: "soft small" }, `${it.by}, ${moment(it.at)}`),
    it.note && h("div", { class: "small" }, it.note)];
  const lifted = (it) => cell(`${it.lift.by}, ${moment(it.lift.at)}`, it.lift.note && h("div", { class: "small" }, it.lift.note));
  const rows = recalls.map((it) => row(it.recall, [cell(told(it)), idCell(lotLink(it.lot)),
    it.lift ? lifted(it) : buttonsCell(button(t`Lift`, () => lift(it)))]));
  const state = areLiftedShown ? "lifted" : "open", all = () => (areLiftedShown ? desk.liftedRecalls(Infinity) : desk.recalls(Infinity));
  const tools = [csvButton("recalls", `recalls-${state}`, all), filterChoice(t`Which recalls`, "recalls", WHICH_RECALLS)];
  return card(t`Recalls`, tools, table(["Recall", "Lot", areLiftedShown ? "Lifted" : ""], rows, areLiftedShown ? t`No recall is lifted.` : t`No recall is open.`),
    more(recalls, areLiftedShown ? "lifted" : "recalls"));
}

async function lotCards(id) {
  const lot = await desk.lot(id), holds = await desk.holds(id, want("holds " + id));
  const around = { back: await desk.back("lots", id), forward: await desk.forward("lots", id) };
  const stands = await desk.stands("lots", id), ledger = await desk.movements(id, want("movements " + id));
  const self = around.back.nodes.find((it) => it.lot === id);
  return [lotCard(lot, self, holds, around.forward), genealogyCard(around, "lot " + id), standsCard(`lot ${id}`, stands, around.forward.nodes),
    ledgerCard(id, ledger, self.unit)];
}
function lotCard(lot, self, holds, forward) {
  const rows = holds.map((it) => row(it.hold, [idCell(it.hold), momentCell(it.at), cell(it.by), cell(it.note),
    buttonsCell(button(t`Take the hold off`, () => unhold(lot.lot, it.hold)))]));
  const tools = [lot.held && pill(t`on hold`, "warn"), self.recalled && pill(t`recalled`, "bad"), button(t`Label`, () => showLabels(lot.lot)),
    historyButton(lot.lot, t`lot ${lot.lot}`), balanceButton("lots", lot.lot, t`lot ${lot.lot}`), button(t`Hold^verb`, () => hold(lot.lot)), button(t`Recall^verb`, () => recall(lot.lot, forward), "bad")];
  return card(t`Lot ${lot.lot}`, tools,
    facts(fact(t`Material`, link("warehouse/" + lot.def, lot.def)), fact(t`Stock`, grouped(lot.stock), " ", self.unit),
      lot.sublots.filter((it) => it.stock || lot.sublots.length === 1).map((it) =>
        fact(t`Part ${it.no} at ${it.place || t`no place`}`, grouped(it.stock), " ", self.unit))),
    table(["Hold", "Since", "By", "Why", ""], rows, t`No hold is on it.`), more(holds, "holds " + lot.lot));
}
function ledgerCard(id, ledger, unit) {
  const to = (it) => (it.to ? `${it.to}/${it.to_sub}` : it.batch ? batchLink(it.batch) : "");
  const cells = (it) => [momentCell(it.at), cell(it.by), cell(wordOf(it.kind)), numberCell(it.amount, unit), cell(`${it.lot}/${it.sub}`), cell(to(it)),
    cell(it.note)];
  const rows = ledger.map((it) => row(`${it.seq}.${it.line}`, cells(it)));
  const csv = csvButton("ledger", `ledger-${id}`, async () => (await desk.movements(id, Infinity)).map((one) => ({ ...one, unit })));
  return card(t`Ledger`, csv, table(["When", "By", "What", "#Amount", "Part", "To or of", "Note"], rows, ""),
    more(ledger, "movements " + id));
}

function hold(id) {
  bookingForm(t`Hold lot ${id}`, [say(t`It can't be consumed, split or merged until the hold is taken off.`),
    idField("hold", t`New hold`, idOf("H", stampWord())), whyField()], t`Hold^verb`,
    (v, tell) => tell(t`Lot ${id} is on hold`, { do: "hold", lot: id, hold: v.hold, note: v.note }));
}
function unhold(id, name) {
  bookingForm(t`Take hold ${name} off lot ${id}?`, [noteField(t`Why`)], t`Take it off`,
    (v, tell) => tell(t`Hold ${name} is taken off ${id}`, noted({ do: "unhold", lot: id, hold: name }, v.note)));
}
function recall(id, forward) {
  const lots = forward.nodes.filter((it) => it.lot).length, batches = forward.nodes.length - lots;
  const reaches = t`It reaches ${counted(lots, "lot", "lots")} and ${counted(batches, "batch", "batches")} now, and all that comes of them.`;
  const fields = [say(`${reaches} ${t`No lot of these can be consumed, split or merged until the recall is lifted.`}`),
    idField("recall", t`New recall`, idOf("RC", stampWord())), whyField()];
  bookingForm(t`Recall lot ${id}`, fields, t`Recall^verb`,
    (v, tell) => tell(t`Lot ${id} is recalled`, { do: "recall", recall: v.recall, lot: id, note: v.note }), { isGrave: true });
}
function lift(it) {
  const text = t`Lot ${it.lot} and all that came of it is free again, but for other recalls and holds. A lifted recall stays lifted.`;
  bookingForm(t`Lift recall ${it.recall}?`, [say(text), noteField(t`Why`)], t`Lift`,
    (v, tell) => tell(t`Recall ${it.recall} is lifted`, noted({ do: "lift", recall: it.recall }, v.note)));
}

async function recallCards(id, recalls) {
  const it = await desk.recall(id), open = recalls.find((other) => other.recall === id);
  if (!it) return [card(t`Recall ${id}`, null, none(t`There is no such recall.`))];
  const { nodes } = await desk.forward("lots", it.lot), stands = standsCard(`recall ${id}`, await desk.stands("lots", it.lot), nodes);
  const print = [historyButton(id, t`recall ${id}`), balanceButton("lots", it.lot, t`recall ${id}`), button(t`Print`, () => globalThis.print())];
  if (it.state === "lifted") return [card(t`Recall ${id}`, [pill(t`lifted`), print], printedLine(), facts(fact(t`Lot`, lotLink(it.lot))),
    none(t`It is lifted, and reaches nothing any more.`)), stands];
  const since = open ? [fact(t`Since`, moment(open.at)), fact(t`By`, open.by), open.note && fact(t`Why`, open.note)] : [];
  const lots = it.nodes.filter((node) => node.lot), batches = it.nodes.filter((node) => node.batch);
  const links = (kind, ids, named) => h("div", { class: "body row" }, ids.map((one) => link(`quality/${kind}/${one}`, one, named && { "aria-label": named(one) })));
  return [
    card(t`Recall ${id}`, [pill(t`open`, "bad"), print, button(t`Lift`, () => lift(it), null, { "aria-label": t`Lift the recall ${id}` })], printedLine(),
      facts(fact(t`Lot`, lotLink(it.lot)), since, fact(t`Reaches`, `${counted(lots.length, "lot", "lots")}, ${counted(batches.length, "batch", "batches")}`))),
    await runningCard(batches), stands,
    card(t`${counted(lots.length, "lot", "lots")} reached`, null, links("lot", lots.map((node) => node.lot))),
    card(t`${counted(batches.length, "batch", "batches")} reached`, null, links("batch", batches.map((node) => node.batch),
      (one) => t`${one}: record and genealogy`)),
  ];
}

async function batchRecordCards(id) {
  const batch = { ...(await desk.batch(id)), record: await desk.record(id) };
  const around = { back: await desk.back("batches", id), forward: await desk.forward("batches", id) };
  return [recordCard(batch, [historyButton(id, t`batch ${id}`), balanceButton("batches", id, t`batch ${id}`)]), genealogyCard(around, "batch " + id)];
}
