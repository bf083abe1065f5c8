// The balance of a lot, a batch or a recall, as an audit asks for it: all that came in, all that left, and what is there, on one sheet.

import { t } from "./texts.js";
import { counted, grouped } from "./amounts.js";
import { materialsOf, rowsOfBalance } from "./balances.js";
import { h } from "./elements.js";
import { button, cell, fact, idCell, notice, numberCell, pill, row, table } from "./parts.js";
import { desk, whyNot } from "./questions.js";
import { csvButton } from "./saved.js";
import { openPaper } from "./paper.js";
import { printedLine, signatures } from "./record.js";

const closing = (it) => (it.closes ? t`closes` : h("span", { class: "over" }, t`doesn't close`));
const where = (places, unit) => cell(places.map((it) => h("div", {}, `${it.place || t`no place`}: ${grouped(it.stock)} ${unit}`)));

function balanceOfMaterial(it) {
  const amounts = [it.received, it.produced, it.others, it.consumed, it.scrapped, it.stock].map((n) => numberCell(n, it.unit));
  return row(`material ${it.def}`, [idCell(it.def), numberCell(it.count), ...amounts, where(it.places, it.unit), cell(closing(it))]);
}
function balanceOfLot(it) {
  const unit = it.unit || "", { entered, left } = it;
  const amounts = [entered.received, entered.produced, entered.split + entered.merged, left.consumed, left.scrapped, left.split + left.merged, it.stock];
  const states = [it.held && pill(t`on hold`, "warn"), it.recalled && pill(t`recalled`, "bad")];
  return row(it.lot, [idCell(it.lot), cell(it.def), ...amounts.map((n) => numberCell(n, unit)), cell(states)]);
}

async function showBalance(kind, id, what) {
  try {
    const lots = await desk.balance(kind, id), materials = materialsOf(lots);
    const ofMaterials = table(["Material", "#Lots", "#Received", "#Produced", "#Of other lots", "#Consumed", "#Scrapped", "#In stock", "Where", "Balance"],
      materials.map(balanceOfMaterial), t`Nothing came of it.`);
    const ofLots = table(["Lot", "Material", "#Received", "#Produced", "#Of lots", "#Consumed", "#Scrapped", "#To lots", "#In stock", "State"], lots.map(balanceOfLot), t`None.`);
    const head = h("div", { class: "facts" }, fact(t`Materials`, grouped(materials.length)), fact(t`Lots`, grouped(lots.length)),
      fact(t`Balance`, materials.every((it) => it.closes) ? t`closes` : t`doesn't close`));
    const sheet = h("section", { class: "sheet balance" }, h("h2", {}, t`Balance of ${what}`), printedLine(), head,
      h("p", { class: "soft small" }, t`What came in of each material is what left it and what is in stock. Lots that were split off or merged are among these.`),
      h("h3", {}, t`Materials`), ofMaterials, h("h3", {}, counted(lots.length, "lot", "lots")), ofLots, signatures(t`the balance of ${what}`));
    openPaper(t`Balance`, [sheet], t`Balance of ${what}`, [csvButton("balance", `balance-of-${id}`, () => rowsOfBalance(lots))]);
  } catch (error) { notice("bad", whyNot(error)); }
}

// Its button. `kind` is lots or batches.
export const balanceButton = (kind, id, what) => button(t`Balance`, () => showBalance(kind, id, what), null, { "aria-label": t`Balance of ${what}` });
