// The sheet of a batch: its control recipe on paper, to take along, with boxes to tick, room to write, and bar codes.

import { t } from "./texts.js";
import { grouped } from "./amounts.js";
import { dated } from "./moments.js";
import { isMaterial } from "./recipes.js";
import { h } from "./elements.js";
import { cell, fact, idCell, notice, numberCell, row, table } from "./parts.js";
import { desk, whyNot } from "./questions.js";
import { barcode, openPaper } from "./paper.js";
import { printedLine, signatures } from "./record.js";

// The millimetres that the bars of the batch and those of a phase may take.
const OF_BATCH = [90, 11], OF_PHASE = [62, 7];

// What is scanned of a phase: its batch and its number.
export const codeOfPhase = (batch, number) => `${batch}/${number}`;

const tickBox = () => cell(h("i", { class: "tickbox" }));
const toWrite = () => h("td", { class: "towrite" });

// What goes in or comes out.
function goods(lines, names) {
  const rows = lines.map((it) => row(`${it.kind} ${it.def}`, [tickBox(), idCell(it.def, names.get(it.def) && h("div", { class: "under" }, names.get(it.def))),
    numberCell(it.asked, it.unit), toWrite()]));
  return table(["Done", "Material", "#Asked", "Lots and amounts"], rows, t`Nothing.`);
}
// The phases, and the parameters where they are among them.
function procedure(batch) {
  let number = 0;
  const line = (it) => {
    if (it.kind === "par") return row(`par ${it.name}`, [h("td"), cell(), cell(it.name, ": ", h("b", {}, it.value)), cell(), toWrite()]);
    number += 1;
    return row(`phase ${number}`, [h("td", { class: "num" }, number), tickBox(), cell(h("b", {}, it.path)),
      cell(barcode(codeOfPhase(batch.batch, number), ...OF_PHASE)), toWrite()]);
  };
  return table(["#No", "Done", "Phase or parameter", "Bar code", "When, by, value"], batch.lines.filter((it) => !isMaterial(it)).map(line), "");
}

export async function showSheet(id) {
  try {
    const batch = await desk.batch(id), order = await desk.order(batch.order), recipe = await desk.recipe(batch.recipe, batch.version);
    const lines = batch.lines.filter(isMaterial), names = new Map();
    for (const it of [recipe.product, ...lines.map((line) => line.def)]) names.set(it, (await desk.definition(it))?.name || "");
    const head = h("div", { class: "facts" }, fact(t`Order`, order.order), fact(t`Product`, `${recipe.product} ${names.get(recipe.product)}`),
      fact(t`Size`, `${grouped(batch.size)} ${recipe.unit || ""}`), fact(t`Recipe`, `${batch.recipe} ${batch.version} ${recipe.title}`), fact(t`Due`, dated(order.due)),
      fact(t`Priority`, order.priority), fact(t`Attempt`, batch.attempt));
    openPaper(t`Sheet of ${id}`, [h("section", { class: "sheet" }, h("div", { class: "head" }, h("h2", {}, t`Batch ${id}`), barcode(id, ...OF_BATCH)),
      printedLine(), head, h("h3", {}, t`Goes in`), goods(lines.filter((it) => it.kind === "in"), names), h("h3", {}, t`Procedure`), procedure(batch),
      h("h3", {}, t`Comes out`), goods(lines.filter((it) => it.kind === "out"), names), signatures(t`batch ${id}`))], t`Batch ${id}`);
  } catch (error) { notice("bad", whyNot(error)); }
}
