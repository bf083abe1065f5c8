// Labels of lots: one for each part that has stock, each on a page of its own.

import { t } from "./texts.js";
import { grouped } from "./amounts.js";
import { dated, dayOf } from "./moments.js";
import { h } from "./elements.js";
import { button, notice } from "./parts.js";
import { desk, whyNot } from "./questions.js";
import { lotNow, nothingIn, partsOfLot } from "./lots.js";
import { barcode, openPaper } from "./paper.js";

// The millimetres of a label that its bars may take, and how long its texts may be to be written large.
const ROOM = 94, HIGH = 17, LOW = 12, SHORT = 20;

// What is scanned of a part: its lot, and the number of the part where it isn't the first.
const codeOf = ({ lot, sub }) => (sub === 0 ? lot : `${lot}/${sub}`);

function label(part, def, { name, unit }) {
  const known = (what, ...value) => h("div", {}, h("span", {}, what), h("b", {}, ...value));
  const code = codeOf(part), place = part.place || t`no place`, isLong = [code, name, place].some((it) => it.length > SHORT);
  return h("section", { class: isLong ? "label long" : "label" }, h("h3", {}, code), barcode(code, ROOM, isLong ? LOW : HIGH),
    h("p", {}, h("b", {}, def), name && ` ${name}`),
    h("div", { class: "known" }, known(t`Amount`, `${grouped(part.stock)} ${unit}`), known(t`Came`, dated(dayOf(part.at))), known(t`Place`, place)));
}

// Shows the labels of a lot, or of one part of it.
export async function showLabels(id, sub) {
  try {
    const lot = await lotNow(id), parts = lot ? partsOfLot(lot).filter((it) => sub === undefined || it.sub === sub) : [];
    if (!parts.length) return notice("bad", nothingIn(id, sub ?? null));
    const known = await desk.definition(lot.def);
    openPaper(parts.length === 1 ? t`Label of ${codeOf(parts[0])}` : t`${parts.length} labels of ${id}`, parts.map((it) => label(it, lot.def, known)));
  } catch (error) { notice("bad", whyNot(error)); }
}

// The button that offers the label of a lot that a command makes, if it makes one.
export function labelOffer({ do: word, lot, new: made }) {
  const id = { receive: lot, produce: lot, split: made, merge: made }[word];
  return id ? [button(t`Label`, () => showLabels(id), null, { "aria-label": t`Label of ${id}` })] : [];
}
