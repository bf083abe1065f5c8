// The history of a lot, a batch or a recall: each command that had a reference and names it, also the end of a hold, on one sheet.

import { t } from "./texts.js";
import { counted } from "./amounts.js";
import { commandWord, fieldsInWords } from "./words.js";
import { h } from "./elements.js";
import { button, cell, momentCell, notice, numberCell, row, table } from "./parts.js";
import { desk, whyNot } from "./questions.js";
import { csvButton } from "./saved.js";
import { openPaper } from "./paper.js";
import { printedLine } from "./record.js";

const rowOf = (it) => row(it.seq, [numberCell(it.seq), momentCell(it.at), cell(it.by), cell(commandWord(it.do)), cell(fieldsInWords(it.do, it.fields)), cell(it.note)]);

async function showHistory(id, what) {
  try {
    const commands = await desk.history(id);
    const sheet = h("section", { class: "sheet history" }, h("h2", {}, t`History of ${what}`), printedLine(),
      h("p", { class: "soft small" }, t`Each command with a reference that names it: ${counted(commands.length, "command", "commands")}.`),
      table(["#Number", "When", "By", "What", "Details", "Note"], commands.map(rowOf), t`No command with a reference names it.`));
    const saved = () => commands.map((it) => ({ ...it, details: fieldsInWords(it.do, it.fields) }));
    openPaper(t`History`, [sheet], t`History of ${what}`, [csvButton("history", `history-of-${id}`, saved)]);
  } catch (error) { notice("bad", whyNot(error)); }
}

// Its button.
export const historyButton = (id, what) => button(t`History`, () => showHistory(id, what), null, { "aria-label": t`History of ${what}` });
