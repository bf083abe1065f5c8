// Lists that are saved as files.

import { t } from "./texts.js";
import { counted } from "./amounts.js";
import { COLUMNS, csvOf, rowsOf, separatorOf } from "./csv.js";
import { h } from "./elements.js";
import { numbersOf } from "./language.js";
import { button, notice } from "./parts.js";
import { Refusal, desk } from "./questions.js";
import { show } from "./frame.js";

// Has the browser save a text as a file, by a link to it: nothing is sent anywhere, and nothing is loaded.
const LINK_LASTS = 60_000;
function save(name, text) {
  const url = URL.createObjectURL(new Blob([text], { type: "text/csv" }));
  h("a", { href: url, download: name }).click();
  setTimeout(() => URL.revokeObjectURL(url), LINK_LASTS);
}

async function saveList(list, name, read) {
  const isNew = await desk.look(), rows = rowsOf(await read(), COLUMNS[list]), file = `${name}-${desk.today()}.csv`;
  save(file, csvOf(rows, separatorOf(numbersOf())));
  if (isNew) await show();
  notice("good", t`${counted(rows.length - 1, "row", "rows")} saved as ${file}.`);
}

// The button of a card that saves its list. `read` gives all items, also those that aren't shown.
export const csvButton = (list, name, read) => button(t`CSV`, async () => {
  notice("", t`Reading the list\u2026`);
  try { await saveList(list, name, read); } catch (error) {
    notice("bad", error instanceof Refusal ? error.message : t`The desk doesn't answer. Nothing was saved.`);
  }
}, null, { "aria-label": t`CSV of ${name}`, title: t`Save the list for a spreadsheet` });
