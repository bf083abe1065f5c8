// The start: finding, the keyboard, and looking again.

import { t } from "./texts.js";
import { ID_RULE } from "./ids.js";
import { lotOf } from "./scans.js";
import { at, dialog, operator, view } from "./elements.js";
import { keep, kept } from "./store.js";
import { loadTexts } from "./language.js";
import { nameByLogin, nameOperator } from "./who.js";
import { focusAgain, isWriting } from "./focus.js";
import { listenToScans, onceAlone, tone } from "./scanner.js";
import { button, go, notice } from "./parts.js";
import { desk, whyNot } from "./questions.js";
import { VIEWS, isDayOver, isDrawnBefore, place, present, show, tellStatus } from "./frame.js";
import { focusBehind, openForm } from "./forms.js";
import { drawWaiting, sending } from "./book.js";
import { namedSo, offerBegun } from "./finder.js";
import { help } from "./help.js";
import { board, today } from "./today.js";
import { chosenOrders, planner } from "./planner.js";
import { focusNextPhase, scanAtBatch, shift } from "./shift.js";
import { placeNamed } from "./places.js";
import { chosen, warehouse } from "./warehouse.js";
import { quality } from "./quality.js";

// How many materials of one name are said.
const MOST_NAMED = 10;

// Finds a lot, a batch, an order, a recall, a material or a recipe by its id, a supplier's code being that of a lot, or else a place by its name, and shows it
// where the role looks at such things. Says whether it did.
async function find(code) {
  const { lot: id } = lotOf(code);
  if (id && await showFound(id)) return true;
  const where = await placeNamed(code);
  if (where) { location.hash = `#warehouse/place/${encodeURIComponent(where)}`; return true; }
  return miss(id ? t`There is no lot, no batch, no order, no recall, no material, no recipe and no place ${id}.` : t`An id has ${t(ID_RULE)}.`);
}
function miss(why) { notice("bad", why); return false; }

// Finds what is typed: by its id, or the one material whose name has these words; of several they are said.
async function findTyped(typed) {
  const { lot: id } = lotOf(typed);
  if (id && await showFound(id)) return;
  const named = await namedSo(typed);
  if (named.length === 1) go("warehouse", named[0].def);
  else if (named.length > 1) miss(t`Several materials are named so: ${named.slice(0, MOST_NAMED).map((it) => it.def).join(", ")}${named.length > MOST_NAMED ? " .." : ""}`);
  else await find(typed);
}
async function showFound(id) {
  const [name] = place();
  const lot = await desk.foundLot(id);
  const where = lot ? (name === "warehouse" ? ["warehouse", lot.def, id] : ["quality", "lot", id])
    : await desk.foundBatch(id) ? (name === "shift" ? ["shift", id] : ["quality", "batch", id])
      : await desk.foundOrder(id) ? ["planner", id] : await desk.recall(id) ? ["quality", "recall", id]
        : await desk.definition(id) ? ["warehouse", id] : null;
  if (where) go(...where);
  else if ((await desk.find(id)).recipes.includes(id)) location.hash = `#planner?recipe=${id}`;
  else return false;
  return true;
}
at("find").addEventListener("input", offerBegun);
at("finder").addEventListener("submit", async (event) => {
  event.preventDefault();
  notice();
  try { await findTyped(at("find").value); } catch (error) { miss(whyNot(error)); }
});

// What was scanned goes to the form that is open, else to the batch that is shown, else it is found.
listenToScans(async (code, isAgain, from) => {
  if (openForm()) return openForm().scanned(code, isAgain, from);
  notice();
  try {
    const isOfBatch = !dialog.open && place()[0] === "shift" && from !== at("find") && await scanAtBatch(code, isAgain);
    if (typeof isOfBatch === "string") { miss(isOfBatch); tone(); } else if (isOfBatch === false) await findScanned(code);
  } catch (error) { miss(whyNot(error)); tone(); }
});
async function findScanned(code) {
  if (dialog.open) dialog.close();
  if (!(await find(code))) tone();
}

at("help").addEventListener("click", help);
dialog.addEventListener("cancel", (event) => { if (sending) event.preventDefault(); });
// A browser tells of a closed dialog with its next frame only. Until then a field of it can have the keyboard, a key can have led elsewhere, and
// another dialog can be open.
dialog.addEventListener("close", () => {
  if (dialog.open) return;
  const isLost = document.activeElement === document.body || dialog.contains(document.activeElement);
  dialog.replaceChildren();
  if (isLost) focusAgain(focusBehind);
  if (view.dataset.ready && !view.dataset.ready.endsWith(` ${desk.seq}`)) show();
});

addEventListener("keydown", (event) => {
  if (event.ctrlKey || event.altKey || event.metaKey || dialog.open) return;
  if (event.key === "Escape" && document.activeElement === at("find")) return view.focus();
  if (event.key === "Escape" && place()[0] === "board") return go("today");
  if (isWriting()) return;
  const role = /^[0-4]$/.test(event.key) && Object.keys(VIEWS)[event.key];
  const act = role ? () => go(role) : { "/": () => at("find").select(), "?": help, r: show, n: focusNextPhase }[event.key];
  if (!act) return;
  event.preventDefault();
  onceAlone(act);
});
Object.assign(VIEWS, { today, planner, shift, warehouse, quality, board });
operator.value = kept("operator", "");
operator.addEventListener("input", () => operator.readOnly || keep("operator", operator.value));
operator.addEventListener("change", () => nameOperator(operator.value));
operator.addEventListener("keydown", (event) => { if (event.key === "Enter") view.focus(); });

// Every 20 seconds, while the page is seen, it looks whether there are new bookings, and draws its view anew where nobody is at work in it; a view that
// says how long something lasts also where a minute is over.
const TURN = 20, MINUTE = 60;
const isOld = () => isDayOver() || (["today", "board"].includes(place()[0]) && isDrawnBefore(MINUTE));
async function lookAgain() {
  if (document.hidden || sending || dialog.open) return;
  drawWaiting();
  try {
    const isNew = await desk.look(), areChosen = { planner: chosenOrders, warehouse: chosen }[place()[0]]?.size > 0;
    const isAtWork = areChosen || (isWriting() && view.contains(document.activeElement));
    if (isNew && isAtWork) drawNew();
    else if (isNew || (isOld() && !isAtWork) || at("stand").textContent === t`no answer`) show();
  } catch { tellStatus("bad", t`no answer`); }
}
const drawNew = () => tellStatus("warn", t`there are new bookings: `, button(t`Look again`, () => show()));
setInterval(lookAgain, TURN * 1000);
addEventListener("visibilitychange", lookAgain);
addEventListener("storage", drawWaiting);
addEventListener("desk-named", drawWaiting);
addEventListener("hashchange", () => { if (dialog.open && !sending) dialog.close(); show(); });

async function begin() {
  const { name, language } = await desk.presented();
  await loadTexts(language);
  present(name);
  drawWaiting();
  try { nameByLogin(await desk.loggedIn()); } catch (error) { notice("bad", whyNot(error)); }
  show();
}
begin();
