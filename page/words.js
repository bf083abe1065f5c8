// The desk's words, in plain ones.

import { t } from "./texts.js";
import { grouped } from "./amounts.js";
import { dated, dayOf } from "./moments.js";

// A part of a lot: its name, where it is, the day on which its lot came, and all that is to be known where it is chosen, with what bars it.
export const keyOfPart = (it) => `${it.lot}/${it.sub}`;
export const placeOfPart = (it) => t`${keyOfPart(it)} at ${it.place || t`no place`}`;
export const cameInWords = (it) => (it.at === null ? "" : t`, came ${dated(dayOf(it.at))}`);
export const partInWords = (it, unit) => `${placeOfPart(it)}: ${grouped(it.stock)} ${unit}${cameInWords(it)}${it.barred ? `, ${it.barred}` : ""}`;

// Why a booking or a question is refused.
export const REFUSALS = {
  BadForm: "The desk can't read that. Look for a value that breaks its rule.",
  MomentBack: "The desk's last booking is later than its machine's clock. Look at that clock.",
  Exists: "That id is taken already. Take another one.",
  UnknownClass: "There is no such class.",
  UnknownDefinition: "There is no such material.",
  UnknownRecipe: "There is no such version of a recipe.",
  UnknownOrder: "There is no such order.",
  UnknownBatch: "There is no such batch.",
  UnknownLot: "There is no such lot.",
  UnknownSublot: "The lot has no such part.",
  NotDraft: "Only a draft can be approved.",
  NotApproved: "That version of the recipe isn't approved.",
  TooLittle: "There is less than that in this part of the lot.",
  TooMuch: "The merged lot would have more than a lot may have.",
  Held: "The lot is on hold. Quality can take the hold off.",
  OrderConflict: "An order of that id is there already, with other values.",
  OrderNotOpen: "The order is released, finished or cancelled already.",
  SizeOutOfRange: "The size isn't within the least and the greatest of the recipe.",
  ScaledToNothing: "At this size a line of the recipe comes to nothing. A larger order is wanted.",
  BadMove: "The batch can't do that in its state. It may have moved on: look again.",
  PhasesLeft: "A phase is still to be done.",
  NotNextPhase: "It isn't the turn of that phase. It may be done already: look again.",
  BatchClosed: "The batch is closed.",
  WrongState: "The batch has to be started first, and phases are done while it runs.",
  NotInRecipe: "The recipe of the batch doesn't have this material.",
  OwnProduct: "The lot came of this very batch.",
  MixedMaterials: "The parts are of two materials.",
  TooMany: "A limit is reached: parts of a lot, attempts of a batch, or bookings of the desk.",
  HoldUnknown: "There is no such hold on the lot. It may have been taken off already.",
  NotFinished: "A batch is closed once it is complete, stopped or aborted.",
  RefReused: "Another booking has this reference already.",
  Recalled: "The lot is recalled, or came of one that is. Take other goods.",
  UnknownRecall: "There is no such recall.",
  RecallLifted: "That recall was lifted before.",
};

// What is wrong with an order file.
export const FILE_FAULTS = {
  TooLong: "The file is longer than 262,144 bytes.",
  Header: "The first line isn't order,recipe,version,size,due,priority.",
  Shape: "The line hasn't six fields.",
  Order: "The order isn't an id.",
  Recipe: "The recipe isn't an id.",
  Version: "The version isn't a number from 1 to 999.",
  Size: "The size isn't a whole number from 1.",
  Due: "The due date isn't a day like 2027-03-01.",
  Priority: "The priority isn't a number from 1 to 9.",
  TooManyRows: "It has more than 1,000 orders.",
  Memory: "The desk is out of memory.",
};

// Where each word leads a batch from each state; `done` is the end of what the state is about.
export const STATES = {
  idle: { start: "running" },
  running: { done: "complete", pause: "pausing", hold: "holding", stop: "stopping", abort: "aborting" },
  pausing: { done: "paused", hold: "holding", stop: "stopping", abort: "aborting" },
  paused: { resume: "running", hold: "holding", stop: "stopping", abort: "aborting" },
  holding: { done: "held", stop: "stopping", abort: "aborting" },
  held: { restart: "restarting", stop: "stopping", abort: "aborting" },
  restarting: { done: "running", hold: "holding", stop: "stopping", abort: "aborting" },
  stopping: { done: "stopped", abort: "aborting" },
  stopped: { reset: "idle", abort: "aborting" },
  aborting: { done: "aborted" },
  aborted: { reset: "idle" },
  complete: { reset: "idle" },
};
export const MAY_CLOSE = ["complete", "stopped", "aborted"];
export const TONES = { running: "good", restarting: "good", complete: "good", pausing: "warn", paused: "warn", holding: "warn", held: "warn",
  stopping: "bad", stopped: "bad", aborting: "bad", aborted: "bad" };

// What a batch is told in each of its states, as its button has it.
export const MOVES = { start: "Start", pause: "Pause", hold: "Hold^batch", stop: "Stop", abort: "Abort", resume: "Resume", restart: "Restart", reset: "Reset" };

// Words of the desk that are shown as the language has them: states of orders, recipes and batches; kinds of lines, bookings and things; and commands.
const SAID = [
  ...Object.keys(STATES), "open", "released", "finished", "cancelled", "draft", "approved", "withdrawn", "in", "out", "par", "phase",
  "received", "consumed", "produced", "scrapped", "divided", "split", "merged", "lot", "batch", "order", "recall", "material",
  "recipe",
];
const COMMANDS = [
  "add_class", "add_definition", "add_recipe", "approve", "withdraw", "import_orders", "cancel_order", "release", "batch", "phase_done", "settle",
  "close_batch", "receive", "consume", "produce", "scrap", "divide", "split", "merge", "hold", "unhold", "recall", "lift",
];
export const wordOf = (word) => (SAID.includes(word) ? t(word) : word);
export const commandWord = (word) => (COMMANDS.includes(word) ? t(`${word}^command`) : word);

// What the fields of a command are, in the order of its content. Of a merge the parts follow, of an import and a recipe only
// what they begin with is said.
const FIELD_NAMES = {
  add_class: ["class", "name"], add_definition: ["material", "class", "name", "unit"], receive: ["lot", "material", "amount", "place"],
  scrap: ["lot", "part", "amount"], divide: ["lot", "part", "amount", "place"], split: ["lot", "part", "amount", "new lot", "place"],
  merge: ["new lot", "place", "lots"], hold: ["lot", "hold"], unhold: ["lot", "hold"], recall: ["recall", "lot"], lift: ["recall"],
  add_recipe: ["recipe", "version"], approve: ["recipe", "version"], withdraw: ["recipe", "version"], import_orders: ["orders"], cancel_order: ["order"],
  release: ["order", "batch"], batch: ["batch", ""], settle: ["batch"], phase_done: ["batch", "phase"], close_batch: ["batch"],
  consume: ["batch", "lot", "part", "amount"], produce: ["batch", "lot", "material", "amount", "place"],
};
const fieldInWords = (name, value) => (name === "" ? eventInWords(value) : `${t(name)} ${name === "amount" ? grouped(value) : value}`);
export function fieldsInWords(word, fields) {
  const names = FIELD_NAMES[word] ?? [], parts = word === "merge" ? Array.from({ length: Number(fields[2]) }, (_, k) => `${fields[3 * k + 3]}/${fields[3 * k + 4]}`) : [];
  return [...names.map((name, k) => fieldInWords(name, fields[k])), ...parts].join(", ");
}

// An event of a batch record: a word that the batch was told, or a phase with its number and its name.
const EVENTS = ["start", "done", "pause", "hold", "stop", "abort", "resume", "restart", "reset", "close", "phase"];
export function eventInWords(event) {
  const [word, ...rest] = event.split(" ");
  return EVENTS.includes(word) ? [t(`${word}^event`), ...rest].join(" ") : event;
}

// Why something is refused, nothing where it isn't known.
export const refusalOf = (name) => (Object.hasOwn(REFUSALS, name) ? t(REFUSALS[name]) : "");

// An answer that isn't what was wished for, in plain words.
export function plainly({ status, body }) {
  if (body.csv) return `${body.row ? t`Row ${body.row} of the file, the header being row 0: ` : ""}${t`${t(FILE_FAULTS[body.csv] || "")} (${body.csv}) Nothing was taken in.`}`;
  if (body.ahead) return t`The moment is more than ${body.ahead} seconds ahead of the clock of the desk's machine. Look at that clock. Nothing was booked.`;
  if (body.name) return `${refusalOf(body.name) || t`The desk refuses that.`} (${body.name})`;
  if (body.fault === 2) return t`The desk is out of memory for now. Nothing has changed: try again.`;
  if (body.fault) return t`The desk's store failed. Somebody has to look at the machine of the desk.`;
  if (status === 403) return t`The desk doesn't serve this page under this name, or to who is logged in. (403)`;
  if (status === 413) return t`That is longer than 262,144 bytes. (413)`;
  return t`The desk doesn't know that. (${status})`;
}

export const LOST = "No answer came. The booking may have been taken or not: send it again, and it counts once.";
