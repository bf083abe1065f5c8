// Help: the keys, and the words of the desk. It asks the desk nothing, so that it is there while the desk is down.

import { t } from "./texts.js";
import { h } from "./elements.js";
import { chooseLanguage, languages, spokenName } from "./language.js";
import { choice } from "./parts.js";
import { openDialog } from "./forms.js";

const KEYS = { 0: "today^view", 1: "planner^view", 2: "shift^view", 3: "warehouse^view", 4: "quality^view",
  "/": "find a lot, a batch, an order or a recall", n: "to the button of a batch's next phase", r: "look again", "?": "this help",
  Esc: "close a form, leave the board", Enter: "to the next field of a form; books in the last one" };

const SCANS = "A scanner works wherever the cursor is, and books nothing: at a batch it opens the form with the scanned lot, in a form it chooses the lot, "
  + "elsewhere it finds.";
const BOOKINGS = "A booking can't be taken back: book the opposite, or scrap. It counts once, also where its answer is lost and it is sent again. Views look "
  + "again every 20 seconds.";

// The words of the desk, each with those that it is taken for, by what they are about.
const WORDS = {
  "Orders and recipes": {
    "Draft, Approve, Withdraw": "A new version of a recipe is a draft. Once it is approved, orders of it can be taken in and released. A withdrawn "
      + "one is for no further release; batches go on.",
    "Order, Batch": "An order says what is wanted by when. Its release makes one batch, which the shift makes.",
    "Open, Released, Finished": "An open order waits for its release. A released one has a batch. It is finished once that batch is closed.",
    "Late": "Its due date is over, and it is neither finished nor cancelled.",
  },
  "Batches": {
    "Consume, Produce": "Consume books what goes into a batch, of the lot that it is taken of. Produce books what comes out, as a new lot.",
    "Asked, Booked, Left": "What the recipe wants at the order's size, what was consumed or produced so far, and what is missing of it.",
    "Pause, Hold (of a batch)": "Both interrupt a batch. After a pause it is resumed, after a hold restarted. A hold of a lot is another thing: see below.",
    "Stop, Abort": "Stop ends a batch in order before its time, Abort breaks it off. Both can be reset, and begin anew.",
    "Reset, Attempt": "A reset batch begins anew from its first phase, as another attempt. What was booked on it stays booked.",
    "Finish": "Pausing, stopping and the like take time. Finish says that the batch got there.",
    "Complete, Close": "A complete batch has done its work, and still takes bookings. A closed one takes none, and its order is finished.",
    "Parameter": "A value that the recipe gives for the phase after it, such as a temperature. The desk notes no measured value: book a step with a note.",
  },
  "Lots": {
    "Class, Material, Lot, Part": "A class is a group of materials. A lot is an amount of one material that is known by its id. Its parts are where it "
      + "is: F-1/2 is part 2 of lot F-1.",
    "Free, On hold, Recalled": "Free goods may be used. A hold keeps one lot from being consumed, split and merged, a recall also all that came of it.",
    "Hold, Recall": "Hold what may be wrong, and take the hold off once it is known. Recall what is wrong: it also reaches what was made of it, and "
      + "running batches.",
    "Take off, Lift": "A hold is taken off, a recall is lifted. The desk keeps who did it.",
    "Move, Split": "Move brings an amount to another place: it stays the same lot, as another part; the ledger says divided. Split makes an amount a "
      + "lot of its own.",
    "Merge": "Makes one new lot of parts of several lots of the same material.",
    "Scrap": "Books goods out that are spoiled or lost.",
    "Genealogy, Ledger, Record": "The genealogy shows what a lot came of and what came of it. The ledger has each booking of a lot, the record all of a batch.",
  },
  "This page": {
    "Number, Reference": "Each booking has a number, one after the other. Its reference keeps it from counting twice.",
    "Send again": "No answer came to a booking, which may have been taken or not. Sent again, it counts once.",
    "Short": "Orders and batches ask for more of a material than is free and is to be made until then.",
  },
};

export function help() {
  const key = ([name, what]) => h("p", {}, h("kbd", {}, name), " ", t(what));
  const words = Object.entries(WORDS).map(([about, all]) => [h("h3", {}, t(about)),
    h("dl", {}, Object.entries(all).map(([name, what]) => [h("dt", {}, t(name)), h("dd", {}, t(what))]))]);
  const end = h("div", { class: "end" }, h("button", { class: "main" }, t`Close`));
  const it = h("form", { method: "dialog", class: "help" }, h("h2", { id: "title" }, t`Keys and help`),
    h("p", { class: "row" }, choice(t`Language`, languages, spokenName(), chooseLanguage)), h("div", { class: "keys" }, Object.entries(KEYS).map(key)),
    h("p", { class: "soft" }, t(SCANS)), h("p", { class: "soft" }, t(BOOKINGS)), h("h2", {}, t`Words`), words, end);
  openDialog(it, end.firstChild);
}
