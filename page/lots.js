// A field for a lot: it is scanned, typed, or chosen of a list. That only chooses it; to book is another press.

import { t } from "./texts.js";
import { PAGE } from "./cursors.js";
import { keyOfPart, partInWords } from "./words.js";
import { lotOf } from "./scans.js";
import { h } from "./elements.js";
import { tone } from "./scanner.js";
import { desk, whyNot } from "./questions.js";

// The parts of a lot that have stock, each with when the lot came, and with what bars it from being consumed, split and merged.
export const partsOfLot = (lot) => lot.sublots.filter((it) => it.stock > 0).map((it) => ({ lot: lot.lot, sub: it.no, stock: it.stock, place: it.place,
  at: lot.at, barred: lot.held ? t`on hold` : lot.recalled ? t`recalled` : "" }));

// The parts of a material that are in stock, the oldest first and what is barred last: those of a page of lots, and where nothing of these is free, of
// further ones until something is. `more` says whether there are others.
export async function partsToOffer(def) {
  let lots, parts, wanted = 0;
  do {
    lots = await desk.stock(def, wanted += PAGE);
    parts = lots.flatMap(partsOfLot);
  } while (lots.more && parts.every((it) => it.barred));
  return Object.assign(parts.sort((a, b) => Boolean(a.barred) - Boolean(b.barred)), { more: lots.more });
}

// A lot with whether a recall reaches it, and with when it came, or null; and the same as the desk has it now.
export async function wholeLot(id) {
  const lot = id && await desk.foundLot(id);
  if (!lot) return null;
  const { recalled } = await desk.lotNode(id), [first] = await desk.movements(id, 1);
  return { ...lot, recalled, at: first ? first.at : null };
}
export async function lotNow(id) {
  await desk.look();
  return wholeLot(id);
}

// What is said where a lot, or its part of a number, has no stock.
export const nothingIn = (id, sub) => (sub === null ? t`There is nothing in lot ${id}.` : t`There is nothing in part ${sub} of lot ${id}.`);

// The part that a code names, followed by the others of its lot; or in words why it can't be taken.
async function partsNamed(code, { def, mayBeBarred }) {
  const { lot: id, sub } = lotOf(code), lot = await lotNow(id);
  if (!lot) return t`There is no lot ${id || code}.`;
  if (lot.def !== def) return t`Lot ${id} is ${lot.def}, and not ${def}.`;
  const parts = partsOfLot(lot), meant = sub === null ? parts[0] : parts.find((it) => it.sub === sub);
  if (!meant) return nothingIn(id, sub);
  if (meant.barred && !mayBeBarred) return t`Lot ${id} is ${meant.barred}.`;
  return [meant, ...parts.filter((it) => it !== meant)];
}

const ATTRIBUTES = { "data-id": true, maxlength: 28, autocapitalize: "characters", autocomplete: "off", spellcheck: "false" };

export class LotChoice {
  // `field` has the material and its unit, the parts to choose from, and the part that is chosen at first. `told` is called once another one is, and may
  // give the field that is next.
  constructor(field, told) {
    Object.assign(this, { field, told, part: field.part || null, seen: "", looking: null, known: new Map() });
    this.input = h("input", { name: field.name, ...ATTRIBUTES, placeholder: t`such as F-1, or F-1/2 for its part 2`, required: !field.part && !field.isOptional, oninput: () => this.typed(), onchange: () => this.look() });
    this.list = h("select", { name: `${field.name}-list`, onchange: () => this.choose(this.known.get(this.list.value) || null, true) },
      h("option", { value: "" }, t`none of these`));
    this.said = h("p", { class: "said", role: "status" });
    this.wrong = h("p", { class: "wrong", role: "alert" });
    this.offer(field.parts || []);
    this.element = h("div", { class: "lot" }, h("label", {}, field.label, this.input),
      h("label", {}, field.parts?.more ? t`Or one of those in stock, the oldest first; younger ones are scanned or typed` : t`Or one of those in stock, the oldest first`,
        this.list), this.said, this.wrong);
    this.draw();
  }

  // Whether the lot is known that the field names.
  isSettled() {
    const text = this.input.value.trim();
    return !this.looking && text.toUpperCase() === this.seen && (this.part !== null || (text === "" && Boolean(this.field.isOptional)));
  }

  // Puts parts into the list.
  offer(parts) {
    for (const it of parts.filter((part) => !this.known.has(keyOfPart(part)))) {
      this.known.set(keyOfPart(it), it);
      this.list.append(h("option", { value: keyOfPart(it), disabled: Boolean(it.barred) && !this.field.mayBeBarred }, partInWords(it, this.field.unit)));
    }
  }

  // Shows what is chosen. The list is shown where it has another part than the one that is chosen at first.
  draw() {
    this.list.parentNode.hidden = this.known.size < (this.field.part ? 2 : 1);
    this.said.textContent = this.part ? partInWords(this.part, this.field.unit) : "";
    this.list.value = this.part ? keyOfPart(this.part) : "";
    this.input.required = !this.part && !this.field.isOptional;
  }
  choose(part, isOfList) {
    this.part = part;
    this.wrong.textContent = "";
    if (isOfList) this.input.value = this.seen = part ? keyOfPart(part) : "";
    this.draw();
    this.next = part && this.told(part);
  }

  // What is typed isn't the lot that was chosen before.
  typed() {
    this.wrong.textContent = "";
    if (this.input.value.trim().toUpperCase() !== this.seen) { this.part = null; this.draw(); }
  }

  // Looks up what the field names, or a code that was scanned, and chooses it. Says whether it could; what can't be taken leaves nothing chosen.
  async look(code = this.input.value) {
    const text = code.trim().toUpperCase();
    if (text === this.seen && (this.looking || this.part)) return this.looking || true;
    Object.assign(this, { seen: text, part: null });
    this.input.value = text;
    this.wrong.textContent = "";
    this.draw();
    const mine = this.looking = text ? this.found(text) : Promise.resolve(false);
    try { return await mine; } finally { if (this.looking === mine) this.looking = null; }
  }
  async found(text) {
    let parts;
    try { parts = await partsNamed(text, this.field); } catch (error) { parts = whyNot(error); }
    if (text !== this.seen) return false;
    if (typeof parts === "string") return this.refuse(parts);
    this.offer(parts);
    this.looking = null;
    this.choose(parts[0]);
    return true;
  }
  refuse(why) {
    this.wrong.textContent = why;
    this.input.select();
    tone();
    return false;
  }
}
