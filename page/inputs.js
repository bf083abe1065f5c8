// All inputs of a batch as asked: one form has what is left of each, and the lots that it would be taken of. One press books them, one after the other.

import { t } from "./texts.js";
import { counted, grouped } from "./amounts.js";
import { PAGE } from "./cursors.js";
import { LOST, cameInWords, keyOfPart, placeOfPart } from "./words.js";
import { openInputs, takenOf } from "./taking.js";
import { h } from "./elements.js";
import { notice, pill } from "./parts.js";
import { desk, whyNot } from "./questions.js";
import { partsOfLot } from "./lots.js";
import { form, noteField, noted, openForm, ownField, say } from "./forms.js";
import { bookEach } from "./book.js";

const stockIn = (parts) => parts.reduce((sum, it) => sum + it.stock, 0);

// What is to be taken for the open inputs of a batch: the oldest lots first, but for parts that are ticked off.
class Plan {
  constructor(id) { Object.assign(this, { id, off: new Set(), inputs: [], element: h("div", { class: "inputs" }) }); }

  // Reads what is left of each input and what there is of it.
  async read() {
    await desk.look();
    const batch = await desk.batch(this.id), own = new Set(batch.produced.map((it) => it.lot));
    const inputs = [];
    for (const it of openInputs(await desk.linesNow(this.id))) {
      inputs.push({ ...it, name: (await desk.definition(it.def))?.name || "", parts: await this.freeParts(it.def, it.left, own) });
    }
    this.inputs = inputs;
    this.draw();
  }

  // The parts of a material that may be taken, until there are enough: neither what is on hold or recalled, nor what the batch produced itself.
  async freeParts(def, amount, own) {
    let lots, parts, wanted = 0;
    do {
      lots = await desk.stock(def, wanted += PAGE);
      parts = lots.flatMap(partsOfLot).filter((it) => !it.barred && !own.has(it.lot));
    } while (lots.more && stockIn(parts.filter((it) => this.isOn(it))) < amount);
    return parts;
  }
  isOn(part) { return !this.off.has(keyOfPart(part)); }
  taken(input) { return takenOf(input.parts.filter((it) => this.isOn(it)), input.left); }

  // The bookings that it comes to, and all of it as a text, by which two plans are compared.
  bookings(note) {
    return this.inputs.flatMap((input) => this.taken(input).taken.map(({ lot, sub, amount }) => ({ input, amount,
      what: t`${grouped(amount)} ${input.unit} of ${lot} consumed`, fields: noted({ do: "consume", batch: this.id, lot, sub, amount }, note) })));
  }
  text() { return JSON.stringify(this.inputs.map((it) => [it.def, it.booked, this.taken(it).short, this.bookings().map((one) => one.fields)])); }

  // Shows it. Of the parts those are shown that are taken or ticked off.
  draw() {
    const name = document.activeElement.getAttribute("aria-label");
    this.element.replaceChildren(...(this.inputs.length ? this.inputs.map((it) => this.inputBox(it)) : [h("p", { class: "soft" }, t`Nothing is left to book.`)]));
    const again = name && [...this.element.querySelectorAll("input")].find((it) => it.getAttribute("aria-label") === name);
    if (again) again.focus();
  }
  inputBox(input) {
    const { taken, short } = this.taken(input), amounts = new Map(taken.map((it) => [keyOfPart(it), it.amount])), { def, name, unit, left, asked } = input;
    const shown = input.parts.filter((it) => amounts.has(keyOfPart(it)) || !this.isOn(it));
    return h("section", { class: "input" }, h("h3", {}, def, name && [" ", h("span", { class: "soft small" }, name)]),
      h("p", { class: "soft small" }, left === asked ? t`${grouped(left)} ${unit} left` : t`${grouped(left)} ${unit} left of ${grouped(asked)} ${unit}`,
        short > 0 && [" ", pill(t`${grouped(short)} ${unit} short`, "bad")]),
      shown.map((it) => this.partBox(it, amounts.get(keyOfPart(it)) || 0, unit)));
  }
  partBox(part, amount, unit) {
    const key = keyOfPart(part), tick = (event) => {
      if (event.target.checked) this.off.delete(key); else this.off.add(key);
      this.draw();
    };
    return h("label", { class: "part" }, h("input", { type: "checkbox", checked: this.isOn(part), "aria-label": t`Take ${key}`, onchange: tick }),
      h("span", {}, `${placeOfPart(part)}${cameInWords(part)}`), h("b", {}, !amount ? t`none` : amount < part.stock ? t`${grouped(amount)} of ${grouped(part.stock)} ${unit}` : `${grouped(amount)} ${unit}`));
  }
}

// Books what a plan comes to; gives what is wrong, or null. What is shown has to be as the desk has it then, so that what was booked once isn't booked
// again, and before each booking that nobody else booked of the input.
async function bookPlan(plan, note, isWanted) {
  const before = plan.text();
  try { await plan.read(); } catch (error) { return `${whyNot(error)} ${t`Nothing was booked.`}`; }
  if (plan.text() !== before) return t`What is booked or in stock has changed meanwhile. Look at the amounts, and press once more.`;
  const bookings = plan.bookings(note), booked = new Map(plan.inputs.map((it) => [it.def, it.booked]));
  if (!bookings.length) return t`There is nothing that could be booked.`;
  const why = async (k) => {
    const { input, amount } = bookings[k], line = (await desk.linesNow(plan.id)).find((it) => it.kind === "in" && it.def === input.def);
    if (!isWanted()) return t`The form was closed.`;
    if (line.booked !== booked.get(input.def)) return t`Somebody else booked ${input.def} on the batch meanwhile.`;
    booked.set(input.def, line.booked + amount);
    return null;
  };
  const { count, wrong } = await bookEach(bookings, why);
  const number = grouped(count), all = counted(bookings.length, "booking", "bookings");
  const far = count === 1 ? t`${number} of ${all} on ${plan.id} is booked` : t`${number} of ${all} on ${plan.id} are booked`;
  if (!wrong) { notice("good", `${far}. ${t`The last is number ${grouped(desk.seq)}.`}`); return null; }
  if (wrong === LOST) {
    notice("bad", `${far}. ${t`No answer came to the next one: send it again, and then book the rest.`}`);
    return LOST;
  }
  if (isWanted()) await plan.read().catch(() => {}); else notice("bad", `${far}. ${wrong}`);
  return `${far}. ${bookings[count].what}: ${wrong}`;
}

export async function bookInputs(id) {
  const plan = new Plan(id);
  try { await plan.read(); } catch (error) { return notice("bad", whyNot(error)); }
  const fields = [say(t`The oldest lots first. A tick that is taken away leaves a lot out.`), ownField(plan.element), noteField(t`Note on each booking, if any`)];
  let mine = null;
  form(t`Book all inputs of ${id} as asked`, fields, t`Book all`, ({ note }) => bookPlan(plan, note, () => openForm() === mine));
  mine = openForm();
}
