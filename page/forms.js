// Forms. To book is a press of the form's button, or Enter in its last field: Enter in another field leads to the next, and a scan only chooses.

import { t } from "./texts.js";
import { ID_RULE, isId, plainText } from "./ids.js";
import { lotOf, lotOfSupplier, withCode } from "./scans.js";
import { LOST, keyOfPart, refusalOf } from "./words.js";
import { dialog, h } from "./elements.js";
import { forgetTyped, keepTyped, typedIn } from "./typed.js";
import { hasOperator, isInDoubt, nameOperator, operatorName, whoQuestion } from "./who.js";
import { keyOf } from "./focus.js";
import { tone } from "./scanner.js";
import { button } from "./parts.js";
import { desk } from "./questions.js";
import { LotChoice, lotNow } from "./lots.js";

// The attributes of each kind of field; a title is said as the language has it.
const FIELDS = {
  id: { "data-id": true, maxlength: 24, pattern: "[A-Za-z][A-Za-z0-9\\-]*", title: ID_RULE, autocapitalize: "characters",
    autocomplete: "off", spellcheck: "false", required: true },
  text: { maxlength: 60, pattern: "[ -~]*", title: "at most 60 letters of plain ASCII", autocomplete: "off" },
  amount: { maxlength: 16, pattern: "0*[1-9][0-9]{0,14}|10{15}", title: "a whole number from 1", inputmode: "numeric", autocomplete: "off",
    required: true },
  date: { type: "date", min: "2000-01-01", max: "2099-12-31", required: true },
  lines: { rows: 8, required: true, spellcheck: "false" },
};

// The fields of forms; `more` has further attributes. A field of its own is an element that the form shows.
export const say = (text) => ({ kind: "say", label: text });
export const ownField = (element) => ({ kind: "own", element });
export const idField = (name, label, value) => ({ name, kind: "id", label, value });
// A lot that comes to be, whose id may be scanned; and one that is there, which is scanned, typed or chosen.
export const newLotField = (name, label, value) => ({ name, kind: "id", label, value, isNewLot: true });
export const lotField = (more) => ({ name: "from", kind: "lot", label: t`Scan or type the lot`, ...more });
export const textField = (name, label, more) => ({ name, kind: "text", label, more });
export const amountField = (unit, value) => ({ name: "amount", kind: "amount", label: unit ? t`Amount, ${unit}` : t`Amount`, value });
export const placeField = (label) => textField("place", label || t`Place`);
export const noteField = (label) => textField("note", label || t`Note, if any`);
// Why something is done, which has to be said.
export const whyField = () => textField("note", t`Why`, { required: true, pattern: "[ -~]*[!-~][ -~]*" });
export const selectField = (name, label, options, value, change) => ({ name, kind: "select", label, options, value, change });
export const halfField = (name, kind, label, more) => ({ name, kind, label, isHalf: true, ...more });
const operatorField = () => textField("operator", t`Operator: your name, which this browser keeps`, { required: true });

export const noted = (fields, note) => (note ? { ...fields, note } : fields);

function input(field) {
  const value = field.value === undefined ? "" : String(field.value);
  if (field.kind === "select") {
    const options = field.options.map((it) => h("option", { value: it.value, disabled: it.isOff, selected: String(it.value) === value }, it.label));
    return h("select", { name: field.name, required: true }, options);
  }
  const { title, ...rest } = FIELDS[field.kind];
  const it = h(field.kind === "lines" ? "textarea" : "input", { name: field.name, ...rest, title: title && t(title), ...field.more });
  it.value = value;
  return it;
}

// What the desk says against a command before it is booked, in plain words. Nothing where it would take it, and where there is no answer: that is seen
// once it is booked. MomentBack isn't told, since the moment of a booking is looked up again.
async function foreseen(content, by, signal) {
  const body = JSON.stringify({ at: desk.now(), by, ...content });
  const reply = await fetch("/v1/check", { method: "POST", body, headers: { "Content-Type": "application/json" }, cache: "no-store", signal });
  const { accepted, name, item, reason } = reply.status === 200 ? await reply.json() : { accepted: true };
  if (accepted || name === "MomentBack") return "";
  const list = content.parts || content.lines || content.orders || [];
  const which = item && list.length > 1 ? t`As it stands, this would be refused, for number ${item} of the list.` : t`As it stands, this would be refused.`;
  return `${which} ${reason ? t`It can't be read: ${reason}.` : refusalOf(name)} (${name})`;
}
const PAUSE = 400;

// For so many milliseconds a question can't be answered yet, so that it isn't by the press that raised it.
const CONSIDER = 600;

// A form. `take` gets its values, and gives what is wrong with them, or null. A booking that is lost closes the form: it is offered at the top.
// `contentOf` gives the command that complete values make: some time after the last key the desk is asked what would become of it. `doubt` gives what a
// person has to confirm by a second press, or null. Its button has the operator beside it, and where that may be another one by now, it asks for the name
// before it books; one that books nothing needs no operator.
class Form {
  constructor(title, fields, label, take, { isGrave, contentOf, doubt, booksNothing } = {}) {
    Object.assign(this, { label, take, contentOf, doubt, style: isGrave ? "main bad" : "main", again: null, confirmed: null, asking: new AbortController() });
    this.needsName = !booksNothing;
    this.fields = hasOperator() || booksNothing ? fields : [...fields, operatorField()];
    this.inputs = {};
    this.wrong = h("p", { class: "wrong", role: "alert" });
    this.told = h("p", { class: "foreseen", role: "status" });
    this.ok = h("button", { class: this.style }, label);
    this.as = h("span", { class: "as" });
    this.who = h("div", { hidden: true });
    this.drawAs();
    const part = fields.find((it) => it.part)?.part;
    this.name = booksNothing ? null : [desk.name || "", title, part ? keyOfPart(part) : ""].join("|");
    const rows = this.fields.map((it) => this.row(it)), away = button(t`Cancel`, () => this.ok.disabled || dialog.close());
    const events = { onsubmit: (event) => this.submit(event), oninput: () => this.changed(), onkeydown: (event) => this.pressed(event) };
    this.element = h("form", { method: "dialog", ...events }, h("h2", { id: "title" }, title), this.who, this.putBack(), rows, this.told, this.wrong,
      h("div", { class: "end" }, away, this.as, this.ok));
    if (this.isInDoubt()) this.askWho(() => (fields.length ? this.first().focus() : this.element.requestSubmit()));
  }

  // What is typed is kept while the form is open and nothing of it is on its way, and put back where the page was loaded anew meanwhile. What a field had
  // at first is no such thing.
  keep() {
    if (this.name === null || this.ok.disabled || !this.isOpen()) return;
    const now = Object.entries(this.inputs).filter(([name, it]) => name !== "operator" && it.value !== this.begun[name]);
    keepTyped(this.name, Object.fromEntries(now.map(([name, it]) => [name, it.value])));
  }
  leave() { if (this.name !== null) forgetTyped(this.name); }
  putBack() {
    this.begun = Object.fromEntries(Object.entries(this.inputs).map(([name, it]) => [name, it.value]));
    const kept = Object.entries((this.name !== null && typedIn(this.name)) || {}).filter(([name]) => this.inputs[name]);
    for (const [name, value] of kept) this.inputs[name].value = value;
    if (this.lot && kept.some(([name]) => this.inputs[name] === this.lot.input)) this.lot.look();
    return kept.length > 0 && h("p", { class: "soft", role: "status" }, t`What was typed before the page was loaded anew is put back.`);
  }

  // Who books is asked for in the form, so that what is typed isn't lost; `then` is called once a name is pressed. Another name is a field of the form.
  isInDoubt() { return this.needsName && !this.inputs.operator && isInDoubt(); }
  drawAs() { this.as.textContent = this.needsName && !this.inputs.operator && hasOperator() ? t`as ${operatorName()}` : ""; }
  askWho(then) {
    const named = (name) => { nameOperator(name); this.who.hidden = true; this.drawAs(); then(); };
    this.who.replaceChildren(whoQuestion(named, () => this.askName()));
    this.who.hidden = false;
  }
  askName() {
    const field = operatorField();
    this.fields = [...this.fields, field];
    this.who.replaceWith(this.row(field));
    this.drawAs();
    this.inputs.operator.focus();
  }
  row(field) {
    if (field.kind === "say") return h("p", { class: "soft" }, field.label);
    if (field.kind === "own") return field.element;
    if (field.kind === "lot") return this.lotRow(field);
    const it = (this.inputs[field.name] = input(field));
    if (field.isNewLot) it.addEventListener("change", () => this.putNewLot(field, it.value));
    const hint = h("span", { class: "small", role: "status" }, field.hint);
    if (field.kind === "text") it.addEventListener("change", () => this.offerPlain(it, hint));
    if (field.isNewLot) this.hint = hint;
    return h("label", { class: field.isHalf ? "half" : null }, field.label, it, (field.hint || field.isNewLot || field.kind === "text") && hint);
  }
  lotRow(field) {
    this.lot = new LotChoice(field, (part) => { this.changed(); return field.change && field.change(this.inputs, part); });
    this.inputs[field.name] = this.lot.input;
    return this.lot.element;
  }
  // Offers a text in plain letters once its field is left.
  offerPlain(it, hint) {
    const plain = it.checkValidity() ? null : plainText(it.value);
    const take = () => { it.value = plain; hint.replaceChildren(); this.changed(); };
    hint.replaceChildren(...(plain === null || plain === it.value ? [] : [t`The desk has plain letters alone.`, " ", button(t`Take \u201c${plain}\u201d`, take)]));
  }
  isOpen() { return dialog.open && dialog.firstChild === this.element; }
  values() {
    const value = ({ name, kind }) => (kind === "amount" ? Number(this.inputs[name].value) : kind === "id" ? this.inputs[name].value.toUpperCase()
      : kind === "lot" ? this.lot.part : this.inputs[name].value);
    return Object.fromEntries(this.fields.filter((it) => it.name).map((it) => [it.name, value(it)]));
  }

  // What has the keyboard first: the question who is there, its first field that is wanted and empty, but never the note, the amount, or its button.
  first() {
    if (!this.who.hidden) return this.who.querySelector("button");
    const wanted = Object.values(this.inputs).find((it) => !it.value && it.required && it.name !== "note");
    return this.lot ? this.lot.input : wanted || this.inputs.amount || this.ok;
  }

  // Forgets what the desk was asked about other values, and a doubt about them.
  forget() { clearTimeout(this.pause); this.asking.abort(); this.told.textContent = ""; }
  changed() {
    this.keep();
    this.forget();
    this.doubted(null);
    if (this.contentOf) this.pause = setTimeout(() => this.ask(), PAUSE);
  }
  async ask() {
    const { operator: name, ...values } = this.values(), { signal } = (this.asking = new AbortController());
    const isWhole = this.isOpen() && this.element.checkValidity() && (!this.lot || this.lot.isSettled());
    const content = isWhole ? this.contentOf(values) : null;
    const text = content && await foreseen(content, (name || operatorName()).trim(), signal).catch(() => "");
    if (text && !signal.aborted) this.told.textContent = text;
  }

  // Its fields, but for the list that is another way to choose a lot.
  places() { return [...this.element.querySelectorAll("input, select, textarea")].filter((it) => it !== this.lot?.list); }

  // Enter leads to the next field, and in that of a lot looks the lot up. In the last field it presses the button, as browsers have it.
  async pressed(event) {
    if (event.key !== "Enter" || !event.target.matches("input, select")) return;
    if (this.lot && event.target === this.lot.list) return event.preventDefault();
    const isOfLot = this.lot && event.target === this.lot.input && event.target.value.trim() !== "";
    if (!isOfLot && event.target === this.places().at(-1)) return;
    event.preventDefault();
    if (isOfLot && !(await this.lot.look())) return;
    this.goOn(event.target);
  }
  goOn(from) {
    if (!this.isOpen()) return;
    const places = this.places(), next = (from === this.lot?.input && this.lot.next) || places[places.indexOf(from) + 1] || this.ok;
    next.focus();
    if (next.select) next.select();
  }

  // Shows a doubt, which the next press confirms, or takes it back.
  doubted(text) {
    if (this.confirmed === null && text === null) return;
    this.confirmed = text;
    this.wrong.textContent = text || "";
    this.ok.className = text ? "main bad" : this.style;
    this.ok.textContent = text ? t`${this.label} all the same` : this.label;
    this.notBefore = performance.now() + CONSIDER;
  }
  // Whether there is a doubt that isn't confirmed, which is then shown.
  async hasDoubt(values) {
    const text = [this.again, this.doubt && await this.doubt(values)].filter(Boolean).join(" ") || null;
    if (text === null || text === this.confirmed) return false;
    this.doubted(text);
    return true;
  }
  async submit(event) {
    event.preventDefault();
    if (this.ok.disabled || (this.confirmed && performance.now() < this.notBefore)) return;
    if (this.lot && !this.lot.isSettled()) return this.lot.look();
    if (this.isInDoubt()) {
      this.askWho(() => this.element.requestSubmit(this.ok));
      return this.who.querySelector("button").focus();
    }
    this.forget();
    const { operator: name, ...values } = this.values();
    if (name !== undefined) nameOperator(name);
    this.ok.disabled = true;
    const isDoubtful = await this.hasDoubt(values), isOff = isDoubtful || !this.isOpen();
    if (!isOff) { this.wrong.textContent = ""; this.leave(); }
    const what = isOff ? null : await this.take(values);
    this.ok.disabled = false;
    if (what && what !== LOST) this.keep();
    if (what && what !== LOST) this.wrong.textContent = what;
    if (isDoubtful || (what && what !== LOST)) this.ok.focus();
    else if (!isOff && this.isOpen()) dialog.close();
  }

  // A code was scanned while the form is open, `place` being where the cursor is. It chooses the lot, or names a new one, and books nothing.
  async scanned(code, isAgain, place) {
    if (this.ok.disabled) return tone();
    this.doubted(null);
    this.again = isAgain ? t`${code} was scanned twice within two seconds.` : null;
    const field = this.fields.find((it) => it.isNewLot), isForNew = field && place === this.inputs[field.name];
    if (this.lot && !(isForNew && !(await lotNow(lotOf(code).lot)))) {
      if (await this.lot.look(code)) this.goOn(this.lot.input);
    } else if (field) {
      this.inputs[field.name].value = code.toUpperCase();
      this.putNewLot(field, code);
      this.goOn(this.inputs[field.name]);
    } else return this.refuse(t`This form takes no scan. Nothing was booked.`);
    if (this.again && !this.wrong.textContent) this.wrong.textContent = `${this.again} ${t`It is booked once you say so.`}`;
  }
  refuse(why) { this.wrong.textContent = why; tone(); }

  // What names a new lot: an id as it is, and a supplier's code as the lot L-CODE, with the code in the note.
  putNewLot(field, code) {
    const text = code.trim(), lot = isId(text.toUpperCase()) || !text ? null : lotOfSupplier(text), { note } = this.inputs;
    if (text === this.made) return;
    this.made = lot;
    this.hint.textContent = lot ? t`${text} is no id of the desk: the lot is ${lot}, and the code goes into the note.` : "";
    if (!lot) return;
    this.inputs[field.name].value = lot;
    if (note) note.value = withCode(note.value, text);
    this.changed();
  }
}

// Opens a form.
let opened = null;
export function form(title, fields, label, take, more) {
  if (opened) opened.leave();
  opened = new Form(title, fields, label, take, more);
  openDialog(opened.element, opened.first());
}

// The form that is open, or null. What was typed into one that is closed is gone.
export const openForm = () => (opened && opened.isOpen() ? opened : null);
dialog.addEventListener("close", () => {
  if (!opened || opened.isOpen()) return;
  opened.leave();
  opened = null;
});

// The place of the keyboard goes back to where it was once a dialog is closed, also in a view that was drawn anew.
export let focusBehind = null;
export function openDialog(content, first) {
  focusBehind = keyOf(document.activeElement);
  dialog.replaceChildren(content);
  if (!dialog.open) dialog.showModal();
  dialog.scrollTop = 0;
  first.focus({ preventScroll: first.matches(".end button") });
  if (first.select) first.select();
}
