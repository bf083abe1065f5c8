// Who is at the page: the operator, the names that were used last, and whether it may be somebody else by now. It is no right, only what is written down.

import { t } from "./texts.js";
import { clock } from "./moments.js";
import { h, operator } from "./elements.js";
import { keep, kept } from "./store.js";

export const operatorName = () => operator.value.trim();
export const hasOperator = () => operatorName() !== "" && operator.checkValidity();

// The operator whom a login names, null where none does. The desk takes the bookings of nobody else then, so that the name can't be changed, and nobody is
// asked for it.
let ofLogin = null;
export function nameByLogin(name) {
  ofLogin = name;
  operator.readOnly = name !== null;
  operator.title = name === null ? "" : t`The operator is who is logged in.`;
  if (name !== null) operator.value = name;
}

// So many seconds without a key, a pointer or a scan leave it in doubt who is there, until somebody says so.
const IDLE = 30 * 60;
const isIdle = () => clock() - kept("active", clock()) > IDLE;
export const isInDoubt = () => ofLogin === null && hasOperator() && isIdle();

// Notes that somebody is there, every few seconds at most. Once it is in doubt who that is, only a name ends the doubt.
const OFTEN = 10;
function seen() {
  if (!isIdle() && Math.abs(clock() - kept("active", 0)) >= OFTEN) keep("active", clock());
}
for (const it of ["keydown", "pointerdown"]) addEventListener(it, seen, true);
seen();

export function nameOperator(name) {
  if (ofLogin !== null) return;
  operator.value = name.trim();
  keep("operator", operator.value);
  keep("active", clock());
}

// The names of those who booked last, the last first.
const MOST_NAMES = 6;
const lastNames = () => kept("names", []);
export const keepName = (name) => keep("names", [name, ...lastNames().filter((it) => it !== name)].slice(0, MOST_NAMES));

// The question who is there: `named` gets the name that is pressed, and `other` is called where it is none of these. Nothing is answered by the press that
// raised the question.
const CONSIDERED = 600;
export function whoQuestion(named, other) {
  const notBefore = performance.now() + CONSIDERED, self = operatorName();
  const big = (label, press) => h("button", { type: "button", onclick: () => performance.now() > notBefore && press() }, label);
  const others = lastNames().filter((it) => it !== self).slice(0, MOST_NAMES - 1);
  return h("div", { class: "still", role: "group", "aria-label": t`Who is there` }, h("b", {}, t`Still ${self}?`), " ", t`Nobody was at this page for half an hour.`,
    h("div", {}, big(t`Yes, ${self}`, () => named(self)), others.map((it) => big(it, () => named(it))), big(t`Another name`, other)));
}
