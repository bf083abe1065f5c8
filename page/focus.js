// Where the keyboard and the pointer are.

import { dialog, view } from "./elements.js";

// The name of an element that can have the keyboard: what it says, and the row that it stands in.
export const keyOf = (it) => (it
  ? `${it.id}|${(it.closest("[data-row]") || { dataset: {} }).dataset.row || ""}|${it.getAttribute("aria-label") || it.textContent}` : "");
export function focusAgain(key) {
  const seen = (places) => [...document.querySelectorAll(places)].filter((it) => it.offsetParent);
  const same = seen("a, button, input, select, [tabindex]").find((it) => keyOf(it) === key);
  const next = same || seen("#view .stack:last-child h2")[0] || seen("#view h2")[0] || view;
  next.focus({ preventScroll: Boolean(same) });
}
// The link of a row, to which one comes back from what it leads to.
export function focusRow(name) {
  const link = [...view.querySelectorAll("[data-row]")].find((it) => it.dataset.row === name)?.querySelector("a");
  (link || view).focus({ preventScroll: true });
}

// Nothing is drawn anew under a pressed button, or its click would be lost.
let isPressed = false;
addEventListener("pointerdown", () => { isPressed = true; }, true);
for (const end of ["pointerup", "pointercancel"]) addEventListener(end, () => setTimeout(() => { isPressed = false; }), true);
export async function released() { while (isPressed) await new Promise((then) => setTimeout(then, 30)); }

// The second click of a double click, and a key that is kept down, press no button: it may be another one by then.
const isIn = (event, places) => event.target instanceof Element && event.target.closest(places);
addEventListener("click", (event) => {
  if (event.detail < 2 || !isIn(event, "button")) return;
  event.preventDefault();
  event.stopImmediatePropagation();
}, true);
addEventListener("keydown", (event) => {
  if (event.repeat && ["Enter", " "].includes(event.key) && isIn(event, "button, form") && !isIn(event, "textarea")) event.preventDefault();
}, true);

const isField = (it) => /^(INPUT|SELECT|TEXTAREA)$/.test(it.tagName);
export const isWriting = () => isField(document.activeElement) && !dialog.contains(document.activeElement);
