// Paper: what is printed of a dialog that shows it, such as labels, without the rest of the page.

import { t } from "./texts.js";
import { bars, moduleFor } from "./barcode.js";
import { at, dialog, h, svg } from "./elements.js";
import { button } from "./parts.js";
import { openDialog } from "./forms.js";

// A bar code of a text that is so many millimetres high, and as wide as goes into a room of so many.
export function barcode(text, room, high) {
  const { path, width } = bars(text), module = moduleFor(width, room);
  return svg("svg", { class: "bars", width: `${width * module}mm`, height: `${high}mm`, viewBox: `0 0 ${width} 1`, preserveAspectRatio: "none", role: "img",
    "aria-label": t`Bar code of ${text}`, "shape-rendering": "crispEdges" }, svg("path", { d: path }));
}

// Opens a dialog that shows what can be printed; `top` is what each page has at its top, if anything, and `tools` are further buttons.
let topOfPages = null;
export function openPaper(title, content, top = null, tools = []) {
  topOfPages = top;
  const print = button(t`Print`, () => globalThis.print(), "main"), away = button(t`Close`, () => dialog.close());
  openDialog(h("form", { method: "dialog", class: "preview" }, h("h2", { id: "title" }, title), h("div", { class: "sheets" }, content),
    h("div", { class: "end" }, tools, away, print)), print);
}

// Once printing begins, what such a dialog shows is put into the page by itself. The top of its pages is a rule of the style, which is last there.
const style = () => document.styleSheets[0];
let hasTop = false;
function clearPaper() {
  at("paper").replaceChildren();
  if (hasTop) style().deleteRule(style().cssRules.length - 1);
  hasTop = false;
}
addEventListener("beforeprint", () => {
  clearPaper();
  const shown = dialog.open && dialog.querySelector(".sheets");
  if (!shown) return;
  at("paper").append(...[...shown.children].map((it) => it.cloneNode(true)));
  hasTop = topOfPages !== null;
  if (hasTop) style().insertRule(`@page { @top-left { content: ${JSON.stringify(topOfPages)}; font: 9pt sans-serif; } }`, style().cssRules.length);
});
addEventListener("afterprint", clearPaper);
