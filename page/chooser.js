// The lines of a recipe, chosen one by one beside the text that has them: what is changed in one is written in the other.

import { t } from "./texts.js";
import { lineOf, lineWords } from "./recipes.js";
import { wordOf } from "./words.js";
import { h } from "./elements.js";
import { button } from "./parts.js";

// The kinds of lines, each with what it has, and with the button that adds one.
const LINE_KINDS = { in: ["Material", "Amount"], out: ["Material", "Amount"], par: ["Name", "Value"], phase: ["Unit^equipment", "Operation", "Phase"] };
const ADDED = { in: "Add an input", out: "Add an output", par: "Add a parameter", phase: "Add a phase" };

// The field of a line that can't be read, and that of one word of another: a material is chosen of those that are known, or of the one that is written there.
function plainField(value, name) {
  const it = h("input", { "aria-label": name });
  it.value = value;
  return it;
}
function wordField(kind, k, value, name, materials) {
  const what = LINE_KINDS[kind][k];
  if (what !== "Material") {
    const isAmount = what === "Amount", isId = kind === "phase" || what === "Name";
    const it = h("input", { "aria-label": name, placeholder: t(what), "data-id": isId, inputmode: isAmount ? "numeric" : null, autocomplete: "off",
      spellcheck: "false", maxlength: isAmount ? 16 : isId ? 24 : 60 });
    it.value = value;
    return it;
  }
  const option = (id, text) => h("option", { value: id, selected: id === value }, text);
  return h("select", { "aria-label": name }, !value && option("", t`choose a material`), value && !materials.has(value) && option(value, value),
    [...materials.values()].map((it) => option(it.def, it.name ? `${it.def}: ${it.name}` : it.def)));
}

// Shows the lines of a text in an element, as rows of fields. `reading` gives the materials, which are offered once they are there.
export function chooseLines(element, text, reading) {
  const materials = new Map();
  let lines = lineWords(text.value), isOwn = false;

  // What was changed is written into the text, which tells the form of it.
  function write() {
    isOwn = true;
    text.value = lines.map(lineOf).join("\n");
    text.dispatchEvent(new Event("input", { bubbles: true }));
    isOwn = false;
  }
  function changed(at) {
    write();
    draw();
    element.querySelectorAll(".line")[at]?.querySelector(".words > *").focus();
  }
  function lineRow(line, k) {
    const name = (what) => t`${what} of line ${k + 1}`, { kind, words } = line, unit = kind && materials.get(words[0])?.unit;
    const put = (at) => ({ target }) => { words[at] = target.matches("[data-id]") ? target.value.trim().toUpperCase() : target.value; write(); };
    const fields = !kind ? [plainField(words[0], t`Line ${k + 1}`)]
      : LINE_KINDS[kind].map((what, at) => wordField(kind, at, words[at], name(t(what)), materials));
    fields.forEach((it, at) => it.addEventListener("input", put(at)));
    if (kind === "in" || kind === "out") fields[0].addEventListener("change", (event) => { words[0] = event.target.value; changed(k); });
    const choose = ({ target }) => {
      const before = kind ? words : words[0].split(/\s+/).slice(1);
      lines[k] = { kind: target.value, words: LINE_KINDS[target.value].map((_, at) => before[at] || "") };
      changed(k);
    };
    const kinds = Object.keys(LINE_KINDS).map((it) => h("option", { value: it, selected: it === kind }, wordOf(it)));
    const up = () => { [lines[k - 1], lines[k]] = [lines[k], lines[k - 1]]; changed(k - 1); };
    const unknown = !kind && h("option", { value: "", selected: true }, "?");
    return h("div", { class: "line" }, h("select", { "aria-label": name(t`Kind`), onchange: choose }, unknown, kinds),
      h("div", { class: "words" }, fields, unit && h("span", { class: "soft" }, unit)),
      button("\u2191", up, null, { "aria-label": t`Line ${k + 1} up`, disabled: k === 0 }),
      button("\u00d7", () => { lines.splice(k, 1); changed(Math.min(k, lines.length - 1)); }, null, { "aria-label": t`Take line ${k + 1} away` }));
  }
  function draw() {
    const add = (kind) => { lines.push({ kind, words: LINE_KINDS[kind].map(() => "") }); changed(lines.length - 1); };
    element.replaceChildren(h("b", {}, t`Lines, one by one`), ...lines.map(lineRow),
      h("div", { class: "row" }, Object.keys(ADDED).map((it) => button(t(ADDED[it]), () => add(it)))));
  }
  text.addEventListener("input", () => { if (!isOwn) { lines = lineWords(text.value); draw(); } });
  draw();
  reading.then((known) => {
    const name = element.contains(document.activeElement) && document.activeElement.getAttribute("aria-label");
    for (const it of known) materials.set(it.def, it);
    draw();
    if (name) [...element.querySelectorAll("[aria-label]")].find((it) => it.getAttribute("aria-label") === name)?.focus();
  });
}
