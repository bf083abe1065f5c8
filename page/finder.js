// What begins as what is typed to find something: it is offered below the field, each id with what it is, and each material by the words of its name.

import { isId } from "./ids.js";
import { wordOf } from "./words.js";
import { isNamed } from "./names.js";
import { at, h } from "./elements.js";
import { desk } from "./questions.js";

// What can be shown, by how the desk's answer names it.
const KINDS = { lots: "lot", batches: "batch", orders: "order", recalls: "recall", definitions: "material", recipes: "recipe" };

// For how many milliseconds nothing more is typed before the desk is asked, so that no scan asks.
const REST = 250;

const option = (id, what) => h("option", { value: id, label: `${id}: ${what}` });

// The ids of an answer, each once, with all that it is.
function offersOf(found) {
  const all = new Map();
  for (const [kinds, kind] of Object.entries(KINDS)) for (const id of found[kinds]) all.set(id, [...(all.get(id) || []), kind]);
  return [...all].map(([id, kinds]) => option(id, kinds.map(wordOf).join(", ")));
}

// The materials whose names have these words.
export async function namedSo(typed) {
  return (await desk.named()).filter((it) => isNamed(it.name, typed));
}

async function offers(typed) {
  const id = typed.toUpperCase(), begun = isId(id) ? offersOf(await desk.find(id)) : [];
  const known = new Set(begun.map((it) => it.value));
  return [...begun, ...(await namedSo(typed)).filter((it) => !known.has(it.def)).map((it) => option(it.def, it.name))];
}

// Offers what begins as what is typed by now.
let turns = 0;
export async function offerBegun() {
  const typed = at("find").value.trim(), turn = ++turns;
  await new Promise((done) => { setTimeout(done, REST); });
  if (turn !== turns) return;
  if (!typed) { at("begun").replaceChildren(); return; }
  try {
    const found = await offers(typed);
    if (turn === turns) at("begun").replaceChildren(...found);
  } catch { at("begun").replaceChildren(); }
}
