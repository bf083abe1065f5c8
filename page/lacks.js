// What open orders want more of than is free, each by itself, and the units of the sizes of orders. That takes a question for each recipe and each class of
// materials: a list of orders waits a little for it, and is completed once it is there.

import { t } from "./texts.js";
import { grouped } from "./amounts.js";
import { lacksOf } from "./figures.js";
import { h } from "./elements.js";
import { released } from "./focus.js";
import { desk } from "./questions.js";
import { onceDrawn } from "./frame.js";

// So many recipes are read, so many milliseconds a list waits for it, and so many materials are named.
const MOST_RECIPES = 60, SOON = 200, MOST_LACKS = 2;

// What was read last: recipes by their versions, and the stock of materials.
let recipesRead = new Map(), stocksRead = null;
const versionOf = (it) => `${it.recipe} ${it.version}`;
async function readWants(orders, areOpen) {
  const all = new Map(orders.map((it) => [versionOf(it), it])), read = new Map();
  for (const [name, it] of [...all].slice(0, MOST_RECIPES)) read.set(name, await desk.recipeOnce(it.recipe, it.version));
  recipesRead = read;
  if (areOpen) stocksRead = new Map((await desk.materials()).map((it) => [it.def, it]));
}

function writeLack(element, order) {
  const recipe = recipesRead.get(versionOf(order)), lacks = recipe && stocksRead ? lacksOf(recipe, order.size, stocksRead) : [];
  const named = lacks.slice(0, MOST_LACKS).map((it) => `${it.def} ${grouped(it.short)} ${it.unit}`).join(", "), left = lacks.length - MOST_LACKS;
  element.textContent = !lacks.length ? "" : left > 0 ? t`short: ${named} and ${left} more` : t`short: ${named}`;
}
function writeUnit(element, order) { element.textContent = recipesRead.get(versionOf(order))?.unit || ""; }

// Reads that of orders. What it gives makes the elements that say what an order lacks, and what its unit is.
export async function wantsOf(orders, areOpen) {
  const reading = readWants(orders, areOpen).catch(() => {}), drawn = [];
  const written = (tag, name, write) => (order) => {
    const it = h(tag, { class: name });
    write(it, order);
    drawn.push(() => write(it, order));
    return it;
  };
  onceDrawn(async () => {
    await reading;
    await released();
    for (const draw of drawn) draw();
  });
  await Promise.race([reading, new Promise((done) => { setTimeout(done, SOON); })]);
  return { lack: areOpen ? written("div", "over small", writeLack) : () => null, unit: written("span", null, writeUnit) };
}
