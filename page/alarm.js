// The alarm: a tone and a flash at a hold or a recall that is new, where this browser is to give them. At first it isn't.

import { t } from "./texts.js";
import { newIn } from "./figures.js";
import { h } from "./elements.js";
import { keep, kept } from "./store.js";
import { tone } from "./scanner.js";
import { notice } from "./parts.js";
import { desk } from "./questions.js";

// The box that has it given. A press of it sounds the tone, without which browsers give none.
export function alarmBox() {
  const change = (event) => { keep("alarm", event.target.checked); if (event.target.checked) tone(); };
  return h("label", { class: "tick" }, h("input", { type: "checkbox", id: "alarm", checked: kept("alarm", false), onchange: change }),
    h("span", {}, t`A tone and a flash at a new hold or recall`));
}

// The holds and recalls that were there when they were last looked at, and the desk of which they are.
let known = null, knownOf = null;
export function watchFor(holds, recalls) {
  const all = new Map([...recalls.map((it) => [`recall ${it.recall}`, t`Recall ${it.recall} of lot ${it.lot}, by ${it.by}.`]),
    ...holds.map((it) => [`hold ${it.lot}.${it.hold}`, t`Hold ${it.hold} on lot ${it.lot}, by ${it.by}.`])]);
  const news = known && knownOf === desk.name ? newIn(all.keys(), known) : [];
  known = new Set(all.keys());
  knownOf = desk.name;
  if (news.length && kept("alarm", false)) alarm(news.map((it) => all.get(it)));
}

// Three tones, and a frame around the page that flashes once a second, which harms nobody.
const TONES_OF_ALARM = 3, APART = 600, LASTS = 12_000;
let ending;
function alarm(texts) {
  for (let k = 0; k < TONES_OF_ALARM; k += 1) setTimeout(tone, k * APART);
  notice("bad", texts.join(" "));
  document.body.classList.add("alarm");
  clearTimeout(ending);
  ending = setTimeout(() => document.body.classList.remove("alarm"), LASTS);
}
