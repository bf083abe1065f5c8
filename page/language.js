// The language of the page: the one that was chosen in this browser, else the one that the desk is served in, else the first that the browser wants and
// the page has, else English.

import { sayAs, t } from "./texts.js";
import { keep, kept } from "./store.js";

// The languages, each with its own name; and where the desk has the texts of those that the modules don't have.
const NAMES = { en: "English", de: "Deutsch" }, TABLES = { de: "/german.json" };
const wanted = (served) => [kept("language", null), served, ...navigator.languages.map((it) => it.split("-")[0])].find((it) => Object.hasOwn(NAMES, it)) || "en";

// The language in which texts are said.
let spoken = "en";
export const languages = Object.values(NAMES);
export const spokenName = () => NAMES[spoken];

// Whose numbers are written into files: those of the language, in English those of this machine.
export const numbersOf = () => (spoken === "en" ? navigator.language : spoken);

// Has the texts loaded that are wanted, and says those that are in the page already, also the number that the style has on each page of paper. Without an
// answer they stay English.
export async function loadTexts(served) {
  const language = wanted(served), table = TABLES[language];
  if (!table) return;
  try {
    const reply = await fetch(table, { redirect: "error" });
    if (!reply.ok) return;
    sayAs(await reply.json());
  } catch { return; }
  spoken = language;
  document.documentElement.lang = language;
  for (const it of document.body.querySelectorAll("*")) sayElement(it);
  const [style] = document.styleSheets, number = t`page ${"\" counter(page) \""} of ${"\" counter(pages) \""}`;
  style?.insertRule(`@page { @bottom-right { content: "${number}"; } }`, style.cssRules.length);
}
function sayElement(element) {
  for (const name of ["aria-label", "placeholder"]) if (element.hasAttribute(name)) element.setAttribute(name, t(element.getAttribute(name)));
  for (const node of element.childNodes) {
    const text = node.nodeType === Node.TEXT_NODE ? node.data.trim() : "";
    if (text) node.data = node.data.replace(text, () => t(text));
  }
}

// Chooses the language of this name, in which the page is loaded anew.
export function chooseLanguage(name) {
  keep("language", Object.keys(NAMES).find((it) => NAMES[it] === name));
  location.reload();
}
