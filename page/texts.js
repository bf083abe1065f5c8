// The texts of the page in the language of who reads it. The modules have them in English; of another language there is a table of what each is in it.

// What each text is in another language than English, by the English one.
let texts = new Map();

// Has the texts said as a table has them: an object of German texts by the English ones, say.
export function sayAs(table) { texts = new Map(Object.entries(table)); }

// A text as it is said: its pieces with what stands between them, as in t`Lot ${id}`, which is "Lot {0}" in a table, or a word of a table of the page, as in
// t(word). Where English has one text for two things, ^ and a word behind it say which of them is meant.
export function t(pieces, ...values) {
  const text = typeof pieces === "string" ? pieces : pieces.reduce((all, it, k) => `${all}{${k - 1}}${it}`);
  const said = texts.has(text) ? texts.get(text) : text.replace(/\^\w+$/, "");
  return said.replace(/\{(\d)\}/g, (place, k) => (Number(k) < values.length ? String(values[k]) : place));
}
