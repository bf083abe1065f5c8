// Ids, as the desk has them.

export const isId = (text) => /^[A-Z][A-Z0-9-]{0,23}$/.test(text);

// An id of these parts, cut where it is too long.
export const idOf = (...parts) => parts.join("-").slice(0, 24);

// The id right before another one, in the order of the desk: a list that goes on behind it begins with that one. A has none before it.
const IN_ORDER = "-0123456789ABCDEFGHIJKLMNOPQRSTUVWXYZ";
export function idBefore(id) {
  const start = id.slice(0, -1), last = IN_ORDER.indexOf(id.at(-1));
  if (last === 0) return start;
  const before = (start + IN_ORDER[last - 1]).padEnd(24, "Z");
  return isId(before) ? before : id;
}

// A text in the plain letters that texts of the desk have: ue for an umlaut, and letters without their marks. Null where other letters are in it.
const LETTERS = { "\u00e4": "ae", "\u00f6": "oe", "\u00fc": "ue", "\u00c4": "Ae", "\u00d6": "Oe", "\u00dc": "Ue", "\u00df": "ss", "\u00e6": "ae",
  "\u00c6": "Ae", "\u00f8": "oe", "\u00d8": "Oe", "\u00e5": "aa", "\u00c5": "Aa", "\u0142": "l", "\u0141": "L", "\u0131": "i", "\u20ac": "EUR",
  "\u2013": "-", "\u2019": "'", "\u201e": "\"", "\u201c": "\"", "\u201d": "\"", "\u00b0": " deg" };
export function plainText(text) {
  const plain = [...text.normalize("NFC")].map((it) => LETTERS[it] || it.normalize("NFD").replace(/[\u0300-\u036f]/g, "")).join("");
  return /^[ -~]*$/.test(plain) ? plain : null;
}

export const ID_RULE = "letters, digits and -, a letter first, at most 24";
