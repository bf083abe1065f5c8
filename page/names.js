// Names of materials, and what is typed of them.

// The words of a text: letters and digits, small ones for capital ones.
const wordsIn = (text) => text.toLowerCase().match(/[\p{L}\p{N}]+/gu) || [];

// Whether each word that is typed begins a word of the name.
export function isNamed(name, typed) {
  const words = wordsIn(name), parts = wordsIn(typed);
  return parts.length > 0 && parts.every((part) => words.some((it) => it.startsWith(part)));
}
