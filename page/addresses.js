// Addresses: what follows # in the page's address is a view, a thing in it, and what its lists are filtered by, as in shift/B-1?batches=closed.

export function readAddress(hash) {
  const [path, query = ""] = hash.replace(/^#/, "").split("?"), [name, ...words] = path.split("/");
  const filters = query.split("&").map((it) => it.split("=")).filter(([key, value]) => /^[a-z]+$/.test(key) && /^[A-Za-z0-9%_.~!'()*-]+$/.test(value || ""));
  return { name, words, filters: new Map(filters.map(([key, value]) => [key, decoded(value)])) };
}
export function decoded(value) {
  try { return decodeURIComponent(value); } catch { return ""; }
}
const withQuery = (path, filters) => path + (filters.size ? "?" : "") + [...filters].map(([key, value]) => `${key}=${encodeURIComponent(value)}`).join("&");

// An address with another value of a filter, or without the filter where that is null.
export function withFilter(hash, key, value) {
  const { name, words, filters } = readAddress(hash);
  filters.delete(key);
  if (value !== null) filters.set(key, value);
  return withQuery([name, ...words].join("/"), filters);
}

// A place with the filters of the address at which it is named, as far as both are of one view.
export function placeFrom(hash, path) {
  const { name, filters } = readAddress(hash);
  return path.split("/")[0] === name ? withQuery(path, filters) : path;
}

// Whether two addresses are of one place, and whether one has the thing in which the other's is.
const wordsOf = (hash) => { const { name, words } = readAddress(hash); return [name, ...words]; };
export const isSamePlace = (one, other) => wordsOf(one).join("/") === wordsOf(other).join("/");
export function isAbove(one, other) {
  const words = wordsOf(one), others = wordsOf(other);
  return words.length < others.length && words.every((it, k) => it === others[k]);
}
