// What the browser keeps: the operator, bookings without an answer.

// What the browser's store doesn't take, since it may not be used or is full.
const memory = new Map();

export function kept(name, otherwise) {
  if (memory.has(name)) return memory.get(name);
  try {
    const text = localStorage.getItem("desk." + name);
    return text === null ? otherwise : JSON.parse(text);
  } catch { return otherwise; }
}
export function keep(name, value) {
  try {
    localStorage.setItem("desk." + name, JSON.stringify(value));
    memory.delete(name);
  } catch { memory.set(name, value); }
}
