// Elements of the page.

// Fills an element. What comes from the desk goes in as text alone, never as markup.
function filled(element, attributes, children) {
  for (const [name, value] of Object.entries(attributes || {})) {
    if (value === false || value == null) continue;
    if (name.startsWith("on")) element.addEventListener(name.slice(2), value);
    else element.setAttribute(name, value === true ? "" : value);
  }
  element.append(...children.flat(9).filter((it) => it != null && it !== false).map((it) => (it instanceof Node ? it : String(it))));
  return element;
}
export const h = (tag, attributes, ...children) => filled(document.createElement(tag), attributes, children);
export const svg = (tag, attributes, ...children) => filled(document.createElementNS("http://www.w3.org/2000/svg", tag), attributes, children);

export const at = (id) => document.getElementById(id);
export const view = at("view");
export const dialog = at("dialog");
export const operator = at("operator");
