// Elements made without markup: what is typed or read is always text.

export const $ = (id) => document.getElementById(id);

function dressed(element, attributes, inside) {
  for (const [key, value] of Object.entries(attributes)) {
    if (value === false || value === null || value === undefined) continue;
    if (key.startsWith("on")) element.addEventListener(key.slice(2), value);
    else element.setAttribute(key, value === true ? "" : value);
  }
  element.append(...inside.filter((one) => one !== null && one !== undefined));
  return element;
}

/** An element with attributes (those that begin with `on` are called), and texts or elements inside. */
export const made = (name, attributes = {}, ...inside) => dressed(document.createElement(name), attributes, inside);

/** The same of SVG. */
export const shape = (name, attributes = {}, ...inside) => dressed(document.createElementNS("http://www.w3.org/2000/svg", name), attributes, inside);

/** Gives an element this text, if it has another. */
export function say(element, text) {
  if (element.textContent !== text) element.textContent = text;
}

/** Shows an element, or hides it. */
export function reveal(element, is) {
  if (element.hidden === Boolean(is)) element.hidden = !is;
}

/** Gives an element this attribute, if it has another. */
export function put(element, name, value) {
  if (element.getAttribute(name) !== String(value)) element.setAttribute(name, value);
}
