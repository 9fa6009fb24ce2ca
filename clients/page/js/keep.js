// What is taken away from the page, and what the browser keeps for it.

import { made } from "./dom.js";

/** Gives the browser a file to keep: a text, bytes or a blob. */
export function save(name, kind, content) {
  const address = URL.createObjectURL(content instanceof Blob ? content : new Blob([content], { type: kind }));
  const link = made("a", { href: address, download: name });
  document.body.append(link);
  link.click();
  link.remove();
  setTimeout(() => URL.revokeObjectURL(address), 10000);
}

/** Copies a text. Whether the browser let it. */
export async function copy(text) {
  try {
    await navigator.clipboard.writeText(text);
    return true;
  } catch {
    return false;
  }
}

/** What is kept under a name; nothing where the browser keeps nothing for this page, or what it kept can't be read. */
export function kept(name) {
  try {
    return JSON.parse(localStorage.getItem(name));
  } catch {
    return null;
  }
}

/** Keeps a value under a name. Whether the browser did. */
export function keep(name, value) {
  try {
    localStorage.setItem(name, JSON.stringify(value));
    return true;
  } catch {
    return false;
  }
}

/** Games with names, in this browser: a list of {name, address}, the last one that was kept first. */
export class Shelf {
  get games() {
    const found = kept("shelf");
    return Array.isArray(found) ? found.filter((one) => typeof one?.name === "string" && typeof one.address === "string") : [];
  }

  /** Keeps a game; one of the same name is replaced. Whether the browser did. */
  put(name, address) {
    return keep("shelf", [{ name, address }, ...this.games.filter((one) => one.name !== name)]);
  }

  drop(name) {
    keep("shelf", this.games.filter((one) => one.name !== name));
  }
}
