// The texts of the page, in each of its languages by the same names.

import { de } from "./languages/de.js";
import { en } from "./languages/en.js";
import { ja } from "./languages/ja.js";

export const LANGUAGES = { en, de, ja };
let language = "en", plural = new Intl.PluralRules("en");

/** Takes the language that is wished: the first of the wishes that there is, and else English. */
export function speak(wishes) {
  language = wishes.map((wish) => wish.slice(0, 2).toLowerCase()).find((wish) => Object.hasOwn(LANGUAGES, wish)) ?? "en";
  plural = new Intl.PluralRules(language);
  return language;
}

/**
 * A text by its name, with these values in the places of `{name}`. Where it depends on a number (`n`) there is a text for each
 * form; a name that a language hasn't is shown as it is, and the trial sees it.
 */
export function t(name, values = {}) {
  let text = LANGUAGES[language][name];
  if (text === undefined) return `⟨${name}⟩`;
  if (typeof text === "object") text = text[plural.select(Math.abs(Number(values.n)))] ?? text.other;
  return text.replace(/\{(\w+)\}/g, (_, key) => String(values[key] ?? `⟨${key}⟩`));
}

/** Puts the texts into a document: `data-text` names what an element says, `data-label` its name, `data-hint` its placeholder. */
export function fill(document) {
  document.documentElement.lang = language;
  for (const one of document.querySelectorAll("[data-text]")) one.textContent = t(one.dataset.text);
  for (const one of document.querySelectorAll("[data-label]")) {
    one.setAttribute("aria-label", t(one.dataset.label));
    if (one.tagName === "BUTTON") one.title = t(one.dataset.label);
  }
  for (const one of document.querySelectorAll("[data-hint]")) one.placeholder = t(one.dataset.hint);
  document.title = t("title");
}
