// What can't be read: the name of a text (`read.NAME`), the values in it, and where: line and column from 1, and the file.

import { t } from "../texts.js";

export class Unread extends Error {
  constructor(name, values = {}, column = 0, line = 0) {
    super(name);
    Object.assign(this, { words: values, column, line, file: "" });
  }

  /** The same, at a line of a file. */
  at(line, file = "") {
    this.line ||= line;
    this.file ||= file;
    return this;
  }

  get text() {
    const where = [this.file, this.line ? t("fault.line", { line: this.line }) : "", this.column ? t("fault.column", { column: this.column }) : ""].filter(Boolean).join(", ");
    const text = `${where && `${where}: `}${t(`read.${this.message}`, this.words)}`;
    return text[0].toUpperCase() + text.slice(1) + (/[.。]$/.test(text) ? "" : t("stop.full"));
  }
}

/** The line and column of a place in a text. */
export function placeOf(text, at) {
  const before = text.slice(0, at).split("\n");
  return { line: before.length, column: before.at(-1).length + 1 };
}
