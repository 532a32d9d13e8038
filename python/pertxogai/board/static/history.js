// @ts-check
/** Undo and redo: the texts of a drawing from its beginning, and which of them stands. */
const MOST = 500;

/** @typedef {-1 | 1} Way */

export class History {
  place = 0;

  /** @param {string} text */
  constructor(text) {
    this.texts = [text];
  }

  /** The text that stands. */
  get text() {
    return this.texts[this.place];
  }

  /**
   * Another text stands from now on; what was undone is gone.
   * @param {string} text
   */
  push(text) {
    if (text === this.text) return;
    this.texts = [...this.texts.slice(0, this.place + 1), text].slice(-MOST);
    this.place = this.texts.length - 1;
  }

  /**
   * Whether there is something to undo (-1), or to redo (1).
   * @param {Way} step
   */
  can(step) {
    return this.place + step in this.texts;
  }

  /**
   * Goes a step back (-1) or forth (1); gives whether there was one.
   * @param {Way} step
   */
  go(step) {
    const can = this.can(step);
    if (can) this.place += step;
    return can;
  }
}
