// @ts-check
/**
 * What the browser keeps: the drawing until it is saved, those that were left unsaved, and whether
 * another tab has it.
 */

/**
 * A drawing as it is kept, with its text as it was saved last, and the tab that has it.
 * @typedef {{ text: string, name: string, saved?: string, leftOut?: string[], tab?: string }} Kept
 */

const KEY = 'pertxogai.drawing';
const ASIDE = 'pertxogai.aside';
const MOST_ASIDE = 12;
const OTHER_TAB = 'The board is open in another tab too. Each tab has its own drawing; the one '
  + 'that was changed last is shown again; the other is in the gallery.';
const KEEPS_NOTHING = 'This browser keeps nothing: save the drawing before you close the page.';

/** Keeps the drawing in this browser. */
export class Keeping {
  tab = `${Date.now()}.${Math.random()}`;
  channel = new BroadcastChannel('pertxogai');
  /** @type {Set<string>} */
  others = new Set();
  /**
   * What this tab kept last.
   * @type {string | null}
   */
  mine = null;

  /**
   * @param {import('./paper.js').Paper} paper
   * @param {(whose: string, text: string) => void} tell
   */
  constructor(paper, tell) {
    this.paper = paper;
    this.tell = tell;
    paper.when('text', () => this.keep());
    this.channel.addEventListener('message', (event) => this.heard(event.data));
    this.channel.postMessage({ here: this.tab });
    for (const what of ['beforeunload', 'pagehide']) {
      window.addEventListener(what, () => {
        paper.settle();
        this.keep();
      });
    }
    window.addEventListener('pagehide', () => this.channel.postMessage({ gone: this.tab }));
  }

  /**
   * Keeps the drawing that stands; of it and what another tab has kept since, the one that was
   * changed first goes aside.
   */
  keep() {
    const { text, name, saved, leftOut } = this.paper;
    const mine = { text, name, saved, leftOut, tab: this.tab };
    const last = this.kept();
    const others = last && last.tab !== this.tab ? last : null;
    const hasChanged = JSON.stringify(mine) !== this.mine;
    if (others && others.text !== text) this.put(hasChanged ? others : mine);
    if (others && !hasChanged) return;
    this.mine = JSON.stringify(mine);
    this.store(KEY, mine);
  }

  /**
   * What was kept, or null.
   * @returns {Kept | null}
   */
  kept() {
    return this.read(KEY);
  }

  /**
   * Puts a drawing aside, unless it is saved; of another tab's drawing its latest state alone.
   * @param {Kept} drawing
   */
  put({ text, name, saved, leftOut, tab }) {
    if (!text.trim() || text === saved) return;
    const all = this.unsaved().filter((each) => each.text !== text && (!tab || each.tab !== tab));
    const gone = all[MOST_ASIDE - 1];
    if (gone) {
      this.tell('keeping', `More than ${MOST_ASIDE} drawings are left unsaved: the oldest is no `
        + `longer kept (${gone.name}).`);
    }
    const called = `${name.replace(/, unsaved$/, '')}, unsaved`;
    this.store(ASIDE, [{ text, name: called, leftOut, tab }, ...all].slice(0, MOST_ASIDE));
  }

  /**
   * The drawings that were left unsaved.
   * @returns {Kept[]}
   */
  unsaved() {
    return this.read(ASIDE) ?? [];
  }

  /**
   * Another tab tells that it is there, or gone: while there is one, both say so.
   * @param {{ here?: string, also?: string, gone?: string }} message
   */
  heard({ here, also, gone }) {
    const other = here ?? also;
    if (here) this.channel.postMessage({ also: this.tab });
    if (gone) this.others.delete(gone);
    else if (other) this.others.add(other);
    this.tell('tabs', this.others.size ? OTHER_TAB : '');
  }

  /**
   * Writes a value, if the browser lets it.
   * @param {string} key
   * @param {unknown} value
   */
  store(key, value) {
    try {
      localStorage.setItem(key, JSON.stringify(value));
    } catch {
      this.tell('keeping', KEEPS_NOTHING);
    }
  }

  /**
   * Reads a value; null where there is none, or it can't be read.
   * @param {string} key
   */
  read(key) {
    try {
      return JSON.parse(localStorage.getItem(key) ?? 'null');
    } catch {
      return null;
    }
  }
}
