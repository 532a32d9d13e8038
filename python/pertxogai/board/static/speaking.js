// @ts-check
/** What has changed of the verdict, for who listens: not all of it, and no times. */
import { byId } from './nodes.js';

/** @typedef {import('./protocol').Judged} Judged */

/** The most new lines that are said. */
const MOST = 3;

/**
 * Lines one behind the other, with a full stop between two where the first has no mark at its end.
 * @param {string[]} lines
 */
export function inOne(lines) {
  return lines.join('. ').replace(/([.:;!?])\. /g, '$1 ');
}

/** Says in a line what an answer tells that the one before didn't. */
export class Speaking {
  node = byId('said');
  title = '';
  /** @type {Set<string>} */
  lines = new Set();

  /** The verdict as it is shown now. */
  changed() {
    const title = byId('verdict').querySelector('h2')?.textContent ?? '';
    const parts = 'p, li > span, li > button:not([aria-label])';
    const told = [...byId('verdict').querySelectorAll(parts)];
    const lines = new Set(told.map((each) => each.textContent ?? ''));
    const more = [...lines].filter((each) => each && !this.lines.has(each)).slice(0, MOST);
    const said = inOne(title && title !== this.title ? [title, ...more] : more);
    Object.assign(this, { title, lines });
    if (said) this.node.textContent = said;
  }
}
