// @ts-check
/** The keyboard: a key that a button has is that button; what else a key does is told here. */
import { byId } from './nodes.js';

/** @typedef {import('./main.js').Page} Page */

/** @type {Record<string, [number, number]>} */
const ARROWS = { ArrowLeft: [-1, 0], ArrowRight: [1, 0], ArrowUp: [0, 1], ArrowDown: [0, -1] };
/**
 * Many keyboards have these by AltGr or by Option alone, or by Shift.
 * @type {Record<string, -1 | 1>}
 */
const BRACKETS = { '[': -1, '{': -1, ']': 1, '}': 1 };
/** @type {Record<string, number>} */
const ZOOMS = { '+': 1.25, '=': 1.25, '-': 0.8 };

/** Listens to keys, and does what they say by the page's parts. */
export class Keys {
  /** @param {Page} page */
  constructor(page) {
    this.page = page;
    document.addEventListener('keydown', (event) => {
      if (this.does(event)) event.preventDefault();
    });
    document.addEventListener('keyup', ({ key }) => {
      if (key === ' ') this.page.gestures.pans = false;
    });
    window.addEventListener('blur', () => { this.page.gestures.pans = false; });
  }

  /**
   * Does what a key says; false where it says nothing.
   * @param {KeyboardEvent} event
   */
  does(event) {
    const { key, shiftKey: shift } = event;
    const chord = (event.ctrlKey || event.metaKey) && !BRACKETS[key];
    if (chord && key === 'c' && copiesText(event)) return false;
    if (isTyping(event)) return chord && savesOrOpens(key) && this.press(`Control+${key}`);
    if (ARROWS[key]) return this.arrow(event, chord);
    if (chord) return this.press(`Control+${shift ? 'Shift+' : ''}${key}`);
    return this.plain(event);
  }

  /**
   * Does what a key says without Ctrl.
   * @param {KeyboardEvent} event
   */
  plain(event) {
    const { key, shiftKey: shift } = event;
    const proposed = proposedAt(event);
    if (proposed && key === 'Enter') this.page.proposals.change(proposed);
    else if (proposed && key === ' ') this.page.proposals.take(proposed);
    else if (BRACKETS[key]) this.page.cross.next(BRACKETS[key], shift || '{}'.includes(key));
    else if (event.altKey) return this.press(`Alt+${key}`);
    else if (ZOOMS[key]) this.page.board.zoomBy(ZOOMS[key]);
    else if (key === 'Escape') this.page.escape();
    else if (onBoard(event) && this.onBoard(key, shift)) return true;
    else return this.press(key);
    return true;
  }

  /**
   * Presses the button that has a key; false where none has it now. While what was clicked before
   * waits, it is the button that has it then.
   * @param {string} key
   */
  press(key) {
    const { sequence } = this.page.gestures;
    const selector = `[aria-keyshortcuts~="${CSS.escape(key)}" i]`;
    if (!sequence.isBusy) return pressed(selector);
    sequence.do(() => { pressed(selector); });
    return document.querySelector(selector) !== null;
  }

  /**
   * Does what a key says on the board alone; false where it says nothing.
   * @param {string} key
   * @param {boolean} shift
   */
  onBoard(key, shift) {
    if (key === ' ') this.page.gestures.pans = true;
    else if (key === 'Enter') this.enter(shift);
    else return false;
    return true;
  }

  /**
   * An arrow: with Alt it moves what is selected, with Ctrl it pans, else it moves the cross.
   * @param {KeyboardEvent} event
   * @param {boolean} chord
   */
  arrow(event, chord) {
    const { cross } = this.page;
    const [dx, dy] = ARROWS[event.key];
    const far = event.shiftKey ? 10 : 1;
    if (event.altKey && !chord) cross.shift(dx, dy);
    else if (!onBoard(event)) return false;
    else if (chord) cross.pan(dx, dy);
    else cross.step(dx * far, dy * far);
    return true;
  }

  /**
   * Changes the value of the dimension that is selected, unless a tool draws; else clicks at the
   * cross.
   * @param {boolean} shift
   */
  enter(shift) {
    const { board: { cross: at }, cross, hand, offers, selection } = this.page;
    this.page.gestures.sequence.do(() => {
      const [number] = selection.numbers;
      if (number && !hand.draws) offers.change(number);
      else if (at) cross.enter(at, shift);
    });
  }
}

/**
 * The number of what is proposed that has the focus; 0 of none.
 * @param {KeyboardEvent} event
 */
function proposedAt({ target }) {
  const mark = target instanceof Element ? target.closest('[data-proposed]') : null;
  return Number(mark?.getAttribute('data-proposed'));
}

/**
 * Whether a text is being typed, or a dialog is open.
 * @param {KeyboardEvent} event
 */
function isTyping({ target }) {
  const fields = 'input:not([type="range"]), textarea';
  const isField = target instanceof Element && target.matches(fields);
  return isField || document.querySelector('dialog[open]') !== null;
}

/**
 * Whether a key saves or, where no dialog is open, opens.
 * @param {string} key
 */
function savesOrOpens(key) {
  return (document.querySelector('dialog[open]') ? 's' : 'so').includes(key.toLowerCase());
}

/**
 * Presses the first button of those that isn't hidden; false where all are.
 * @param {string} selector
 */
function pressed(selector) {
  const button = document.querySelector(`${selector}:not([hidden])`);
  if (!(button instanceof HTMLElement)) return false;
  button.click();
  return true;
}

/**
 * Whether a key that copies means a text that is selected: not where it is pressed on the board.
 * @param {KeyboardEvent} event
 */
function copiesText(event) {
  return !onShapes(event) && Boolean(getSelection()?.toString());
}

/**
 * Whether a key is pressed on the board itself.
 * @param {KeyboardEvent} event
 */
function onShapes({ target }) {
  return target instanceof Element && target.closest('#board') !== null;
}

/**
 * Whether a key is pressed on the board, or on nothing that takes keys.
 * @param {KeyboardEvent} event
 */
function onBoard(event) {
  const { target } = event;
  return target === document.body || target === byId('verdict') || onShapes(event);
}
