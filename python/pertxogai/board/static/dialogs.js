// @ts-check
/** Dialogs over the page: each gives the value of the button that closed it, once one has. */
import { byId, nodeOf } from './nodes.js';

/**
 * Is done once no dialog is open that was asked for.
 * @type {Promise<unknown>}
 */
let last = Promise.resolve();

/**
 * Shows a dialog of the page's, by `show`, once those that were asked for before it are closed.
 * @param {HTMLDialogElement} dialog
 * @returns {Promise<string>}
 */
export function closed(dialog, show = () => dialog.showModal()) {
  const answer = last.then(() => {
    dialog.returnValue = '';
    show();
    return new Promise((done) => {
      dialog.addEventListener('close', () => done(dialog.returnValue), { once: true });
    });
  });
  last = answer.catch(() => {});
  return answer;
}

/**
 * Shows a title, and something below it.
 * @param {string} title
 * @param {Node} content
 */
export function told(title, content) {
  const dialog = nodeOf('dialog', HTMLDialogElement);
  return closed(dialog, () => {
    byId('dialog-title').textContent = title;
    dialog.querySelector('div')?.replaceChildren(content);
    dialog.showModal();
  });
}

/** What is given in the place of a value where it is only to be measured. */
export const MEASURED = Symbol('measured');

/**
 * The value of a dimension that is typed at a place of the board, in pixels, or that it is only to
 * be measured; null where it is given up.
 * @param {string} label
 * @param {string} value
 * @param {import('./page').Place} place
 * @returns {Promise<string | typeof MEASURED | null>}
 */
export async function dimension(label, value, place) {
  byId('measure').hidden = false;
  const answer = await typed(label, value, place);
  byId('measure').hidden = true;
  const isMeasured = nodeOf('value', HTMLDialogElement).returnValue === 'measured';
  return isMeasured ? MEASURED : answer;
}

/**
 * The value that is typed at a place of the board, in pixels; null where it is given up.
 * @param {string} label
 * @param {string} value
 * @param {import('./page').Place} place
 */
export async function typed(label, value, [x, y]) {
  const dialog = nodeOf('value', HTMLDialogElement);
  const input = nodeOf('value-field', HTMLInputElement);
  const answer = await closed(dialog, () => {
    const board = nodeOf('board', SVGSVGElement).getBoundingClientRect();
    byId('value-title').textContent = label;
    dialog.style.setProperty('--x', `${board.left + x}px`);
    dialog.style.setProperty('--y', `${board.top + y + 14}px`);
    input.value = value;
    dialog.showModal();
    const { width, height } = dialog.getBoundingClientRect();
    dialog.style.setProperty('--width', `${width}px`);
    dialog.style.setProperty('--height', `${height}px`);
    input.select();
  });
  return answer ? input.value.trim() || null : null;
}
