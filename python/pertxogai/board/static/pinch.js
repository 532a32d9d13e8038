// @ts-check
/**
 * Two fingers on the board: they pan and zoom it, and what the first was about is given up, unless
 * it drags something.
 */
import { apart, middleOf } from './shapes.js';

/** @typedef {import('./page').Place} Place */

/** Hears the fingers on a board. */
export class Pinch {
  /**
   * Where each finger is, by its number.
   * @type {Map<number, Place>}
   */
  fingers = new Map();

  /** @param {import('./gestures.js').Gestures} gestures */
  constructor(gestures) {
    this.gestures = gestures;
    const { node } = gestures.board;
    node.addEventListener('pointerdown', (event) => this.down(event), { capture: true });
    node.addEventListener('pointermove', (event) => this.move(event), { capture: true });
    for (const what of /** @type {const} */ (['pointerup', 'pointercancel'])) {
      node.addEventListener(what, (event) => this.up(event), { capture: true });
    }
  }

  /**
   * A finger comes: with the second the board is held, unless the first drags something.
   * @param {PointerEvent} event
   */
  down(event) {
    const { pressed } = this.gestures;
    if (event.pointerType !== 'touch' || (pressed?.moved && pressed.thing !== null)) return;
    this.fingers.set(event.pointerId, this.gestures.at(event));
    if (this.fingers.size !== 2) return;
    this.gestures.cancel();
    event.stopImmediatePropagation();
  }

  /**
   * A finger moves: of two the board follows both.
   * @param {PointerEvent} event
   */
  move(event) {
    if (!this.fingers.has(event.pointerId)) return;
    const before = [...this.fingers.values()];
    this.fingers.set(event.pointerId, this.gestures.at(event));
    if (this.fingers.size !== 2) return;
    event.stopImmediatePropagation();
    const { board } = this.gestures;
    const now = [...this.fingers.values()];
    const [[x, y], [u, v]] = [middleOf(before), middleOf(now)];
    board.plane.pan(u - x, v - y);
    const was = apart(before[0], before[1]);
    if (was > 0) board.plane.zoom(apart(now[0], now[1]) / was, [u, v]);
    board.draw();
  }

  /**
   * A finger goes: what the other does then is nothing until it goes too.
   * @param {PointerEvent} event
   */
  up(event) {
    if (!this.fingers.delete(event.pointerId)) return;
    if (this.fingers.size) this.gestures.cancel();
  }
}
