// @ts-check
/**
 * What lies under the hand, as it stands out: a point, a shape, a constraint with all that it
 * speaks of; and its name.
 */
import { svg } from './nodes.js';
import { pathOf } from './shapes.js';

/** @typedef {import('./gestures.js').Thing} Thing */
/** @typedef {import('./page').Place} Place */
/** @typedef {import('./protocol').Constraint} Constraint */

/** How far in pixels the name stands beside the hand. */
const ASIDE = 16;

/** Makes what stands out on a board. */
export class Pointing {
  /** @param {import('./board.js').Board} board */
  constructor(board) {
    this.board = board;
  }

  /**
   * What stands out of a thing under a hand at a place in pixels.
   * @param {Thing} thing
   * @param {Place} pixels
   */
  made(thing, pixels) {
    if (typeof thing === 'string') return [this.marked(thing), this.label(thing, pixels)];
    if (typeof thing !== 'number') return [];
    const constraint = this.constraint(thing);
    if (!constraint) return [this.label('a reference dimension, only measured', pixels)];
    const group = this.group(thing);
    const about = group.length ? `${constraint.called}: follows from ${
      group.map((each) => each.called).join(', ')}` : constraint.called;
    return [...namesIn(constraint).map((name) => this.marked(name)), this.label(about, pixels)];
  }

  /**
   * A constraint by its number.
   * @param {number} number
   * @returns {Constraint | undefined}
   */
  constraint(number) {
    return this.board.answer.drawing.constraints[number - 1];
  }

  /**
   * The constraints from which one follows that repeats or contradicts them.
   * @param {number} number
   */
  group(number) {
    const { drawing, judgement } = this.board.answer;
    const spare = judgement?.spare.find((each) => each.number === number);
    const names = new Set(spare?.follows_from);
    return drawing.constraints.filter(
      (each) => each.number !== number && names.has(each.called));
  }

  /**
   * A point or a shape, as it stands out.
   * @param {string} name
   */
  marked(name) {
    const { shown, plane, answer: { drawing } } = this.board;
    const at = shown.at(name);
    if (at) {
      const [cx, cy] = plane.toScreen(at);
      return svg('circle', { class: 'hovered', 'data-hovered': name, cx, cy, r: 7 });
    }
    const shape = drawing.shapes.find((each) => each.name === name);
    const d = shape && pathOf(shape, shown.viewOf(shape), plane);
    return d ? svg('path', { class: 'hovered', 'data-hovered': name, d }) : null;
  }

  /**
   * A name beside the hand, within the board.
   * @param {string} text
   * @param {Place} pixels
   */
  label(text, [x, y]) {
    const { width } = this.board.size();
    const isRight = x > width - 16 - 7 * text.length;
    return svg('text', { class: isRight ? 'pointed right' : 'pointed',
      x: isRight ? x - ASIDE : x + ASIDE, y: y + ASIDE + 6 }, text);
  }
}

/**
 * The names of points and shapes that a constraint speaks of.
 * @param {Constraint} constraint
 */
export function namesIn({ words }) {
  return words.split(' ').slice(1).filter((each) => /^[A-Za-z]/.test(each) && each !== 'about');
}
