// @ts-check
/** The labels of dimensions, as a hand moves them. */
import { rounded } from './tools.js';
import { Work } from './work.js';

/** @typedef {import('./page').Place} Place */

/**
 * The dimension whose label a hand holds, by its number in a text and by its words; and where the
 * label stood in millimetres.
 * @typedef {{ number: number, words: string, from: Place, text: string | undefined }} Grip
 */

/** Moves labels, and has the drawing keep where they stand. */
export class Labels extends Work {
  /** @type {Grip | null} */
  grip = null;

  /**
   * Takes hold of the label of a dimension; of none, where there is no number.
   * @param {number | null} number
   */
  take(number) {
    const { board, paper } = this;
    const from = number === null ? undefined : board.markPlace(number);
    this.grip = number === null || !from ? null : { number, words: this.wordsOf(number),
      from: board.plane.toPlane(from), text: paper.answer?.text };
  }

  /**
   * The words of the dimension that has a number; none where there is none.
   * @param {number} number
   */
  wordsOf(number) {
    const { drawing } = this.paper.answer ?? {};
    if (number > 0) return drawing?.constraints[number - 1]?.words ?? '';
    const mark = drawing?.marks.find((each) => each.number === number);
    return mark?.words?.join(' ') ?? '';
  }

  /**
   * The last text in which a dimension is known to have its number.
   * @param {Grip} grip
   */
  textOf({ number, words, text }) {
    return words && words === this.wordsOf(number) ? this.paper.answer?.text : text;
  }

  /**
   * The label that is held goes with the hand from one place in pixels to another, as long as its
   * dimension has its number.
   * @param {Place} at
   * @param {Place} from
   */
  hold(at, from) {
    const { board, grip, paper } = this;
    const isIt = grip && this.textOf(grip) === paper.answer?.text;
    const label = isIt && this.labelAt(grip, at, from);
    board.dragged = new Map(label ? [[grip.number, label]] : []);
    board.draw();
  }

  /**
   * How far a label stands from where its dimension is measured, in millimetres, once it was
   * dragged from one place in pixels to another; null of a sign.
   * @param {Grip} grip
   * @param {Place} at
   * @param {Place} from
   * @returns {Place | null}
   */
  labelAt({ number, from: [x, y] }, at, from) {
    const { board, board: { plane } } = this;
    const base = board.markOf(number)?.base;
    if (!base) return null;
    const [[a, b], [u, v]] = [plane.toPlane(at), plane.toPlane(from)];
    return [rounded(x + a - u - base[0], 1000), rounded(y + b - v - base[1], 1000)];
  }

  /** The hand lets go of a label. */
  letGo() {
    const { grip } = this;
    this.grip = null;
    return grip;
  }

  /**
   * A label that was let go is put where it was held; by the number of its dimension only in the
   * text in which that has it.
   * @param {Grip | null} grip
   * @param {Place} at
   * @param {Place} from
   */
  async put(grip, at, from) {
    const { board, paper } = this;
    const label = grip && this.labelAt(grip, at, from);
    if (label) {
      const [x, y] = label;
      await paper.edit({ do: 'label', number: grip.number, x, y }, this.textOf(grip));
    }
    board.dragged = new Map();
    board.draw();
  }

  /** The hand gives up: the label stands where it stood. */
  drop() {
    this.grip = null;
    this.board.dragged = new Map();
    this.board.draw();
  }
}
