// @ts-check
/**
 * What the keyboard does on the board: arrows move a cross at which Enter clicks, brackets go from
 * one thing to the next.
 */
import { byId } from './nodes.js';
import { rounded } from './tools.js';
import { NONE_HELD } from './gestures.js';
import { namesOf } from './selection.js';
import { Work } from './work.js';

/** @typedef {import('./page').Place} Place */

/** The hand of the keyboard. */
export class Cross extends Work {
  /** What was told last of a point that is selected. */
  told = '';

  /** @param {import('./gestures.js').Gestures} gestures */
  constructor(gestures) {
    super(gestures);
    this.gestures = gestures;
    this.selection.addEventListener('change', () => this.tellPoint());
  }

  /**
   * Pans by an eighth of the board, the way of an arrow.
   * @param {number} dx
   * @param {number} dy
   */
  pan(dx, dy) {
    const { width, height } = this.board.size();
    this.board.plane.pan(-dx * width / 8, dy * height / 8);
    this.board.draw();
  }

  /**
   * The cross moves by half steps of the grid, and the board goes with it.
   * @param {number} dx
   * @param {number} dy
   */
  step(dx, dy) {
    const { board, board: { plane } } = this;
    const { width, height } = board.size();
    const [u, v] = board.cross ?? this.onGrid([width / 2, height / 2]);
    const step = plane.step() / 2;
    board.cross = [rounded(u + dx * step, 1000), rounded(v + dy * step, 1000)];
    const [x, y] = plane.toScreen(board.cross);
    plane.pan(within(x, width) - x, within(y, height) - y);
    this.tell(`cross at ${board.cross.join(' ')} mm`);
    this.gestures.hover(plane.toScreen(board.cross), NONE_HELD);
    board.draw();
  }

  /**
   * A click at a place where the cross was, in its turn.
   * @param {Place} cross
   * @param {boolean} more
   */
  enter(cross, more) {
    const { board: { plane }, gestures } = this;
    gestures.sequence.do(() => {
      const pixels = plane.toScreen(cross);
      if (this.hand.draws) return gestures.drafting.act(pixels, NONE_HELD);
      return gestures.select(this.board.nearPoint(pixels)?.name, more);
    });
  }

  /**
   * What is selected is drawn half a step of the grid further, in its turn.
   * @param {number} dx
   * @param {number} dy
   */
  shift(dx, dy) {
    const step = this.board.plane.step() / 2;
    this.gestures.sequence.do(() => {
      const { points, shapes } = this.gestures.moving.movable();
      if (points.length + shapes.length === 0) return;
      this.paper.edit({ do: 'shift', points, shapes, dx: dx * step, dy: dy * step });
    });
  }

  /**
   * Selects the point or shape that comes next (1), or before (-1), in its turn.
   * @param {-1 | 1} step
   * @param {boolean} more
   */
  next(step, more) {
    this.gestures.sequence.do(() => this.selectNext(step, more));
  }

  /**
   * Selects the point or shape that comes next (1), or before (-1).
   * @param {-1 | 1} step
   * @param {boolean} more
   */
  selectNext(step, more) {
    const names = namesOf(this.board.answer.drawing.shapes);
    const last = [...this.selection.names].at(-1);
    const place = last ? names.indexOf(last) : Math.min(0, -step);
    const name = names.at((place + step) % names.length);
    if (name) this.selection.take(name, more);
    this.tell(`${[...this.selection.names].map((each) => this.named(each)).join(', ')} selected`);
  }

  /**
   * A name, of a point with its place.
   * @param {string} name
   */
  named(name) {
    const at = this.board.shown.at(name);
    return at ? `${name} at ${at.map((each) => rounded(each, 1000)).join(' ')} mm` : name;
  }

  /** Tells the place of a point that is selected alone, and no longer that of another. */
  tellPoint() {
    const [name, ...more] = this.selection.names;
    const isAlone = name && !more.length && !this.hand.draws && this.board.shown.at(name);
    if (isAlone) {
      this.told = `${this.named(name)} selected`;
      this.tell(this.told);
    } else if (this.isTold()) this.tell(this.hand.hint);
  }

  /** Tells the place of the point that was told anew: it may lie elsewhere. */
  tellAgain() {
    if (this.isTold()) this.tellPoint();
  }

  /** Whether nothing else was told since a point was. */
  isTold() {
    return this.told !== '' && byId('hint').textContent === this.told;
  }
}

/**
 * A place in pixels within a size, a little from its borders.
 * @param {number} place
 * @param {number} size
 */
function within(place, size) {
  return Math.min(Math.max(place, 24), size - 24);
}
