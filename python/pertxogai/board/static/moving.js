// @ts-check
/** What a drag makes of the drawing: a point goes elsewhere, a rim grows, shapes are shifted. */
import { rounded } from './tools.js';
import { apart } from './shapes.js';
import { DATUM } from './selection.js';
import { Work } from './work.js';

/** @typedef {import('./page').Place} Place */
/** @typedef {import('./protocol').Edit} Edit */
/** @typedef {import('./guesses.js').Aim} Aim */
/** @typedef {import('./gestures.js').Held} Held */

/** Makes edits of drags. */
export class Moving extends Work {
  /**
   * @param {import('./work.js').Means} means
   * @param {import('./guesses.js').Guesses} guesses
   */
  constructor(means, guesses) {
    super(means);
    this.guesses = guesses;
  }

  /**
   * Where something is dropped at a place in pixels: a point of what is open on another, in the
   * middle of a segment or on an edge; all else on the grid.
   * @param {string} name
   * @param {Place} pixels
   * @param {Held} held
   * @returns {Aim}
   */
  drop(name, pixels, { ctrlKey }) {
    const { board, guesses, paper: { answer } } = this;
    const isPoint = board.shown.at(name) && !DATUM.includes(name) && !this.isGroup(name);
    if (ctrlKey || !isPoint || answer?.judgement?.placed) return guesses.plain(pixels);
    const aim = guesses.aim(pixels, this.moving(name));
    if (!('point' in aim.spot)) return aim;
    return { ...aim, guesses: [{ words: ['coincident', '@', aim.spot.point], at: [aim.at] }] };
  }

  /**
   * What moves with a point: all points in its place as the drawing stands, and their shapes.
   * @param {string} name
   */
  moving(name) {
    const shapes = this.paper.answer?.drawing?.shapes ?? [];
    const points = shapes.flatMap((shape) => Object.entries(shape.points).map(
      ([point, at]) => ({ shape: shape.name, point, at })));
    const mine = points.find(({ point }) => point === name)?.at;
    const moving = points.filter(({ at }) => mine && apart(at, mine) < 1e-6);
    return new Set(moving.flatMap(({ shape, point }) => [shape, point]));
  }

  /**
   * The edit of a drag from a place in pixels to one in millimetres: a point goes there, a rim
   * grows, a shape is shifted; null where there is none.
   * @param {string} name
   * @param {Place} from
   * @param {Place} to
   * @returns {Edit | null}
   */
  dragged(name, from, [x, y]) {
    if (DATUM.includes(name)) return null;
    if (this.isGroup(name)) return this.shifted(from, [x, y]);
    const { shown, answer: { drawing } } = this.board;
    if (shown.at(name)) return { do: 'move', points: [{ of: name, x, y }] };
    const centre = shown.at(`${name}.centre`);
    if (centre && drawing.shapes.find((each) => each.name === name)?.kind === 'circle') {
      const radius = rounded(apart(centre, [x, y]), 100);
      return radius > 0 ? { do: 'move', radii: [{ of: name, radius }] } : null;
    }
    const [u, v] = this.onGrid(from);
    return { do: 'shift', shapes: [name], dx: rounded(x - u, 1000), dy: rounded(y - v, 1000) };
  }

  /**
   * Whether a thing is one of several that are selected: then all of them move with it.
   * @param {string} name
   */
  isGroup(name) {
    const { names } = this.selection;
    return names.size > 1 && names.has(name);
  }

  /**
   * The edit by which all that is selected is shifted, from a place in pixels to one in
   * millimetres.
   * @param {Place} from
   * @param {Place} to
   * @returns {Edit}
   */
  shifted(from, [x, y]) {
    const [u, v] = this.onGrid(from);
    const way = { dx: rounded(x - u, 1000), dy: rounded(y - v, 1000) };
    return { do: 'shift', ...this.movable(), ...way };
  }

  /** The points and shapes that are selected, without the datum. */
  movable() {
    const names = [...this.selection.names].filter((name) => !DATUM.includes(name));
    return { points: names.filter((name) => this.board.shown.at(name)),
      shapes: names.filter((name) => !this.board.shown.at(name)) };
  }
}
