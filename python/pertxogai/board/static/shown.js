// @ts-check
/**
 * Where all of an answer is shown: as placed, else as a shape was found by numbers, else as a part
 * is laid on the drawing, else as drawn.
 */
import { colourOf } from './nodes.js';

/** @typedef {import('./page').Place} Place */
/** @typedef {import('./protocol').Places} Places */
/** @typedef {import('./protocol').Shape} Shape */

export class Shown {
  /** @param {import('./page').Read} answer */
  constructor({ drawing, judgement }) {
    const { placed, found, laid: parts } = judgement ?? {};
    const whole = placed ?? found?.places;
    this.views = whole ? [whole] : parts ?? [];
    /** What of a shape that was found is free; null where none was. */
    this.free = found ? new Set(found.free) : null;
    this.parts = new Map(Object.entries(judgement?.colours ?? {}));
    this.drawn = drawnOf(drawing.shapes);
    const laid = this.views.map((view) => view.points).reverse();
    /** @type {Record<string, Place>} */
    const points = Object.assign({ Origin: [0, 0] }, this.drawn.points, ...laid);
    /** @type {Places} */
    this.between = { part: null, points, radii: {} };
  }

  /**
   * The place of a point in millimetres; undefined of what is none.
   * @param {string} name
   * @returns {Place | undefined}
   */
  at(name) {
    return Object.hasOwn(this.between.points, name) ? this.between.points[name] : undefined;
  }

  /**
   * The view in which a shape is shown: that of its own part, else the first that has all its
   * points, else one between them.
   * @param {Shape} shape
   */
  viewOf({ name, points }) {
    const names = Object.keys(points);
    const mine = this.views.filter((view) => names.every((each) => view.points[each]));
    const own = this.parts.get(name);
    return mine.find((view) => view.part === null || view.part === own) ?? mine[0] ?? this.between;
  }

  /**
   * Whether a point or a shape is free, as far as that was found.
   * @param {string} name
   */
  isFree(name) {
    return Boolean(this.free?.has(name));
  }

  /**
   * The colour of a shape: whether it is free, where that was found; by its part, where not, and on
   * wish.
   * @param {Shape} shape
   * @param {boolean} byPieces
   */
  colourOf(shape, byPieces) {
    if (this.free && !byPieces) return freeColour(this.isFree(shape.name));
    return colourOf(this.parts.get(shape.name) ?? this.viewOf(shape).part);
  }

  /**
   * The colour of a point alike, by the one part that has it.
   * @param {string} name
   * @param {boolean} byPieces
   */
  partColourOf(name, byPieces) {
    if (this.free && !byPieces) return freeColour(this.isFree(name));
    return colourOf(this.parts.get(name));
  }
}

/**
 * The colour of what is free, or of what is fixed.
 * @param {boolean} isFree
 */
function freeColour(isFree) {
  return isFree ? 'var(--free)' : 'var(--edge)';
}

/**
 * The view in which shapes are shown where they are drawn.
 * @param {Shape[]} shapes
 * @returns {Places}
 */
function drawnOf(shapes) {
  const rims = shapes.filter((shape) => shape.radius !== undefined);
  return {
    part: null,
    points: Object.assign({}, ...shapes.map((shape) => shape.points)),
    radii: Object.fromEntries(rims.map((shape) => [shape.name, shape.radius ?? 0])),
  };
}
