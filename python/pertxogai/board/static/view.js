// @ts-check
/** What of the plane the board shows: millimetres, x to the right and y up, to pixels. */

/** @typedef {import('./page').Place} Place */

const LEAST = 0.00001;
const MOST = 2000;
/**
 * The room around all that is shown, for the dimensions, in pixels; of a small board this share.
 */
const ROOM = 84;
const SHARE = 0.18;

/** A scale in pixels a millimetre, and where the origin lies in pixels. */
export class View {
  scale = 4;
  x = 200;
  y = 400;

  /**
   * A place in pixels.
   * @param {Place} place
   * @returns {Place}
   */
  toScreen([x, y]) {
    return [this.x + x * this.scale, this.y - y * this.scale];
  }

  /**
   * A place in millimetres.
   * @param {Place} place
   * @returns {Place}
   */
  toPlane([x, y]) {
    return [(x - this.x) / this.scale, (this.y - y) / this.scale];
  }

  /**
   * Zooms by a factor about a place in pixels.
   * @param {number} factor
   * @param {Place} place
   */
  zoom(factor, [x, y]) {
    const [u, v] = this.toPlane([x, y]);
    this.scale = Math.min(MOST, Math.max(LEAST, this.scale * factor));
    this.x = x - u * this.scale;
    this.y = y + v * this.scale;
  }

  /**
   * Shifts by pixels.
   * @param {number} dx
   * @param {number} dy
   */
  pan(dx, dy) {
    this.x += dx;
    this.y += dy;
  }

  /**
   * Shows all of some places in a box of pixels.
   * @param {Place[]} places
   * @param {{ width: number, height: number }} box
   */
  fit(places, { width, height }) {
    const corners = places.length ? places : [[-10, -10], [110, 70]];
    const [[left, right], [low, high]] = [0, 1].map((axis) => {
      const all = corners.map((place) => place[axis]);
      return [Math.min(...all), Math.max(...all)];
    });
    const room = Math.min(ROOM, SHARE * width, SHARE * height);
    const fitting = Math.min((width - 2 * room) / Math.max(right - left, 1e-3),
      (height - 2 * room) / Math.max(high - low, 1e-3));
    this.scale = Math.min(40, Math.max(LEAST, fitting));
    this.x = width / 2 - (left + right) / 2 * this.scale;
    this.y = height / 2 + (low + high) / 2 * this.scale;
  }

  /** The step of the grid in millimetres: 1, 2 or 5 times a power of ten, at least 12 pixels. */
  step() {
    const least = 12 / this.scale;
    const power = 10 ** Math.floor(Math.log10(least));
    return [1, 2, 5].map((each) => each * power).find((each) => each >= least * 0.999)
      ?? 10 * power;
  }

  /**
   * A place in millimetres rounded to the half step of the grid, and to a micrometre.
   * @param {Place} place
   * @returns {Place}
   */
  rounded([x, y]) {
    const step = this.step() / 2;
    const near = (/** @type {number} */ each) => Math.round(Math.round(each / step) * step * 1000)
      / 1000;
    return [near(x), near(y)];
  }
}
