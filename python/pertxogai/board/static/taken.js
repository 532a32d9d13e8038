// @ts-check
/** The room on the board that dimensions take: their texts, and their bars. */

/** @typedef {import('./page').Place} Place */
/**
 * A box: left, right, low, high.
 * @typedef {[number, number, number, number]} Box
 */

/** The height of a line of text in pixels. */
const ROW = 15;
/** Pixels within which two bars that run one way lie over each other. */
const ASIDE = 9;
/** What stands is found again by cells of so many pixels. */
const CELL = 60;
/** So many numbers of cells lie between those of one row in two columns. */
const COLUMN = 2 ** 16;
/** A box over more cells than these is kept aside, and compared with all. */
const MOST_CELLS = 100;

export class Taken {
  /**
   * The texts that stand, by the cells in which they do: each its place, and half its width.
   * @type {Map<number, [number, number, number][]>}
   */
  texts = new Map();
  /**
   * The bars that stand, by the cells in which their boxes lie.
   * @type {Map<number, [Place, Place][]>}
   */
  cells = new Map();
  /**
   * Bars that lie in more cells.
   * @type {[Place, Place][]}
   */
  long = [];
  /**
   * All bars, by their ends.
   * @type {[Place, Place][]}
   */
  bars = [];

  /**
   * A text stands at a place from now on.
   * @param {Place} place
   * @param {string} text
   */
  addText(place, text) {
    const half = halfWidth(text);
    for (const cell of rowsOf(place, half, 0)) put(this.texts, cell, [...place, half]);
  }

  /**
   * Whether no text stands where another would.
   * @param {Place} place
   * @param {string} text
   */
  isFree(place, text) {
    const half = halfWidth(text);
    const [x, y] = place;
    for (const cell of rowsOf(place, half, 1)) {
      for (const [u, v, other] of this.texts.get(cell) ?? []) {
        if (Math.abs(u - x) <= half + other && Math.abs(v - y) <= ROW) return false;
      }
    }
    return true;
  }

  /**
   * A bar stands between two places from now on.
   * @param {[Place, Place]} bar
   */
  addBar(bar) {
    this.bars.push(bar);
    const cells = cellsOf(boxOf(bar, 0));
    if (cells) for (const cell of cells) put(this.cells, cell, bar);
    else this.long.push(bar);
  }

  /**
   * Whether a bar between two places, that runs a way, lies over no other.
   * @param {[Place, Place]} bar
   * @param {Place} way
   * @param {number} length
   */
  isAlone(bar, way, length) {
    const within = boxOf(bar, ASIDE);
    const isApart = (/** @type {[Place, Place]} */ other) => isBeside(other, within)
      || isAcross(other, bar[0], way, length);
    const cells = cellsOf(within);
    if (!cells) return this.bars.every(isApart);
    return this.long.every(isApart)
      && cells.every((cell) => this.cells.get(cell)?.every(isApart) ?? true);
  }
}

/**
 * Half the width of a text in pixels, nearly.
 * @param {string} text
 */
export function halfWidth(text) {
  return 4 + 3.6 * text.length;
}

/**
 * Puts a thing into a cell.
 * @template T
 * @param {Map<number, T[]>} cells
 * @param {number} cell
 * @param {T} thing
 */
function put(cells, cell, thing) {
  const there = cells.get(cell);
  if (there) there.push(thing);
  else cells.set(cell, [thing]);
}

/**
 * The cells of a text at a place, and of so many rows above and below it.
 * @param {Place} place
 * @param {number} half
 * @param {number} around
 */
function rowsOf([x, y], half, around) {
  const row = Math.floor(y / ROW);
  return cellsFrom(Math.floor((x - half) / CELL), Math.floor((x + half) / CELL), row - around,
    row + around);
}

/**
 * The cells that a box lies in; null where these are too many.
 * @param {Box} box
 */
function cellsOf(box) {
  const [left, right, low, high] = box.map((each) => Math.floor(each / CELL));
  const count = (right - left + 1) * (high - low + 1);
  return count > MOST_CELLS ? null : cellsFrom(left, right, low, high);
}

/**
 * The numbers of the cells from one column and row to another; far away, two may share one.
 * @param {number} left
 * @param {number} right
 * @param {number} low
 * @param {number} high
 */
function cellsFrom(left, right, low, high) {
  const cells = [];
  for (let column = left; column <= right; column += 1) {
    for (let row = low; row <= high; row += 1) cells.push(column * COLUMN + row);
  }
  return cells;
}

/**
 * The box of a bar, with so much around.
 * @param {[Place, Place]} bar
 * @param {number} around
 * @returns {Box}
 */
function boxOf([[x, y], [u, v]], around) {
  return [Math.min(x, u) - around, Math.max(x, u) + around,
    Math.min(y, v) - around, Math.max(y, v) + around];
}

/**
 * Whether a bar lies beside a box.
 * @param {[Place, Place]} bar
 * @param {Box} box
 */
function isBeside([p, q], [left, right, low, high]) {
  return Math.max(p[0], q[0]) < left || Math.min(p[0], q[0]) > right
    || Math.max(p[1], q[1]) < low || Math.min(p[1], q[1]) > high;
}

/**
 * Whether a bar runs past one that begins at a place and runs a way, or crosses it.
 * @param {[Place, Place]} bar
 * @param {Place} a
 * @param {Place} way
 * @param {number} length
 */
function isAcross([[x, y], [u, v]], [a, b], [dx, dy], length) {
  const [along, far] = [(x - a) * dx + (y - b) * dy, (u - a) * dx + (v - b) * dy];
  const [aside, other] = [(y - b) * dx - (x - a) * dy, (v - b) * dx - (u - a) * dy];
  const isApart = Math.min(Math.abs(aside), Math.abs(other)) > ASIDE || aside * other < 0;
  return isApart || Math.max(along, far) < 1 || Math.min(along, far) > length - 1;
}
