// @ts-check
/**
 * The box that a hand draws to select: drawn to the right it takes what lies whole in it, drawn to
 * the left also what it touches.
 */
import { svg } from './nodes.js';

/** @typedef {import('./page').Place} Place */
/** @typedef {import('./protocol').Shape} Shape */
/** @typedef {{ left: number, right: number, high: number, low: number, touches: boolean }} Box */

/** The straight pieces that stand for a rim. */
const PIECES = 48;

/**
 * The box between two places in pixels, in the order in which the hand was there.
 * @param {Place} from
 * @param {Place} to
 * @returns {Box}
 */
export function boxOf([x, y], [u, v]) {
  return { left: Math.min(x, u), right: Math.max(x, u), high: Math.min(y, v), low: Math.max(y, v),
    touches: u < x };
}

/**
 * A box as it is drawn.
 * @param {Box} box
 */
export function boxMade({ left, right, high, low, touches }) {
  return svg('rect', { class: touches ? 'box touches' : 'box', x: left, y: high,
    width: right - left, height: low - high });
}

/**
 * The names of the shapes that a box takes.
 * @param {import('./board.js').Board} board
 * @param {Box} box
 */
export function taken({ answer: { drawing }, shown, plane }, box) {
  return drawing.shapes.filter((shape) => {
    const places = outline(shape, shown.viewOf(shape)).map((each) => plane.toScreen(each));
    if (places.every((each) => isIn(each, box))) return true;
    return box.touches && places.some((each, place) => isIn(each, box)
      || (place > 0 && crosses(places[place - 1], each, box)));
  }).map((shape) => shape.name);
}

/**
 * Places along a shape, in millimetres: of a rim so many that the straight ways between them stand
 * for it.
 * @param {Shape} shape
 * @param {import('./protocol').Places} view
 * @returns {Place[]}
 */
export function outline({ name, kind, radius: drawn = 0 }, { points, radii }) {
  const at = (/** @type {string} */ which) => points[`${name}.${which}`];
  if (kind === 'point') return [points[name]];
  if (kind === 'segment') return [at('start'), at('end')];
  const [x, y] = at('centre');
  const radius = radii[name] ?? drawn;
  const turnOf = (/** @type {Place} */ [u, v]) => Math.atan2(v - y, u - x);
  const first = kind === 'arc' ? turnOf(at('start')) : 0;
  const round = 2 * Math.PI;
  const sweep = kind === 'arc' ? (turnOf(at('end')) - first + 2 * round) % round : round;
  return Array.from({ length: PIECES + 1 }, (_, place) => {
    const turn = first + sweep * place / PIECES;
    return [x + radius * Math.cos(turn), y + radius * Math.sin(turn)];
  });
}

/**
 * Whether a place lies in a box.
 * @param {Place} place
 * @param {Box} box
 */
function isIn([x, y], { left, right, high, low }) {
  return x >= left && x <= right && y >= high && y <= low;
}

/**
 * Whether the straight way between two places outside of a box runs through it: what of the way is
 * left by each of its sides.
 * @param {Place} from
 * @param {Place} to
 * @param {Box} box
 */
function crosses([x, y], [u, v], { left, right, high, low }) {
  let [first, last] = [0, 1];
  for (const [way, room] of [[x - u, x - left], [u - x, right - x], [y - v, y - high],
    [v - y, low - y]]) {
    if (way === 0 && room < 0) return false;
    if (way < 0) first = Math.max(first, room / way);
    if (way > 0) last = Math.min(last, room / way);
  }
  return first <= last;
}
