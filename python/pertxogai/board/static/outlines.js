// @ts-check
/** What a click would draw, as paths in pixels: figures, and copies of what is selected. */
import { apart, bow, line, pathOf, ring, slotPath } from './shapes.js';
import { arcThrough } from './tools.js';

/** @typedef {import('./page').Place} Place */
/** @typedef {import('./protocol').Places} Places */
/** @typedef {import('./protocol').Shape} Shape */
/** @typedef {import('./view.js').View} View */
/**
 * Where a place in millimetres goes, and whether what goes there is mirrored.
 * @typedef {{ at: (place: Place) => Place, mirrors: boolean }} Carried
 */

/** The sine of the least angle at which an arc goes on aside, as on the server: half a degree. */
const STRAIGHT = Math.sin(Math.PI / 360);

/**
 * The path of the figure of a tool through places in pixels. way: the direction in which a tangent
 * arc begins.
 * @param {import('./tools.js').Hand} hand
 * @param {Place[]} places
 * @param {Place | null} way
 */
export function figurePath({ tool, sides }, places, way) {
  const [first, second, third] = places;
  if (!second) return '';
  switch (tool) {
    case 'circle': return ring(first, apart(first, second));
    case 'rectangle': return box(first, second);
    case 'centre-rectangle': return box(opposite(first, second), second);
    case 'polygon': return polygonPath(first, second, sides);
    case 'tangent-arc': return tangentPath(first, second, way);
    case 'slot': return third ? slotPath(first, second, third) : line(first, second);
    default: return arcPath(first, second, third);
  }
}

/**
 * A path through the ends of an arc and a place on it; straight where there is none.
 * @param {Place} first
 * @param {Place} second
 * @param {Place | undefined} third
 */
function arcPath(first, second, third) {
  const arc = third && arcThrough(first, second, third);
  if (!arc) return line(first, second);
  return arc.swapped ? bow(arc.centre, first, second) : bow(arc.centre, second, first);
}

/**
 * A path round a box with two opposite corners.
 * @param {Place} first
 * @param {Place} second
 */
function box([x, y], [u, v]) {
  return `M${x} ${y}H${u}V${v}H${x}Z`;
}

/**
 * The place over against another.
 * @param {Place} centre
 * @param {Place} place
 * @returns {Place}
 */
function opposite([x, y], [u, v]) {
  return [2 * x - u, 2 * y - v];
}

/**
 * A path round a regular polygon, with the circle through its corners.
 * @param {Place} centre
 * @param {Place} corner
 * @param {number} sides
 */
function polygonPath(centre, corner, sides) {
  const corners = Array.from({ length: sides }, (_, place) => turned(
    centre, corner, 2 * Math.PI * place / sides));
  return `M${corners.join('L')}Z${ring(centre, apart(centre, corner))}`;
}

/**
 * A place, turned about a centre.
 * @param {Place} centre
 * @param {Place} place
 * @param {number} angle
 * @returns {Place}
 */
export function turned([x, y], [u, v], angle) {
  const [cos, sin] = [Math.cos(angle), Math.sin(angle)];
  return [x + (u - x) * cos - (v - y) * sin, y + (u - x) * sin + (v - y) * cos];
}

/**
 * A path along the arc that begins a way, to a place; straight where there is no way, or the place
 * lies straight ahead.
 * @param {Place} first
 * @param {Place} second
 * @param {Place | null} way
 */
function tangentPath(first, second, way) {
  const centre = way && tangentCentre(first, second, way);
  if (!centre) return line(first, second);
  const isLeft = across(way, [second[0] - first[0], second[1] - first[1]]) < 0;
  return isLeft ? bow(centre, first, second) : bow(centre, second, first);
}

/**
 * The centre of the arc that begins a way, to a place; null where it lies straight ahead.
 * @param {Place} first
 * @param {Place} second
 * @param {Place} way
 * @returns {Place | null}
 */
export function tangentCentre([x, y], [u, v], way) {
  const to = /** @type {Place} */ ([u - x, v - y]);
  const aside = across(way, to);
  if (Math.abs(aside) <= STRAIGHT * Math.hypot(...to)) return null;
  const share = (to[0] ** 2 + to[1] ** 2) / (2 * aside);
  return [x - way[1] * share, y + way[0] * share];
}

/**
 * The cross product of two ways.
 * @param {Place} one
 * @param {Place} other
 */
function across([x, y], [u, v]) {
  return x * v - y * u;
}

/**
 * The path of a shape that is carried elsewhere.
 * @param {Shape} shape
 * @param {Places} view
 * @param {Carried} carried
 * @param {View} plane
 */
export function carriedPath(shape, view, { at, mirrors }, plane) {
  const swaps = mirrors && shape.kind === 'arc';
  /** @type {Record<string, string>} */
  const other = swaps ? { start: 'end', end: 'start' } : {};
  const points = Object.fromEntries(Object.keys(shape.points).map((name) => {
    const which = name.slice(shape.name.length + 1);
    const from = other[which] ? `${shape.name}.${other[which]}` : name;
    return [name, at(view.points[from])];
  }));
  const path = pathOf(shape, { ...view, points }, plane);
  return path ?? ring(plane.toScreen(points[shape.name]), 3);
}

/**
 * A place, mirrored in the line through two others.
 * @param {Place} start
 * @param {Place} end
 * @returns {Carried}
 */
export function mirroredIn([a, b], [c, d]) {
  const [u, v] = [c - a, d - b];
  return {
    mirrors: true,
    at: ([x, y]) => {
      const share = 2 * ((x - a) * u + (y - b) * v) / (u * u + v * v || 1);
      return [2 * a - x + u * share, 2 * b - y + v * share];
    },
  };
}

/**
 * A place a way further.
 * @param {Place} way
 * @returns {Carried}
 */
export function shiftedBy([dx, dy]) {
  return { mirrors: false, at: ([x, y]) => [x + dx, y + dy] };
}

/**
 * A place, turned about a centre.
 * @param {Place} centre
 * @param {number} angle
 * @returns {Carried}
 */
export function turnedAbout(centre, angle) {
  return { mirrors: false, at: (place) => turned(centre, place, angle) };
}
