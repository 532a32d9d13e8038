// @ts-check
/** Shapes and points as what SVG nodes are made of, by where their points lie. */

/** @typedef {import('./page').Keyed} Keyed */
/** @typedef {import('./page').Made} Made */
/** @typedef {import('./page').Place} Place */
/** @typedef {import('./protocol').Places} Places */
/** @typedef {import('./protocol').Shape} Shape */
/** @typedef {import('./view.js').View} View */

/** Radians by which an arc of half a circle may be more in pixels, which are rounded. */
const HALF_WITHIN = 1e-9;

/**
 * The path of a shape in pixels; null for a point.
 * @param {Shape} shape
 * @param {Places} view
 * @param {View} plane
 */
export function pathOf(shape, view, plane) {
  const at = placesOf(shape, view, plane);
  const radius = (view.radii[shape.name] ?? shape.radius ?? 0) * plane.scale;
  switch (shape.kind) {
    case 'segment': return line(at('start'), at('end'));
    case 'circle': return ring(at('centre'), radius);
    case 'arc': return bow(at('centre'), at('start'), at('end'), radius);
    default: return null;
  }
}

/**
 * Where the points of a shape lie in pixels, each by the last word of its name.
 * @param {Shape} shape
 * @param {Places} view
 * @param {View} plane
 */
function placesOf(shape, view, plane) {
  return (/** @type {string} */ which) => plane.toScreen(view.points[`${shape.name}.${which}`]);
}

/**
 * How far in pixels a place lies from the edge of a shape; a point has none.
 * @param {Shape} shape
 * @param {Places} view
 * @param {View} plane
 * @param {Place} place
 */
export function awayFrom(shape, view, plane, place) {
  const at = placesOf(shape, view, plane);
  if (shape.kind === 'segment') return awayFromLine(place, at('start'), at('end'));
  if (shape.kind === 'point') return Infinity;
  const centre = at('centre');
  const radius = (view.radii[shape.name] ?? shape.radius ?? 0) * plane.scale;
  const isBeside = shape.kind === 'circle'
    || swept(centre, at('start'), place) <= swept(centre, at('start'), at('end'));
  return isBeside ? Math.abs(apart(centre, place) - radius) : Infinity;
}

/**
 * How far a place lies from a line between two others.
 * @param {Place} place
 * @param {Place} start
 * @param {Place} end
 */
function awayFromLine([x, y], [a, b], [c, d]) {
  const [u, v] = [c - a, d - b];
  const share = Math.max(0, Math.min(1, ((x - a) * u + (y - b) * v) / (u * u + v * v || 1)));
  return Math.hypot(x - a - share * u, y - b - share * v);
}

/**
 * The turn about a centre from one place to another, counter-clockwise as seen, so against the turn
 * of pixels.
 * @param {Place} centre
 * @param {Place} start
 * @param {Place} end
 */
function swept(centre, start, end) {
  const turn = (/** @type {Place} */ [x, y]) => Math.atan2(centre[1] - y, x - centre[0]);
  return (turn(end) - turn(start) + 4 * Math.PI) % (2 * Math.PI);
}

/**
 * How far two places are apart.
 * @param {Place} one
 * @param {Place} other
 */
export function apart([x, y], [u, v]) {
  return Math.hypot(u - x, v - y);
}

/**
 * A place in pixels as it is written: to a hundredth, in half the time of all its digits.
 * @param {Place} place
 */
export function spot([x, y]) {
  return `${Math.round(x * 100) / 100} ${Math.round(y * 100) / 100}`;
}

/**
 * The transform by which what is drawn about 0 0 stands at a place. The browser doesn't lay out
 * anew a text that is shifted so, as it does one that has other coordinates.
 * @param {Place} place
 */
export function shifted(place) {
  return `translate(${spot(place)})`;
}

/**
 * A straight path.
 * @param {Place} start
 * @param {Place} end
 */
export function line([x, y], [u, v]) {
  return `M${x} ${y}L${u} ${v}`;
}

/**
 * A path round a circle.
 * @param {Place} centre
 * @param {number} r
 */
export function ring([x, y], r) {
  const half = `a${r} ${r} 0 1 0 `;
  return `M${x - r} ${y}${half}${2 * r} 0${half}${-2 * r} 0Z`;
}

/**
 * A path along an arc, counter-clockwise as seen.
 * @param {Place} centre
 * @param {Place} start
 * @param {Place} end
 * @param {number} [radius]
 */
export function bow(centre, start, end, radius) {
  const isLarge = swept(centre, start, end) > Math.PI + HALF_WITHIN;
  const r = radius || apart(centre, start);
  return `M${start[0]} ${start[1]}A${r} ${r} 0 ${isLarge ? 1 : 0} 0 ${end[0]} ${end[1]}`;
}

/**
 * A path round a slot with two centres, through a place on its side.
 * @param {Place} first
 * @param {Place} second
 * @param {Place} place
 */
export function slotPath([a, b], [c, d], [x, y]) {
  const length = Math.hypot(c - a, d - b) || 1;
  const [u, v] = [(d - b) / length, (a - c) / length];
  const r = Math.abs((x - a) * u + (y - b) * v);
  const [dx, dy] = [u * r, v * r];
  return `M${a + dx} ${b + dy}L${c + dx} ${d + dy}A${r} ${r} 0 0 1 ${c - dx} ${d - dy}`
    + `L${a - dx} ${b - dy}A${r} ${r} 0 0 1 ${a + dx} ${b + dy}Z`;
}

/**
 * The middle of some places.
 * @param {Place[]} places
 * @returns {Place}
 */
export function middleOf(places) {
  const sum = places.reduce(([x, y], [u, v]) => [x + u, y + v], [0, 0]);
  return [sum[0] / places.length, sum[1] / places.length];
}

/**
 * A shape: its stroke, and a wide one to be hit.
 * @param {Shape} shape
 * @param {string | null} path
 * @param {boolean} isSelected
 * @param {string} colour
 * @param {boolean} isFree
 * @returns {Keyed}
 */
export function shapeMade(shape, path, isSelected, colour, isFree) {
  const stroke = isSelected ? null : colour;
  const kind = `${kindOf(shape)} ${isFree ? 'free' : ''} ${isSelected ? 'selected' : ''}`;
  /** @type {Made[]} */
  const paths = [['path', { class: kind, d: path, stroke }], ['path', { class: 'hit', d: path }]];
  return [shape.name, 'g', { 'data-name': shape.name }, ...(path ? paths : [])];
}

/**
 * A point: a small circle, and a larger one to be hit.
 * @param {string} name
 * @param {Place} place
 * @param {boolean} isSelected
 * @param {string} colour
 * @returns {Keyed}
 */
export function pointMade(name, place, isSelected, colour) {
  const r = name === 'Origin' ? 4.5 : name.endsWith('.centre') ? 2.2 : 3.2;
  const kind = `dot ${isSelected ? 'selected' : ''}`;
  return [name, 'g', { 'data-name': name, 'data-point': name, transform: shifted(place) },
    ['circle', { class: kind, r, stroke: isSelected ? null : colour }],
    ['circle', { class: 'dothit', r: 8 }]];
}

/**
 * The directions along which a point still moves, as small arrows to both sides of its place.
 * @param {string} key
 * @param {Place} place
 * @param {Place} way
 * @returns {Keyed}
 */
export function moveMade(key, [x, y], [dx, dy]) {
  const d = [1, -1].map((side) => {
    const [u, v] = [side * dx, -side * dy];
    return `M${x + 7 * u} ${y + 7 * v}l${15 * u} ${15 * v}`
      + `m${-5 * u - 3 * v} ${-5 * v + 3 * u}l${5 * u + 3 * v} ${5 * v - 3 * u}`
      + `l${-5 * u + 3 * v} ${-5 * v - 3 * u}`;
  });
  return [key, 'path', { class: 'move', d: d.join('') }];
}

/**
 * Shapes that are only looked at, and their points: all of a kind as one path.
 * @param {Shape[]} shapes
 * @param {Places} view
 * @param {View} plane
 * @returns {Keyed[]}
 */
export function stillMade(shapes, view, plane) {
  /** @type {Record<string, string>} */
  const paths = {};
  const add = (/** @type {string} */ kind, /** @type {string | null} */ path) => {
    if (path) paths[kind] = (paths[kind] ?? '') + path;
  };
  for (const shape of shapes) add(kindOf(shape), pathOf(shape, view, plane));
  for (const name of shapes.flatMap((shape) => Object.keys(shape.points))) {
    add('dot', ring(plane.toScreen(view.points[name]), 2.2));
  }
  return Object.entries(paths).map(([kind, d]) => [kind, 'path', { class: kind, d }]);
}

/**
 * The classes of a shape.
 * @param {Shape} shape
 */
export function kindOf(shape) {
  return `shape ${shape.construction ? 'construction' : ''} ${shape.outer ? 'outer' : ''}`;
}
