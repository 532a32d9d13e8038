// @ts-check
/** The tools: what a few clicks on the board draw. */
import { apart } from './shapes.js';

/** @typedef {import('./page').Place} Place */
/** @typedef {import('./protocol').DrawEdit} DrawEdit */
/** @typedef {import('./protocol').FreeSpot} FreeSpot */
/** @typedef {import('./protocol').PointSpot} PointSpot */
/** @typedef {DrawEdit['spots'][number]} Spot */
/** @typedef {'trim' | 'extend'} Cut */
/** @typedef {'mirror' | 'row' | 'ring' | 'offset' | 'paste'} Copy */
/** @typedef {DrawEdit['figure']} Figure */
/** @typedef {Figure | 'select' | Cut | Copy} Tool */
/**
 * What was clicked: a spot and its place in millimetres, and what is nearly so there.
 * @typedef {{ spot: Spot, at: Place, guesses: import('./guesses.js').Guess[] }} Click
 */

/**
 * What to do at each click of a tool.
 * @type {Record<Tool, string[]>}
 */
const HINTS = {
  select: ['Click selects, Shift adds, dragging moves. Drag on the empty board for a box; the '
    + 'right button pans, the wheel zooms.'],
  point: ['Point: click its position.'],
  segment: ['Segment: click its start. An existing point is shared.',
    'Click its end; Shift keeps it horizontal or vertical, Ctrl leaves out guesses. Escape ends '
    + 'the chain.'],
  rectangle: ['Rectangle: click a corner.', 'Click the opposite corner.'],
  'centre-rectangle': ['Rectangle: click its centre.', 'Click a corner.'],
  polygon: ['Polygon: click its centre; the bar above says how many sides it has.',
    'Click a corner.'],
  circle: ['Circle: click its centre.', 'Click a place on it.'],
  arc: ['Arc: click one end.', 'Click the other end.', 'Click a place on it.'],
  'tangent-arc': ['Tangent arc: click the end of a segment or an arc that it goes on from.',
    'Click its other end.'],
  slot: ['Slot: click the centre of one end.', 'Click the centre of the other end.',
    'Click a place on its side.'],
  trim: ['Trim: click the piece of an edge to remove, between what crosses it.'],
  extend: ['Extend: click a segment near the end to extend to the next edge.'],
  mirror: ['Mirror: click the segment or the axis to mirror about.'],
  row: ['Row: click where the first copy goes; the bar above says how many there are in all. Ctrl '
    + 'leaves out horizontal and vertical.'],
  ring: ['Ring: click the centre; the bar above says how many there are in all.'],
  offset: ['Offset: click on the side where the offset outline goes.'],
  paste: ['Paste: click where it goes.'],
};
/** @type {Cut[]} */
const CUTS = ['trim', 'extend'];
/** @type {Copy[]} */
const COPIES = ['mirror', 'row', 'ring', 'offset', 'paste'];

/** The ends of a segment or an arc, `*`. */
const ENDS = ['*.start', '*.end'];

/**
 * Whether a word is that of a tool.
 * @param {string | undefined} word
 * @returns {word is Tool}
 */
export function isTool(word) {
  return word !== undefined && word in HINTS;
}

/** The tool that is held, and its clicks so far. */
export class Hand {
  /** @type {Tool} */
  tool = 'select';
  /** @type {Click[]} */
  clicks = [];
  construction = false;
  /** How many sides a polygon has. */
  sides = 6;
  /** How many there are in a row or a ring, in all. */
  count = 4;

  /**
   * Takes another tool.
   * @param {Tool} tool
   */
  take(tool) {
    this.tool = tool;
    this.clicks = [];
  }

  /** Whether it draws. */
  get draws() {
    return this.tool !== 'select';
  }

  /**
   * The edit that it makes of an edge that is clicked, where it does.
   * @returns {Cut | null}
   */
  get cut() {
    return CUTS.find((each) => each === this.tool) ?? null;
  }

  /**
   * The edit that it makes of the shapes that are selected, where it does.
   * @returns {Copy | null}
   */
  get copy() {
    return COPIES.find((each) => each === this.tool) ?? null;
  }

  /**
   * The figure that it draws, where it does.
   * @returns {Figure | null}
   */
  get figure() {
    const { tool, cut, copy } = this;
    return cut || copy || tool === 'select' ? null : /** @type {Figure} */ (tool);
  }

  /** What to do next. */
  get hint() {
    return HINTS[this.tool][this.clicks.length];
  }

  /**
   * Takes a click; gives the edit that is drawn by it, or null where more are needed, or they make
   * no figure.
   * @param {Click} click
   */
  click({ spot, at, guesses }) {
    const clicks = [...this.clicks, { spot, at, guesses }];
    const isDone = clicks.length === HINTS[this.tool].length;
    this.clicks = isDone ? [] : clicks;
    return isDone ? this.edit(clicks) : null;
  }

  /**
   * The edit by which a figure is drawn through clicks; null where they make none.
   * @param {Click[]} clicks
   * @returns {DrawEdit | null}
   */
  edit(clicks) {
    const { figure, construction, sides } = this;
    if (!figure) return null;
    const [first, second] = clicks;
    const spots = clicks.map((each) => each.spot);
    /** @type {DrawEdit} */
    const made = { do: 'draw', figure, construction, spots, asks: asksOf(figure, clicks) };
    const away = second ? apart(first.at, second.at) : 1;
    if (away === 0) return null;
    switch (figure) {
      case 'circle':
        return { ...made, spots: [first.spot], radius: Math.max(rounded(away, 100), 0.01) };
      case 'slot': return slotEdit(made, clicks);
      case 'arc': return arcEdit(made, clicks);
      case 'polygon': return { ...made, sides };
      default: return made;
    }
  }
}

/**
 * The edit of an arc through clicks on its ends and on it; null where they lie on one line.
 * @param {DrawEdit} made
 * @param {Click[]} clicks
 * @returns {DrawEdit | null}
 */
function arcEdit(made, [first, second, third]) {
  const arc = arcThrough(first.at, second.at, third.at);
  if (!arc) return null;
  const centre = { x: rounded(arc.centre[0], 1000), y: rounded(arc.centre[1], 1000) };
  const [start, end] = arc.swapped ? [second, first] : [first, second];
  const asks = named([first, second, third], arc.swapped ? ['*.end', '*.start'] : ENDS);
  return { ...made, spots: [centre, start.spot, end.spot], asks };
}

/**
 * The edit of a slot through clicks on its centres and on its side; null where it has no width.
 * @param {DrawEdit} made
 * @param {Click[]} clicks
 * @returns {DrawEdit | null}
 */
function slotEdit(made, [first, second, third]) {
  const radius = rounded(asideOf(first.at, second.at, third.at), 100);
  return radius > 0 ? { ...made, spots: [first.spot, second.spot], radius } : null;
}

/**
 * How far a place lies beside the line through two others.
 * @param {Place} start
 * @param {Place} end
 * @param {Place} place
 */
function asideOf([a, b], [c, d], [x, y]) {
  return Math.abs((c - a) * (y - b) - (d - b) * (x - a)) / Math.hypot(c - a, d - b);
}

/**
 * What is asked for with a figure that is drawn through clicks.
 * @param {Figure} figure
 * @param {Click[]} clicks
 */
function asksOf(figure, clicks) {
  switch (figure) {
    case 'segment': return named(clicks, ENDS);
    case 'circle': return named(clicks, ['*.centre']);
    case 'slot': return named(clicks, ['*Start.centre', '*End.centre']);
    case 'polygon': return named(clicks, ['*.centre', '*Side1.start']);
    case 'rectangle': return named(clicks, cornersOf(clicks[0].at, clicks[1].at));
    case 'centre-rectangle': return named(
      clicks, ['*Centre', cornersOf(clicks[0].at, clicks[1].at)[1]]);
    case 'tangent-arc': return named(clicks, ['*', '*']);
    default: return named(clicks, ['*']);
  }
}

/**
 * The names of two opposite corners of a rectangle, each as its sides are named.
 * @param {Place} first
 * @param {Place} second
 */
function cornersOf([x, y], [u, v]) {
  const rises = (u > x) === (v > y);
  const [west, east] = rises ? ['*Bottom.start', '*Right.end'] : ['*Top.end', '*Bottom.end'];
  return u > x ? [west, east] : [east, west];
}

/**
 * The words of what is guessed of clicks, each with the name of the point that is clicked. Of what
 * touches a rim it isn't asked besides that it ends there.
 * @param {Click[]} clicks
 * @param {string[]} names
 */
function named(clicks, names) {
  const asks = clicks.flatMap(({ guesses }, place) => guesses.map(
    ({ words }) => words.map((word) => (word === '@' ? names[place] : word))));
  const touched = asks.filter(([word]) => word === 'tangent').map((words) => words[2]);
  return asks.filter((words) => words[0] !== 'on' || !touched.includes(words[2]));
}

/**
 * The circle through three places: its centre, and whether it runs from the second to the first;
 * null where they lie on a line.
 * @param {Place} first
 * @param {Place} second
 * @param {Place} third
 * @returns {{ centre: Place, swapped: boolean } | null}
 */
export function arcThrough([ax, ay], [bx, by], [cx, cy]) {
  const cross = (bx - ax) * (cy - ay) - (by - ay) * (cx - ax);
  if (Math.abs(cross) < 1e-9) return null;
  const [a, b, c] = [ax * ax + ay * ay, bx * bx + by * by, cx * cx + cy * cy];
  const x = (a * (by - cy) + b * (cy - ay) + c * (ay - by)) / (2 * cross);
  const y = (a * (cx - bx) + b * (ax - cx) + c * (bx - ax)) / (2 * cross);
  return { centre: [x, y], swapped: cross > 0 };
}

/**
 * A number rounded to a part.
 * @param {number} value
 * @param {number} parts
 */
export function rounded(value, parts) {
  return Math.round(value * parts) / parts;
}
