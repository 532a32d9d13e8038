// @ts-check
/** The board: the drawing as SVG, faint as drawn beneath what is placed, with its marks. */
import { svg, nodeOf, fitted } from './nodes.js';
import { View } from './view.js';
import { Marks, markMade, proposedMade, checkMade, toldPlaces } from './marks.js';
import { Layer, isSame } from './layer.js';
import { Shown } from './shown.js';
import { awayFrom, kindOf, pathOf, shapeMade, pointMade, stillMade, moveMade, middleOf, line, ring }
  from './shapes.js';

/** @typedef {import('./page').Child} Child */
/** @typedef {import('./page').Kept} Kept */
/** @typedef {import('./page').Keyed} Keyed */
/** @typedef {import('./page').Place} Place */
/** @typedef {import('./page').PlacedMark} PlacedMark */
/** @typedef {import('./page').Read} Read */
/** @typedef {import('./protocol').Judgement} Judgement */
/** @typedef {import('./protocol').Mark} Mark */
/** @typedef {import('./protocol').Shape} Shape */

const LAYERS = ['grid', 'drawn', 'edges', 'other', 'proposed', 'checks', 'marks', 'dots', 'moves',
  'names', 'joints', 'faults'];
/** Pixels within which a click is one on the edge itself. */
const NEAR = 3.5;
/** Pixels within which an edge is the one that is meant, where no sign lies on it. */
export const NEAR_EDGE = 7;
/** Pixels within which a click is one on a point. */
const NEAR_POINT = 10;
/** @type {Read} */
export const NOTHING = {
  drawing: { shapes: [], constraints: [], marks: [], values: [] }, judgement: null,
};

/** Draws answers on an SVG node. */
export class Board {
  plane = new View();
  answer = NOTHING;
  shown = new Shown(NOTHING);
  /**
   * What the hand is about to draw.
   * @type {((plane: View) => (Node | null | false)[]) | null}
   */
  preview = null;
  /**
   * The cross of the keyboard, in millimetres.
   * @type {Place | null}
   */
  cross = null;
  /**
   * A step of the construction.
   * @type {((plane: View) => Node) | null}
   */
  overlay = null;
  /**
   * The other shape.
   * @type {import('./protocol').Places | null}
   */
  other = null;
  /** @type {PlacedMark[]} */
  placed = [];
  /**
   * Where each mark stands.
   * @type {import('./marks.js').Standing}
   */
  standing = new Map();
  /**
   * The constraints from which what is pointed at or chosen follows.
   * @type {Set<number>}
   */
  grouped = new Set();
  /**
   * Where a hand holds the label of a dimension.
   * @type {import('./marks.js').Dragged}
   */
  dragged = new Map();
  /**
   * The marks of what is proposed, each with its line.
   * @type {(Mark & { line: string })[]}
   */
  proposed = [];
  /**
   * Where they were placed.
   * @type {PlacedMark[]}
   */
  proposedAt = [];
  /**
   * What must fit, and the number of that which is open.
   * @type {{ checks: import('./protocol').Checked[], open: number }}
   */
  checks = { checks: [], open: 0 };
  /**
   * Where its upper left corner lay on the page.
   * @type {Place | null}
   */
  corner = null;
  /**
   * What was last made of what.
   * @type {Record<string, unknown[]>}
   */
  from = {};
  waits = false;
  /** Whether what is open is shown by the colours of its pieces. */
  byPieces = false;
  /** Whether a frame of a drag is shown. */
  drags = false;

  /**
   * @param {SVGSVGElement} node
   * @param {import('./selection.js').Selection} selection
   */
  constructor(node, selection) {
    this.node = node;
    this.selection = selection;
    this.over = svg('g', { class: 'overlay' });
    this.layers = Object.fromEntries(
      LAYERS.map((kind) => [kind, new Layer(svg('g', { class: kind }), svg, fitted)]));
    node.replaceChildren(...Object.values(this.layers).map((layer) => layer.node), this.over);
    nodeOf('faint', SVGSVGElement).append(this.layers.drawn.node);
    selection.addEventListener('change', () => this.draw());
    new ResizeObserver(() => this.stay()).observe(node);
  }

  /**
   * The board has another size, or lies elsewhere on the page: what it shows stays where it was
   * under the hand.
   */
  stay() {
    const { left, top } = this.node.getBoundingClientRect();
    const [x, y] = this.corner ?? [left, top];
    this.corner = [left, top];
    this.plane.pan(x - left, y - top);
    this.drawNow();
  }

  /**
   * Shows an answer of the server; or what becomes of it while something is dragged.
   * @param {Read} answer
   * @param {boolean} [drags]
   */
  show(answer, drags = false) {
    this.drags = drags;
    this.answer = answer;
    this.shown = new Shown(answer);
    this.draw();
  }

  /** Draws anew before the next frame, once for all that asks for it. */
  draw() {
    if (!this.waits) requestAnimationFrame(() => this.drawNow());
    this.waits = true;
  }

  /** Draws all layers. The focus goes from a mark that goes to the board. */
  drawNow() {
    this.waits = false;
    const { activeElement } = document;
    const focused = this.node.contains(activeElement) ? activeElement : null;
    this.drawLayers();
    if (focused && !focused.isConnected) this.node.focus();
    this.node.dataset.drawn = String(Number(this.node.dataset.drawn ?? 0) + 1);
  }

  /** Draws each layer, as far as it isn't as it was. */
  drawLayers() {
    const { drawing: { shapes, marks }, judgement } = this.overlay ? NOTHING : this.answer;
    const { plane } = this;
    /** @type {Record<string, Keyed[] | null>} */
    const made = {
      grid: this.grid(this.size()),
      drawn: this.faint(shapes, judgement),
      other: this.other ? stillMade(shapes, this.other, plane) : [],
      proposed: this.proposedMarks(marks),
      checks: this.checkMarks(marks),
      moves: this.moves(judgement),
      names: this.overlay ? [] : this.names(shapes),
      joints: this.joints(judgement),
      faults: this.around(judgement?.failure?.at ?? [],
        (name, at) => [name, 'path', { class: 'fault', d: ring(at, 13) }]),
    };
    for (const [kind, things] of Object.entries(made)) if (things) this.layers[kind].show(things);
    this.drawShapes(shapes, judgement);
    const placed = this.marks(marks, judgement);
    if (placed) this.layers.marks.update(placed);
    this.drawHand();
  }

  /**
   * Draws the edges and the points, where one of them isn't as it was.
   * @param {Shape[]} shapes
   * @param {Judgement | null | undefined} judgement
   */
  drawShapes(shapes, judgement) {
    if (this.isStill(shapes, judgement)) return;
    this.layers.edges.update(shapes.map((shape) => this.edge(shape)));
    this.layers.dots.update(this.overlay ? [] : this.dots(shapes));
  }

  /**
   * What is drawn, faint below what is placed; nothing of it while all is shown in a shape that was
   * found.
   * @param {Shape[]} shapes
   * @param {Judgement | null | undefined} judgement
   */
  faint(shapes, judgement) {
    const { shown: { views, drawn }, plane } = this;
    return views.length && !judgement?.found ? stillMade(shapes, drawn, plane) : [];
  }

  /**
   * Draws what lies over the drawing: a step of the construction, what the hand is about to draw,
   * and the cross.
   */
  drawHand() {
    const preview = this.preview?.(this.plane) ?? [];
    const over = [this.overlay?.(this.plane), ...preview, this.crossMade()];
    this.over.replaceChildren();
    for (const each of over) if (each) this.over.append(each);
  }

  /** The cross, where there is one. */
  crossMade() {
    if (!this.cross) return null;
    const [x, y] = this.plane.toScreen(this.cross);
    return svg('path', { class: 'cross', d: `M${x - 14} ${y}h28M${x} ${y - 14}v28` });
  }

  /**
   * The grid, and the datum's axes.
   * @param {{ width: number, height: number }} size
   * @returns {Keyed[]}
   */
  grid({ width, height }) {
    const { plane } = this;
    const step = plane.step() * 5;
    const [left, high] = plane.toPlane([0, 0]);
    const [right, low] = plane.toPlane([width, height]);
    const across = between(left, right, step).map(
      (x) => line(plane.toScreen([x, low]), plane.toScreen([x, high])));
    const along = between(low, high, step).map(
      (y) => line(plane.toScreen([left, y]), plane.toScreen([right, y])));
    return [['lines', 'path', { class: 'gridlines', d: [...across, ...along].join('') }],
      this.axis('XAxis', line([0, plane.y], [width, plane.y])),
      this.axis('YAxis', line([plane.x, 0], [plane.x, height]))];
  }

  /**
   * An axis of the datum along a path.
   * @param {string} name
   * @param {string} d
   * @returns {Keyed}
   */
  axis(name, d) {
    const kind = `axis ${this.selection.names.has(name) ? 'selected' : ''}`;
    return [name, 'g', { 'data-name': name },
      ['path', { class: kind, d }], ['path', { class: 'hit', d }]];
  }

  /**
   * Whether all shapes and points are shown as they were: of what is placed it doesn't count where
   * it is drawn.
   * @param {Shape[]} shapes
   * @param {Judgement | null | undefined} judgement
   */
  isStill(shapes, judgement) {
    const { selection: { names }, plane: { scale, x, y }, shown: { views }, byPieces } = this;
    const told = (/** @type {Shape} */ shape) => `${shape.name} ${kindOf(shape)} ${shape.shares}`;
    const { placed, found, colours } = judgement ?? {};
    const what = placed ?? found ? shapes.map(told) : shapes;
    const how = [this.overlay, colours, found?.free, byPieces];
    return this.isSame('shapes', [scale, x, y, names, ...how, ...views, ...what]);
  }

  /**
   * Whether something is made of the same as last time.
   * @param {string} made
   * @param {unknown[]} from
   */
  isSame(made, from) {
    const old = this.from[made];
    this.from[made] = from;
    return isSame(old, from);
  }

  /**
   * A shape as it is shown.
   * @param {Shape} shape
   * @returns {Kept}
   */
  edge(shape) {
    const { plane, shown } = this;
    const view = shown.viewOf(shape);
    const isSelected = this.selection.names.has(shape.name);
    const colour = shown.colourOf(shape, this.byPieces);
    const isFree = shown.isFree(shape.name);
    const places = Object.keys(shape.points).flatMap((each) => view.points[each]);
    const radius = view.radii[shape.name] ?? shape.radius;
    return { key: shape.name, from: [shape.kind, kindOf(shape), isSelected, colour, isFree,
      plane.scale, plane.x, plane.y, radius, ...places],
    make: () => shapeMade(shape, pathOf(shape, view, plane), isSelected, colour, isFree) };
  }

  /**
   * The points as they are shown, the origin's first.
   * @param {Shape[]} shapes
   */
  dots(shapes) {
    const names = shapes.flatMap(
      (shape) => Object.keys(shape.points).filter((name) => !shape.shares.includes(name)));
    return this.around(['Origin', ...names], (name, at) => {
      const isSelected = this.selection.names.has(name);
      const colour = this.shown.partColourOf(name, this.byPieces);
      return { key: name, from: [...at, isSelected, colour],
        make: () => pointMade(name, at, isSelected, colour) };
    });
  }

  /**
   * The names of single points and of what is selected.
   * @param {Shape[]} shapes
   * @returns {Keyed[]}
   */
  names(shapes) {
    const points = shapes.filter((shape) => shape.kind === 'point').map((shape) => shape.name);
    return this.around([...this.selection.names, ...points], (name, [x, y]) => [
      name, 'text', { class: 'name', x: x - 12, y: y + 14 }, name]);
  }

  /**
   * Arrows along which free points still move.
   * @param {Judgement | null | undefined} judgement
   * @returns {Keyed[]}
   */
  moves(judgement) {
    return (judgement?.found?.moves ?? []).flatMap(({ point, dx, dy }, place) => {
      const at = this.placeOf(point);
      return at ? [moveMade(`${point} ${place}`, at, [dx, dy])] : [];
    });
  }

  /**
   * Rings where pieces hang together.
   * @param {Judgement | null | undefined} judgement
   * @returns {Keyed[]}
   */
  joints(judgement) {
    if (judgement?.found && !this.byPieces) return [];
    const names = (judgement?.missing?.joints ?? []).flatMap((joint) => joint.shared);
    return this.around(names, (name, [cx, cy]) => [
      name, 'circle', { class: 'joint', cx, cy, r: 9 }]);
  }

  /**
   * Some things, each once, as what is made of them at their places in pixels.
   * @template T
   * @param {string[]} names
   * @param {(name: string, at: Place) => T} made
   * @returns {T[]}
   */
  around(names, made) {
    return [...new Set(names)].flatMap((name) => {
      const at = this.placeOf(name);
      return at ? [made(name, at)] : [];
    });
  }

  /**
   * The marks of constraints; what may go, is to blame or is selected stands out. Null where all
   * are shown so already.
   * @param {Mark[]} marks
   * @param {Judgement | null | undefined} judgement
   */
  marks(marks, judgement) {
    const kinds = this.kindsOfMarks(judgement);
    const told = new Map((judgement?.excess ?? []).map((each) => [each.number, each.told]));
    const { scale, x, y } = this.plane;
    const from = [scale, x, y, marks, this.dragged];
    const isHere = this.isSame('view', [scale, x, y]);
    if (!this.isSame('places', from)) this.place(marks, isHere && this.drags);
    const measured = [...this.selection.numbers].filter((each) => each < 0).join();
    const all = [...from, kinds.join(), measured, JSON.stringify([...told])];
    if (this.isSame('marks', all)) return null;
    return this.placed.map((mark) => keptMark(
      mark, kinds[mark.number - 1] ?? this.kindOfReference(mark.number), told.get(mark.number)));
  }

  /**
   * Finds places for marks; those that `stay` stand where they stood before.
   * @param {Mark[]} marks
   * @param {boolean} stay
   */
  place(marks, stay) {
    const places = new Marks(this.plane, this.dragged);
    this.placed = places.all(marks, stay ? this.standing : undefined);
    this.standing = places.standing;
  }

  /**
   * The classes of the marks of each constraint.
   * @param {Judgement | null | undefined} judgement
   */
  kindsOfMarks(judgement) {
    const excess = new Set((judgement?.excess ?? []).map((each) => each.number));
    const spare = new Set([...(judgement?.spare ?? []).map((each) => each.number), ...excess]);
    const blamed = new Set(judgement?.failure?.dimensions ?? []);
    const unmet = new Set((judgement?.why_not ?? []).map((each) => each.constraint));
    const { numbers } = this.selection;
    return this.answer.drawing.constraints.map(({ number, called }) => [
      'markgroup', spare.has(number) && 'spare', excess.has(number) && 'excess',
      (blamed.has(called) || unmet.has(number)) && 'blamed',
      numbers.has(number) && 'selectedmark', this.grouped.has(number) && 'grouped',
    ].filter(Boolean).join(' '));
  }

  /**
   * Has the marks of some constraints stand out as a group.
   * @param {number[]} numbers
   */
  group(numbers) {
    if (String(numbers) === String([...this.grouped])) return;
    this.grouped = new Set(numbers);
    this.draw();
  }

  /**
   * The classes of the mark of a dimension that is only measured.
   * @param {number} number
   */
  kindOfReference(number) {
    return `markgroup reference ${this.selection.numbers.has(number) ? 'selectedmark' : ''}`;
  }

  /**
   * The mark of a dimension where it was placed, by its number.
   * @param {number} number
   */
  markOf(number) {
    return this.placed.find((each) => each.number === number && !each.sign);
  }

  /**
   * Shows what is proposed, beside the marks of what is asked.
   * @param {import('./protocol').Proposed[]} proposals
   */
  propose(proposals) {
    this.proposed = proposals.flatMap(
      ({ marks, line: said }) => marks.map((mark) => ({ ...mark, line: said })));
    this.draw();
  }

  /**
   * The marks of what is proposed, where no others stand, no step is shown, and nothing is dragged.
   * Null where all are shown so already.
   * @param {Mark[]} marks
   */
  proposedMarks(marks) {
    const { plane: { scale, x, y }, proposed, overlay, drags } = this;
    if (this.isSame('proposed', [scale, x, y, drags || marks, proposed, overlay])) return null;
    const places = new Marks(this.plane);
    places.all(drags ? [] : marks);
    this.proposedAt = places.all(overlay || drags ? [] : proposed);
    return this.proposedAt.map(proposedMade);
  }

  /**
   * Shows what must fit, beside the marks of what is asked.
   * @param {import('./protocol').Checked[]} checks
   * @param {number} open
   */
  check(checks, open) {
    this.checks = { checks, open };
    this.draw();
  }

  /**
   * The marks of what must fit, where no others stand, no step is shown, and nothing is dragged.
   * Null where all are shown so already.
   * @param {Mark[]} marks
   */
  checkMarks(marks) {
    const { plane: { scale, x, y }, checks: { checks, open }, overlay, drags } = this;
    if (this.isSame('checks', [scale, x, y, drags || marks, checks, open, overlay])) return null;
    const places = new Marks(this.plane);
    places.all(drags ? [] : marks);
    const shown = overlay || drags ? [] : checks.flatMap((each) => each.marks);
    return places.all(shown).map((mark) => checkMade(
      mark, checks[mark.number - 1], mark.number === open));
  }

  /**
   * Where the first mark of what is proposed under a number stands, in pixels.
   * @param {number} number
   */
  proposedPlace(number) {
    return this.proposedAt.find((each) => each.number === number)?.at;
  }

  /**
   * Where the first mark of a constraint stands, in pixels.
   * @param {number | undefined} number
   */
  markPlace(number) {
    return this.placed.find((each) => each.number === number)?.at;
  }

  /**
   * Where a point or the middle of a shape is shown, in pixels.
   * @param {string} name
   * @returns {Place | null}
   */
  placeOf(name) {
    const places = this.pointsOf(name).flatMap((each) => {
      const at = this.shown.at(each);
      return at ? [this.plane.toScreen(at)] : [];
    });
    return places.length ? middleOf(places) : null;
  }

  /**
   * The points in the middle of which a thing is named: itself, or the ends of a shape.
   * @param {string} name
   */
  pointsOf(name) {
    if (this.shown.at(name)) return [name];
    const shape = this.answer.drawing.shapes.find((each) => each.name === name);
    return Object.keys(shape?.points ?? {}).filter(
      (each) => shape?.kind === 'circle' || !each.endsWith('.centre'));
  }

  /**
   * The point that is shown next to a place in pixels, if one is near: its name, its place in
   * millimetres, and how far it is away in pixels. `except` are names that don't count.
   * @param {Place} place
   * @param {Set<string>} [except]
   */
  nearPoint([x, y], except = new Set()) {
    /** @type {{ name: string, at: Place, away: number } | null} */
    let near = null;
    for (const [name, at] of Object.entries(this.shown.between.points)) {
      const [u, v] = this.plane.toScreen(at);
      const away = Math.hypot(u - x, v - y);
      const isNearer = away < (near?.away ?? NEAR_POINT) - 0.01;
      if (isNearer && !except.has(name)) near = { name, at, away };
    }
    return near;
  }

  /**
   * The shape of which the edge itself lies at a place in pixels, if one does.
   * @param {Place} place
   * @param {number} [near]
   */
  edgeAt(place, near = NEAR) {
    return this.answer.drawing.shapes.find((shape) => this.awayFrom(shape, place) < near)?.name;
  }

  /**
   * How far in pixels a place lies from the edge of a shape.
   * @param {Shape} shape
   * @param {Place} place
   */
  awayFrom(shape, place) {
    return awayFrom(shape, this.shown.viewOf(shape), this.plane, place);
  }

  /** Shows all that is drawn and placed, and the other shape where that is shown. */
  fit() {
    this.drawNow();
    const corners = this.boxes().flatMap(([left, low, right, high]) => [
      this.plane.toPlane([left, low]), this.plane.toPlane([right, high])]);
    const { between: shown, drawn, free } = this.shown;
    const { shapes, marks } = this.answer.drawing;
    const hidden = free ? {} : drawn.points;
    const places = [...Object.values(shown.points), ...Object.values(hidden),
      ...marks.flatMap(toldPlaces), ...corners];
    this.plane.fit(shapes.length ? places : [], this.size());
    this.draw();
  }

  /** Shows all, where some of it lies beside the board. */
  reveal() {
    this.drawNow();
    const { width, height } = this.size();
    const isBeside = (/** @type {number[]} */ [left, low, right, high]) => left < 0 || low < 0
      || right > width || high > height;
    if (this.boxes().some(isBeside)) this.fit();
  }

  /** The box of all edges, in pixels; null where there is none. */
  edgeBox() {
    return boxOf(this.layers.edges);
  }

  /** The boxes of all edges, and of the other shape, in pixels. */
  boxes() {
    const { edges, other } = this.layers;
    return [edges, other].flatMap((layer) => {
      const box = boxOf(layer);
      return box ? [box] : [];
    });
  }

  /**
   * Zooms by a factor about the middle.
   * @param {number} factor
   */
  zoomBy(factor) {
    const { width, height } = this.size();
    this.plane.zoom(factor, [width / 2, height / 2]);
    this.draw();
  }

  /** The size of the board in pixels. */
  size() {
    const { width, height } = this.node.getBoundingClientRect();
    return { width: Math.max(width, 50), height: Math.max(height, 50) };
  }
}

/**
 * The box of what a layer shows, in pixels: left, high, right, low; null where that is nothing, as
 * of points, which have no edges.
 * @param {Layer} layer
 * @returns {number[] | null}
 */
function boxOf({ node }) {
  const { x, y, width, height } = /** @type {SVGGElement} */ (node).getBBox();
  return width || height ? [x, y, x + width, y + height] : null;
}

/**
 * A placed mark of a layer.
 * @param {PlacedMark} mark
 * @param {string} kind
 * @param {string} [told]
 * @returns {Kept}
 */
function keptMark(mark, kind, told) {
  const { key, number, sign, path, text, at, isOpen } = mark;
  return { key, from: [number, sign, path, text, ...at, isOpen, kind, told],
    make: () => markMade(mark, kind, told) };
}

/**
 * The multiples of a step from one number to another.
 * @param {number} from
 * @param {number} to
 * @param {number} step
 */
function between(from, to, step) {
  const first = Math.ceil(from / step);
  const count = Math.max(0, Math.floor(to / step) - first + 1);
  return Array.from({ length: count }, (_, place) => (first + place) * step);
}
