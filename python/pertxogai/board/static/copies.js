// @ts-check
/**
 * Tools that draw what is selected once more: mirrored, in a row, in a ring, beside it, pasted.
 * What a click makes of it the server says; here is what it would look like.
 */
import { svg } from './nodes.js';
import { apart, pathOf, ring } from './shapes.js';
import { rounded } from './tools.js';
import { typed } from './dialogs.js';
import { Work } from './work.js';
import { carriedPath, mirroredIn, shiftedBy, turnedAbout } from './outlines.js';

/** @typedef {import('./outlines.js').Carried} Carried */
/** @typedef {import('./page').Place} Place */
/** @typedef {import('./protocol').Edit} Edit */
/** @typedef {import('./protocol').Shape} Shape */
/** @typedef {import('./guesses.js').Aim} Aim */

/** Pixels within which an edge or an axis is the one to mirror about. */
const NEAR_LINE = 8;
/** Within this slope a row is level or upright. */
const LEVEL = Math.tan(5 * Math.PI / 180);
const AXES = { XAxis: /** @type {Place} */ ([1, 0]), YAxis: /** @type {Place} */ ([0, 1]) };
const NONE = 'Select the shapes first.';

/** The shapes that are drawn again, and the text that has them. */
export class Clip {
  text = '';
  /** @type {Shape[]} */
  shapes = [];
  /** @type {import('./protocol').Places} */
  view = { part: null, points: {}, radii: {} };
}

/** Draws what is selected once more. */
export class Copies extends Work {
  /** What was copied to be pasted. */
  clip = new Clip();

  /** The shapes that are drawn again: those that are selected, or were copied. */
  shapes() {
    if (this.hand.copy === 'paste') return this.clip.shapes;
    return this.board.answer.drawing.shapes.filter(
      (shape) => this.selection.names.has(shape.name));
  }

  /** Whether there is something to draw again; else it is told what to do. */
  isReady() {
    const isReady = this.shapes().length > 0;
    if (!isReady) this.tell(this.hand.copy === 'paste' ? 'Nothing was copied yet.' : NONE);
    return isReady;
  }

  /** Copies what is selected, to be pasted. */
  copy() {
    const { board: { answer, shown }, selection, paper } = this;
    const shapes = answer.drawing.shapes.filter((shape) => selection.names.has(shape.name));
    if (!shapes.length) {
      this.tell(NONE);
      return;
    }
    this.clip = { text: paper.answer?.text ?? paper.text, shapes, view: shown.between };
    const radii = shapes.map((shape) => [shape.name, shown.viewOf(shape).radii[shape.name]]);
    this.clip.view = { ...shown.between, radii: Object.fromEntries(radii) };
    this.tell(`Copied: ${shapes.map((each) => each.name).join(', ')}. Ctrl+V pastes them.`);
  }

  /**
   * What a click at a place in pixels makes.
   * @param {Place} pixels
   * @param {Aim} aim
   * @returns {Promise<Edit | null>}
   */
  async edit(pixels, aim) {
    const { hand: { copy, count } } = this;
    const shapes = this.shapes().map((each) => each.name);
    const [dx, dy] = this.way(aim).map((each) => rounded(each, 1000));
    switch (copy) {
      case 'mirror': {
        const about = this.lineAt(pixels);
        return about ? { do: 'mirror', shapes, about } : null;
      }
      case 'row': return { do: 'row', shapes, dx, dy, count };
      case 'ring': return { do: 'ring', shapes, about: aim.spot, count };
      case 'paste': return { do: 'paste', source: this.clip.text, shapes, dx, dy };
      default: return this.offset(shapes, pixels);
    }
  }

  /**
   * The outline beside what is selected, as far as is typed.
   * @param {string[]} shapes
   * @param {Place} pixels
   * @returns {Promise<Edit | null>}
   */
  async offset(shapes, pixels) {
    const { plane } = this.board;
    const drawn = this.away(plane.toPlane(pixels));
    await clicked();
    const size = await typed('offset', String(rounded(drawn, 10) || 1), pixels);
    if (size === null) return null;
    const [x, y] = plane.toPlane(pixels).map((each) => rounded(each, 1000));
    return { do: 'offset', shapes, size, x, y };
  }

  /**
   * The way from what is drawn again to where it goes: level or upright, where it nearly is.
   * @param {Aim} aim
   * @returns {Place}
   */
  way({ at: [x, y], isPoint, plain }) {
    const [u, v] = this.anchor();
    const [dx, dy] = [x - u, y - v];
    if (this.hand.copy !== 'row' || isPoint || plain) return [dx, dy];
    if (Math.abs(dy) <= LEVEL * Math.abs(dx)) return [dx, 0];
    return Math.abs(dx) <= LEVEL * Math.abs(dy) ? [0, dy] : [dx, dy];
  }

  /**
   * The place of what is drawn again by which it is carried: the centre of its first rim, or else
   * its first point.
   * @returns {Place}
   */
  anchor() {
    const shapes = this.shapes();
    const names = shapes.flatMap((shape) => Object.keys(shape.points));
    const name = names.find((each) => each.endsWith('.centre')) ?? names[0];
    const { points } = this.view();
    return name && points[name] ? points[name] : [0, 0];
  }

  /** Where what is drawn again is shown. */
  view() {
    return this.hand.copy === 'paste' ? this.clip.view : this.board.shown.between;
  }

  /**
   * The name of the segment or the axis at a place in pixels.
   * @param {Place} pixels
   */
  lineAt(pixels) {
    const { board, board: { plane, answer } } = this;
    const name = board.edgeAt(pixels, NEAR_LINE);
    if (answer.drawing.shapes.find((each) => each.name === name)?.kind === 'segment') return name;
    if (Math.abs(pixels[0] - plane.x) < NEAR_LINE) return 'YAxis';
    return Math.abs(pixels[1] - plane.y) < NEAR_LINE ? 'XAxis' : undefined;
  }

  /**
   * What a click at a place in pixels would draw.
   * @param {Place} pixels
   * @param {Aim} aim
   */
  preview(pixels, aim) {
    const { hand: { copy }, board: { plane } } = this;
    if (copy === 'offset') return this.beside(pixels);
    const nodes = this.carried(pixels, aim).flatMap((carried) => this.shapes().map(
      (shape) => this.drawn(carriedPath(shape, this.viewOf(shape), carried, plane))));
    return copy === 'mirror' ? [...nodes, this.lineMade(pixels)] : nodes;
  }

  /**
   * The view in which a shape that is drawn again is shown.
   * @param {Shape} shape
   */
  viewOf(shape) {
    return this.hand.copy === 'paste' ? this.clip.view : this.board.shown.viewOf(shape);
  }

  /**
   * Where a click at a place in pixels would carry what is drawn again: once for each copy.
   * @param {Place} pixels
   * @param {Aim} aim
   * @returns {Carried[]}
   */
  carried(pixels, aim) {
    const { hand: { copy, count } } = this;
    const [dx, dy] = this.way(aim);
    const turns = Array.from({ length: count - 1 }, (_, place) => place + 1);
    switch (copy) {
      case 'mirror': return this.mirrored(pixels);
      case 'row': return turns.map((each) => shiftedBy([dx * each, dy * each]));
      case 'ring': return turns.map((each) => turnedAbout(aim.at, 2 * Math.PI * each / count));
      default: return [shiftedBy([dx, dy])];
    }
  }

  /**
   * Mirrored in the line at a place in pixels, where there is one.
   * @param {Place} pixels
   */
  mirrored(pixels) {
    const ends = this.endsOf(this.lineAt(pixels));
    return ends ? [mirroredIn(...ends)] : [];
  }

  /**
   * The ends of a segment where it is shown, or two places of an axis.
   * @param {string | undefined} name
   * @returns {[Place, Place] | null}
   */
  endsOf(name) {
    if (name === 'XAxis' || name === 'YAxis') return [[0, 0], AXES[name]];
    const [start, end] = ['start', 'end'].map((each) => this.board.shown.at(`${name}.${each}`));
    return start && end ? [start, end] : null;
  }

  /**
   * The line at a place in pixels, as it stands out.
   * @param {Place} pixels
   */
  lineMade(pixels) {
    const { plane } = this.board;
    const ends = this.endsOf(this.lineAt(pixels))?.map((each) => plane.toScreen(each));
    if (!ends) return null;
    const [[x, y], [u, v]] = ends;
    const share = 4000 / (Math.hypot(u - x, v - y) || 1);
    const [dx, dy] = [(u - x) * share, (v - y) * share];
    return svg('path', { class: 'touched', 'data-touched': this.lineAt(pixels),
      d: `M${x - dx} ${y - dy}L${x + dx} ${y + dy}` });
  }

  /**
   * A path of what would be drawn.
   * @param {string | null} d
   */
  drawn(d) {
    return d ? svg('path', { class: 'preview', d }) : null;
  }

  /**
   * Each edge that is selected, as far beside itself as a place in pixels is, on its side; nothing
   * of a point.
   * @param {Place} pixels
   */
  beside(pixels) {
    const { plane } = this.board;
    const at = plane.toPlane(pixels);
    const away = this.away(at);
    return this.shapes().map((shape) => {
      const view = this.viewOf(shape);
      if (shape.kind === 'segment') return this.drawn(segmentBeside(shape, view, at, away, plane));
      if (shape.kind === 'point') return null;
      const centre = view.points[`${shape.name}.centre`];
      const radius = view.radii[shape.name] ?? shape.radius ?? 0;
      const moved = radius + (apart(centre, at) < radius ? -away : away);
      return this.drawn(moved > 0 ? ring(plane.toScreen(centre), moved * plane.scale) : null);
    });
  }

  /**
   * How far in millimetres a place lies from the edges that are selected.
   * @param {Place} at
   */
  away(at) {
    const { board, board: { plane } } = this;
    const pixels = plane.toScreen(at);
    const all = this.shapes().map((shape) => board.awayFrom(shape, pixels) / plane.scale);
    return Math.min(...all.filter(Number.isFinite), 1e6);
  }
}

/**
 * Waits until a click is over: it would close a dialog that it opens.
 * @returns {Promise<void>}
 */
function clicked() {
  return new Promise((done) => { setTimeout(done); });
}

/**
 * The path of a segment so far beside itself, on the side of a place.
 * @param {Shape} shape
 * @param {import('./protocol').Places} view
 * @param {Place} at
 * @param {number} away
 * @param {import('./view.js').View} plane
 */
function segmentBeside(shape, view, [x, y], away, plane) {
  const [[a, b], [c, d]] = ['start', 'end'].map((each) => view.points[`${shape.name}.${each}`]);
  const length = Math.hypot(c - a, d - b) || 1;
  const side = Math.sign((c - a) * (y - b) - (d - b) * (x - a)) * away / length;
  return pathOf(shape, { ...view, points: {
    [`${shape.name}.start`]: [a - (d - b) * side, b + (c - a) * side],
    [`${shape.name}.end`]: [c - (d - b) * side, d + (c - a) * side],
  } }, plane);
}
