// @ts-check
/**
 * The sheet that is printed: the drawing at a scale, with its dimensions, a title and a scale bar,
 * on A4 across. The browser prints it, or writes it as PDF.
 */
import { byId, nodeOf, svg } from './nodes.js';
import { Marks, toldPlaces } from './marks.js';
import { kindOf, pathOf, shifted } from './shapes.js';
import { typed } from './dialogs.js';
import { View } from './view.js';

/** @typedef {import('./page').Place} Place */

/** The pixels of a browser's print in a millimetre of paper. */
const MM = 96 / 25.4;
/** The room for the drawing and its dimensions on A4 across, in millimetres. */
const WIDTH = 277;
const HEIGHT = 168;
/** The room around the drawing for its dimensions, in millimetres. */
const ROOM = 26;
/** The height of the title below it. */
const TITLE = 18;
/** Scales that are usual, the largest first. */
const SCALES = [10, 5, 2, 1, 1 / 2, 1 / 5, 1 / 10, 1 / 20, 1 / 50, 1 / 100, 1 / 200, 1 / 500,
  1 / 1000, 1 / 2000, 1 / 5000, 1 / 10000];

/** Makes the sheet of what a board shows, and has it printed. */
export class Sheet {
  node = nodeOf('paper', SVGSVGElement);
  /** The scale that was asked for last of the drawing; 0 for none yet. */
  scale = 0;

  /**
   * @param {import('./board.js').Board} board
   * @param {import('./paper.js').Paper} paper
   * @param {(text: string, kind?: string) => void} tell
   */
  constructor(board, paper, tell) {
    this.board = board;
    this.paper = paper;
    this.tell = tell;
    paper.when('begin', () => { this.scale = 0; });
    window.addEventListener('beforeprint', () => this.make(this.scale || this.fitting()));
  }

  /** Asks for the scale, makes the sheet, and has the browser print it. */
  async print() {
    const fitting = this.fitting();
    const { width, height } = this.board.size();
    const told = await typed('scale', scaleText(fitting), [width / 2, height / 3]);
    if (told === null) return;
    const scale = scaleOf(told);
    if (!scale) this.tell(`'${told}' isn’t a scale: write one as 1:2 or 2:1`, 'trouble');
    else if (this.make(scale)) {
      this.scale = scale;
      window.print();
    }
  }

  /**
   * Makes the sheet at a scale; gives whether there is something on it.
   * @param {number} scale
   */
  make(scale) {
    const { answer: { drawing }, shown } = this.board;
    const box = this.box();
    if (!box) {
      this.node.replaceChildren();
      this.tell('Nothing is drawn that could be printed.');
      return false;
    }
    if (scale > this.most()) this.tell('At this scale it is larger than a sheet of A4.');
    const plane = new View();
    plane.scale = scale * MM;
    plane.x = WIDTH * MM / 2 - (box.left + box.right) / 2 * plane.scale;
    plane.y = HEIGHT * MM / 2 + (box.low + box.high) / 2 * plane.scale;
    const edges = drawing.shapes.map((shape) => svg('path', {
      class: kindOf(shape), d: pathOf(shape, shown.viewOf(shape), plane) ?? '' }));
    const marks = new Marks(plane).all(drawing.marks).map(({ path, text, at, sign }) => svg(
      'g', { class: 'markgroup', transform: shifted(at) },
      path && ['path', { class: 'mark', d: path }],
      ['text', { class: sign ? 'sign' : 'value' }, text]));
    this.node.replaceChildren(...edges, ...marks, ...this.title(scale));
    return true;
  }

  /**
   * The frame, the name, the scale with its bar, and what is judged.
   * @param {number} scale
   */
  title(scale) {
    const [top, width] = [HEIGHT * MM, WIDTH * MM];
    const bar = barOf(scale);
    const long = bar * scale * MM;
    const [y, x] = [top + TITLE * MM * 0.72, width - 12 - long];
    const verdict = byId('verdict').querySelector('h2')?.textContent ?? '';
    const { judgement } = this.board.answer;
    const whose = judgement?.found ? ', placed by numbers' : ', as drawn';
    const placed = judgement?.placed ? '' : whose;
    return [
      svg('rect', { class: 'frame', x: 0.5, y: 0.5, width: width - 1,
        height: top + TITLE * MM - 1 }),
      svg('path', { class: 'frame', d: `M0 ${top}H${width}` }),
      svg('text', { class: 'title', x: 12, y: top + 26 }, this.paper.name),
      svg('text', { class: 'told', x: 12, y: top + 50 },
        `${verdict}${placed}; lengths in mm; those in brackets are measured by numbers`),
      svg('text', { class: 'told scale', x: width / 2, y: top + 36 }, `scale ${scaleText(scale)}`),
      svg('path', { class: 'bar', d: `M${x} ${y - 5}v10M${x} ${y}h${long}M${x + long} ${y - 5}v10`,
        'data-bar': bar }),
      svg('text', { class: 'told bar-text', x: x + long / 2, y: y - 12 }, `${bar} mm`),
    ];
  }

  /** The scale that fits, of those that are usual. */
  fitting() {
    const most = this.most();
    return SCALES.find((each) => each <= most) ?? SCALES[SCALES.length - 1];
  }

  /** The largest scale at which all is on the sheet. */
  most() {
    const { left, right, low, high } = this.box() ?? { left: 0, right: 1, low: 0, high: 1 };
    return Math.min((WIDTH - 2 * ROOM) / Math.max(right - left, 1e-3),
      (HEIGHT - 2 * ROOM) / Math.max(high - low, 1e-3));
  }

  /**
   * The box of all edges, and of the dimensions whose places the drawing says, in millimetres; null
   * where nothing is drawn.
   */
  box() {
    const { board, board: { plane, overlay } } = this;
    board.overlay = null;
    board.drawNow();
    const edges = board.edgeBox();
    board.overlay = overlay;
    board.draw();
    if (!edges) return null;
    const places = [plane.toPlane([edges[0], edges[1]]), plane.toPlane([edges[2], edges[3]]),
      ...board.answer.drawing.marks.flatMap(toldPlaces)];
    const [xs, ys] = [0, 1].map((axis) => places.map((each) => each[axis]));
    const [left, right] = [Math.min(...xs), Math.max(...xs)];
    const [low, high] = [Math.min(...ys), Math.max(...ys)];
    return { left, right, low, high };
  }
}

/**
 * A scale as it is written.
 * @param {number} scale
 */
function scaleText(scale) {
  const part = (/** @type {number} */ value) => Math.round(value * 1000) / 1000;
  return scale >= 1 ? `${part(scale)}:1` : `1:${part(1 / scale)}`;
}

/**
 * The scale that is written; 0 where it is none.
 * @param {string} text
 */
function scaleOf(text) {
  const [, one, other] = /^\s*(\d+(?:\.\d+)?)\s*[:/]\s*(\d+(?:\.\d+)?)\s*$/.exec(text) ?? [];
  const scale = Number(one) / Number(other);
  return Number.isFinite(scale) ? scale : 0;
}

/**
 * How many millimetres the bar of a scale stands for: 1, 2 or 5 times a power of ten, about four
 * centimetres of paper.
 * @param {number} scale
 */
function barOf(scale) {
  const most = 50 / scale;
  const power = 10 ** Math.floor(Math.log10(most));
  return [5, 2, 1].map((each) => each * power).find((each) => each <= most) ?? power;
}
