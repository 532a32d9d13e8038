// @ts-check
/**
 * One step of the construction on the board: its clusters on their way, where they meet, and what
 * stands already.
 */
import { svg } from './nodes.js';
import { View } from './view.js';
import { pathOf, middleOf, ring, line } from './shapes.js';

/** @typedef {import('./page').Made} Made */
/** @typedef {import('./page').Place} Place */
/** @typedef {import('./protocol').Places} Places */
/** @typedef {import('./protocol').Step} PlanStep */

/**
 * The clusters have come together at this share of a step; behind that the construction is shown
 * alone.
 */
const TOGETHER = 0.8;
/** A plane of a pixel a millimetre: what is drawn in it is carried to the board by transforms. */
const MM = Object.assign(new View(), { scale: 1, x: 0, y: 0 });
/** Nothing is moved. */
const STILL = [1, 0, 0, 0];

export class Step {
  /**
   * The radius of a dot of a pixel, and the length of a line over the whole board, in millimetres.
   */
  dot = 1;
  far = 1;

  /**
   * @param {import('./protocol').Construction} plan
   * @param {PlanStep} step
   * @param {import('./protocol').Drawing} drawing
   * @param {Places} placed
   */
  constructor(plan, step, drawing, placed) {
    this.plan = plan;
    this.step = step;
    this.drawing = drawing;
    this.placed = placed;
    this.to = keptOf(step);
  }

  /**
   * The node of the step at a share of it, from 0 to 1, on a plane that is so large in pixels.
   * @param {View} plane
   * @param {number} share
   * @param {{ width: number, height: number }} size
   */
  drawn(plane, share, { width, height }) {
    this.dot = 1 / plane.scale;
    this.far = 2 * (width + height) / plane.scale;
    const { step, to } = this;
    const stands = this.standing().map((each) => this.cluster(
      each, each.motion, 1, 'var(--drawn)'));
    const joins = step.joins.map((each, place) => this.cluster(
      each, to, Math.min(1, share / TOGETHER), `var(--join${place})`));
    const loci = share > 0.55 ? step.loci.map((each) => this.locus(each)) : [];
    const { at } = this.plan.elements[step.made];
    const made = share > TOGETHER && at ? this.ring(at, 6, { class: 'made' }) : null;
    const transform = `translate(${plane.x} ${plane.y}) scale(${plane.scale})`;
    return svg('g', { class: 'construction-layer', transform }, ...stands, ...joins,
      ['g', { transform: carried([0, 0], to, to, 1) },
        ...loci.map((d) => svg('path', { class: 'locus', d })), made]);
  }

  /** The clusters that earlier steps made and that no step has joined before this one. */
  standing() {
    const { steps } = this.plan;
    const before = steps.slice(0, this.step.number);
    const gone = new Set(before.flatMap((each) => each.joins.map((join) => join.name)));
    const stand = before.slice(0, -1).filter((each) => !gone.has(`s${each.number}`));
    return stand.map((each) => ({
      elements: each.joins.flatMap((join) => join.elements),
      shapes: each.joins.flatMap((join) => join.shapes),
      motion: keptOf(each),
    }));
  }

  /**
   * A cluster, its shapes, points and lines, at a share of its way to where another motion lays it.
   * @param {{ elements: string[], shapes: string[], motion: number[] }} cluster
   * @param {number[]} to
   * @param {number} share
   * @param {string} stroke
   */
  cluster(cluster, to, share, stroke) {
    const elements = cluster.elements.map((name) => this.plan.elements[name]);
    const shapes = this.drawing.shapes.filter((shape) => cluster.shapes.includes(shape.name));
    const paths = shapes.map((shape) => pathOf(shape, this.placed, MM));
    const middle = middleOf(elements.map(({ at, through }) => at ?? through ?? [0, 0]));
    const transform = carried(middle, cluster.motion, to, share);
    return svg('g', { class: 'cluster', stroke, transform },
      ...paths.map((d) => d && svg('path', { d })),
      ...elements.map((each) => this.element(each, stroke)));
  }

  /**
   * An element of a cluster.
   * @param {import('./protocol').ElementJson} element
   * @param {string} stroke
   */
  element({ at, through = [0, 0], way = [1, 0] }, stroke) {
    if (at) return this.ring(at, 3.4, { fill: stroke });
    return svg('path', { class: 'help', d: this.across(through, way) });
  }

  /**
   * A dot at a place, so large in pixels.
   * @param {Place} at
   * @param {number} pixels
   * @param {import('./page').Attributes} attributes
   */
  ring(at, pixels, attributes) {
    const [cx, cy] = MM.toScreen(at);
    return svg('circle', { ...attributes, cx, cy, r: pixels * this.dot });
  }

  /**
   * The path of a circle or line of construction.
   * @param {import('./protocol').Locus} locus
   */
  locus({ circle, radius = 0, line: through = [0, 0], way = [1, 0] }) {
    return circle ? ring(MM.toScreen(circle), radius) : this.across(through, way);
  }

  /**
   * The path of a line over the whole board.
   * @param {Place} through
   * @param {Place} way
   */
  across([x, y], [dx, dy]) {
    const { far } = this;
    const [u, v] = [dx * far, dy * far];
    return line(MM.toScreen([x - u, y - v]), MM.toScreen([x + u, y + v]));
  }
}

/**
 * The motion of the cluster that a step keeps.
 * @param {PlanStep} step
 */
function keptOf({ joins }) {
  return joins.find((each) => each.kept)?.motion ?? STILL;
}

/**
 * The transform that carries something at a share of its way between two motions, turning about its
 * middle.
 * @param {Place} middle
 * @param {number[]} from
 * @param {number[]} to
 * @param {number} share
 */
function carried(middle, from, to, share) {
  const ease = share * share * (3 - 2 * share);
  const [first, last] = [from, to].map(([cos, sin]) => Math.atan2(sin, cos));
  const turn = first + Math.atan2(Math.sin(last - first), Math.cos(last - first)) * ease;
  const [[a, b], [c, d]] = [from, to].map((motion) => MM.toScreen(moved(middle, motion)));
  const [x, y] = MM.toScreen(middle);
  return `translate(${a + (c - a) * ease} ${b + (d - b) * ease}) rotate(${-turn * 180 / Math.PI}) `
    + `translate(${-x} ${-y})`;
}

/**
 * A place after a motion.
 * @param {Place} place
 * @param {number[]} motion
 * @returns {Place}
 */
function moved([x, y], [cos, sin, dx, dy]) {
  return [cos * x - sin * y + dx, sin * x + cos * y + dy];
}
