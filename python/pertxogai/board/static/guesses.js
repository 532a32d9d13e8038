// @ts-check
/**
 * What is nearly so where a hand draws or lets go: each is a constraint in the drawing's words,
 * which is shown as a small sign, and asked for on the click. Whether it may be asked for, the
 * server says.
 */
import { apart, awayFrom, middleOf } from './shapes.js';

/** @typedef {import('./board.js').Board} Board */
/** @typedef {import('./page').Place} Place */
/** @typedef {import('./protocol').Shape} Shape */
/** @typedef {import('./tools.js').Click} Click */
/** @typedef {import('./tools.js').Spot} Spot */

/**
 * A constraint that is nearly so: its words, in which `*` stands for the figure that is drawn and
 * `@` for the point of it that is clicked, and where its signs are shown, in millimetres.
 * @typedef {{ words: string[], at: Place[] }} Guess
 */
/**
 * Where a hand aims: a spot and its place in millimetres, whether it is a point that stands, and
 * what is nearly so there; plain, where it is to be just that place.
 * @typedef {{ spot: Spot, at: Place, isPoint: boolean, guesses: Guess[], plain?: boolean }} Aim
 */
/** @typedef {{ name: string, start: Place, end: Place }} Edge */

/** How a constraint is shown, by its word, as the server's marks are. */
export const SIGNS = {
  horizontal: '―', vertical: '|', parallel: '∥', perpendicular: '⊥', equal: '=', tangent: '◠',
  midpoint: '△', coincident: '●', on: '×',
};

/** Pixels within which a place is taken as one on an edge, or in the middle of a segment. */
const NEAR_EDGE = 7;
const NEAR_MIDDLE = 8;
/** The most pixels that a segment's end may lie beside a direction, a length or a touch. */
const ASIDE = 7;
const LENGTH = 4;
/** The sines within which a direction is nearly so: 5 degrees, and 2 where it is only parallel. */
const TURNED = Math.sin(5 * Math.PI / 180);
const PARALLEL = Math.sin(2 * Math.PI / 180);
/** The fewest pixels that a segment is long before anything is guessed of it. */
const SHORT = 12;
const LEVEL = /** @type {Place} */ ([1, 0]);
const UPRIGHT = /** @type {Place} */ ([0, 1]);

/** Finds what is nearly so on a board. */
export class Guesses {
  /** @param {Board} board */
  constructor(board) {
    this.board = board;
  }

  /** The shapes of the board. */
  get shapes() {
    return this.board.answer.drawing.shapes;
  }

  /**
   * A place in pixels as one on the grid, with nothing guessed.
   * @param {Place} pixels
   * @returns {Aim}
   */
  plain(pixels) {
    const { plane } = this.board;
    return free(plane.rounded(plane.toPlane(pixels)), []);
  }

  /**
   * Where a hand that draws aims at a place in pixels, by the tool and what was clicked before.
   * @param {import('./tools.js').Hand} hand
   * @param {Place} pixels
   * @returns {Aim}
   */
  ofHand({ tool, clicks: [first, second] }, pixels) {
    if (tool === 'arc' && second) return this.ofArc(first, second, pixels);
    if (tool === 'slot' && second) return this.plain(pixels);
    if (tool === 'circle' && first) return this.ofRim(first, pixels);
    return first ? this.ofNext(tool, first, this.aim(pixels)) : this.aim(pixels);
  }

  /**
   * The aim at the second click of a tool.
   * @param {import('./tools.js').Tool} tool
   * @param {Click} first
   * @param {Aim} aim
   */
  ofNext(tool, first, aim) {
    switch (tool) {
      case 'slot': return this.ofCentres(first, aim);
      case 'tangent-arc': return this.ofTangentArc(first, aim);
      case 'segment': return this.ofSegment(first, aim);
      default: return aim;
    }
  }

  /**
   * The aim at the second centre of a slot that begins with a click: level or upright, where it
   * nearly is.
   * @param {Click} first
   * @param {Aim} aim
   * @returns {Aim}
   */
  ofCentres(first, aim) {
    const way = minus(aim.at, first.at);
    const word = this.isAlong(way, LEVEL, TURNED) ? 'horizontal' : 'vertical';
    const along = word === 'horizontal' ? LEVEL : UPRIGHT;
    if (!this.isAlong(way, along, TURNED)) return aim;
    const isFree = !aim.isPoint && !aim.guesses.length;
    const at = isFree ? foot(aim.at, lineAlong(first.at, along)) : aim.at;
    const guess = { words: [word, '*Start.centre', '*End.centre'], at: [middleOf([first.at, at])] };
    const guesses = [...aim.guesses, guess];
    return { ...aim, ...(isFree && { spot: spotAt(at), at: rounded(at) }), guesses };
  }

  /**
   * Where a hand aims at a place in pixels: a point that is near, the middle of a segment, a place
   * on an edge, or one on the grid. `except` are points and shapes that don't count.
   * @param {Place} pixels
   * @param {Set<string>} [except]
   * @returns {Aim}
   */
  aim(pixels, except = new Set()) {
    const near = this.board.nearPoint(pixels, except);
    if (near) return { spot: { point: near.name }, at: near.at, isPoint: true, guesses: [] };
    return this.atMiddle(pixels, except) ?? this.onEdge(pixels, except) ?? this.plain(pixels);
  }

  /**
   * The aim at the other end of an arc that goes on from a click: what is guessed there is said of
   * the end that it is.
   * @param {Click} first
   * @param {Aim} aim
   * @returns {Aim}
   */
  ofTangentArc(first, aim) {
    const way = this.wayOn(first);
    const [x, y] = minus(aim.at, first.at);
    const end = way && way[0] * y + way[1] * x < 0 ? '*.start' : '*.end';
    const guesses = aim.guesses.map(({ words, at }) => ({
      words: words.map((word) => (word === '@' ? end : word)), at }));
    return { ...aim, guesses };
  }

  /**
   * The direction, in pixels and of length 1, in which the edge that ends in a click goes on beyond
   * it; null where none does. Of several it is the one that is drawn last.
   * @param {Click | undefined} click
   * @returns {Place | null}
   */
  wayOn(click) {
    const shape = click && this.shapes.filter((each) => this.endIn(each, click.at)).at(-1);
    if (!shape) return null;
    const { points } = this.board.shown.viewOf(shape);
    const isEnd = this.endIn(shape, click.at) === 'end';
    const [near, far] = isEnd ? ['end', 'start'] : ['start', 'end'];
    const centre = points[`${shape.name}.centre`];
    const [x, y] = minus(points[`${shape.name}.${near}`], centre ?? points[`${shape.name}.${far}`]);
    const [u, v] = !centre ? [x, y] : isEnd ? [-y, x] : [y, -x];
    const long = Math.hypot(u, v) || 1;
    return [u / long, -v / long];
  }

  /**
   * Which end of a segment or an arc is shown at a place; null where none is.
   * @param {Shape} shape
   * @param {Place} at
   */
  endIn({ name }, at) {
    return ['end', 'start'].find((which) => {
      const place = this.board.shown.at(`${name}.${which}`);
      return place && apart(place, at) < 1e-6;
    }) ?? null;
  }

  /**
   * The middle of a segment that a place in pixels is near to.
   * @param {Place} pixels
   * @param {Set<string>} except
   */
  atMiddle(pixels, except) {
    for (const edge of this.edges().filter(({ name }) => !except.has(name))) {
      const at = middleOf([edge.start, edge.end]);
      if (apart(this.board.plane.toScreen(at), pixels) < NEAR_MIDDLE) {
        return free(rounded(at), [{ words: ['midpoint', '@', edge.name], at: [at] }]);
      }
    }
    return null;
  }

  /**
   * A place on an edge, or on an axis, that a place in pixels is near to.
   * @param {Place} pixels
   * @param {Set<string>} except
   */
  onEdge(pixels, except) {
    const { plane, shown } = this.board;
    const grid = plane.rounded(plane.toPlane(pixels));
    const shape = this.shapes.find((each) => !except.has(each.name)
      && awayFrom(each, shown.viewOf(each), plane, pixels) < NEAR_EDGE);
    if (shape) return this.on(shape.name, this.nearest(shape, grid));
    if (Math.abs(pixels[1] - plane.y) < NEAR_EDGE) return this.on('XAxis', [grid[0], 0]);
    if (Math.abs(pixels[0] - plane.x) < NEAR_EDGE) return this.on('YAxis', [0, grid[1]]);
    return null;
  }

  /**
   * An aim at a place on an edge of that name.
   * @param {string} name
   * @param {Place} at
   */
  on(name, at) {
    return free(rounded(at), [{ words: ['on', '@', name], at: [at] }]);
  }

  /**
   * The place on the edge of a shape that is nearest to another.
   * @param {Shape} shape
   * @param {Place} place
   * @returns {Place}
   */
  nearest(shape, place) {
    const edge = this.edgeOf(shape);
    if (edge) return foot(place, edge);
    const rim = this.rimOf(shape);
    return rim ? onRim(place, rim) : place;
  }

  /** The segments of the board, where they are shown. */
  edges() {
    return this.shapes.flatMap((shape) => this.edgeOf(shape) ?? []);
  }

  /**
   * A segment where it is shown; null of another shape.
   * @param {Shape} shape
   * @returns {Edge | null}
   */
  edgeOf(shape) {
    if (shape.kind !== 'segment') return null;
    const { points } = this.board.shown.viewOf(shape);
    const { name } = shape;
    return { name, start: points[`${name}.start`], end: points[`${name}.end`] };
  }

  /**
   * The rim of a circle or an arc where it is shown; null of another shape.
   * @param {Shape} shape
   * @returns {{ name: string, centre: Place, radius: number } | null}
   */
  rimOf(shape) {
    if (shape.kind !== 'circle' && shape.kind !== 'arc') return null;
    const { points, radii } = this.board.shown.viewOf(shape);
    const { name } = shape;
    const radius = radii[name] ?? shape.radius ?? 0;
    return { name, centre: points[`${name}.centre`], radius };
  }

  /** The rims of all circles and arcs. */
  rims() {
    return this.shapes.flatMap((shape) => this.rimOf(shape) ?? []);
  }

  /**
   * The aim at the end of a segment that begins with a click: the direction and the length that it
   * nearly has are asked for too, and where the end is free it is drawn so.
   * @param {Click} first
   * @param {Aim} aim
   * @returns {Aim}
   */
  ofSegment(first, aim) {
    const long = this.pixels(apart(first.at, aim.at));
    if (long < SHORT) return aim;
    const direction = this.direction(first, aim);
    const isFree = !aim.isPoint && !aim.guesses.length;
    const along = direction && isFree ? foot(aim.at, lineAlong(first.at, direction.way)) : aim.at;
    const equal = this.equal(first, along);
    const at = equal && isFree ? lengthened(first.at, along, equal.length) : along;
    const touched = direction?.words[0] === 'tangent' ? direction.words[2] : null;
    const middle = middleOf([first.at, at]);
    const guesses = aim.guesses.filter((each) => each.words[2] !== touched);
    for (const each of [direction, equal]) {
      if (each) guesses.push({ words: each.words, at: [middle, ...each.at] });
    }
    return { ...aim, ...(isFree && { spot: spotAt(at), at: rounded(at) }), guesses };
  }

  /**
   * The direction that a segment nearly has: level, upright, touching a rim at its start or its
   * end, square to an edge there, or parallel to another.
   * @param {Click} first
   * @param {Aim} aim
   * @returns {{ way: Place, words: string[], at: Place[] } | null}
   */
  direction(first, aim) {
    const way = minus(aim.at, first.at);
    const isNear = (/** @type {Place} */ other, sine = TURNED) => this.isAlong(way, other, sine);
    if (isNear(LEVEL)) return { way: LEVEL, words: ['horizontal', '*'], at: [] };
    if (isNear(UPRIGHT)) return { way: UPRIGHT, words: ['vertical', '*'], at: [] };
    const ends = [first, aim];
    const rim = this.rims().find((each) => ends.some((end) => this.meets(end, each.name)
      && isNear(square(minus(end.at, each.centre)))));
    if (rim) return { way, words: ['tangent', '*', rim.name], at: [] };
    const edges = this.edges();
    const crossed = edges.find((each) => ends.some((end) => this.meets(end, each.name))
      && isNear(square(minus(each.end, each.start))));
    if (crossed) {
      return related('perpendicular', crossed, square(minus(crossed.end, crossed.start)));
    }
    const beside = edges.find((each) => !ends.some((end) => this.meets(end, each.name))
      && isNear(minus(each.end, each.start), PARALLEL));
    return beside ? related('parallel', beside, minus(beside.end, beside.start)) : null;
  }

  /**
   * The length of an edge that meets the start of a segment, where the segment nearly has it.
   * @param {Click} first
   * @param {Place} end
   */
  equal(first, end) {
    const long = apart(first.at, end);
    const edge = this.edges().find((each) => this.meets(first, each.name)
      && this.pixels(Math.abs(apart(each.start, each.end) - long)) < LENGTH);
    if (!edge) return null;
    const length = apart(edge.start, edge.end);
    return { length, words: ['equal', edge.name, '*'], at: [middleOf([edge.start, edge.end])] };
  }

  /**
   * The aim at the rim of a circle about a click: through a point, touching an edge or a rim, or as
   * large as another circle.
   * @param {Click} first
   * @param {Place} pixels
   * @returns {Aim}
   */
  ofRim(first, pixels) {
    const { plane } = this.board;
    const point = this.board.nearPoint(pixels, new Set(['Origin']));
    if (point && apart(point.at, first.at) > 0) {
      const guess = { words: ['on', point.name, '*'], at: [point.at] };
      return { ...free(point.at, [guess]), isPoint: true };
    }
    const isNear = (/** @type {Place} */ at) => apart(plane.toScreen(at), pixels) < ASIDE;
    const touch = this.touches(first.at).find(({ at }) => isNear(at) && apart(at, first.at) > 0);
    if (touch) return free(touch.at, [{ words: ['tangent', touch.name, '*'], at: [touch.at] }]);
    const plain = this.plain(pixels);
    const radius = apart(first.at, plain.at);
    const same = this.rims().find(
      (each) => this.pixels(Math.abs(each.radius - radius)) < LENGTH && each.radius > 0);
    if (!same || !radius) return plain;
    const at = lengthened(first.at, plain.at, same.radius);
    return free(rounded(at), [{ words: ['equal', same.name, '*'], at: [at, same.centre] }]);
  }

  /**
   * Where a circle about a centre would touch each edge and rim.
   * @param {Place} centre
   */
  touches(centre) {
    const edges = this.edges().map((each) => ({ name: each.name, at: foot(centre, each) }));
    const rims = this.rims().filter((each) => apart(each.centre, centre) > 0).map(
      (each) => ({ name: each.name, at: onRim(centre, each) }));
    return [...edges, ...rims];
  }

  /**
   * The aim at a place on an arc between two clicks: where it nearly touches a segment that it
   * begins or ends with, it is drawn so.
   * @param {Click} first
   * @param {Click} second
   * @param {Place} pixels
   * @returns {Aim}
   */
  ofArc(first, second, pixels) {
    const plain = this.plain(pixels);
    const { plane } = this.board;
    for (const [one, other] of [[first, second], [second, first]]) {
      for (const edge of this.edges().filter((each) => this.meets(one, each.name))) {
        const centre = centreOf(one.at, other.at, minus(edge.end, edge.start));
        const at = centre && onRim(plain.at, { centre, radius: apart(centre, one.at) });
        if (at && apart(plane.toScreen(at), pixels) < 2 * ASIDE) {
          return free(at, [{ words: ['tangent', edge.name, '*'], at: [one.at] }]);
        }
      }
    }
    return plain;
  }

  /**
   * Whether a click or an aim lies in an end of an edge, or is one on it.
   * @param {Click | Aim} end
   * @param {string} name
   */
  meets(end, name) {
    if (end.guesses.some(({ words }) => words[2] === name)) return true;
    if (!('point' in end.spot)) return false;
    const shape = this.shapes.find((each) => each.name === name);
    const { at } = end;
    return ['start', 'end'].some((which) => {
      const place = shape && this.board.shown.at(`${name}.${which}`);
      return place !== undefined && apart(place, at) < 1e-6;
    });
  }

  /**
   * Whether a way runs along another, either way round: within a sine, and some pixels at its end.
   * @param {Place} way
   * @param {Place} other
   * @param {number} sine
   */
  isAlong(way, other, sine) {
    const [long, off] = [Math.hypot(...way), Math.hypot(...other)];
    if (!long || !off) return false;
    const aside = Math.abs(way[0] * other[1] - way[1] * other[0]) / off;
    return aside <= sine * long && this.pixels(aside) <= ASIDE;
  }

  /**
   * A length in pixels.
   * @param {number} length
   */
  pixels(length) {
    return length * this.board.plane.scale;
  }
}

/**
 * The sign of a guess.
 * @param {Guess} guess
 */
export function signOf({ words: [word] }) {
  return /** @type {Record<string, string>} */ (SIGNS)[word] ?? '';
}

/**
 * An aim at a place of its own.
 * @param {Place} at
 * @param {Guess[]} guesses
 * @returns {Aim}
 */
function free(at, guesses) {
  return { spot: spotAt(at), at, isPoint: false, guesses };
}

/**
 * The spot of a place of its own.
 * @param {Place} place
 */
function spotAt(place) {
  const [x, y] = rounded(place);
  return { x, y };
}

/**
 * A direction that is told by an edge.
 * @param {string} word
 * @param {Edge} edge
 * @param {Place} way
 */
function related(word, edge, way) {
  return { way, words: [word, '*', edge.name], at: [middleOf([edge.start, edge.end])] };
}

/**
 * A place, to a micrometre.
 * @param {Place} place
 * @returns {Place}
 */
function rounded([x, y]) {
  return [Math.round(x * 1000) / 1000, Math.round(y * 1000) / 1000];
}

/**
 * The way from one place to another.
 * @param {Place} to
 * @param {Place} from
 * @returns {Place}
 */
function minus([x, y], [u, v]) {
  return [x - u, y - v];
}

/**
 * The way that is square to one.
 * @param {Place} way
 * @returns {Place}
 */
function square([x, y]) {
  return [-y, x];
}

/**
 * A line through a place, a way.
 * @param {Place} start
 * @param {Place} way
 */
function lineAlong(start, [dx, dy]) {
  return { start, end: /** @type {Place} */ ([start[0] + dx, start[1] + dy]) };
}

/**
 * The foot of a place on a line through two others.
 * @param {Place} place
 * @param {{ start: Place, end: Place }} line
 * @returns {Place}
 */
function foot([x, y], { start: [a, b], end: [c, d] }) {
  const [u, v] = [c - a, d - b];
  const share = ((x - a) * u + (y - b) * v) / (u * u + v * v || 1);
  return [a + u * share, b + v * share];
}

/**
 * The place of a rim that is nearest to another.
 * @param {Place} place
 * @param {{ centre: Place, radius: number }} rim
 * @returns {Place}
 */
function onRim(place, { centre, radius }) {
  return lengthened(centre, place, radius);
}

/**
 * The place so far from one, on the way to another.
 * @param {Place} from
 * @param {Place} to
 * @param {number} length
 * @returns {Place}
 */
function lengthened(from, to, length) {
  const long = apart(from, to) || 1;
  const [dx, dy] = minus(to, from);
  return [from[0] + dx * length / long, from[1] + dy * length / long];
}

/**
 * The centre of the circle through two places that runs a way at the first; null where it would be
 * a line.
 * @param {Place} first
 * @param {Place} second
 * @param {Place} way
 * @returns {Place | null}
 */
function centreOf(first, second, way) {
  const [x, y] = square(way);
  const [u, v] = minus(second, first);
  const across = 2 * (x * u + y * v);
  if (Math.abs(across) < 1e-9 * Math.hypot(x, y) * Math.hypot(u, v)) return null;
  const share = (u * u + v * v) / across;
  return [first[0] + x * share, first[1] + y * share];
}
