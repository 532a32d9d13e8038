// @ts-check
/** The dimensions and signs of constraints, as what SVG nodes are made of. */
import { middleOf, shifted, spot } from './shapes.js';
import { Taken, halfWidth } from './taken.js';

/** @typedef {import('./page').Chosen} Chosen */
/** @typedef {import('./page').Place} Place */
/** @typedef {import('./page').PlacedMark} PlacedMark */
/** @typedef {import('./protocol').Mark} Mark */

/** How far in pixels a bar may stand beside what it measures. */
const AWAYS = Array.from({ length: 15 }, (_, place) => 24 + 19 * place);
/**
 * How far in pixels a text may stand from its place.
 * @type {Place[]}
 */
const TEXT_STEPS = [[0, -18], [0, 18], [34, 0], [-34, 0], [0, -36], [0, 36]];
/**
 * How far a sign may stand from its place.
 * @type {Place[]}
 */
const SIGN_STEPS = [[11, -12], [-11, -12], [11, 12], [-11, 12], [24, -12], [24, 12], [37, -12],
  [50, -12]];
/**
 * How far a sign stands along an edge and beside it, so that it takes no click of the edge.
 * @type {Place[]}
 */
const BESIDE_STEPS = [[0, -17], [0, 17], [18, -17], [-18, -17], [18, 17], [-18, 17], [36, -17],
  [36, 17]];

/** How far in pixels the text of a rim may stand beside it, and how far round. */
const LEADERS = [26, 44, 62, 84, 110];
const ROUND = [0, 90, 270, 180, 30, -30, 60, -60].map((each) => each * Math.PI / 180);
/** How far in pixels the arc of an angle may lie from its corner. */
const ARCS = [30, 46, 62, 78, 94, 110, 126];
/** So far in pixels a text goes aside where it finds no other place. */
const FURTHER = [36, 54, 72, 90, 108, 126, 144, 162, 180];

/**
 * Where the labels of dimensions stand while a hand drags one, by the numbers of their marks.
 * @typedef {Map<number, Place>} Dragged
 */
/** @typedef {Omit<PlacedMark, 'number' | 'key'>} Made */
/**
 * Where marks stand.
 * @typedef {Map<Mark, PlacedMark>} Standing
 */
/**
 * The places that a text may take: how many there are, each by its number from 0, and the number of
 * that which it takes where none is free.
 * @typedef {{ count: number, at: (number: number) => Place, last: number }} Spots
 */
/**
 * Which way a bar runs, how long it is in pixels, how far along from its middle its text stands,
 * and that text.
 * @typedef {{ way: Place, length: number, along: number, text: string }} Bar
 */

/** Finds places for the marks of an answer; those that are taken make the next one step aside. */
export class Marks {
  taken = new Taken();
  /** @type {Standing} */
  standing = new Map();

  /**
   * @param {import('./view.js').View} plane
   * @param {Dragged} [dragged]
   */
  constructor(plane, dragged = new Map()) {
    this.plane = plane;
    this.dragged = dragged;
  }

  /**
   * All marks with their places: those whose place the drawing says first, then bars. Marks that
   * are `kept` stay where they stand; others of the same keys go along, on the side of what they
   * mark where they stood, while they lie over no more there.
   * @param {(Mark & { line?: string })[]} marks
   * @param {Standing} [kept]
   * @returns {PlacedMark[]}
   */
  all(marks, kept = new Map()) {
    const told = new Set(marks.filter((mark) => this.labelOf(mark)));
    const bars = marks.filter((mark) => mark.bar && !told.has(mark));
    const others = marks.filter((mark) => !mark.bar && !told.has(mark));
    const all = [...told, ...bars, ...others];
    for (const mark of all) {
      const placed = kept.get(mark);
      if (placed) this.stand(mark, placed);
    }
    const before = new Map([...kept.values()].map(({ key, chosen }) => [key, chosen]));
    const keys = keysOf(all);
    return all.map((mark, place) => this.standing.get(mark)
      ?? this.stand(mark, this.placed(mark, keys[place], before.get(keys[place]))));
  }

  /**
   * A mark at its place, with what it is of.
   * @param {Mark & { line?: string }} mark
   * @param {string} key
   * @param {Chosen} [had]
   * @returns {PlacedMark}
   */
  placed(mark, key, had) {
    const { number, sign, line } = mark;
    return { key, number, sign, line, ...this.made(mark, had) };
  }

  /**
   * A mark stands from now on, and takes its room.
   * @param {Mark} mark
   * @param {PlacedMark} placed
   */
  stand(mark, placed) {
    this.standing.set(mark, placed);
    this.taken.addText(placed.at, placed.text);
    if (placed.ends) this.taken.addBar(placed.ends);
    return placed;
  }

  /**
   * A mark at its place.
   * @param {Mark} mark
   * @param {Chosen} [had]
   * @returns {Made}
   */
  made(mark, had) {
    if (mark.bar) return this.bar(mark, mark.bar, had);
    if (mark.centre) return this.leader(mark, mark.centre, had);
    return mark.turn ? this.angle(mark, mark.turn, had) : this.tag(mark, had);
  }

  /**
   * The first of some places where a text is free; or that which it had before, if it is one of
   * them, while it lies over no more there.
   * @param {string} text
   * @param {Spots} spots
   * @param {Chosen} [had]
   * @returns {Chosen}
   */
  pick(text, { count, at, last }, had) {
    const isKept = had && had.place < count;
    if (isKept && (!had.free || this.taken.isFree(at(had.place), text))) return had;
    for (let place = 0; place < count; place += 1) {
      if (this.taken.isFree(at(place), text)) return { place, free: 1 };
    }
    return { place: last, free: 0 };
  }

  /**
   * Where the drawing says that a label stands, or a hand holds it, in pixels from where its
   * dimension is measured; null where it stands by itself.
   * @param {Mark} mark
   * @returns {Place | null}
   */
  labelOf({ number, label, sign }) {
    const told = sign ? undefined : this.dragged.get(number) ?? label;
    return told ? [told[0] * this.plane.scale, -told[1] * this.plane.scale] : null;
  }

  /**
   * A bar between two places, beside what it measures, with its text.
   * @param {Mark} mark
   * @param {[Place, Place]} measured
   * @param {Chosen} [had]
   * @returns {Made}
   */
  bar(mark, measured, had) {
    const { text = '' } = mark;
    const [start, end] = [this.plane.toScreen(measured[0]), this.plane.toScreen(measured[1])];
    const length = Math.hypot(end[0] - start[0], end[1] - start[1]) || 1;
    /** @type {Place} */
    const way = [(end[0] - start[0]) / length, (end[1] - start[1]) / length];
    const beside = ends(start, end, way);
    const label = this.labelOf(mark);
    const along = label ? label[0] * way[0] + label[1] * way[1]
      : length < 2 * halfWidth(text) + 20 ? length / 2 + halfWidth(text) + 6 : 0;
    const bar = { way, length, along, text };
    const chosen = label ? undefined : this.open(beside, bar, had);
    const [a, b] = label ? beside(label[1] * way[0] - label[0] * way[1])
      : beside(AWAYS[chosen?.place ?? 0]);
    const at = textAt([a, b], bar);
    const [one, other] = [from(at, a), from(at, b)];
    const reach = Math.abs(along) > length / 2 ? `M${one}L0 0` : '';
    const path = `M${from(at, start)}L${one}M${from(at, end)}L${other}M${one}L${other}${reach}`
      + `${tip(one, way)}${tip(other, [-way[0], -way[1]])}`;
    return { path, text, at, base: middleOf(measured), ends: [a, b], chosen };
  }

  /**
   * The first place beside what a bar measures where it and its text lie over no other; else where
   * the text does. Or that which it had before, while it lies over no more there.
   * @param {(away: number) => [Place, Place]} beside
   * @param {Bar} bar
   * @param {Chosen} [had]
   * @returns {Chosen}
   */
  open(beside, bar, had) {
    const isKept = had && had.place < AWAYS.length;
    if (isKept && this.isOpen(beside(AWAYS[had.place]), bar, had.free)) return had;
    let free = null;
    for (const [place, away] of AWAYS.entries()) {
      const ends = beside(away);
      if (!this.isOpen(ends, bar, 1)) continue;
      if (this.taken.isAlone(ends, bar.way, bar.length)) return { place, free: 2 };
      free ??= place;
    }
    return free === null ? { place: 0, free: 0 } : { place: free, free: 1 };
  }

  /**
   * Whether between two places so much of a bar lies over no other: 1 its text, 2 all of it.
   * @param {[Place, Place]} ends
   * @param {Bar} bar
   * @param {number} free
   */
  isOpen(ends, bar, free) {
    if (free > 0 && !this.taken.isFree(textAt(ends, bar), bar.text)) return false;
    return free < 2 || this.taken.isAlone(ends, bar.way, bar.length);
  }

  /**
   * A text beside a rim, with a leader to it.
   * @param {Mark} mark
   * @param {Place} centre
   * @param {Chosen} [had]
   * @returns {Made}
   */
  leader(mark, centre, had) {
    const { text = '', at: base = centre } = mark;
    const [middle, rim] = [this.plane.toScreen(centre), this.plane.toScreen(base)];
    const radius = Math.hypot(rim[0] - middle[0], rim[1] - middle[1]) || 1;
    const turn = Math.atan2(rim[1] - middle[1], rim[0] - middle[0]);
    const label = this.labelOf(mark);
    const rounds = mark.whole ? ROUND.length : 1;
    const near = LEADERS.length * rounds;
    const spots = { ...further(near), at: (/** @type {number} */ place) => (place < near
      ? aboutAt(middle, radius + LEADERS[Math.floor(place / rounds)], turn + ROUND[place % rounds])
      : furtherAt(rim, place - near)) };
    const chosen = label ? undefined : this.pick(text, spots, had);
    /** @type {Place} */
    const at = label ? [rim[0] + label[0], rim[1] + label[1]] : spots.at(chosen?.place ?? 0);
    const foot = mark.whole
      ? aboutAt(middle, radius, Math.atan2(at[1] - middle[1], at[0] - middle[0])) : rim;
    const long = Math.hypot(at[0] - foot[0], at[1] - foot[1]) || 1;
    /** @type {Place} */
    const way = [(at[0] - foot[0]) / long, (at[1] - foot[1]) / long];
    const begin = from(at, foot);
    return { path: `M${begin}L0 0${tip(begin, way)}`, text, at, base, chosen };
  }

  /**
   * A text at an arc about a corner.
   * @param {Mark} mark
   * @param {Place} turn
   * @param {Chosen} [had]
   * @returns {Made}
   */
  angle(mark, [first, sweep], had) {
    const { text = '', at: base = [0, 0] } = mark;
    const corner = this.plane.toScreen(base);
    const label = this.labelOf(mark);
    const middle = -(first + sweep / 2);
    const beside = (/** @type {number} */ r) => aboutAt(
      corner, r + 6 + halfWidth(text) / 2, middle);
    const spots = { count: ARCS.length, last: 0,
      at: (/** @type {number} */ place) => beside(ARCS[place]) };
    const chosen = label ? undefined : this.pick(text, spots, had);
    const radius = label ? Math.max(12, Math.hypot(...label) - 6 - halfWidth(text) / 2)
      : ARCS[chosen?.place ?? 0];
    /** @type {Place} */
    const at = label ? [corner[0] + label[0], corner[1] + label[1]] : beside(radius);
    const [start, end] = [-first, -(first + sweep)].map(
      (each) => from(at, aboutAt(corner, radius, each)));
    const bow = `M${start}A${radius} ${radius} 0 ${sweep > Math.PI ? 1 : 0} 0 ${end}`;
    return { path: `${bow}L${end}`, text, at, base, isOpen: true, chosen };
  }

  /**
   * A text or a sign near a place.
   * @param {Mark} mark
   * @param {Chosen} [had]
   * @returns {Made}
   */
  tag(mark, had) {
    const text = mark.text ?? mark.sign ?? '';
    const base = mark.at ?? [0, 0];
    const place = this.plane.toScreen(base);
    const [x, y] = place;
    const label = this.labelOf(mark);
    if (label) return { path: null, text, at: [x + label[0], y + label[1]], base };
    const steps = stepsOf(mark);
    const spots = { ...further(steps.length),
      at: (/** @type {number} */ number) => stepped(place, steps, number) };
    const chosen = this.pick(text, spots, had);
    return { path: null, text, at: spots.at(chosen.place), base, chosen };
  }
}

/**
 * A key for each of some marks: the number of what it is of, and which mark of that it is.
 * @param {Mark[]} marks
 */
function keysOf(marks) {
  /** @type {Map<number, number>} */
  const counts = new Map();
  return marks.map(({ number }) => {
    const count = counts.get(number) ?? 0;
    counts.set(number, count + 1);
    return `${number} ${count}`;
  });
}

/**
 * How many places there are for a text behind so many near ones, and that where none is free.
 * @param {number} near
 */
function further(near) {
  return { count: near + FURTHER.length * ROUND.length, last: near };
}

/**
 * One of the places that are further from another.
 * @param {Place} place
 * @param {number} number
 */
function furtherAt(place, number) {
  const turn = ROUND[number % ROUND.length] - Math.PI / 2;
  return aboutAt(place, FURTHER[Math.floor(number / ROUND.length)], turn);
}

/**
 * A place, by one of some steps aside; behind these one that is further.
 * @param {Place} place
 * @param {Place[]} steps
 * @param {number} number
 * @returns {Place}
 */
function stepped(place, steps, number) {
  if (number >= steps.length) return furtherAt(place, number - steps.length);
  return [place[0] + steps[number][0], place[1] + steps[number][1]];
}

/**
 * A place so far from a centre, in a direction.
 * @param {Place} centre
 * @param {number} away
 * @param {number} turn
 * @returns {Place}
 */
function aboutAt([x, y], away, turn) {
  return [x + away * Math.cos(turn), y + away * Math.sin(turn)];
}

/**
 * A place as the path of a mark has it, from where the text stands.
 * @param {Place} at
 * @param {Place} place
 */
function from([x, y], [u, v]) {
  return spot([u - x, v - y]);
}

/**
 * Where the text of a bar between two places stands.
 * @param {[Place, Place]} ends
 * @param {Bar} bar
 * @returns {Place}
 */
function textAt(ends, { way, along }) {
  const [x, y] = middleOf(ends);
  return [x + way[0] * along, y + way[1] * along];
}

/**
 * The steps by which a text or a sign may go aside.
 * @param {Mark} mark
 * @returns {Place[]}
 */
function stepsOf(mark) {
  if (mark.way) return beside(mark.way);
  return mark.sign ? SIGN_STEPS : TEXT_STEPS;
}

/**
 * The ends of a bar that stands beside two places, by how far it does.
 * @param {Place} start
 * @param {Place} end
 * @param {Place} way
 * @returns {(away: number) => [Place, Place]}
 */
function ends([x, y], [u, v], way) {
  return (away) => {
    const [dx, dy] = [-way[1] * away, way[0] * away];
    return [[x + dx, y + dy], [u + dx, v + dy]];
  };
}

/**
 * The steps beside an edge that runs a way, in pixels: those to its left first, since bars stand to
 * its right.
 * @param {Place} way
 * @returns {Place[]}
 */
function beside([dx, dy]) {
  return BESIDE_STEPS.map(([along, aside]) => [dx * along + dy * aside, dx * aside - dy * along]);
}

/**
 * The places in millimetres that a dimension takes whose label stands where the drawing says: that
 * of its text, and the ends of its bar.
 * @param {Mark} mark
 * @returns {Place[]}
 */
export function toldPlaces({ at = [0, 0], bar, label }) {
  if (!label) return [];
  const [x, y] = bar ? middleOf(bar) : at;
  /** @type {Place} */
  const text = [x + label[0], y + label[1]];
  if (!bar) return [text];
  const [[a, b], [c, d]] = bar;
  const length = Math.hypot(c - a, d - b) || 1;
  const [u, v] = [(b - d) / length, (c - a) / length];
  const away = label[0] * u + label[1] * v;
  return [text, [a + u * away, b + v * away], [c + u * away, d + v * away]];
}

/**
 * A placed mark, in classes, with what is told of it where a hand rests on it.
 * @param {PlacedMark} mark
 * @param {string} kind
 * @param {string} [told]
 * @returns {import('./page').Keyed}
 */
export function markMade({ key, number, sign, path, text, at, isOpen }, kind, told) {
  return [key, 'g', { class: kind, 'data-constraint': number, transform: shifted(at) },
    told && ['title', {}, told],
    path && ['path', { class: isOpen ? 'mark open' : 'mark', d: path }],
    ['text', { class: sign ? 'sign' : 'value' }, text]];
}

/**
 * A placed mark of what is proposed: a button, with its line where a hand rests on it. Another line
 * is another button, without the focus.
 * @param {PlacedMark} mark
 * @returns {import('./page').Keyed}
 */
export function proposedMade({ key, number, sign, path, text, line, at }) {
  return [`${key} ${line}`, 'g', { class: 'proposedmark', 'data-proposed': number, role: 'button',
    tabindex: 0, transform: shifted(at), 'aria-label': `add ${line}` },
  ['title', {}, `${line}: click adds it, Enter asks for another value`],
  path && ['path', { class: 'mark', d: path }],
  ['text', { class: sign ? 'sign' : 'value' }, text]];
}

/**
 * A placed mark of what must fit: a button, with what is told of it where a hand rests on it.
 * @param {PlacedMark} mark
 * @param {import('./protocol').Checked} checked
 * @param {boolean} isOpen
 * @returns {import('./page').Keyed}
 */
export function checkMade({ key, number, path, text, at, isOpen: open }, checked, isOpen) {
  const { name, words, answer, lines } = checked;
  return [`${key} ${name}`, 'g', { class: `checkmark ${answer}`, 'data-check': number,
    role: 'button', tabindex: 0, transform: shifted(at), 'aria-expanded': isOpen,
    'aria-label': `check ${name}: ${lines.join('; ')}` },
  ['title', {}, `${name}: ${words}\n${lines.join('\n')}`],
  path && ['path', { class: open ? 'mark open' : 'mark', d: path }],
  ['text', { class: 'value' }, text]];
}

/**
 * An arrow's tip at a place, as that is written in a path, pointing outwards.
 * @param {string} place
 * @param {Place} way
 */
function tip(place, [dx, dy]) {
  const [side, back] = [spot([dx * 8 - dy * 2.6, dy * 8 + dx * 2.6]), spot([dy * 5.2, -dx * 5.2])];
  return `M${place}l${side}l${back}Z`;
}
