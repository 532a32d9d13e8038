// @ts-check
/**
 * What is selected: points and shapes by their names, and constraints by their numbers. Listeners
 * hear 'change'.
 */

/** @typedef {import('./protocol').Drawing} Drawing */

/** What no edit moves: the origin and the axes. */
export const DATUM = ['Origin', 'XAxis', 'YAxis'];

export class Selection extends EventTarget {
  /** @type {Set<string>} */
  names = new Set();
  /** @type {Set<number>} */
  numbers = new Set();
  /** How many constraints there are. */
  length = 0;

  /** Whether nothing is selected. */
  get isEmpty() {
    return this.names.size + this.numbers.size === 0;
  }

  /**
   * Selects these alone.
   * @param {Iterable<string>} names
   * @param {Iterable<number>} [numbers]
   */
  set(names, numbers = []) {
    this.names = new Set(names);
    this.numbers = new Set(numbers);
    this.dispatchEvent(new Event('change'));
  }

  /**
   * Selects one thing alone; with `more` adds it, or takes it away where it is selected.
   * @param {string | number} thing
   * @param {boolean} more
   */
  take(thing, more) {
    const names = new Set(more ? this.names : []);
    const numbers = new Set(more ? this.numbers : []);
    if (typeof thing === 'number') toggle(numbers, thing);
    else toggle(names, thing);
    this.set(names, numbers);
  }

  /**
   * Adds those of some names that aren't selected, and takes away those that are.
   * @param {string[]} more
   */
  turn(more) {
    const names = new Set(this.names);
    for (const each of more) toggle(names, each);
    this.set(names, this.numbers);
  }

  /**
   * Selects all that is of the kind of something that is selected: shapes of one kind, edges or
   * lines of help, and constraints of one word.
   * @param {Drawing} drawing
   */
  alike({ shapes, constraints }) {
    const kinds = new Set(shapes.filter((each) => this.names.has(each.name)).map(kindOf));
    const words = new Set(constraints.filter((each) => this.numbers.has(each.number)).map(wordOf));
    const names = shapes.filter((each) => kinds.has(kindOf(each))).map((each) => each.name);
    const numbers = constraints.filter((each) => words.has(wordOf(each)));
    this.set([...this.names, ...names], numbers.map((each) => each.number));
  }

  /**
   * Forgets what no longer stands; where there are more or fewer constraints, their numbers too.
   * @param {Drawing} drawing
   */
  keep({ shapes, constraints: { length } }) {
    const isSame = length === this.length;
    this.length = length;
    if (this.isEmpty) return;
    const stands = new Set(namesOf(shapes));
    const names = [...this.names].filter((name) => stands.has(name));
    const numbers = isSame ? [...this.numbers] : [];
    const had = this.names.size + this.numbers.size;
    if (names.length + numbers.length < had) this.set(names, numbers);
  }
}

/**
 * The kind of a shape.
 * @param {Drawing['shapes'][number]} shape
 */
function kindOf({ kind, construction, outer }) {
  return `${kind} ${construction} ${outer}`;
}

/**
 * The word of a constraint.
 * @param {Drawing['constraints'][number]} constraint
 */
function wordOf({ words }) {
  return words.split(' ')[0];
}

/**
 * Adds a thing to a set, or takes it away where it is in it.
 * @template T
 * @param {Set<T>} things
 * @param {T} thing
 */
function toggle(things, thing) {
  if (!things.delete(thing)) things.add(thing);
}

/**
 * The names of some shapes and of their points, in their order, and those of the datum.
 * @param {Drawing['shapes']} shapes
 */
export function namesOf(shapes) {
  const names = shapes.flatMap((shape) => [shape.name, ...Object.keys(shape.points)]);
  return [...new Set(names), ...DATUM];
}
