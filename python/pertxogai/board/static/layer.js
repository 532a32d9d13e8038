// @ts-check
/**
 * A group whose nodes are kept while what they show stays the same, or is fitted to what they show.
 */

/** @typedef {import('./page').Made} Made */
/** @typedef {import('./page').Kept} Kept */

export class Layer {
  /** @type {Map<string | number, { from: unknown[], made: Made, node: Element }>} */
  kept = new Map();

  /**
   * `make` makes a node, as `svg` does; `fit` makes of one that shows something one that shows
   * something else, and gives whether it could.
   * @param {Element} node
   * @param {(...made: Made) => Element} make
   * @param {(node: Element, before: Made, made: Made) => boolean} [fit]
   */
  constructor(node, make, fit = () => false) {
    this.node = node;
    this.make = make;
    this.fit = fit;
  }

  /**
   * Shows things, each a key and what its node is made of.
   * @param {import('./page').Keyed[]} things
   */
  show(things) {
    this.update(things.map((each) => ({
      key: each[0], from: [JSON.stringify(each)], make: () => each })));
  }

  /**
   * Shows things, each a key, what its node comes from, and what makes it where that is another
   * than before.
   * @param {Kept[]} things
   */
  update(things) {
    const kept = new Map();
    for (const { key, from, make } of things) {
      const old = this.kept.get(key);
      kept.set(key, old && isSame(old.from, from) ? old : this.shown(old, from, make()));
    }
    for (const [key, { node }] of this.kept) if (kept.get(key)?.node !== node) node.remove();
    this.kept = kept;
    let next = this.node.firstChild;
    for (const { node } of kept.values()) {
      if (node === next) next = node.nextSibling;
      else this.node.insertBefore(node, next);
    }
  }

  /**
   * A thing as it is shown from now on: by the node that showed what it was before, or a new one.
   * @param {{ made: Made, node: Element } | undefined} old
   * @param {unknown[]} from
   * @param {import('./page').Keyed} thing
   */
  shown(old, from, [, ...made]) {
    const isKept = old && this.fit(old.node, old.made, made);
    return { from, made, node: isKept ? old.node : this.make(...made) };
  }
}

/**
 * Whether two lists are of the same things.
 * @param {unknown[] | undefined} one
 * @param {unknown[]} other
 */
export function isSame(one, other) {
  return one?.length === other.length && other.every((each, place) => each === one[place]);
}
