// @ts-check
/** Nodes of the page and of the board's SVG, made in a word. */

/** @typedef {import('./page').Attributes} Attributes */
/** @typedef {import('./page').Child} Child */

/** Attributes that are set as style. */
const STYLES = ['--colour', 'stroke', 'fill'];

/**
 * The node of the page that has this id, of a kind. Throws TypeError where there is none.
 * @template {Element} T
 * @param {string} id
 * @param {new () => T} kind
 * @returns {T}
 */
export function nodeOf(id, kind) {
  const node = document.getElementById(id);
  if (!(node instanceof kind)) throw new TypeError(`#${id} is no ${kind.name}`);
  return node;
}

/**
 * The node of the page that has this id.
 * @param {string} id
 */
export const byId = (id) => nodeOf(id, HTMLElement);

/**
 * The button of the page that has this id.
 * @param {string} id
 */
export const buttonOf = (id) => nodeOf(id, HTMLButtonElement);

/**
 * An SVG node with attributes and children; a child may be a list of what makes one.
 * @param {string} tag
 * @param {Attributes} [attributes]
 * @param {...Child} children
 * @returns {SVGElement}
 */
export function svg(tag, attributes = {}, ...children) {
  const node = document.createElementNS('http://www.w3.org/2000/svg', tag);
  return filled(svg, node, attributes, children);
}

/**
 * An HTML node with attributes and children; `on..` attributes are listeners.
 * @param {string} tag
 * @param {Attributes} [attributes]
 * @param {...Child} children
 * @returns {HTMLElement}
 */
export function html(tag, attributes = {}, ...children) {
  return filled(html, document.createElement(tag), attributes, children);
}

/**
 * A node with its attributes set and its children added; null stands for none.
 * @template {HTMLElement | SVGElement} T
 * @param {(...made: import('./page').Made) => Node} made
 * @param {T} node
 * @param {Attributes} attributes
 * @param {Child[]} children
 * @returns {T}
 */
function filled(made, node, attributes, children) {
  for (const [name, value] of Object.entries(attributes)) {
    if (value === null || value === undefined) continue;
    if (typeof value === 'function') node.addEventListener(name.slice(2), value);
    else if (STYLES.includes(name)) node.style.setProperty(name, String(value));
    else node.setAttribute(name, String(value));
  }
  for (const child of children) {
    if (child) node.append(Array.isArray(child) ? made(...child) : child);
  }
  return node;
}

/**
 * Makes of a node that was made of one thing what another thing makes: only what isn't the same is
 * set. Gives whether that can be: where they have other parts, or hear something, a new node is to
 * be made.
 * @param {Element} node
 * @param {import('./page').Made} before
 * @param {import('./page').Made} made
 * @returns {boolean}
 */
export function fitted(node, [tag, attributes = {}, ...parts], [kind, others = {}, ...children]) {
  if (tag !== kind || parts.length !== children.length) return false;
  let at = node.firstChild;
  for (const [place, child] of children.entries()) {
    const part = parts[place];
    if (!part && !child) continue;
    if (!at || !isFitted(at, part, child)) return false;
    at = at.nextSibling;
  }
  return isDressed(/** @type {SVGElement} */ (node), attributes, others);
}

/**
 * Makes of a part of a node another part. Gives whether that can be.
 * @param {ChildNode} node
 * @param {Child} before
 * @param {Child} made
 */
function isFitted(node, before, made) {
  if (Array.isArray(before) && Array.isArray(made)) {
    return fitted(/** @type {Element} */ (node), before, made);
  }
  if (!before || !made || typeof before !== 'string' || typeof made !== 'string') return false;
  if (before !== made) node.nodeValue = made;
  return true;
}

/**
 * Sets those attributes of a node that are others than before. Gives whether that can be: not where
 * one of them is a listener.
 * @param {SVGElement} node
 * @param {Attributes} before
 * @param {Attributes} attributes
 */
function isDressed(node, before, attributes) {
  for (const [name, value] of Object.entries(attributes)) {
    if (value === before[name]) continue;
    if (typeof value === 'function') return false;
    const isNone = value === null || value === undefined;
    if (STYLES.includes(name)) node.style.setProperty(name, isNone ? '' : String(value));
    else if (isNone) node.removeAttribute(name);
    else node.setAttribute(name, String(value));
  }
  return Object.keys(before).every((name) => name in attributes);
}

/**
 * The colour of a part, by its number from 1.
 * @param {number | null | undefined} part
 */
export function colourOf(part) {
  return part ? `var(--part${((part - 1) % 8) + 1})` : 'var(--edge)';
}
