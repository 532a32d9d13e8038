// @ts-check
/** The bar of what can be done with the selection. Which constraints fit it, the server says. */
import { html, byId } from './nodes.js';
import { middleOf } from './shapes.js';
import { dimension, MEASURED, typed } from './dialogs.js';
import { namesIn } from './pointing.js';

/** @typedef {import('./page').Place} Place */
/** @typedef {import('./protocol').Offer} Offer */

const LETTERS = 'qwertyuiopasdfgh';
/** The most of those that go with something that are told by their words. */
const MOST_TOLD = 5;

/** Offers constraints, and asks for the value of those that take one. */
export class Offers {
  node = byId('offers');
  turn = 0;
  /** The names that were selected last, and the offers that are shown. */
  fitted = '';
  shown = '';

  /**
   * @param {import('./paper.js').Paper} paper
   * @param {import('./board.js').Board} board
   * @param {import('./selection.js').Selection} selection
   * @param {(text: string) => void} tell
   */
  constructor(paper, board, selection, tell) {
    this.paper = paper;
    this.board = board;
    this.selection = selection;
    this.tell = tell;
    selection.addEventListener('change', () => this.show());
    paper.when('answer', () => { if (!selection.isEmpty) this.show(); });
  }

  /**
   * Shows what fits; what fitted another selection goes at once, before the server has answered.
   */
  async show() {
    const turn = this.turn += 1;
    const { paper, selection } = this;
    const had = this.node.contains(document.activeElement);
    this.bar();
    const names = [...selection.names];
    if (String(names) !== this.fitted) this.fill([]);
    this.fitted = String(names);
    await shown();
    if (turn !== this.turn) return;
    const asks = names.length && !paper.refused;
    const found = asks ? await paper.ask('offers', { text: paper.text, names }) : null;
    if (turn !== this.turn) return;
    this.fill(found?.offers ?? []);
    if (had) this.focus();
  }

  /** The focus goes to the first button that is shown, where none has it. */
  focus() {
    if (this.node.querySelector(':focus:not([hidden])')) return;
    const button = this.node.querySelector('button:not([hidden])');
    if (button instanceof HTMLElement) button.focus();
    else this.board.node.focus();
  }

  /**
   * Shows offers as buttons; where they are the same, the buttons stay.
   * @param {Offer[]} offers
   */
  fill(offers) {
    const shown = JSON.stringify(offers);
    if (shown === this.shown) return;
    this.shown = shown;
    byId('fitting').replaceChildren(
      ...offers.map((offer, place) => this.button(offer, LETTERS[place])));
  }

  /** Shows the buttons that are there for what is selected: value, construction, name, delete. */
  bar() {
    const { shapes, numbers } = this.selected();
    const isHelp = shapes.every((shape) => shape.construction);
    const [number] = numbers;
    byId('revalue').hidden = numbers.length !== 1
      || !(this.constraint(number)?.value || this.reference(number)?.words);
    byId('construct').hidden = !shapes.length;
    byId('construct').textContent = isHelp ? 'Edge' : 'Construction';
    byId('rename').hidden = shapes.length + numbers.length !== 1 || number < 0;
    byId('erase').hidden = shapes.length + numbers.length === 0;
    byId('alike').hidden = shapes.length + numbers.length === 0;
    byId('erase').title = `${goingTold(this.going())} (Delete)`;
    byId('nothing-selected').hidden = !this.selection.isEmpty;
  }

  /**
   * A button that asks for a constraint; Alt and a letter is its key.
   * @param {Offer} offer
   * @param {string} letter
   */
  button(offer, letter) {
    const [word] = offer.words;
    const value = offer.value === null ? '' : ' ..';
    return html('button', {
      'data-word': word, 'data-letter': letter, 'aria-keyshortcuts': `Alt+${letter}`,
      title: `${offer.words.join(' ')}${value} (Alt+${letter})`,
      onclick: (/** @type {Event} */ event) => { if (isFirst(event)) this.ask(offer); },
    }, `${offer.sign} ${word}`.trim(), html('kbd', { 'aria-hidden': 'true' }, letter));
  }

  /** The shapes and the numbers of the constraints that are selected. */
  selected() {
    const { names, numbers } = this.selection;
    const shapes = this.paper.answer?.drawing?.shapes ?? [];
    return { shapes: shapes.filter((shape) => names.has(shape.name)), numbers: [...numbers] };
  }

  /**
   * The constraint of a number.
   * @param {number} number
   */
  constraint(number) {
    return this.paper.answer?.drawing?.constraints[number - 1];
  }

  /**
   * Asks for a constraint, with the value that is typed, or makes something of a corner by the size
   * that is typed.
   * @param {Offer} offer
   */
  async ask(offer) {
    const { words, value: drawn } = offer;
    if (offer.do === 'corner') {
      const size = await typed(words.join(' '), offer.value, this.place());
      if (size !== null) await this.paper.edit(cornerEdit(words, size));
      return;
    }
    const value = drawn === null ? '' : await dimension(words.join(' '), drawn, this.place());
    if (value === MEASURED) await this.paper.edit({ do: 'reference', words });
    else if (value !== null) {
      await this.paper.edit({ do: 'ask', words, ...(value && { value }) });
    }
  }

  /**
   * Gives a dimension another value, or has it only measured; of one that was only measured asks
   * for a value.
   * @param {number} number
   */
  async change(number) {
    if (number < 0) {
      await this.demand(number);
      return;
    }
    const constraint = this.constraint(number);
    if (!constraint?.value) return;
    const text = this.paper.answer?.text;
    const value = await dimension(constraint.called, constraint.value, this.place(number));
    if (value === MEASURED) {
      await this.paper.edit({ do: 'reference', words: [], number }, text);
    } else if (value !== null) await this.paper.edit({ do: 'value', number, value }, text);
  }

  /**
   * Asks for the value that is typed of a dimension that was only measured.
   * @param {number} number
   */
  async demand(number) {
    const text = this.paper.answer?.text;
    const mark = this.reference(number);
    if (!mark?.words || mark.value === undefined) return;
    const { words } = mark;
    const value = await typed(words.join(' '), mark.value, this.place(number));
    if (value !== null) {
      await this.paper.edit({ do: 'ask', words, value, reference: -number }, text);
    }
  }

  /**
   * The mark of a dimension that is only measured.
   * @param {number} number
   */
  reference(number) {
    return this.paper.answer?.drawing?.marks.find((each) => each.number === number);
  }

  /** Gives what is selected another name. */
  async rename() {
    const { shapes: [shape], numbers: [number] } = this.selected();
    if (number) await this.call(number);
    else if (shape) {
      const { name: old } = shape;
      const name = await typed('name', old, this.place());
      if (name === null) return;
      if (await this.paper.edit({ do: 'rename', old, new: name })) this.selection.set([name]);
    }
  }

  /**
   * Gives a constraint a name.
   * @param {number} number
   */
  async call(number) {
    const text = this.paper.answer?.text;
    const old = this.constraint(number)?.name ?? '';
    const name = await typed('name of the constraint', old, this.place(number));
    if (name !== null) await this.paper.edit({ do: 'call', number, name }, text);
  }

  /** Makes lines of help of the shapes that are selected, or edges again. */
  construct() {
    const { shapes } = this.selected();
    const construction = !shapes.every((shape) => shape.construction);
    const names = shapes.map((shape) => shape.name);
    this.paper.edit({ do: 'construction', shapes: names, construction });
  }

  /** Takes away what is selected: shapes, single points, constraints; and tells what goes. */
  async erase() {
    const { shapes, numbers } = this.selected();
    const told = goingTold(this.going());
    this.selection.set([]);
    const names = shapes.map((shape) => shape.name);
    const constraints = numbers.filter((each) => each > 0);
    const references = numbers.filter((each) => each < 0).map((each) => -each);
    if (await this.paper.edit({ do: 'erase', shapes: names, constraints, references })) {
      this.tell(`${told}. Ctrl+Z takes it back.`);
    }
  }

  /**
   * What goes when what is selected is taken away, and what goes with its shapes: constraints, and
   * the checks that are shown.
   */
  going() {
    const { shapes, numbers } = this.selected();
    const names = new Set(shapes.map((shape) => shape.name));
    const all = this.paper.answer?.drawing?.constraints ?? [];
    const chosen = all.filter((each) => numbers.includes(each.number));
    const going = all.filter((each) => !numbers.includes(each.number)
      && namesIn(each).some((name) => names.has(name.split('.')[0])));
    const measured = numbers.flatMap((each) => this.reference(each)?.words?.join(' ') ?? []);
    const checks = this.board.checks.checks.filter(
      ({ words }) => words.split(' ').some((each) => names.has(each.split('.')[0])));
    return { things: [...names, ...chosen.map((each) => each.called), ...measured],
      going: [...going.map((each) => each.name ?? each.words),
        ...checks.map(({ name }) => `check ${name}`)] };
  }

  /**
   * Where a constraint is marked, else the middle of what is selected, in pixels.
   * @param {number} [number]
   * @returns {Place}
   */
  place(number) {
    const places = [...this.selection.names].flatMap((name) => {
      const at = this.board.placeOf(name);
      return at ? [at] : [];
    });
    const { width, height } = this.board.size();
    return this.board.markPlace(number)
      ?? middleOf(places.length ? places : [[width / 2, height / 2]]);
  }
}

/**
 * Whether a click is a first one, and not the second of a double click.
 * @param {Event} event
 */
function isFirst(event) {
  return !(event instanceof MouseEvent) || event.detail < 2;
}

/**
 * What goes, in words.
 * @param {{ things: string[], going: string[] }} what
 */
function goingTold({ things, going }) {
  const more = going.length > MOST_TOLD ? `, and ${going.length - MOST_TOLD} more` : '';
  const told = going.length ? `; with it: ${going.slice(0, MOST_TOLD).join(', ')}${more}` : '';
  return `Deletes ${things.join(', ')}${told}`;
}

/**
 * The edit that makes something of a corner, by its word and the two segments.
 * @param {string[]} words
 * @param {string} size
 * @returns {import('./protocol').CornerEdit}
 */
function cornerEdit([word, first, second], size) {
  return { do: 'corner', kind: word === 'fillet' ? 'fillet' : 'chamfer', first, second, size };
}

/**
 * Waits until the next frame is shown: the drawing goes before.
 * @returns {Promise<void>}
 */
function shown() {
  return new Promise((done) => { requestAnimationFrame(() => setTimeout(done)); });
}
