// @ts-check
/** The tab of values: a table of them, and the list of all ranges. */
import { html, byId, nodeOf } from './nodes.js';
import { Layer } from './layer.js';
import { whenOpened } from './tabs.js';
import { ended } from './paper.js';
import { withUnit } from './ranges.js';

/** @typedef {import('./protocol').NamedValue} NamedValue */
/** @typedef {import('./protocol').RangeShown} RangeShown */
/** @typedef {import('./page').Keyed} Keyed */
/**
 * The ranges that are listed, the text that they are of, and a line behind them.
 * @typedef {{ text: string, rows: Keyed[], line: string }} Listed
 */

export class Values {
  layer = new Layer(byId('values'), html);
  list = new Layer(byId('ranges'), html);
  isOpen = false;
  /** @type {Listed} */
  listed = { text: '', rows: [], line: '' };

  /**
   * @param {import('./paper.js').Paper} paper
   * @param {import('./selection.js').Selection} selection
   * @param {import('./ranges.js').Slider} slider
   */
  constructor(paper, selection, slider) {
    this.paper = paper;
    this.selection = selection;
    this.slider = slider;
    whenOpened((id) => {
      this.isOpen = id === 'tab-values';
      this.show();
    });
    paper.when('answer', () => this.show());
    const node = byId('values');
    node.addEventListener('change', ({ target }) => {
      if (target instanceof HTMLInputElement) this.set(target.dataset.value ?? '', target.value);
    });
    node.addEventListener('focusout', () => queueMicrotask(() => this.show()));
    for (const each of [node, byId('ranges')]) {
      each.addEventListener('click', ({ target }) => this.click(target));
    }
    const form = nodeOf('new-value', HTMLFormElement);
    form.addEventListener('submit', (event) => {
      event.preventDefault();
      this.add(form);
    });
    byId('all-ranges').addEventListener('click', () => this.listAll());
  }

  /**
   * A button of a row shows the slider of its value or dimension, or removes the value.
   * @param {EventTarget | null} target
   */
  click(target) {
    if (!(target instanceof HTMLElement)) return;
    const { range, selects, drops } = target.dataset;
    if (range) this.slider.choose({ name: range });
    if (selects) this.selection.set([], [Number(selects)]);
    if (drops) this.paper.edit({ do: 'drop-value', name: drops });
  }

  /**
   * A value gets another expression; one that isn't taken stays to be mended as long as its field
   * has the focus.
   * @param {string} name
   * @param {string} expression
   */
  async set(name, expression) {
    const isTaken = await this.paper.edit({ do: 'set-value', name, expression });
    if (!isTaken) this.show();
  }

  /**
   * A new value is named.
   * @param {HTMLFormElement} form
   */
  async add(form) {
    const name = nodeOf('value-name', HTMLInputElement);
    const expression = nodeOf('value-expression', HTMLInputElement);
    const edit = /** @type {const} */ (
      { do: 'set-value', name: name.value.trim(), expression: expression.value.trim() });
    if (await this.paper.edit(edit)) {
      form.reset();
      name.focus();
    }
  }

  /** Shows the values that stand, and the ranges that were asked for of this text. */
  show() {
    if (!this.isOpen) return;
    const values = this.paper.answer?.drawing?.values ?? [];
    this.layer.show(values.map((each) => row(each)));
    for (const field of byId('values').querySelectorAll('input')) {
      const value = values.find(({ name }) => name === field.dataset.value);
      if (value && field !== document.activeElement) field.value = value.expression;
    }
    if (this.listed.text !== this.paper.text) this.listed = { text: '', rows: [], line: '' };
    const { rows, line } = this.listed;
    this.list.show(line ? [...rows, [0, 'li', { class: 'quiet' }, line]] : rows);
  }

  /** The values and the dimensions: the key of each, what it is called, and how it is asked for. */
  asked() {
    const { values, constraints } = this.paper.answer?.drawing ?? { values: [], constraints: [] };
    const valued = constraints.filter(({ value }) => value !== null);
    return [...values.map(({ name }) => ({ key: name, called: name, of: { name } })),
      ...valued.map(({ number, called }) => ({ key: number, called, of: { number } }))];
  }

  /**
   * Asks for the range of each value and dimension, one after the other, and lists them; where that
   * of one isn't found, why. Of a drawing that isn't good none is.
   */
  async listAll() {
    const { text, answer, isOld } = this.paper;
    /** @type {Listed} */
    const listed = { text, rows: [], line: '' };
    this.listed = listed;
    for (const { key, called, of } of isOld ? [] : this.asked()) {
      this.listOf(listed, 'Finding the ranges ..');
      const found = await this.paper.about('range', { text, ...of }).catch(ended);
      if (this.listed !== listed || !found) return;
      const why = found.why ?? found.trouble?.message ?? '';
      if (found.range) listed.rows.push(rangeRow(found.range));
      else if (!answer?.judgement?.good) {
        this.listOf(listed, why);
        return;
      } else if (!found.values) listed.rows.push([key, 'li', {}, `${called}: ${why}`]);
    }
    const none = isOld ? 'The text isn’t judged.' : 'No value and no dimension has a range.';
    this.listOf(listed, listed.rows.length ? '' : none);
  }

  /**
   * Lists the ranges that were found, and a line behind them.
   * @param {Listed} listed
   * @param {string} line
   */
  listOf(listed, line) {
    listed.line = line;
    this.show();
  }
}

/**
 * The row of a value.
 * @param {NamedValue} value
 * @returns {Keyed}
 */
function row({ name, expression, comes }) {
  return [name, 'tr', {},
    ['th', { scope: 'row' }, name],
    ['td', {}, ['input', { 'data-value': name, value: expression, 'aria-label': `value ${name}`,
      spellcheck: 'false', autocomplete: 'off' }]],
    ['td', { class: 'comes' }, `= ${comes}`],
    ['td', {}, ['button', { 'data-range': name, title: 'how far it can go',
      'aria-label': `range of ${name}` }, '↔'],
    ['button', { 'data-drops': name, title: 'remove it', 'aria-label': `remove value ${name}` },
      '×']]];
}

/**
 * The row of a range, by the number of its dimension or the name of its value.
 * @param {RangeShown} range
 * @returns {Keyed}
 */
function rangeRow(range) {
  const { called, name, number, low, high, low_why: below, high_why: above, told } = range;
  return [number ?? name ?? called, 'li', {}, ['button', { class: 'line', title: 'show its slider',
    'data-range': name, 'data-selects': number }, called],
  `: ${withUnit(low, range)} to ${withUnit(high, range)}`,
    ['span', { class: 'quiet' }, `below: ${below}; above: ${above}; ${told}`]];
}
