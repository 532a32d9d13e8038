// @ts-check
/**
 * The slider of a dimension or a value: it goes from one end of the range to the other, says what
 * goes wrong beyond each, and the part follows it.
 */
import { html, byId, nodeOf } from './nodes.js';
import { ended } from './paper.js';

/** @typedef {import('./protocol').RangeShown} RangeShown */
/** @typedef {import('./protocol').Edit} Edit */
/** @typedef {{ number: number } | { name: string }} Of */

/** Milliseconds after which the range of what is selected, or of another text, is asked for. */
const PAUSE = 250;
/** How many times the present number the slider goes to each side at most. */
const REACH = 4;
/** The slider has about so many steps. */
const STEPS = 400;
/** To how many digits behind the point a number is told. */
const DIGITS = 9;
/** A length is whole micrometres, and an angle isn't set finer. */
const LEAST_STEP = 0.001;

export class Slider {
  node = byId('range');
  field = nodeOf('slider', HTMLInputElement);
  /**
   * What the range is wanted of.
   * @type {Of | null}
   */
  of = null;
  /**
   * What is shown, of what and of which text; no range where a line says why there is none.
   * @type {{ of: Of, text: string, range: RangeShown | null } | null}
   */
  shown = null;
  /**
   * The last call, and those before.
   * @type {Promise<void>}
   */
  asked = Promise.resolve();
  /**
   * What the part follows while the hand holds the slider.
   * @type {Edit | null}
   */
  held = null;
  /** Whether the hand holds a slider that it has given up. */
  isGivenUp = false;
  /** @type {number | undefined} */
  timer;

  /**
   * @param {import('./paper.js').Paper} paper
   * @param {import('./selection.js').Selection} selection
   */
  constructor(paper, selection) {
    this.paper = paper;
    this.selection = selection;
    selection.addEventListener('change', () => this.choose(this.selected()));
    paper.when('begin', () => this.choose(null));
    paper.when('answer', () => this.refresh());
    this.listen();
    byId('range-line').addEventListener('click', ({ target }) => {
      if (target instanceof HTMLElement && target.dataset.range) {
        this.choose({ name: target.dataset.range });
      }
    });
  }

  /** Listens to the hand on the slider. */
  listen() {
    const { field } = this;
    field.addEventListener('pointerdown', () => { this.isGivenUp = false; });
    for (const what of ['pointerup', 'pointercancel']) {
      field.addEventListener(what, () => setTimeout(() => this.letGo()));
    }
    field.addEventListener('input', () => this.drag());
    field.addEventListener('change', () => this.land());
    field.addEventListener('keydown', (event) => {
      if (event.key === 'Escape' && (this.isGivenUp || this.giveUp())) event.stopPropagation();
    });
  }

  /**
   * The dimension that is selected, where it is one and nothing else.
   * @returns {Of | null}
   */
  selected() {
    const { names, numbers } = this.selection;
    const [number] = numbers;
    return numbers.size === 1 && !names.size ? { number } : null;
  }

  /**
   * The range of something is wanted, or none.
   * @param {Of | null} of
   */
  choose(of) {
    if (!this.shown || !isSame(of, this.shown.of)) this.hide();
    this.of = of;
    this.refresh();
  }

  /** Asks for the range that is wanted, once the text stands for a while and nothing is dragged. */
  refresh() {
    const { of, paper } = this;
    clearTimeout(this.timer);
    if (!of || !this.has(of)) this.hide();
    else if (!paper.live) this.timer = window.setTimeout(() => this.ask(of), PAUSE);
  }

  /**
   * Whether something may have a range: a value that stands, or a dimension of a good drawing.
   * @param {Of} of
   */
  has(of) {
    const { drawing, judgement } = this.paper.answer ?? {};
    if (this.paper.isOld) return false;
    if ('name' in of) return Boolean(drawing?.values.some(({ name }) => name === of.name));
    return Boolean(judgement?.good && drawing?.constraints[of.number - 1]?.value);
  }

  /**
   * Asks for a range that isn't shown yet, behind those that were asked for before, so that the
   * server has room for all else; of several that wait, the last counts.
   * @param {Of} of
   */
  ask(of) {
    if (this.isShown(of)) return;
    if (!this.shown) this.tell('Finding how far it can go ..');
    const act = () => this.found(of);
    this.asked = this.asked.then(act, act);
  }

  /**
   * Whether the range of something in the text that stands is shown.
   * @param {Of} of
   */
  isShown(of) {
    return this.shown?.text === this.paper.text && isSame(of, this.shown.of);
  }

  /**
   * Shows the range of what is still wanted.
   * @param {Of} of
   */
  async found(of) {
    if (this.of !== of || this.isShown(of)) return;
    const { text } = this.paper;
    const found = await this.paper.about('range', { text, ...of }).catch(ended);
    if (this.of !== of || this.paper.text !== text || !found) return;
    this.shown = { of, text, range: found.range ?? null };
    if (found.range) this.show(found.range);
    else this.tell(found.why ?? found.trouble?.message ?? '', found.values);
  }

  /**
   * Shows a range: the slider about the present number, and both ends.
   * @param {RangeShown} range
   */
  show(range) {
    const { present, low, high } = range;
    const reach = REACH * Math.max(Math.abs(present), 1);
    const [least, most] = [Math.max(low, present - reach), Math.min(high, present + reach)];
    Object.assign(this.field, { min: String(least), max: String(most), value: String(present),
      disabled: least >= most });
    this.tellNumber(present, range);
    byId('range-low').textContent = endText(low, least, range.low_why, range);
    byId('range-high').textContent = endText(high, most, range.high_why, range);
    byId('range-told').textContent = range.told;
    this.turn(false);
  }

  /**
   * Says which number the slider has.
   * @param {number} number
   * @param {RangeShown} range
   */
  tellNumber(number, range) {
    byId('range-of').textContent = `${range.called}: ${withUnit(number, range)}`;
    this.field.setAttribute('aria-valuetext', withUnit(number, range));
  }

  /**
   * Shows a line in the place of the slider, and buttons for the ranges of some values.
   * @param {string} line
   * @param {string[]} [values]
   */
  tell(line, values = []) {
    byId('range-line').replaceChildren(line, ...values.flatMap((name) => [' ', html('button',
      { 'data-range': name, title: `how far ${name} can go` }, `Range of ${name}`)]));
    this.turn(true);
  }

  /**
   * Shows the line or the slider.
   * @param {boolean} isLine
   */
  turn(isLine) {
    this.node.hidden = false;
    byId('range-line').hidden = !isLine;
    byId('range-slider').hidden = isLine;
  }

  /** Shows nothing. */
  hide() {
    this.shown = null;
    this.node.hidden = true;
  }

  /** The part follows the slider. */
  drag() {
    const set = this.isGivenUp ? null : this.set();
    if (!set) {
      this.leave();
      return;
    }
    this.held = set.edit;
    this.paper.preview(set.edit);
  }

  /** The hand has set a number: it counts. Where it isn't taken, the slider goes back. */
  async land() {
    const { paper, shown } = this;
    const set = this.isGivenUp ? null : this.set();
    if (!set) {
      this.leave();
      return;
    }
    this.held = null;
    paper.live = null;
    const isTaken = await paper.edit(set.edit, shown?.text);
    if (this.shown !== shown) return;
    if (isTaken) this.landed(set.number);
    else this.goBack();
  }

  /**
   * The number that was set stands, and the range is as it was.
   * @param {number} present
   */
  landed(present) {
    if (!this.shown?.range) return;
    const range = { ...this.shown.range, present };
    this.shown = { ...this.shown, text: this.paper.text, range };
    this.show(range);
  }

  /** The hand lets go: where it has set no other number than before, all is as it was. */
  letGo() {
    this.giveUp();
    this.isGivenUp = false;
  }

  /** The hand gives the slider up while it holds it. Gives whether it does. */
  giveUp() {
    if (!this.held) return false;
    this.isGivenUp = true;
    this.leave();
    return true;
  }

  /** The part follows the slider no longer. */
  leave() {
    if (this.held) this.paper.drop();
    this.held = null;
    this.goBack();
  }

  /** The slider goes back to the present number. */
  goBack() {
    if (!this.shown?.range) return;
    const { range } = this.shown;
    this.field.value = String(range.present);
    this.tellNumber(range.present, range);
  }

  /**
   * The slider's number, and the edit that sets it; null where the text has changed.
   * @returns {{ number: number, edit: Edit } | null}
   */
  set() {
    if (!this.shown?.range || this.shown.text !== this.paper.text) return null;
    const { of, range } = this.shown;
    const number = rounded(Number(this.field.value), range, this.field);
    this.tellNumber(number, range);
    const sign = range.sign && number >= 0 ? '+' : '';
    const value = `${sign}${numberText(number)}${range.typed}`;
    return { number, edit: 'name' in of ? { do: 'set-value', name: of.name, expression: value }
      : { do: 'value', number: of.number, value } };
  }
}

/**
 * Whether two are the same dimension or value.
 * @param {Of | null} one
 * @param {Of} other
 */
function isSame(one, other) {
  return JSON.stringify(one) === JSON.stringify(other);
}

/**
 * An end of a range, and what goes wrong beyond it; where the slider ends before, that too.
 * @param {number} end
 * @param {number} reached
 * @param {string} why
 * @param {RangeShown} range
 */
function endText(end, reached, why, range) {
  const cut = end === reached ? '' : ` (the slider ends at ${withUnit(reached, range)})`;
  return `${withUnit(end, range)}: ${why}${cut}`;
}

/**
 * A number of a range, without needless zeros.
 * @param {number} number
 */
function numberText(number) {
  const text = number.toFixed(DIGITS);
  return text.replace(/\.?0+$/, '') || '0';
}

/**
 * A number of a range with its unit.
 * @param {number} number
 * @param {RangeShown} range
 */
export function withUnit(number, { unit }) {
  return unit ? `${numberText(number)} ${unit}` : numberText(number);
}

/**
 * The slider's number in steps of a decimal; at an end of the range that end itself.
 * @param {number} number
 * @param {RangeShown} range
 * @param {HTMLInputElement} field
 */
function rounded(number, { low, high, unit }, field) {
  if (number <= low || number >= high) return number <= low ? low : high;
  const rough = (Number(field.max) - Number(field.min)) / STEPS;
  const least = unit ? LEAST_STEP : 10 ** -DIGITS;
  const step = 10 ** Math.floor(Math.log10(Math.max(rough, least)));
  const even = Math.round(number / step) * step;
  return Math.min(Math.max(even, low), high);
}
