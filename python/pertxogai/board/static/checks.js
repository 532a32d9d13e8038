// @ts-check
/** What must fit: each check at its place on the board and in a list, with what gives how much. */
import { html, byId } from './nodes.js';
import { Behind } from './behind.js';
import { Layer } from './layer.js';

/** @typedef {import('./protocol').Judged} Judged */
/** @typedef {import('./protocol').Checked} Checked */
/**
 * What was found of a text; why, where nothing is known or some cases have no places.
 * @typedef {{ text: string | null, checks: Checked[], why: string[] }} Found
 */

/** @type {Found} */
const NONE = { text: null, checks: [], why: [] };
/** What an answer is called. */
const ANSWERS = {
  fits: 'fits', unsure: 'not known to fit', beyond: 'doesn’t fit', unlimited: 'no limits',
};
/** A line of the text that says what must fit. */
const LINE = /^\s*check\s/m;

/** Asks whether what must fit does, shows it, and opens what a check is made of. */
export class Checks {
  found = NONE;
  /** The number of the check whose dimensions are shown; 0 for none. */
  open = 0;
  node = byId('checks');
  layer = new Layer(byId('checked'), html);

  /**
   * @param {import('./paper.js').Paper} paper
   * @param {import('./board.js').Board} board
   */
  constructor(paper, board) {
    this.paper = paper;
    this.board = board;
    this.behind = new Behind(paper, (text) => paper.about('fit', { text }), (text, found) => {
      const { checks = [], why, trouble } = found;
      this.show({ text, checks, why: why ?? (trouble ? [trouble.message] : []) });
    });
    paper.when('answer', (answer) => this.later(answer));
    paper.when('begin', () => {
      this.open = 0;
      this.show(NONE);
    });
    this.hear(board.node);
    this.hear(this.node);
  }

  /**
   * Hears a click on a check, or a key at one.
   * @param {Element} node
   */
  hear(node) {
    node.addEventListener('pointerdown', ({ target }) => { this.pressed = checkAt(target); });
    node.addEventListener('click', ({ target }) => {
      const number = checkAt(target) || this.pressed || 0;
      this.pressed = 0;
      this.toggle(number);
    });
    node.addEventListener('keydown', (event) => {
      if (!(event instanceof KeyboardEvent) || (event.key !== 'Enter' && event.key !== ' ')) return;
      const number = event.target instanceof SVGElement ? checkAt(event.target) : 0;
      if (!number) return;
      event.preventDefault();
      event.stopPropagation();
      this.toggle(number);
    });
  }

  /**
   * Asks once nothing has changed for a while; what was found of another text goes at once.
   * @param {Judged} answer
   */
  later({ judgement, refused }) {
    const { text, live } = this.paper;
    const isKnown = this.found.text === text;
    if (!isKnown || live) this.show(NONE);
    const isAsked = judgement && !refused && !live && !isKnown && LINE.test(text);
    this.behind.later(isAsked ? text : null);
  }

  /**
   * Shows what was found.
   * @param {Found} found
   */
  show(found) {
    const { checks, why } = this.found = found;
    this.board.check(checks, this.open);
    this.node.hidden = !checks.length && !why.length;
    byId('unchecked').textContent = why.length ? why.join('; ') : '';
    const { activeElement } = document;
    const had = this.layer.node.contains(activeElement) ? checkAt(activeElement) : 0;
    this.layer.show(checks.map((each) => row(each, each.number === this.open)));
    if (had) this.focus(had);
  }

  /**
   * The focus stays on a check of the list; where that goes, it goes to the verdict.
   * @param {number} number
   */
  focus(number) {
    const button = this.layer.node.querySelector(`[data-check="${number}"]`);
    (button instanceof HTMLElement ? button : byId('verdict')).focus();
  }

  /**
   * Opens what a check is made of, or closes it.
   * @param {number} number
   */
  toggle(number) {
    if (!number) return;
    this.open = this.open === number ? 0 : number;
    this.show(this.found);
  }
}

/**
 * The number of the check at a node; 0 where it is at none.
 * @param {EventTarget | null} target
 */
function checkAt(target) {
  const node = target instanceof Element ? target.closest('[data-check]') : null;
  return Number(node?.getAttribute('data-check'));
}

/**
 * A row of the list: a button with what a check says, and below it what it is made of.
 * @param {Checked} checked
 * @param {boolean} isOpen
 * @returns {import('./page').Keyed}
 */
function row({ number, name, words, answer, sign, worst, lines, gives }, isOpen) {
  return [number, 'li', { class: answer },
    ['button', { 'data-check': number, 'aria-expanded': isOpen, 'title': words },
      ['b', {}, `${sign} ${name}`], ` ${ANSWERS[answer]}: ${worst}`],
    isOpen && ['div', { class: 'made' },
      ...lines.map((line) => /** @type {import('./page').Made} */ (['p', {}, line])),
      ['ul', {}, ...gives.map(bar)]]];
}

/**
 * What one dimension gives, as a bar with its numbers.
 * @param {import('./protocol').Contribution} contribution
 * @returns {import('./page').Made}
 */
function bar({ words, gives, percent }) {
  return ['li', {}, ['meter', { 'max': 100, 'value': percent, 'aria-hidden': true }],
    ['span', {}, `${words}: ${gives}, ${percent} %`]];
}
