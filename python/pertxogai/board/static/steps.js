// @ts-check
/** The construction, step by step: the slider, the tree of merges, the other shapes, the claim. */
import { html, byId, nodeOf } from './nodes.js';
import { whenOpened } from './tabs.js';
import { Step } from './step.js';

/** @typedef {import('./protocol').Construction} Construction */
/** @typedef {import('./protocol').Step} PlanStep */

/** @type {Record<string, number>} */
const KEYS = { ArrowLeft: -1, ArrowDown: -1, ArrowRight: 1, ArrowUp: 1 };
const NO_PLAN = 'A drawing that is well is constructed here, step by step.';

/** Shows the plan of what is well while its tab is open. */
export class Steps {
  node = byId('steps');
  isOpen = false;
  /**
   * The text whose plan is shown.
   * @type {string | null}
   */
  text = null;
  /** @type {Construction | null} */
  plan = null;
  /**
   * The step that is told.
   * @type {PlanStep | null}
   */
  told = null;
  place = 0;
  /** How often the other shape was asked for. */
  asked = 0;
  /** @type {Set<number>} */
  flipped = new Set();

  /**
   * @param {import('./paper.js').Paper} paper
   * @param {import('./board.js').Board} board
   */
  constructor(paper, board) {
    this.paper = paper;
    this.board = board;
    whenOpened((id) => this.turn(id === 'tab-steps'));
    paper.when('answer', () => { if (this.isOpen) this.load(); });
    this.node.addEventListener('click', ({ target }) => {
      const step = target instanceof HTMLElement && target.dataset.step;
      if (step) this.slide(Number(step));
    });
  }

  /**
   * What stands in the tab by this selector.
   * @param {string} selector
   * @returns {HTMLElement[]}
   */
  all(selector) {
    return [...this.node.querySelectorAll(selector)].map(
      (each) => /** @type {HTMLElement} */ (each));
  }

  /** The slider, while there is one. */
  get range() {
    return this.node.querySelector('input');
  }

  /** The steps of the plan. */
  get steps() {
    return this.plan?.steps ?? [];
  }

  /**
   * Opens or closes.
   * @param {boolean} open
   */
  turn(open) {
    this.isOpen = open;
    if (open) this.load();
    else this.leave();
  }

  /** Takes everything off the board again, and out of the tab. */
  leave() {
    this.text = null;
    this.plan = null;
    this.node.replaceChildren();
    this.show(null, null);
  }

  /**
   * Shows a step over the board, or the other shape beneath it.
   * @param {import('./board.js').Board['overlay']} overlay
   * @param {import('./board.js').Board['other']} other
   */
  show(overlay, other) {
    this.board.overlay = overlay;
    this.board.other = other;
    this.board.draw();
  }

  /** Asks for the plan of the text that stands. */
  async load() {
    const { text, answer, isOld } = this.paper;
    if (text === this.text) return;
    this.leave();
    if (answer?.text !== text && !isOld) return;
    this.text = text;
    const isPlaced = answer?.judgement?.placed && !isOld;
    /** @type {import('./protocol').Planned | null} */
    const found = isPlaced ? await this.paper.ask('plan', { text }) : {};
    if (!found) this.text = null;
    if (this.text !== text) return;
    this.flipped.clear();
    this.plan = found?.construction ?? null;
    if (this.plan) this.build();
    else {
      const why = found?.trouble?.message ?? NO_PLAN;
      this.node.replaceChildren(html('p', { class: 'quiet' }, why));
    }
  }

  /** Builds the controls and the tree. */
  build() {
    const { steps: { length } } = this;
    this.node.replaceChildren(nodeOf('watching', HTMLTemplateElement).content.cloneNode(true));
    if (this.range) this.slides(this.range);
    for (const each of this.all('.controls, dl')) each.hidden = !length;
    if (length) this.all('.tree')[0].append(this.branch(length));
    else this.all('.told')[0].textContent = 'One dimension: nothing is joined.';
    this.slide(length);
  }

  /**
   * Listens to the slider.
   * @param {HTMLInputElement} range
   */
  slides(range) {
    range.max = String(this.steps.length);
    range.addEventListener('input', () => this.slide(Number(range.value)));
    range.addEventListener('keydown', (event) => this.key(event));
  }

  /**
   * Keys of the slider go by whole steps.
   * @param {KeyboardEvent} event
   */
  key(event) {
    const step = KEYS[event.key];
    if (!step) return;
    event.preventDefault();
    this.go(step);
  }

  /**
   * Goes some whole steps.
   * @param {number} step
   */
  go(step) {
    const place = (step > 0 ? Math.floor(this.place) : Math.ceil(this.place)) + step;
    this.slide(Math.max(0, Math.min(this.steps.length, place)));
  }

  /** Plays all steps from the first. */
  play() {
    const { plan, steps: { length } } = this;
    const began = performance.now();
    const each = Math.max(250, Math.min(1200, 12000 / length));
    const frame = (/** @type {number} */ now) => {
      if (this.plan !== plan || !this.isOpen) return;
      this.slide(Math.min(length, (now - began) / each));
      if (this.place < length) requestAnimationFrame(frame);
    };
    requestAnimationFrame(frame);
  }

  /**
   * Shows a place of the construction: step k comes together from k - 1 to k.
   * @param {number} place
   */
  slide(place) {
    if (!this.range) return;
    this.place = place;
    this.range.value = String(place);
    const number = Math.max(1, Math.ceil(place));
    const step = this.steps[number - 1];
    if (!step) return;
    const share = place === 0 ? 0 : place - number + 1;
    this.tell(step, share);
    const isDone = place >= this.steps.length;
    this.show(isDone ? null : this.drawn(step, share), this.board.other);
  }

  /**
   * How a step is drawn over the board at a share of it; null of what is no longer placed.
   * @param {PlanStep} step
   * @param {number} share
   * @returns {import('./board.js').Board['overlay']}
   */
  drawn(step, share) {
    const { plan, paper: { answer } } = this;
    const placed = answer?.judgement?.placed;
    if (!plan || !answer?.drawing || !placed) return null;
    const shown = new Step(plan, step, answer.drawing, placed);
    return (plane) => shown.drawn(plane, share, this.board.size());
  }

  /**
   * Says what a step does.
   * @param {PlanStep} step
   * @param {number} share
   */
  tell(step, share) {
    this.told = step;
    const { number, choice } = step;
    const way = share < 1 ? ', coming together' : '';
    this.all('.told')[0].textContent = `Step ${number} of ${this.steps.length}${way}`;
    this.all('dl')[0].replaceChildren(...this.rows(step).flatMap(
      ([first, second]) => [html('dt', {}, ...first), html('dd', {}, second)]));
    for (const button of this.all('[data-step]')) {
      button.ariaCurrent = String(Number(button.dataset.step) === number);
    }
    byId('flip').hidden = choice === 'none';
    byId('flip').ariaPressed = String(this.flipped.has(number));
    byId('redraw').hidden = !this.flipped.size;
  }

  /**
   * What is told of a step: what, and how.
   * @param {PlanStep} step
   * @returns {[(Node | string)[], string][]}
   */
  rows(step) {
    /** @type {[(Node | string)[], string][]} */
    const joins = step.joins.map((each, place) => [
      [html('i', { class: 'chip', '--colour': `var(--join${place})` }),
        each.kept ? ' stays' : ' joins'], each.called]);
    return [...joins, [['constructs'], this.made(step)], [['at'], step.at.join(', ')],
      [['choice'], step.choice]];
  }

  /**
   * What a step constructs.
   * @param {PlanStep} step
   */
  made(step) {
    return this.plan?.elements[step.made].called ?? '';
  }

  /** Turns the choice of the step over that is told; back, where there is no such shape. */
  async flip() {
    const { told } = this;
    if (!told) return;
    const { number } = told;
    byId('verified').textContent = '';
    if (!this.flipped.delete(number)) this.flipped.add(number);
    let found = await this.other();
    if (found?.trouble) {
      this.flipped.delete(number);
      this.paper.tell('trouble', found.trouble.message);
      found = await this.other();
    }
    if (!found) return;
    this.slide(this.steps.length);
    this.tell(told, 1);
    this.show(null, found.placed ?? null);
    if (found.placed) this.board.reveal();
  }

  /**
   * The shape in which all choices are turned over that are to be; null where it is no longer
   * asked for.
   * @returns {Promise<import('./protocol').OtherShape | null>}
   */
  async other() {
    const { text, plan } = this;
    const steps = [...this.flipped];
    const turn = this.asked += 1;
    const found = text !== null && steps.length ? await this.paper.ask('flips', { text, steps })
      : {};
    return this.plan === plan && this.asked === turn ? found : null;
  }

  /** The drawing is drawn anew as the other shape lies. */
  async redraw() {
    if (await this.paper.redraw([...this.flipped], this.text)) this.board.reveal();
  }

  /** Has what is placed verified as a claim, and tells what is said of it. */
  async verify() {
    const told = byId('verified');
    const found = await this.paper.ask('verify', { text: this.text ?? '' });
    const said = found?.said ?? found?.trouble?.message ?? '';
    const whose = this.flipped.size ? 'The part as placed, not the other shape: ' : '';
    told.textContent = whose + said;
  }

  /**
   * A step of the tree of merges, with all that it joins below it.
   * @param {number} number
   * @returns {HTMLElement}
   */
  branch(number) {
    const step = this.steps[number - 1];
    const joined = step.joins.map(({ name, called, kept }) => (name.startsWith('s')
      ? this.branch(Number(name.slice(1)))
      : html('span', { class: 'leaf' }, `${called}${kept ? ' (stays)' : ''}`)));
    const choice = step.choice === 'none' ? '' : `, ${step.choice}`;
    const title = `step ${number}: ${this.made(step)}${choice}`;
    return html('div', {}, ['button', { 'data-step': number }, title],
      ['ul', {}, ...joined.map((each) => html('li', {}, each))]);
  }
}
