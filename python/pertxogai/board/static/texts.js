// @ts-check
/** The texts beside the board: the drawing's, with its refused line, and the language. */
import { html, byId, nodeOf } from './nodes.js';

/** Milliseconds between a change and the text. */
const MOMENT = 300;
/** Milliseconds between the last letter that is typed and the answer to the text. */
const TYPING = 250;

/** The panel of texts. */
export class Texts {
  area = nodeOf('text', HTMLTextAreaElement);
  lines = byId('lines');
  /**
   * What waits for the hand to type no more.
   * @type {number | undefined}
   */
  waits = undefined;
  /**
   * What waits for a moment in which nothing changes.
   * @type {number | undefined}
   */
  behind = undefined;

  /** @param {import('./paper.js').Paper} paper */
  constructor(paper) {
    this.paper = paper;
    this.area.addEventListener('input', () => this.typed());
    this.area.addEventListener('scroll', () => { this.lines.scrollTop = this.area.scrollTop; });
    this.area.addEventListener('focus', () => this.written());
    this.area.addEventListener('blur', () => this.flush());
    paper.when('text', () => this.write());
    paper.when('settle', () => { if (this.waits) this.flush(); });
  }

  /** A text is being typed: it counts a moment after the last letter. */
  typed() {
    this.written();
    this.number();
    clearTimeout(this.waits);
    this.waits = window.setTimeout(() => this.flush(), TYPING);
  }

  /** What was typed counts now. */
  flush() {
    this.written();
    clearTimeout(this.waits);
    this.waits = undefined;
    this.paper.type(this.area.value);
  }

  /**
   * Shows the text that stands, once nothing has changed for a moment: a long text takes its time,
   * and the drawing goes before. What is being typed stays, and who is about to type sees it at
   * once.
   */
  write() {
    if (this.waits) return;
    this.area.ariaBusy = 'true';
    clearTimeout(this.behind);
    if (document.activeElement === this.area) this.written();
    else this.behind = window.setTimeout(() => this.written(), MOMENT);
  }

  /** Shows the text now, where it still waits. */
  written() {
    if (this.area.ariaBusy !== 'true') return;
    this.area.ariaBusy = 'false';
    if (this.area.value !== this.paper.text) this.area.value = this.paper.text;
    this.number();
  }

  /** Numbers the lines, and marks the one that is refused. */
  number() {
    const count = this.area.value.split('\n').length;
    const refused = this.paper.refused?.line ?? 0;
    const shown = `${count} ${refused}`;
    if (this.lines.dataset.shown === shown) return;
    this.lines.dataset.shown = shown;
    const marked = refused ? [numbers(0, refused - 1), html('b', {}, numbers(refused - 1, refused)),
      numbers(refused, count)] : [numbers(0, count)];
    this.lines.replaceChildren(...marked);
    this.lines.scrollTop = this.area.scrollTop;
  }

  /**
   * Shows an answer: the refused line, the language.
   * @param {import('./protocol').Judged} answer
   */
  show({ refused, judgement }) {
    this.number();
    const told = byId('refused');
    told.hidden = !refused;
    told.textContent = refused?.message ?? '';
    this.area.setAttribute('aria-invalid', String(Boolean(refused)));
    byId('language').textContent = judgement?.language ?? '';
  }
}

/**
 * The numbers of lines behind the first some, up to another, a line each.
 * @param {number} first
 * @param {number} last
 */
function numbers(first, last) {
  const count = Math.max(0, last - first);
  return Array.from({ length: count }, (_, place) => `${first + place + 1}\n`).join('');
}
