// @ts-check
/**
 * What is proposed of a drawing that lacks dimensions: faint at its places on the board, and in a
 * list.
 */
import { html, byId } from './nodes.js';
import { Behind } from './behind.js';
import { Layer } from './layer.js';
import { typed } from './dialogs.js';

/** @typedef {import('./protocol').Judged} Judged */
/** @typedef {import('./protocol').Proposed} Proposed */
/**
 * What was found of a text; why, where nothing is proposed.
 * @typedef {{ text: string | null, proposals: Proposed[], why: string }} Found
 */

/** @type {Found} */
const NONE = { text: null, proposals: [], why: '' };

/** Asks what completes the drawing that stands, shows it, and adds what is taken. */
export class Proposals {
  found = NONE;
  /** That of which something is being added. */
  added = NONE;
  node = byId('proposed');
  layer = new Layer(byId('proposals'), html);

  /**
   * @param {import('./paper.js').Paper} paper
   * @param {import('./board.js').Board} board
   */
  constructor(paper, board) {
    this.paper = paper;
    this.board = board;
    const ask = (/** @type {string} */ text) => paper.about('complete', { text });
    this.behind = new Behind(paper, ask, (text, { proposals, why }) => {
      if (proposals) this.show({ text, proposals, why: why ?? '' });
    });
    paper.when('answer', (answer) => this.later(answer));
    paper.when('begin', () => this.show(NONE));
    board.node.addEventListener('proposed', (event) => {
      if (event instanceof CustomEvent) this.take(event.detail);
    });
    byId('proposals').addEventListener('click', ({ target }) => {
      const button = target instanceof Element ? target.closest('[data-proposed]') : null;
      this.take(Number(button?.getAttribute('data-proposed')));
    });
  }

  /**
   * Asks once nothing has changed for a while; what was proposed of another text goes at once.
   * @param {Judged} answer
   */
  later({ judgement, refused }) {
    const { text, live } = this.paper;
    const isKnown = this.found.text === text;
    if (!isKnown || live) this.show(NONE);
    this.behind.later(lacks(judgement) && !refused && !live && !isKnown ? text : null);
  }

  /**
   * Shows what was found. The focus goes from what is no longer proposed to the verdict.
   * @param {Found} found
   */
  show(found) {
    const { proposals, why } = this.found = found;
    const had = this.node.contains(document.activeElement);
    this.board.propose(proposals);
    this.node.hidden = !proposals.length && !why;
    byId('complete').hidden = !proposals.length;
    byId('why').textContent = why && `Nothing is proposed: ${why}.`;
    this.layer.show(proposals.map(row));
    if (had && !proposals.length) byId('verdict').focus();
  }

  /**
   * What is proposed under a number.
   * @param {number} number
   * @returns {Proposed | undefined}
   */
  of(number) {
    return this.found.proposals[number - 1];
  }

  /**
   * Adds one of them.
   * @param {number} number
   */
  take(number) {
    const proposal = this.of(number);
    if (proposal) this.add([proposal]);
  }

  /** Adds all of them: one change. */
  takeAll() {
    this.add(this.found.proposals);
  }

  /**
   * Adds some of them to the drawing of which they were found: once, also by two clicks.
   * @param {Proposed[]} proposals
   */
  async add(proposals) {
    const { found } = this;
    if (!proposals.length || this.added === found) return;
    this.added = found;
    const lines = proposals.map(({ line }) => line);
    await this.paper.edit({ do: 'lines', lines }, found.text ?? '');
    this.added = NONE;
  }

  /**
   * Adds one of them with the value that is typed; one that has none as it is.
   * @param {number} number
   */
  async change(number) {
    const proposal = this.of(number);
    if (!proposal || proposal.value === null) {
      this.take(number);
      return;
    }
    const { words, value } = proposal;
    const { width, height } = this.board.size();
    const place = this.board.proposedPlace(number) ?? [width / 2, height / 2];
    const taken = await typed(words.join(' '), value, place);
    if (taken !== null) await this.paper.edit({ do: 'ask', words, value: taken });
  }
}

/**
 * Whether a drawing may lack dimensions.
 * @param {Judged['judgement']} judgement
 */
function lacks(judgement) {
  const { verdict, good } = judgement ?? {};
  return verdict === 'open' || (verdict === 'well' && !good);
}

/**
 * A row of the list: a button that adds what is proposed.
 * @param {Proposed} proposed
 * @returns {import('./page').Keyed}
 */
function row({ number, line, fixes, ties }) {
  const title = `fixes ${fixes.join(', ')}; click adds it, Enter asks for another value`;
  return [number, 'li', { class: ties ? 'ties' : '' },
    ['button', { 'data-proposed': number, title }, line]];
}
