// @ts-check
/** The verdict, in words: what is judged, and what to do. */
import { html, colourOf } from './nodes.js';

/** @typedef {import('./protocol').Judged} Judged */
/** @typedef {import('./protocol').Line} Line */

const EMPTY = 'Draw with the tools above the board, start from the gallery, or write in the text '
  + 'below.';
const OLD = 'The board shows the last drawing that was judged.';

/** Shows the judgement of each answer, line by line as the server tells it. */
export class Verdict {
  /**
   * What was let go at a dead point, and the text that it made.
   * @type {import('./page').Dead & { text: string } | null}
   */
  dead = null;

  /**
   * @param {HTMLElement} node
   * @param {import('./paper.js').Paper} paper
   * @param {import('./selection.js').Selection} selection
   * @param {import('./board.js').Board} board
   */
  constructor(node, paper, selection, board) {
    this.node = node;
    this.paper = paper;
    this.selection = selection;
    this.board = board;
    paper.when('dead', (dead) => {
      this.dead = { ...dead, text: paper.text };
      this.node.append(this.other(dead));
    });
  }

  /**
   * A button that draws the other shape, behind a drag that ended at a dead point.
   * @param {import('./page').Dead} detail
   */
  other(detail) {
    const ask = () => this.node.dispatchEvent(new CustomEvent('other', { detail }));
    return html('p', {}, ['span', {}, 'It stopped at a dead point, or at the end of its range. '],
      ['button', { id: 'other-shape', onclick: ask }, 'The other shape']);
  }

  /**
   * Shows an answer.
   * @param {Judged} answer
   */
  show(answer) {
    const [kind, title, lines] = told(answer, this.paper.isOld);
    this.node.className = kind;
    this.node.dataset.verdict = kind;
    const focused = this.node.contains(document.activeElement) ? document.activeElement : null;
    const time = { class: 'time', title: 'the time that the server took' };
    /** @type {Map<string, HTMLElement>} */
    const lists = new Map();
    const nodes = [html('h2', {}, title), ...lines.map((line) => this.line(line, lists))];
    this.node.replaceChildren();
    if (answer.ms) this.node.append(html('span', time, `${answer.ms} ms`));
    for (const each of nodes) if (each) this.node.append(each);
    if (answer.judgement?.found) this.node.append(this.pieces());
    if (this.dead?.text === this.paper.text) this.node.append(this.other(this.dead));
    if (focused) this.focus(focused);
  }

  /** A button that shows what is open by the colours of its pieces, or by what is free. */
  pieces() {
    const { board } = this;
    const button = html('button', {
      id: 'pieces', 'aria-pressed': board.byPieces, onclick: () => {
        board.byPieces = !board.byPieces;
        button.ariaPressed = String(board.byPieces);
        board.draw();
      } }, 'Clusters by colour');
    return button;
  }

  /**
   * The focus stays on the button that does the same as the one that had it, or else here.
   * @param {Element} old
   */
  focus(old) {
    const buttons = [...this.node.querySelectorAll('button')];
    const same = buttons.find((each) => each.ariaLabel === old.ariaLabel
      && each.textContent === old.textContent);
    (same ?? this.node).focus();
  }

  /**
   * A line, or the list that it begins; null of a line in a list that another has begun.
   * @param {Line} line
   * @param {Map<string, HTMLElement>} lists
   */
  line(line, lists) {
    if (!line.list) return html('p', { class: line.kind }, this.told(line));
    const list = lists.get(line.list);
    list?.append(this.item(line));
    if (list) return null;
    const begun = html('ul', { 'aria-label': line.list }, this.item(line));
    lists.set(line.list, begun);
    return begun;
  }

  /**
   * A line of a list: with the colour of its part, or the button that takes its constraint away, or
   * has it told no longer.
   * @param {Line} line
   */
  item({ text, part, takes, forgets, ...line }) {
    const erase = () => this.paper.edit({ do: 'erase', constraints: [takes ?? 0] });
    const take = takes && html('button', {
      onclick: erase, 'aria-label': `remove ${text.split(': ')[0]}` }, 'Remove');
    const forget = forgets && html('button', {
      onclick: () => this.paper.forget(forgets), title: 'don’t show this line any more',
      'aria-label': `done: ${text}` }, 'Done');
    const chip = part && html('i', { class: 'chip', '--colour': colourOf(part) });
    return html('li', { 'data-spare': takes }, chip, this.told({ text, ...line }), take, forget);
  }

  /**
   * The text of a line; where it selects something, as a button.
   * @param {Line} line
   */
  told({ text, selects, constraint }) {
    if (constraint) {
      return html('button', { onclick: () => this.selection.take(constraint, false) }, text);
    }
    if (selects) {
      return html('button', { class: 'line', onclick: () => this.selection.set(selects) }, text);
    }
    return html('span', {}, text);
  }
}

/**
 * A kind, a title, and the lines below it; isOld: whether the drawing is one before.
 * @param {Judged} answer
 * @param {boolean} isOld
 * @returns {[string, string, Line[]]}
 */
function told({ drawing, refused, trouble, judgement }, isOld) {
  const old = isOld && drawing ? [{ text: OLD }] : [];
  if (refused) return ['refused', 'not read', [{ text: refused.message }]];
  if (trouble) return ['trouble', 'not judged', [{ text: trouble.message }, ...old]];
  if (!judgement) return ['empty', 'empty', [{ kind: 'quiet', text: EMPTY }]];
  const { failure, verdict, good, lines } = judgement;
  if (failure) return ['fault', 'well, but can’t be placed', lines];
  if (verdict === 'well' && !good) return ['unmet', 'well, but not good', lines];
  return [verdict, verdict, lines];
}
