// @ts-check
/** The list of constraints, while its tab is open. */
import { html, byId } from './nodes.js';
import { Layer } from './layer.js';
import { whenOpened } from './tabs.js';

/** @typedef {import('./protocol').Constraint} Constraint */

export class Asked {
  layer = new Layer(byId('asked'), html);
  isOpen = false;

  /**
   * @param {import('./paper.js').Paper} paper
   * @param {import('./selection.js').Selection} selection
   * @param {import('./offers.js').Offers} offers
   */
  constructor(paper, selection, offers) {
    this.paper = paper;
    this.selection = selection;
    whenOpened((id) => {
      this.isOpen = id === 'tab-asked';
      this.show();
    });
    selection.addEventListener('change', () => this.show());
    paper.when('answer', () => this.show());
    const node = byId('asked');
    node.addEventListener('click', (event) => this.click(dataOf(event.target), event.shiftKey));
    node.addEventListener('dblclick', ({ target }) => {
      const { selects } = dataOf(target);
      if (selects) offers.change(Number(selects));
    });
  }

  /**
   * A click on a constraint selects it; on the button behind it, takes it away.
   * @param {DOMStringMap} data
   * @param {boolean} more
   */
  click({ selects, takes }, more) {
    if (selects) this.selection.take(Number(selects), more);
    if (takes) this.paper.edit({ do: 'erase', constraints: [Number(takes)] });
  }

  /** Shows the constraints that stand. */
  show() {
    if (!this.isOpen) return;
    const { activeElement } = document;
    const isHere = this.layer.node.contains(activeElement);
    const { selects, takes } = dataOf(isHere ? activeElement : null);
    const { drawing, judgement } = this.paper.answer ?? {};
    const spare = new Set(judgement?.spare?.map((each) => each.number));
    const told = new Map((judgement?.excess ?? []).map((each) => [each.number, `: ${each.told}`]));
    const rows = (drawing?.constraints ?? []).map((each) => this.row(
      each, spare.has(each.number) || told.has(each.number), told.get(each.number) ?? ''));
    this.layer.show(rows.length ? rows : [['none', 'li', { class: 'quiet' },
      'No constraints yet: select something on the board.']]);
    const had = selects ?? takes;
    if (had && document.activeElement === document.body) this.focus(Number(had));
  }

  /**
   * The row of a constraint, that may go or not, and what is told of it.
   * @param {Constraint} constraint
   * @param {boolean} isSpare
   * @param {string} told
   * @returns {import('./page').Keyed}
   */
  row({ number, name, words, called }, isSpare, told) {
    const isSelected = this.selection.numbers.has(number);
    const kind = `what ${isSpare ? 'spare' : ''} ${isSelected ? 'selected' : ''}`;
    const text = `${number}  ${name ? `${name}: ` : ''}${words}${told}`;
    return [number, 'li', {}, ['button', { class: kind, 'data-selects': number }, text],
      ['button', { 'aria-label': `remove ${called}`, title: 'remove it',
        'data-takes': number }, '×']];
  }

  /**
   * The focus goes to the constraint of a number, or to the last where there are fewer.
   * @param {number} number
   */
  focus(number) {
    const buttons = [...byId('asked').querySelectorAll('[data-selects]')];
    const button = buttons[Math.min(number, buttons.length) - 1];
    if (button instanceof HTMLElement) button.focus();
  }
}

/**
 * What a node has under `data-..`; nothing of what is none.
 * @param {EventTarget | null} node
 * @returns {DOMStringMap}
 */
function dataOf(node) {
  return node instanceof HTMLElement ? node.dataset : {};
}
