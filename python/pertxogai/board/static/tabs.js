// @ts-check
/**
 * The tabs beside the board: a click or an arrow opens one. The document hears 'tab', with its id.
 */
import { byId } from './nodes.js';

/** @type {Record<string, number>} */
const STEPS = { ArrowRight: 1, ArrowLeft: -1 };

/**
 * Has something done with the id of each tab that is opened.
 * @param {(id: string) => void} act
 */
export function whenOpened(act) {
  document.addEventListener('tab', (event) => {
    if (event instanceof CustomEvent) act(event.detail);
  });
}

export class Tabs {
  /** @type {HTMLElement[]} */
  all = [...document.querySelectorAll('[role="tab"]')].map((each) => byId(each.id));

  constructor() {
    for (const tab of this.all) {
      tab.addEventListener('click', () => this.open(tab));
      tab.addEventListener('keydown', (event) => this.arrow(event, tab));
    }
    this.open(this.all[0]);
  }

  /**
   * Opens a tab.
   * @param {HTMLElement} tab
   */
  open(tab) {
    for (const each of this.all) {
      each.ariaSelected = String(each === tab);
      each.tabIndex = each === tab ? 0 : -1;
      byId(each.getAttribute('aria-controls') ?? '').hidden = each !== tab;
    }
    document.dispatchEvent(new CustomEvent('tab', { detail: tab.id }));
  }

  /**
   * Arrows go from tab to tab.
   * @param {KeyboardEvent} event
   * @param {HTMLElement} tab
   */
  arrow(event, tab) {
    const step = STEPS[event.key];
    if (!step) return;
    const next = this.all[(this.all.indexOf(tab) + step + this.all.length) % this.all.length];
    next.focus();
    this.open(next);
  }
}
