// @ts-check
/** Toolbars: arrows go from one button to the next, and Tab leaves the bar. */

/** @type {Record<string, number>} */
const STEPS = { ArrowRight: 1, ArrowDown: 1, ArrowLeft: -1, ArrowUp: -1 };

/** Has the arrows go through each toolbar of the page. */
export class Toolbars {
  constructor() {
    for (const bar of document.querySelectorAll('[role="toolbar"]')) {
      bar.addEventListener('keydown', (event) => {
        if (!(event instanceof KeyboardEvent)) return;
        if (event.key === 'Tab') this.leave(bar);
        else if (this.goes(bar, event)) {
          event.preventDefault();
          event.stopPropagation();
        }
      });
    }
  }

  /**
   * The buttons of a toolbar that can be pressed.
   * @param {Element} bar
   * @returns {HTMLElement[]}
   */
  buttons(bar) {
    const all = [...bar.querySelectorAll('button:not(:disabled), summary')];
    return all.filter((each) => each instanceof HTMLElement && each.offsetParent !== null)
      .map((each) => /** @type {HTMLElement} */ (each));
  }

  /**
   * Tab goes to none of a bar's buttons: it leaves the bar.
   * @param {Element} bar
   */
  leave(bar) {
    const others = this.buttons(bar).filter((each) => each !== document.activeElement);
    for (const each of others) each.tabIndex = -1;
    setTimeout(() => {
      for (const each of others) each.tabIndex = 0;
    });
  }

  /**
   * Goes where a key says; false where it says nothing.
   * @param {Element} bar
   * @param {KeyboardEvent} event
   */
  goes(bar, { key, target, altKey, ctrlKey, metaKey }) {
    const buttons = this.buttons(bar);
    const place = buttons.findIndex((each) => each === target);
    if (place < 0 || altKey || ctrlKey || metaKey) return false;
    const { length } = buttons;
    const ends = key === 'Home' ? 0 : key === 'End' ? length - 1 : null;
    const next = ends ?? (STEPS[key] ? (place + STEPS[key] + length) % length : null);
    if (next === null) return false;
    buttons[next].focus();
    return true;
  }
}
