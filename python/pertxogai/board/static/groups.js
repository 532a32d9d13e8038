// @ts-check
/**
 * The group of a dimension that repeats or contradicts others: those from which it follows stand
 * out in the drawing while a hand or the focus is on it, in a list or on the board, and while it is
 * chosen.
 */
import { byId } from './nodes.js';

/** What names a constraint by its number: a line of the verdict, one of the list, a mark. */
const NAMED = ['data-spare', 'data-selects', 'data-constraint'];

/** Shows the groups of what repeats or contradicts. */
export class Groups {
  /**
   * The constraint that a hand or the focus is on.
   * @type {number | null}
   */
  pointed = null;

  /**
   * @param {import('./board.js').Board} board
   * @param {import('./selection.js').Selection} selection
   */
  constructor(board, selection) {
    this.board = board;
    this.selection = selection;
    for (const node of [byId('verdict'), byId('asked'), board.node]) {
      for (const what of ['pointerover', 'focusin']) {
        node.addEventListener(what, ({ target }) => this.point(numberOf(target)));
      }
      for (const what of ['pointerleave', 'focusout']) {
        node.addEventListener(what, () => this.point(null));
      }
    }
    selection.addEventListener('change', () => this.show());
  }

  /**
   * A hand or the focus is on a constraint, or on none.
   * @param {number | null} number
   */
  point(number) {
    if (number === this.pointed) return;
    this.pointed = number;
    this.show();
  }

  /** Has the groups of what is pointed at and of what is chosen stand out. */
  show() {
    const { pointed, selection: { numbers } } = this;
    const all = [...numbers, ...pointed ? [pointed] : []];
    this.board.group(all.flatMap((number) => this.of(number)));
  }

  /**
   * The numbers of the constraints from which one follows.
   * @param {number} number
   */
  of(number) {
    const { drawing: { constraints }, judgement } = this.board.answer;
    const found = judgement?.spare.find((each) => each.number === number);
    const names = new Set(found?.follows_from);
    return constraints.filter((each) => names.has(each.called)).map((each) => each.number);
  }
}

/**
 * The number of the constraint that a node is of; null of none.
 * @param {EventTarget | null} target
 */
function numberOf(target) {
  if (!(target instanceof Element)) return null;
  for (const name of NAMED) {
    const number = Number(target.closest(`[${name}]`)?.getAttribute(name));
    if (number) return number;
  }
  return null;
}
