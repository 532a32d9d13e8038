// @ts-check
/** What all works with that a hand does on the board. */

/**
 * The board, the drawing on it, what is selected, the tool that is held, and what tells a line.
 * @typedef {{ board: import('./board.js').Board, paper: import('./paper.js').Paper,
 *   selection: import('./selection.js').Selection, hand: import('./tools.js').Hand,
 *   tell: (text: string, kind?: string) => void }} Means
 */

/** Something that a hand does. */
export class Work {
  /** @param {Means} means */
  constructor(means) {
    this.board = means.board;
    this.paper = means.paper;
    this.selection = means.selection;
    this.hand = means.hand;
    this.tell = means.tell;
  }

  /**
   * A place in pixels as one on the grid, in millimetres.
   * @param {import('./page').Place} pixels
   */
  onGrid(pixels) {
    return this.board.plane.rounded(this.board.plane.toPlane(pixels));
  }
}
