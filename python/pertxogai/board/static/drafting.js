// @ts-check
/** What the clicks of a tool draw, cut or draw again, and what a click would. */
import { svg } from './nodes.js';
import { rounded } from './tools.js';
import { pathOf } from './shapes.js';
import { Guesses, signOf } from './guesses.js';
import { Copies } from './copies.js';
import { figurePath } from './outlines.js';
import { NEAR_EDGE } from './board.js';
import { Work } from './work.js';

/** @typedef {import('./page').Place} Place */
/** @typedef {import('./guesses.js').Aim} Aim */
/** @typedef {import('./gestures.js').Held} Held */

const NOTHING_DRAWN = 'Nothing is drawn: its places are one, or lie on one line. Choose others.';

/** Draws by clicks. */
export class Drafting extends Work {
  /**
   * Where the hand was last, in pixels, and the keys that it held.
   * @type {[Place, Held]}
   */
  last = [[0, 0], { shiftKey: false, ctrlKey: false, altKey: false }];

  /** @param {import('./work.js').Means} means */
  constructor(means) {
    super(means);
    this.guesses = new Guesses(this.board);
    this.copies = new Copies(means);
  }

  /**
   * Where the hand aims at a place in pixels, by the keys that are held.
   * @param {Place} pixels
   * @param {Held} held
   * @returns {Aim & { level: 'horizontal' | 'vertical' | null }}
   */
  aim(pixels, { shiftKey, ctrlKey }) {
    const { hand, guesses } = this;
    const keeps = shiftKey && hand.tool === 'segment';
    const from = keeps ? hand.clicks.at(-1)?.at : undefined;
    const plain = ctrlKey ? guesses.plain(pixels) : null;
    if (!from) return { ...plain ?? guesses.ofHand(hand, pixels), level: null };
    const aim = plain ?? guesses.aim(pixels);
    const level = levelOf(from, aim.at);
    if (aim.isPoint || aim.guesses.length) return { ...aim, level };
    const [x, y] = level === 'horizontal' ? [aim.at[0], from[1]] : [from[0], aim.at[1]];
    return { ...aim, spot: { x, y }, at: [x, y], level };
  }

  /**
   * What a click of a tool does: it cuts, draws again what is selected, or draws.
   * @param {Place} pixels
   * @param {Held} held
   */
  act(pixels, held) {
    const { cut, copy } = this.hand;
    if (copy) return this.again(pixels, held);
    return cut ? this.cut(cut, pixels) : this.draw(pixels, held);
  }

  /**
   * Draws again what is selected, by a click; what is drawn is selected then.
   * @param {Place} pixels
   * @param {Held} held
   */
  async again(pixels, held) {
    const { board, paper, copies, selection } = this;
    const edit = await copies.edit(pixels, this.aimPlainly(pixels, held));
    const known = new Set(board.answer.drawing.shapes.map((each) => each.name));
    if (!edit || !await paper.edit(edit)) return;
    const shapes = paper.answer?.drawing?.shapes ?? [];
    board.node.dispatchEvent(new Event('done'));
    selection.set(shapes.map((each) => each.name).filter((name) => !known.has(name)));
  }

  /**
   * Where the hand aims at a place in pixels: a point that is near, or else one on the grid.
   * @param {Place} pixels
   * @param {Held} held
   */
  aimPlainly(pixels, { ctrlKey }) {
    const near = ctrlKey ? null : this.board.nearPoint(pixels);
    const plain = { ...this.guesses.plain(pixels), plain: ctrlKey };
    return near ? { ...plain, spot: { point: near.name }, at: near.at, isPoint: true } : plain;
  }

  /**
   * Draws by a click.
   * @param {Place} pixels
   * @param {Held} held
   */
  async draw(pixels, held) {
    const { hand, paper } = this;
    const aim = this.aim(pixels, held);
    const isChain = hand.clicks.length === 1 && hand.tool === 'segment';
    const edit = hand.click(aim);
    const { clicks } = hand;
    this.showHand(pixels, held);
    if (!edit && !clicks.length) this.tell(NOTHING_DRAWN);
    const asks = isChain && aim.level ? [[aim.level, '*']] : [];
    if (!edit || !await paper.draw(edit, asks) || hand.clicks !== clicks) return;
    const name = paper.answer?.drawing?.shapes.at(-1)?.name;
    if (isChain && !aim.isPoint && name) {
      hand.click({ spot: { point: `${name}.end` }, at: aim.at, guesses: [] });
    }
    this.showHand(...this.last);
  }

  /**
   * Trims the edge at a place, or has it go on.
   * @param {import('./tools.js').Cut} cut
   * @param {Place} pixels
   */
  async cut(cut, pixels) {
    const { board, paper } = this;
    const shape = board.edgeAt(pixels, NEAR_EDGE);
    if (!shape) return;
    const [x, y] = board.plane.toPlane(pixels).map((each) => rounded(each, 1000));
    if (await paper.edit({ do: cut, shape, x, y })) this.tell(this.hand.hint);
    this.show(...this.last);
  }

  /**
   * Says what to do next, and shows what a click would draw.
   * @param {Place} pixels
   * @param {Held} held
   */
  showHand(pixels, held) {
    this.tell(this.hand.hint);
    this.show(pixels, held);
  }

  /**
   * Shows what a click would draw, and ask for.
   * @param {Place} pixels
   * @param {Held} held
   */
  show(pixels, held) {
    const { board, hand } = this;
    this.last = [pixels, held];
    if (!hand.draws) return;
    board.preview = hand.figure ? this.figureAt(pixels, held) : this.previewOf(pixels, held);
    board.drawHand();
  }

  /**
   * The figure that a click would draw, with the signs of what it would ask for.
   * @param {Place} pixels
   * @param {Held} held
   * @returns {(plane: import('./view.js').View) => (Element | null)[]}
   */
  figureAt(pixels, held) {
    const { hand } = this;
    const { at, isPoint, guesses } = this.aim(pixels, held);
    const isHeld = isPoint || guesses.some(
      ({ words }) => words.includes('@') || words.includes('*.end'));
    const [kind, r] = isHeld ? ['snap', 9] : ['preview', 4];
    const way = this.guesses.wayOn(hand.clicks[0]);
    return (plane) => {
      const [cx, cy] = plane.toScreen(at);
      const path = figurePath(
        hand, [...hand.clicks.map((each) => plane.toScreen(each.at)), [cx, cy]], way);
      return [path ? svg('path', { class: 'preview', d: path }) : null,
        svg('circle', { class: kind, cx, cy, r }), ...this.signs(guesses)];
    };
  }

  /**
   * What a click of a tool that draws no figure would do.
   * @param {Place} pixels
   * @param {Held} held
   */
  previewOf(pixels, held) {
    const { hand, copies } = this;
    if (hand.copy) return () => copies.preview(pixels, this.aimPlainly(pixels, held));
    return hand.cut ? () => [this.edgeMade(pixels)] : null;
  }

  /**
   * The edge at a place in pixels, as it stands out under a hand that cuts.
   * @param {Place} pixels
   */
  edgeMade(pixels) {
    const { board, board: { shown, answer: { drawing } } } = this;
    const name = board.edgeAt(pixels, NEAR_EDGE);
    const shape = drawing.shapes.find((each) => each.name === name);
    const d = shape && pathOf(shape, shown.viewOf(shape), board.plane);
    return d ? svg('path', { class: 'touched', d, 'data-touched': name }) : null;
  }

  /**
   * The signs of what is guessed, each beside its places; of several at one place, one beside the
   * other.
   * @param {import('./guesses.js').Guess[]} guesses
   */
  signs(guesses) {
    return guesses.flatMap((guess, place) => guess.at.map((at) => {
      const [x, y] = this.board.plane.toScreen(at);
      const told = { class: 'guess', 'data-guess': guess.words.join(' '), x: x + 15 + 16 * place };
      return svg('text', { ...told, y: y - 15 }, signOf(guess));
    }));
  }
}

/**
 * The word of a segment that is kept level or upright, between two places.
 * @param {Place} from
 * @param {Place} to
 */
function levelOf([u, v], [x, y]) {
  return Math.abs(x - u) > Math.abs(y - v) ? 'horizontal' : 'vertical';
}
