// @ts-check
/** The mouse, the pen and the fingers on the board. */
import { apart } from './shapes.js';
import { Sequence } from './sequence.js';
import { NEAR_EDGE } from './board.js';
import { boxMade, boxOf, taken } from './box.js';
import { Drafting } from './drafting.js';
import { Dragging } from './dragging.js';
import { Labels } from './labels.js';
import { Moving } from './moving.js';
import { Pointing } from './pointing.js';
import { Work } from './work.js';

/** @typedef {import('./page').Place} Place */
/** @typedef {import('./protocol').Edit} Edit */

/**
 * What was pressed, where it was first, in pixels and in millimetres, and last, whether it pans or
 * draws a box, whether it was moved, whether what is open follows, and the edit that it makes, with
 * what is guessed of it.
 * @typedef {{ at: Place, from: Place, last: Place, thing: Thing, pans: boolean, boxes: boolean,
 *   moved: boolean, follows?: boolean, edit: Edit | null,
 *   guesses: import('./guesses.js').Guess[] }} Pressed
 */
/**
 * What lies under a hand: a point or shape by its name, a constraint by its number, what is
 * proposed by its own, or nothing.
 * @typedef {string | number | { proposed: number } | null} Thing
 */
/**
 * The keys that are held: Shift keeps level, or adds; Ctrl leaves out what is guessed.
 * @typedef {{ shiftKey: boolean, ctrlKey: boolean, altKey: boolean }} Held
 */

const SLACK = 4;
/** @type {Held} */
export const NONE_HELD = { shiftKey: false, ctrlKey: false, altKey: false };

/** Turns what a hand does on the board into selections and edits. */
export class Gestures extends Work {
  /** @type {Pressed | null} */
  pressed = null;
  /**
   * What was clicked last.
   * @type {Thing}
   */
  clicked = null;
  /** What was done while the server had a click to answer. */
  sequence = new Sequence();
  /** Whether a key is held by which the hand pans. */
  pans = false;

  /** @param {import('./work.js').Means} means */
  constructor(means) {
    super(means);
    this.drafting = new Drafting(means);
    this.moving = new Moving(means, this.drafting.guesses);
    this.dragging = new Dragging(means);
    this.labels = new Labels(means);
    this.pointing = new Pointing(this.board);
    const { node } = this.board;
    this.hears('pointerdown', (event, at) => this.down(event, at));
    this.hears('pointermove', (event, at) => this.move(event, at));
    this.hears('pointerup', (event, at) => this.up(event, at));
    this.hears('pointercancel', () => this.cancel());
    node.addEventListener('pointerleave', () => this.point(null, [0, 0]));
    node.addEventListener('contextmenu', (event) => event.preventDefault());
    node.addEventListener('wheel', (event) => this.wheel(event), { passive: false });
  }

  /**
   * Hears what the first pointer does on the board, and where.
   * @param {'pointerdown' | 'pointermove' | 'pointerup' | 'pointercancel'} what
   * @param {(event: PointerEvent, at: Place) => void} act
   */
  hears(what, act) {
    this.board.node.addEventListener(what, (event) => {
      if (event.isPrimary) act(event, this.at(event));
    });
  }

  /**
   * The place of an event in pixels of the board.
   * @param {MouseEvent} event
   * @returns {Place}
   */
  at(event) {
    const box = this.board.node.getBoundingClientRect();
    return [event.clientX - box.left, event.clientY - box.top];
  }

  /**
   * A button goes down.
   * @param {PointerEvent} event
   * @param {Place} at
   */
  down(event, at) {
    if (event.button > 2 || !(event.target instanceof Element)) return;
    this.board.node.setPointerCapture(event.pointerId);
    const thing = this.touched(event.target, at);
    const pans = event.button > 0 || this.pans;
    const boxes = !pans && !thing && !this.hand.draws;
    this.labels.take(typeof thing === 'number' ? thing : null);
    const from = this.board.plane.toPlane(at);
    this.pressed = {
      at, from, last: at, thing, pans, boxes, moved: false, edit: null, guesses: [] };
  }

  /**
   * What lies under the hand. An edge that a sign lies on has its clicks, and so has one that
   * something proposed lies over.
   * @param {Element} node
   * @param {Place} at
   * @returns {Thing}
   */
  touched(node, at) {
    const proposed = Number(node.closest('[data-proposed]')?.getAttribute('data-proposed'));
    if (proposed) return this.board.edgeAt(at, NEAR_EDGE) ?? { proposed };
    const number = Number(node.closest('[data-constraint]')?.getAttribute('data-constraint'));
    if (!number) return node.closest('[data-name]')?.getAttribute('data-name') ?? null;
    return (node.matches('.sign') && this.board.edgeAt(at)) || number;
  }

  /**
   * The pointer moves: it pans, drags, or shows what a click would draw.
   * @param {PointerEvent} event
   * @param {Place} at
   */
  move(event, at) {
    const { pressed } = this;
    if (pressed && !event.buttons) this.up(event, at);
    if (!pressed || !event.buttons) {
      this.hover(at, heldOf(event), event.target);
      return;
    }
    pressed.moved ||= apart(at, pressed.at) > SLACK;
    if (!pressed.moved) return;
    this.carry(pressed, event, at);
    pressed.last = at;
  }

  /**
   * What was pressed goes with the hand: the board, a box, what is dragged, a label.
   * @param {Pressed} pressed
   * @param {PointerEvent} event
   * @param {Place} at
   */
  carry(pressed, event, at) {
    const { board } = this;
    const start = board.plane.toScreen(pressed.from);
    if (pressed.pans) {
      board.plane.pan(at[0] - pressed.last[0], at[1] - pressed.last[1]);
      board.draw();
    } else if (pressed.boxes) {
      board.preview = (plane) => [boxMade(boxOf(plane.toScreen(pressed.from), at))];
      board.drawHand();
    } else if (!this.hand.draws && typeof pressed.thing === 'string') {
      this.drag(pressed, pressed.thing, start, at, heldOf(event));
    } else if (!this.hand.draws && typeof pressed.thing === 'number') {
      this.labels.hold(at, start);
    } else this.hover(at, heldOf(event));
  }

  /**
   * Drags what was pressed; a point that comes near to something is drawn there, and a sign tells
   * what is asked for where it is dropped.
   * @param {Pressed} pressed
   * @param {string} name
   * @param {Place} start
   * @param {Place} at
   * @param {Held} held
   */
  drag(pressed, name, start, at, held) {
    const aim = this.moving.drop(name, at, held);
    pressed.follows ??= this.dragging.begin(name, start, held.altKey);
    if (pressed.follows) {
      pressed.guesses = this.dragging.follow(aim, at) ? aim.guesses : [];
      this.board.preview = pressed.guesses.length ? () => this.drafting.signs(aim.guesses) : null;
      return;
    }
    const edit = this.moving.dragged(name, start, aim.at);
    if (!edit) return;
    Object.assign(pressed, { edit, guesses: aim.guesses });
    this.board.preview = aim.guesses.length ? () => this.drafting.signs(aim.guesses) : null;
    this.paper.preview(edit);
  }

  /**
   * A button goes up: a click, or the end of a drag.
   * @param {PointerEvent} event
   * @param {Place} at
   */
  up(event, at) {
    const { pressed } = this;
    this.pressed = null;
    if (!pressed) return;
    if (pressed.follows) this.letGo(pressed);
    else if (pressed.edit) this.land(pressed.edit, pressed);
    else if (pressed.boxes && pressed.moved) {
      this.box(this.board.plane.toScreen(pressed.from), at, heldOf(event));
    } else if (event.button === 0 && !(pressed.pans && pressed.moved)) {
      this.release(pressed, at, heldOf(event));
    } else this.labels.drop();
    this.clicked = pressed.moved ? null : pressed.thing;
  }

  /**
   * Selects what a box takes; with Shift adds it, with Ctrl what is selected in it goes.
   * @param {Place} from
   * @param {Place} to
   * @param {Held} held
   */
  box(from, to, { shiftKey, ctrlKey }) {
    const { board, selection } = this;
    board.preview = null;
    const names = taken(board, boxOf(from, to));
    if (ctrlKey) selection.turn(names);
    else selection.set(shiftKey ? [...selection.names, ...names] : names,
      shiftKey ? selection.numbers : []);
    this.tell(names.length ? `${[...selection.names].join(', ')} selected` : this.hand.hint);
  }

  /**
   * What was dragged is dropped, with what is guessed of it.
   * @param {Edit} edit
   * @param {{ thing: Pressed['thing'], guesses: Pressed['guesses'] }} dropped
   */
  land(edit, dropped) {
    this.board.preview = null;
    this.paper.land(edit, asksOf(dropped));
  }

  /**
   * What follows the hand is let go, with what is guessed of it.
   * @param {{ thing: Pressed['thing'], guesses: Pressed['guesses'] }} dropped
   */
  letGo(dropped) {
    this.board.preview = null;
    return this.dragging.land(asksOf(dropped));
  }

  /**
   * What was pressed is let go at a place, which counts in its turn, there where it was: by a tool
   * that draws then it is a click; else it selects, or what was dragged goes there.
   * @param {Pressed} pressed
   * @param {Place} to
   * @param {Held} held
   */
  release({ thing, from: first, moved }, to, held) {
    const { plane } = this.board;
    const last = plane.toPlane(to);
    const grip = this.labels.letGo();
    this.sequence.do(() => {
      const [start, end] = [plane.toScreen(first), plane.toScreen(last)];
      if (this.hand.draws) return this.drafting.act(end, held);
      if (!moved) return this.select(thing, held.shiftKey || held.ctrlKey);
      if (typeof thing === 'number') return this.labels.put(grip, end, start);
      if (typeof thing !== 'string') return null;
      const aim = this.moving.drop(thing, end, held);
      if (this.dragging.begin(thing, start, held.altKey)) {
        return this.letGo({ thing, guesses: this.dragging.follow(aim, end) ? aim.guesses : [] });
      }
      const edit = this.moving.dragged(thing, start, aim.at);
      return edit && this.land(edit, { thing, guesses: aim.guesses });
    });
  }

  /** Another drawing begins: nothing of the last is held, and no click on it counts. */
  leave() {
    this.pressed = null;
    this.labels.drop();
    this.dragging.giveUp();
    this.sequence.forget();
  }

  /** Whether something goes with the hand: what it drags, a label, a box, or the board. */
  get carries() {
    const isCarried = this.pressed?.moved && !this.hand.draws;
    return isCarried || this.dragging.held !== null;
  }

  /** The browser takes the pointer away: what was dragged stays where it was. */
  cancel() {
    this.pressed = null;
    this.labels.drop();
    this.board.preview = null;
    this.dragging.drop();
    this.paper.drop();
  }

  /**
   * Selects what was clicked; a click beside all selects nothing.
   * @param {Thing | undefined} thing
   * @param {boolean} more
   */
  select(thing, more) {
    if (thing && typeof thing === 'object') {
      const detail = thing.proposed;
      this.board.node.dispatchEvent(new CustomEvent('proposed', { detail }));
    } else if (thing) this.selection.take(thing, more);
    else if (!more) this.selection.set([]);
  }

  /**
   * Shows what a click would draw, and ask for; where it would select, what lies there.
   * @param {Place} pixels
   * @param {Held} held
   * @param {EventTarget | null} [target]
   */
  hover(pixels, held, target = null) {
    this.drafting.show(pixels, held);
    this.point(target instanceof Element ? this.touched(target, pixels) : null, pixels);
  }

  /**
   * Has what lies under the hand stand out, with its name.
   * @param {Thing} thing
   * @param {Place} pixels
   */
  point(thing, pixels) {
    const { board, hand } = this;
    if (hand.draws || this.pressed) return;
    const had = board.preview;
    board.preview = thing ? () => this.pointing.made(thing, pixels) : null;
    if (had || thing) board.drawHand();
  }

  /**
   * Zooms, or pans with Shift.
   * @param {WheelEvent} event
   */
  wheel(event) {
    event.preventDefault();
    if (event.shiftKey) this.board.plane.pan(-event.deltaY, 0);
    else this.board.plane.zoom(Math.exp(-event.deltaY * 0.0015), this.at(event));
    this.board.draw();
  }
}

/**
 * The keys that are held while something is done; Command is Ctrl on a Mac.
 * @param {MouseEvent} event
 * @returns {Held}
 */
function heldOf({ shiftKey, ctrlKey, metaKey, altKey }) {
  return { shiftKey, ctrlKey: ctrlKey || metaKey, altKey };
}

/**
 * The words of what is guessed of something that is dropped, with its name.
 * @param {{ thing: Pressed['thing'], guesses: Pressed['guesses'] }} dropped
 */
function asksOf({ thing, guesses }) {
  return guesses.map(({ words }) => words.map((word) => (word === '@' ? String(thing) : word)));
}
