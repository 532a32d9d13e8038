// @ts-check
/** The page: its parts, and what goes from one to the other. */
import { byId, buttonOf, nodeOf } from './nodes.js';
import { closed } from './dialogs.js';
import { Server } from './calls.js';
import { Paper } from './paper.js';
import { Selection } from './selection.js';
import { Board, NOTHING } from './board.js';
import { Gestures } from './gestures.js';
import { Cross } from './cross.js';
import { Hand, isTool } from './tools.js';
import { Offers } from './offers.js';
import { Verdict } from './verdict.js';
import { Proposals } from './proposals.js';
import { Checks } from './checks.js';
import { Texts } from './texts.js';
import { Asked } from './asked.js';
import { Slider } from './ranges.js';
import { Values } from './values.js';
import { Steps } from './steps.js';
import { Tabs } from './tabs.js';
import { Files } from './files.js';
import { Keeping } from './keeping.js';
import { Groups } from './groups.js';
import { Keys } from './keys.js';
import { Pinch } from './pinch.js';
import { Sheet } from './sheet.js';
import { Speaking } from './speaking.js';
import { Toolbars } from './toolbars.js';

/** @typedef {import('./protocol').Judged} Judged */
/** @typedef {import('./tools.js').Tool} Tool */

/** Milliseconds after which a server that is stopped is tried again. */
const RETRY = 1500;

/** All parts of the page. */
export class Page {
  /**
   * What tries a server that is stopped.
   * @type {number | null}
   */
  stopped = null;
  selection = new Selection();
  hand = new Hand();
  name = nodeOf('name', HTMLInputElement);
  menu = nodeOf('export', HTMLDetailsElement);

  constructor() {
    this.server = new Server((why) => this.reach(why));
    this.paper = new Paper(this.server);
    const { paper, selection, hand } = this;
    this.board = new Board(nodeOf('board', SVGSVGElement), selection);
    this.gestures = new Gestures({ board: this.board, paper, selection, hand, tell: hint });
    this.cross = new Cross(this.gestures);
    this.offers = new Offers(paper, this.board, selection, hint);
    this.verdict = new Verdict(byId('verdict'), paper, selection, this.board);
    this.verdict.node.addEventListener('other', (event) => {
      if (event instanceof CustomEvent) {
        this.gestures.dragging.other(event.detail.names, event.detail.begin);
      }
    });
    this.proposals = new Proposals(paper, this.board);
    this.checks = new Checks(paper, this.board);
    this.texts = new Texts(paper);
    this.asked = new Asked(paper, selection, this.offers);
    this.values = new Values(paper, selection, new Slider(paper, selection));
    this.steps = new Steps(paper, this.board);
    this.keeping = new Keeping(paper, banner);
    this.files = new Files(paper, this.keeping, () => this.board.fit());
    this.groups = new Groups(this.board, selection);
    this.keys = new Keys(this);
    this.pinch = new Pinch(this.gestures);
    this.speaking = new Speaking();
    this.sheet = new Sheet(this.board, paper, hint);
    this.toolbars = new Toolbars();
    this.tabs = new Tabs();
    this.acts = this.buttons();
  }

  /**
   * What each button of the page does, by its id.
   * @returns {Record<string, (button: HTMLElement) => void>}
   */
  buttons() {
    const { paper, board, files, offers, steps, proposals, gestures: { sequence } } = this;
    const inTurn = (/** @type {() => unknown} */ act) => () => sequence.do(() => { act(); });
    return {
      new: () => files.begin('', 'drawing'),
      gallery: () => files.gallery(),
      open: () => files.input.click(),
      save: inTurn(() => files.save()),
      undo: () => sequence.do(() => paper.go(-1)),
      redo: () => sequence.do(() => paper.go(1)),
      help: () => closed(nodeOf('keys', HTMLDialogElement)),
      construction: (button) => sequence.do(() => this.construct(button)),
      fit: () => board.fit(),
      print: () => this.sheet.print(),
      fold: () => fold(!document.body.classList.contains('folded')),
      'zoom-in': () => board.zoomBy(1.25),
      'zoom-out': () => board.zoomBy(0.8),
      complete: () => proposals.takeAll(),
      'redraw-all': () => paper.redraw([]),
      revalue: () => this.keys.enter(false),
      construct: inTurn(() => offers.construct()),
      rename: inTurn(() => offers.rename()),
      erase: inTurn(() => offers.erase()),
      copy: inTurn(() => this.gestures.drafting.copies.copy()),
      alike: inTurn(() => this.selection.alike(this.board.answer.drawing)),
      all: inTurn(() => this.selection.set(
        this.board.answer.drawing.shapes.map((each) => each.name))),
      back: () => steps.go(-1),
      on: () => steps.go(1),
      play: () => steps.play(),
      flip: () => steps.flip(),
      redraw: () => steps.redraw(),
      verify: () => steps.verify(),
    };
  }

  /** Listens to the parts, and shows what was kept. */
  begin() {
    const { paper, keeping } = this;
    paper.when('begin', () => this.leave());
    paper.when('text', () => this.turn());
    paper.when('answer', (answer) => this.show(answer));
    paper.when('trouble', (text) => hint(text, 'trouble'));
    document.addEventListener('click', ({ target }) => {
      if (!(target instanceof Element)) return;
      if (!target.closest('#export')) this.menu.open = false;
      this.click(target.closest('button'));
    });
    paper.when('settle', () => this.call());
    this.name.addEventListener('change', () => {
      this.call();
      keeping.keep();
    });
    this.board.node.addEventListener('done', () => this.take('select'));
    for (const what of /** @type {const} */ (['sides', 'count'])) this.option(what);
    this.board.node.addEventListener('mouseup', (event) => this.pressed(event.detail));
    this.take('select');
    const narrow = matchMedia('(max-width: 900px), (max-height: 480px)');
    narrow.addEventListener('change', () => fold(narrow.matches));
    fold(narrow.matches);
    /** @type {Partial<import('./keeping.js').Kept>} */
    const kept = keeping.kept() ?? {};
    const { text = '', name = 'drawing', saved = '', leftOut = [] } = kept;
    this.name.value = name;
    paper.begin(text, name, saved, leftOut).then(() => this.board.fit());
  }

  /** The drawing is called as its field says. */
  call() {
    this.paper.name = this.name.value.trim() || 'drawing';
  }

  /**
   * A button is clicked.
   * @param {HTMLButtonElement | null} button
   */
  click(button) {
    if (!button) return;
    const { tool, export: kind } = button.dataset;
    if (isTool(tool)) this.gestures.sequence.do(() => this.take(tool));
    else if (kind) this.export(/** @type {import('./files.js').Kind} */ (kind));
    else this.acts[button.id]?.(button);
  }

  /**
   * A file of a kind is exported, behind what was clicked before.
   * @param {import('./files.js').Kind} kind
   */
  export(kind) {
    this.menu.open = false;
    this.gestures.sequence.do(() => { this.files.export(kind); });
  }

  /**
   * The mouse was pressed so many times: twice on a dimension changes its value, once the clicks
   * are through. Of a mark that is drawn anew between two presses the browser tells no double
   * click.
   * @param {number} times
   */
  pressed(times) {
    if (times !== 2 || this.hand.draws) return;
    setTimeout(() => this.offers.change(Number(this.gestures.clicked)));
  }

  /** Another drawing begins: nothing of the last is shown, held or selected. */
  leave() {
    this.gestures.leave();
    this.steps.leave();
    this.board.show(NOTHING);
    this.selection.set([]);
    this.take(this.hand.tool);
  }

  /**
   * Hears why the server isn't there, if it isn't; once it is again, the drawing is judged.
   * @param {string} why
   */
  reach(why) {
    document.body.dataset.server = why ? 'stopped' : 'there';
    banner('server', why);
    const retry = () => this.server.reached('gallery').catch(() => {});
    if (why) this.stopped ??= window.setInterval(retry, RETRY);
    else if (this.stopped) {
      clearInterval(this.stopped);
      this.stopped = null;
      this.paper.judge();
    }
  }

  /**
   * A number of the tool that is held: it counts as it is typed, and Enter goes back to the board.
   * One that can't be gives way to the one that counts.
   * @param {'sides' | 'count'} what
   */
  option(what) {
    const field = nodeOf(what, HTMLInputElement);
    field.addEventListener('input', () => {
      if (field.validity.valid && field.value) this.hand[what] = Number(field.value);
    });
    field.addEventListener('change', () => { field.value = String(this.hand[what]); });
    field.addEventListener('keydown', ({ key }) => {
      if (key === 'Enter' || key === 'Escape') this.board.node.focus();
    });
  }

  /**
   * Takes a tool; one that draws again what is selected only where something is.
   * @param {Tool} tool
   */
  take(tool) {
    this.hand.take(tool);
    if (this.hand.copy && !this.gestures.drafting.copies.isReady()) this.hand.take('select');
    else hint(this.hand.hint);
    tool = this.hand.tool;
    byId('option-sides').hidden = tool !== 'polygon';
    byId('option-count').hidden = tool !== 'row' && tool !== 'ring';
    this.board.preview = null;
    this.board.node.classList.toggle('draws', this.hand.draws);
    for (const button of document.querySelectorAll('[data-tool]')) {
      button.ariaPressed = String(button.getAttribute('data-tool') === tool);
    }
    this.board.draw();
  }

  /**
   * Draws lines of help from now on, or edges again.
   * @param {HTMLElement} button
   */
  construct(button) {
    this.hand.construction = !this.hand.construction;
    button.ariaPressed = String(this.hand.construction);
  }

  /** Gives up: the menu, or else what the hand is about, in its turn. */
  escape() {
    const { menu } = this;
    const { firstElementChild: title } = menu;
    if (this.gestures.carries) this.gestures.cancel();
    else if (!menu.open) this.gestures.sequence.do(() => this.drop());
    else if (menu.contains(document.activeElement) && title instanceof HTMLElement) title.focus();
    menu.open = false;
  }

  /** Lets go of one thing after the other: the clicks, the tool, the cross, the selection. */
  drop() {
    const { hand, board } = this;
    if (hand.draws) this.take(hand.clicks.length ? hand.tool : 'select');
    else if (board.cross) board.cross = null;
    else this.selection.set([]);
    hint(hand.hint);
    board.draw();
  }

  /** The text has changed: enables or disables Undo and Redo, before the text is judged. */
  turn() {
    const { history } = this.paper;
    buttonOf('undo').ariaDisabled = String(!history.can(-1));
    buttonOf('redo').ariaDisabled = String(!history.can(1));
  }

  /**
   * Shows an answer everywhere.
   * @param {Judged} answer
   */
  show(answer) {
    const { paper } = this;
    const { drawing } = answer;
    if (drawing) {
      this.selection.keep(drawing);
      this.board.show({ drawing, judgement: drawing === paper.answer?.drawing
        ? paper.answer.judgement : answer.judgement });
      this.groups.show();
      this.cross.tellAgain();
    }
    this.verdict.show(answer);
    this.speaking.changed();
    this.texts.show(answer);
    buttonOf('redraw-all').disabled = !answer.judgement?.placed;
    document.title = `${paper.name}, a drawing board`;
  }
}

/**
 * Folds the panel beside the board, or opens it.
 * @param {boolean} isFolded
 */
function fold(isFolded) {
  document.body.classList.toggle('folded', isFolded);
  byId('fold').ariaExpanded = String(!isFolded);
}

/**
 * Shows a line at the foot of the board: what to do next, or of a kind.
 * @param {string} text
 * @param {string} [kind]
 */
function hint(text, kind = '') {
  Object.assign(byId('hint'), { textContent: text, title: text, className: kind });
}

/**
 * Shows a line of the server's, the tabs' or the keeping's over the whole page, or none.
 * @param {string} whose
 * @param {string} text
 */
function banner(whose, text) {
  byId(`told-${whose}`).textContent = text;
}

new Page().begin();
