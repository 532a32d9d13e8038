// @ts-check
/** The document: the drawing's text, its history, and what the server says of it. */
import { History } from './history.js';
import { Stopped } from './calls.js';

/** @typedef {import('./page').Heard} Heard */
/** @typedef {import('./protocol').Calls} Calls */
/** @typedef {import('./protocol').ChangedDrawing} ChangedDrawing */
/** @typedef {import('./protocol').Drawing} Drawing */
/** @typedef {import('./protocol').Edit} Edit */
/** @typedef {import('./protocol').Edited} Edited */
/** @typedef {import('./protocol').Judged} Judged */
/** @typedef {import('./protocol').DrawEdit | import('./protocol').MoveEdit} Guessed */

/** @type {import('./protocol').Trouble} */
const CHANGED = { kind: 'page', message: 'the drawing has changed: choose again' };
const STOPPED = 'The text is judged once the board’s server is there again.';

/**
 * A drawing that is worked on. Listeners hear 'begin', 'answer', 'trouble', 'text', and 'settle'
 * where what is being typed is to count.
 */
export class Paper extends EventTarget {
  history = new History('');
  name = 'drawing';
  saved = '';
  /**
   * What its file has and the drawing can't say, as long as that isn't done.
   * @type {string[]}
   */
  leftOut = [];
  /**
   * What is said of the last text that could be read, and of which the server had an answer.
   * @type {Judged | null}
   */
  answer = null;
  /**
   * The line of this text that can't be read.
   * @type {import('./protocol').Refused | null}
   */
  refused = null;
  /** Whether `answer` is of a text before: the one that stands couldn't be read, or not judged. */
  isOld = false;
  /**
   * What was told of the text that stands.
   * @type {Judged | null}
   */
  said = null;
  /**
   * What is being done.
   * @type {Promise<unknown>}
   */
  waiting = Promise.resolve();
  /** @type {Promise<unknown>} */
  weighed = Promise.resolve();
  /**
   * The edit that a hand makes while it moves.
   * @type {Edit | null}
   */
  live = null;
  /**
   * The last edit that was shown, of which text, and how.
   * @type {{ edit: Edit, text: string, answer: Judged } | null}
   */
  seen = null;
  asked = 0;

  /** @param {import('./calls.js').Server} server */
  constructor(server) {
    super();
    this.server = server;
  }

  /** The text as it stands. */
  get text() {
    return this.history.text;
  }

  /**
   * Begins with a text, under a name, of a file from which something is left out.
   * @param {string} text
   * @param {string} name
   * @param {string} [saved]
   * @param {string[]} [leftOut]
   */
  begin(text, name, saved = text, leftOut = []) {
    this.history = new History(text);
    Object.assign(this, { name, saved, leftOut });
    Object.assign(this, { answer: null, refused: null, said: null, live: null, seen: null });
    this.isOld = false;
    this.tell('begin', null);
    return this.turned();
  }

  /** The text as it stands, with all that was typed. */
  settle() {
    this.tell('settle', null);
    return this.text;
  }

  /**
   * Something that was left out of the file is done, or isn't wanted.
   * @param {string} what
   */
  forget(what) {
    this.leftOut = this.leftOut.filter((each) => each !== what);
    return this.turned();
  }

  /**
   * What the server answers to a call about a text.
   * @template {keyof Calls} K
   * @param {K} call
   * @param {Omit<Calls[K]['given'], 'left_out'>} given
   */
  about(call, given) {
    const whole = /** @type {Calls[K]['given']} */ ({ left_out: this.leftOut, ...given });
    return this.server.call(call, whole);
  }

  /**
   * Takes a text that was typed.
   * @param {string} text
   * @returns {Promise<unknown>}
   */
  type(text) {
    if (text === this.text) return Promise.resolve();
    this.history.push(text);
    return this.turned();
  }

  /**
   * Undoes (-1) or redoes (1), behind all that was asked before.
   * @param {-1 | 1} step
   */
  go(step) {
    const { history } = this;
    return this.queue(async () => { if (history.go(step)) this.turned(); });
  }

  /** Another text stands, and is judged. */
  turned() {
    this.tell('text', null);
    return this.judge();
  }

  /** Has the text judged; of several that wait, the last counts. */
  judge() {
    const turn = this.asked += 1;
    return this.queue(async () => {
      if (turn !== this.asked) return;
      const { text } = this;
      const answer = await this.about('judge', { text }).catch(unjudged);
      if (turn === this.asked) this.take(text, answer);
    });
  }

  /**
   * What the server answers to a call, behind all that was asked before; null where it is stopped.
   * @template {keyof Calls} K
   * @param {K} call
   * @param {Omit<Calls[K]['given'], 'left_out'>} given
   */
  ask(call, given) {
    return this.queue(() => this.about(call, given));
  }

  /**
   * Edits the text that stands by one edit of the server's; by numbers of constraints, and by lines
   * that complete a drawing, only the text of which they were seen. Gives whether it was taken.
   * @param {Edit} edit
   * @param {string} [seen]
   */
  edit(edit, seen = this.answer?.text) {
    return this.change(async (text) => {
      if (isOfOneText(edit) && text !== seen) return { trouble: this.changed() };
      return this.edited(text, edit);
    });
  }

  /** Why an edit of what was seen isn't made of what stands now. */
  changed() {
    const why = this.isOld ? this.refused ?? this.said?.trouble : null;
    return why ? { ...CHANGED, message: why.message } : CHANGED;
  }

  /**
   * Draws, or draws elsewhere, with what is asked for and guessed of it: one change. Of what is
   * guessed the last is left out as long as the drawing's words don't take it, or it would be one
   * too many. Gives whether it was taken.
   * @param {Guessed} edit
   * @param {string[][]} [asks]
   */
  draw(edit, asks = []) {
    return this.change((text) => this.guessed(text, edit, asks));
  }

  /**
   * What an edit makes of a text, with what is asked for, and as much of what is guessed as may be.
   * @param {string} text
   * @param {Guessed} edit
   * @param {string[][]} asks
   * @returns {Promise<Judged>}
   */
  async guessed(text, edit, asks) {
    const before = this.answer?.text === text ? this.answer.judgement : null;
    for (let guesses = edit.asks ?? []; ; guesses = guesses.slice(0, -1)) {
      const answer = await this.edited(text, { ...edit, asks: [...asks, ...guesses] });
      const isTaken = answer.text !== undefined && !isWorse(answer.judgement, before);
      if (isTaken || !guesses.length) return answer;
    }
  }

  /**
   * The text is drawn as it is placed, or as it is with the choices of some steps turned over; by
   * steps only the text whose steps they are.
   * @param {number[]} steps
   * @param {string | null} [seen]
   */
  redraw(steps, seen) {
    return this.change(async (text) => {
      if (steps.length && text !== seen) return { trouble: this.changed() };
      return whole(await this.about('redraw', { text, steps }));
    });
  }

  /**
   * Changes the text that stands by a call; where another was typed meanwhile, that one; where
   * another drawing has begun, none. Gives whether it was taken.
   * @param {(text: string) => Promise<Judged>} call
   */
  change(call) {
    const { history } = this;
    return this.queue(async () => {
      while (this.history === history) {
        const text = this.settle();
        const answer = await call(text);
        if (this.history === history && this.settle() === text) return this.takeChange(answer);
      }
      return false;
    });
  }

  /**
   * What an edit makes of a text; of one that is known, what stays as it was isn't told again.
   * @param {string} text
   * @param {Edit} edit
   * @returns {Promise<Judged>}
   */
  async edited(text, edit) {
    const { answer: last } = this;
    const known = last?.drawing && !last.trouble && last.text === text ? last : null;
    const answer = await this.about('edit', { text, edit, ...(known && { knows: known.told }) });
    return known ? completed(answer, known) : whole(answer);
  }

  /**
   * Shows what an edit would make, while a hand moves; of several that wait, the last counts. By
   * the number of a constraint that is so only in the text in which it was seen.
   * @param {Edit} edit
   */
  preview(edit) {
    const { text: seen } = this;
    this.live = edit;
    return this.queue(async () => {
      const { text } = this;
      if (this.live !== edit || (isOfOneText(edit) && text !== seen)) return;
      const answer = await this.edited(text, edit);
      this.seen = { edit, text, answer };
      if (this.live && this.text === text && answer.drawing) this.tell('answer', answer);
    });
  }

  /**
   * The hand lets go, and its edit counts, with what is guessed of it. What was shown isn't asked
   * for again.
   * @param {Edit} edit
   * @param {string[][]} [asks]
   */
  land(edit, asks = []) {
    this.live = null;
    if (asks.length && edit.do === 'move') return this.draw({ ...edit, asks });
    return this.change(async (text) => {
      const { seen } = this;
      const isSeen = seen && seen.edit === edit && seen.text === text;
      return isSeen ? seen.answer : this.edited(text, edit);
    });
  }

  /** The hand gives up: what is said of the text that stands is shown again. */
  drop() {
    this.live = null;
    this.queue(async () => { if (this.said) this.tell('answer', this.said); });
  }

  /**
   * Takes the answer of a call that changes the text; gives whether it does.
   * @param {Judged} answer
   */
  takeChange(answer) {
    const why = answer.trouble ?? answer.refused;
    if (why) this.tell('trouble', why.message);
    if (!answer.text) {
      if (this.said) this.tell('answer', this.said);
      return false;
    }
    this.history.push(answer.text);
    this.asked += 1;
    this.tell('text', null);
    this.take(answer.text, answer);
    return true;
  }

  /**
   * Takes what the server says of a text.
   * @param {string} text
   * @param {Judged} answer
   */
  take(text, answer) {
    if (text !== this.text) return;
    this.refused = answer.refused ?? null;
    this.isOld = !answer.drawing;
    if (!this.isOld) this.answer = answer;
    this.said = this.isOld ? { ...this.answer, ...answer, judgement: null } : answer;
    this.tell('answer', this.said);
    const { verdict, good } = answer.judgement ?? {};
    if (verdict && !good) this.weighLater(text, answer);
  }

  /**
   * What is over, or isn't met, is weighed one after the other, so that there is room for all else.
   * @param {string} text
   * @param {Judged} answer
   */
  weighLater(text, answer) {
    const weigh = () => this.weigh(text, answer);
    this.weighed = this.weighed.then(weigh, weigh);
  }

  /**
   * Has told and measured, beside all else, what is left out of a drawing that is over, and what
   * may go; of one that isn't met, what comes of other choices; of one that is open, what the
   * program constructs of it, or that no shape is found.
   * @param {string} text
   * @param {Judged} answer
   */
  async weigh(text, answer) {
    const stands = () => this.answer === answer && !this.isOld;
    const found = stands() ? await this.about('weigh', { text }).catch(ended) : null;
    if (!found?.spare || !stands()) return;
    Object.assign(answer.judgement ?? {}, found);
    if (!this.live) this.tell('answer', answer);
  }

  /**
   * Does one thing after the other; gives null of what the stopped server kept from being done. An
   * error is told in the console, also where nobody waits for what is done.
   * @template T
   * @param {() => Promise<T>} act
   * @returns {Promise<T | null>}
   */
  queue(act) {
    const done = this.waiting.then(act).catch(ended);
    this.waiting = done.catch(reportError);
    return done;
  }

  /**
   * Tells the listeners.
   * @template {keyof Heard} K
   * @param {K} what
   * @param {Heard[K]} detail
   */
  tell(what, detail) {
    this.dispatchEvent(new CustomEvent(what, { detail }));
  }

  /**
   * Has something done whenever something is told.
   * @template {keyof Heard} K
   * @param {K} what
   * @param {(detail: Heard[K]) => void} act
   */
  when(what, act) {
    this.addEventListener(what, (event) => {
      if (event instanceof CustomEvent) act(event.detail);
    });
  }
}

/**
 * Whether an edit is meant of one text alone: it speaks of constraints, or of dimensions that are
 * only measured, by their numbers, or has the lines that complete a drawing.
 * @param {Edit} edit
 */
function isOfOneText(edit) {
  if ('number' in edit || 'reference' in edit || edit.do === 'lines') return true;
  return edit.do === 'erase' && Boolean(edit.constraints?.length || edit.references?.length);
}

/**
 * Whether something is asked for too much, or has no places, that wasn't before.
 * @param {Judged['judgement']} now
 * @param {Judged['judgement']} before
 */
function isWorse(now, before) {
  const isOver = now?.verdict === 'over' && before?.verdict !== 'over';
  const hasNone = Boolean(now?.failure) && !before?.failure;
  return isOver || hasNone || repeatsIn(now) > repeatsIn(before);
}

/**
 * How many constraints repeat others, by their words and by rank.
 * @param {Judged['judgement']} judgement
 */
function repeatsIn(judgement) {
  return (judgement?.repeats.length ?? 0) + (judgement?.missing?.excess_by_rank.length ?? 0);
}

/**
 * Passes over that the server is stopped, which the page tells by itself.
 * @param {unknown} error
 * @returns {null}
 */
export function ended(error) {
  if (!(error instanceof Stopped)) throw error;
  return null;
}

/**
 * What is said of a text that the stopped server doesn't judge.
 * @param {unknown} error
 * @returns {Judged}
 */
function unjudged(error) {
  ended(error);
  return whole({ trouble: { kind: 'stopped', message: STOPPED } });
}

/**
 * An answer in which nothing is left out, since the page wasn't said to know anything.
 * @param {Edited} answer
 */
function whole(answer) {
  return /** @type {Judged} */ (answer);
}

/**
 * An answer with all that it leaves out since it is as it was: what is long of the judgement,
 * lists, and things of a list.
 * @param {Edited} answer
 * @param {Judged} known
 * @returns {Judged}
 */
function completed(answer, known) {
  const { drawing, judgement } = answer;
  const old = known.drawing;
  return whole(Object.assign(answer, {
    ...judgement && { judgement: { ...known.judgement, ...judgement } },
    ...drawing && old && { drawing: completedDrawing(drawing, old) },
  }));
}

/**
 * A drawing with the lists, and the things of a list, that are as they were.
 * @param {ChangedDrawing} drawing
 * @param {Drawing} old
 * @returns {Drawing}
 */
function completedDrawing(drawing, old) {
  return {
    shapes: drawing.shapes?.map((each, place) => each ?? old.shapes[place]) ?? old.shapes,
    constraints: drawing.constraints?.map((each, place) => each ?? old.constraints[place])
      ?? old.constraints,
    marks: drawing.marks?.map((each, place) => each ?? old.marks[place]) ?? old.marks,
    values: drawing.values?.map((each, place) => each ?? old.values[place]) ?? old.values,
  };
}
