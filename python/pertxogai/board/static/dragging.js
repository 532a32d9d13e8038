// @ts-check
/**
 * Dragging what is open: the server says where all lies, frame by frame, and the board shows just
 * that.
 */
import { JUST_JUDGED, frameText, stillText } from './dragwords.js';
import { DATUM } from './selection.js';
import { Work } from './work.js';

/** @typedef {import('./page').Place} Place */
/** @typedef {import('./protocol').Dragged} Dragged */
/** @typedef {import('./protocol').Found} Found */
/** @typedef {import('./protocol').Judged} Judged */
/** @typedef {import('./protocol').Mark} Mark */
/** @typedef {import('./protocol').MoveEdit} MoveEdit */
/** @typedef {NonNullable<Dragged['reach']>} Reach */

/**
 * A drag that goes on: its name for the server, the text and the answer that it began with, what is
 * held and where the hand took hold, where the hand is and where it was at the last frame, how many
 * frames were taken, whether the hand gave up, and the places and marks of the last frame, how far
 * what is held came in it, and how often arcs went past their own ends.
 * @typedef {{ drag: string, text: string, answer: Judged, names: string[], begin: Place,
 *   wish: Place, done: Place | null, waits: boolean, taken: number, isGivenUp: boolean,
 *   places: Found['places'], marks: Mark[], reach: Reach, passed: Record<string, number> }} Held
 */

/** The most frames that follow once a hand has let go. */
const MOST_LAST = 20;
/** Millimetres within which two points are in one place. */
const SAME = 1e-5;
/**
 * What a paper is told to show while a hand drags.
 * @type {MoveEdit}
 */
const DRAGS = { do: 'move' };

/** Has what is open follow a hand, while all that is asked of it holds. */
export class Dragging extends Work {
  /** @type {Held | null} */
  held = null;
  /** How many drags have begun, and how many frames were shown. */
  count = 0;
  frames = 0;
  /** Tells the drags of this page from those of others. */
  page = Math.random().toString(36).slice(2);

  /** @param {import('./work.js').Means} means */
  constructor(means) {
    super(means);
    document.addEventListener('keydown', (event) => this.key(event), { capture: true });
  }

  /**
   * F goes through a dead point while something is held there.
   * @param {KeyboardEvent} event
   */
  key(event) {
    if (this.held?.reach !== 'stays' || event.key.toLowerCase() !== 'f' || event.repeat) return;
    event.stopPropagation();
    this.turn();
  }

  /**
   * Takes hold of a thing at a place in pixels, and of all that is selected with it; where the text
   * that stands isn't judged yet, as the last that was. Gives whether that is for this to do: not
   * where Alt is held, or no shape is known that could follow; then only the drawing is moved.
   * @param {string} name
   * @param {Place} from
   * @param {boolean} isRough
   */
  begin(name, from, isRough) {
    const { paper, selection: { names: selected } } = this;
    const { answer } = paper;
    const judgement = paper.isOld ? null : answer?.judgement;
    if (isRough || !answer || !(judgement?.placed || judgement?.found)) return false;
    if (!judgement.found || DATUM.includes(name)) {
      const isJudged = answer.text === paper.text;
      this.tell(isJudged ? stillText(judgement) : JUST_JUDGED, 'trouble');
      return true;
    }
    this.count += 1;
    paper.live = DRAGS;
    const names = (selected.has(name) ? [...selected] : [name]).filter(
      (each) => !DATUM.includes(each));
    const begin = this.beginOf(name, from);
    const text = answer.text ?? paper.text;
    this.held = { drag: `${this.page} ${this.count}`, text, answer, names, begin, wish: begin,
      done: null, waits: false, taken: 0, isGivenUp: false, places: judgement.found.places,
      marks: answer.drawing?.marks ?? [], reach: 'there', passed: {} };
    return true;
  }

  /**
   * Where a hand takes hold of a thing in millimetres: at a point itself, on a rim, else where it
   * is.
   * @param {string} name
   * @param {Place} from
   * @returns {Place}
   */
  beginOf(name, from) {
    const { shown, plane } = this.board;
    const point = shown.at(name);
    const centre = shown.at(`${name}.centre`);
    if (point) return point;
    if (!centre) return plane.toPlane(from);
    const [x, y] = plane.toPlane(from);
    const [u, v] = [x - centre[0], y - centre[1]];
    const share = (this.shownRadius(name) ?? 0) / (Math.hypot(u, v) || 1);
    return [centre[0] + share * u, centre[1] + share * v];
  }

  /**
   * The radius that is shown of a rim.
   * @param {string} name
   */
  shownRadius(name) {
    return this.paper.answer?.judgement?.found?.places.radii[name];
  }

  /**
   * The hand goes to a place in pixels. Gives whether something is held.
   * @param {import('./guesses.js').Aim} aim
   * @param {Place} pixels
   */
  follow(aim, pixels) {
    const { held } = this;
    return held !== null && this.to(this.wish(held, aim, pixels));
  }

  /**
   * Where a hand aims: at what is guessed there; with a point that may go everywhere at the grid;
   * with shapes that may by whole steps of it; else at the place itself.
   * @param {Held} held
   * @param {import('./guesses.js').Aim} aim
   * @param {Place} pixels
   * @returns {Place}
   */
  wish({ names, begin: [u, v] }, aim, pixels) {
    const { plane, shown } = this.board;
    const [x, y] = plane.toPlane(pixels);
    if (aim.guesses.length) return aim.at;
    if (!names.every((each) => this.isLoose(each))) return [x, y];
    if (names.length === 1 && shown.at(names[0])) return aim.at;
    const [dx, dy] = plane.rounded([x - u, y - v]);
    return [u + dx, v + dy];
  }

  /**
   * Whether a point may go everywhere, or all points of a shape; a rim by itself only grows.
   * @param {string} name
   */
  isLoose(name) {
    const shape = this.paper.answer?.drawing?.shapes.find((each) => each.name === name);
    const isRim = shape && shape.radius !== undefined && this.held?.names.length === 1;
    const points = shape ? Object.keys(shape.points) : [name];
    return !isRim && points.every((each) => this.isLoosePoint(each));
  }

  /**
   * Whether a point may go everywhere, by its own freedoms and those of the whole: two in all are
   * enough.
   * @param {string} name
   */
  isLoosePoint(name) {
    const { places, moves, freedoms } = this.paper.answer?.judgement?.found ?? {};
    const mine = places?.points[name];
    const own = (moves ?? []).filter(({ point }) => {
      const at = places?.points[point];
      return mine && at && Math.hypot(at[0] - mine[0], at[1] - mine[1]) < SAME;
    });
    return own.length + (freedoms?.of_the_whole ?? 0) > 1;
  }

  /**
   * The hand goes to a place in millimetres. One frame is asked for at a time; of several places
   * that wait, the last counts. Gives whether something is held.
   * @param {Place} place
   */
  to(place) {
    const { held } = this;
    if (!held) return false;
    held.wish = place;
    if (!held.waits) this.paper.queue(() => this.frame(held));
    held.waits = true;
    return true;
  }

  /**
   * The hand lets go: what is shown is drawn so, with what is guessed of it. One change.
   * @param {string[][]} guesses
   */
  land(guesses) {
    const { held, paper } = this;
    this.held = null;
    if (!held) return Promise.resolve(false);
    const done = paper.change((text) => this.landed(text, held, guesses));
    return done.then((isDone) => this.offer(held, isDone));
  }

  /**
   * What comes of a drag that has ended, of the text that stands then.
   * @param {string} text
   * @param {Held} held
   * @param {string[][]} guesses
   * @returns {Promise<Judged>}
   */
  async landed(text, held, guesses) {
    const { paper } = this;
    const isThere = this.stands(held);
    try {
      if (isThere) await this.last(held);
    } finally {
      if (!this.held) paper.live = null;
    }
    if (!isThere) return { trouble: paper.changed() };
    return held.done ? paper.guessed(text, { ...this.drawn(held), asks: guesses }, []) : {};
  }

  /**
   * Asks for the frames of the last place of a hand that has let go, until all has come there.
   * @param {Held} held
   */
  async last(held) {
    for (let turn = 0; turn < MOST_LAST; turn += 1) {
      if (held.done !== held.wish && !await this.frame(held)) return;
      if (held.reach !== 'comes') return;
      held.wish = [...held.wish];
    }
  }

  /**
   * Offers the other shape behind a drag that ended at a dead point; behind all others the hint of
   * the tool is shown again.
   * @param {Held} held
   * @param {boolean | null} isDone
   */
  offer({ names, begin, reach }, isDone) {
    if (isDone && reach === 'stays') this.paper.tell('dead', { names, begin });
    else if (isDone && !this.held) this.tell(this.hand.hint);
    return isDone;
  }

  /** While something is held at a dead point, it goes through that to the other shape. */
  turn() {
    const { held } = this;
    if (held?.done) this.paper.queue(() => this.turned(held));
  }

  /**
   * Draws the other shape at the dead point where things were let go, and shows all of it.
   * @param {string[]} names
   * @param {Place} begin
   */
  async other([name, ...others], begin) {
    const { board, paper } = this;
    if (!this.begin(name, board.plane.toScreen(begin), false) || !this.held) return;
    const { held } = this;
    held.names = [name, ...others];
    paper.queue(() => this.turned(held));
    if (await this.land([])) board.reveal();
  }

  /**
   * Asks for the other shape, and shows it.
   * @param {Held} held
   */
  async turned(held) {
    const place = held.done ?? held.begin;
    const found = await this.asked(held, place, true);
    if (!found) return;
    Object.assign(held, { wish: place, done: place });
    this.take(held, found);
    this.show(held, found);
  }

  /** The hand gives up: what stood before is shown again. */
  drop() {
    if (!this.held) return;
    this.giveUp();
    this.paper.drop();
  }

  /** The hand gives up, and nothing that is still told of its drag is shown. */
  giveUp() {
    if (this.held) this.held.isGivenUp = true;
    this.held = null;
  }

  /**
   * Asks for a frame, and shows it while its drag goes on. Gives whether there is one.
   * @param {Held} held
   */
  async frame(held) {
    held.waits = false;
    const { wish } = held;
    if (wish === held.done || !this.stands(held)) return false;
    const found = await this.asked(held, wish, false);
    if (!found) {
      if (this.held === held && !held.done) this.drop();
      return false;
    }
    held.done = wish;
    this.take(held, found);
    if (this.held === held) {
      this.show(held, found);
      if (isComing(found) && held.wish === wish) this.to([...wish]);
    }
    return true;
  }

  /**
   * Whether the drawing stands that is dragged. Where an edit before the first frame has made
   * another of it, that one is dragged.
   * @param {Held} held
   */
  stands(held) {
    const { answer, text } = this.paper;
    if (text === held.text) return true;
    const found = answer?.text === text ? answer.judgement?.found : null;
    if (held.done || !answer || !found) return false;
    const { places } = found;
    Object.assign(held, { text, answer, places, marks: answer.drawing?.marks ?? [] });
    return true;
  }

  /**
   * What the server says of a frame, or of the other shape; with the places of the last frame,
   * where it has lost the drag. Tells why there is none, and gives null then.
   * @param {Held} held
   * @param {Place} wish
   * @param {boolean} turns
   */
  async asked(held, [x, y], turns) {
    const { drag, text, names, begin: [u, v], taken, places, passed } = held;
    const given = { text, drag, names, begin: { x: u, y: v }, x, y, taken, turns };
    let found = await this.paper.about('drag', given);
    if (found.lost) found = await this.paper.about('drag', { ...given, places, passed });
    const why = found.fixed ?? (found.trouble ?? found.refused)?.message;
    if (why && !held.isGivenUp) this.tell(why, 'trouble');
    return why ? null : found;
  }

  /**
   * Takes over where all lies in a frame: what isn't told is as it was.
   * @param {Held} held
   * @param {Dragged} found
   */
  take(held, { points, radii, marks = [], reach = 'there', passed = {} }) {
    const { places } = held;
    Object.assign(held, { reach, passed, taken: held.taken + 1 });
    held.places = { part: null, points: { ...places.points, ...points },
      radii: { ...places.radii, ...radii } };
    const told = new Set(marks.map(({ number }) => number));
    const others = held.marks.filter(({ number }) => !told.has(number));
    held.marks = [...others, ...marks].sort((one, other) => one.number - other.number);
  }

  /**
   * Shows a frame.
   * @param {Held} held
   * @param {Dragged} found
   */
  show({ answer, places, marks, passed }, { reach, off }) {
    const { board } = this;
    const { drawing, judgement } = answer;
    if (!drawing || !judgement?.found) return;
    const shown = { ...judgement, found: { ...judgement.found, places, moves: [] } };
    board.show({ ...answer, drawing: { ...drawing, marks }, judgement: shown }, true);
    this.tell(frameText(passed, reach, off));
    this.frames += 1;
    Object.assign(board.node.dataset, { reach, off, frames: this.frames });
  }

  /**
   * The edit by which all is drawn where it lies.
   * @param {Held} held
   * @returns {MoveEdit}
   */
  drawn({ answer, places }) {
    const shapes = (answer.drawing?.shapes ?? []).filter(({ outer }) => !outer);
    const own = shapes.flatMap(
      ({ points, shares }) => Object.keys(points).filter((name) => !shares.includes(name)));
    const rims = shapes.filter(({ kind }) => kind === 'circle');
    const points = own.map((of) => {
      const [x, y] = places.points[of].map(whole);
      return { of, x, y };
    });
    const radii = rims.map(
      ({ name }) => ({ of: name, radius: Math.max(whole(places.radii[name]), 0.001) }));
    return { do: 'move', points, radii };
  }
}

/**
 * Whether something has moved in a frame, and goes on in the next.
 * @param {Dragged} found
 */
function isComing({ reach, points, radii }) {
  return reach === 'comes' && Object.keys({ ...points, ...radii }).length > 0;
}

/**
 * Millimetres, to the next micrometre.
 * @param {number} length
 */
function whole(length) {
  return Math.round(length * 1000) / 1000;
}
