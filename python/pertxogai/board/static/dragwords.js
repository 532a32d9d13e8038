// @ts-check
/** What is told while a hand drags, or would. */

/** @typedef {import('./protocol').Dragged} Dragged */
/** @typedef {import('./protocol').Judgement} Judgement */

export const JUST_JUDGED = 'The drawing is being judged: drag again in a moment.';
const DATUM_STAYS = 'The datum stays where it is.';
const ROUGHLY = 'Hold Alt to move only where it is drawn.';
const STAYS = 'It stops: a dead point, or the end of its range. Press F to go through to the '
  + 'other shape.';

/**
 * Why nothing follows a hand: the datum itself stays, and all of what is placed.
 * @param {Judgement} judgement
 */
export function stillText({ found, still }) {
  return found ? DATUM_STAYS : `${still[0].toUpperCase()}${still.slice(1)}. ${ROUGHLY}`;
}

/**
 * What is told of a frame: what arcs have passed, how far what is held came, and by how many
 * nanometres the worst constraint is off.
 * @param {Record<string, number>} passed
 * @param {Dragged['reach']} reach
 * @param {Dragged['off']} off
 */
export function frameText(passed, reach, off) {
  const follows = `It follows, by numbers; measured: at most ${off} nm off.`;
  return `${pastText(Object.keys(passed))}${reach === 'stays' ? STAYS : follows}`;
}

/**
 * That arcs went past their own ends, and what has become of them; nothing where none did.
 * @param {string[]} arcs
 */
function pastText(arcs) {
  if (!arcs.length) return '';
  const what = arcs.length > 1 ? 'their own ends, and take' : 'its own end, and takes';
  return `${arcs.join(', ')} went past ${what} the other part of the circle now. `;
}
