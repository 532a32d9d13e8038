// @ts-check
/** Calls to the page's own server. */

/** @typedef {import('./protocol').Calls} Calls */

const STOPPED = 'The board’s server is stopped. Your drawing is kept in this browser: '
  + 'start pertxogai page again.';
const ANEW = 'The board’s server was started anew. Your drawing is kept in this browser: '
  + 'open the address that pertxogai page printed.';
/** How often a call is made again while others are being answered: for some minutes in all. */
const MOST_TURNS = 200;
/** The most milliseconds between two times. */
const MOST_PAUSE = 1000;

/** The server can't be reached, or no longer takes this page. */
export class Stopped extends Error {}

/** The server's calls, below the token in the page's own address. */
export class Server {
  /**
   * `tell` hears why the server isn't there, or an empty text where it is.
   * @param {(why: string) => void} tell
   */
  constructor(tell) {
    this.tell = tell;
  }

  /**
   * The answer to a call, in which `trouble` or `refused` may stand. Throws Stopped.
   * @template {keyof Calls} K
   * @param {K} name
   * @param {Calls[K]['given']} given
   * @returns {Promise<Calls[K]['gives']>}
   */
  async call(name, given) {
    const headers = { 'Content-Type': 'application/json' };
    const asked = { method: 'POST', headers, body: JSON.stringify(given) };
    for (let turn = 0; ; turn += 1) {
      const response = await this.reached(`call/${name}`, asked);
      if (response.status !== 503 || turn === MOST_TURNS) return this.read(response);
      const pause = Math.min(50 + 10 * turn, MOST_PAUSE);
      await new Promise((done) => { setTimeout(done, pause); });
    }
  }

  /** The drawings to begin from. Throws Stopped. */
  async gallery() {
    /** @type {import('./protocol').Gallery} */
    const found = await this.read(await this.reached('gallery'));
    return found.drawings ?? [];
  }

  /**
   * The response of the server. Throws Stopped.
   * @param {string} path
   * @param {RequestInit} [options]
   * @returns {Promise<Response>}
   */
  async reached(path, options = {}) {
    const response = await fetch(path, options).catch(() => null);
    if (response === null) return this.stop(STOPPED);
    if (response.status === 403) return this.stop(ANEW);
    this.tell('');
    return response;
  }

  /**
   * What a response says; one that breaks off is of a server that was stopped. Throws Stopped.
   * @param {Response} response
   */
  read(response) {
    return response.json().catch(() => this.stop(STOPPED));
  }

  /**
   * Tells why the server isn't there. Throws Stopped.
   * @param {string} why
   * @returns {never}
   */
  stop(why) {
    this.tell(why);
    throw new Stopped();
  }
}
