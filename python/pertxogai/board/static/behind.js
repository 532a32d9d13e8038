// @ts-check
/** What is asked about a text once nothing has changed for a while, one answer after the other. */
import { Stopped } from './calls.js';

/** Milliseconds without a change after which it is asked. */
const REST = 300;

/**
 * Asks about the text that stands.
 * @template T
 */
export class Behind {
  /**
   * What waits until nothing has changed for a while.
   * @type {number | undefined}
   */
  timer = undefined;
  /** What is asked, one after the other, so that there is room for all else. */
  asked = Promise.resolve();
  /**
   * The texts that are asked about, or wait for that: meanwhile none of them is asked about again,
   * as where more is told of an answer.
   * @type {Set<string>}
   */
  texts = new Set();

  /**
   * `call` asks about a text; `told` hears the answer while that text stands.
   * @param {import('./paper.js').Paper} paper
   * @param {(text: string) => Promise<T>} call
   * @param {(text: string, answer: T) => void} told
   */
  constructor(paper, call, told) {
    this.paper = paper;
    this.call = call;
    this.told = told;
  }

  /**
   * Asks about a text once nothing has changed for a while; where nothing is to be asked, what
   * waited isn't asked either.
   * @param {string | null} text
   */
  later(text) {
    clearTimeout(this.timer);
    if (text === null || this.texts.has(text)) return;
    const ask = () => this.ask(text).finally(() => { this.texts.delete(text); });
    this.timer = window.setTimeout(() => {
      this.texts.add(text);
      this.asked = this.asked.then(ask, ask);
    }, REST);
  }

  /**
   * Asks about a text while that stands.
   * @param {string} text
   */
  async ask(text) {
    const stands = () => this.paper.text === text && !this.paper.live;
    const found = stands() ? await this.call(text).catch(ended) : null;
    if (found && stands()) this.told(text, found);
  }
}

/**
 * Passes over that the server is stopped, which the page tells by itself.
 * @param {unknown} error
 * @returns {null}
 */
function ended(error) {
  if (!(error instanceof Stopped)) throw error;
  return null;
}
