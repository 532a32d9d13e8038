// @ts-check
/**
 * What a hand does, one thing after the other: each is done once those before it are, however
 * late the server answers.
 */

export class Sequence {
  /** @type {(() => unknown)[]} */
  acts = [];
  isBusy = false;
  /** Whether something is being begun. */
  begins = false;
  /**
   * What waits of something that is part of what is being begun.
   * @type {unknown}
   */
  part = null;

  /**
   * Does something: now, or once all before it is done. What gives a promise is done once that is
   * kept. What is begun by something that is done is part of that.
   * @param {() => unknown} act
   */
  do(act) {
    if (this.begins) {
      this.part = act();
      return;
    }
    this.acts.push(act);
    if (!this.isBusy) this.run();
  }

  /** Forgets what isn't begun. */
  forget() {
    this.acts = [];
  }

  /** Does all that there is to do; at once, as far as nothing has to be waited for. */
  async run() {
    this.isBusy = true;
    for (let act = this.acts.shift(); act; act = this.acts.shift()) {
      try {
        const done = this.begun(act);
        if (done) await done;
      } catch (error) {
        reportError(error);
      }
    }
    this.isBusy = false;
  }

  /**
   * Begins something; gives what waits of it, or of a part of it.
   * @param {() => unknown} act
   */
  begun(act) {
    this.begins = true;
    this.part = null;
    try {
      return act() ?? this.part;
    } finally {
      this.begins = false;
    }
  }
}
