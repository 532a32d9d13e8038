// @ts-check
/** Files: opened, saved, exported; and the gallery. */
import { html, nodeOf } from './nodes.js';
import { told } from './dialogs.js';

/** @typedef {'dxf' | 'svg' | 'sketch' | 'claim' | 'program-dxf'} Kind */
/** @typedef {import('./protocol').FileSketch} FileSketch */
/** @typedef {import('./protocol').Answer} Answer */

/** The most bytes that a file may have: with what they are sent in, a call holds no more. */
const MOST_BYTES = 750 * 1024;
/** @type {Record<Kind, string>} */
const ENDINGS = {
  dxf: '.dxf', 'program-dxf': '-program.dxf', svg: '.svg', sketch: '.sketch', claim: '.claim',
};
/** The version of DXF that is written. */
const RELEASE = 'R2010';

/** What goes in and out of the page. */
export class Files {
  input = nodeOf('file', HTMLInputElement);
  /** How many drawings were begun, or files opened: of several that are opened the last counts. */
  turn = 0;

  /**
   * `shown`: what is done once another drawing is shown.
   * @param {import('./paper.js').Paper} paper
   * @param {import('./keeping.js').Keeping} keeping
   * @param {() => void} shown
   */
  constructor(paper, keeping, shown) {
    this.paper = paper;
    this.keeping = keeping;
    this.shown = shown;
    this.input.addEventListener('change', () => this.open(this.input.files?.[0]));
    document.addEventListener('dragover', (event) => this.drop(event));
    document.addEventListener('drop', (event) => this.drop(event));
  }

  /**
   * A file is dropped on the page, or about to be; behind a dialog it is passed over.
   * @param {DragEvent} event
   */
  drop(event) {
    if (!event.dataTransfer?.types.includes('Files')) return;
    event.preventDefault();
    const { files } = event.dataTransfer;
    if (event.type !== 'drop' || document.querySelector('dialog[open]')) return;
    if (files.length > 1) this.paper.tell('trouble', 'Drop one file at a time: none is opened');
    else this.open(files[0]);
  }

  /**
   * Begins with a text, once what isn't saved is kept aside; of a file something may be left out.
   * @param {string} text
   * @param {string} name
   * @param {string[]} [leftOut]
   */
  async begin(text, name, leftOut = []) {
    this.turn += 1;
    this.paper.settle();
    this.keeping.put(this.paper);
    nodeOf('name', HTMLInputElement).value = name;
    await this.paper.begin(text, name, text, leftOut);
    this.shown();
  }

  /**
   * Opens a file of the designer's, and lets one of several sketches in it be chosen.
   * @param {File | undefined} file
   */
  async open(file) {
    this.input.value = '';
    if (!file) return;
    const turn = this.turn += 1;
    const data = file.size > MOST_BYTES ? null : await base64(file);
    if (typeof data !== 'string') {
      const large = 'has over 750 KB: judge it by pertxogai judge';
      const why = data === null ? large : 'can’t be read';
      this.paper.tell('trouble', `${file.name} ${why}`);
      return;
    }
    const found = await this.paper.ask('open', { name: file.name, data });
    if (turn !== this.turn) return;
    if (found?.sketches) {
      const { sketches } = found;
      const sketch = sketches.length === 1 ? sketches[0] : await chosen(file.name, sketches);
      if (sketch) await this.take(sketch);
    } else if (found) this.paper.tell('trouble', whyNot(found, file.name));
  }

  /**
   * Takes a sketch of a file, and tells what of it couldn't be said.
   * @param {FileSketch} sketch
   */
  async take({ text, name, left_out: out, aside }) {
    await this.begin(text, name, out);
    const lines = [...out.map((each) => `left out: ${each}`),
      ...aside.map((each) => `doesn’t constrain the sketch: ${each}`)];
    if (!lines.length) return;
    const list = html('ul', {}, ...lines.map((each) => html('li', {}, each)));
    told('What of the file isn’t in the drawing', list);
  }

  /** Lets a drawing be chosen to begin from. */
  async gallery() {
    const drawings = await this.paper.queue(() => this.paper.server.gallery());
    /** @type {import('./keeping.js').Kept[]} */
    const all = [...this.keeping.unsaved(), ...drawings ?? []];
    const drawing = all.length ? await chosen('Begin from', all) : undefined;
    if (drawing) this.begin(drawing.text, drawing.name, drawing.leftOut);
  }

  /** Saves the drawing's text, once all that was asked before is done. */
  save() {
    const { paper } = this;
    paper.settle();
    const { history, name } = paper;
    return paper.queue(async () => {
      if (paper.history === history) {
        paper.saved = history.text;
        this.keeping.keep();
      }
      download(`${name}.drawing`, history.text);
    });
  }

  /**
   * Exports what is shown once all that was asked before is done.
   * @param {Kind} kind
   */
  async export(kind) {
    this.paper.settle();
    const { history, name } = this.paper;
    const found = await this.paper.queue(() => this.content(kind, history.text, name));
    if (found?.content) download(name + ENDINGS[kind], found.content);
    else if (found) this.paper.tell('trouble', whyNot(found));
  }

  /**
   * The content of a file of a kind, or why there is none. Throws Stopped.
   * @param {Kind} kind
   * @param {string} text
   * @param {string} name
   * @returns {Promise<Answer & { content?: string | null }>}
   */
  async content(kind, text, name) {
    const { paper } = this;
    switch (kind) {
      case 'sketch': return this.language(text);
      case 'claim': return paper.about('verify', { text })
        .then((each) => withContent(each, each.claim));
      case 'svg': return paper.about('svg', { text, name })
        .then((each) => withContent(each, each.svg));
      case 'dxf': return paper.about('dxf', { text, name, release: RELEASE })
        .then((each) => withContent(each, each.dxf));
      default: return paper.about('program-dxf', { text })
        .then((each) => withContent(each, each.dxf));
    }
  }

  /**
   * The sketch of a text, as it was judged.
   * @param {string} text
   */
  async language(text) {
    const { paper, paper: { said } } = this;
    const judged = said?.text === text ? said : await paper.about('judge', { text });
    return withContent(judged, judged.judgement?.language);
  }
}

/**
 * An answer with the content of a file.
 * @param {Answer} answer
 * @param {string | undefined} content
 */
function withContent(answer, content) {
  return { ...answer, content };
}

/**
 * Why a file isn't opened or written, in a line.
 * @param {Answer} answer
 * @param {string} [name]
 */
function whyNot({ trouble, refused }, name) {
  if (trouble) return trouble.message;
  if (!refused) return 'there is nothing to export yet';
  return name ? `${name}, ${refused.message}` : refused.message;
}

/**
 * The one of several drawings that is chosen by its name; undefined where none is.
 * @template {{ name: string }} T
 * @param {string} title
 * @param {T[]} drawings
 * @returns {Promise<T | undefined>}
 */
async function chosen(title, drawings) {
  const buttons = drawings.map((each, place) => html('button', {
    value: place, autofocus: place ? null : '' }, each.name.replaceAll('-', ' ')));
  const place = await told(title, html('div', { class: 'gallery' }, ...buttons));
  return place ? drawings[Number(place)] : undefined;
}

/**
 * The bytes of a file in base 64; undefined where it can't be read.
 * @param {File} file
 */
async function base64(file) {
  const reader = new FileReader();
  await new Promise((done) => {
    reader.onloadend = done;
    reader.readAsDataURL(file);
  });
  const { result } = reader;
  return typeof result === 'string' ? result.slice(result.indexOf(',') + 1) : undefined;
}

/**
 * Hands a text to the browser as a file.
 * @param {string} name
 * @param {string} text
 */
function download(name, text) {
  const href = URL.createObjectURL(new Blob([text], { type: 'application/octet-stream' }));
  html('a', { href, download: name }).click();
  setTimeout(() => URL.revokeObjectURL(href), 10000);
}
