/** The page's own types: places, what nodes are made of, and what is heard. */
import { Drawing, Judged, Mark } from './protocol';

/** A place or a direction, in pixels or in millimetres. */
export type Place = [number, number];

/** Attributes of a node; a function is a listener, by its name without `on`. */
export type Attributes = Record<
  string, string | number | boolean | null | undefined | ((event: any) => void)>;

/** What makes a node: its tag, its attributes, and what is in it. */
export type Made = [tag: string, attributes?: Attributes, ...children: Child[]];
export type Child = Made | Node | string | null | undefined | false | 0;

/** What makes a node of a layer, behind the key by which it is known again. */
export type Keyed = [key: string | number, ...made: Made];

/** A thing of a layer by its key: what its node comes from, and what makes it. */
export interface Kept {
  key: string | number;
  from: unknown[];
  make: () => Keyed;
}

/** An answer with a drawing that could be read. */
export interface Read extends Judged {
  drawing: Drawing;
}

/**
 * Which of the places that a mark may take it has, by its number, and how much of it lies over
 * nothing there: 0 nothing, 1 its text, 2 a bar as well.
 */
export interface Chosen {
  place: number;
  free: number;
}

/**
 * A mark, whose text stands at a place in pixels; of what is proposed with its line. key: tells it
 * from other marks, also of the same dimension. path: about where the text stands. base: where its
 * dimension is measured, in millimetres. ends: those of its bar, in pixels. isOpen: whether its
 * path has no inside. chosen: undefined where the drawing says its place, or a hand.
 */
export interface PlacedMark {
  key: string;
  number: number;
  line?: string;
  sign?: Mark['sign'];
  path: string | null;
  text: string;
  at: Place;
  base: Place;
  ends?: [Place, Place];
  isOpen?: boolean;
  chosen?: Chosen;
}

/** What a hand let go at a dead point, and where it had taken hold. */
export interface Dead {
  names: string[];
  begin: Place;
}

/** What the listeners of a paper hear, and with what. */
export interface Heard {
  begin: null;
  answer: Judged;
  trouble: string;
  text: null;
  settle: null;
  dead: Dead;
}
