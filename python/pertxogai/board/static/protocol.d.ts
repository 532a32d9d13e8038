/**
 * What the page and its server tell each other. Places and lengths are millimetres.
 * Made of board/protocol.py by tools/pages: change that.
 */
/** A call about a text. left_out: what the drawing can't say of its file. */
export interface About {
  text: string;
  left_out?: string[];
}

/** Why a call has no answer, in a line that says what to do. */
export interface Trouble {
  kind: string;
  message: string;
}

/** Why a text isn't read, and its line, from 1; 0 for the whole text. */
export interface Refused {
  line: number;
  message: string;
}

/** A reason, as JSON. off, unit: how far the constraint is off, of what isn't met. */
export interface ReasonJson {
  why: string;
  text: string;
  constraint: number | null;
  off: number | null;
  unit: string | null;
}

/**
 * A line of the verdict: how it is set, the list that it stands in, what it selects, the
 * constraint that it selects, or that its button takes away, what of the file its button forgets,
 * and the part whose colour it has.
 */
export interface Line {
  text: string;
  kind?: string;
  list?: string;
  selects?: string[];
  constraint?: number;
  takes?: number;
  forgets?: string;
  part?: number;
}

/**
 * A dimension that may go, as JSON. off, unit: how far it is off without it; rest: what the
 * others are then; null where that isn't known. rounding: by how much `off` moves with values that
 * had to be rounded, in the same unit. follows_from: the names of the others that it repeats or
 * contradicts, by the program's `why`, of those that by rank take part.
 */
export interface SpareJson {
  number: number;
  name: string;
  repeats: boolean | null;
  off: number | null;
  unit: string | null;
  rounding: number;
  rest: string | null;
  follows_from: string[];
}

/**
 * A dimension that is left out of what is over, and what is told of it. conflicts: null where
 * it isn't measured.
 */
export interface Excess {
  number: number;
  conflicts: boolean | null;
  told: string;
}

/** A part that is rigid by itself. */
export interface Piece {
  number: number;
  elements: string[];
}

/** Two pieces that may be tied, how they hang together, and what to do. */
export interface Joint {
  first: number;
  second: number;
  tie: string;
  do: string;
  shared: string[];
}

/** What is missing of what is open at least, by rank, and between which pieces. */
export interface Missing {
  lacks_by_rank: number;
  excess_by_rank: string[][];
  pieces: Piece[];
  joints: Joint[];
}

/** Between what a fault misses by. */
export interface Amount {
  low: number;
  high: number;
  unit: string;
}

/** A fault: the program's words, the dimensions beneath it, and where. */
export interface Failure {
  text: string;
  dimensions: string[];
  at: string[];
  amount: Amount | null;
}

/** Where points lie, and how large rims are; of one part, or of all. */
export interface Places {
  part: number | null;
  points: Record<string, [number, number]>;
  radii: Record<string, number>;
}

/**
 * How many degrees of freedom there are, among them those of the whole; whether the count may
 * be off.
 */
export interface Freedoms {
  count: number;
  of_the_whole: number;
  doubtful: boolean;
}

/** A point that still moves along a direction of length 1; one that moves everywhere has two. */
export interface FreeMove {
  point: string;
  dx: number;
  dy: number;
}

/**
 * A shape of what is open that meets all that is asked, found by numbers: nothing of it is
 * certified. moves: how points still move, of those in one place the first. free: the points and
 * shapes that may move, or change their radius. free_radii: the rims whose radius may change.
 */
export interface Found {
  places_by: 'numbers';
  places: Places;
  freedoms: Freedoms;
  moves: FreeMove[];
  free: string[];
  free_radii: string[];
}

/**
 * What is judged, and where it is shown. found: null of what is well or over, and where no
 * shape is found. colours: the parts of points and shapes.
 */
export interface Judgement {
  verdict: 'well' | 'open' | 'over';
  good: boolean;
  why_not: ReasonJson[];
  lines: Line[];
  spare: SpareJson[];
  excess: Excess[];
  repeats: string[];
  still: string;
  missing: Missing | null;
  failure: Failure | null;
  placed: Places | null;
  found: Found | null;
  laid: Places[];
  colours: Record<string, number>;
  language: string;
}

/** A shape where it is drawn. shares: which of its points lie in the place of another. */
export interface Shape {
  name: string;
  kind: 'point' | 'segment' | 'circle' | 'arc';
  construction: boolean;
  outer: boolean;
  points: Record<string, [number, number]>;
  shares: string[];
  radius?: number;
}

/** A constraint by its place, from 1. words: its line without its name. */
export interface Constraint {
  number: number;
  name: string | null;
  called: string;
  words: string;
  value: string | null;
}

/**
 * A mark of the constraint that has a number; of a dimension that is only measured the number
 * is negative, its place among those, and its words without a value stand beside. label: how far
 * the text stands from where the dimension is measured, where the drawing says so.
 */
export interface Mark {
  text?: string;
  sign?: string;
  bar?: [[number, number], [number, number]];
  at?: [number, number];
  way?: [number, number];
  centre?: [number, number];
  whole?: boolean;
  turn?: [number, number];
  number: number;
  words?: string[];
  value?: string;
  label?: [number, number];
}

/** A named value: how it is written, and what that comes to, with its unit. */
export interface NamedValue {
  name: string;
  expression: string;
  comes: string;
}

/** The drawing, and its named values. */
export interface Drawing {
  shapes: Shape[];
  constraints: Constraint[];
  marks: Mark[];
  values: NamedValue[];
}

/**
 * A text, the judgement on it, and its drawing. told: the name of what is told so. judgement:
 * null where nothing is drawn.
 */
export interface Judged {
  trouble?: Trouble;
  refused?: Refused;
  ms?: number;
  text?: string;
  told?: string;
  judgement?: Judgement | null;
  drawing?: Drawing;
}

/** A place that is a point which stands: it is shared. */
export interface PointSpot {
  point: string;
}

/** A place of its own. */
export interface FreeSpot {
  x: number;
  y: number;
}

/**
 * Draws a figure through spots. asks: what is asked for with it, each by the words of a line in
 * which `*` stands for the name of the figure.
 */
export interface DrawEdit {
  do: 'draw';
  figure: 'point' | 'segment' | 'circle' | 'arc' | 'rectangle' | 'slot' | 'polygon' |
    'centre-rectangle' | 'tangent-arc';
  spots: (PointSpot | FreeSpot)[];
  radius?: number;
  sides?: number;
  construction?: boolean;
  asks?: string[][];
}

/** A point goes to a place. */
export interface PointMove {
  of: string;
  x: number;
  y: number;
}

/** A circle gets a radius. */
export interface RadiusMove {
  of: string;
  radius: number;
}

/**
 * Draws points elsewhere, and circles larger or smaller. asks: what is asked for with it, each
 * by the words of a line.
 */
export interface MoveEdit {
  do: 'move';
  points?: PointMove[];
  radii?: RadiusMove[];
  asks?: string[][];
}

/** Draws shapes and points a way further. */
export interface ShiftEdit {
  do: 'shift';
  shapes?: string[];
  points?: string[];
  dx: number;
  dy: number;
}

/**
 * Takes shapes away, constraints by their numbers, and dimensions that are only measured by
 * their places among those.
 */
export interface EraseEdit {
  do: 'erase';
  shapes?: string[];
  constraints?: number[];
  references?: number[];
}

/**
 * Asks for a constraint. reference: the dimension that was only measured before, by its place
 * among those.
 */
export interface AskEdit {
  do: 'ask';
  words: string[];
  value?: string;
  reference?: number;
}

/**
 * Measures a dimension, by its words without a value, and asks nothing. number: the constraint
 * that asked for it before; its words count then.
 */
export interface ReferenceEdit {
  do: 'reference';
  words: string[];
  number?: number;
}

/**
 * Puts the label of a dimension, by the number of its mark, so far from where it is
 * measured.
 */
export interface LabelEdit {
  do: 'label';
  number: number;
  x: number;
  y: number;
}

/** Asks for what each of some lines says. */
export interface LinesEdit {
  do: 'lines';
  lines: string[];
}

/** Gives a constraint another value. */
export interface ValueEdit {
  do: 'value';
  number: number;
  value: string;
}

/** Names a constraint. */
export interface CallEdit {
  do: 'call';
  number: number;
  name: string;
}

/** Gives a shape another name. */
export interface RenameEdit {
  do: 'rename';
  old: string;
  new: string;
}

/** Makes construction lines of shapes, or edges again. */
export interface ConstructionEdit {
  do: 'construction';
  shapes: string[];
  construction: boolean;
}

/** Rounds or cuts the corner of two segments by a size, as it is typed. */
export interface CornerEdit {
  do: 'corner';
  kind: 'fillet' | 'chamfer';
  first: string;
  second: string;
  size: string;
}

/** Takes the piece of an edge away on which a place lies, between what crosses it there. */
export interface TrimEdit {
  do: 'trim';
  shape: string;
  x: number;
  y: number;
}

/** Has a segment go on beyond the end that a place is nearer to, to what it meets next. */
export interface ExtendEdit {
  do: 'extend';
  shape: string;
  x: number;
  y: number;
}

/** Draws shapes once more, mirrored in a segment or an axis. */
export interface MirrorEdit {
  do: 'mirror';
  shapes: string[];
  about: string;
}

/** Draws shapes again and again, each a pitch further: so many in all. */
export interface RowEdit {
  do: 'row';
  shapes: string[];
  dx: number;
  dy: number;
  count: number;
}

/** Draws shapes again and again round a centre: so many in all, over a full turn. */
export interface RingEdit {
  do: 'ring';
  shapes: string[];
  about: PointSpot | FreeSpot;
  count: number;
}

/** Draws the outline beside some edges, so far from them as is typed, on the side of a place. */
export interface OffsetEdit {
  do: 'offset';
  shapes: string[];
  size: string;
  x: number;
  y: number;
}

/** Draws shapes of a text, the same or another, so much further, with what is said of them. */
export interface PasteEdit {
  do: 'paste';
  source: string;
  shapes: string[];
  dx: number;
  dy: number;
}

/** Gives a named value an expression; names one where none has that name. */
export interface SetValueEdit {
  do: 'set-value';
  name: string;
  expression: string;
}

/** Takes a named value away. */
export interface DropValueEdit {
  do: 'drop-value';
  name: string;
}

/** A call that edits a text. knows: the name of what the page was told of that text. */
export interface AboutEdit {
  text: string;
  left_out?: string[];
  edit: DrawEdit | MoveEdit | ShiftEdit | EraseEdit | AskEdit | ReferenceEdit | LabelEdit |
    LinesEdit | ValueEdit | CallEdit | RenameEdit | ConstructionEdit | CornerEdit | TrimEdit |
    ExtendEdit | MirrorEdit | RowEdit | RingEdit | OffsetEdit | PasteEdit | SetValueEdit |
    DropValueEdit;
  knows?: string;
}

/**
 * What is judged, to a page that knows the judgement before: without what is long, and is as
 * it was.
 */
export interface ChangedJudgement {
  verdict: 'well' | 'open' | 'over';
  good: boolean;
  why_not: ReasonJson[];
  lines: Line[];
  spare: SpareJson[];
  excess: Excess[];
  repeats: string[];
  still: string;
  missing: Missing | null;
  failure: Failure | null;
  placed?: Places | null;
  found?: Found | null;
  laid?: Places[];
  colours?: Record<string, number>;
  language?: string;
}

/**
 * What is drawn, to a page that knows the drawing before: null for a list, or a thing of a
 * list, that is as it was.
 */
export interface ChangedDrawing {
  shapes: (Shape | null)[] | null;
  constraints: (Constraint | null)[] | null;
  marks: (Mark | null)[] | null;
  values: (NamedValue | null)[] | null;
}

/**
 * The text that an edit makes, and what of it isn't as it was. told: the name of what is told
 * so.
 */
export interface Edited {
  trouble?: Trouble;
  refused?: Refused;
  ms?: number;
  text?: string;
  told?: string;
  judgement?: ChangedJudgement | null;
  drawing?: ChangedDrawing;
}

/**
 * A frame of a drag: its name, and where the hand is. taken: how many frames of it the page has
 * taken. names: the points and shapes that the hand holds; begin: where it took hold. turns:
 * whether the other shape is asked for, at a dead point. places, passed: where what moves lay in
 * the frame before, and what arcs had passed, once the server has lost the drag.
 */
export interface AboutDrag {
  text: string;
  left_out?: string[];
  drag: string;
  names: string[];
  begin: FreeSpot;
  x: number;
  y: number;
  taken: number;
  turns?: boolean;
  places?: Places;
  passed?: Record<string, number>;
}

/**
 * A frame of a drag: the points and radii that aren't where they were in the frame before, by
 * numbers, and the marks of what is asked of what moves. off: by how many nanometres the worst
 * constraint is off there, measured. passed: how often each arc went past its own end since the
 * hand took hold, to the left positive. fixed: why nothing follows. lost: whether the process of
 * the server that was asked doesn't know the frame before, and wants the places.
 */
export interface Dragged {
  trouble?: Trouble;
  refused?: Refused;
  ms?: number;
  points?: Record<string, [number, number]>;
  radii?: Record<string, number>;
  marks?: Mark[];
  reach?: 'there' | 'beside' | 'comes' | 'stays';
  off?: number;
  passed?: Record<string, number>;
  fixed?: string;
  lost?: boolean;
}

/** A call about some points and shapes. */
export interface AboutNames {
  text: string;
  left_out?: string[];
  names: string[];
}

/**
 * A constraint that fits: its words, its sign, and the value that is drawn, null where it
 * takes none.
 */
export interface ConstraintOffer {
  do: 'ask';
  words: string[];
  sign: string;
  value: string | null;
}

/** What may be made of a corner: its word and the two segments, and a size that fits. */
export interface CornerOffer {
  do: 'corner';
  words: string[];
  sign: string;
  value: string;
}

/** Which constraints fit, and what may be made of a corner. */
export interface Offered {
  trouble?: Trouble;
  refused?: Refused;
  ms?: number;
  offers?: (ConstraintOffer | CornerOffer)[];
}

/** What may go, what is left out of what is over, and the lines of the verdict with both. */
export interface Weighed {
  trouble?: Trouble;
  refused?: Refused;
  ms?: number;
  spare?: SpareJson[];
  excess?: Excess[];
  lines?: Line[];
}

/**
 * A line that could be added, by its place, from 1: its words without the value, and the value,
 * null where it has none; what it fixes; whether it only ties the whole to the datum; its
 * marks.
 */
export interface Proposed {
  number: number;
  line: string;
  words: string[];
  value: string | null;
  fixes: string[];
  ties: boolean;
  marks: Mark[];
}

/** What completes a drawing, or why nothing is proposed. */
export interface Completed {
  trouble?: Trouble;
  refused?: Refused;
  ms?: number;
  proposals?: Proposed[];
  why?: string;
}

/**
 * What a dimension, by the number of its constraint, gives to a check: how much to either side,
 * and how many percent of what all give.
 */
export interface Contribution {
  number: number;
  words: string;
  gives: string;
  percent: number;
}

/**
 * What comes of a check, by its place, from 1: whether it fits, with a sign that tells that
 * without colours; its worst case; what is told of it, in lines; which dimension gives how much,
 * the greatest first; its marks.
 */
export interface Checked {
  number: number;
  name: string;
  words: string;
  answer: 'fits' | 'unsure' | 'beyond' | 'unlimited';
  sign: string;
  worst: string;
  lines: string[];
  gives: Contribution[];
  marks: Mark[];
}

/**
 * What comes of the checks of a drawing. why: why nothing is known, or which cases have no
 * places.
 */
export interface Fitted {
  trouble?: Trouble;
  refused?: Refused;
  ms?: number;
  checks?: Checked[];
  why?: string[];
}

/** A call about a constraint by its number, or a value by its name. */
export interface AboutRange {
  text: string;
  left_out?: string[];
  number?: number;
  name?: string;
}

/**
 * How far a dimension, by its number, or a value, by its name, can go, and why no further.
 * called: the name of either, or the words of a dimension without its value; present, low, high:
 * the number that it has now, and the ends, in `unit`: `mm`, `deg`, or nothing; sign: whether a
 * number for it is typed with its sign; typed: the unit that is typed behind it; told: at how many
 * numbers the range was sampled, and what is known of those between, by numbers.
 */
export interface RangeShown {
  called: string;
  number: number | null;
  name: string | null;
  sign: boolean;
  present: number;
  unit: string;
  typed: string;
  told: string;
  low: number;
  low_why: string;
  high: number;
  high_why: string;
}

/**
 * A range, or why there is none. values: those that what was asked for follows from, each with
 * a range of its own.
 */
export interface Ranged {
  trouble?: Trouble;
  refused?: Refused;
  ms?: number;
  range?: RangeShown;
  why?: string;
  values?: string[];
}

/** An element of the construction: a point at a place, or a line through one, a way. */
export interface ElementJson {
  called: string;
  at?: [number, number];
  through?: [number, number];
  way?: [number, number];
}

/**
 * A cluster that a step joins. motion: cosine, sine and shift from where its elements are
 * placed to where it lies before the step.
 */
export interface Cluster {
  name: string;
  called: string;
  kept: boolean;
  elements: string[];
  shapes: string[];
  motion: number[];
}

/** Where an element may lie by one cluster: on a circle about a place, or on a line. */
export interface Locus {
  circle?: [number, number];
  radius?: number;
  line?: [number, number];
  way?: [number, number];
}

/** A step of the construction: what it joins, where, and what it makes. */
export interface Step {
  number: number;
  joins: Cluster[];
  at: string[];
  choice: string;
  made: string;
  loci: Locus[];
}

/** The plan of what is well. */
export interface Construction {
  elements: Record<string, ElementJson>;
  steps: Step[];
}

/** The construction. */
export interface Planned {
  trouble?: Trouble;
  refused?: Refused;
  ms?: number;
  construction?: Construction;
}

/** A call about a shape in which the choices of some steps are turned over. */
export interface AboutSteps {
  text: string;
  left_out?: string[];
  steps: number[];
}

/** Where all lies in the other shape. */
export interface OtherShape {
  trouble?: Trouble;
  refused?: Refused;
  ms?: number;
  placed?: Places;
}

/** What the program says of a claim, and the claim. */
export interface Verified {
  trouble?: Trouble;
  refused?: Refused;
  ms?: number;
  said?: string;
  claim?: string;
}

/** A call for DXF of a version, as R2010. */
export interface AboutDxf {
  text: string;
  left_out?: string[];
  name: string;
  release: string;
}

/** A file of DXF. */
export interface Dxf {
  trouble?: Trouble;
  refused?: Refused;
  ms?: number;
  dxf?: string;
}

/** A call for a file of the drawing, under its name. */
export interface AboutFile {
  text: string;
  left_out?: string[];
  name: string;
}

/** A picture. */
export interface Svg {
  trouble?: Trouble;
  refused?: Refused;
  ms?: number;
  svg?: string;
}

/** A file that is opened. data: its bytes in base 64. */
export interface FileBytes {
  name: string;
  data: string;
}

/** A sketch of a file. left_out: what of it a drawing can't say; aside: what it says beside. */
export interface FileSketch {
  name: string;
  text: string;
  left_out: string[];
  aside: string[];
}

/** The sketches of a file. */
export interface Opened {
  trouble?: Trouble;
  refused?: Refused;
  ms?: number;
  sketches?: FileSketch[];
}

/** A drawing to begin from. */
export interface GalleryDrawing {
  name: string;
  text: string;
}

/** The drawings to begin from. */
export interface Gallery {
  trouble?: Trouble;
  refused?: Refused;
  ms?: number;
  drawings?: GalleryDrawing[];
}

/** What every answer may have. ms: the time that the server took. */
export interface Answer {
  trouble?: Trouble;
  refused?: Refused;
  ms?: number;
}

export type Spot = PointSpot | FreeSpot;

export type Edit = DrawEdit | MoveEdit | ShiftEdit | EraseEdit | AskEdit | ReferenceEdit |
    LabelEdit | LinesEdit | ValueEdit | CallEdit | RenameEdit | ConstructionEdit | CornerEdit |
    TrimEdit | ExtendEdit | MirrorEdit | RowEdit | RingEdit | OffsetEdit | PasteEdit | SetValueEdit
    | DropValueEdit;

export type Offer = ConstraintOffer | CornerOffer;

/** Each call: what it is given, and what it gives. */
export interface Calls {
  'judge': { given: About; gives: Judged };
  'edit': { given: AboutEdit; gives: Edited };
  'drag': { given: AboutDrag; gives: Dragged };
  'offers': { given: AboutNames; gives: Offered };
  'weigh': { given: About; gives: Weighed };
  'complete': { given: About; gives: Completed };
  'fit': { given: About; gives: Fitted };
  'range': { given: AboutRange; gives: Ranged };
  'plan': { given: About; gives: Planned };
  'flips': { given: AboutSteps; gives: OtherShape };
  'redraw': { given: AboutSteps; gives: Edited };
  'verify': { given: About; gives: Verified };
  'dxf': { given: AboutDxf; gives: Dxf };
  'svg': { given: AboutFile; gives: Svg };
  'program-dxf': { given: About; gives: Dxf };
  'open': { given: FileBytes; gives: Opened };
}
