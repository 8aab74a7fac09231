/* What the lines of `limits` and `list` say of views, as tools/doomview_tools/counting.py and list_counts.py have it, which
say why: what `limits` counts no further is taken from `list`, and solid ranges from `list` of a map of the solid walls alone. The
counts of a view are numbers in the order of COUNTS, NONE where a view has none since it passes a raised limit, and of solid
ranges. A test compares the numbers of whole maps. */
const { CAPPED, EDGES } = FACTS;
const NONE = -1, LINE_FEED = 10, SPACE = 32, DIGIT = 48, OVER = 'o'.charCodeAt(0), FRAGMENT = 'f'.charCodeAt(0), SUMS = 's'.charCodeAt(0);
const VIEW = 'view '.length, KIND = 'fragment'.length; // places of letters in a line: of its number, and of what ends its kind
const PLANES = 'p'.charCodeAt(0), FRAGMENTS = COUNTS.indexOf('fragments'), SOLIDS = COUNTS.indexOf('solids');
const CAPS = COUNTS.map(name => CAPPED[name] ?? Infinity);
const countsBy = numbers => COUNTS.map(name => numbers[name] ?? NONE);
const isCapped = counts => counts.some((count, i) => count >= CAPS[i]);

// The numbers of a line between two places, of which the last is its end. They are in one array for all lines.
const NUMBERS = [];
function numbersIn(bytes, at, end) {
  let number = NONE, count = 0;
  for (; at <= end; at++) {
    const digit = at < end ? bytes[at] - DIGIT : NONE;
    if (digit >= 0 && digit <= 9) number = (number < 0 ? 0 : 10 * number) + digit;
    else if (number >= 0) { NUMBERS[count++] = number; number = NONE; }
  }
  return NUMBERS;
}
// What a line says of a view that passes a raised limit.
function overOf(bytes, at, end) {
  return countsBy({ [bytes[at + 'over '.length] === PLANES ? 'planes' : 'openings']: numbersIn(bytes, at, end)[0] });
}

// The most solid ranges of one view after another; its solid walls come in order.
class Ranges {
  constructor() { this.filled = new Uint8Array(WIDTH + EDGES); this.begin(); }
  begin() {
    this.filled.fill(0); this.filled[0] = this.filled[WIDTH + 1] = 1; // the edges of the view
    this.count = this.most = EDGES; this.seg = NONE; this.parts = [];
  }
  take(seg, first, last) {
    if (seg !== this.seg) this.close();
    this.seg = seg; this.parts.push([first, last]);
  }
  // The wall of the fragments so far makes a range more, or joins those that it touches.
  close() {
    const { parts, filled } = this;
    if (!parts.length) return;
    const touched = filled[parts[0][0]] + parts.length - 1 + filled[parts.at(-1)[1] + 2];
    this.count += touched > 1 ? 2 - touched : 1 - touched; this.most = Math.max(this.most, this.count);
    for (const [first, last] of parts) filled.fill(1, first + 1, last + 2);
    this.parts = [];
  }
  ended() { this.close(); const { most } = this; this.begin(); return most; }
}

// Takes the output of a job in pieces, and gives the counts of each view to `take`; of solid walls alone the most solid ranges.
class Lines {
  constructor(take) { this.take = take; this.rest = new Uint8Array(); }
  feed(piece) {
    const bytes = this.rest.length ? joined([this.rest, piece]) : piece;
    let at = 0;
    for (let end; (end = bytes.indexOf(LINE_FEED, at)) >= 0; at = end + 1) this.line(bytes, bytes.indexOf(SPACE, at + VIEW) + 1, end);
    this.rest = bytes.slice(at);
  }
}
class LinesOfLimits extends Lines {
  line(bytes, at, end) {
    if (bytes[at] === OVER) return this.take(overOf(bytes, at, end));
    const [planes, openings, fragments, sprites] = numbersIn(bytes, at, end);
    return this.take(countsBy({ planes, openings, fragments, sprites }));
  }
}
class LinesOfList extends Lines {
  line(bytes, at, end) {
    if (bytes[at] === OVER) this.take(overOf(bytes, at, end));
    else if (bytes[at] === FRAGMENT && bytes[at + KIND] === SUMS) this.sums(numbersIn(bytes, at, end));
  }
  sums([, fragments, planes, openings, , sprites]) { this.take(countsBy({ planes, openings, fragments, sprites })); }
}
class LinesOfWalls extends Lines {
  constructor(take) { super(take); this.ranges = new Ranges(); }
  line(bytes, at, end) {
    if (bytes[at] === OVER || bytes[at] === FRAGMENT && bytes[at + KIND] === SUMS) this.take(this.ranges.ended());
    else if (bytes[at] === FRAGMENT) { const [, seg, first, last] = numbersIn(bytes, at, end); this.ranges.take(seg, first, last); }
  }
}
