/* Walking: an eye in the level that keys, buttons and clicks move, and the picture and the counts of what it sees. While some
views are drawn the newest place waits; those between are left out, so that walking follows the keys. */
const DEEP = 2; // views that are drawn at a time, each by workers of its own
const WALK = 360, TURNS = 150, RISE = 200; // map units and degrees a second
const TAP = .05; // seconds that a key counts as at least
const keyOf = name => name.length === 1 ? name.toLowerCase() : name; // a letter in either case is one key
const MOVES = { ArrowUp: ['ahead', 1], w: ['ahead', 1], ArrowDown: ['ahead', -1], s: ['ahead', -1], ArrowLeft: ['turn', 1],
  ArrowRight: ['turn', -1], a: ['aside', -1], d: ['aside', 1], PageUp: ['rise', 1], PageDown: ['rise', -1] };

class Walker {
  // `draw` gives in time the view of a place ({ row, frame, counts } or null); `shown` takes each view that is drawn; `outside` a place
  // from which nothing is seen.
  constructor(draw, shown, wrong, outside = () => {}) {
    Object.assign(this, { draw, shown, wrong, outside, held: new Map(), last: 0 });
    this.asked = this.seen = this.running = this.era = 0; this.leave();
  }
  // Forgets where the eye is, as of a map that is no longer shown: what is still drawn of that is not shown.
  leave() {
    Object.assign(this, { place: null, view: null, ahead: null, wanted: null }); // of the view that is shown; newest, waiting
    this.era++; this.held.clear();
  }
  get isBusy() { return this.running > 0; }
  // Goes to a row of a path; its place is followed from there on the floor.
  go([x, y, z, angle], isOpen = this.place?.isOpen || false) {
    this.want({ x: x / UNIT, y: y / UNIT, z, angle: angle / TURN * 360, lift: 0, isOpen });
  }
  stand(x, y) { this.want({ ...this.place, x, y, z: undefined, lift: 0 }); }
  face(angle) { this.want({ ...this.place, angle: ((angle % 360) + 360) % 360 }); }
  again() { if (this.place) this.want({ ...this.place }); }
  want(place) { this.wanted = this.ahead = place; if (this.running < DEEP) this.next(); }
  async next() {
    const place = this.wanted, angle = Math.round(place.angle / 360 * TURN) % TURN, number = ++this.asked, { era } = this;
    this.wanted = null; this.running++;
    try {
      const view = await this.draw({ ...place, angle });
      if (era !== this.era) this.seen = number; else if (!view) this.stay(place); else if (number > this.seen) this.see(view, place, number);
    } catch (error) { if (era === this.era) { this.ahead = this.place; this.wrong(error.message); } }
    this.running--;
    if (this.wanted) this.next();
  }
  see(view, place, number) {
    this.seen = number; this.view = view;
    this.place = { ...place, z: place.z === undefined ? undefined : view.row[2] };
    this.shown(view, this.place);
  }
  // Nothing is seen from a place outside of the map: the eye stays where it was, and turns.
  stay(place) {
    const isTurned = this.place && place.angle !== this.place.angle;
    this.ahead = this.place; this.wanted = null;
    if (isTurned) this.wanted = this.ahead = { ...this.place, angle: place.angle };
    this.outside(place);
  }
  /* Keys that are held, and buttons. */
  press(name) {
    const key = keyOf(name);
    if (!MOVES[key] || !this.place) return false;
    if (!this.held.has(key)) { this.held.set(key, true); this.step(TAP, [MOVES[key]]); if (this.held.size === 1) { this.last = performance.now(); requestAnimationFrame(now => this.tick(now)); } }
    return true;
  }
  release(name) { this.held.delete(keyOf(name)); }
  tick(now) {
    if (!this.held.size) return;
    const seconds = Math.min((now - this.last) / 1000, .25);
    this.last = now; this.step(seconds, [...this.held.keys()].map(key => MOVES[key]));
    requestAnimationFrame(later => this.tick(later));
  }
  step(seconds, moves) {
    const from = this.ahead || this.place, to = { ...from };
    for (const [kind, way] of moves) {
      const turned = (kind === 'aside' ? from.angle - 90 : from.angle) * Math.PI / 180, far = way * WALK * seconds;
      if (kind === 'turn') to.angle = (to.angle + way * TURNS * seconds + 360) % 360;
      else if (kind === 'rise') to.z = Math.round((to.z ?? this.view.row[2]) + way * RISE * seconds * UNIT);
      else { to.x += far * Math.cos(turned); to.y += far * Math.sin(turned); to.z = undefined; }
    }
    this.want(to);
  }
}

// Draws a frame of palette indices on a canvas.
function drawFrame(canvas, frame, palette) {
  const pen = canvas.getContext('2d'), image = pen.createImageData(WIDTH, FRAME_HEIGHT), pixels = new DataView(image.data.buffer);
  const colours = Array.from({ length: 256 }, (_, i) => (palette[3 * i] << 24 | palette[3 * i + 1] << 16 | palette[3 * i + 2] << 8 | 255) >>> 0);
  for (let i = 0; i < frame.length; i++) pixels.setUint32(4 * i, colours[frame[i]]);
  pen.putImageData(image, 0, 0);
}
