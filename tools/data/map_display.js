/* The display of a map on a canvas: its lines, places as squares that are darker for greater counts, numbered dots, and
the picking of a place by mouse, keys and fingers. It needs nothing but the canvas; a page gives it all that it shows.

  const display = new MapDisplay(canvas, { vertexes, lines, point, pick });

    vertexes   [x, y] of each, in map units
    lines      [start, end, isWall] of each; start and end are numbers of vertexes
    point      a function of a place or null, and of the marks near it: the pointer is over it, or an arrow key went to it
    pick       a function of a place or null: it was clicked, or Enter was pressed on it
    choose     a function of x and y in map units and the event: a click anywhere; may be left out
    isFilling  whether the canvas is as large as its page makes it, and not as high as the map needs; may be left out
    theme      light, which is taken where none is named, or dark: the colours, a name of MapDisplay.THEMES

A place is { x, y, size, isReached }: the middle of a square and its side in map units, and whether a way leads there. A
page may give its places other fields. show() adds isCut: whether smaller places lie over its quarters.

  display.show(parts)         takes any of these parts, keeps the others, and draws:
    places     a list of places; the cursor is taken away
    numberOf   a function of a place: its count, by which it is shaded
    limit      a count from 1: shades go from 0 to it
    isOver     a function of a count: whether it is over the limit
    dots       [{ x, y, text, isChosen }]: numbered views
    rings      [[x, y]]: small circles
    marks      [{ x, y, letter, colour, corners }]: small diamonds with a letter, over the places; with corners, pairs of
               x and y around the middle, another shape, such as MapDisplay.UP or DOWN, smaller from afar
    eye        { x, y, angle } or null: a cone of 90 degrees; angle is in degrees, counterclockwise from east
    cursor     a place or null: it gets a frame
  display.fit()               takes the size of its canvas anew, as after a change of the window, and draws
  display.whole()             shows the whole map, and draws
  display.near(x, y)          shows the map around a point in map units from near, and draws
  display.colour(theme)       takes the colours of a theme, and draws
  display.zoom(factor)        comes nearer for a factor above 1, and draws
  display.walk(dx, dy)        puts the cursor on the next place in a direction: (1, 0) is east, (0, 1) north
  display.placeAt(x, y)       the place that is drawn at a point in map units, or null
  display.square(place)       left, top and side of a place in pixels of the canvas
  display.scale               pixels for each map unit
  display.keys                by the name of a key what it does: + - = 0
  display.walkKeys            the same for the arrows and Enter, which a button of a page may want for itself
  MapDisplay.KEYS             what these keys do, in HTML
  MapDisplay.shade(share, theme)  the colour of a count that is a share of its limit, up to 1
  MapDisplay.core(share)      of a count over its limit how wide the light core of its black square is, from 0 at the limit
                              to .6 of the square at four times the limit and more
  MapDisplay.drawScale(canvas, theme)  fills a canvas with the shades from 0 to the limit, and then cores up to four times it */
class MapDisplay {
  static KEYS = 'arrows walk from place to place · <kbd>Enter</kbd> picture there · <kbd>+</kbd> <kbd>-</kbd> <kbd>0</kbd> ' +
    'zoom (wheel, drag, two fingers)';
  // The shades go from the paper's to the opposite throughout, so that they read in black and white too; the first is not the paper's own.
  static THEMES = {
    light: { stops: [[226, 235, 243], [196, 217, 236], [150, 187, 220], [222, 126, 40], [140, 52, 0]], over: '#000', core: '#f9f', cross: '#fff', wall: '#000',
      edge: 'rgba(255,255,255,.7)', thin: '#777', struck: '#555', chosen: '#06c', low: '#000', high: '#fff' },
    dark: { stops: [[32, 42, 54], [42, 66, 92], [62, 104, 146], [214, 122, 42], [255, 196, 120]], over: '#fff', core: '#b0189a', cross: '#000', wall: '#e8edf2',
      edge: 'rgba(16,19,23,.75)', thin: '#7b8794', struck: '#9aa4b1', chosen: '#4a90f0', low: '#fff', high: '#000' },
  };

  static NEAR = 800; // map units that are seen of a place from near
  static BELOW = 44; // pixels at the foot of a canvas that is filled, which its page has for words

  static OVER = ['dots', 'rings', 'marks', 'eye', 'cursor']; // parts that are drawn over places and lines

  static UP = [[0, -6], [6, 5], [-6, 5]]; static DOWN = [[0, 6], [-6, -5], [6, -5]]; static DIAMOND = [[0, -8], [8, 0], [0, 8], [-8, 0]];

  constructor(canvas, { vertexes, lines, point, pick, choose = () => {}, isFilling = false, theme = 'light' }) {
    Object.assign(this, { canvas, vertexes, lines, point, pick, choose, isFilling, theme });
    this.pen = canvas.getContext('2d');
    this.shown = { places: [], numberOf: () => 0, limit: 1, isOver: () => false, dots: [], rings: [], marks: [], eye: null, cursor: null };
    this.scale = 1; this.centre = [0, 0]; this.drag = null; this.fingers = new Map(); // pointers that are down, where they are
    const corners = lines.flatMap(line => [vertexes[line[0]], vertexes[line[1]]]);
    this.box = [0, 1].map(k => [Math.min, Math.max].map(least => corners.reduce((a, v) => least(a, v[k]), corners[0][k])));
    this.sizes = this.box.map(([low, high]) => high - low + 64);
    this.keys = { '+': () => this.zoom(1.3), '=': () => this.zoom(1.3), '-': () => this.zoom(1 / 1.3), 0: () => this.whole() };
    this.walkKeys = { ArrowLeft: () => this.walk(-1, 0), ArrowRight: () => this.walk(1, 0), ArrowUp: () => this.walk(0, 1),
      ArrowDown: () => this.walk(0, -1), Enter: () => this.shown.cursor && this.pick(this.shown.cursor) };
    this.listen();
    this.measure(); this.whole();
  }

  static shade(share, theme = 'light') {
    const reach = Math.min(Math.max(share, 0), .9999) * 4, i = Math.floor(reach), rest = reach - i, { stops } = MapDisplay.THEMES[theme];
    const [low, high] = [stops[i], stops[i + 1]];
    return 'rgb(' + low.map((v, k) => Math.round(v + (high[k] - v) * rest)) + ')';
  }
  static core(share) { return .6 * Math.min(1, Math.max(0, Math.log2(share) / 2)); }
  static drawScale(canvas, theme = 'light') {
    const pen = canvas.getContext('2d'), { width, height } = canvas, limit = Math.round(width * .65), colours = MapDisplay.THEMES[theme];
    for (let x = 0; x < limit; x++) { pen.fillStyle = MapDisplay.shade(x / limit, theme); pen.fillRect(x, 0, 1, height); }
    pen.fillStyle = colours.over; pen.fillRect(limit, 0, width - limit, height);
    for (let x = limit; x + height <= width; x += height) {
      const core = height * MapDisplay.core(4 ** ((x - limit) / (width - limit - height)));
      pen.fillStyle = colours.core; pen.fillRect(x + (height - core) / 2, (height - core) / 2, core, core);
    }
  }

  /* What is shown, and how near. */
  show(parts) {
    if (parts.places) { MapDisplay.order(parts.places); this.shown.cursor = null; }
    Object.assign(this.shown, parts); this.draw(Object.keys(parts).every(part => MapDisplay.OVER.includes(part)));
  }
  // Puts places into the order in which they are drawn: those that were cut behind the others.
  static order(places) {
    const middles = new Set(places.map(place => [place.size, place.x, place.y].join()));
    const isThere = (place, i, j) => {
      const away = place.size / 4;
      return middles.has([place.size / 2, place.x + i * away, place.y + j * away].join());
    };
    places.forEach(place => { place.isCut = [-1, 1].some(i => [-1, 1].some(j => isThere(place, i, j))); });
    places.sort((a, b) => a.isCut - b.isCut || b.size - a.size);
  }
  // As wide as its room on the page, and no higher than the map needs or than the window, or half of one that is narrow.
  measure() {
    const ratio = devicePixelRatio || 1, canvas = this.canvas, most = this.isFilling ? 0 : innerWidth > 700 ? innerHeight - 230 : innerHeight / 2;
    this.width = canvas.clientWidth || 800;
    this.height = this.isFilling ? canvas.clientHeight || 600 : Math.round(Math.max(340, Math.min(most, 1000, this.width * this.sizes[1] / this.sizes[0])));
    if (!this.isFilling) canvas.style.height = this.height + 'px';
    canvas.width = this.width * ratio; canvas.height = this.height * ratio; this.pen.setTransform(ratio, 0, 0, ratio, 0, 0);
  }
  fit() { this.measure(); if (this.isFilling && this.isWhole) this.whole(); else this.draw(); }
  near(x, y) {
    this.scale = Math.max(this.scale, Math.min(this.width, this.height) / MapDisplay.NEAR); this.centre = [x, y]; this.isWhole = false; this.draw();
  }
  colour(theme) { this.theme = theme; this.draw(); }
  get colours() { return MapDisplay.THEMES[this.theme]; }
  whole() {
    const below = this.isFilling ? MapDisplay.BELOW : 0;
    this.scale = Math.min(this.width / this.sizes[0], Math.max(40, this.height - below) / this.sizes[1]);
    this.centre = this.box.map(([low, high], k) => (low + high) / 2 - (k ? below / 2 / this.scale : 0)); this.isWhole = true; this.draw();
  }
  zoom(factor, point = [this.width / 2, this.height / 2]) {
    const before = this.from(...point); this.scale *= factor; this.isWhole = false; const after = this.from(...point);
    this.centre = this.centre.map((v, k) => v + before[k] - after[k]); this.draw();
  }
  // Pixels of the canvas of a point in map units, and the point of some pixels.
  at(x, y) { return [(x - this.centre[0]) * this.scale + this.width / 2, (this.centre[1] - y) * this.scale + this.height / 2]; }
  from(px, py) {
    return [(px - this.width / 2) / this.scale + this.centre[0], this.centre[1] - (py - this.height / 2) / this.scale];
  }

  /* Drawing. */
  draw(isBelowSame = false) {
    const { rings, marks, cursor, eye, dots } = this.shown, pen = this.pen;
    if (!isBelowSame || !this.below) this.drawBelow();
    pen.clearRect(0, 0, this.width, this.height);
    pen.drawImage(this.below, 0, 0, this.width, this.height);
    rings.forEach(([x, y]) => this.circle(...this.at(x, y), 2.2, '#fff'));
    marks.forEach(mark => this.drawMark(mark));
    if (cursor) { const [x, y, size] = this.square(cursor); pen.strokeStyle = this.colours.chosen; pen.lineWidth = 3; pen.strokeRect(x, y, size, size); }
    if (eye) this.cone(eye);
    dots.filter(dot => !dot.isChosen).concat(dots.filter(dot => dot.isChosen)).forEach(dot => this.drawDot(dot));
  }
  // Draws places and lines on a canvas of their own, which is kept while what is over them moves.
  drawBelow() {
    const canvas = this.below ??= document.createElement('canvas'), { pen } = this;
    canvas.width = this.canvas.width; canvas.height = this.canvas.height;
    this.pen = canvas.getContext('2d'); this.pen.setTransform(pen.getTransform());
    this.shown.places.forEach(place => this.drawPlace(place));
    this.drawLines();
    this.pen = pen;
  }
  // A place that was cut is small in the middle of its quarters, over them, and hides the middle of none.
  static drawnSize(place) { return place.size / (place.isCut ? 5 : 1); }
  square(place) {
    const size = MapDisplay.drawnSize(place) * this.scale, [x, y] = this.at(place.x, place.y);
    return [x - size / 2, y - size / 2, size];
  }
  drawPlace(place) {
    const [x, y, size] = this.square(place), n = this.shown.numberOf(place), isOver = this.shown.isOver(n);
    const { colours } = this;
    this.pen.fillStyle = isOver ? colours.over : MapDisplay.shade(n / this.shown.limit, this.theme);
    this.pen.fillRect(x, y, size + .6, size + .6);
    if (!place.isReached) this.stroke(isOver ? colours.cross : colours.struck, 1, [[[x, y + size], [x + size, y]]]);
    if (isOver && size >= 8) this.cross(x, y, size);
    if (isOver) this.drawCore(x, y, size, MapDisplay.core(n / this.shown.limit) * size);
    if (size > (isOver ? 48 : 34)) this.label(n, x + size / 2, y + size * (isOver ? .87 : .5), n > this.shown.limit * .7 ? colours.high : colours.low);
  }
  drawCore(x, y, size, core) {
    this.pen.fillStyle = this.colours.core; this.pen.fillRect(x + (size - core) / 2, y + (size - core) / 2, core, core);
  }
  cross(x, y, size) {
    const a = size * .25, b = size * .75;
    this.stroke(this.colours.cross, 1.5, [[[x + a, y + a], [x + b, y + b]], [[x + a, y + b], [x + b, y + a]]]);
  }
  // Walls with an edge of the paper's colour, so that they show on places over a limit too.
  drawLines() {
    const drawn = isWall => this.lines.filter(line => Boolean(line[2]) === isWall)
      .map(line => [this.at(...this.vertexes[line[0]]), this.at(...this.vertexes[line[1]])]);
    const walls = drawn(true);
    const { thin, edge, wall } = this.colours;
    this.stroke(thin, .6, drawn(false)); this.stroke(edge, 2.6, walls); this.stroke(wall, 1.4, walls);
  }
  drawDot({ x, y, text, isChosen }) {
    const middle = this.at(x, y);
    this.circle(...middle, 9, isChosen ? this.colours.chosen : '#fff'); this.label(text, ...middle, isChosen ? '#fff' : '#000');
  }
  drawMark({ x, y, letter, colour, corners }) {
    const [px, py] = this.at(x, y), pen = this.pen, size = corners ? Math.min(1, Math.max(.5, 3 * this.scale)) : 1;
    pen.fillStyle = colour; pen.strokeStyle = '#fff'; pen.lineWidth = size; pen.beginPath();
    (corners || MapDisplay.DIAMOND).forEach(([dx, dy]) => pen.lineTo(px + dx * size, py + dy * size));
    pen.closePath(); pen.fill(); pen.stroke(); this.label(letter, px, py, '#fff');
  }
  marksNear(px, py) {
    return this.shown.marks.filter(mark => { const [x, y] = this.at(mark.x, mark.y); return Math.hypot(x - px, y - py) < 10; });
  }
  cone({ x, y, angle }) {
    const [px, py] = this.at(x, y), a = -angle * Math.PI / 180;
    const ends = [-1, 1].map(k => [px + 60 * Math.cos(a + k * Math.PI / 4), py + 60 * Math.sin(a + k * Math.PI / 4)]);
    this.stroke(this.colours.chosen, 2.5, ends.map(end => [[px, py], end]));
  }
  stroke(colour, width, lines) {
    const pen = this.pen; pen.strokeStyle = colour; pen.lineWidth = width; pen.beginPath();
    lines.forEach(([from, to]) => { pen.moveTo(...from); pen.lineTo(...to); }); pen.stroke();
  }
  circle(x, y, size, colour) {
    const pen = this.pen; pen.fillStyle = colour; pen.strokeStyle = '#000'; pen.lineWidth = 1;
    pen.beginPath(); pen.arc(x, y, size, 0, 7); pen.fill(); pen.stroke();
  }
  label(text, x, y, colour) {
    const pen = this.pen; pen.fillStyle = colour; pen.font = 'bold 11px sans-serif'; pen.textAlign = 'center';
    pen.textBaseline = 'middle'; pen.fillText(text, x, y);
  }

  /* Picking, by mouse and keys. */
  placeAt(x, y) {
    const isIn = place => Math.max(Math.abs(place.x - x), Math.abs(place.y - y)) <= MapDisplay.drawnSize(place) / 2;
    return this.shown.places.findLast(isIn) || null;
  }
  pointed(event) {
    const box = this.canvas.getBoundingClientRect();
    return [event.clientX - box.left - this.canvas.clientLeft, event.clientY - box.top - this.canvas.clientTop];
  }
  listen() {
    const canvas = this.canvas;
    canvas.onpointerdown = event => {
      if (event.isPrimary) this.fingers.clear();
      this.fingers.set(event.pointerId, this.pointed(event)); this.hold(this.fingers.size > 1);
    };
    canvas.onpointermove = event => this.move(event);
    canvas.onpointerup = event => {
      if (this.drag && !this.drag.isMoved) {
        const pointed = this.pointed(event), point = this.from(...pointed);
        this.choose(...point, event); this.click(this.placeAt(...point), pointed);
      }
      this.lift(event.pointerId);
    };
    canvas.onpointercancel = event => this.lift(event.pointerId);
    canvas.onwheel = event => { event.preventDefault(); this.zoom(event.deltaY < 0 ? 1.2 : 1 / 1.2, this.pointed(event)); };
  }
  // The map is held by the pointer, or by the finger that is left.
  hold(isMoved) { this.drag = { start: [...this.fingers.values()][0], centre: this.centre, isMoved }; }
  lift(pointer) {
    this.fingers.delete(pointer);
    if (this.fingers.size) this.hold(true); else this.drag = null;
  }
  // Two fingers: the points of the map below them stay below them.
  pinch(pointer, p) {
    const was = this.fingers.get(pointer), other = [...this.fingers].find(([number]) => number !== pointer)[1];
    const apart = point => Math.max(1, Math.hypot(point[0] - other[0], point[1] - other[1]));
    this.fingers.set(pointer, p);
    this.centre = this.centre.map((v, k) => v + (k ? 1 : -1) * (p[k] - was[k]) / 2 / this.scale);
    this.zoom(apart(p) / apart(was), [0, 1].map(k => (p[k] + other[k]) / 2));
  }
  move(event) {
    const p = this.pointed(event), drag = this.drag;
    if (drag && this.fingers.size === 2 && this.fingers.has(event.pointerId)) return this.pinch(event.pointerId, p);
    if (this.fingers.has(event.pointerId)) this.fingers.set(event.pointerId, p);
    if (!drag || !event.buttons) return this.point(this.placeAt(...this.from(...p)), this.marksNear(...p));
    drag.isMoved ||= Math.hypot(p[0] - drag.start[0], p[1] - drag.start[1]) > 5;
    if (!drag.isMoved) return;
    this.isWhole = false;
    this.centre = [drag.centre[0] - (p[0] - drag.start[0]) / this.scale, drag.centre[1] + (p[1] - drag.start[1]) / this.scale];
    this.draw();
  }
  click(place, pixel) { this.show({ cursor: place }); this.point(place, this.marksNear(...pixel)); this.pick(place); }
  walk(dx, dy) {
    const { places, cursor, eye } = this.shown, start = cursor || eye && this.placeAt(eye.x, eye.y) || places[0];
    let best = start, least = Infinity;
    for (const place of places) {
      const x = place.x - start.x, y = place.y - start.y, along = x * dx + y * dy, aside = Math.abs(x * dy) + Math.abs(y * dx);
      if (along > 0 && aside <= along && along + 2 * aside < least) { least = along + 2 * aside; best = place; }
    }
    if (best) { this.show({ cursor: best }); this.point(best, this.marksNear(...this.at(best.x, best.y))); }
  }
}
