/* A grid over a level: places where a player can stand, and of each the greatest counts in several directions, as
tools/doomview_tools/cells.py has it, which says why: a test compares all numbers of whole maps. */
const { MOST_PLACES, MOST_CUT, CUTS, MANY, FINER, APART, SMALL } = FACTS;

// The row of a path from a place: an eye of a player who stands.
function rowFrom(x, y, floor, direction, directions) {
  return [Math.round(x * UNIT), Math.round(y * UNIT), (floor + EYE_HEIGHT) * UNIT, Math.floor(TURN * direction / directions)];
}
// A place in the middle of a square, with its greatest counts: of each the count and its direction.
class Cell {
  constructor(x, y, size, sector, floor, isReached) {
    Object.assign(this, { x, y, size, sector, floor, isReached, likely: 0, most: COUNTS.map(() => [0, 0]) });
  }
  row(direction, directions) { return rowFrom(this.x, this.y, this.floor, direction, directions); }
  count(i) { return this.most[i][0]; }
  numbers() { return [this.x, this.y, this.floor, this.size, this.sector, Number(this.isReached), this.likely]; }
}

/* The greatest counts of some places, which are numbers (shared.js), and how many views are over each limit. `counted(job, rows, take)`
runs `limits`, `list`, or over the solid walls alone `walls`, and `take` gets what it counts of each row with its place among them. */
class Look {
  constructor({ places, directions, every }, counted) {
    Object.assign(this, { places, directions, every, counted, each: Math.ceil(directions / every) }); // views of a place
    this.views = Array(places.length / PLACE * this.each).fill(null); // the counts of each
  }
  number(view, which) { return this.places[PLACE * Math.floor(view / this.each) + which]; }
  direction(view) { return this.every * (view % this.each); }
  row(view) { return rowFrom(this.number(view, 0), this.number(view, 1), this.number(view, 2), this.direction(view), this.directions); }
  count(job, views) { this.counted(job, views.map(view => this.row(view)), (counts, i) => { this.views[views[i]] = counts; }); }
  found() {
    const all = [...this.views.keys()], isListed = view => (this.number(view, LISTED) >> this.direction(view) & 1) === 1;
    this.count('list', all.filter(isListed));
    this.count('limits', all.filter(view => !isListed(view)));
    this.count('list', all.filter(view => !isListed(view) && isCapped(this.views[view])));
    const chosen = Array.from({ length: this.places.length / PLACE }, (_, place) => this.mostFragments(place)), some = chosen.flat();
    this.counted('walls', some.map(view => this.row(view)), (ranges, i) => { this.views[some[i]][SOLIDS] = ranges; });
    return this.greatest(chosen);
  }
  fragments(view) { return this.views[view][FRAGMENTS]; }
  viewsFrom(place) { return Array.from({ length: this.each }, (_, i) => this.each * place + i); }
  // Of the views from a place those with the most fragments: one, and one more that may have many solid ranges. None over a raised limit.
  mostFragments(place) {
    const order = this.viewsFrom(place).filter(view => this.fragments(view) !== NONE);
    order.sort((a, b) => this.fragments(b) - this.fragments(a) || b - a);
    return order.slice(0, 2).filter((view, i) => i === 0 || this.fragments(view) >= MANY);
  }
  // The directions, as bits, in which views from near a place are likely to have more than `limits` counts: there this one has, or those on
  // both sides have in the mean.
  likely(place) {
    const { directions } = this, views = this.viewsFrom(place), shares = Array(directions);
    if (!views.some(view => isCapped(this.views[view]))) return 0;
    views.forEach(view => { shares[this.direction(view)] = Math.max(...this.views[view].map((count, i) => count / CAPS[i])); });
    const beside = (direction, by) => shares[(direction + by + directions) % directions] ?? 0;
    const isLikely = direction => (shares[direction] ?? (beside(direction, -1) + beside(direction, 1)) / 2) >= 1;
    return Array.from(shares.keys()).reduce((bits, direction) => isLikely(direction) ? bits | 1 << direction : bits, 0);
  }
  // The counts of all views, but of solid ranges those of the views that are chosen at each place.
  greatest(chosen) {
    const most = new Int32Array(FOUND * chosen.length), over = COUNTS.map(() => 0);
    const take = (place, view, i) => {
      const count = this.views[view][i], at = FOUND * place + 2 * i;
      if (count > most[at]) { most[at] = count; most[at + 1] = this.direction(view); }
      over[i] += count > LIMITS[COUNTS[i]];
    };
    this.views.forEach((_, view) => COUNTS.forEach((__, i) => i === SOLIDS || take(Math.floor(view / this.each), view, i)));
    chosen.forEach((views, place) => {
      views.forEach(view => take(place, view, SOLIDS));
      most[FOUND * place + LIKELY] = this.likely(place);
    });
    return { most, over };
  }
}

/* The cells of a level. `look` is a function of the numbers of places that gives what is found there, in time; `options` has step,
directions, whether it is looked at everywhere, and `start`, a place of the grid where it is to be that of an earlier run. */
class Grid {
  constructor(ground, look, reach, options) {
    Object.assign(this, { ground, look, reached: reach.sectors, wanted: reach.wanted, everywhere: options.everywhere });
    this.directions = 2 * options.directions; this.start = options.start; this.firstStep = options.start?.step ?? options.step;
    this.views = 0; this.over = COUNTS.map(() => 0); this.cells = [];
  }
  async counted() {
    const places = this.coarse(this.firstStep), more = this.inSmallSectors(places);
    this.small = new Map(more.map(cell => [`${cell.x} ${cell.y}`, cell]));
    await this.take([...places, ...more], 2);
    for (let cut = 0; cut < CUTS; cut++) await this.take(this.high(this.step >> cut).flatMap(cell => this.quarters(cell)), 1);
    return this;
  }
  // The places of the coarse grid; its step is doubled until they are no more than MOST_PLACES.
  coarse(first) {
    const box = this.ground.plan.box(), [lowX, lowY, highX, highY] = box;
    for (this.step = first; (highX - lowX) * (highY - lowY) > 6 * MOST_PLACES * this.step * this.step;) this.step *= 2;
    for (;; this.step *= 2) {
      const places = this.placesOf(box, this.step);
      if (places.length <= MOST_PLACES) return places;
    }
  }
  placesOf([lowX, lowY, highX, highY], step) {
    const places = [], half = Math.floor(step / 2), first = (low, at) => low + (at === undefined ? half : ((at - low) % step + step) % step);
    for (let y = first(lowY, this.start?.y); y < highY; y += step)
      for (let x = first(lowX, this.start?.x); x < highX; x += step) places.push(...this.place(x, y + .5, step));
    return places;
  }
  // A cell in each sector that is looked at and has none on the grid, if a player can stand there.
  inSmallSectors(places) {
    const { sectors } = this.ground.plan.level, has = new Set(places.map(cell => cell.sector));
    const missing = [...sectors.keys()].filter(number => (this.everywhere || this.reached.has(number)) && !has.has(number) && hasHeight(sectors[number]));
    return missing.map(number => this.ground.placeIn(number)).filter(Boolean).flatMap(([x, y, size]) => this.place(x, y, Math.min(size, SMALL)));
  }
  // The cell of a place at which a player can stand, if it is one that is looked at.
  place(x, y, size) {
    const sector = this.ground.sectorAt(x, y);
    if (sector === null || !(this.everywhere || this.reached.has(sector))) return [];
    return [new Cell(x, y, size, sector, this.ground.plan.level.sectors[sector].floor, this.reached.has(sector))];
  }
  // The cells of a size that have high counts, the highest first.
  high(size) {
    const most = i => this.cells.reduce((found, cell) => Math.max(found, cell.count(i)), 0);
    const bars = COUNTS.map((name, i) => i === SOLIDS ? FINER * LIMITS[name] : Math.max(1, FINER * Math.min(LIMITS[name], most(i))));
    const share = cell => Math.max(...COUNTS.map((name, i) => cell.count(i) / LIMITS[name]));
    return this.cells.filter(cell => cell.size === size && !this.small.has(`${cell.x} ${cell.y}`) && bars.some((bar, i) => cell.count(i) >= bar))
      .sort((a, b) => share(b) - share(a)).slice(0, MOST_CUT);
  }
  // The places in the quarters of a cell. One of a small sector in their middle takes the whole quarter.
  quarters(cell) {
    const half = Math.floor(cell.size / 2), away = Math.floor(cell.size / 4);
    return [-away, away].flatMap(j => [-away, away].flatMap(i => {
      const x = cell.x + i, y = Math.floor(cell.y) + j + .5, small = this.small.get(`${x} ${y}`);
      if (small) { small.size = half; return []; }
      return this.place(x, y, half).map(place => Object.assign(place, { likely: cell.likely }));
    }));
  }
  // Takes cells with their counts, in every so many of the directions.
  async take(cells, every) {
    const places = Float64Array.from(cells.flatMap(cell => cell.numbers()));
    const { most, over } = await this.look({ places, directions: this.directions, every });
    cells.forEach((cell, i) => { Object.assign(cell, { most: pairsOf(most, i), likely: most[FOUND * i + LIKELY] }); this.cells.push(cell); });
    this.views += cells.length * Math.ceil(this.directions / every);
    over.forEach((count, i) => { this.over[i] += count; });
  }
  // The views of the greatest counts, no two near each other: pairs of the count and its row.
  worst(i, most) {
    const found = [];
    for (const cell of [...this.cells].sort((a, b) => b.count(i) - a.count(i))) {
      if (found.length === most || !cell.count(i)) break;
      const row = cell.row(cell.most[i][1], this.directions);
      if (found.every(([, of]) => Math.hypot(row[0] - of[0], row[1] - of[1]) > APART * this.step * UNIT))
        found.push([cell.count(i), row]);
    }
    return found;
  }
}

// The numbers of a map as `limits-map --json` prints them.
function numbersOf(plan, states, directions) {
  const ofCount = (grid, name, i) => {
    const [worst] = grid.worst(i, 1);
    return { most: worst ? worst[0] : 0, limit: LIMITS[name], over: grid.over[i], row: worst ? worst[1] : null };
  };
  const found = states.map(({ label, grid }) => ({ doors: label, places: grid.cells.length, views: grid.views, step: grid.step,
    counts: Object.fromEntries(COUNTS.map((name, i) => [name, ofCount(grid, name, i)])), squares: grid.cells.map(squareRow) }));
  return { map: plan.level.name, wad: plan.level.wad.name, sectors: plan.level.sectors.length, reached: states[0].grid.reached.size,
    no_way: states[0].grid.wanted.map(([sector, things]) => ({ sector,
      things: things.map(thing => ({ thing, what: WANTED[plan.level.things[thing].type] })) })),
    over: states.some(({ grid }) => grid.over.some(Boolean)), directions, states: found };
}
// A cell as JSON has it: its x and y, the side of its square, and its counts.
const squareRow = cell => [cell.x, Math.floor(cell.y), cell.size, ...COUNTS.map((_, i) => cell.count(i))];
