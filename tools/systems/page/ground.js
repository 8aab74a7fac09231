/* Where a player can stand in a level, as tools/doomview_tools/ground.py has it: between its lines, with room, off the walls.
A test compares the counts of whole maps. A row is a y between two whole numbers. */
const { HEIGHT, RADIUS, STEP_UP, STARTS, BLOCKS, SKY, LINTEL, SQUARE, BOSS_TAGS, STEPS } = FACTS;
const SECTOR_SIZE = 26, CEILING_PLACE = 2; // of a record of SECTORS
const squareOf = v => Math.floor(v / SQUARE);

// A level with what its lines say: the sectors beside each, or null.
class Plan {
  constructor(level) {
    this.level = level; this.bands = new Lists(); this.linesOf = new Lists(); // of each sector its lines
    level.lines.forEach((line, number) => {
      if (Math.max(line.start, line.end) >= level.vertexes.length)
        throw level.error(`is damaged: a vertex of line ${number} is not there`);
    });
    this.beside = level.lines.map(line => line.sides.map(side => this.sectorOfSide(side)));
    this.beside.forEach((pair, number) => new Set(pair).forEach(sector => sector === null || this.linesOf.at(sector).push(number)));
    level.lines.forEach((_, number) => {
      const [low, high] = this.ends(number).map(end => end[1]).sort((a, b) => a - b);
      for (let band = squareOf(low); band <= squareOf(high); band++) this.bands.at(band).push(number);
    });
  }
  sectorOfSide(side) {
    const sector = this.level.sides[side ?? -1]?.sector ?? Infinity;
    return sector < this.level.sectors.length ? sector : null;
  }
  ends(number) {
    const line = this.level.lines[number];
    return [this.level.vertexes[line.start], this.level.vertexes[line.end]];
  }
  box() {
    if (!this.level.lines.length) throw this.level.error('has no lines');
    return this.boxAround([...this.level.lines.keys()]);
  }
  boxOf(sector) { return this.boxAround(this.linesOf.get(sector)); }
  boxAround(numbers) {
    const used = numbers.flatMap(number => this.ends(number));
    const least = (f, k) => used.reduce((found, end) => f(found, end[k]), used[0][k]);
    return [least(Math.min, 0), least(Math.min, 1), least(Math.max, 0), least(Math.max, 1)];
  }
  // Where lines cross a row, from left to right.
  crossings(y) {
    const found = [];
    for (const number of this.bands.get(squareOf(y)) || []) {
      const [[x1, y1], [x2, y2]] = this.ends(number), [front, back] = this.beside[number];
      if (y1 > y === y2 > y) continue;
      const [left, right] = y2 > y1 ? [back, front] : [front, back];
      found.push({ x: x1 + (x2 - x1) * (y - y1) / (y2 - y1), left, right, line: number });
    }
    return found.sort((a, b) => a.x - b.x);
  }
  isWall(number) { return this.beside[number].includes(null) || (this.level.lines[number].flags & BLOCKS) !== 0; }
  // The sectors on which a line with a special may act by its tag, or the end of a boss.
  tagged() {
    const { sectors, lines } = this.level, tags = new Set(lines.filter(line => line.special).map(line => line.tag));
    tags.delete(0); BOSS_TAGS.forEach(tag => tags.add(tag));
    return new Set([...sectors.keys()].filter(number => tags.has(sectors[number].tag)));
  }
  // The sectors that may become higher than they are: by their tag, or since they are behind a special.
  rising() { return new Set([...this.tagged(), ...this.level.lines.map((line, number) => line.special ? this.beside[number][1] : null)]); }
  // The ceilings that doors have once they are open: pairs of a sector and a height.
  doors() {
    const { sectors } = this.level, least = new Map(), rising = this.rising();
    for (const pair of this.beside)
      for (const [one, other] of pair.includes(null) ? [] : [pair, [...pair].reverse()])
        if (isShut(sectors[one]) && !isShut(sectors[other]))
          least.set(one, Math.min(least.get(one) ?? Infinity, sectors[other].ceiling));
    return [...least].map(([number, ceiling]) => [number, ceiling - LINTEL]).filter(([number, ceiling]) =>
      rising.has(number) && sectors[number].ceilingFlat !== SKY && ceiling > sectors[number].floor);
  }
}
const isShut = sector => sector.ceiling <= sector.floor;
const hasHeight = sector => sector.ceiling - sector.floor >= HEIGHT;
const isStep = (one, other) => other.floor - one.floor <= STEP_UP &&
  Math.min(one.ceiling, other.ceiling) - Math.max(one.floor, other.floor) >= HEIGHT;

// The bytes of a WAD of the level alone, in which some sectors have other ceilings.
function withCeilings(level, ceilings) {
  const sectors = level.bytes.SECTORS.slice(), view = new DataView(sectors.buffer);
  ceilings.forEach(([number, ceiling]) => view.setInt16(SECTOR_SIZE * number + CEILING_PLACE, ceiling, true));
  const lumps = [[level.name, new Uint8Array()], ...MAP_LUMPS.map(name => [name, name === 'SECTORS' ? sectors : level.bytes[name]])];
  return wadOf(lumps);
}
// The bytes of a PWAD with some lumps, pairs of a name and bytes.
function wadOf(lumps) {
  const size = lumps.reduce((sum, [, bytes]) => sum + bytes.length, HEADER), whole = new Uint8Array(size + ENTRY * lumps.length);
  const view = new DataView(whole.buffer), letters = (word, at) => [...word].forEach((letter, i) => { whole[at + i] = letter.charCodeAt(0); });
  letters('PWAD', 0); view.setUint32(4, lumps.length, true); view.setUint32(8, size, true);
  lumps.reduce(([at, entry], [name, bytes]) => {
    whole.set(bytes, at); view.setUint32(entry, at, true); view.setUint32(entry + 4, bytes.length, true); letters(name, entry + 8);
    return [at + bytes.length, entry + ENTRY];
  }, [HEADER, size]);
  return whole;
}

// The lines that stop a player, by the squares that they come near to.
class Walls {
  constructor(plan) {
    this.squares = new Lists();
    plan.level.lines.forEach((_, number) => {
      if (!plan.isWall(number)) return;
      const [[x1, y1], [x2, y2]] = plan.ends(number), wall = [x1, y1, x2 - x1, y2 - y1];
      for (let i = Walls.first(x1, x2); i <= Walls.last(x1, x2); i++)
        for (let j = Walls.first(y1, y2); j <= Walls.last(y1, y2); j++) this.squares.at(`${i} ${j}`).push(wall);
    });
  }
  static first(one, other) { return squareOf(Math.min(one, other) - RADIUS); }
  static last(one, other) { return squareOf(Math.max(one, other) + RADIUS); }
  // Whether a player at a place would stand in a wall.
  isNear(x, y) {
    return (this.squares.get(`${squareOf(x)} ${squareOf(y)}`) || []).some(([x1, y1, dx, dy]) =>
      distance(x - x1, y - y1, dx, dy) < RADIUS * RADIUS);
  }
}
// The square of the distance of a point from a line from the origin.
function distance(x, y, dx, dy) {
  const length = dx * dx + dy * dy, along = length ? Math.max(0, Math.min(1, (x * dx + y * dy) / length)) : 0;
  return (x - along * dx) ** 2 + (y - along * dy) ** 2;
}

// The places of a level at which a player can stand.
class Ground {
  constructor(plan) { this.plan = plan; this.walls = new Walls(plan); this.rows = new Map(); }
  row(y) {
    if (!this.rows.has(y)) this.rows.set(y, this.plan.crossings(y));
    return this.rows.get(y);
  }
  // Whether no sector is at a place, by the lines to the left and the right of it.
  isVoid(x, y) {
    const row = this.row(y), place = row.findIndex(crossing => crossing.x > x);
    return place <= 0 || row[place - 1].right === null || row[place].left === null;
  }
  // The sector at a place at which a player has room, or null.
  sectorAt(x, y) {
    const number = this.sectorOffWalls(x, y);
    return number !== null && hasHeight(this.plan.level.sectors[number]) ? number : null;
  }
  // The sector at a place that no wall is near to, or null.
  sectorOffWalls(x, y) { return this.isVoid(x, y) || this.walls.isNear(x, y) ? null : this.plan.level.sectorAt(x, y); }
  // A place of a sector that no wall is near to, with the step of the grid on which it was found; null if there is none.
  placeIn(number) {
    if (!this.plan.linesOf.has(number)) return null;
    const [lowX, lowY, highX, highY] = this.plan.boxOf(number);
    for (const step of STEPS)
      for (let y = lowY + step / 2; y < highY; y += step)
        for (let x = lowX + step / 2; x < highX; x += step)
          if (this.sectorOffWalls(x, y + .5) === number) return [x, y + .5, step];
    return null;
  }
}
