/* Why a view has as many planes, fragments, sprites and solid ranges as it has, in the tables of why-limit (tools/doomview_tools/
reasons.py): a test compares their rows. Of three tables each pixel of the picture has the row that it is of, and a hue. */
const { SHOWN_PLACES } = FACTS, NO_ROW = -1;
const KINDS_OF_TABLES = { planes: [PLANE, SKY_PLANE], fragments: [WALL, MIDDLE], sprites: [SPRITE] };
const tallied = items => { const found = new Map(); items.forEach(item => found.set(item, (found.get(item) || 0) + 1)); return found; };
const mostFirst = counts => [...counts].sort((one, other) => other[1] - one[1]);
const sumOf = counts => [...counts.values()].reduce((a, b) => a + b, 0);

class Reasons {
  // `walls` is the list of the solid walls of the view alone.
  constructor(level, names, trace, list, walls) {
    Object.assign(this, { level, at: new Places(level, names, trace, list), walls: itemsOf(walls).fragment });
    this.rowsOf = { planes: new Map(), fragments: new Map(), sprites: new Map() }; // of each item its row
  }
  get items() { return this.at.items; }
  wordOf(key) {
    const sides = this.at.sides.get(key), [height, flat] = key.split(' ');
    return sides === 'sky' ? 'sky' : `${sides} ${flat} at ${height}`;
  }
  // The planes by height, flat and light, the most first; the sectors that made one come first.
  planes() {
    const groups = new Map();
    this.items.plane.forEach((plane, number) => {
      const key = this.at.keyOf(plane), group = groups.get(key) || { key, planes: 0, splits: 0, columns: 0, makers: [], numbers: [] };
      groups.set(key, group); group.planes++; group.splits += plane.leaf === undefined; group.columns += Number(plane.columns);
      group.makers.push(this.at.maker(plane)[0]); group.numbers.push(number);
    });
    const order = [...groups.values()].sort((one, other) => other.planes - one.planes || other.columns - one.columns);
    return order.map(({ key, planes, splits, columns, makers, numbers }, row) => {
      const sides = this.at.sides.get(key), [height, flat, light] = key.split(' '), isSky = sides === 'sky';
      numbers.forEach(number => this.rowsOf.planes.set(number, row));
      const sectors = [...new Set([...makers.sort(byNumber), ...this.at.sectorsWith(key, sides)])];
      return [planes, splits, columns, isSky ? '-' : flat, sides, isSky ? '-' : height, isSky ? '-' : light, sectorsTold(sectors)].map(String);
    });
  }
  // The splits by line and side, with what differs between the sectors beside it.
  splits() {
    const found = new Map();
    this.items.plane.filter(plane => plane.fragment !== undefined).forEach(plane => {
      const { line, side } = this.at.segOf(this.items.fragment[plane.fragment]), name = `${line} ${side}`;
      if (!found.has(name)) found.set(name, { line, side, words: [] });
      found.get(name).words.push(this.wordOf(this.at.keyOf(plane)));
    });
    const order = [...found.values()].sort((a, b) => b.words.length - a.words.length || a.line - b.line || a.side - b.side);
    return order.map(({ line, side, words }) => {
      const [front, back] = this.beside(line, side), of = mostFirst(tallied(words)).map(([word, count]) => word + (count > 1 ? ` (${count})` : ''));
      return [words.length, line, FRONT_AND_BACK[side], back === null ? front : `${front} | ${back}`, this.difference(front, back), of.join(', ')].map(String);
    });
  }
  // The sectors in front of a side of a line and behind it.
  beside(line, side) {
    const numbers = this.level.lines[line].sides.map(of => of === null ? null : this.level.sides[of].sector);
    return [numbers[side], numbers[1 - side]];
  }
  difference(front, back) {
    if (front === null || back === null) return 'a wall';
    const [one, other] = [front, back].map(sector => this.level.sectors[sector]);
    return [['floor', 'floor'], ['ceiling', 'ceiling'], ['floor', 'floorFlat'], ['ceiling', 'ceilingFlat'], ['light', 'light']]
      .filter(([, field]) => one[field] !== other[field]).map(([word, field]) => `${word} ${one[field]} / ${other[field]}`).join(', ') || 'nothing';
  }
  // The fragments by sector and line.
  fragments() {
    const found = new Lists();
    this.items.fragment.forEach((fragment, number) => found.at(this.at.sectorOfFragment(fragment)).push(number));
    const order = [...found].sort(([a, some], [b, others]) => others.length - some.length || a - b);
    return order.map(([sector, numbers], row) => {
      numbers.forEach(number => this.rowsOf.fragments.set(number, row));
      const lines = mostFirst(tallied(numbers.map(number => this.at.segOf(this.items.fragment[number]).line)));
      return [numbers.length, sector, shortened(lines.map(([line, count]) => count > 1 ? `${line} (${count})` : line), SHOWN_PLACES)].map(String);
    });
  }
  // The sprites by type and place.
  sprites() {
    const found = new Lists(), { things } = this.level;
    this.items.sprite.forEach((sprite, number) => found.at(things[sprite.thing].type).push(number));
    const order = [...found].sort(([a, some], [b, others]) => others.length - some.length || a - b);
    return order.map(([type, numbers], row) => {
      numbers.forEach(number => this.rowsOf.sprites.set(number, row));
      const places = numbers.map(number => this.items.sprite[number].thing).map(thing => `thing ${thing} at ${things[thing].x},${things[thing].y}`);
      return [numbers.length, type, WANTED[type] ?? '-', shortened(places, SHOWN_PLACES)].map(String);
    });
  }
  // The walls that made a solid range more, up to the most.
  solids() {
    const found = rangesOf(this.walls), most = found.reduce((a, { count }) => Math.max(a, count), EDGES), last = found.findIndex(({ count }) => count === most);
    return found.slice(0, last + 1).filter(({ count }, i) => count > (i ? found[i - 1].count : EDGES))
      .map(({ seg, first, last: to }) => [`${this.level.segs[seg].line}`, `${first} to ${to}`]);
  }
  // How many planes each sector of the view made; 0 for those that are beside its fragments alone.
  planesOfSectors() {
    const found = new Map();
    this.items.fragment.forEach(fragment => { const { line, side } = this.at.segOf(fragment); this.beside(line, side).forEach(sector => sector === null || found.set(sector, 0)); });
    this.items.plane.forEach(plane => { const [sector] = this.at.maker(plane); found.set(sector, (found.get(sector) || 0) + 1); });
    return found;
  }
  // Of each pixel its row in a table, or NO_ROW, and its hue: of walls that of the line, of sprites that of the thing.
  pixels(table) {
    const rows = new Int16Array(WIDTH * FRAME_HEIGHT).fill(NO_ROW), hues = new Int16Array(rows.length), kinds = KINDS_OF_TABLES[table];
    const hueOf = { planes: (number, row) => row, fragments: number => this.at.segOf(this.items.fragment[number]).line, sprites: number => Number(this.items.sprite[number].thing) }[table];
    for (let i = 0; i < rows.length; i++) {
      const { kind, number } = this.at.recordAt(i % WIDTH, Math.floor(i / WIDTH));
      if (!kinds.includes(kind)) continue;
      rows[i] = this.rowsOf[table].get(number) ?? NO_ROW; hues[i] = hueOf(number, rows[i]);
    }
    return { rows, hues };
  }
}
// The solid walls of a view in order: of each its seg, its columns, and how many solid ranges there are after it.
function rangesOf(walls) {
  const ranges = new Ranges(), found = [];
  walls.forEach(({ seg, first, last }, i) => {
    ranges.take(Number(seg), Number(first), Number(last));
    const before = found.at(-1), isSame = before?.seg === Number(seg) && walls[i - 1];
    if (isSame) before.last = Number(last); else found.push({ seg: Number(seg), first: Number(first), last: Number(last), count: 0 });
    if (walls[i + 1]?.seg !== seg) { ranges.close(); ranges.seg = NONE; found.at(-1).count = ranges.count; }
  });
  return found;
}
