/* WADs and the levels in them, by the rules of docs/FORMATS.md, as tools/doomview_tools/wads.py and levels.py have them: a
test compares what both say. Nothing here is proved. */
const { MAP_LUMPS, MAP_TABLES, BEHIND_MAP, BUILT_LUMPS, EXTENDED, LEAF, NO_SIDE, PLAYER_1 } = FACTS;
const HEADER = 12, ENTRY = 16;

const text = bytes => String.fromCharCode(...bytes);
const capitals = name => name.replace(/[a-z]/g, letter => letter.toUpperCase());
const cleanName = bytes => capitals(text(bytes).replace(/\0.*$/s, ''));

// A WAD: its lumps by their places, which are read when they are asked for.
class Wad {
  constructor(name, source) {
    this.name = name; this.source = source;
    const head = this.view(0, HEADER), kind = head.byteLength >= 4 ? text(source.read(0, 4)) : '';
    if (kind !== 'IWAD' && kind !== 'PWAD') throw new Wrong(`${name} is no WAD`);
    if (head.byteLength < HEADER) throw new Wrong(`${name} is cut short`);
    this.isGame = kind === 'IWAD';
    this.lumps = this.directory(head.getUint32(4, true), head.getUint32(8, true));
  }
  view(at, count) {
    const bytes = this.source.read(at, count);
    return new DataView(bytes.buffer, bytes.byteOffset, bytes.length);
  }
  directory(count, place) {
    const found = [], entries = this.view(place, ENTRY * count);
    if (entries.byteLength < ENTRY * count) throw new Wrong(`${this.name} is cut short`);
    for (let at = 0; at < ENTRY * count; at += ENTRY) {
      const from = entries.getUint32(at, true), size = entries.getUint32(at + 4, true);
      const name = cleanName(new Uint8Array(entries.buffer, entries.byteOffset + at + 8, 8));
      if (size && from + size > this.source.size) throw new Wrong(`${this.name} is cut short: it ends before its lump ${name} does`);
      found.push({ name, wad: this, from, size });
    }
    return found;
  }
}
const lumpBytes = lump => lump.size ? lump.wad.source.read(lump.from, lump.size) : new Uint8Array();

// The place of each map's label among the lumps of some WADs, by name.
function mapLabels(lumps) {
  const last = new Map(lumps.map((lump, i) => [lump.name, i]));
  const isMap = place => MAP_LUMPS.every((name, i) => lumps[place + 1 + i]?.name === name) &&
    lumps[place + BEHIND_MAP - 1]?.name !== 'BEHAVIOR';
  return new Map([...last].filter(([, place]) => isMap(place)));
}
const inOrder = names => [...names].sort((a, b) => a < b ? -1 : a > b ? 1 : 0);

// What a lump has: of each record its numbers, and names as text.
const LAYOUTS = { THINGS: 'hhhHH', LINEDEFS: 'HHHHHHH', SIDEDEFS: 'hhnnnH', VERTEXES: 'hh', SEGS: 'HHHHHH', SSECTORS: 'HH',
  NODES: 'hhhhhhhhhhhhHH', SECTORS: 'hhnnhhh' };
const PART_SIZES = { h: 2, H: 2, n: 8 };
const recordSize = layout => [...layout].reduce((sum, part) => sum + PART_SIZES[part], 0);
function recordsOf(bytes, layout) {
  const size = recordSize(layout), view = new DataView(bytes.buffer, bytes.byteOffset, bytes.length);
  const reads = { h: at => view.getInt16(at, true), H: at => view.getUint16(at, true), n: at => cleanName(bytes.subarray(at, at + 8)) };
  return Array.from({ length: Math.floor(bytes.length / size) }, (_, i) => {
    let at = i * size;
    return [...layout].map(part => { const found = reads[part](at); at += PART_SIZES[part]; return found; });
  });
}

// A level: its name, the WAD that has it, the bytes of its lumps, and their records by the names of docs/FORMATS.md.
class Level {
  constructor(name, wad, bytes) {
    this.name = name; this.wad = wad; this.bytes = bytes;
    const records = lump => bytes[lump] ? recordsOf(bytes[lump], LAYOUTS[lump]) : [], side = n => n === NO_SIDE ? null : n;
    this.things = records('THINGS').map(([x, y, angle, type, options]) => ({ x, y, angle, type, options }));
    this.lines = records('LINEDEFS').map(([start, end, flags, special, tag, front, back]) =>
      ({ start, end, flags, special, tag, sides: [side(front), side(back)] }));
    this.sides = records('SIDEDEFS').map(([, yOffset, upper, lower, middle, sector]) => ({ yOffset, upper, lower, middle, sector }));
    this.vertexes = records('VERTEXES');
    this.segs = records('SEGS').map(([, , , line, side]) => ({ line, side }));
    this.leaves = records('SSECTORS').map(([count, first]) => ({ count, first }));
    this.nodes = records('NODES').map(part => ({ line: part.slice(0, 4), front: part[12], back: part[13] }));
    this.sectors = records('SECTORS').map(([floor, ceiling, floorFlat, ceilingFlat, light, special, tag]) =>
      ({ floor, ceiling, floorFlat, ceilingFlat, light, special, tag }));
  }
  error(what) { return new Wrong(`${this.name} of ${this.wad.name} ${what}`); }
  // The lump that has extended nodes, and their letters, or null.
  extendedNodes() {
    for (const lump of [...BUILT_LUMPS].reverse()) {
      const letters = text((this.bytes[lump] || []).slice(0, 4));
      if (EXTENDED.includes(letters)) return [lump, letters];
    }
    return null;
  }
  damage(what = "is damaged; doomview's job audit says where") {
    const extended = this.extendedNodes();
    if (extended) return this.error(`has extended nodes (${extended[1]} in ${extended[0]}); build plain ones`);
    return this.error(this.leaves.length ? what : 'has no nodes (SSECTORS is empty); build them');
  }
  checkWhole() {
    for (const name of MAP_LUMPS)
      if (this.bytes[name].length % recordSize(LAYOUTS[name]))
        throw this.damage(`is damaged: ${name} ends within a record; it was cut short, or is of another format`);
    const found = new Set(), left = [this.root()];
    while (left.length) {
      const child = left.pop(), isLeaf = (child & LEAF) !== 0;
      if (found.has(child) || (child & ~LEAF) >= (isLeaf ? this.leaves : this.nodes).length) continue;
      found.add(child);
      if (!isLeaf) left.push(this.nodes[child].front, this.nodes[child].back);
    }
    const reached = [...found].filter(child => child & LEAF).length;
    if (reached < this.leaves.length || !reached)
      throw this.damage(`is damaged: its nodes lead to ${reached} of its ${this.leaves.length} leaves (SSECTORS); build them anew`);
    return this;
  }
  root() { return this.nodes.length ? this.nodes.length - 1 : LEAF; }
  // The number of the sector at a point in map units, by the nodes (R_PointInSubsector).
  sectorAt(x, y) {
    let child = this.root();
    for (let steps = this.nodes.length; steps && !(child & LEAF); steps--) {
      const node = this.nodes[child];
      if (!node) throw this.damage();
      child = isBehind(node.line, x, y) ? node.back : node.front;
    }
    if (!(child & LEAF)) throw this.damage('has nodes that form a circle; build them anew');
    return this.sectorOfLeaf(child & ~LEAF);
  }
  // The sector of a leaf: that in front of its first seg.
  sectorOfLeaf(number) {
    const seg = this.segs[this.leaves[number]?.first], side = this.sides[this.lines[seg?.line]?.sides[seg?.side]];
    if (!side) throw this.damage();
    return side.sector;
  }
  floorAt(x, y) {
    const sector = this.sectors[this.sectorAt(x, y)];
    if (!sector) throw this.damage();
    return sector.floor;
  }
  // The row of a path from where the original puts player 1: the last of its type.
  startRow() {
    const start = this.things.findLast(thing => thing.type === PLAYER_1);
    if (!start) throw this.error('has no player start (thing of type 1)');
    const eighths = Math.trunc(start.angle / 45) * (TURN / 8);
    return [start.x * UNIT, start.y * UNIT, (this.floorAt(start.x, start.y) + EYE_HEIGHT) * UNIT, ((eighths % TURN) + TURN) % TURN];
  }
}
// Whether a point is on the back of a node's line (R_PointOnSide).
function isBehind([nodeX, nodeY, lineX, lineY], x, y) {
  if (lineX === 0) return x <= nodeX ? lineY > 0 : lineY < 0;
  if (lineY === 0) return y <= nodeY ? lineX < 0 : lineX > 0;
  if (x === nodeX && y === nodeY) return !(lineX < 0 && lineY > 0);
  return lineY * (x - nodeX) <= lineX * (y - nodeY);
}

// The names of labels that look like those of maps and are of none: the last of a name, with a map's name, or with lumps of a map behind it.
function brokenLabels(lumps) {
  const labels = mapLabels(lumps), own = new Set([...MAP_LUMPS, ...MAP_TABLES]), heads = new Set([...MAP_LUMPS, 'TEXTMAP']);
  const last = new Map(lumps.map((lump, i) => [lump.name, i])), isNamed = name => /^(MAP\d\d|E\dM\d)$/.test(name);
  const isLabel = (name, place) => isNamed(name) || heads.has(lumps[place + 1]?.name) && !name.startsWith('GL_') && !lumps[place].size;
  return inOrder([...last].filter(([name, place]) => !labels.has(name) && !own.has(name) && isLabel(name, place)).map(([name]) => name));
}
// Why there is no map of a name in some lumps.
function noMap(name, lumps, wads) {
  const label = lumps.findLastIndex(lump => lump.name === name);
  if (label >= 0) return `${name} of ${lumps[label].wad.name} ${whyNoMap(lumps.slice(label + 1, label + BEHIND_MAP).map(lump => lump.name))}`;
  const names = [...new Set((lumps.length ? lumps.map(lump => lump.wad) : wads).map(wad => wad.name))];
  return `${names.join(' and ')} ${names.length === 1 ? 'has' : 'have'} no map ${name}; the maps there: ` +
    (inOrder(mapLabels(lumps).keys()).join(' ') || 'none');
}
function whyNoMap(behind) {
  if (behind[0] === 'TEXTMAP') return 'is a UDMF map; save it in Doom format';
  if (behind.includes('BEHAVIOR')) return 'is in Hexen format (it has a BEHAVIOR); save it in Doom format';
  const missing = MAP_LUMPS.filter(lump => !behind.slice(0, 8).includes(lump));
  if (behind[0] === MAP_LUMPS[0] && behind[1] === MAP_LUMPS[1] && missing.length && missing.every(lump => BUILT_LUMPS.includes(lump))) {
    const alone = behind.some(lump => lump.startsWith('GL_')) ? ' (it has GL nodes alone, which are not read)' : '';
    return `has no nodes (${BUILT_LUMPS.join(', ')})${alone}; build them`;
  }
  return `is no map: behind it are ${behind.slice(0, MAP_LUMPS.length).join(', ') || 'no lumps'}`;
}
// The level of a map over WADs in their order.
function readLevel(wads, name) {
  const lumps = wads.flatMap(wad => wad.lumps), label = mapLabels(lumps).get(name);
  if (label === undefined) throw new Wrong(noMap(name, lumps, wads));
  const behind = label + 1 + MAP_LUMPS.length, tables = lumps.slice(behind, behind + MAP_TABLES.length).filter(({ name: table }, i) => table === MAP_TABLES[i]);
  const here = [...lumps.slice(label + 1, behind), ...tables];
  return new Level(name, lumps[label].wad, Object.fromEntries(here.map(lump => [lump.name, lumpBytes(lump)])));
}
