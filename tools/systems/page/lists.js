/* What painted a pixel, and where in the map that is, in the sentences of `doomview pixel --list` (tools/doomview_tools/
traces.py, list_files.py and map_places.py): a test compares them. A trace has a record of eight bytes a pixel, and the list of its view a line
for each fragment, plane and sprite (docs/FORMATS.md, "Traces" and "Lines"). */
const { KINDS, TEXTURED, SHOWN_TEXTURES, SHOWN_SECTORS } = FACTS;
const RECORD = 8, LUMP = 1, COMPOSITE = 2, TWO_SIDED = 4;
const WALL = 1, PLANE = 2, SKY_PLANE = 3, MIDDLE = 4, SPRITE = 5; // kinds of painters
const FRONT_AND_BACK = ['front', 'back'];

// The textures of both lists, in the order of their numbers: their names and the numbers of their patches.
function textureLists(lumps) {
  return ['TEXTURE1', 'TEXTURE2'].map(name => lumps.findLast(lump => lump.name === name)).filter(Boolean).flatMap(lump => {
    const bytes = lumpBytes(lump), view = new DataView(bytes.buffer, bytes.byteOffset, bytes.length);
    try {
      return Array.from({ length: view.getUint32(0, true) }, (_, i) => {
        const place = view.getUint32(4 + 4 * i, true), patch = k => view.getUint16(place + 26 + 10 * k, true);
        return { name: cleanName(bytes.subarray(place, place + 8)),
          patches: Array.from({ length: view.getUint16(place + 20, true) }, (__, k) => patch(k)) };
      });
    } catch { return []; }
  });
}
function patchNames(lumps) {
  const lump = lumps.findLast(one => one.name === 'PNAMES'), bytes = lump ? lumpBytes(lump) : new Uint8Array();
  return Array.from({ length: Math.max(0, Math.floor((bytes.length - 4) / 8)) }, (_, i) => cleanName(bytes.subarray(4 + 8 * i, 12 + 8 * i)));
}

// The names of what paints.
class Names {
  constructor(lumps) {
    this.lumps = lumps.map(lump => lump.name); this.textures = []; this.withPatch = new Lists();
    const patches = patchNames(lumps);
    for (const { name, patches: numbers } of textureLists(lumps)) {
      this.textures.push(name);
      for (const patch of new Set(numbers.filter(number => number < patches.length).map(number => patches[number])))
        this.withPatch.at(patch).push(name);
    }
  }
  source({ sourceKind, source }) {
    if (!sourceKind) return '-';
    const [names, word] = sourceKind === COMPOSITE ? [this.textures, 'texture'] : [this.lumps, 'lump'];
    return names[source] ?? `${word} ${source}`;
  }
  texturesOf(painter) {
    const isPatch = painter.sourceKind === LUMP && TEXTURED.includes(painter.kind);
    return isPatch ? this.withPatch.get(this.source(painter)) || [] : [];
  }
  // What a painter read, for a user to know it by: of a patch that one texture alone has, the texture.
  known(painter) {
    const name = this.source(painter), textures = this.texturesOf(painter);
    if (painter.sourceKind === COMPOSITE) return { word: 'texture', name, more: '' };
    if (textures.length === 1) return { word: 'texture', name: textures[0], more: name === textures[0] ? '' : `patch ${name}` };
    if (!textures.length) return { word: 'lump', name, more: '' };
    return { word: 'patch', name, more: `of ${textures.slice(0, SHOWN_TEXTURES).join(', ')}${textures.length > SHOWN_TEXTURES ? ' ..' : ''}` };
  }
}

// The fragments, planes and sprites of the lines of one view.
function itemsOf(lines) {
  const found = { fragment: [], plane: [], sprite: [] };
  for (const line of lines.trim().split('\n')) {
    const words = line.split(' ').slice(2);
    if (found[words[0]]) found[words[0]].push(Object.fromEntries(words.map((word, i) => [word, words[i + 1]]).filter((_, i) => i % 2 === 0)));
  }
  return found;
}
function shortened(words, most) {
  return words.slice(0, most).join(', ') + (words.length > most ? ` and ${words.length - most} more` : '');
}
const sectorsTold = sectors => (sectors.length === 1 ? 'sector ' : 'sectors ') + shortened(sectors, SHOWN_SECTORS);

// Says of a pixel what painted it and where in the map that is, by the trace and the list of a view.
class Places {
  constructor(level, names, trace, lines) {
    this.level = level; this.names = names; this.trace = trace; this.items = itemsOf(lines);
    this.leafOfSeg = new Map(level.leaves.flatMap(({ count, first }, leaf) => Array.from({ length: count }, (_, i) => [first + i, leaf])));
    this.sides = this.sidesOfPlanes();
  }
  recordAt(x, y) {
    const at = RECORD * (WIDTH * y + x), bytes = this.trace;
    return { kind: bytes[at], sourceKind: bytes[at + 1], number: bytes[at + 2] + 256 * bytes[at + 3],
      source: bytes[at + 4] + 256 * bytes[at + 5], colour: bytes[at + 6] };
  }
  // The planes of a sector: of its floor and of its ceiling, as texts of height, flat and light.
  keysOf(sector) {
    const { floor, ceiling, floorFlat, ceilingFlat, light } = this.level.sectors[sector];
    const key = (height, flat) => flat === SKY ? `0 ${SKY} 0` : `${height} ${flat} ${light}`;
    return { floor: key(floor, floorFlat), ceiling: key(ceiling, ceilingFlat) };
  }
  keyOf(plane) {
    return plane.flat === 'sky' ? `0 ${SKY} 0` : `${Number(plane.height) / UNIT} ${this.names.lumps[plane.flat]} ${plane.light}`;
  }
  segOf(fragment) { return this.level.segs[fragment.seg]; }
  lineOf(fragment) { const seg = this.segOf(fragment); return `line ${seg.line}, ${FRONT_AND_BACK[seg.side]} side`; }
  sectorOfFragment(fragment) { return this.level.sectorOfLeaf(this.leafOfSeg.get(Number(fragment.seg))); }
  maker(plane) {
    if (plane.leaf !== undefined) {
      const sector = this.level.sectorOfLeaf(Number(plane.leaf));
      return [sector, `made by leaf ${plane.leaf} of sector ${sector}`];
    }
    const fragment = this.items.fragment[plane.fragment];
    return [this.sectorOfFragment(fragment), `split by fragment ${plane.fragment} of line ${this.segOf(fragment).line}`];
  }
  // Of each plane's key whether it is a floor's or a ceiling's. The sector that made a plane tells, unless its floor and
  // ceiling are the same; then another plane of the view may, since floors are below the eye and ceilings above it.
  sidesOfPlanes() {
    const found = new Map();
    for (const plane of this.items.plane) {
      const key = this.keyOf(plane), own = this.keysOf(this.maker(plane)[0]);
      const sides = Object.keys(own).filter(side => own[side] === key), both = (found.get(key) || sides).filter(side => sides.includes(side));
      found.set(key, both.length ? both : sides);
    }
    return this.toldApart(found);
  }
  toldApart(found) {
    const plain = [...found].filter(([key]) => key.split(' ')[1] !== SKY), height = key => Number(key.split(' ')[0]);
    const only = side => plain.filter(([, sides]) => sides.join() === side).map(([key]) => height(key));
    const floor = Math.max(...only('floor')), ceiling = Math.min(...only('ceiling'));
    const word = (key, sides) => key.split(' ')[1] === SKY ? 'sky' : sides.length === 1 ? sides[0] : height(key) <= floor ? 'floor' :
      height(key) >= ceiling ? 'ceiling' : 'floor or ceiling';
    return new Map([...found].map(([key, sides]) => [key, word(key, sides)]));
  }
  sectorsWith(key, sides) {
    const isOf = own => ['floor', 'ceiling'].some(side => (sides.includes(side) || sides === 'sky') && own[side] === key);
    return [...this.level.sectors.keys()].filter(sector => isOf(this.keysOf(sector)));
  }
  // The parts of a wall that a fragment may show: pairs of the part and the name of its texture.
  parts(fragment, kind) {
    const seg = this.segOf(fragment), line = this.level.lines[seg.line], side = this.level.sides[line.sides[seg.side]];
    const behind = line.sides[1 - seg.side];
    if (kind === MIDDLE || !(line.flags & TWO_SIDED) || behind === null) return [['middle', side.middle]];
    const front = this.level.sectors[this.sectorOfFragment(fragment)], back = this.level.sectors[this.level.sides[behind].sector];
    const hasUpper = back.ceiling < front.ceiling && !(front.ceilingFlat === SKY && back.ceilingFlat === SKY);
    return [...hasUpper ? [['upper', side.upper]] : [], ...back.floor > front.floor ? [['lower', side.lower]] : []];
  }
  // The sector that lights a wall: that of its leaf, or of a middle texture that of its side.
  lit(fragment, kind) {
    const seg = this.segOf(fragment), side = this.level.lines[seg.line].sides[seg.side];
    const sector = kind === MIDDLE ? this.level.sides[side].sector : this.sectorOfFragment(fragment);
    return `, sector ${sector}, light ${this.level.sectors[sector].light}`;
  }
  wall(painter) {
    const fragment = this.items.fragment[painter.number], source = this.names.source(painter);
    const textures = painter.sourceKind === COMPOSITE ? [source] : this.names.texturesOf(painter);
    let parts = this.parts(fragment, painter.kind).filter(([, name]) => textures.includes(name));
    if (new Set(parts.map(([, name]) => name)).size === 1) parts = [[parts.map(([part]) => part).join(' or '), parts[0][1]]];
    const isPatch = painter.sourceKind !== COMPOSITE && (parts.length > 1 || source !== parts[0][1]);
    return { where: this.lineOf(fragment), what: parts.map(([part, name]) => `${part} texture ${name}`).join(' or ') + this.lit(fragment, painter.kind),
      by: `fragment ${painter.number}, seg ${fragment.seg}`, more: isPatch ? `patch ${source}` : '' };
  }
  plane(painter) {
    const plane = this.items.plane[painter.number], key = this.keyOf(plane), sides = this.sides.get(key);
    const by = `plane ${painter.number}, ${this.maker(plane)[1]}`, sectors = sectorsTold(this.sectorsWith(key, sides));
    const [height, flat, light] = key.split(' ');
    if (plane.flat !== 'sky') return { where: `${sides} of ${sectors} at height ${height}`, what: `flat ${flat}, light ${light}`, by, more: '' };
    const known = this.names.known(painter);
    return { where: `sky of ${sectors}`, what: `${known.word} ${known.name}`, by, more: known.more };
  }
  sprite(painter) {
    const sprite = this.items.sprite[painter.number], thing = this.level.things[sprite.thing];
    return { where: `thing ${sprite.thing} of type ${thing.type} at ${thing.x},${thing.y}`, what: `lump ${this.names.source(painter)}`,
      by: `sprite ${painter.number}`, more: '' };
  }
  placed(painter) {
    const kinds = { [WALL]: this.wall, [MIDDLE]: this.wall, [PLANE]: this.plane, [SKY_PLANE]: this.plane, [SPRITE]: this.sprite };
    return kinds[painter.kind] ? kinds[painter.kind].call(this, painter) : null;
  }
  // A pixel in words: what painted it, where in the map that is, and its colour.
  pixel(x, y) {
    const record = this.recordAt(x, y), [word] = KINDS[record.kind] || [`kind ${record.kind}`], placed = this.placed(record);
    if (!placed) return word === 'nothing' ? 'nothing, colour 0' : `${word}, colour ${record.colour}`;
    const head = placed.where.startsWith(word) ? placed.where : `${word}, ${placed.where}`;
    return `${head}, ${placed.what} (${placed.by})${placed.more ? `, ${placed.more}` : ''}, colour ${record.colour}`;
  }
}
