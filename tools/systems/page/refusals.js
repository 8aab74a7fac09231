/* Why a run ended as it did, in the sentences of doomview explain (tools/doomview_tools/explanations.py and refusals.py): a
test compares them. CODES is docs/REFUSALS.md: of each code what is wrong, and how to mend it. */
const { FIELDS, TABLES, COLUMNS, OF_ROWS, OF_COLUMNS, PACKED, MOST_DEPTH, NO_MAP, CODES } = FACTS;
const SIDEDEFS = 2, SEGS = 4, SIDE_OF_LINE = 4; // numbers of lumps, and a field of a seg
const SHOWN_LINES = 12, TWO_SIDED_PARTS = ['upper', 'lower', 'middle'];

const listed = parts => parts.length === 1 ? `${parts[0]}` : `${parts.slice(0, -1).join(', ')} and ${parts.at(-1)}`;

// The WADs of a run and the level that it names, as far as they can be read. A file is { name, source, wad }, wad maybe null.
class Scene {
  constructor(files, mapName) {
    this.files = files; this.mapName = mapName;
    this.lumps = files.flatMap(file => file.wad ? file.wad.lumps : []);
    const label = mapLabels(this.lumps).get(mapName);
    this.hasMap = label !== undefined; this.label = label;
    const here = this.hasMap ? this.lumps.slice(label + 1, label + 1 + MAP_LUMPS.length) : [];
    this.file = this.hasMap ? this.lumps[label].wad.name : null;
    this.level = new Level(mapName, this.hasMap ? this.lumps[label].wad : { name: '' },
      Object.fromEntries(here.map(lump => [lump.name, lumpBytes(lump)])));
  }
  linesOfSide(side) { return [...this.level.lines.keys()].filter(number => this.level.lines[number].sides.includes(side)); }
  side(number) {
    const found = this.level.sides[number];
    if (!found) return `side ${number}`;
    const lines = this.linesOfSide(number).map(line => `line ${line}`).join(' and ') || 'no line';
    return `side ${number}, of ${lines}, in sector ${found.sector}: upper ${found.upper}, lower ${found.lower}, middle ${found.middle}`;
  }
  sector(number) {
    const found = this.level.sectors[number];
    return found ? `sector ${number}: floor ${found.floorFlat}, ceiling ${found.ceilingFlat}` : `sector ${number}`;
  }
  thing(number) {
    const found = this.level.things[number];
    return found ? `thing ${number}: type ${found.type} at ${found.x}, ${found.y}` : `thing ${number}`;
  }
  newest(name) { const lump = this.lumps.findLast(one => one.name === name); return lump && lumpBytes(lump); }
  texture(number) {
    for (const name of ['TEXTURE1', 'TEXTURE2']) {
      const lump = this.newest(name), count = lump && lump.length >= 4 ? new DataView(lump.buffer, lump.byteOffset).getUint32(0, true) : 0;
      if (number < count) return `texture ${textureName(lump, number)} (${name}, number ${number})`;
      number -= count;
    }
    return 'a texture';
  }
  lump(number) { return `lump ${this.lumps[number].name} of ${this.lumps[number].wad.name}`; }
  wad(number) { return this.files[number] ? this.files[number].name : `file ${number} of the WADs, counted from 0`; }
  field(lump, record, field) {
    const where = `${MAP_LUMPS[lump]} record ${record}, ${FIELDS[lump][field]}`, seg = this.level.segs[record];
    if (lump === SIDEDEFS) return `${where} (${this.side(record)})`;
    if (lump !== SEGS || field !== SIDE_OF_LINE || !seg) return where;
    return `${where} (of line ${seg.line}${['', ', which has no front side', ', which has no back side'][seg.side + 1] || ''})`;
  }
  flats() {
    const found = new Set();
    this.files.forEach(({ wad }) => {
      let isFlat = false;
      for (const { name } of wad ? wad.lumps : []) {
        if (['F_START', 'FF_START'].includes(name)) isFlat = true;
        else if (['F_END', 'FF_END'].includes(name)) isFlat = false;
        else if (isFlat) found.add(name);
      }
    });
    return found;
  }
  depth() {
    let most = 0;
    const seen = new Set(), left = [[this.level.nodes.length - 1, 1]];
    while (left.length) {
      const [number, depth] = left.pop(), node = this.level.nodes[number];
      if (number & LEAF || seen.has(number) || !node) continue;
      seen.add(number); most = Math.max(most, depth);
      left.push([node.front, depth + 1], [node.back, depth + 1]);
    }
    return most;
  }
}
function textureName(lump, number) {
  const view = new DataView(lump.buffer, lump.byteOffset, lump.length), place = view.getUint32(4 + 4 * number, true);
  return cleanName(lump.subarray(place, place + 8));
}

function ofRow(code, numbers) {
  let column = '';
  if (OF_COLUMNS.includes(code % 100)) {
    const [name, what] = COLUMNS[Math.floor(code / 100)][numbers[1]];
    column = `, ${name} (${what})`;
  }
  return `row ${numbers[0]} under the header of ${TABLES[Math.floor(code / 100)]}${column}`;
}
// Of each code how its numbers are named.
const NAMED = {
  401: (scene, file) => scene.wad(file), 402: (scene, file) => scene.wad(file), 403: (scene, file) => scene.wad(file),
  602: (scene, lump) => MAP_LUMPS[lump], 604: (scene, ...numbers) => scene.field(...numbers),
  605: (scene, leaf) => `SSECTORS record ${leaf}`, 606: (scene, node) => `NODES record ${node}`, 607: (scene, node) => `NODES record ${node}`,
  703: (scene, n) => scene.texture(n), 704: (scene, n) => scene.texture(n), 705: (scene, n) => scene.texture(n),
  801: (scene, n) => scene.thing(n), 904: (scene, n) => scene.thing(n), 802: (scene, n, rotation) => `${scene.thing(n)}, rotation ${rotation}`,
  803: (scene, n) => scene.lump(n), 907: (scene, n) => scene.lump(n), 1013: (scene, n) => scene.lump(n),
  901: (scene, n) => scene.side(n), 905: (scene, n) => scene.side(n), 903: (scene, n) => scene.sector(n),
  908: (scene, count) => `${count} entries`, 909: (scene, count) => `${count} bytes`,
};
function namesOf(scene, code, numbers) {
  try {
    if (NAMED[code] && numbers.length) return NAMED[code](scene, ...numbers);
    if (numbers.length && TABLES[Math.floor(code / 100)] && OF_ROWS.includes(code % 100)) return ofRow(code, numbers);
  } catch { /* a number that names nothing */ }
  return numbers.join(' ');
}

/* What more is known of some refusals. */
const isPacked = source => PACKED.includes(text(source.read(0, 2)));
function packedFile(scene) { return scene.files.filter(file => isPacked(file.source)).map(file => `${file.name} is a packed file.`); }
function oddNodes(scene) {
  const extended = scene.level.extendedNodes(), behind = scene.lumps.slice(scene.label + 9, scene.label + 9 + BEHIND_MAP);
  if (extended) return [`${extended[0]} has extended nodes (${extended[1]}); build plain ones (zdbsp without -X, -x and -z; in an ` +
    'editor a builder named normal or vanilla).'];
  if (!scene.hasMap || !behind.some(lump => lump.name.startsWith('GL_'))) return [];
  return [`${scene.mapName} has GL nodes alone (GL_SEGS, GL_SSECT, GL_NODES), which are not read; build plain ones too.`];
}
function deepNodes(scene) {
  const depth = scene.depth();
  return depth ? [`the nodes are ${withCommas(depth)} deep, and ${withCommas(MOST_DEPTH)} is the most: take a builder that balances ` +
    'them, such as zdbsp.'] : [];
}
// Which of the textures of a side is in no list, and why.
function noTexture(scene, [number]) {
  const known = new Set(textureLists(scene.lumps).map(texture => texture.name)), side = scene.level.sides[number];
  if (!known.size || !side) return [];
  const isMissing = name => !name.startsWith('-') && !known.has(name), missing = TWO_SIDED_PARTS.filter(part => isMissing(side[part]));
  const found = missing.length ? [`in no list: ${listed(missing.map(part => `${part} ${side[part]}`))}.`] : [];
  found.push(...hiddenList(scene, new Set(missing.map(part => side[part]))));
  const used = new Set(scene.level.sides.flatMap(one => TWO_SIDED_PARTS.map(part => one[part])).filter(name => !name.startsWith('-')));
  const unknown = [...used].filter(name => !known.has(name)).length;
  if (2 * unknown > used.size) found.push(`${unknown} of the ${used.size} textures of the map are in no list: the map may be for another game.`);
  return found;
}
// A list of a WAD that hides the one which has a texture: the last TEXTURE1 counts.
function hiddenList(scene, missing) {
  const having = scene.lumps.filter(lump => lump.name === 'TEXTURE1').map(lump => lump.wad);
  return having.slice(0, -1).flatMap(wad => {
    const known = new Set(textureLists(wad.lumps).map(texture => texture.name));
    return inOrder([...missing].filter(name => known.has(name))).map(name =>
      `${name} is in the TEXTURE1 of ${wad.name}, which that of ${having.at(-1).name} hides; put it into the list there.`);
  });
}
function noFlat(scene, [number]) {
  const sector = scene.level.sectors[number], known = scene.flats();
  if (!sector) return [];
  return [['floor', sector.floorFlat], ['ceiling', sector.ceilingFlat]].filter(([, name]) => name !== SKY && !known.has(name))
    .map(([part, name]) => `no flat: ${part} ${name}` + (scene.lumps.some(lump => lump.name === name) ?
      ': there is a lump of that name, but not between F_START and F_END.' : '.'));
}
// What the original makes of a middle texture of several patches, and where else it is.
function medusa(scene, [number]) {
  const found = ['in a game this is the Medusa effect: the original reads the texture as posts, and slows down or ends. Give the line ' +
    'a middle texture of one patch a column.'], side = scene.level.sides[number];
  if (!side) return found;
  const isOf = one => one !== null && scene.level.sides[one]?.middle === side.middle, { lines } = scene.level;
  const having = [...lines.keys()].filter(line => !lines[line].sides.includes(null) && lines[line].sides.some(isOf));
  const shown = having.length <= SHOWN_LINES ? listed(having) : `${having.slice(0, SHOWN_LINES).join(', ')} ..`;
  return having.length > 1 ? [...found, `lines of two sides with ${side.middle}: ${shown}.`] : found;
}
const HINTS = { 401: packedFile, 402: packedFile, 603: oddNodes, 604: oddNodes, 605: oddNodes, 606: oddNodes, 607: deepNodes,
  901: noTexture, 903: noFlat, 905: medusa };

function refused(scene, code, numbers) {
  if (code === NO_MAP && scene.lumps.length && !scene.hasMap)
    return [`${code}: ${noMap(scene.mapName, scene.lumps, scene.files)}.`];
  const [wrong, mend] = CODES[code] || ['docs/REFUSALS.md has no such code', ''], at = namesOf(scene, code, numbers);
  const whose = scene.file && code >= 602 && code < 1000 ? ` (map of ${scene.file})` : '';
  return [`${code}: ${wrong}${at ? `: ${at}` : ''}${whose}${mend ? `. To mend it: ${mend}.` : '.'}`,
    ...(HINTS[code] ? HINTS[code](scene, numbers) : [])];
}
// The sentences on the line that a run ended with.
function sentencesOn(scene, line) {
  const [, what, rest = ''] = /^doomview: (refused|limit|usage|read fault|write fault|out of memory|zone full)(.*)$/.exec(line) || [];
  const numbers = rest.trim().split(' ').filter(word => /^\d+$/.test(word)).map(Number);
  if (what === 'refused') return refused(scene, numbers[0], numbers.slice(1));
  if (what === 'limit') return [`this view needs more than ${numbers[1] - 1} ${rest.trim().split(' ')[2]}, the limit of the original.`];
  const changed = scene.files.filter(({ source }) => source.hasChanged).map(file => file.name);
  if (what === 'read fault' && changed.length) return changed.map(name => `${name} has changed on disk, or cannot be read; choose it again, or drop it.`);
  return [{ 'read fault': 'a file could not be read to its end; choose it anew.', 'out of memory': 'memory ran out: close other pages.',
    'zone full': 'the zone is too small for this map.' }[what] || line || 'the program ended without a word.'];
}
