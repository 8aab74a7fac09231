/* A map of the solid walls of a level alone, as tools/doomview_tools/walls.py has it, which says why: `list` of it has all of
them. A test compares the solid ranges of whole maps. */
const { FLOOR, CEILING, LIGHT } = FACTS;
const SEG_LINE = 6, LINE_FLAGS = 4, SIDE_TEXTURES = [4, 12, 20]; // places in a record of a seg, a line, a side
const FLATS = [4, 12], LIGHT_PLACE = 20, NAME = 8; // places in a record of a sector; the bytes of a name

// Of each seg of a level whether nothing is seen behind it.
function solidSegs(level) {
  const fronts = new Map(level.leaves.flatMap(({ first, count }, leaf) => Array.from({ length: count }, (_, i) => [first + i, level.sectorOfLeaf(leaf)])));
  return level.segs.map((seg, number) => {
    const line = level.lines[seg.line], behind = line.sides[1 - seg.side], front = fronts.get(number);
    if (!(line.flags & TWO_SIDED) || behind === null || front === undefined) return true;
    const one = level.sectors[front], other = level.sectors[level.sides[behind].sector];
    return other.ceiling <= one.floor || other.floor >= one.ceiling;
  });
}
// The bytes of a PWAD of the map of a level's solid walls alone.
function wallsAlone(level) {
  const { view: segs, size, bytes } = copied(level, 'SEGS'), copies = new Map(); // of lines by their numbers: those of copies with one side
  solidSegs(level).forEach((isSolid, number) => {
    const { line } = level.segs[number];
    if (!isSolid || !(level.lines[line].flags & TWO_SIDED)) return;
    if (!copies.has(line)) copies.set(line, level.lines.length + copies.size);
    segs.setUint16(size * number + SEG_LINE, copies.get(line), true);
  });
  const changed = { LINEDEFS: linesWith(level, copies), SEGS: bytes, SIDEDEFS: bareSides(level), SECTORS: alikeSectors(level),
    THINGS: level.bytes.THINGS.slice(0, recordSize(LAYOUTS.THINGS)) };
  return wadOf([[level.name, new Uint8Array()], ...MAP_LUMPS.map(name => [name, changed[name] ?? level.bytes[name]])]);
}
// A copy of the whole records of a lump, with the size of each, and a view of them; some more are empty.
function copied(level, name, more = 0) {
  const size = recordSize(LAYOUTS[name]), count = Math.floor(level.bytes[name].length / size), bytes = new Uint8Array(size * (count + more));
  bytes.set(level.bytes[name].subarray(0, size * count));
  return { bytes, size, count, view: new DataView(bytes.buffer) };
}
function linesWith(level, copies) {
  const { bytes, size, view } = copied(level, 'LINEDEFS', copies.size);
  for (const [line, copy] of copies) {
    bytes.copyWithin(size * copy, size * line, size * (line + 1));
    view.setUint16(size * copy + LINE_FLAGS, level.lines[line].flags & ~TWO_SIDED, true);
  }
  return bytes;
}
function bareSides(level) {
  const { bytes, size, count } = copied(level, 'SIDEDEFS');
  for (let side = 0; side < count; side++)
    for (const place of SIDE_TEXTURES) bytes.fill(0, size * side + place, size * side + place + NAME)[size * side + place] = '-'.charCodeAt(0);
  return bytes;
}
function alikeSectors(level) {
  const { bytes, size, count } = copied(level, 'SECTORS'), view = new DataView(bytes.fill(0).buffer);
  for (let at = 0; at < size * count; at += size) {
    view.setInt16(at, FLOOR, true); view.setInt16(at + CEILING_PLACE, CEILING, true); view.setInt16(at + LIGHT_PLACE, LIGHT, true);
    for (const place of FLATS) [...level.sectors[0].floorFlat].forEach((letter, i) => { bytes[at + place + i] = letter.charCodeAt(0); });
  }
  return bytes;
}
