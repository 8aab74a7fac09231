/* Stand-ins for the textures and flats that a map names and no WAD has, so that it is drawn all the same: squares of two colours in their
place. Each has a name of its own, so that planes of different flats are counted as they would be. */
const MARK = { patch: 'DV_MARK', width: 64, height: 128, square: 16 }, FLAT_SIDE = 64, TEXTURE_RECORD = 32, SHOWN_MISSING = 12;

// The nearest entry of a palette to a colour.
function nearestEntry(palette, colour) {
  const far = entry => colour.reduce((sum, part, k) => sum + (palette[3 * entry + k] - part) ** 2, 0);
  return Array.from({ length: 256 }, (_, entry) => entry).reduce((best, entry) => far(entry) < far(best) ? entry : best);
}
const squaresOf = ([one, other]) => (x, y) => (Math.floor(x / MARK.square) + Math.floor(y / MARK.square)) % 2 ? one : other;
function markFlat(colours) {
  const colour = squaresOf(colours);
  return Uint8Array.from({ length: FLAT_SIDE * FLAT_SIDE }, (_, i) => colour(i % FLAT_SIDE, Math.floor(i / FLAT_SIDE)));
}
// A patch of one post a column.
function markPatch(colours) {
  const { width, height } = MARK, colour = squaresOf(colours), head = 8 + 4 * width, column = height + 5;
  const bytes = new Uint8Array(head + column * width), view = new DataView(bytes.buffer);
  view.setUint16(0, width, true); view.setUint16(2, height, true);
  for (let x = 0; x < width; x++) {
    const at = head + column * x;
    view.setUint32(8 + 4 * x, at, true);
    bytes.set([0, height, 0, ...Array.from({ length: height }, (_, y) => colour(x, y)), 0, 255], at);
  }
  return bytes;
}
function putName(bytes, at, name) { [...name].forEach((letter, i) => { bytes[at + i] = letter.charCodeAt(0); }); }
// The newest lump of a name with more records behind a count of them, or one that has these alone.
function newestOr(lumps, name) {
  const lump = lastOf(lumps, name), bytes = lump ? lumpBytes(lump) : new Uint8Array(4);
  return { bytes, count: new DataView(bytes.buffer, bytes.byteOffset).getUint32(0, true) };
}
function withPatchName(lumps) {
  const { bytes, count } = newestOr(lumps, 'PNAMES'), whole = new Uint8Array(4 + 8 * (count + 1));
  whole.set(bytes.subarray(0, 4 + 8 * count)); putName(whole, 4 + 8 * count, MARK.patch);
  new DataView(whole.buffer).setUint32(0, count + 1, true);
  return [count, whole];
}
// TEXTURE1 with more textures, each of the one patch.
function withTextures(lumps, names, patch) {
  const { bytes, count } = newestOr(lumps, 'TEXTURE1'), more = names.length, moved = 4 * more, whole = new Uint8Array(bytes.length + moved + TEXTURE_RECORD * more);
  const old = new DataView(bytes.buffer, bytes.byteOffset), view = new DataView(whole.buffer), list = 4 + 4 * count;
  whole.set(bytes.subarray(list), list + moved); view.setUint32(0, count + more, true);
  for (let i = 0; i < count; i++) view.setUint32(4 + 4 * i, old.getUint32(4 + 4 * i, true) + moved, true);
  names.forEach((name, i) => {
    const at = bytes.length + moved + TEXTURE_RECORD * i;
    view.setUint32(list + 4 * i, at, true); putName(whole, at, name);
    view.setUint16(at + 12, MARK.width, true); view.setUint16(at + 14, MARK.height, true); view.setUint16(at + 20, 1, true); view.setUint16(at + 26, patch, true);
  });
  return whole;
}
// The names of textures and of flats that a level has and no WAD.
function missingNames(level, art) {
  const isMissing = name => name && !name.startsWith('-') && !art.textures.has(name);
  return { textures: inOrder(new Set(level.sides.flatMap(side => WALL_PARTS.map(part => side[part])).filter(isMissing))),
    flats: inOrder(new Set(level.sectors.flatMap(({ floorFlat, ceilingFlat }) => [floorFlat, ceilingFlat]).filter(name => name && !art.flats.has(name)))) };
}
// The bytes of a PWAD with stand-ins for what a level lacks, and a sentence on that; null where it lacks nothing.
function standIns(level, wads) {
  const art = new Art(wads), { textures, flats } = missingNames(level, art), palette = lastOf(art.all, 'PLAYPAL');
  if (!palette || !textures.length && !flats.length) return null;
  const colours = [[255, 0, 255], [0, 0, 0]].map(colour => nearestEntry(lumpBytes(palette), colour)), [patch, names] = withPatchName(art.all);
  const ofTextures = textures.length ? [['PNAMES', names], ['TEXTURE1', withTextures(art.all, textures, patch)], [MARK.patch, markPatch(colours)]] : [];
  const ofFlats = flats.length ? [['FF_START', new Uint8Array()], ...flats.map(name => [name, markFlat(colours)]), ['FF_END', new Uint8Array()]] : [];
  const told = (word, some) => some.length ? [`${some.length} ${word}${some.length > 1 ? 's' : ''} (${shortened(some, SHOWN_MISSING)})`] : [];
  return { bytes: wadOf([...ofTextures, ...ofFlats]), told: `${level.name} of ${level.wad.name} names ${listed([...told('texture', textures), ...told('flat', flats)])} that ` +
    'no WAD here has. Squares are drawn in their place; the original ends there, and so does the job.' };
}
