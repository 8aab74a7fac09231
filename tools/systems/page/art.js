/* The art of WADs, as tools/doomview_tools/art.py has it: the lists of textures, the names of patches, and which lumps are flats or
pictures of things. */
const TEXTURE_LISTS = ['TEXTURE1', 'TEXTURE2'], NAME_BYTES = 8;
const lastOf = (lumps, name) => lumps.findLast(lump => lump.name === name);
// The textures of a list, in order: of each its name, its size in texels, and of its patches the column and the number.
function texturesIn(bytes, name) {
  const view = new DataView(bytes.buffer, bytes.byteOffset, bytes.length);
  try {
    return Array.from({ length: view.getUint32(0, true) }, (_, i) => {
      const at = view.getUint32(4 + 4 * i, true), count = view.getUint16(at + 20, true), patch = k => at + 22 + 10 * k;
      return { name: cleanName(bytes.subarray(at, at + NAME_BYTES)), width: view.getInt16(at + 12, true), height: view.getInt16(at + 14, true),
        patches: Array.from({ length: count }, (__, k) => [view.getInt16(patch(k), true), view.getUint16(patch(k) + 4, true)]) };
    });
  } catch { throw new Wrong(`${name} is damaged; doomview explain audit says where`); }
}
// The places of the lumps between the marks of a kind, such as F for flats.
function betweenMarks(lumps, letter) {
  const begins = [`${letter}_START`, `${letter}${letter}_START`], ends = [`${letter}_END`, `${letter}${letter}_END`], found = [];
  let isWithin = false;
  for (const { name } of lumps)
    if (begins.includes(name)) isWithin = true;
    else if (ends.includes(name)) isWithin = false;
    else if (isWithin) found.push(name);
  return found;
}
const notIn = (number, names) => number < names.length ? names[number] : undefined;

class Art {
  constructor(wads) {
    this.files = wads.map(wad => wad.name); this.byFile = wads.map(wad => wad.lumps); this.all = this.byFile.flat();
    this.last = new Map(this.all.map((lump, place) => [lump.name, place])); // of each name
    this.patches = patchNames(this.all); this.lists = this.bothLists();
    this.textures = new Map(); // the first of a name
    this.lists.forEach(({ textures }) => textures.forEach(texture => this.textures.has(texture.name) || this.textures.set(texture.name, texture)));
    this.flats = new Set([SKY, ...this.byFile.flatMap(lumps => betweenMarks(lumps, 'F'))]);
    this.frames = new Set(this.byFile.flatMap(lumps => betweenMarks(lumps, 'S')).flatMap(name => [name.slice(4, 5), name.slice(6, 7)].map(frame => name.slice(0, 4) + frame)));
  }
  // Both lists of textures, as far as they are there: the name of a list, the number of its file, its textures.
  bothLists() {
    return TEXTURE_LISTS.filter(name => this.last.has(name)).map(name => ({ name, file: this.having(name).at(-1),
      textures: texturesIn(lumpBytes(lastOf(this.all, name)), name) }));
  }
  // The numbers of the files that have a lump.
  having(name) { return [...this.byFile.keys()].filter(number => this.byFile[number].some(lump => lump.name === name)); }
  // Of some textures those that a list has which the list of a later WAD hides, with both WADs.
  hiddenTextures(names) {
    const having = this.having('TEXTURE1');
    return having.slice(0, -1).flatMap(i => {
      const own = new Set(TEXTURE_LISTS.map(name => lastOf(this.byFile[i], name)).filter(Boolean)
        .flatMap(lump => texturesIn(lumpBytes(lump), lump.name)).map(texture => texture.name));
      return inOrder([...names].filter(name => own.has(name))).map(name => [name, this.files[i], this.files[having.at(-1)]]);
    });
  }
  width(patch) {
    const place = this.last.get(patch), bytes = place === undefined ? [] : lumpBytes(this.all[place]);
    return bytes.length > 1 ? bytes[0] + 256 * bytes[1] : bytes[0] || 0;
  }
  // How many patches cover each column of a texture.
  counts({ width, patches }) {
    const counts = Array(Math.max(0, width)).fill(0);
    for (const [left, number] of patches) {
      const of = number < this.patches.length ? this.width(this.patches[number]) : 0;
      for (let x = Math.max(0, left); x < Math.min(width, left + of); x++) counts[x]++;
    }
    return counts;
  }
  // Lists that count on a PNAMES which that of a later WAD hides: the list, both WADs, a texture, the names of its patch in both.
  hidingNames() {
    const having = this.having('PNAMES');
    return this.lists.flatMap(({ name, file, textures }) => {
      const own = having.filter(number => number <= file).at(-1);
      if (own === undefined || own === having.at(-1)) return [];
      const meant = patchNames(this.byFile[own]), isOther = number => notIn(number, meant) !== notIn(number, this.patches);
      const [texture, number] = textures.flatMap(one => one.patches.map(([, patch]) => [one, patch])).find(([, patch]) => isOther(patch)) || [];
      return texture ? [[name, this.files[own], this.files[having.at(-1)], texture.name, notIn(number, meant) ?? 'none', notIn(number, this.patches) ?? 'none']] : [];
    });
  }
  // The patches that no WAD has: by name, or number past the end of PNAMES, the textures that need them.
  missingPatches() {
    const found = new Lists();
    for (const { textures } of this.lists)
      for (const texture of textures)
        for (const [, number] of texture.patches) {
          const patch = notIn(number, this.patches) ?? `number ${number} of PNAMES`;
          if (!this.last.has(patch)) found.at(patch).push(texture.name);
        }
    return found;
  }
  // Of some flats those that the original does not find, since they come before its flats or after them.
  lostFlats(names) {
    const first = this.last.get('F_START') ?? -1, end = this.last.get('F_END') ?? this.all.length;
    const known = inOrder([...names].filter(name => name !== SKY && this.last.has(name)));
    return [known.filter(name => this.last.get(name) < first), known.filter(name => this.last.get(name) > end)];
  }
}

// What a name may have been meant to be, as Python's difflib.get_close_matches(name, names, 1, .75) says.
const LIKE = .75;
function guess(name, names) {
  let best = null, most = LIKE;
  for (const other of names) {
    const share = likeness(other, name);
    if (share > most || share === most && (best === null || other > best)) { best = other; most = share; }
  }
  return best === null ? '' : `; is it ${best}?`;
}
const likeness = (one, other) => one.length + other.length ? 2 * matching(one, other) / (one.length + other.length) : 1;
// How many letters match: those of the longest block in both, and of what is before and behind it.
function matching(one, other) {
  const [at, to, size] = longestBlock(one, other);
  return size ? size + matching(one.slice(0, at), other.slice(0, to)) + matching(one.slice(at + size), other.slice(to + size)) : 0;
}
function longestBlock(one, other) {
  let found = [0, 0, 0];
  for (let at = 0; at < one.length; at++)
    for (let to = 0; to < other.length; to++) {
      let size = 0;
      while (at + size < one.length && to + size < other.length && one[at + size] === other[to + size]) size++;
      if (size > found[2]) found = [at, to, size];
    }
  return found;
}
