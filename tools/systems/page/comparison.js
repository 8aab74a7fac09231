/* The frames of a path beside those of a port, as tools/doomview_tools/compare_page.py gives them to the page of `compare`,
whose template shows them: of each view that differs, in most pixels if there are many, both frames and the painters. */
const { MOST_VIEWS } = FACTS, FRAME = WIDTH * FRAME_HEIGHT, VIEW_RECORDS = RECORD * FRAME;
const KEY_BYTES = 6; // of a record that tell its painter: all but the colour

// The PNG of a picture, three bytes a pixel by a function of the pixel's place, as text.
async function pictureText(colour) {
  const canvas = new OffscreenCanvas(WIDTH, FRAME_HEIGHT), pen = canvas.getContext('2d'), image = pen.createImageData(WIDTH, FRAME_HEIGHT);
  for (let i = 0; i < FRAME; i++) image.data.set([...colour(i), 255], 4 * i);
  pen.putImageData(image, 0, 0);
  const bytes = new Uint8Array(await (await canvas.convertToBlob()).arrayBuffer());
  let letters = '';
  for (let i = 0; i < bytes.length; i += 4096) letters += String.fromCharCode(...bytes.subarray(i, i + 4096));
  return btoa(letters);
}
function differing(ours, port) {
  const places = [];
  for (let i = 0; i < FRAME; i++) if (ours[i] !== port[i]) places.push(i);
  return places;
}
function told(view, ours, port, places) {
  const columns = places.map(place => place % WIDTH), row = place => Math.floor(place / WIDTH), [first] = places;
  return `view ${view} pixels ${places.length} rows ${row(first)} to ${row(places.at(-1))} columns ${columns.reduce((a, b) => Math.min(a, b))} to ` +
    `${columns.reduce((a, b) => Math.max(a, b))} first at row ${row(first)} column ${first % WIDTH}: ${ours[first]}, port ${port[first]}`;
}
// The rows of a path as its text has them, without its header.
const rowsOfText = path => path.replace(/^\ufeff/, '').split(/\r?\n/).filter(Boolean).slice(1);
const headOfText = path => path.replace(/^\ufeff/, '').split(/\r?\n/)[0];

/* What a port drew: frames of palette indices, one behind the other in files, or pictures, a view each, in the order of the numbers
in their names. `frame(view, ours)` gives one of them: a colour of a picture that is in two entries of the palette is taken as ours. */
class PortFrames {
  constructor(bytes, name) {
    this.bytes = bytes; this.count = bytes.length / FRAME;
    if (!Number.isInteger(this.count)) throw new Wrong(`${name} has ${bytes.length} bytes, and a view has ${FRAME}; frames are to be written as ` +
      'palette indices, one behind the other, or as pictures (PNG)');
  }
  frame(view) { return this.bytes.subarray(FRAME * view, FRAME * (view + 1)); }
}
class PortPictures {
  constructor(pictures, palette) {
    this.pictures = pictures; this.count = pictures.length; this.entries = new Lists(); // of each colour
    for (let i = 0; i < 256; i++) this.entries.at(palette[3 * i] << 16 | palette[3 * i + 1] << 8 | palette[3 * i + 2]).push(i);
  }
  frame(view, ours) {
    const { name, pixels } = this.pictures[view], at = new DataView(pixels.buffer), frame = new Uint8Array(FRAME);
    for (let i = 0; i < FRAME; i++) {
      const colour = at.getUint32(4 * i) >>> 8, entries = this.entries.get(colour);
      if (!entries) throw new Wrong(`${name}: the colour ${[colour >> 16, colour >> 8 & 255, colour & 255]} at row ${Math.floor(i / WIDTH)} column ` +
        `${i % WIDTH} is in no entry of the palette; turn off what changes colours (gamma, filters, true colour)`);
      frame[i] = entries.includes(ours[i]) ? ours[i] : entries[0];
    }
    return frame;
  }
}
const isPicture = file => /\.png$/i.test(file.name);
const numbersFirst = (one, other) => one.name.localeCompare(other.name, 'en', { numeric: true });
async function pixelsOf(file) {
  let picture;
  try {
    picture = await createImageBitmap(file, { colorSpaceConversion: 'none', premultiplyAlpha: 'none' });
  } catch { throw new Wrong(`${file.name} is no picture that can be read`); }
  if (picture.width !== WIDTH || picture.height !== FRAME_HEIGHT)
    throw new Wrong(`${file.name} has ${picture.width} by ${picture.height} pixels; a view has ${WIDTH} by ${FRAME_HEIGHT}`);
  const pen = new OffscreenCanvas(WIDTH, FRAME_HEIGHT).getContext('2d');
  pen.drawImage(picture, 0, 0);
  return { name: file.name, pixels: pen.getImageData(0, 0, WIDTH, FRAME_HEIGHT).data };
}
async function portFrames(files, palette) {
  const inOrder = [...files].sort(numbersFirst), pictures = inOrder.filter(isPicture);
  if (pictures.length) return new PortPictures(await Promise.all(pictures.map(pixelsOf)), palette);
  const pieces = await Promise.all(inOrder.map(async file => new Uint8Array(await file.arrayBuffer())));
  return new PortFrames(joined(pieces), nameOf(files));
}
const nameOf = files => files.length === 1 ? files[0].name : `${files.length} files`;

// The views that differ, those with the most pixels where they are many, and the line on all.
function differences(path, port, spans) {
  const found = { views: [], both: 0, different: 0, pixels: 0 };
  let rest = new Uint8Array(), wrong = null;
  const take = ours => {
    if (found.both >= port.count) return;
    const theirs = port.frame(found.both, ours);
    const places = differing(ours, theirs);
    if (places.length) {
      found.different++; found.pixels += places.length;
      found.views.push({ view: found.both, ours: ours.slice(), theirs: theirs.slice(), places });
      if (found.views.length > MOST_VIEWS) dropLeast(found.views);
    }
    found.both++;
  };
  const done = stream('render', path, [...state.words, '--spans', spans, ...RAISED], piece => {
    rest = joined([rest, piece]);
    try {
      for (; rest.length >= FRAME; rest = rest.subarray(FRAME)) take(rest.subarray(0, FRAME));
    } catch (error) { wrong = error; throw error; }
  });
  if (wrong) throw wrong;
  if (done.status) throw new Wrong(sentencesOn(new Scene(state.wads, state.map), done.line).join('\n'));
  return found;
}
function dropLeast(views) {
  const least = views.reduce((a, b) => b.places.length <= a.places.length ? b : a);
  views.splice(views.indexOf(least), 1);
}
// A picture of the number of each pixel's painter, and the painters with the pixels that they have among those that differ.
async function painters(places, trace, lines) {
  const numbers = new Map(), named = [], at = new Places(state.level, state.names, trace, lines), ids = new Uint16Array(FRAME);
  for (let i = 0; i < FRAME; i++) {
    const key = trace.subarray(RECORD * i, RECORD * i + KEY_BYTES).join();
    if (!numbers.has(key)) { numbers.set(key, named.length); named.push(painterOf(at, i)); }
    ids[i] = numbers.get(key);
  }
  const pixels = new Map();
  places.forEach(place => pixels.set(ids[place], (pixels.get(ids[place]) || 0) + 1));
  return { ids: await pictureText(i => [ids[i] >> 8, ids[i] & 255, 0]), painters: named, pixels: [...pixels].sort((a, b) => b[1] - a[1]) };
}
// A painter: kind, name, number, what more is known, and where in the map that is.
function painterOf(at, i) {
  const record = at.recordAt(i % WIDTH, Math.floor(i / WIDTH)), [word, counted] = KINDS[record.kind] || [`kind ${record.kind}`, 'number'];
  const known = at.names.known(record), placed = at.placed(record);
  return [word, known.name, counted ? `${counted} ${record.number}` : '', known.more, placed ? `${placed.where}, ${placed.what}` : ''];
}
async function packedView({ view, ours, theirs, places }, trace, lines) {
  return { view, told: told(view, ours, theirs, places), first: places[0], known: false,
    ours: await pictureText(i => [ours[i], ours[i], ours[i]]), both: await pictureText(i => Array(3).fill(ours[i] ^ theirs[i])),
    ...await painters(places, trace, lines) };
}
async function comparison({ path, files, spans, palette }) {
  const port = await portFrames(files, palette), rows = rowsOfText(path), { count } = port, name = nameOf(files);
  const found = differences(path, port, spans), chosen = found.views.sort((a, b) => a.view - b.view);
  const some = [headOfText(path), ...chosen.map(({ view }) => rows[view])].join('\n') + '\n', more = [...state.words, ...RAISED];
  const traces = chosen.length ? jobOutput('trace', some, [...more, '--spans', spans]) : [];
  const lists = chosen.length ? byView(textOf(jobOutput('list', some, more))) : [], views = [];
  for (const [i, one] of chosen.entries())
    views.push(await packedView(one, traces.subarray(VIEW_RECORDS * i, VIEW_RECORDS * (i + 1)), lists[i]));
  let head = `doomview and ${name}: views ${found.both} same ${found.both - found.different} different ${found.different} pixels ${found.pixels}`;
  if (rows.length !== count) head += `; the path has ${rows.length} views, ${name} ${count}`;
  if (found.different > views.length) head += `; here are the ${views.length} that differ in most pixels`;
  return { head, palette: [...palette], views };
}
// The lines of a list, of each view in a text.
function byView(lines) {
  const found = new Lists();
  lines.trimEnd().split('\n').forEach(line => found.at(line.split(' ')[1]).push(line));
  return [...found.values()].map(list => list.join('\n'));
}
