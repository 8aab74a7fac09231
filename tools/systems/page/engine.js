/* The worker: holds the files, runs the proved program over them, and answers the page. All that takes time is here, so the
page never freezes. A message is { id, name, words }: the answer is { id, value } or { id, wrong }, a sentence. While a map is
counted the worker asks the page what is found at places, { id, places }, which the page has its other workers find. */
const { RAISED, STATUS_LIMIT, WORST_VIEWS, ZONE } = FACTS;
const PATH = 'path.csv', TRIMMED = 'level.wad', OPENED = 'open.wad', WALLS = 'walls.wad', MARKED = 'stand-ins.wad', CHANGED_WAD = 'changed.wad';
const state = { program: null, base: new Map(), files: [], wads: [], shut: null, open: null, map: '', words: [], asked: new Map(), questions: 0 };

const bytesOfText = words => new TextEncoder().encode(words);
const rowText = rows => `x,y,z,angle\n${rows.map(row => `${row.join(',')}\n`).join('')}`;

// Runs a job over the level with a path; `out` takes the pieces of its output. Gives its status and line.
function stream(name, path, more, out, wads = state.wads) {
  const files = new Map([...state.base, ...wads.map(wad => [wad.name, wad.source]), [PATH, new MemorySource(bytesOfText(path))]]);
  const words = [name, state.map, ...wads.map(wad => wad.name), '--tables', 'tables.bin', '--things', 'things.csv', '--path', PATH];
  try {
    return state.program.run([...words, ...more], files, out);
  } catch (error) { throw new Wrong(failureTold(error)); }
}
// What a run that the browser's engine ended says: for want of stack, for want of memory, or for something that is not known.
function failureTold({ name, message }) {
  if (/stack|recursion/.test(message)) // of V8, of Firefox
    return `the nodes of this map are deeper than this browser can follow (${message}); take the program itself, or build the nodes anew by another builder`;
  return `${name === 'RangeError' ? 'the browser gave no more memory' : 'the program failed in this browser'} (${message}); close other pages, and try again`;
}
// The same with the whole output.
function job(name, path, more, wads) {
  const pieces = [], done = stream(name, path, more, piece => pieces.push(piece.slice()), wads);
  return { ...done, output: joined(pieces) };
}
// The same where it has to end well; else a Wrong with the sentences of explain.
function jobOutput(name, path, more, wads) {
  const done = job(name, path, more, wads);
  if (done.status) throw new Wrong(sentencesOn(new Scene(state.files, state.map), done.line).join('\n'));
  return done.output;
}
const textOf = bytes => new TextDecoder('latin1').decode(bytes);

// A file as it was chosen: its name, its source, and its WAD or what is wrong with it.
function opened(file) {
  const { name } = file, source = new FileSource(file);
  try {
    return { name, source, wad: new Wad(name, source), wrong: '' };
  } catch (error) {
    const wrong = error instanceof Wrong ? error.message : `${name} cannot be read; choose it anew`;
    return { name, source, wad: null, wrong: !source.hasChanged && isPacked(source) ? `${wrong}: it is a packed file, which is to be unpacked first` : wrong };
  }
}
// What a user sees of the maps of some files that may be none: of each its name, its file, and why it is no map that can be read, or ''.
function mapsOf(files) {
  const lumps = files.flatMap(file => file.wad.lumps), labels = mapLabels(lumps), last = new Map(lumps.map(lump => [lump.name, lump.wad]));
  const broken = brokenLabels(lumps).map(name => ({ name, file: last.get(name).name, isGame: last.get(name).isGame, wrong: noMap(name, lumps, []) }));
  const whole = [...labels].map(([name, place]) => ({ name, file: lumps[place].wad.name, isGame: lumps[place].wad.isGame, wrong: '' }));
  return [...whole, ...broken].sort((one, other) => compareKeys(one.name, other.name));
}
function gameBehind(files) {
  return files.slice(1).filter(file => file.wad.isGame).map(file =>
    `${file.name} is an IWAD and comes behind another WAD, so its maps and pictures count before those of that WAD. Put the IWAD first.`);
}

const calls = {
  setUp({ module, tables, things }) {
    state.program = new Program(module);
    state.base = new Map([['tables.bin', new MemorySource(tables)], ['things.csv', new MemorySource(things)]]);
  },
  // Takes files in their order: what each is, and the maps in them.
  open(files) {
    const all = files.map(opened);
    state.files = all.filter(file => file.wad);
    return { files: all.map(file => ({ name: file.name, size: file.source.size, isGame: Boolean(file.wad?.isGame), wrong: file.wrong })),
      maps: mapsOf(state.files), wrong: [...all.map(file => file.wrong).filter(Boolean), ...gameBehind(state.files)] };
  },
  // Reads a map: what the page draws of it, and the row at which it begins. What keeps it from being drawn is a Wrong.
  level({ map, skill }) {
    Object.assign(state, { map, words: ['--skill', String(skill)], wads: state.files });
    const of = state.files.map(file => file.wad), marked = markedOf(of, map);
    if (marked) state.wads = [...state.files, wadOfBytes(MARKED, marked.bytes)];
    jobOutput('audit', rowText([]), state.words);
    readLevel(of, map).checkWhole();
    const small = jobOutput('trim', rowText([]), state.words);
    this.take({ map, skill, small });
    const { level, plan } = state, lumps = state.files.flatMap(file => file.wad.lumps);
    return { ...outlineOf(level, plan), row: startOr(level, plan), palette: lumpBytes(lumps.findLast(lump => lump.name === 'PLAYPAL')).slice(0, 768), small,
      remark: marked ? marked.told : '', sectors: level.sectors.length, wad: lumps[mapLabels(lumps).get(map)].wad.name };
  },
  // What the page draws of a map that has to be drawn without the program, and all that looks like a mistake in it, with its places.
  lint({ map }) {
    const wads = state.files.map(file => file.wad), level = readLevel(wads, map).checkWhole(), plan = new Plan(level);
    const found = findingsOf(level, wads, framesOf(state.base.get('things.csv').bytes));
    return { findings: found.map(one => ({ ...one, places: placesOf(one, level) })), ...outlineOf(level, plan) };
  },
  // Takes a level as `trim` wrote it: each run over it reads only what its frames need.
  take({ map, skill, small }) {
    const wad = wadOfBytes(TRIMMED, small), level = readLevel([wad.wad], map), plan = new Plan(level);
    Object.assign(state, { map, words: ['--skill', String(skill)], wads: [wad], open: null, level, plan, ground: new Ground(plan),
      names: new Names(wad.wad.lumps), seenAs: '' });
    state.shut = runsOver(state.wads, level);
  },
  // Takes the level with its doors open, in a WAD that comes behind the other.
  takeOpen(bytes) {
    const wad = wadOfBytes(OPENED, bytes);
    state.open = runsOver([...state.wads, wad], readLevel([wad.wad], state.map)); state.seenAs = '';
  },
  // The frame of a place, with its row; null where no sector is.
  frame({ spans, isOpen, ...place }) {
    const row = rowAt(place), runs = runsOf(isOpen);
    return row && { row, frame: jobOutput('render', rowText([row]), [...wordsOf(runs, 'roomy'), '--spans', spans], runs.wads) };
  },
  // The counts of the view of a place by name, solid ranges too; of one that passes a raised limit that count alone.
  countsAt({ isOpen, ...place }) {
    const row = rowAt(place), found = {}, count = counted(isOpen);
    if (row) count('list', [row], counts => COUNTS.forEach((name, i) => { if (counts[i] !== NONE) found[name] = counts[i]; }));
    if (found.fragments !== undefined) count('walls', [row], ranges => { found.solids = ranges; });
    return row && found;
  },
  // What is found at some places: a part of a whole count.
  look({ isOpen, ...places }) { return new Look(places, counted(isOpen)).found(); },
  // What painted a pixel of a view, in words.
  pixel({ row, spans, isOpen, x, y }) {
    const key = `${row.join()} ${spans} ${isOpen}`;
    if (state.seenAs !== key) {
      const runs = runsOf(isOpen), trace = jobOutput('trace', rowText([row]), [...wordsOf(runs, 'roomy'), '--spans', spans], runs.wads);
      const list = textOf(jobOutput('list', rowText([row]), wordsOf(runs, 'enough'), runs.wads));
      state.seen = new Places(runs.level, state.names, trace, list);
      state.seenAs = key;
    }
    return state.seen.pixel(x, y);
  },
  // The bytes of a WAD of the map with its doors open, which the page saves.
  openWad() { return withCeilings(state.level, state.plan.doors()); },
  // Why a view has its counts: the tables of why-limit, and of three of them the rows and hues of all pixels.
  why({ row, spans, isOpen }) {
    const runs = runsOf(isOpen), more = [...wordsOf(runs, 'roomy'), '--spans', spans], listed = of => textOf(jobOutput('list', rowText([row]), wordsOf(of, 'enough'), of.wads));
    const list = listed(runs), over = / over (\w+) (\d+)/.exec(list);
    if (over) throw new Wrong(`this view has more than ${over[2] - 1} ${over[1]}, the most that doomview counts`);
    const reasons = new Reasons(runs.level, state.names, jobOutput('trace', rowText([row]), more, runs.wads), list, listed(runs.walls));
    const tables = Object.fromEntries(['planes', 'splits', 'fragments', 'sprites', 'solids'].map(name => [name, reasons[name]()]));
    return { tables, pixels: Object.fromEntries(Object.keys(KINDS_OF_TABLES).map(name => [name, reasons.pixels(name)])) };
  },
  // What a view would count after changes: rows of the last table.
  savings({ row, isOpen }) {
    const runs = runsOf(isOpen), list = textOf(jobOutput('list', rowText([row]), wordsOf(runs, 'enough'), runs.wads));
    const reasons = new Reasons(runs.level, state.names, null, list, ''), now = numbersOfList(list);
    return savings(runs.level, reasons.planesOfSectors(), now, bytes => {
      const wads = [...runs.wads, wadOfBytes(CHANGED_WAD, bytes)], done = job('list', rowText([row]), wordsOf(runs, 'enough'), wads);
      return done.status ? null : numbersOfList(textOf(done.output));
    });
  },
  // A place near another from which that is seen.
  beside({ x, y }) {
    const far = [64, 32, 16, 8], turns = Array.from({ length: 8 }, (_, i) => i * Math.PI / 4);
    for (const away of far)
      for (const turn of turns) {
        const at = [x + away * Math.cos(turn), y + away * Math.sin(turn)];
        if (!state.ground.isVoid(at[0], Math.floor(at[1]) + .5)) return { x: at[0], y: at[1], angle: (turn * 180 / Math.PI + 180) % 360 };
      }
    return null;
  },
  // Counts the whole map, with its doors shut and open; asks the page to have its places looked at.
  async grid({ everywhere, step, directions, wad, starts }) {
    const { level, plan } = state, doors = plan.doors(), reach = reachOf(plan), options = { everywhere, step, directions };
    if (!reach.sectors.size && !everywhere) throw level.error('has no start of a player; it can be counted from all places');
    const plans = [['shut', plan]];
    if (doors.length) {
      const bytes = withCeilings(level, doors);
      this.takeOpen(bytes);
      await ask('takeOpen', { bytes });
      plans.push(['open', new Plan(state.open.level)]);
    }
    const states = await Promise.all(plans.map(async ([label, of]) => {
      const look = places => ask('look', { ...places, isOpen: label === 'open' });
      return { label, grid: await new Grid(new Ground(of), look, reach, { ...options, start: starts?.[label] }).counted() };
    }));
    if (!states.some(one => one.grid.cells.length)) throw level.error('has no place with room for a player');
    return { numbers: { ...numbersOf(plan, states, directions), wad }, states: states.map(stateOf) };
  },
  // The frames of a path beside those of a port, as the page of `compare` has them.
  compare(words) { return comparison(words); },
};
// The planes and fragments of the one view of a list; none of one over a raised limit.
function numbersOfList(list) {
  const [, fragments, planes] = / fragments \d+ of (\d+) planes (\d+)/.exec(list) || [];
  return planes === undefined ? null : { planes: Number(planes), fragments: Number(fragments) };
}
// What stands in for the art that a map lacks; null where it lacks none, or map or lists cannot be read, which the program says.
function markedOf(wads, map) {
  try { return standIns(readLevel(wads, map), wads); } catch { return null; }
}
const outlineOf = (level, plan) => ({ vertexes: level.vertexes, lines: level.lines.map((line, i) => [line.start, line.end, plan.isWall(i) ? 1 : 0]) });
// Of each type of things in the thing table its sprite and frame.
const framesOf = bytes => new Map(textOf(bytes).trim().split('\n').slice(1).map(row => row.split(',')).map(([type, sprite, frame]) => [Number(type), sprite + frame]));
// The zones that suffice for some WADs, as the job `audit` says: the smaller one begins a run sooner.
function zonesOf(wads) {
  const [, enough, roomy] = /enough (\d+) roomy (\d+)/.exec(textOf(jobOutput('audit', rowText([]), [...state.words, ...RAISED], wads)));
  const zone = bytes => ['--zone', String(Math.min(ZONE, Math.ceil(Number(bytes) / 4) * 4))];
  return { enough: zone(enough), roomy: zone(Math.max(Number(roomy), Number(enough))) };
}
// What is run over a level: its WADs with their zones, and the same with one more that has its solid walls alone.
function runsOver(wads, level) {
  const walls = [...wads, wadOfBytes(WALLS, wallsAlone(level))];
  return { level, wads, zones: zonesOf(wads), walls: { wads: walls, zones: zonesOf(walls) } };
}
const runsOf = isOpen => isOpen && state.open || state.shut;
const wordsOf = ({ zones }, zone) => [...state.words, ...RAISED, ...zones[zone]];
// The row of a place: on the floor there where it has no height; null where no sector is.
function rowAt({ x, y, z, angle }) {
  if (z === undefined && state.ground.isVoid(x, Math.floor(y) + .5)) return null;
  return [Math.round(x * UNIT), Math.round(y * UNIT), z ?? (state.level.floorAt(x, y) + EYE_HEIGHT) * UNIT, angle];
}
// Runs jobs of a whole count: a function of `limits`, `list`, or over the solid walls alone `walls`, of rows, and of what takes what is
// counted of each row with its place among them.
const LINES = { limits: LinesOfLimits, list: LinesOfList, walls: LinesOfWalls };
const counted = isOpen => (name, rows, take) => {
  if (!rows.length) return;
  let number = 0;
  const lines = new LINES[name](found => take(found, number++)), isWalls = name === 'walls', runs = isWalls ? runsOf(isOpen).walls : runsOf(isOpen);
  const done = stream(isWalls ? 'list' : name, rowText(rows), wordsOf(runs, 'enough'), piece => lines.feed(piece), runs.wads);
  if (done.status && done.status !== STATUS_LIMIT) throw new Wrong(sentencesOn(new Scene(state.wads, state.map), done.line).join('\n'));
};
function stateOf({ label, grid }) {
  return { label, step: grid.step, views: grid.views, over: grid.over, directions: grid.directions,
    worst: Object.fromEntries(COUNTS.map((name, i) => [name, grid.worst(i, WORST_VIEWS)])),
    places: grid.cells.map(({ x, y, size, sector, floor, isReached, most }) => ({ x, y, size, sector, floor, isReached, most })) };
}
function wadOfBytes(name, bytes) {
  const source = new MemorySource(bytes);
  return { name, source, wad: new Wad(name, source) };
}
function startOr(level, plan) {
  try { return level.startRow(); } catch { /* a map without a player: the middle of it */ }
  const [lowX, lowY, highX, highY] = plan.box(), x = Math.round((lowX + highX) / 2), y = Math.round((lowY + highY) / 2);
  return [x * UNIT, y * UNIT, (level.floorAt(x, y) + EYE_HEIGHT) * UNIT, 0];
}
// What the page has its other workers do.
function ask(name, words) {
  const id = ++state.questions;
  return new Promise((done, fail) => { state.asked.set(id, { done, fail }); postMessage({ ...words, id, name, isAsked: true }); });
}
// What is in an answer and is moved, not copied.
const moved = value => [value?.frame, value?.most].filter(Boolean).map(numbers => numbers.buffer);
async function answer({ id, name, words }) {
  try {
    const value = await calls[name](words);
    postMessage({ id, value }, moved(value));
  } catch (error) {
    postMessage({ id, wrong: error instanceof Wrong ? error.message : `this page failed: ${error.message}`, stack: String(error.stack) });
  }
}
onmessage = ({ data }) => {
  if (data.name !== 'answer') return answer(data);
  const { done, fail } = state.asked.get(data.id);
  state.asked.delete(data.id);
  if (data.wrong) fail(new Wrong(data.wrong)); else done(data.value);
};
