/* Checks of a map, as tools/doomview_tools/checks.py has them: all that looks like a mistake. A test compares the findings of all maps of
Freedoom, and of a faulty map for each kind. */
const { GAME, PLACES_OF_PLAYERS, TALL, UPPER_UNPEGGED, LOWER_UNPEGGED } = FACTS, OF_THINGS = GAME.things;
const WALL_PARTS = ['upper', 'lower', 'middle'], UNDRAWN = new Set([...PLACES_OF_PLAYERS, OF_THINGS.spectre, ...OF_THINGS.last_boss]);

function findingsOf(level, wads, frames) {
  const check = new Check(level, new Art(wads), frames), parts = ['missingTextures', 'listsWrong', 'missingFlats', 'lostFlats', 'oddLines', 'walls', 'middles', 'sectors',
    'pictures', 'things', 'unclosedSectors'];
  return [...parts.flatMap(part => check[part]()), ...new GameCheck(check).findings()];
}

class Check {
  // `frames` has of each type of things in the thing table its sprite and frame.
  constructor(level, art, frames) {
    Object.assign(this, { level, art, frames, plan: new Plan(level), ofSide: new Lists() });
    level.lines.forEach((line, number) => line.sides.forEach(side => this.ofSide.at(side).push(number)));
  }
  get reached() {
    if (!this.known) { const { sectors } = reachOf(this.plan); this.known = sectors.size ? sectors : new Set(this.level.sectors.keys()); }
    return this.known;
  }
  lines(numbers) { return linesNamed(numbers, this.level); }
  // The sides of a line that are there: which it is, the side, and the sectors in front of it and behind it.
  sidesOf(number) {
    const { sides, flags } = this.level.lines[number], beside = this.plan.beside[number];
    return [0, 1].filter(which => sides[which] !== null && beside[which] !== null).map(which => {
      const behind = flags & TWO_SIDED ? beside[1 - which] : null;
      return { which, side: this.level.sides[sides[which]], front: this.level.sectors[beside[which]], back: behind === null ? null : this.level.sectors[behind] };
    });
  }
  // The textures that no list has: by name the sides, and the parts of walls.
  missing() {
    return grouped(this.level.sides.flatMap((side, number) => WALL_PARTS.filter(part => !side[part].startsWith('-') && !this.art.textures.has(side[part]))
      .map(part => [side[part], [number, part]])));
  }
  missingTextures() {
    const found = this.missing(), hidden = this.art.hiddenTextures(new Set(found.map(([name]) => name)));
    const ofName = ([name, places]) => {
      const parts = WALL_PARTS.filter(part => places.some(([, which]) => which === part)).join(' '), sides = places.map(([side]) => side);
      const here = sides.flatMap(side => this.ofSide.get(side) || []), where = here.length ? this.lines(here) : `${several('side', sides)}, of no line`;
      return finding(ERROR, 'texture', where, name ? `${parts} ${name} is in no list of textures${guess(name, this.art.textures.keys())}` :
        `${parts}: the name is empty; write - for no texture`);
    };
    return [...found.map(ofName), ...hidden.map(([name, file, hiding]) =>
      finding(ERROR, 'list', hiding, `its TEXTURE1 hides that of ${file}, which has ${name}; it needs all textures of both`))];
  }
  // What is wrong with the lists of textures: the original looks at all of them when it begins.
  listsWrong() {
    const hidden = this.art.hidingNames(), patches = hidden.length ? [] : [...this.art.missingPatches()].sort(([one], [other]) => compareKeys(one, other));
    return [...hidden.map(([name, file, hiding, texture, meant, instead]) => finding(ERROR, 'list', hiding, `its PNAMES hides that of ${file}, on which ` +
      `${name} counts: ${texture} needs the patch ${meant}, and gets ${instead}; begin it with all names of the other`)),
    ...patches.map(([patch, textures]) => finding(ERROR, 'patch', patch, `no WAD has this patch of the texture ${textures[0]}` +
      `${textures.length > 1 ? ` and ${textures.length - 1} more` : ''}: the original ends before it draws anything`))];
  }
  flatsOfSectors() { return this.level.sectors.flatMap(({ floorFlat, ceilingFlat }, number) => [['floor', floorFlat, number], ['ceiling', ceilingFlat, number]]); }
  missingFlats() {
    const found = this.flatsOfSectors().filter(([, name]) => !this.art.flats.has(name)).map(([part, name, number]) => [name, [number, part]]);
    return grouped(found).map(([name, places]) => {
      const parts = ['floor', 'ceiling'].filter(part => places.some(([, which]) => which === part)).join(' ');
      const why = this.art.last.has(name) ? ': there is a lump of that name, but not between F_START and F_END' : guess(name, this.art.flats);
      return finding(ERROR, 'flat', sectorsNamed(places.map(([number]) => number)), `${parts} ${name || '(no name)'} is no flat${why}`);
    });
  }
  // Flats that doomview draws and the original does not find.
  lostFlats() {
    const used = new Lists();
    this.flatsOfSectors().forEach(([, name, number]) => used.at(name).push(number));
    const [before, behind] = this.art.lostFlats([...used.keys()].filter(name => this.art.flats.has(name)));
    const file = this.art.files[this.art.having('F_START').at(-1)] ?? '';
    const told = (names, why) => !names.length ? [] : [finding(ERROR, 'flat', sectorsNamed(names.flatMap(name => used.get(name))),
      `${someOf(names)} ${names.length === 1 ? 'comes' : 'come'} ${why}. The original ends there`)];
    return [...told(before, `before the F_START of ${file}, with which the flats of the original begin; call that mark FF_START`),
      ...told(behind, 'after the last F_END, with which the flats of the original end; a PWAD has its own between FF_START and F_END')];
  }
  oddLines() {
    const { lines } = this.level, found = [], note = (grade, number, told) => found.push(finding(grade, 'line', this.lines([number]), told));
    for (const which of [0, 1]) {
      const lost = [...lines.keys()].filter(number => lines[number].sides[which] !== null && this.plan.beside[number][which] === null);
      if (lost.length) found.push(finding(ERROR, 'line', this.lines(lost), `its ${FRONT_AND_BACK[which]} side, or the sector of that, is not there`));
    }
    lines.forEach(({ start, end, flags, sides: [front, back] }, number) => {
      const behind = this.plan.beside[number][1];
      if (start === end) note(ODD, number, 'has no length');
      if (front === null) note(ERROR, number, 'has no front side');
      if (flags & TWO_SIDED && behind === null && back === null) note(FAULT, number, 'is two-sided and has no back side');
      if (!(flags & TWO_SIDED) && behind !== null) note(ODD, number, 'has two sides and is not two-sided: it is drawn as a wall');
    });
    return found;
  }
  // The parts of a side that are seen: whether the texture hangs from above by its own height, the texel row at its top without that.
  partsOf({ flags }, { which, side, front, back }) {
    const high = front.ceiling - front.floor, offset = side.yOffset, found = [], part = (name, height, hangs, start) =>
      found.push({ side: which, name, texture: side[name], height, hangs, start: offset + start, offset });
    if (back === null) {
      const hangs = (flags & LOWER_UNPEGGED) !== 0;
      if (high > 0) part('middle', high, hangs, hangs ? -high : 0);
      return found;
    }
    if (back.ceiling < front.ceiling && !(front.ceilingFlat === SKY && back.ceilingFlat === SKY)) {
      const hangs = !(flags & UPPER_UNPEGGED), below = front.ceiling - back.ceiling;
      part('upper', Math.min(below, high), hangs, hangs ? -below : 0);
    }
    if (back.floor > front.floor) part('lower', Math.min(back.floor - front.floor, high), false, flags & LOWER_UNPEGGED ? front.ceiling - back.floor : 0);
    return found;
  }
  // Parts without a texture, and those past the end of theirs.
  walls() {
    return this.level.lines.flatMap((line, number) => this.sidesOf(number).flatMap(side => this.partsOf(line, side)).flatMap(part => {
      const texture = this.art.textures.get(part.texture);
      if (part.texture.startsWith('-')) return [this.hole(number, part)];
      return texture && runsOut(part, texture) ? [finding(ODD, 'tutti-frutti', this.where(number, part), runsOutTold(part, texture))] : [];
    }));
  }
  where(number, part) { return `${this.lines([number])} ${FRONT_AND_BACK[part.side]}`; }
  // The finding of a part without a texture. One is odd in front of which no player can be, though he may see it from afar.
  hole(number, part) {
    const inFront = this.plan.beside[number][part.side], sector = this.level.sectors[inFront], told = `needs a texture: ${part.name}, ${part.height} high`;
    this.rising ??= this.plan.rising();
    const why = !hasHeight(sector) && !this.rising.has(inFront) ? `since sector ${inFront} in front of it is ${sector.ceiling - sector.floor} high` :
      !this.reached.has(inFront) ? `since no way leads to sector ${inFront} in front of it` : '';
    return finding(why ? ODD : HOLE, 'texture', this.where(number, part), why ? `${told}; seen from afar at most, ${why}` : told);
  }
  middles() {
    const having = this.level.lines.flatMap((_, number) => this.sidesOf(number).filter(({ side, back }) => back !== null && this.art.textures.has(side.middle))
      .map(({ side }) => [side.middle, number]));
    return grouped(having).flatMap(([name, numbers]) => {
      const counts = this.art.counts(this.art.textures.get(name)), column = counts.findIndex(count => count !== 1);
      return column < 0 ? [] : [finding(ERROR, 'Medusa', this.lines(numbers), `middle ${name} has ${counts[column] || 'no'} patches in column ${column}: ` +
        'the Medusa effect; take a texture of one patch a column')];
    });
  }
  sectors() {
    return this.level.sectors.flatMap(({ floor, ceiling }, number) => ceiling < floor ?
      [finding(ODD, 'sector', sectorsNamed([number]), `its ceiling ${ceiling} is below its floor ${floor}`)] : []);
  }
  // The things whose type has no row in the thing table, or a wrong one: by type and row.
  thingsOf(isWrong) {
    return grouped(this.level.things.flatMap(({ type }, number) => !UNDRAWN.has(type) && isWrong(this.frames.get(type)) ? [[[type, this.frames.get(type)], number]] : []));
  }
  pictures() {
    return this.thingsOf(frame => frame && !this.art.frames.has(frame)).map(([[type, frame], numbers]) =>
      finding(ERROR, 'thing', several('thing', numbers), `type ${type} needs the picture ${frame}, which no WAD has between S_START and S_END`));
  }
  things() {
    const { things } = this.level, place = new Ground(this.plan), isOutside = ({ x, y }) => [-.5, .5].every(off => place.isVoid(x, y + off));
    return [...things.some(({ type }) => type === PLAYER_1) ? [] : [finding(ERROR, 'thing', 'map', 'has no start of player 1 (thing of type 1)')],
      ...this.thingsOf(frame => frame === undefined).map(([[type], numbers]) => this.unknownThings(type, numbers)),
      ...things.flatMap((thing, number) => isOutside(thing) ? [finding(FAULT, 'thing', `thing ${number}`, `type ${thing.type} at ${thing.x}, ${thing.y} is outside the level`)] : [])];
  }
  // The finding of things of a type that there is not: the original ends where it would place one.
  unknownThings(type, numbers) {
    const placed = numbers.filter(number => type !== OF_THINGS.none && this.level.things[number].options & OF_THINGS.every_skill);
    const { x, y } = this.level.things[numbers[0]], where = several('thing', placed.length ? placed : numbers), head = `type ${type} at ${x}, ${y} is none of the game`;
    return placed.length ? finding(ERROR, 'thing', where, `${head}: the original ends there`) : finding(ODD, 'thing', where, `${head}, and never appears`);
  }
  // Sectors whose lines do not close, as checks.py says.
  unclosedSectors() {
    const gaps = this.gaps(), own = this.ownLines(), closing = gapLines(gaps, own), exempt = new Set(own.flatMap(({ ends }) => ends));
    return [...gaps].sort(([one], [other]) => one - other).flatMap(([sector, ends]) => {
      const found = [...ends].filter(end => !exempt.has(end) || closing.get(sector)?.has(end)).map(end => end.split(' ').map(Number)).sort(compareKeys);
      return found.length ? [finding(FAULT, 'sector', sectorsNamed([sector]), `is not closed: its lines end at ${found.slice(0, 2).map(end => end.join(', ')).join(' and ')}`)] : [];
    });
  }
  endsOf(number) { return this.plan.ends(number).map(end => end.join(' ')); }
  // The ends at which an odd number of a sector's lines end, by sector.
  gaps() {
    const found = new Map();
    this.plan.beside.forEach((pair, number) => {
      if (pair[0] === pair[1]) return;
      for (const sector of pair.filter(one => one !== null)) {
        if (!found.has(sector)) found.set(sector, new Set());
        const ends = found.get(sector);
        this.endsOf(number).forEach(end => ends.delete(end) || ends.add(end));
      }
    });
    return found;
  }
  ownLines() { return this.plan.beside.flatMap(([front, back], number) => front === back ? [{ sector: front, ends: this.endsOf(number) }] : []); }
}
// Of each sector the ends of lines that close its gap, and have on both sides one other sector that closes none elsewhere.
function gapLines(gaps, own) {
  const closed = new Lists(), found = new Map();
  for (const [sector, open] of gaps)
    for (const { sector: of, ends } of own)
      if (of !== null && of !== sector && ends[0] !== ends[1] && ends.every(end => open.has(end))) closed.at(of).push([sector, ends]);
  for (const pairs of closed.values())
    if (pairs.length === 1) pairs.forEach(([sector, ends]) => found.set(sector, new Set([...found.get(sector) || [], ...ends])));
  return found;
}
// The texel row of a texture at the top of a part, which goes round after TALL rows.
const firstRow = ({ start, hangs }, texture) => (((start + (hangs ? texture.height : 0)) % TALL) + TALL) % TALL;
// Whether rows past the end of a texture show, since it is lower than the rows after which it begins anew.
function runsOut(part, texture) {
  const first = firstRow(part, texture), rows = Math.min(part.height, TALL);
  return texture.height > 0 && texture.height < TALL && Array.from({ length: Math.max(0, rows) }, (_, row) => (first + row) % TALL).some(row => row >= texture.height);
}
function runsOutTold(part, texture) {
  const first = firstRow(part, texture), begins = part.offset ? `, and begins in row ${first} (row offset ${part.offset})` : first ? `, and begins in row ${first}` : '';
  return `${part.name} ${texture.name} is ${texture.height} high and the wall ${part.height}${begins}: rows of other pictures show`;
}
