/* What a view would count if some of its sectors were alike, as tools/doomview_tools/what_if.py has it: each change gives the sectors of a
view that have one value of a field another one, which sectors there have already. It is drawn, and counted. */
const { GOALS, MOST_DRAWN, SHOWN_CHANGES, CHANGED } = FACTS; // CHANGED: the fields in order, in words
const FIELD_NAMES = { light: 'light', floor_flat: 'floorFlat', ceiling_flat: 'ceilingFlat', floor: 'floor', ceiling: 'ceiling' }, HEIGHT_FIELDS = ['floor', 'ceiling'];
const FIELD_PLACES = { floor: 0, ceiling: CEILING_PLACE, floorFlat: FLATS[0], ceilingFlat: FLATS[1], light: LIGHT_PLACE };

// The changes that may save most, by how many planes of a view each sector made.
function changesOf(level, planesOf) {
  return Object.entries(FIELD_NAMES).flatMap(([name, field]) => changesOfField(level, planesOf, name, field))
    .filter(({ sectors }) => sectors.length).sort((one, other) => other.weight - one.weight).slice(0, MOST_DRAWN);
}
function changesOfField(level, planesOf, name, field) {
  const having = new Lists();
  for (const number of planesOf.keys()) having.at(level.sectors[number][field]).push(number);
  const weights = new Map([...having].filter(([value]) => value !== SKY).map(([value, numbers]) => [value, numbers.reduce((sum, number) => sum + planesOf.get(number), 0)]));
  const change = (before, after, sectors, weight) => ({ name, field, before, after, weight, sectors: sectors.filter(number => hasRoom(level.sectors[number], field, after)) });
  const found = [...weights].flatMap(([value, weight]) => goalsOf(weights, field, value).map(goal => change(value, goal, having.get(value), weight)));
  const [most] = mostFirst(weights)[0] || [null], rest = [...weights.keys()].filter(value => value !== most).flatMap(value => having.get(value));
  return rest.length && !HEIGHT_FIELDS.includes(field) ? [...found, change(null, most, rest, sumOf(weights))] : found;
}
// The values to which a value may be changed: the nearest heights and lights, the flats of most planes, and the light of most.
function goalsOf(weights, field, value) {
  const others = mostFirst(weights).map(([other]) => other).filter(other => other !== value);
  if (typeof value === 'string') return others.slice(0, GOALS);
  const near = [...others].sort((one, other) => Math.abs(one - value) - Math.abs(other - value)).slice(0, GOALS);
  return HEIGHT_FIELDS.includes(field) ? near : [...new Set([...near, ...others.slice(0, 1)])];
}
function hasRoom(sector, field, after) {
  const changed = { ...sector, [field]: after };
  return changed.ceiling > changed.floor || sector.ceiling <= sector.floor;
}
// The bytes of a PWAD of a level alone with a change.
function withChange(level, { field, after, sectors }) {
  const bytes = level.bytes.SECTORS.slice(), view = new DataView(bytes.buffer);
  for (const number of sectors) {
    const at = SECTOR_SIZE * number + FIELD_PLACES[field];
    if (typeof after !== 'string') view.setInt16(at, after, true);
    else { bytes.fill(0, at, at + NAME); putName(bytes, at, after); }
  }
  return wadOf([[level.name, new Uint8Array()], ...MAP_LUMPS.map(name => [name, name === 'SECTORS' ? bytes : level.bytes[name]])]);
}
// The rows of the table: what is saved of planes and of fragments by each change that saves some. `countsWith` gives the counts of a PWAD.
function savings(level, planesOf, counts, countsWith) {
  const found = changesOf(level, planesOf).map(change => ({ change, counts: countsWith(withChange(level, change)) })).filter(({ counts: now }) => now && now.planes !== undefined);
  found.sort((one, other) => one.counts.planes - other.counts.planes || one.change.sectors.length - other.change.sectors.length);
  return found.filter(({ counts: now }) => now.planes < counts.planes || now.fragments < counts.fragments).map(({ change, counts: now }) =>
    [...['planes', 'fragments'].flatMap(name => [`${counts[name] - now[name]}`, `${now[name]}`]), changeTold(change)]);
}
function changeTold({ name, before, after, sectors }) {
  return `${CHANGED[name]} ${after} for ${before === null ? 'all others' : before} in ${sectors.length === 1 ? 'sector' : 'sectors'} ${sectors.join(', ')}`;
}
