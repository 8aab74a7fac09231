/* The count of a map as it was, beside a new one: what got worse and what better, place by place, as tools/doomview_tools/earlier_run.py has it,
which says why: a test compares both. The count before is that of the version that was shown last, or what limits-map --json wrote. */
const { CHANGES_SHOWN } = FACTS, BEFORE_COUNTS = 3; // numbers of a square before its counts: its x, its y, its side

const stateWith = (numbers, doors) => numbers.states.find(state => state.doors === doors) || { counts: {} };
// Where the grid of an earlier run has a place, and the step to the next, so that a new run looks from the same places.
function startOf(numbers, doors) {
  const { squares, step } = stateWith(numbers, doors);
  return squares?.length ? { x: squares[0][0], y: squares[0][1], step } : null;
}
// What differs between two runs over a map: lines, places, and whether something over a limit got worse.
function comparisonOf(before, now) {
  const parts = now.states.flatMap(state => COUNTS.filter(name => name in stateWith(before, state.doors).counts)
    .map(name => comparisonOfCount(stateWith(before, state.doors), state, name)));
  return { lines: parts.flatMap(part => part.lines), changes: parts.flatMap(part => part.changes), isWorse: parts.some(part => part.isWorse) };
}
function comparisonOfCount(before, now, name) {
  const [over, most] = sumsOf(now.counts[name]), [oldOver, oldMost] = sumsOf(before.counts[name]), isMore = over > oldOver || over === oldOver && most > oldMost;
  const changes = before.squares ? changesIn(before, now, name) : [], [worse, better] = [true, false].map(is => changes.filter(change => isWorse(change) === is));
  if (over === oldOver && most === oldMost && !changes.length) return { lines: [], changes: [], isWorse: false };
  const verdict = !before.squares ? isMore ? 'worse' : 'better' : worse.length ? 'worse' : better.length ? 'better' : isMore ? 'more' : 'fewer';
  const lines = [['worse', worse], ['better', better]].filter(([, some]) => some.length).map(([word, some]) => placesTold(word, some));
  const head = `${verdict}, doors ${now.doors}: ${name} most ${most}, before ${oldMost}; views over ${over}, before ${oldOver}`;
  return { lines: [head, ...lines], changes, isWorse: before.squares ? worse.length > 0 : isMore && over > 0 };
}
const sumsOf = ({ over, most }) => [over, most];
const isWorse = ({ before, now }) => now !== null && now > (before ?? 0);
const differenceOf = ({ before, now }) => Math.abs((now ?? 0) - (before ?? 0));
// The places at which a count differs and is over its limit, now or before; what differs most first.
function changesIn(before, now, name) {
  const old = squaresOf(before, name), fresh = squaresOf(now, name), found = [];
  for (const key of new Set([...old.keys(), ...fresh.keys()])) {
    const [was, is] = [old.get(key), fresh.get(key)], [x, y] = key.split(' ').map(Number), one = { doors: now.doors, count: name, x, y, before: was?.count ?? null, now: is?.count ?? null };
    const isPlace = was && is || !isQuarter(x, y, was ? old : fresh);
    if (one.before !== one.now && isPlace && Math.max(one.before ?? 0, one.now ?? 0) > LIMITS[name]) found.push(one);
  }
  return found.sort((one, other) => differenceOf(other) - differenceOf(one) || one.x - other.x || one.y - other.y);
}
// The squares of a state by the x and y of their middles, with their side and one of their counts.
function squaresOf({ squares }, name) {
  return new Map(squares.map(square => [`${square[0]} ${square[1]}`, { side: square[2], count: square[BEFORE_COUNTS + COUNTS.indexOf(name)] }]));
}
// Whether a square of one run is the quarter of another of the same.
function isQuarter(x, y, squares) {
  const { side } = squares.get(`${x} ${y}`), aways = [Math.floor(-side / 2), Math.floor(side / 2)];
  return aways.some(i => aways.some(j => squares.get(`${x + i} ${y + j}`)?.side === 2 * side));
}
const countTold = count => count === null ? 'no place' : count;
function placesTold(word, changes) {
  const shown = changes.slice(0, CHANGES_SHOWN).map(({ x, y, now, before }) => `x ${x} y ${y}: ${countTold(now)}, before ${countTold(before)}`).join('; ');
  return `  ${word} at ${changes.length} place${changes.length > 1 ? 's' : ''}: ${shown}${changes.length > CHANGES_SHOWN ? `; and ${changes.length - CHANGES_SHOWN} more` : ''}`;
}
// The runs in a text that limits-map --json wrote: of one map, or of a map in each line; a Wrong where it is something else.
function runsInText(words, name) {
  const isSquare = square => square.length === BEFORE_COUNTS + COUNTS.length && square.every(Number.isInteger);
  const isState = state => Object.values(state.counts).every(({ over, most }) => Number.isInteger(over) && Number.isInteger(most)) &&
    (!state.squares || state.squares.every(isSquare) && state.step >= 1);
  try {
    const found = words.trim().includes('\n}') ? [JSON.parse(words)] : words.trim().split('\n').map(line => JSON.parse(line)), runs = found.filter(run => run.states);
    if (!runs.length || !runs.every(run => run.map && run.states.every(isState))) throw new Error('no run');
    return runs;
  } catch { throw new Wrong(`${name} is nothing that limits-map --json, or this page, wrote.`); }
}
