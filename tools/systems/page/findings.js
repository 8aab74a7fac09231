/* What checks of a map find, as tools/doomview_tools/findings.py has it: { grade, what, where, told }, and how numbers are written. */
const { SHOWN_NUMBERS, GRADES } = FACTS, [ERROR, HOLE, FAULT, ODD] = Object.keys(GRADES);
const byNumber = (one, other) => one - other;
const finding = (grade, what, where, told) => ({ grade, what, where, told });
// Numbers, or names, in order, not too many.
function someOf(numbers) {
  const all = [...new Set(numbers)].sort(typeof numbers[0] === 'number' ? byNumber : undefined);
  return all.slice(0, SHOWN_NUMBERS).join(' ') + (all.length > SHOWN_NUMBERS ? ` and ${all.length - SHOWN_NUMBERS} more` : '');
}
const several = (word, numbers) => `${word}${new Set(numbers).size > 1 ? 's' : ''} ${someOf(numbers)}`;
const sectorsNamed = numbers => several('sector', numbers);
// Lines with the coordinates of the first.
function linesNamed(numbers, level) {
  const { start, end } = level.lines[numbers.reduce((a, b) => Math.min(a, b))], ends = [start, end].map(vertex => level.vertexes[vertex].join(','));
  return `${several('line', numbers)} (${new Set(numbers).size > 1 ? 'the first ' : ''}${ends.join(' to ')})`;
}
// Where on a map the numbers are that a finding shows: x and y of each.
function placesOf({ where }, level) {
  const [, word, numbers] = /^(line|sector|thing)s? ((?:\d+ ?)+)/.exec(where) || [];
  return word ? numbers.trim().split(' ').map(number => placeOfNumber(word, Number(number), level)) : [];
}
function placeOfNumber(word, number, level) {
  if (word === 'thing') return [level.things[number].x, level.things[number].y];
  const isOf = ({ sides }) => sides.some(side => side !== null && level.sides[side]?.sector === number);
  const line = level.lines[word === 'sector' ? Math.max(0, level.lines.findIndex(isOf)) : number], [[x1, y1], [x2, y2]] = [line.start, line.end].map(vertex => level.vertexes[vertex]);
  return [(x1 + x2) / 2, (y1 + y2) / 2];
}
// Values by keys, in the order of the keys as Python sorts tuples of numbers and texts.
function grouped(pairs) {
  const found = new Map();
  for (const [key, value] of pairs) {
    const name = JSON.stringify(key);
    if (!found.has(name)) found.set(name, [key, []]);
    found.get(name)[1].push(value);
  }
  return [...found.values()].sort(([one], [other]) => compareKeys(one, other));
}
function compareKeys(one, other) {
  const [a, b] = [one, other].map(key => Array.isArray(key) ? key : [key]), at = a.findIndex((value, i) => value !== b[i]);
  return at < 0 ? 0 : a[at] < b[at] ? -1 : 1;
}
