/* A place as people write it: in map units and degrees, as an editor copies it, or as the row of a camera path. */
const degrees = angle => Math.round(angle / TURN * 3600) / 10;
const inUnits = number => Math.round(number / UNIT * 100) / 100;
// A row in map units: x y, and the angle.
const placeTold = ([x, y, , angle]) => `${inUnits(x)} ${inUnits(y)}, ${degrees(angle)}°`;
const pathText = rows => `x,y,z,angle\n${rows.map(row => `${row.join(',')}\n`).join('')}`;
/* The place of a text, { x, y, z, angle } with z undefined for an eye over the floor: a row of a path is four whole numbers with commas; else
x, y, and maybe an angle in degrees, are the first numbers, whatever words an editor has beside them. */
function placeOfText(words, angle) {
  const row = /^\s*(-?\d+)\s*,\s*(-?\d+)\s*,\s*(-?\d+)\s*,\s*(\d+)\s*$/.exec(words);
  if (row) return { x: Number(row[1]) / UNIT, y: Number(row[2]) / UNIT, z: Number(row[3]), angle: Number(row[4]) % TURN / TURN * 360 };
  const numbers = (words.match(/-?\d+(?:\.\d+)?/g) || []).map(Number);
  if (numbers.length < 2 || numbers.length > 4) throw new Wrong(`“${words.trim()}” is no place: write x y, or x y, angle in map units and degrees, or a row of a path.`);
  const turned = numbers.length === 2 ? angle : numbers.at(-1);
  return { x: numbers[0], y: numbers[1], z: undefined, angle: ((turned % 360) + 360) % 360 };
}
// The rows of a camera path; its header and what is behind the four numbers of a row count for nothing.
function rowsOfPath(words, name) {
  const lines = words.replace(/^\ufeff/, '').split(/\r?\n/).filter(line => line.trim()), rows = lines.slice(1).map(line => line.split(',').slice(0, 4).map(Number));
  if (!/^\s*x\s*,\s*y\s*,\s*z\s*,\s*angle/i.test(lines[0] || '')) throw new Wrong(`${name} is no camera path: its first line is to be x,y,z,angle.`);
  const bad = rows.findIndex(row => row.length < 4 || !row.every(Number.isInteger));
  if (bad >= 0) throw new Wrong(`${name}: line ${bad + 2} is to have four whole numbers: x, y, z, angle.`);
  if (!rows.length) throw new Wrong(`${name} has no rows.`);
  return rows;
}
