/* What the page and its workers share. FACTS are those of the tools in Python, put in where the page is made. */
const { WORDS, UNIT, TURN, EYE_HEIGHT, COUNTS, LIMITS, WIDTH, FRAME_HEIGHT } = FACTS;
class Wrong extends Error {} // a sentence for the user
const isOver = (name, count) => count > LIMITS[name];
const COMMAS = new Intl.NumberFormat('en'), withCommas = number => COMMAS.format(number);
/* What is handed from worker to worker while a map is counted are numbers. Of a place PLACE: x, y, its floor, the side of its
square, its sector, whether a way leads there, and the directions, as bits, of the views that are listed at once. Of what is found
there FOUND: a count and its direction for each of COUNTS, and such directions for places near it. */
const PLACE = 7, LISTED = 6, FOUND = 2 * COUNTS.length + 1, LIKELY = 2 * COUNTS.length;
// Of a place by its number its pairs of a count and a direction.
const pairsOf = (found, number) => COUNTS.map((_, i) => [found[FOUND * number + 2 * i], found[FOUND * number + 2 * i + 1]]);
// A list by a key, which is empty at first.
class Lists extends Map {
  at(key) { if (!this.has(key)) this.set(key, []); return this.get(key); }
}
