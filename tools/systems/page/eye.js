/* The eye: what is seen from where it is, its counts, its row, and what painted the pixel under the pointer. */
const STILL = 150; // milliseconds after which what is under the pointer is told anew for another view
const walker = new Walker(async place => {
  const words = { ...place, spans: spans() }, [view, counts] = await Promise.all([crew.some('frame', words), crew.some('countsAt', words)]);
  return view && { ...view, counts };
}, shown, sentence => say(sentence), outside);
// Nothing is seen from a place: the eye stays, or goes to the start where it was nowhere, as in a new version of a map.
function outside({ x, y }) {
  if (!walker.view && level) return walker.go(level.row, false);
  return hint(`There is no floor at ${inUnits(x * UNIT)} ${inUnits(y * UNIT)}: that is outside of the map.`);
}
const counts = new CountTable(find('counts'), i => chooseCount(i));
const spans = () => find('spans').value;
let drawn = 0;
function shown(view) {
  drawFrame(find('picture'), view.frame, level.palette); drawn++;
  counts.show(view.counts); askAgain();
  find('row').textContent = view.row.join(','); find('copied').textContent = '';
  if (document.activeElement !== find('where')) find('where').value = placeTold(view.row);
  draw(); why.follow();
}
// The parts of the map that change with the view.
function draw() {
  const { view } = walker;
  display?.show({ eye: view && { x: view.row[0] / UNIT, y: view.row[1] / UNIT, angle: degrees(view.row[3]) }, dots: whole.dots(view) });
}
// A click: the eye stands there, or with Shift looks there.
function stand(x, y, event) {
  if (!walker.view) return;
  if (event.shiftKey) walker.face(Math.atan2(y - walker.view.row[1] / UNIT, x - walker.view.row[0] / UNIT) * 180 / Math.PI);
  else if (!whole.found || !display.placeAt(x, y)) walker.stand(x, y);
}
function look(place) { if (place && whole.found) walker.go(whole.row(place), whole.isOpen); }
function tell(place, marks = []) {
  const lines = marks.map(mark => mark.told);
  find('told').textContent = [...new Set(lines), ...place && whole.now() ? [whole.told(place)] : []].join('\n');
}
// Goes to the place that is written: map units or a row of a path.
function goTo(words) {
  if (!walker.place) return;
  try {
    walker.want({ ...walker.place, ...placeOfText(words, walker.place.angle) }); find('picture').focus();
  } catch (error) { hint(error.message); }
}

/* The pixel under the pointer. */
let pointed = null, pointer = null, isAsking = false, waiting = 0;
function askAgain() {
  clearTimeout(waiting);
  if (pointer) waiting = setTimeout(() => { pointed = pointer; askPixel(); }, STILL);
}
async function askPixel() {
  if (isAsking || !pointed || !walker.view) return;
  const [x, y] = pointed, { row } = walker.view, isSame = level;
  pointed = null; isAsking = true;
  let told;
  try {
    told = `column ${x} row ${y}: ${await crew.some('pixel', { row, spans: spans(), isOpen: walker.place.isOpen, x, y })}`;
  } catch (error) { told = error.message; }
  if (isSame === level) find('pixel').textContent = told;
  isAsking = false; askPixel();
}
function point(event) {
  const box = find('picture').getBoundingClientRect(), share = (at, size, most) => Math.max(0, Math.min(most - 1, Math.floor(at * most / size)));
  pointed = pointer = [share(event.clientX - box.left, box.width, WIDTH), share(event.clientY - box.top, box.height, FRAME_HEIGHT)]; askPixel();
}
