/* What is saved, in files that have the names of the WAD and the map, and say with which doors. */
const wordOf = name => name.replace(/\.wad$/i, '').replace(/[^\w-]+/g, '_').toLowerCase();
const base = () => `${wordOf(level.wad)}-${wordOf(level.map)}`;
// JSON in which a list of numbers is in a line.
const jsonOf = found => JSON.stringify(found, null, 1).replace(/\[\n[-\d,\s]+\]/g, it => it.split(/\s+/).join(' '));
// Saves rows as a path whose name says with which doors, and with open ones the map of which they are.
async function savePath(what, rows, doors) {
  save(`${base()}-${what}-doors-${doors}.csv`, pathText(rows), 'text/csv');
  if (doors === 'open') await saveOpenWad();
}
async function saveOpenWad() { save(`${base()}-doors-open.wad`, await crew.first('openWad', {})); }
async function saveKept() {
  if (!kept.count) return savePath('view', [walker.view.row], walker.place.isOpen ? 'open' : 'shut');
  for (const [doors, rows] of Object.entries(kept.byDoors)) if (rows.length) await savePath('views', rows, doors);
}
async function saveWorst() { for (const { label } of whole.states()) await savePath('worst', whole.rows(label), label); }
const saves = { path: saveKept, png: () => find('picture').toBlob(picture => save(`${base()}.png`, picture)), trim: () => save(`${base()}-small.wad`, level.small),
  worstPath: saveWorst, openWad: saveOpenWad, json: () => save(`${base()}.json`, `${jsonOf(whole.found.numbers)}\n`, 'application/json'),
  savePage: () => save(`${base()}-compared.html`, compared, 'text/html') };
// What needs a map that is drawn, or says that there is none.
const withView = act => () => level && walker.view ? act() : hint('There is no map that is drawn.');
function keep() {
  if (!walker.view) return;
  kept.keep(walker.view.row, walker.place.isOpen); hint(`Kept: ${placeTold(walker.view.row)}${walker.place.isOpen ? ', doors open' : ''}.`);
}
function copy() {
  const done = () => { find('copied').textContent = 'copied'; };
  const byHand = () => { getSelection().selectAllChildren(find('row')); find('copied').textContent = document.execCommand('copy') ? 'copied' : 'marked: copy it'; };
  if (navigator.clipboard) navigator.clipboard.writeText(find('row').textContent).then(done, byHand); else byHand();
}
