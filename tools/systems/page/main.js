/* The page: ties the files and their maps to what shows them. */
const SCRIPT = `'use strict';\nconst FACTS = ${JSON.stringify(FACTS)};\n${find('worker').textContent}`;
const NO_MEMORY64 = 'This browser has no WebAssembly memory of 64 bits, which this page needs: take Chromium, Chrome or Edge from 133, ' +
  'or Firefox from 134.';
const HELPERS = Math.min(16, Math.max(2, navigator.hardwareConcurrency || 4));
const bytesOf = letters => Uint8Array.from(atob(letters), letter => letter.charCodeAt(0));
let crew, display = null, level = null, maps = [], opening = 0;

/* Files and maps. */
const list = new WadList(find('wads'), async (files, came = []) => {
  const turn = ++opening, before = find('chosen').value;
  crew.stop();
  const found = await crew.first('open', files);
  if (turn !== opening) return; // files have changed again
  list.show(found.files); maps = found.maps; showMaps();
  const remarks = [...found.wrong, ...maps.filter(map => map.wrong && !map.isGame).map(map => `${map.wrong}.`)];
  if (!maps.length) { leave(files.length ? 'files' : 'empty'); return say([...remarks, ...files.length ? ['There is no map in these files.'] : []].join('\n')); }
  find('chosen').value = mapToShow(found.files, before, came);
  await choose(remarks);
});
function showMaps() {
  find('chosen').replaceChildren(...maps.map(({ name, file, wrong }) => new Option(`${name} (${file})${wrong ? ': cannot be read' : ''}`, name)));
  find('chosen').disabled = !maps.length;
}
// The name of the map that is shown: the one before, or, where a WAD with maps is new, the first of the last PWAD.
function mapToShow(files, before, came) {
  const order = [...files.filter(file => file.isGame), ...files.filter(file => !file.isGame)].map(file => file.name);
  const last = order.findLast(name => maps.some(map => map.file === name)), own = maps.filter(map => map.file === last);
  if (!came.includes(last) && maps.some(map => map.name === before)) return before;
  return (own.find(map => !map.wrong) || own[0]).name;
}
// Shows no map.
function leave(state) {
  earlier.keep(whole.found); level = display = null; walker.leave(); whole.clear(); kept.clear(); walk.end(); why.clear();
  setState(state); findings.clear();
}
// Reads the map that is chosen, and goes to its start, or stays where the eye was if it is another version of the map that was shown.
async function choose(remarks = []) {
  const map = find('chosen').value, { file, wrong } = maps.find(one => one.name === map), skill = Number(find('skill').value), turn = ++opening;
  crew.stop(); find('start').disabled = true;
  try {
    if (wrong) throw new Wrong(`${wrong}.`);
    const found = await crew.first('level', { map, skill });
    await crew.all('take', { map, skill, small: found.small });
    if (turn === opening) show({ ...found, map, skill }, remarks);
  } catch (error) {
    if (turn === opening) await refuse(map, file, [...new Set([...remarks, error.message === `${wrong}.` ? error.message : `${map}: ${error.message}`])], Boolean(wrong), turn);
    return;
  }
  if (turn === opening) await findings.ask(map, turn);
}
// What tells a version of a file from another.
function versionOf(name) {
  const file = list.files.find(one => one.name === name);
  return file ? `${name} ${file.size} ${file.lastModified}` : name;
}
function show(found, remarks) {
  const place = level && level.map === found.map && level.wad === found.wad && walker.place;
  if (!place) { kept.clear(); walk.end(); }
  earlier.keep(whole.found);
  level = { ...found, version: versionOf(found.wad) }; walker.leave(); whole.clear(); why.clear(); findings.clear();
  say([...remarks, ...found.remark ? [found.remark] : []].join('\n'));
  setState('map'); find('unseen').hidden = true; find('start').disabled = false; find('far').textContent = '';
  showMap(found); showWhole(); earlier.show();
  if (place) walker.want({ ...place, z: undefined, isOpen: false }); else walker.go(found.row, false);
}
function showMap({ vertexes, lines }) {
  display = new MapDisplay(find('map'), { vertexes, lines, point: tell, pick: look, choose: stand, isFilling: true, theme: DARK.matches ? 'dark' : 'light' });
}
// Says why a map is not drawn; its lines and what is wrong with it are shown where they can be read.
async function refuse(map, file, sentences, isBroken, turn) {
  leave('files'); say(sentences.join('\n'));
  const found = !isBroken && await crew.first('lint', { map }).catch(() => null);
  if (!found || turn !== opening) return;
  setState('map'); drawFrame(find('picture'), new Uint8Array(WIDTH * FRAME_HEIGHT), new Uint8Array(768)); counts.show({});
  find('unseen').textContent = `${map} of ${file} cannot be drawn`; find('unseen').hidden = false;
  ['where', 'row', 'pixel'].forEach(id => { find(id).textContent = ''; }); find('where').value = '';
  showMap(found); showWhole(); findings.show(found.findings);
  if (found.findings.length) showPanel('findingsPanel', true);
}
