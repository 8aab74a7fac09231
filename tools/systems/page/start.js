/* What is dropped, clicked and resized; errors that nobody awaited; and the beginning. */
const kept = new KeptViews(), walk = new PathWalk(row => walker.go(row)), findings = new Findings(), earlier = new EarlierCounts(), why = new Why(), split = new Split();

// Whether no file has changed on disk since it was read; what can be read anew is, and the rest is named.
async function isFresh() {
  const { fresh, stale } = await list.refresh();
  if (stale.length) say(stale.map(changedTold).join('\n')); else if (fresh.length) hint(`Read anew: ${fresh.join(', ')}.`);
  return !stale.length;
}
/* Files that are dropped, or chosen: WADs; a path, which is walked through; frames of a port, which are compared with a path; a count before. */
async function takeFiles(files, handles) {
  const paths = files.filter(isPath), frames = files.filter(isFrames), counts_ = files.filter(isJson), rest = files.filter(file => ![...paths, ...frames, ...counts_].includes(file));
  if (rest.length) await list.take(rest, handles);
  if (!level && paths.length + frames.length + counts_.length) return say(`${rest.length ? `${find('said').textContent}\n` : ''}Drop a WAD first: a path, frames and a count are of its map.`.trim());
  for (const file of counts_) earlier.take(await file.text(), file.name);
  if (paths.length) { putFiles('portPath', paths.slice(-1)); if (!frames.length) await walkThrough(paths.at(-1)); }
  if (frames.length) { putFiles('portFrames', frames); showPanel('portPanel', true); await compare(); }
  return undefined;
}
async function walkThrough(file) {
  walk.begin(file.name, rowsOfPath(await file.text(), file.name)); showPanel('viewsPanel', true);
  hint(`${file.name}: ${walk.rows.length} views; , and . go through them.`);
}
async function dropped(event) {
  const { files, handles, wrong } = await filesOf(itemsOf(event.dataTransfer));
  if (files.length) await takeFiles(files, handles);
  if (wrong.length) say([find('said').textContent, ...wrong].filter(Boolean).join('\n'));
}
// What went wrong where nobody waited for it is said too.
function listenToErrors() {
  addEventListener('unhandledrejection', event => { event.preventDefault(); say(event.reason instanceof Wrong ? event.reason.message : `This page failed: ${event.reason?.message ?? event.reason}`); });
  addEventListener('error', event => { if (event.message) { event.preventDefault(); say(`This page failed: ${event.message}`); } });
}
const onClicks = () => ({ copy, keep: withView(keep), start: count, stop: stopCount, compare: withView(compare),
  ...Object.fromEntries(Object.entries(saves).map(([id, act]) => [id, withView(act)])), unsay: () => say(''), forget: () => { kept.clear(); hint('No views are kept now.'); },
  nearer: () => display.zoom(1.3), farther: () => display.zoom(1 / 1.3), all: () => display.whole(), stepBack: () => walk.step(-1), stepOn: () => walk.step(1), stepRun: () => walk.play(),
  stepEnd: () => walk.end(), portClose: () => { find('portPage').hidden = true; } });
function listen() {
  find('files').onchange = async ({ target }) => { const files = [...target.files]; target.value = ''; await takeFiles(files); };
  find('walkPath').onchange = async ({ target }) => { const files = [...target.files]; target.value = ''; await takeFiles(files); };
  find('chosen').onchange = () => choose(); find('skill').onchange = () => level && choose(); find('spans').onchange = () => walker.again();
  find('picture').onpointermove = find('picture').onpointerdown = point;
  Object.entries(onClicks()).forEach(([id, act]) => { find(id).onclick = () => act(); });
  document.querySelectorAll('[data-panel]').forEach(tab => { press(tab, false); tab.onclick = () => showPanel(tab.dataset.panel); });
  find('panels').addEventListener('changed', () => { why.follow(); if (isShown('countPanel')) earlier.show(); });
  document.querySelectorAll('#pads button').forEach(pad => {
    pad.onpointerdown = () => walker.press(pad.dataset.key);
    pad.onpointerup = pad.onpointerleave = pad.onpointercancel = () => walker.release(pad.dataset.key);
  });
  for (const kind of ['dragover', 'dragleave', 'drop']) addEventListener(kind, event => {
    event.preventDefault(); document.body.classList.toggle('over', kind === 'dragover');
    if (kind === 'drop') return dropped(event);
    return undefined;
  });
  new ResizeObserver(() => display?.fit()).observe(find('map'));
  DARK.onchange = () => { MapDisplay.drawScale(find('scale'), theme()); display?.colour(theme()); showWhole(); };
  onfocus = () => list.files.length && isFresh();
}
const theme = () => DARK.matches ? 'dark' : 'light';
// Whether this engine has memories of 64 bits: a module with one alone.
const hasMemory64 = () => WebAssembly.validate(new Uint8Array([0, 97, 115, 109, 1, 0, 0, 0, 5, 3, 1, 4, 1]));
async function begin() {
  listenToErrors();
  if (typeof WebAssembly === 'undefined' || !hasMemory64()) { find('files').disabled = true; return say(NO_MEMORY64); }
  MapDisplay.drawScale(find('scale'), theme()); listen(); listenToKeys(); earlier.show();
  try {
    crew = new Crew(SCRIPT, HELPERS);
    const words = { module: await WebAssembly.compile(bytesOf(BUILT.program)), tables: bytesOf(BUILT.tables), things: bytesOf(BUILT.things) };
    await Promise.all([crew.first('setUp', words), crew.all('setUp', words)]);
    document.body.dataset.ready = 'yes';
  } catch (error) { say(`This page could not begin: ${error.message}`); }
}
begin();
