/* A port's frames beside those of doomview, as a page over the map. */
let compared = '';
async function compare() {
  const [path] = find('portPath').files, files = [...find('portFrames').files];
  find('compared').textContent = path && files.length ? 'comparing ..' : 'Choose both, a path and frames.';
  if (!path || !files.length) return;
  try {
    const words = { path: await path.text(), files, spans: spans(), palette: level.palette };
    const found = await crew.first('compare', words), mark = '/*DATA*/null';
    compared = COMPARE_PAGE.replace(mark, () => JSON.stringify(found).replaceAll('</', '<\\/'));
    find('comparison').srcdoc = compared; find('portPage').hidden = find('savePage').hidden = false;
    find('compared').textContent = found.head;
  } catch (error) { find('compared').textContent = error.message; }
}
// Puts files into an element of the page, as if they were chosen there.
function putFiles(id, files) {
  const data = new DataTransfer();
  files.forEach(file => data.items.add(file));
  find(id).files = data.files;
}
