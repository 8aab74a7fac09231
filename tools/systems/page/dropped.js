/* What is dropped on the page: files, and folders with WADs in them, as files and what reads them anew. */
const MOST_DROPPED = 2000; // files of a folder that are looked at
const isWadName = name => /\.wad$/i.test(name);
const isJson = file => /\.json$/i.test(file.name), isPath = file => /\.csv$/i.test(file.name), isFrames = file => /\.(bin|png)$/i.test(file.name);

// What is in a folder, { name, isFolder, its }: by its handle, since entries cannot be read in a page that is a file; or by its entry.
async function insideOf({ handle, entry }) {
  const found = [];
  if (handle) { for await (const inner of handle.values()) found.push({ name: inner.name, isFolder: inner.kind === 'directory', handle: inner }); return found; }
  const reader = entry.createReader(), read = () => new Promise((done, fail) => reader.readEntries(done, fail));
  for (let some = await read(); some.length; some = await read()) found.push(...some.map(inner => ({ name: inner.name, isFolder: inner.isDirectory, entry: inner })));
  return found;
}
const fileOf = ({ handle, entry }) => handle ? handle.getFile() : new Promise((done, fail) => entry.file(done, fail));
// The WADs in a folder and the folders in it, in the order of their names.
async function wadsIn(folder) {
  const found = [], left = [folder];
  for (let seen = 0; left.length && seen < MOST_DROPPED;) {
    const inside = await insideOf(left.shift());
    seen += inside.length + 1;
    left.push(...inside.filter(inner => inner.isFolder)); found.push(...inside.filter(inner => !inner.isFolder && isWadName(inner.name)));
  }
  return Promise.all(found.sort((one, other) => one.name.localeCompare(other.name, 'en', { numeric: true })).map(async inner => ({ file: await fileOf(inner), handle: inner.handle })));
}
// What is dropped has to be asked for before the first wait: of each item its entry, its file, and its handle where there is one.
function itemsOf(transfer) {
  return [...transfer.items].filter(item => item.kind === 'file').map(item => ({ entry: item.webkitGetAsEntry?.(), file: item.getAsFile(),
    handle: item.getAsFileSystemHandle?.().catch(() => null) }));
}
// The files of a drop, the handles of some by their names, and sentences on what has none.
async function filesOf(items) {
  const files = [], handles = new Map(), wrong = [];
  const take = (file, handle) => { files.push(file); if (handle) handles.set(file.name, handle); };
  for (const { entry, file, handle: asked } of items) {
    const handle = await asked;
    if (entry?.isDirectory) {
      const found = await wadsIn({ entry, handle }).catch(() => null);
      found?.forEach(one => take(one.file, one.handle));
      if (!found?.length) wrong.push(found ? `The folder ${entry.name} has no WAD in it.` : `The folder ${entry.name} cannot be read in this browser; drop the WADs in it.`);
    } else if (file) take(file, handle);
  }
  return { files, handles, wrong: files.length || wrong.length ? wrong : ['That is no file: drop WADs, a camera path, frames, or what limits-map --json wrote.'] };
}
