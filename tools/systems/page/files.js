/* The files of the user: WADs in their order, chosen or dropped, and how a file is saved. A file of the name of another takes
its place, and one that has changed on disk is read anew where the browser can, or else named. */
const find = id => document.getElementById(id);
function add(parent, kind, text, more = {}) {
  const made = Object.assign(document.createElement(kind), { textContent: text, ...more });
  parent.append(made);
  return made;
}
const button = (text, onclick, more = {}) => Object.assign(document.createElement('button'), { textContent: text, onclick, ...more });
const press = (element, isOn) => element.setAttribute('aria-pressed', isOn);
// Puts bytes or text into a file of the user.
function save(name, data, type = 'application/octet-stream') {
  const link = document.createElement('a'), address = URL.createObjectURL(new Blob([data], { type }));
  link.href = address; link.download = name; link.click();
  setTimeout(() => URL.revokeObjectURL(address), 1000);
}
const sizeOf = bytes => bytes < 1 << 20 ? `${Math.ceil(bytes / 1024)} KB` : `${(bytes / (1 << 20)).toFixed(1)} MB`;
const changedTold = name => `${name} has changed on disk; choose it again, or drop it.`;

// Whether a file is the IWAD of a game; one that cannot be read is none.
async function isGameFile(file) {
  try { return await file.slice(0, 4).text() === 'IWAD'; } catch { return false; }
}
// Whether the browser reads no file that has changed on disk: Chromium, which has handles too. Elsewhere sums tell what has changed, of small
// files whole, of large ones of their ends, where the header and mostly the directory are.
const isChecked = 'getAsFileSystemHandle' in DataTransferItem.prototype, MOST_SUMMED = 1 << 26, END = 1 << 20;
const sums = new WeakMap(); // of files as they came
async function sumOf(file) {
  if (isChecked) return '';
  const parts = file.size <= MOST_SUMMED ? [file] : [file.slice(0, END), file.slice(-END)], bytes = await new Blob(parts).arrayBuffer();
  return `${bytes.byteLength} ${new Uint8Array(await crypto.subtle.digest('SHA-256', bytes)).join()}`;
}
// A file as it is on disk now: the same where it has not changed, and null where it has and cannot be read anew. `handle` reads it.
async function asNow(file, handle) {
  try {
    const now = handle ? await handle.getFile() : file;
    if (now.lastModified !== file.lastModified || now.size !== file.size) return now;
    await file.slice(0, 1).arrayBuffer();
    return await sumOf(file) === await sums.get(file) ? file : null;
  } catch { return null; }
}

// The list of WADs. `changed` is called with the files in their order, and the names of those that are new, whenever they are others.
class WadList {
  constructor(element, changed) { Object.assign(this, { element, changed, files: [], names: [], handles: new Map() }); }
  // Takes files; `handles` has of some of them by their names what reads them anew.
  async take(files, handles = new Map()) {
    const came = [];
    for (const file of files) if (this.put(file, await isGameFile(file), handles.get(file.name))) came.push(file.name);
    return this.changed(this.files, came);
  }
  // Puts a file into the place of that of its name, or else behind the others, and a game's before them; whether it is new.
  put(file, isGame, handle) {
    const place = this.files.findIndex(other => other.name === file.name);
    this.handles.delete(file.name); sums.set(file, sumOf(file).catch(() => null));
    if (handle) this.handles.set(file.name, handle);
    if (place >= 0) this.files[place] = file; else if (isGame) this.files.unshift(file); else this.files.push(file);
    return place < 0;
  }
  // Reads anew what has changed on disk; the names of the files that were, and of those that cannot be.
  async refresh() {
    const before = this.files, now = await Promise.all(before.map(file => asNow(file, this.handles.get(file.name))));
    const stale = before.filter((_, i) => !now[i]).map(file => file.name), fresh = before.filter((file, i) => now[i] && now[i] !== file).map(file => file.name);
    if (fresh.length && this.files === before) { this.files = before.map((file, i) => now[i] || file); await this.changed(this.files, []); }
    return { fresh, stale };
  }
  move(from, to) {
    if (to < 0 || to >= this.files.length) return;
    this.files.splice(to, 0, ...this.files.splice(from, 1)); this.changed(this.files, []);
  }
  drop(number) { this.files.splice(number, 1); this.changed(this.files, []); }
  // Shows the files as the worker has read them.
  show(files) {
    this.names = files.filter(file => !file.wrong).map(file => file.name);
    this.element.replaceChildren();
    files.forEach((file, i) => {
      const line = add(this.element, 'li', ''), name = add(line, 'span', `${file.name} `);
      add(name, 'small', `${file.wrong ? 'not a WAD' : file.isGame ? 'game (IWAD)' : 'PWAD'}, ${sizeOf(file.size)} `);
      const act = (text, label, onclick, disabled) => line.append(button(text, onclick, { title: label, ariaLabel: `${label}: ${file.name}`, disabled }));
      act('↑', 'read it earlier', () => this.move(i, i - 1), i === 0);
      act('↓', 'read it later', () => this.move(i, i + 1), i === files.length - 1);
      act('✕', 'take it away', () => this.drop(i), false);
    });
  }
}
