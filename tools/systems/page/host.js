/* What the proved program asks of its system, over files in memory or on disk. Nothing here is proved.

new Program(module).run(words, files, out) runs the program once, and gives { status, line }: `line` is what it said. `files` is a
Map of names to sources; `out` takes each piece of the output, which is its for the call alone. The runs of a Program are in one
instance, since to begin one anew takes longer than a short run.

A source is { size, read(at, count) }: the bytes of a file from a place on, as many as there are up to count. */
const NO_FILE = 2, NO_WRITE = 5, BAD_NUMBER = 9; // Linux's numbers of errors
const WAYS = { start: 0, here: 1, end: 2 }; // of lseek
const TYPE_MODE_SIZE = 0x203, READABLE_FILE = 0o100444; // of statx: what is filled in, and of what a file is
const PLACES = { mask: 0, mode: 28, size: 40 }; // in Linux's struct statx

class MemorySource {
  constructor(bytes) { this.bytes = bytes; this.size = bytes.length; }
  read(at, count) { return this.bytes.subarray(at, at + count); }
}
// A file of the user, read piece by piece in a worker, so that one that is larger than memory can be read. One that has changed on disk since
// it was chosen is named, and not read: what it has is of another state than what was read before.
class FileSource {
  static PIECE = 1 << 20;
  constructor(file) { this.file = file; this.size = file.size; this.pieces = new Map(); }
  piece(number) {
    if (!this.pieces.has(number)) {
      if (this.pieces.size >= 64) this.pieces.delete(this.pieces.keys().next().value);
      const from = number * FileSource.PIECE, part = this.file.slice(from, from + FileSource.PIECE);
      this.pieces.set(number, this.bytesOf(part));
    }
    return this.pieces.get(number);
  }
  bytesOf(part) {
    try { return new Uint8Array(new FileReaderSync().readAsArrayBuffer(part)); } catch { return this.changed(); }
  }
  changed() { this.hasChanged = true; throw new Wrong(`${this.file.name} has changed on disk, or cannot be read; choose it again, or drop it`); }
  read(at, count) {
    const found = new Uint8Array(Math.max(0, Math.min(count, this.size - at)));
    for (let done = 0; done < found.length;) {
      const place = at + done, piece = this.piece(Math.floor(place / FileSource.PIECE));
      const from = place % FileSource.PIECE, part = piece.subarray(from, from + found.length - done);
      if (!part.length) this.changed();
      found.set(part, done); done += part.length;
    }
    return found;
  }
}

// The calls of one run, by the names that the module has for them.
class Host {
  constructor(words, files, out) {
    this.words = ['doomview', ...words].map(word => new TextEncoder().encode(word));
    Object.assign(this, { files, out, said: '', open: [null, null, null], error: 0 });
  }
  fails(number) { this.error = number; return -1; }
  // A file that cannot be read, or an output that is not taken, is told to the program; what the engine throws, as for want of stack, ends the run.
  failed(error) {
    if (!(error instanceof Wrong)) throw error;
    return this.fails(NO_WRITE);
  }
  bytes(place, count) { return new Uint8Array(this.memory.buffer, Number(place), Number(count)); }
  name(place) {
    const bytes = new Uint8Array(this.memory.buffer, Number(place));
    return new TextDecoder().decode(bytes.slice(0, bytes.indexOf(0)));
  }
  openFile(path, flags) {
    const source = this.files.get(this.name(path));
    return flags & 3 || !source ? this.fails(NO_FILE) : this.open.push({ source, at: 0 }) - 1;
  }
  close(number) {
    if (!this.open[number]) return this.fails(BAD_NUMBER);
    this.open[number] = null;
    return 0;
  }
  read(number, to, count) {
    const file = this.open[number];
    if (!file) return this.fails(BAD_NUMBER);
    let piece;
    try { piece = file.source.read(file.at, Number(count)); } catch (error) { return this.failed(error); }
    this.bytes(to, piece.length).set(piece);
    file.at += piece.length;
    return piece.length;
  }
  seek(number, offset, way) {
    const file = this.open[number], from = file && { [WAYS.start]: 0, [WAYS.here]: file.at, [WAYS.end]: file.source.size }[way];
    if (!file || from === undefined) return this.fails(BAD_NUMBER);
    file.at = from + Number(offset);
    return file.at;
  }
  describe(number, found) {
    const file = this.open[number];
    if (!file) return this.fails(BAD_NUMBER);
    const view = new DataView(this.memory.buffer, Number(found), 256);
    view.setUint32(PLACES.mask, TYPE_MODE_SIZE, true);
    view.setUint16(PLACES.mode, READABLE_FILE, true);
    view.setBigUint64(PLACES.size, BigInt(file.source.size), true);
    return 0;
  }
  write(number, from, count) {
    const piece = this.bytes(from, count);
    if (number !== 1 && number !== 2) return this.fails(BAD_NUMBER);
    try {
      if (number === 1) this.out(piece); else this.said += new TextDecoder().decode(piece);
    } catch (error) { return this.failed(error); }
    return Number(count);
  }
  word(number, to, room) {
    const word = this.words[Number(number)];
    if (!word) return -1;
    const most = Number(room);
    this.bytes(to, Math.min(word.length, most)).set(word.subarray(0, most));
    return word.length <= most ? word.length : -2;
  }
  imports() {
    const long = call => (...words) => BigInt(call(...words));
    return { port_open: (path, flags) => this.openFile(path, flags), port_close: number => this.close(number),
      port_read: long((number, to, count) => this.read(number, to, count)),
      port_lseek: long((number, offset, way) => this.seek(number, offset, way)),
      port_statx: (number, path, flags, mask, found) => this.describe(number, found),
      host_write: long((number, from, count) => this.write(number, from, count)),
      port___write: long((number, from, count) => this.write(number, from, count)),
      port_rattle_arg_count: long(() => this.words.length), port_rattle_arg: long((...words) => this.word(...words)),
      port_rattle_env: long(() => -1), port_rattle_env_at: long(() => -1),
      port_rattle_errno: () => this.error, port_rattle_set_errno: number => { this.error = number; },
      port___xpg_strerror_r: () => 0 };
  }
}

class Program {
  constructor(module) { this.module = module; this.instance = null; }
  begin() {
    const calls = WebAssembly.Module.imports(this.module).map(({ name }) => [name, (...words) => this.calls[name](...words)]);
    this.instance = new WebAssembly.Instance(this.module, { env: Object.fromEntries(calls) });
    const { memory, variables, heap } = this.instance.exports;
    this.variables = Number(variables()); this.first = new Uint8Array(memory.buffer).slice(this.variables, Number(heap()));
  }
  // Before a run the program's variables have what they have in a new instance. One that failed in a run is not used again.
  run(words, files, out) {
    const host = new Host(words, files, out);
    if (!this.instance) this.begin();
    const { memory, run } = this.instance.exports;
    new Uint8Array(memory.buffer).set(this.first, this.variables);
    host.memory = memory; this.calls = host.imports();
    try {
      return { status: run(), line: host.said.replace(/\n$/, '') };
    } catch (error) { this.instance = null; throw error; }
  }
  // The same, with the whole output in one piece.
  runWhole(words, files) {
    const pieces = [], done = this.run(words, files, piece => pieces.push(piece.slice()));
    return { ...done, output: joined(pieces) };
  }
}
function joined(pieces) {
  const whole = new Uint8Array(pieces.reduce((sum, piece) => sum + piece.length, 0));
  pieces.reduce((at, piece) => (whole.set(piece, at), at + piece.length), 0);
  return whole;
}
