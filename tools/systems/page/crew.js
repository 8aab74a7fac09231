/* The workers of the page. The first holds the files and a whole count; the others draw and count views side by side.

  crew.first(name, words)     what the first worker answers, in time; a Wrong is a sentence for the user
  crew.some(name, words)      the same of that of the others which has least to do, or of the first while these count
  crew.all(name, words)       of all others
  crew.wholeMap(words, say)   a whole count by all of them; `say` takes how many views are done and how many there are so far, and
                              what was found last: { places, most, directions, isOpen }
  crew.stop()                 ends a whole count */
class Crew {
  static LEAST = 400; // views of a part, since a run takes some time to begin
  static MOST = 2000; // so that progress shows, and a stop is soon heard
  static DEAR = 5; // how much longer a view takes that is listed at once

  constructor(script, count) {
    this.address = URL.createObjectURL(new Blob([script], { type: 'text/javascript' }));
    this.waiting = new Map(); this.next = 1; this.counting = null;
    this.workers = Array.from({ length: count + 1 }, () => this.worker());
  }
  worker() {
    const worker = new Worker(this.address);
    worker.load = 0;
    worker.onmessage = ({ data }) => data.isAsked ? this.asked(worker, data) : this.answered(worker, data);
    worker.onerror = event => { event.preventDefault(); this.failed(worker, `a worker of this page failed: ${event.message}`); };
    return worker;
  }
  call(worker, name, words) {
    const id = this.next++;
    worker.load++; worker.postMessage({ id, name, words });
    return new Promise((done, fail) => this.waiting.set(id, { done, fail, worker }));
  }
  answered(worker, { id, value, wrong, stack }) {
    if (!this.waiting.has(id)) return; // its worker failed before
    const { done, fail } = this.waiting.get(id);
    this.waiting.delete(id); worker.load--;
    if (wrong === undefined) done(value);
    else { if (stack) console.info(stack); fail(new Wrong(wrong)); }
  }
  failed(worker, sentence) {
    for (const [id, { fail, worker: of }] of this.waiting)
      if (of === worker) { this.waiting.delete(id); fail(new Wrong(sentence)); }
    worker.load = 0;
  }
  first(name, words) { return this.call(this.workers[0], name, words); }
  some(name, words) {
    const free = this.counting ? this.workers.slice(0, 1) : this.workers.slice(1);
    return this.call(free.reduce((a, b) => b.load < a.load ? b : a), name, words);
  }
  all(name, words) { return Promise.all(this.workers.slice(1).map(worker => this.call(worker, name, words))); }

  async wholeMap(words, say) {
    this.counting = { isStopped: false, done: 0, known: 0, say };
    try { return await this.first('grid', words); } finally { this.counting = null; }
  }
  stop() { if (this.counting) this.counting.isStopped = true; }
  // The first worker asks for something of the others while it counts.
  async asked(worker, { id, name, ...words }) {
    let found;
    try {
      found = { value: name === 'look' ? await this.look(words) : await this.all(name, words.bytes) };
    } catch (error) { found = { wrong: error.message }; }
    worker.postMessage({ id, name: 'answer', ...found });
  }
  // How many of the places from one on are a part: fewer at the end, so that all workers end at about the same time.
  size(places, from, each) {
    const share = (places.length / PLACE - from) / (2 * (this.workers.length - 1)) * each;
    return Math.ceil(Math.max(Crew.LEAST, Math.min(Crew.MOST, share)) / each / (places[PLACE * from + LISTED] ? Crew.DEAR : 1));
  }
  // What is found at places, by each worker one part at a time.
  async look({ places, directions, every, isOpen }) {
    const { counting } = this, count = places.length / PLACE, each = Math.ceil(directions / every);
    const most = new Int32Array(FOUND * count), over = COUNTS.map(() => 0);
    let next = 0;
    counting.known += count * each;
    const work = async worker => {
      while (next < count) {
        if (counting.isStopped) throw new Wrong('stopped');
        const from = next, part = places.slice(PLACE * from, PLACE * (from + this.size(places, from, each)));
        next += part.length / PLACE;
        const found = await this.call(worker, 'look', { places: part, directions, every, isOpen });
        if (counting.isStopped) throw new Wrong('stopped');
        most.set(found.most, FOUND * from); found.over.forEach((views, i) => { over[i] += views; });
        counting.done += part.length / PLACE * each;
        counting.say(counting.done, counting.known, { places: part, most: found.most, directions, isOpen });
      }
    };
    await Promise.all(this.workers.slice(1).map(work));
    return { most, over };
  }
}
