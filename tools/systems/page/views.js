/* Views that a user keeps, and a camera path that is walked through. Those kept are of one map, with the doors shut or open: a path mixes
neither. */
class KeptViews {
  constructor() { this.clear(); }
  clear() { this.byDoors = { shut: [], open: [] }; this.tell(); }
  get count() { return this.byDoors.shut.length + this.byDoors.open.length; }
  keep(row, isOpen) { this.byDoors[isOpen ? 'open' : 'shut'].push(row); this.tell(); }
  tell() {
    const told = Object.entries(this.byDoors).filter(([, rows]) => rows.length).map(([doors, rows]) => `${rows.length} with the doors ${doors}`);
    find('kept').textContent = this.count || '';
    find('keptTold').textContent = told.length ? `Kept: ${told.join(', ')}. Each is saved in a path of its own; those with the doors open need the map with its ` +
      'doors open, which is saved beside them.' : 'None are kept yet. What is saved then is the view that is shown.';
  }
}
// Walks through the rows of a path.
class PathWalk {
  static EVERY = 700; // milliseconds of a view while it plays
  constructor(go) { this.go = go; this.end(); }
  begin(name, rows) { this.end(); Object.assign(this, { name, rows, at: 0 }); find('steps').hidden = false; this.show(); }
  end() { this.stop(); this.rows = []; this.at = 0; find('steps').hidden = true; }
  stop() { clearInterval(this.timer); this.timer = 0; find('stepRun').textContent = 'Play'; }
  step(by) {
    if (!this.rows.length) return;
    this.at = (this.at + by + this.rows.length) % this.rows.length; this.show();
  }
  show() {
    find('stepTold').textContent = `${this.name}: view ${this.at} of ${this.rows.length}, counted from 0; ${placeTold(this.rows[this.at])}`;
    this.go(this.rows[this.at]);
  }
  play() {
    if (this.timer) return this.stop();
    this.timer = setInterval(() => this.at + 1 < this.rows.length ? this.step(1) : this.stop(), PathWalk.EVERY); find('stepRun').textContent = 'Pause';
  }
}
