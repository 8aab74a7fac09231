/* The whole map counted: the squares of the map, the worst views, and the numbers to save. */
class WholeMap {
  // `go` takes the row of a view and whether the doors are open.
  constructor(go) { this.go = go; this.count = 0; this.clear(); }
  clear() { this.found = this.growing = null; this.state = this.rank = 0; }
  take(found) { this.clear(); this.found = found; }
  // Takes what is found at some places while the map is counted; what is shown then are those with the doors shut.
  grow({ places, most, directions, isOpen }) {
    this.growing ??= { label: 'shut', directions, places: [], worst: {} };
    for (let i = 0; i < (isOpen ? 0 : places.length / PLACE); i++) {
      const [x, y, floor, size, sector, isReached] = places.subarray(PLACE * i, PLACE * (i + 1));
      this.growing.places.push({ x, y, floor, size, sector, isReached: Boolean(isReached), most: pairsOf(most, i) });
    }
  }
  states() { return this.found ? this.found.states : this.growing ? [this.growing] : []; }
  now() { return this.states()[this.state]; }
  get name() { return COUNTS[this.count]; }
  get isOpen() { return this.now()?.label === 'open'; }
  worst(name = this.name) { return this.now()?.worst[name] || []; }
  number(place) { return place.most[this.count][0]; }
  // The row of a place, in the direction of its greatest count.
  row(place) {
    return [place.x * UNIT, place.y * UNIT, (place.floor + EYE_HEIGHT) * UNIT, Math.floor(TURN * place.most[this.count][1] / this.now().directions)];
  }
  // What the display shows of it: squares by their counts, and the worst views as dots.
  parts() { return { numberOf: place => this.number(place), limit: LIMITS[this.name], isOver: n => isOver(this.name, n) }; }
  dots(view) {
    const key = view ? view.row.join() : '';
    return this.worst().map(([, row], i) => ({ x: row[0] / UNIT, y: row[1] / UNIT, text: i + 1, isChosen: row.join() === key }));
  }
  step(by) {
    const worst = this.worst();
    if (!worst.length) return;
    this.rank = (this.rank + by + worst.length) % worst.length;
    this.go(worst[this.rank][1], this.isOpen);
  }
  // The worst views of all counts as rows, each once, with the doors shut or open.
  rows(label) {
    const rows = this.states().filter(state => state.label === label).flatMap(state => COUNTS.flatMap(name => state.worst[name].map(([, row]) => row)));
    return [...new Map(rows.map(row => [row.join(), row])).values()];
  }
  // Whether the map is over a limit with its doors open alone, of one count or of any.
  isOverOpenAlone(name) {
    const [shut, open] = ['shut', 'open'].map(doors => this.found?.numbers.states.find(state => state.doors === doors)), isOverIn = state => state && state.counts[name].over > 0;
    return name ? Boolean(isOverIn(open) && !isOverIn(shut)) : COUNTS.some(one => this.isOverOpenAlone(one)) && !COUNTS.some(one => shut?.counts[one].over);
  }
  // The counts that are over with the doors open alone, in words.
  openAloneTold() {
    const names = COUNTS.filter(name => this.isOverOpenAlone(name)).map(name => WORDS[name].word);
    return names.length ? ` Over a limit with the doors open alone: ${names.join(', ')}.` : '';
  }
  summary(wads) {
    const { numbers } = this.found, state = numbers.states[this.state];
    return `${wads.join(' + ')}, doors ${state.doors}: ${withCommas(state.views)} views from ${withCommas(state.places)} places, ${state.step} units apart; a player ` +
      `reaches ${withCommas(numbers.reached)} of ${withCommas(numbers.sectors)} sectors. Views over a limit: ` +
      `${COUNTS.map(name => `${WORDS[name].word} ${withCommas(state.counts[name].over)}`).join(', ')}.${this.openAloneTold()}` + numbers.no_way.map(({ sector, things }) =>
      ` No way was found to sector ${sector}, which is looked at all the same: ${things.map(({ what, thing }) => `${what} (thing ${thing})`).join(', ')}.`).join('');
  }
  told(place) {
    const degrees = i => Math.round(place.most[i][1] / this.now().directions * 3600) / 10;
    return `x ${place.x} y ${place.y} floor ${place.floor} sector ${place.sector}${place.isReached ? '' : ' (no way leads here)'}: ` +
      COUNTS.map((name, i) => `${WORDS[name].word} ${withCommas(place.most[i][0])}${isOver(name, place.most[i][0]) ? ' OVER' : ''} at ${degrees(i)}°`).join(', ');
  }
}
