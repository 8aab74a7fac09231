/* The count of a map before, and what got worse and better since: lines in a panel, and marks on the map. */
class EarlierCounts {
  static KEPT = 4; // versions of a map
  constructor() { Object.assign(this, { byMap: new Lists(), found: null }); }
  // The newest count of another version than that which is shown.
  get before() { return level && this.byMap.get(level.map)?.findLast(({ version }) => version !== level.version); }
  put(map, one) { this.byMap.set(map, [...this.byMap.at(map).filter(({ version }) => version !== one.version), one].slice(-EarlierCounts.KEPT)); }
  // Keeps the count of the version that was shown until now.
  keep(found) {
    const until = new Date().toLocaleTimeString('en', { hour: '2-digit', minute: '2-digit', hour12: false });
    if (found && level) this.put(level.map, { numbers: found.numbers, version: level.version, told: `${found.numbers.wad} as it was until ${until}` });
    this.found = null;
  }
  // Takes what limits-map --json, or this page, wrote as the count before.
  take(words, name) {
    const runs = runsInText(words, name);
    runs.forEach(numbers => this.put(numbers.map, { numbers, version: name, told: `${numbers.map} of ${name}` }));
    hint(`The count before: ${runs.map(run => run.map).join(', ')} of ${name}.${runs.some(({ map }) => map === level.map) ? '' : ' The map that is shown is none of them.'}`);
    this.compare(); showPanel('countPanel', true);
  }
  forget() { this.byMap.delete(level.map); this.compare(); }
  // Of each state of the doors a place of the grid of the count before.
  starts() { return this.before ? Object.fromEntries(['shut', 'open'].map(doors => [doors, startOf(this.before.numbers, doors) ?? undefined])) : {}; }
  compare() { this.found = whole.found && this.before ? comparisonOf(this.before.numbers, whole.found.numbers) : null; this.show(); findings.mark(); }
  show() {
    const panel = find('before'), { before } = this, told = text => add(panel, 'p', text);
    panel.replaceChildren();
    if (!before) return told('The count of this map is kept when you drop a new version of it; count that too, and what got worse and better is said here. What limits-map --json, ' +
      'or this page, wrote of an earlier version can be dropped as well.');
    told(`Before: ${before.told}.`);
    if (!this.found) told('Count the map, and what got worse and better is said here. It is looked at from the same places.');
    else if (!this.found.lines.length) told('Nothing that is over a limit is other than before, and no sum.');
    else this.found.lines.forEach(line => add(panel, 'p', line.trim(), { className: /^worse/.test(line.trim()) ? 'worse' : /^better/.test(line.trim()) ? 'better' : '' }));
    panel.append(button('Forget the count before', () => this.forget()));
  }
  // The places that got worse or better of the count and the doors that are shown.
  marks() {
    const doors = whole.now()?.label, found = whole.found && this.found ? this.found.changes.filter(one => one.doors === doors && one.count === whole.name) : [];
    return found.map(one => ({ x: one.x, y: one.y + .5, letter: '', colour: isWorse(one) ? '#c00000' : '#00702a', corners: isWorse(one) ? MapDisplay.UP : MapDisplay.DOWN,
      told: `${isWorse(one) ? 'worse' : 'better'}, ${WORDS[one.count].word} ${countTold(one.now)}, before ${countTold(one.before)}` })).reverse();
  }
}
