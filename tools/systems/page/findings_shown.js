/* What lint finds in a map: a list of sentences, marks on the map, and a jump from one to the other. */
const GRADE_COLOURS = { error: '#b3261e', hole: '#9a6200', fault: '#6b3fb5', odd: '#5a6572' };
const GRADE_WORDS = { error: ['error', 'errors'], hole: ['hole', 'holes'], fault: ['fault', 'faults'], odd: ['odd thing', 'odd things'] };
class Findings {
  constructor() { this.found = null; this.areMarked = true; }
  clear() { this.found = null; find('findingsCount').textContent = ''; find('findings').replaceChildren(); this.mark(); }
  // Asks for what is wrong with a map that is shown.
  async ask(map, turn) {
    find('findings').replaceChildren(document.createTextNode('looking ..'));
    const found = await crew.first('lint', { map }).catch(error => ({ wrong: error.message }));
    if (turn !== opening) return;
    if (found.wrong) find('findings').textContent = found.wrong; else this.show(found.findings);
  }
  show(found) {
    this.found = found;
    const grave = found.filter(({ grade }) => GRADES_COUNTED.includes(grade)).length;
    const counted = Object.entries(GRADE_WORDS).map(([grade, words]) => [found.filter(one => one.grade === grade).length, words]).filter(([count]) => count)
      .map(([count, words]) => `${count} ${words[Number(count > 1)]}`);
    find('findingsCount').textContent = found.length || ''; find('findingsCount').className = grave ? 'over' : '';
    const head = add(document.createElement('p'), 'small', found.length ? `${counted.join(', ')}. A click shows the place.` : 'Nothing was found that looks like a mistake.');
    const toggle = button('Marks on the map', () => { this.areMarked = !this.areMarked; press(toggle, this.areMarked); this.mark(); }, { title: 'L' });
    press(toggle, this.areMarked); this.toggle = toggle;
    find('findings').replaceChildren(head.parentNode, ...found.length ? [toggle, ...found.map(one => this.line(one))] : []);
    this.mark();
  }
  line(one) {
    const line = button('', () => this.jump(one), { className: 'finding' });
    add(line, 'span', one.grade, { className: `grade ${one.grade}`, title: GRADES[one.grade] }); add(line, 'span', ` ${lineTold(one)}`);
    return line;
  }
  // Goes to a place of a finding, at each call to the next, and shows the map from near.
  jump(one) {
    if (!one.places.length) return hint(`That is of the whole map, not of a place: ${one.where}.`);
    one.at = ((one.at ?? -1) + 1) % one.places.length;
    const [x, y] = one.places[one.at];
    display.near(x, y);
    if (walker.place) crew.first('beside', { x, y }).then(place => place && walker.want({ ...walker.place, ...place, z: undefined, isOpen: false }));
    if (one.places.length > 1) hint(`place ${one.at + 1} of ${one.places.length}`);
  }
  mark() { if (display) display.show({ marks: [...this.marks(), ...earlier.marks()] }); }
  marks() {
    return !this.found || !this.areMarked ? [] : this.found.flatMap(one => one.places.map(([x, y]) => ({ x, y, letter: one.grade[0].toUpperCase(), colour: GRADE_COLOURS[one.grade],
      told: `${one.grade} ${lineTold(one)}` })));
  }
}
const { GRADES, GRADES_COUNTED } = FACTS, lineTold = ({ what, where, told }) => `${what}: ${where}: ${told}`;
