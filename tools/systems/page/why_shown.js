/* Why a view has its counts: the tables of why-limit in a panel, and what each row is of in colours over the picture. */
const SAVINGS = 'savings', SHOWN_ROWS = 20, COLOURED = ['planes', 'fragments', 'sprites'], GOLDEN = 137.508; // degrees between two hues
const TABLES_OF_WHY = { planes: ['visplanes', ['planes', 'splits', 'columns', 'flat', 'of', 'height', 'light', 'sectors']],
  splits: ['splits, by line', ['splits', 'line', 'side', 'sectors', 'what differs', 'of']], fragments: ['drawsegs', ['drawsegs', 'sector', 'lines']],
  sprites: ['vissprites', ['sprites', 'type', 'what', 'places']], solids: ['solidsegs', ['solid range of line', 'columns']] };
const hueColour = hue => `hsl(${Math.round(hue * GOLDEN % 360)} 85% 55%)`;
const isNumber = cell => /^-?\d+$/.test(cell);

class Why {
  constructor() { Object.assign(this, { found: null, shown: 'planes', row: null, asked: 0, key: '' }); }
  get isOn() { return isShown('whyPanel'); }
  clear() { Object.assign(this, { found: null, row: null, key: '' }); this.asked++; find('colours').hidden = true; find('why').replaceChildren(); }
  // The view has changed, or the panel was opened.
  follow() {
    if (!this.isOn) { find('colours').hidden = true; return; }
    clearTimeout(this.timer); this.timer = setTimeout(() => this.ask(), STILL);
  }
  async ask() {
    const { view, place } = walker, words = view && { row: view.row, spans: spans(), isOpen: place.isOpen }, key = JSON.stringify(words), turn = ++this.asked;
    if (!view || !this.isOn) return;
    if (key === this.key) return this.show();
    try {
      const found = await crew.some('why', words);
      if (turn !== this.asked) return;
      Object.assign(this, { found, row: null, key, savings: null }); this.show();
    } catch (error) { if (turn === this.asked) { this.clear(); find('why').textContent = error.message; } return; }
    const savings = await crew.some('savings', words).catch(() => []);
    if (turn === this.asked) { this.savings = savings; this.show(); }
  }
  show() {
    const panel = find('why'), choices = add(document.createElement('div'), 'div', '', { className: 'line' }), told = document.createElement('div');
    const choice = (name, words) => {
      const chooser = button(words, () => { this.shown = name; this.row = null; this.show(); });
      press(chooser, name === this.shown); choices.append(chooser);
    };
    for (const [name, [word]] of Object.entries(TABLES_OF_WHY)) choice(name, `${word} ${this.sumTold(name, this.found.tables[name])}`);
    choice(SAVINGS, 'what would save most');
    if (this.shown === SAVINGS) told.append(...this.savingsShown());
    else told.append(this.table(TABLES_OF_WHY[this.shown][1], this.found.tables[this.shown], COLOURED.includes(this.shown)));
    panel.replaceChildren(choices, told); this.colour();
  }
  sumTold(name, rows) { return name === 'solids' ? '' : rows.reduce((sum, [count]) => sum + Number(count), 0); }
  table(heads, rows, isColoured) {
    const table = document.createElement('table'), head = add(table, 'tr', '');
    heads.forEach((word, k) => add(head, 'th', word, { className: rows[0] && isNumber(rows[0][k]) ? 'number' : '' }));
    rows.slice(0, SHOWN_ROWS).forEach((cells, i) => {
      const row = add(table, 'tr', '', { className: 'link', tabIndex: 0 });
      row.setAttribute('aria-selected', i === this.row);
      row.onclick = () => this.choose(i, cells); row.onkeydown = event => { if (event.key === 'Enter') this.choose(i, cells); };
      cells.forEach((cell, k) => add(row, 'td', heads[k] === 'sectors' ? cell.replace(/^sectors? /, '') : cell, { className: isNumber(cell) ? 'number' : '' }));
      if (isColoured && this.shown !== 'fragments') { const swatch = document.createElement('span'); swatch.className = 'swatch'; swatch.style.background = this.rowColour(i); row.firstChild.prepend(swatch); }
    });
    if (rows.length > SHOWN_ROWS) add(add(table, 'tr', ''), 'td', `and ${rows.length - SHOWN_ROWS} more`, { colSpan: heads.length });
    return table;
  }
  rowColour(i) {
    const { rows, hues } = this.found.pixels[this.shown], at = rows.indexOf(i);
    return at < 0 ? 'transparent' : hueColour(hues[at]);
  }
  // Shows a row alone in the picture, and a line's place on the map.
  choose(i, cells) {
    this.row = this.row === i ? null : i; this.show();
    const line = this.shown === 'splits' ? Number(cells[1]) : this.shown === 'solids' ? Number(cells[0]) : null;
    if (line !== null && level.lines[line]) {
      const [[x1, y1], [x2, y2]] = level.lines[line].slice(0, 2).map(vertex => level.vertexes[vertex]);
      display.near((x1 + x2) / 2, (y1 + y2) / 2); display.show({ rings: [[x1, y1], [x2, y2]] });
    }
  }
  savingsShown() {
    const told = words => Object.assign(document.createElement('p'), { textContent: words });
    if (!this.savings) return [told('trying ..')];
    if (!this.savings.length) return [told('No change that was tried saves visplanes or drawsegs.')];
    return this.savings.slice(0, FACTS.SHOWN_CHANGES).map(([planes, left, fragments, leftFragments, words]) => Object.assign(
      told(`saves ${planes} visplanes (${left} are left) and ${fragments} drawsegs (${leftFragments} are left): ${words}`), { className: 'saving' }));
  }
  // Draws the colours over the picture.
  colour() {
    const pixels = this.found && this.found.pixels[this.shown], canvas = find('colours');
    canvas.hidden = !pixels || !this.isOn;
    if (canvas.hidden) return;
    const pen = canvas.getContext('2d'), image = pen.createImageData(WIDTH, FRAME_HEIGHT), colours = new Map();
    pixels.rows.forEach((row, i) => {
      if (row < 0 || this.row !== null && row !== this.row) return;
      const hue = pixels.hues[i];
      if (!colours.has(hue)) colours.set(hue, rgbOfHue(hue * GOLDEN % 360));
      image.data.set([...colours.get(hue), 255], 4 * i);
    });
    pen.putImageData(image, 0, 0);
  }
}
// The colour of a hue with the saturation and lightness of hueColour.
function rgbOfHue(hue) {
  const spread = .85 * (1 - Math.abs(2 * .55 - 1)), part = k => { const at = (k + hue / 30) % 12; return Math.round(255 * (.55 - spread / 2 * Math.max(-1, Math.min(at - 3, 9 - at, 1)))); };
  return [part(0), part(8), part(4)];
}
