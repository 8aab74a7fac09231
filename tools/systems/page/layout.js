/* The window: map and picture with a border that can be moved, panels beside them, sentences, hints. */
const NARROW = matchMedia('(max-width:800px)'), DARK = matchMedia('(prefers-color-scheme:dark)');
const HINT = 5000; // milliseconds that a hint is there
const SHARES = { least: 22, most: 78, step: 2 }; // of the picture, in hundredths of the window

// Says a sentence until another is said; an empty one takes it away.
function say(sentence) { find('said').textContent = sentence; find('unsay').hidden = !sentence; }
// Answers what a user did, for a moment.
function hint(sentence) {
  clearTimeout(hint.timer);
  find('hint').textContent = sentence; find('hint').hidden = false;
  hint.timer = setTimeout(() => { find('hint').hidden = true; }, HINT);
}
// Shows a panel, or hides it if it is shown; `isOn` says which.
function showPanel(id, isOn = find(id).hidden) {
  for (const panel of find('panels').children) panel.hidden = panel.id !== id || !isOn;
  find('panels').hidden = !isOn;
  document.querySelectorAll('[data-panel]').forEach(tab => press(tab, isOn && tab.dataset.panel === id));
  find('panels').dispatchEvent(new Event('changed'));
}
const isShown = id => !find('panels').hidden && !find(id).hidden;
// The border of map and picture: dragged, or by arrows.
class Split {
  constructor() {
    this.share = 50; const border = find('split');
    border.onpointerdown = event => { border.setPointerCapture(event.pointerId); event.preventDefault(); };
    border.onpointermove = event => { if (border.hasPointerCapture(event.pointerId)) this.at(event); };
    border.onkeydown = event => {
      const by = { ArrowLeft: 1, ArrowDown: -1, ArrowRight: -1, ArrowUp: 1 }[event.key] * (NARROW.matches ? -1 : 1);
      if (by) { event.stopPropagation(); event.preventDefault(); this.set(this.share + SHARES.step * by); }
    };
  }
  at({ clientX, clientY }) {
    const box = find('work').getBoundingClientRect();
    this.set(NARROW.matches ? (clientY - box.top) / box.height * 100 : (box.right - clientX) / box.width * 100);
  }
  set(share) {
    this.share = Math.min(SHARES.most, Math.max(SHARES.least, share));
    const right = find('right').style;
    right.setProperty('--share', `${this.share}%`); right.setProperty('--high', `${this.share}%`);
  }
}
// In which state the page is: empty, files (none of which has a map that can be shown), or map.
function setState(state) {
  document.body.dataset.state = state;
  find('work').hidden = state !== 'map'; find('welcome').hidden = state === 'map';
}
