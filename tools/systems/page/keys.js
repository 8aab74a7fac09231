/* The keys, in either case of a letter. Those of the eye are Walker's, those of the map MapDisplay's. */
const TYPED = ['INPUT', 'SELECT', 'TEXTAREA'];
const keys = { n: () => stepWorst(1), p: () => stepWorst(-1), k: keep, c: copy, o: changeDoors, l: () => showPanel('findingsPanel'), y: () => showPanel('whyPanel'),
  '?': () => showPanel('helpPanel'), Escape: () => { showPanel('helpPanel', false); find('portPage').hidden = true; }, '.': () => walk.step(1), ',': () => walk.step(-1) };
COUNTS.forEach((_, i) => { keys[i + 1] = () => chooseCount(i); });
const isTyping = element => TYPED.includes(element?.tagName) && element.type !== 'checkbox' && element.type !== 'file';
function keyDown(event) {
  if (!display || event.ctrlKey || event.metaKey || event.altKey || isTyping(document.activeElement)) return;
  const act = keys[keyOf(event.key)] || display.keys[event.key];
  if (act) { event.preventDefault(); act(); } else if (walker.press(event.key)) event.preventDefault();
}
function listenToKeys() {
  onkeydown = keyDown; onkeyup = event => walker.release(event.key); onblur = () => walker.held.clear();
  // After a choice the keys are those of the picture.
  document.querySelectorAll('select, input[type=checkbox]').forEach(element => element.addEventListener('change', () => find('picture').focus()));
  find('where').onkeydown = event => {
    if (event.key === 'Enter') goTo(find('where').value);
    if (event.key === 'Escape') find('picture').focus();
  };
  find('where').onfocus = () => find('where').select(); find('where').onblur = () => { if (walker.view) find('where').value = placeTold(walker.view.row); };
}
