/* The whole count of a map: run, and shown as squares, worst views and a summary. */
const GROWN = 500; // milliseconds between two drawings of the squares while a map is counted
const whole = new WholeMap((row, isOpen) => walker.go(row, isOpen));
let isStopped = false;
function stopCount() { isStopped = true; crew.stop(); }
const countWords = () => ({ everywhere: find('everywhere').checked, step: Number(find('step').value), directions: FACTS.DIRECTIONS, wad: level.wad, starts: earlier.starts() });
async function count() {
  const isSame = level, began = performance.now(), running = isOn => { find('start').hidden = isOn; find('stop').hidden = !isOn; find('progress').hidden = !isOn; };
  isStopped = false; running(true); find('progress').removeAttribute('value');
  try {
    if (!await isFresh() || level !== isSame) return;
    if (isStopped) throw new Wrong('stopped');
    whole.clear(); showWhole();
    const found = await crew.wholeMap(countWords(), (...done) => level === isSame && progress(...done));
    if (level !== isSame) return;
    whole.take(found); earlier.compare(); showWhole(); whole.rank = -1; whole.step(1);
    find('far').textContent = `counted in ${((performance.now() - began) / 1000).toFixed(1)} s`; find('far').title = find('far').textContent;
  } catch (error) {
    if (level !== isSame) return;
    find('far').textContent = error.message === 'stopped' ? 'stopped' : '';
    if (error.message !== 'stopped') say(error.message);
  } finally { running(false); }
}
let grownAt = 0;
function progress(done, known, part) {
  Object.assign(find('progress'), { max: known, value: done });
  find('far').textContent = `${withCommas(done)} of ${withCommas(known)} views`;
  whole.grow(part);
  if (performance.now() - grownAt > GROWN) { grownAt = performance.now(); showWhole(); }
}
// Shows squares as they come while a map is counted, and all of it at the end.
function showWhole() {
  const has = Boolean(whole.found), now = whole.now();
  find('found').hidden = find('numbers').hidden = !has; find('shades').hidden = !now;
  counts.showMost(whole.count, name => has ? whole.worst(name)[0]?.[0] ?? 0 : null, name => whole.isOverOpenAlone(name));
  if (!has) find('sum').textContent = 'Looks from all over the map in 8 or 16 directions, with its doors shut and open.';
  if (!display) return;
  display.show({ places: now ? now.places : [], dots: whole.dots(walker.view), ...whole.parts() });
  find('meaning').textContent = now ? `0 to ${withCommas(LIMITS[whole.name])} ${WORDS[whole.name].word}; ${DARK.matches ? 'white' : 'black'}: over the limit, its core up to four ` +
    'times as much; / no way leads there' : '';
  tell(null); findings.mark();
  if (has) showWorst();
}
function showWorst() {
  find('doors').replaceChildren(...whole.states().map((state, i) => {
    const isAlone = state.label === 'open' && whole.isOverOpenAlone(), made = button(`doors ${state.label}`, () => chooseState(i), { className: isAlone ? 'over' : '',
      title: isAlone ? 'the map is over a limit with its doors open alone' : 'key O' });
    press(made, i === whole.state);
    return made;
  }));
  find('worst').replaceChildren(...whole.worst().map(([n], i) => button(`${i + 1}: ${withCommas(n)}`, () => { whole.rank = i; whole.step(0); },
    { className: isOver(whole.name, n) ? 'over' : '' })));
  find('sum').textContent = whole.summary(list.names);
}
function chooseCount(i) {
  whole.count = i; whole.rank = 0; showWhole();
  if (whole.found) whole.step(0); else if (!whole.now()) hint(`${WORDS[COUNTS[i]].told}. Count the whole map to see where it has most.`);
}
function chooseState(i) { whole.state = i; whole.rank = 0; showWhole(); whole.step(0); }
const notCounted = 'Count the whole map first.';
function stepWorst(by) { if (whole.worst().length) whole.step(by); else hint(whole.found ? 'No view has any of these.' : notCounted); }
function changeDoors() {
  const states = whole.states();
  if (states.length > 1) chooseState((whole.state + 1) % states.length); else hint(whole.found ? 'This map has no doors that can be opened.' : notCounted);
}
