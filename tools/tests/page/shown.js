/* What a script on a page of one file may use: it presses keys, counts the colours of a picture, and tells what it found. */
const hit = (...keys) => keys.forEach(key => dispatchEvent(new KeyboardEvent('keydown', { key })));
const bytes = it => it.getContext('2d').getImageData(0, 0, it.width, it.height).data.buffer;
const colours = it => new Set(new Uint32Array(bytes(it))).size;
const wait = () => new Promise(done => setTimeout(done, 100));
// Puts what a script gives back into the element `tested`.
const report = async script => {
  let found;
  try {
    found = await script();
  } catch (error) {
    found = String(error);
  }
  document.getElementById('tested').textContent = JSON.stringify(found);
};
