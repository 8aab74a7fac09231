/* What tests do in the page, beside what they do by mouse and keys. */
window.driver = (() => {
  // Waits until something holds.
  const until = (holds, seconds = 60) => new Promise((done, fail) => {
    const end = performance.now() + 1000 * seconds, look = () => holds() ? done(true) : performance.now() > end ? fail(new Error(`no end of ${holds}`)) : setTimeout(look, 15);
    look();
  });
  const isStill = () => !walker.isBusy && !walker.held.size;
  return {
    until,
    settled: () => until(() => level && walker.view && isStill()),
    // Counts the whole map.
    counted: async step => {
      if (step) find('step').value = step;
      find('start').click();
      await until(() => whole.found && !find('start').hidden && isStill(), 300);
      return whole.found.numbers;
    },
    // Keeps what is saved, by its name.
    catchSaved: () => { window.saved = {}; save = (name, data) => { saved[name] = data; }; },
    savedNames: () => Object.keys(saved).sort(),
    // Files of an element that a test puts into the page.
    addInput: () => { document.body.append(Object.assign(document.createElement('input'), { type: 'file', id: 'given', multiple: true })); },
    given: names => names.map(name => [...find('given').files].find(file => file.name === name)),
    // What lint finds in maps: of each, files by their names and a map.
    findings: async cases => {
      const found = [];
      for (const [names, map] of cases) {
        await crew.first('open', driver.given(names));
        found.push(await crew.first('lint', { map }).then(({ findings: all }) => all.map(one => [one.grade, one.what, one.where, one.told]), error => error.message));
      }
      return found;
    },
    // Of elements that are shown those that are out of the window, by their names.
    outside: ids => ids.filter(id => { const box = find(id).getBoundingClientRect(); return !box.width || box.top < 0 || box.left < 0 || box.bottom > innerHeight + .5 || box.right > innerWidth + .5; }),
    box: id => { const { left, top, width, height } = find(id).getBoundingClientRect(); return { left, top, width, height }; },
    // Bytes as text, for Python to read.
    base64: bytes => {
      let text = '';
      for (let i = 0; i < bytes.length; i += 4096) text += String.fromCharCode(...bytes.subarray(i, i + 4096));
      return btoa(text);
    },
    // The red, green, blue and alpha of the pixels of a canvas over the view.
    pixels: id => find(id).getContext('2d').getImageData(0, 0, 320, 200).data,
    // How many pixels of the view are about as pink as the squares that stand for missing art.
    pinkPixels: () => {
      const data = driver.pixels('picture');
      let pink = 0;
      for (let i = 0; i < data.length; i += 4) pink += data[i] > 90 && data[i + 2] > 90 && data[i + 1] < 30;
      return pink;
    },
    // Of each plane of the table of why how many pixels it has.
    planePixels: () => Object.values([...why.found.pixels.planes.rows].reduce((sums, row) => {
      if (row >= 0) sums[row] = (sums[row] || 0) + 1;
      return sums;
    }, {})),
    // The controls without a name, of those that are shown; all, or but for those that are hidden from readers of the screen.
    unnamed: isAll => [...document.querySelectorAll('button, select, input, canvas, iframe')]
      .filter(it => it.offsetParent && (isAll || !it.ariaHidden))
      .filter(it => !(it.textContent.trim() || it.ariaLabel || it.getAttribute('aria-label') || it.title || it.closest('label')))
      .map(it => it.id),
    // Gives the worker that reads levels another thing table.
    takeThings: async text => crew.first('setUp', { module: await WebAssembly.compile(bytesOf(BUILT.program)),
      tables: bytesOf(BUILT.tables), things: new TextEncoder().encode(text) }),
    // Drops a path, and as its frames the view that is shown.
    dropPath: text => {
      const dataTransfer = new DataTransfer();
      dataTransfer.items.add(new File([text], 'own.csv'));
      dataTransfer.items.add(new File([walker.view.frame], 'own.bin'));
      dispatchEvent(new DragEvent('drop', { dataTransfer }));
    },
    // Lets the browser have no memory for frames, until `call` of Crew is what is put into `held`.
    takeMemory: () => {
      window.held = Crew.prototype.call;
      Crew.prototype.call = function (worker, name, words) {
        return name === 'frame' ? Promise.reject(new Wrong('the browser gave no more memory (test); close other pages and try again')) :
          held.call(this, worker, name, words);
      };
      walker.again();
    },
    pictureSum: async () => [...new Uint8Array(await crypto.subtle.digest('SHA-256', walker.view.frame))].map(byte => byte.toString(16).padStart(2, '0')).join(''),
  };
})();
0;
