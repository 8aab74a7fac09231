/* In the page: gives each of some workers the program and the files of the cases, and puts a function `golden` into the window
   that has them run cases side by side. It is given the code of golden_worker.js, and gives whether each worker has all files. */
async code => {
  const files = [...document.getElementById('golden').files], given = [];
  for (const file of files) given.push([file.name, new Uint8Array(await file.arrayBuffer())]);
  const address = URL.createObjectURL(new Blob([SCRIPT, '\n;', code], { type: 'text/javascript' }));
  const module = await WebAssembly.compile(bytesOf(BUILT.program));
  const ask = (worker, words) => new Promise(done => {
    worker.onmessage = ({ data }) => done(data);
    worker.postMessage(words);
  });
  const workers = Array.from({ length: HELPERS }, () => new Worker(address)), found = [];
  const read = await Promise.all(workers.map(worker => ask(worker, { module, given })));
  window.golden = async cases => {
    let next = 0;
    await Promise.all(workers.map(async worker => {
      while (next < cases.length) {
        const number = next++;
        found[number] = await ask(worker, cases[number]);
      }
    }));
    return found;
  };
  return read.every(count => count === files.length);
}
