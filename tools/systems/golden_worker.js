/* In a worker of the page, behind the page's own code for it: runs words over the files of the cases. */
let program;
const given = new Map();
onmessage = async ({ data }) => {
  if (data.module) {
    program = new Program(data.module);
    data.given.forEach(([name, bytes]) => given.set(name, new MemorySource(bytes)));
    return postMessage(given.size);
  }
  let done;
  try {
    done = program.runWhole(data, { get: name => given.get(name.replace(/^\.\//, '')) });
  } catch (error) {
    return postMessage([-1, String(error), 0, '']);
  }
  const sum = new Uint8Array(await crypto.subtle.digest('SHA-256', done.output));
  postMessage([done.status, done.line, done.output.length, [...sum].map(byte => byte.toString(16).padStart(2, '0')).join('')]);
};
