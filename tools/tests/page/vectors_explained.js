/* The page of vectors explain: its first line, and whether the comparison in it has a view. */
async () => {
  await wait();
  const inner = document.querySelector('iframe').contentDocument;
  return [document.querySelector('pre').textContent.split('\n')[0],
    inner.body.textContent.includes('MAP01 near view 18 (view 0): pixels')];
}
