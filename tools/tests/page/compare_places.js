/* The page of compare with a list: the buttons of places in the map. */
async () => {
  const all = [], buttons = id => [...document.getElementById(id).children];
  await wait();
  all.push(document.getElementById('told').textContent);
  all.push(buttons('painters').length, buttons('places').map(it => it.textContent));
  buttons('places')[0].click();
  await wait();
  all.push(picked, document.getElementById('v0').hidden);
  return all;
}
