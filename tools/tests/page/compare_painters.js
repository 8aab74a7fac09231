/* The page of compare: views and pixels by keys, and the views of a painter by its button. */
async () => {
  const text = id => document.getElementById(id).textContent, all = [];
  const buttons = [...document.querySelectorAll('#painters button')];
  await wait();
  all.push(text('head'), text('told'), buttons.map(it => it.textContent));
  hit('f');
  await wait();
  all.push(text('told'));
  hit('n');
  await wait();
  all.push(text('told'));
  hit('ArrowLeft');
  await wait();
  all.push(text('told'));
  const hidden = () => data.views.map((_, k) => document.getElementById('v' + k).hidden);
  const pick = k => buttons[k].click(), caption = () => canvases(1)[0].nextSibling.textContent;
  all.push(canvases(0).map(colours));
  pick(0);
  all.push(hidden());
  hit('b');
  await wait();
  all.push(caption());
  hit('b');
  await wait();
  all.push(caption());
  pick(1);
  await wait();
  all.push(hidden(), text('told'));
  return all;
}
