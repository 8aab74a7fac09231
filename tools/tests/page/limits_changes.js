/* The page of limits-map beside an earlier run: how many changes are marked, and that a key and another count hide them. */
async () => {
  const all = [display.shown.marks.length, find('changes').textContent];
  hit('b');
  all.push(display.shown.marks.length);
  hit('2', 'b');
  all.push(display.shown.marks.length);
  return all;
}
