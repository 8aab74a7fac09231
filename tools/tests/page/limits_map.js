/* The page of limits-map: keys, places, views, marks and colours. */
async () => {
  const text = id => document.getElementById(id).textContent;
  const all = [colours(canvas), text('which'), text('row'), display.scale];
  hit('2');
  all.push(text('which'));
  hit('d');
  all.push(state);
  hit('1', 'n');
  all.push(text('row'));
  hit('ArrowRight');
  all.push(text('told'));
  hit('+');
  all.push(display.scale);
  hit('0');
  all.push(display.scale);
  await wait();
  all.push(document.getElementById('picture').naturalWidth);
  hit('n');
  all.push(text('seen'));
  const overs = now().places.filter(place => isOver('planes', number(place, 0)) && display.square(place)[2] > 2);
  const isBlack = place => {
    const [x, y, size] = display.square(place), k = devicePixelRatio;
    const colour = display.pen.getImageData((x + size * .15) * k, (y + size * .5) * k, 1, 1).data;
    return colour[0] + colour[1] + colour[2] < 99;
  };
  all.push(overs.length, overs.filter(isBlack).length, now().places.filter(place => place.isCut).length);
  all.push(now().places.filter(place => display.placeAt(place.x, place.y) === place).length);
  const far = now().places.find(place => now().views.every(it => it.row.join() !== rowOf(place, 0).join()));
  look(far);
  all.push(text('row'), rowOf(far, 0).join(), text('shown'), find('plain'));
  const before = colours(canvas);
  hit('m');
  const near = display.marksNear(...display.at(marks[0].x, marks[0].y));
  tell(null, near);
  all.push(marks.length, near.includes(marks[0]), text('told'), text('marks'));
  all.push([1, 2, 4, 9].map(MapDisplay.core), MapDisplay.shade(1));
  return all;
}
