/* The counts of a view beside their limits, with a bar for each: up to its middle the limit, and behind that up to four times as much, so
that what is far over shows as more. A row's button chooses the count that the map shows; behind it is the most of the whole map. */
const LIMIT_AT = 50, MOST_SHOWN = 4; // where the limit is in a bar, in hundredths; how many limits a bar has
// How far a bar goes, in hundredths.
function barLength(count, limit) {
  const share = count / limit;
  return share <= 1 ? share * LIMIT_AT : LIMIT_AT + (100 - LIMIT_AT) * Math.min(1, Math.log(share) / Math.log(MOST_SHOWN));
}
class CountTable {
  constructor(table, choose) {
    this.rows = COUNTS.map((name, i) => {
      const row = add(table, 'tr', ''), head = add(row, 'th', ''), chooser = button(WORDS[name].word, () => choose(i), { title: `${WORDS[name].told} (key ${i + 1})` });
      head.append(chooser);
      const bar = add(add(row, 'td', ''), 'span', '', { className: 'bar', role: 'img' }), [upTo, past] = ['', 'past'].map(className => add(bar, 'i', '', { className }));
      const [number, limit, most] = ['number', 'limit', 'most'].map(className => add(row, 'td', '', { className }));
      limit.textContent = `of ${withCommas(LIMITS[name])}`;
      return { name, chooser, bar, upTo, past, number, most };
    });
  }
  show(counts) {
    for (const { name, bar, upTo, past, number } of this.rows) {
      const count = counts[name], isPast = count !== undefined && isOver(name, count), length = barLength(count || 0, LIMITS[name]);
      number.textContent = count === undefined ? '-' : withCommas(count); number.className = `number${isPast ? ' over' : ''}`;
      upTo.style.width = `${Math.min(LIMIT_AT, length)}%`; past.style.width = `${Math.max(0, length - LIMIT_AT)}%`;
      bar.ariaLabel = count === undefined ? 'not counted' : `${count} of ${LIMITS[name]}${isPast ? ', over' : ''}`;
    }
  }
  // Shows of the whole map the most of each count, and which count the map shows. `of` gives the most of a count in a state of the doors.
  showMost(chosen, mostOf, isOverElsewhere) {
    this.rows.forEach(({ name, chooser, most }, i) => {
      const count = mostOf(name);
      press(chooser, i === chosen);
      most.textContent = count === null ? '' : `most ${withCommas(count)}${isOverElsewhere(name) ? ' ▲ with doors open' : ''}`;
      most.className = `most${count !== null && (isOver(name, count) || isOverElsewhere(name)) ? ' over' : ''}`;
    });
  }
}
