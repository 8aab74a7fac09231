/* What the original's game makes of a map, as tools/doomview_tools/game_checks.py has it: specials of lines and sectors, their tags, and
its two tables. */
const { LEAST_BLOCKMAP, TAGGED } = FACTS, OF_LINES = GAME.lines, [SCROLLS] = OF_LINES.scrolls;

class GameCheck {
  constructor(check) { Object.assign(this, { check, level: check.level, plan: check.plan, place: new Ground(check.plan) }); }
  linesWith(isWanted) { return [...this.level.lines.keys()].filter(number => isWanted(this.level.lines[number], number)); }
  lines(numbers) { return linesNamed(numbers, this.level); }
  findings() { return ['specialsOfSectors', 'scrolling', 'doors', 'tags', 'teleports', 'tables'].flatMap(part => this[part]()); }
  specialsOfSectors() {
    const wrong = [...this.level.sectors.keys()].filter(number => !GAME.sectors.specials.includes(this.level.sectors[number].special));
    return grouped(wrong.map(number => [[this.level.sectors[number].special, this.mayEnter(number)], number])).map(([[special, isEntered], numbers]) =>
      finding(isEntered ? ERROR : ODD, 'sector', sectorsNamed(numbers), `special ${special} is none of the game: the original ends when a player is on its ` +
        `floor${isEntered ? '' : ', but none comes there'}`));
  }
  // Whether a player may come into a sector, maybe once it has risen, and has a place there.
  mayEnter(number) {
    this.rising ??= this.plan.rising();
    return this.check.reached.has(number) && (hasHeight(this.level.sectors[number]) || this.rising.has(number)) && this.place.placeIn(number) !== null;
  }
  scrolling() {
    const found = this.linesWith(line => line.special === SCROLLS);
    return found.length <= GAME.most_scrolling ? [] : [finding(ERROR, 'line', this.lines(found), `${found.length} lines have special ${SCROLLS}, which ` +
      `scrolls a wall: the original ends at more than ${GAME.most_scrolling}`)];
  }
  doors() {
    return this.linesWith(line => OF_LINES.doors.includes(line.special) && line.sides[1] === null).map(number => finding(ERROR, 'door', this.lines([number]),
      `special ${this.level.lines[number].special} opens the sector behind the line, which has no back side: the original ends when it is used`));
  }
  tags() {
    const tags = new Set(this.level.sectors.map(sector => sector.tag)), wrong = this.linesWith(({ special, tag }) => TAGGED.includes(special) && !(tag && tags.has(tag)));
    return grouped(wrong.map(number => [[this.level.lines[number].tag, this.level.lines[number].special], number])).map(([[tag, special], numbers]) =>
      finding(FAULT, 'tag', this.lines(numbers), tag ? `special ${special} acts on tag ${tag}, which no sector has` :
        `special ${special} has no tag: it acts on all sectors without one`));
  }
  teleports() {
    const tags = new Set(this.level.sectors.map(sector => sector.tag)), { destination } = OF_THINGS;
    this.level.things.filter(({ type }) => type === destination).forEach(({ x, y }) => tags.delete(this.level.sectors[this.level.sectorAt(x, y)].tag));
    return grouped(this.linesWith(({ special, tag }) => OF_LINES.teleports.includes(special) && tags.has(tag)).map(number => [this.level.lines[number].tag, number]))
      .filter(([tag]) => tag).map(([tag, numbers]) => finding(FAULT, 'teleport', this.lines(numbers), `leads to tag ${tag}, and no sector of that has a ` +
        `destination (thing of type ${destination})`));
  }
  // What is wrong with REJECT and BLOCKMAP, which doomview does not need.
  tables() {
    const count = this.level.sectors.length, needed = Math.floor((count ** 2 + 7) / 8), [reject, blockmap] = MAP_TABLES;
    const tables = [[reject, needed, FAULT, 'what monsters see is by chance in the original, and Chocolate Doom fills it up; ' +
      `${count} sectors need ${needed} bytes`], [blockmap, LEAST_BLOCKMAP, ERROR, 'nothing stops a player, and the original reads past its end']];
    return tables.flatMap(([name, least, grade, wrong]) => {
      const bytes = this.level.bytes[name];
      if (!bytes) return [finding(ERROR, 'table', 'map', `has no ${name}: the original ends there; build it with the nodes`)];
      return bytes.length < least ? [finding(grade, 'table', 'map', `its ${name} has ${bytes.length} bytes: ${wrong}; build it with the nodes`)] : [];
    });
  }
}
