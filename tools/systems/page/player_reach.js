/* Where a player gets in a level, as tools/doomview_tools/player_reach.py has it, which says why: over steps, down falls, over gaps
that a running jump passes, through what moves or has a special, by teleports, and to what he wants. A test compares both. */
const { SPEED, THING_RADIUS, DESTINATION, TO_THINGS, TO_LINES, STAIRS, DONUT, SKILLS, WANTED } = FACTS;

// How deep a player is below the edge at the beginning of a move in the air, counted from 1 (P_ZMovement).
const drop = move => move > 1 ? move * (move - 1) / 2 - 1 : 0;
// How wide a gap may be over which a running player comes to a floor that is lower by a depth. None is -1.
function jumpLength(depth) {
  if (depth < -STEP_UP) return -1;
  let move = 1;
  while (drop(move + 1) <= depth + STEP_UP) move++;
  return move * SPEED + 2 * RADIUS;
}
// The square of the distance of two segments that do not cross; each is a pair of ends.
function segmentsApart(one, other) {
  const apart = ([x, y], [[x1, y1], [x2, y2]]) => distance(x - x1, y - y1, x2 - x1, y2 - y1);
  return Math.min(...one.map(end => apart(end, other)), ...other.map(end => apart(end, one)));
}
const roomOver = (one, other) => Math.min(one.ceiling, other.ceiling) - Math.max(one.floor, other.floor);
// Whether two boxes, each a low x and y and a high x and y, are no farther apart than a length on either axis.
const areNear = (one, other, length) => one[0] - other[2] <= length && other[0] - one[2] <= length &&
  one[1] - other[3] <= length && other[1] - one[3] <= length;
// All that is reached from some items by a function that gives those next to one.
function flooded(first, next) {
  const found = new Set(first), left = [...found];
  while (left.length)
    for (const other of next(left.pop()))
      if (!found.has(other)) { found.add(other); left.push(other); }
  return found;
}

class PlayerWays {
  constructor(plan) {
    this.plan = plan; this.level = plan.level; this.moving = movingSectors(plan);
    this.linesOf = new Lists(); // of each sector the lines that a player may pass, to another
    plan.beside.forEach(([front, back], number) => {
      if (!plan.isWall(number) && front !== back) { this.linesOf.at(front).push(number); this.linesOf.at(back).push(number); }
    });
    this.boxes = plan.beside.map((_, number) => {
      const [[x1, y1], [x2, y2]] = plan.ends(number);
      return [Math.min(x1, x2), Math.min(y1, y2), Math.max(x1, x2), Math.max(y1, y2)];
    });
    this.destinations = new Set(this.level.things.filter(thing => thing.type === DESTINATION).map(thing => this.level.sectorAt(thing.x, thing.y)));
    this.steps = this.stepsOfLines();
    const floors = (sector, number, f) => f(sector.floor, ...this.moving.has(number) ? this.lines(number).map(line => this.sector(this.across(line, number)).floor) : []);
    this.low = this.level.sectors.map((sector, number) => floors(sector, number, Math.min));
    this.high = this.level.sectors.map((sector, number) => floors(sector, number, Math.max));
  }
  sector(number) { return this.level.sectors[number]; }
  lines(sector) { return this.linesOf.get(sector) || []; }
  // The sector on the other side of a line.
  across(line, sector) { const [front, back] = this.plan.beside[line]; return front === sector ? back : front; }
  // Of each sector those into which a player may step, fall, go or be teleported.
  stepsOfLines() {
    const found = new Lists();
    this.level.lines.forEach((line, number) => {
      for (const [one, other] of this.pairs(number)) if (this.leads(line, one, other)) found.at(one).push(other);
      const [front] = this.plan.beside[number];
      if (front !== null) found.at(front).push(...this.endsOfTeleport(line));
    });
    return found;
  }
  // The sectors on both sides of a line, in both orders; where they are the same those that the nodes have beside it.
  pairs(number) {
    if (this.plan.isWall(number)) return [];
    let [front, back] = this.plan.beside[number];
    if (front === back) [front, back] = this.sectorsByNodes(number);
    return front === back ? [] : [[front, back], [back, front]];
  }
  sectorsByNodes(number) {
    const [[x1, y1], [x2, y2]] = this.plan.ends(number), length = ((x2 - x1) ** 2 + (y2 - y1) ** 2) ** .5 || 1;
    const offX = (y2 - y1) / length, offY = (x1 - x2) / length;
    return [1, -1].map(side => this.level.sectorAt((x1 + x2) / 2 + side * offX, (y1 + y2) / 2 + side * offY));
  }
  isMoving(one, other) { return this.moving.has(one) || this.moving.has(other); }
  leads(line, one, other) { return line.special !== 0 || this.isMoving(one, other) || isStep(this.sector(one), this.sector(other)); }
  endsOfTeleport(line) {
    if (TO_LINES.includes(line.special))
      return this.level.lines.flatMap((other, number) => other.tag === line.tag ? this.plan.beside[number] : []).filter(sector => sector !== null);
    return TO_THINGS.includes(line.special) ? [...this.destinations].filter(number => this.sector(number).tag === line.tag) : [];
  }
  // The sectors to which ways and running jumps lead from some of them.
  withJumps(sectors) {
    const flood = from => flooded(from, number => this.steps.get(number) || []);
    for (let found = flood(sectors); ;) {
      const more = this.jumped(found);
      if (!more.size) return found;
      found = flood([...found, ...more]);
    }
  }
  // The sectors outside of some to which a player jumps from these.
  jumped(found) {
    const reached = new Set(), goals = [...found].flatMap(number => this.lines(number).map(line => [line, this.across(line, number)])
      .filter(([line, other]) => !found.has(other) && this.passes(number, other)));
    for (const jump of goals.length ? this.edges(found) : [])
      if (goals.some(([line, other]) => !reached.has(other) && this.mayCome(jump, line, other)))
        this.flownOver(jump).forEach(sector => found.has(sector) || reached.add(sector));
    return reached;
  }
  // The edges from which a player may jump: a line, the height of the floor that he leaves, the sector below.
  edges(found) {
    return [...found].sort((a, b) => a - b).flatMap(number => this.lines(number).map(line => ({ line, height: this.high[number], below: this.across(line, number) }))
      .filter(({ height, below }) => height > this.sector(below).floor && roomOver(this.sector(number), this.sector(below)) >= HEIGHT));
  }
  // Whether a line is near enough for a player who jumps to come over it into a sector.
  mayCome(jump, line, sector) {
    const length = jumpLength(jump.height - this.low[sector]);
    return length >= 0 && line !== jump.line && areNear(this.boxes[jump.line], this.boxes[line], length) &&
      segmentsApart(this.plan.ends(jump.line), this.plan.ends(line)) <= length * length;
  }
  // The sectors over which a jump may lead: a player may come down in each of them.
  flownOver(jump) {
    return flooded([jump.below], number => this.lines(number).map(line => [line, this.across(line, number)])
      .filter(([line, other]) => this.passes(number, other) && this.mayCome(jump, line, other)).map(([, other]) => other));
  }
  // Whether the opening over a line is high enough for a player in the air.
  passes(one, other) { return this.isMoving(one, other) || roomOver(this.sector(one), this.sector(other)) >= HEIGHT; }
  // Whether a player in one of some sectors takes a thing of another sector without a step into it.
  isInGrasp(number, sector, found) {
    const { x, y } = this.level.things[number], { floor } = this.sector(sector), reaches = side => found.has(side) && floor - this.high[side] <= HEIGHT;
    return this.plan.beside.some((pair, line) => !pair.includes(null) && areNear(this.boxes[line], [x, y, x, y], RADIUS + THING_RADIUS) && pair.some(reaches));
  }
  // The things that a player wants, by their sectors; none that never appears or is in the void.
  wanted() {
    const place = new Ground(this.plan), found = new Lists();
    this.level.things.forEach(({ x, y, type, options }, number) => {
      if (WANTED[type] && options & SKILLS && ![-.5, .5].every(off => place.isVoid(x, y + off))) found.at(this.level.sectorAt(x, y)).push(number);
    });
    return found;
  }
}
// The sectors that may move: by their tag, those that are shut, and what stairs and donuts move without a tag.
function movingSectors(plan) {
  const { sectors, lines } = plan.level, all = [...sectors.keys()];
  const taggedBy = specials => {
    const tags = new Set(lines.filter(line => specials.includes(line.special)).map(line => line.tag));
    return new Set(all.filter(number => tags.has(sectors[number].tag)));
  };
  const behind = new Lists(), donuts = taggedBy(DONUT);
  for (const [front, back] of plan.beside)
    if (front !== null && back !== null && sectors[front].floorFlat === sectors[back].floorFlat) behind.at(front).push(back);
  const steps = flooded(taggedBy(STAIRS), number => behind.get(number) || []);
  const beside = plan.beside.filter(pair => pair.some(sector => donuts.has(sector))).flat().filter(sector => sector !== null);
  return new Set([...all.filter(number => isShut(sectors[number])), ...plan.tagged(), ...steps, ...beside]);
}
// Where a player gets from the starts of a level, and of the sectors to which no way was found the things that he wants there.
function reachOf(plan) {
  const { level } = plan, starts = new Set(level.things.filter(thing => STARTS.includes(thing.type)).map(thing => level.sectorAt(thing.x, thing.y)));
  if (!starts.size) return { sectors: new Set(), wanted: [] };
  const ways = new PlayerWays(plan), found = ways.withJumps(starts);
  const left = [...ways.wanted()].filter(([sector]) => !found.has(sector)).sort(([a], [b]) => a - b);
  const far = left.map(([sector, things]) => [sector, things.filter(thing => !ways.isInGrasp(thing, sector, found))]);
  return { sectors: ways.withJumps([...found, ...left.map(([sector]) => sector)]), wanted: far.filter(([, things]) => things.length) };
}
