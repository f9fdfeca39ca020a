// The groups: for each class of a group that has members an axis of virtual time, with V as an upright line and a bar from S to F for each
// member. What is filled may start; what is dashed has its start past V; an idle member is a ring.

// The heights of an axis, in units of its drawing, which are pixels in print of the usual size. A drawing is as wide as its column.
const HEAD_HIGH = 40, ROW_HIGH = 34, FOOT_HIGH = 18, BAR_HIGH = 14, RIGHT = 12;
// In a narrower drawing names stand above the bars, on a line or on two.
const NARROW = 380, NAME_HIGH = 15, NUMBERS_HIGH = 13;
// The names of members have at least so much room at the left of the bars.
const LEAST_FOR_NAMES = 150;
const MOST_TICKS = 5;
// What a letter of the widest font is wide, by its height; and the sizes of letters that page.css has, and how far texts stay apart.
const LETTER_WIDE = 0.66, BOLD_WIDE = 0.74, SMALL = 11, USUAL = 12, GAP = 8;
const LEGEND = "V is the upright line; a bar goes from S to F. \u25cf full: it may start, as S is not past V. \u25e6 dashed: S is past V. "
  + "\u25b6 is in service; dark is what it has had. \u25cb idle.";
const OF_ALIKE = "Times that are alike to three places have seven: each division by a weight is rounded down, to a multiple of 2\u207b\u00b2\u00b2 "
  + "(some 0.0000002), and the machine goes by that.";

/** How wide a text is at most. */
function widthOf(text, size, letter = LETTER_WIDE) {
  return text.length * size * letter;
}

/** Keeps a place of a text between two ends. */
function within(least, x, most) {
  return Math.max(least, Math.min(x, most));
}

/** The axes of all groups, from the root down, in drawings that are so wide; under `none` there is none, but turns. Why a time has more places
 * is told if one has, here or elsewhere. */
function groupsOf({ machine, before }, wide, hasElsewhere = false) {
  if (machine.scheduler === "none") return [turnsOf(machine, before)];
  const found = [];
  for (const group of machine.members.keys()) {
    const classes = classesIn(machine, group);
    const parent = machine.parents.get(OF_GROUPS + group);
    const name = group === ROOT ? "group 0, the root" : `group ${group}, in group ${parent}`;
    if (classes.length === 0) found.push(element("p", { class: "none" }, `${name}: nobody is in it`));
    for (const className of classes) {
      const isAlone = classes.length === 1 && className === BEST_EFFORT;
      const words = isAlone ? [name] : [name, `class ${CLASS_NAMES[className]}`];
      found.push(new Axis(machine, before, group, className, wide).drawing(words));
    }
  }
  const hasAlike = hasElsewhere || found.some((it) => it.dataset.alike !== undefined);
  found.push(element("p", { class: "legend" }, LEGEND), ...(hasAlike ? [element("p", { class: "legend alike" }, OF_ALIKE)] : []));
  return found;
}

/** The turns of the seats, under the scheduler `none`. */
function turnsOf(machine, before) {
  const seats = [...machine.queues.keys()];
  const next = range(SEATS).map((at) => (machine.lastSeat + 1 + at) % SEATS).find((it) => machine.queues.get(it)?.requests.length > 0);
  return element("div", { class: "turns" },
    element("h3", {}, "the seats in turn"),
    element("p", { class: classWords("words", machine.lastSeat !== before.lastSeat) }, `Seat ${machine.lastSeat} was served last.`),
    element("ol", {}, seats.map((seat) => element("li", { class: `${colourOf(seat)}${seat === next ? " next" : ""}` }, element("span", { class: "swatch" }),
      `${seat === next ? "\u25b8 " : ""}seat ${seat}: ${machine.queues.get(seat).requests.length} queued`))),
    element("p", { class: "words" }, next === undefined ? "No request waits." : `Seat ${next} is the next with a request.`));
}

/** The axis of a class of a group. */
class Axis {
  constructor(machine, before, group, className, wide) {
    Object.assign(this, { machine, before, wide });
    this.vtime = machine.vtimes.get(placeOf(group, className));
    this.lastVtime = before.vtimes.get(placeOf(group, className));
    this.members = [...machine.members.get(group).values()].filter((it) => it.className === className);
    this.lastMembers = before.members.get(group) ?? new Map();
    const times = [this.vtime, ...this.members.flatMap((it) => (it.state === "idle" ? [it.start] : [it.start, it.finish]))];
    this.hasAlike = alikeIn(times).size > 0;
    this.time = timesOf(times, MORE_PLACES);
    this.shape();
    this.scale();
  }

  /** Where names, bars and numbers of a row stand. */
  shape() {
    const names = this.members.map((it) => widthOf(this.nameIn(it), USUAL, BOLD_WIDE)), numbers = this.members.map((it) => widthOf(this.numbersIn(it), SMALL));
    this.isNarrow = this.wide < NARROW;
    this.isOnOneLine = this.isNarrow && names.every((it, at) => it + GAP + numbers[at] <= this.wide);
    this.above = this.isNarrow ? NAME_HIGH + (this.isOnOneLine ? 0 : NUMBERS_HIGH) : 0;
    this.rowHigh = ROW_HIGH + this.above;
    this.head = HEAD_HIGH;
    this.left = this.isNarrow ? 4 : Math.max(LEAST_FOR_NAMES, ...names, ...numbers) + GAP;
  }

  /** Where virtual times stand, and the ticks. What is idle has no part in what the axis reaches, if anybody waits. */
  scale() {
    const busy = this.members.filter((it) => it.state !== "idle");
    const times = [this.vtime, ...(busy.length > 0 ? busy : this.members).flatMap((it) => [it.start, it.finish])];
    const least = times.reduce((one, other) => (other < one ? other : one)), most = times.reduce((one, other) => (other > one ? other : one));
    // All reckoning is done from the least time on: whole times may have more digits than a number of the browser.
    const unit = Number(1n << SCALE);
    const length = Math.max(Number(most - least) / unit, busy.length > 0 ? 1 / 64 : 1);
    const step = BigInt(Math.round(stepOf(length / MOST_TICKS) * unit));
    this.begin = (least / step) * step;
    this.end = this.begin + step * BigInt(Math.max(1, Math.ceil(Number(most - this.begin) / Number(step))));
    this.ticks = [];
    for (let time = this.begin; time <= this.end; time += step) this.ticks.push(time);
  }

  /** Where a virtual time stands. */
  at(time) {
    const part = Number(time - this.begin) / Number(this.end - this.begin);
    return this.left + within(0, part, 1) * (this.wide - RIGHT - this.left);
  }

  /** The axis as a drawing, with a text for who does not see it. Its name stands on two lines if it is too long for one. */
  drawing(words) {
    const name = words.join(", "), lines = widthOf(name, USUAL, BOLD_WIDE) > this.wide ? words : [name];
    this.head = HEAD_HIGH + (lines.length - 1) * NAME_HIGH;
    const high = this.head + this.rowHigh * this.members.length + FOOT_HIGH, foot = high - FOOT_HIGH;
    const attributes = { viewBox: `0 0 ${this.wide} ${high}`, class: "axis", role: "img", "aria-label": this.spoken(name), "data-alike": this.hasAlike };
    const rows = this.members.map((it, at) => this.row(it, this.head + this.rowHigh * at));
    const x = this.at(this.vtime), said = `V ${this.time(this.vtime)}`, half = widthOf(said, USUAL, BOLD_WIDE) / 2;
    const named = { x: within(half, x, this.wide - half), y: this.head - 11, class: classWords("vtime", this.vtime !== this.lastVtime) };
    return drawn("svg", attributes,
      lines.map((line, at) => drawn("text", { x: 0, y: 12 + at * NAME_HIGH, class: "name" }, line)),
      rows.map((it) => it.back), this.grid(high, foot), rows.flatMap((it) => it.bars),
      drawn("line", { x1: x, x2: x, y1: this.head - 8, y2: foot, class: "vtime" }), rows.map((it) => it.texts), drawn("text", named, said));
  }

  /** The lines of the ticks, and as many of their numbers as have room. */
  grid(high, foot) {
    let taken = -Infinity;
    return this.ticks.flatMap((time) => {
      const x = this.at(time), text = shortOf(time), half = widthOf(text, SMALL) / 2;
      const line = drawn("line", { x1: x, x2: x, y1: this.head - 2, y2: foot, class: "grid" });
      const middle = within(half, x, this.wide - half);
      if (middle - half < taken + GAP) return [line];
      taken = middle + half;
      return [line, drawn("text", { x: middle, y: high - 5, class: "tick" }, text)];
    });
  }

  /** What the axis shows, in words. */
  spoken(name) {
    const of = (it) => `${nameOf(it.entity)} ${wordOf(it, this.vtime)}, S ${this.time(it.start)}, F ${this.time(it.finish)}, weight ${it.weight}`;
    return `${name}: V ${this.time(this.vtime)}; ${this.members.map(of).join("; ")}`;
  }

  nameIn(it) {
    const mark = it.state === "serving" ? "\u25b6" : it.state === "idle" ? "\u25cb" : it.start <= this.vtime ? "\u25cf" : "\u25e6";
    return `${mark} ${nameOf(it.entity)}, weight ${it.weight === it.pending ? it.weight : `${it.weight}\u2192${it.pending}`}`;
  }

  numbersIn(it) {
    const word = it.state === "serving" ? "in service" : wordOf(it, this.vtime);
    return `${this.hasChanged(it) ? "\u2022 " : ""}${word}, budget ${this.machine.budgets.get(it.entity)}`;
  }

  /** Whether anything of a member is another than before the last step. */
  hasChanged(it) {
    const facts = (of, machine) => of && `${of.state} ${of.start} ${of.finish} ${of.weight} ${of.pending} ${machine.budgets.get(of.entity)}`;
    return facts(it, this.machine) !== facts(this.lastMembers.get(it.entity), this.before);
  }

  /** The row of a member: what lies behind, its bar, and its texts. */
  row(it, y) {
    const changed = this.hasChanged(it) ? "changed" : null;
    const bar = y + this.above + 4;
    const numbers = !this.isNarrow ? { x: 2, y: y + 28 } : this.isOnOneLine ? { x: widthOf(this.nameIn(it), USUAL, BOLD_WIDE) + GAP, y: y + 14 }
      : { x: 2, y: y + 14 + NUMBERS_HIGH };
    return {
      back: drawn("rect", { x: 0, y: y + 1, width: this.wide, height: this.rowHigh - 2, class: classWords("row", changed) }),
      bars: this.bars(it, bar),
      texts: drawn("g", { class: changed }, drawn("text", { x: 2, y: y + 14, class: "member" }, this.nameIn(it)),
        drawn("text", { ...numbers, class: "numbers" }, this.numbersIn(it)), this.ends(it, bar + 25)),
    };
  }

  /** The bar of a member, with what it has had; a ring of one that is idle. */
  bars(it, y) {
    const from = this.at(it.start), isServing = it.state === "serving", colour = colourOf(it.entity);
    if (it.state === "idle") return [drawn("circle", { cx: from, cy: y + BAR_HIGH / 2, r: 5, class: `idle ${colour}` })];
    const look = isServing ? "serving" : it.start <= this.vtime ? "eligible" : "late";
    const box = { x: from, y, width: Math.max(2, this.at(it.finish) - from), height: BAR_HIGH };
    const found = [drawn("rect", { ...box, class: "under" }), drawn("rect", { ...box, class: `bar ${look} ${colour}` })];
    if (isServing && this.machine.service) {
      const had = this.at(it.start + delta(this.machine.service.sent, it.weight));
      found.push(drawn("rect", { x: from, y: y + BAR_HIGH / 2 - 3, width: Math.max(0, had - from), height: 6, class: "had" }));
    }
    return found;
  }

  /** S and F of a member: below the ends of its bar, or in a row if it is short for them. */
  ends(it, y) {
    const start = `S ${this.time(it.start)}`, from = this.at(it.start);
    const finish = it.state === "idle" ? "" : `F ${this.time(it.finish)}`, to = it.state === "idle" ? from : this.at(it.finish);
    if (to - from >= widthOf(start + finish, SMALL) + GAP) {
      return [drawn("text", { x: from, y, class: "numbers" }, start), drawn("text", { x: to, y, class: "numbers end" }, finish)];
    }
    const text = finish ? `${start}, ${finish}` : start, room = this.wide - this.left;
    // Times near 2^62 are longer than a narrow drawing is wide, and are set as wide as that.
    const fit = widthOf(text, SMALL) > room ? { textLength: room, lengthAdjust: "spacingAndGlyphs" } : {};
    return [drawn("text", { x: within(this.left, from, this.wide - widthOf(text, SMALL)), y, class: "numbers", ...fit }, text)];
  }
}

/** How a member stands to V. */
function wordOf(it, vtime) {
  if (it.state !== "active") return it.state;
  return it.start <= vtime ? "may start" : "S past V";
}

/** The least of 1, 2 and 5 times a power of ten that is not below a number, but for what is too small to be told. */
function stepOf(number) {
  const power = 10 ** Math.floor(Math.log10(number));
  const step = [1, 2, 5, 10].find((it) => it * power >= number * 0.999) * power;
  return Math.max(step, 0.001);
}

/** A time by weight without what tells nothing. */
function shortOf(time) {
  return byWeight(time).replace(/\.?0+$/, "");
}
