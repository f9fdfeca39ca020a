// The course of a script: its lines with their answers, its steps, and each future that it left. A step is a node that knows the one before
// it. A future is the way from the first step to a tip, with how many lines of the script had run while it was there to be looked at.

// How many lines a page runs. More than twice as many are no script, and a page asks a look behind each.
const MOST_LINES_HERE = 400_000;

/** The first node: no step stands. */
const NO_STEP = Object.freeze({ row: -1, before: null, depth: 0 });

/** Runs a whole script, and gives what came of it. */
class Course {
  constructor(machine, text, dials) {
    this.machine = machine;
    this.dials = dials;
    this.lines = linesOf(text);
    // A row for each line that ran: its answer (none of a silent one), how many steps stand and are in the line, and whether it is held.
    this.rows = [];
    // Why the run ended early, and at which line, counted from 1.
    this.fault = null;
    this.futures = [];
    this.nodes = new Map();
    this.run();
    this.follow();
  }

  /** Runs all lines, each with a look behind it. */
  run() {
    const asked = this.lines.slice(0, MOST_LINES_HERE);
    const { status, text } = this.machine.run(asked.map((line) => (isSilent(line) ? `${line}\n` : `${line}\nshow host\n`)).join(""), this.dials);
    const answers = linesOf(text);
    // The number of the bad line among those that were asked, and that of the next line.
    const bad = status === BAD_LINE ? Number(answers.pop().split(" ")[2]) : Infinity;
    let at = 0, number = 1, last = { cursor: 0, length: 0, isHeld: false };
    for (const line of asked) {
      if (number >= bad) break;
      number += isSilent(line) ? 1 : 2;
      if (isSilent(line)) {
        this.rows.push({ ...last, answer: null });
        continue;
      }
      if (at + 1 >= answers.length) break;
      const [, , hold, , cursor, length] = rest(answers[at + 1]);
      last = { cursor: Number(cursor), length: Number(length), isHeld: hold === "held" };
      this.rows.push({ ...last, answer: answers[at] });
      at += 2;
    }
    this.fault = this.faultOf(status);
  }

  /** Why not all lines ran, if so. */
  faultOf(status) {
    const line = this.rows.length + 1;
    if (status === BAD_LINE) return { line, isBad: true, why: whyBad(this.lines[line - 1]) ?? "the machine does not take it" };
    if (status === NO_WRITE || status === NO_MEMORY) return { line, why: "there is no memory for more in this browser" };
    if (status === REFUSED_DIALS) return { line: 1, why: "an option is out of its limits" };
    if (this.lines.length > MOST_LINES_HERE) return { line, why: `a page runs ${MOST_LINES_HERE} lines, and this script has ${this.lines.length}` };
    return null;
  }

  /** Follows the line of steps, and keeps each future that was left. */
  follow() {
    let line = [], cursor = 0;
    for (const [row, { answer, cursor: now }] of this.rows.entries()) {
      if (answer !== null && isStep(this.lines[row]) && !isRefusal(answer)) {
        const before = cursor === 0 ? NO_STEP : line[cursor - 1];
        if (cursor < line.length) this.futures.push({ tip: line[line.length - 1], fork: cursor, prefix: row });
        const node = { row, before, depth: cursor + 1 };
        line.length = cursor;
        line.push(node);
        this.nodes.set(row, node);
      }
      cursor = now;
    }
    this.futures.push({ tip: line[line.length - 1] ?? NO_STEP, fork: 0, prefix: this.rows.length });
    for (const [number, future] of this.futures.entries()) future.number = number;
  }

  /** The future that is there at the end. */
  get standing() {
    return this.futures[this.futures.length - 1];
  }

  /** The nodes of a future, the first step first. */
  way(future) {
    if (!future.way) {
      const way = [];
      for (let node = future.tip; node !== NO_STEP; node = node.before) way.push(node);
      future.way = way.reverse();
    }
    return future.way;
  }

  /** The nodes of a future behind the place at which it left the one that was there then. */
  tail(future) {
    const tail = [];
    for (let node = future.tip; node.depth > future.fork; node = node.before) tail.push(node);
    return tail.reverse();
  }

  /** The node at which so many steps of a future stand. */
  nodeAt(future, place) {
    return place === 0 ? NO_STEP : this.way(future)[place - 1];
  }

  /** The line of the script that made a step. */
  lineOf(node) {
    return this.lines[node.row];
  }

  /** Where the host stands when these lines of the script have run. */
  stateAfter(prefix) {
    return prefix === 0 ? { cursor: 0, length: 0, isHeld: false } : this.rows[prefix - 1];
  }

  /** The lines that bring the host from the end of a future to where so many of its steps stand. */
  movesTo(future, place) {
    const { cursor, isHeld } = this.stateAfter(future.prefix);
    const holds = isHeld ? [] : ["hold"];
    if (place === cursor) return [];
    return [...holds, place < cursor ? `undo ${cursor - place}` : `redo ${place - cursor}`];
  }

  /** What the host says to some lines behind the first lines of the script. */
  asked(prefix, lines) {
    const before = this.lines.slice(0, prefix);
    const { status, text } = this.machine.run([...before, ...lines].map((line) => `${line}\n`).join(""), this.dials);
    const answers = linesOf(text).slice(-lines.length);
    if (status !== DONE || answers.length !== lines.length) throw new MachineFault("there is no memory in this browser for a look at this place");
    return answers;
  }

  /**
   * The host at a place of a future: its looks there as undo and redo give them, and those of a new machine that ran the lines of the script
   * up to this step alone, with where the two differ. `moves` has the lines that were asked to get there, with their answers; if the host
   * refuses one, the history being full, the looks are those of the new machine. `before` are the looks before this step. `isHeld` is
   * whether the script itself leaves the host held there, and not the moves alone.
   */
  lookAt(future, place) {
    const moves = this.movesTo(future, place);
    const marks = this.marksOf(future, place);
    const looks = [...LOOK_LINES, ...marks.map((it) => `sector ${it}`)];
    const answers = this.asked(future.prefix, [...moves, ...looks]);
    const told = moves.map((line, at) => ({ line, answer: answers[at] }));
    const isStuck = told.some((it) => isRefusal(it.answer));
    const { before, after } = this.around(this.nodeAt(future, place).row, looks);
    const now = isStuck ? after : answers.slice(moves.length);
    return {
      future, place, moves: told, isStuck, isHeld: this.stateAfter(future.prefix).isHeld, differences: differencesOf(looks, now, after), answers: now,
      machine: machineIn(now), fresh: machineIn(after), before: machineIn(before),
      sectors: sectorsIn(marks, now), sectorsBefore: sectorsIn(marks, before),
    };
  }

  /** The looks of a new machine before and after a row of the script; twice those of one without a step if there is no such row. */
  around(row, looks) {
    if (row < 0) {
      const answers = this.asked(0, looks);
      return { before: answers, after: answers };
    }
    const answers = this.asked(row, [...looks, this.lines[row], ...looks]);
    return { before: answers.slice(0, looks.length), answer: answers[looks.length], after: answers.slice(looks.length + 1) };
  }

  /** The reason of a dispatch, by its row of the script: its parts, whose request is sent, and where the host did otherwise. */
  reasonOfRow(row, manner = WHOLE) {
    const { before, answer, after } = this.around(row, LOOK_LINES);
    return reasonOf(machineIn(before), answer, machineIn(after), this.dials, manner);
  }

  /** The future of which a step is, of several the first that was dropped. */
  homeOf(node) {
    if (!this.homes) {
      this.homes = new Map();
      for (const future of this.futures) for (const it of this.tail(future)) if (!this.homes.has(it)) this.homes.set(it, future);
    }
    return this.homes.get(node) ?? this.standing;
  }

  /** The sectors at which what is stored may change: where each write or discard of a future begins, and behind its end. */
  marksOf(future, place) {
    const marks = new Set([0]);
    const most = Number(this.dials.sectors);
    for (const node of this.way(future).slice(0, place)) {
      const [word, , , start, count] = this.lineOf(node).split(" ");
      if (word === "write" || word === "discard") for (const it of [Number(start), Number(start) + Number(count)]) if (it < most) marks.add(it);
    }
    return [...marks].sort((one, other) => one - other).slice(0, MOST_MARKS);
  }
}

// A strip of sectors that has more parts shows the first.
const MOST_MARKS = 2_000;

/** The parts of the device's sectors by what is stored there: where each begins, and its content, or null where nothing is stored. */
function sectorsIn(marks, answers) {
  return marks.map((start, at) => {
    const [, where, hex] = rest(answers[LOOK_LINES.length + at]);
    return { start, content: where === "overlay" ? hex : null };
  });
}

/** The looks of which two machines give other answers, but for what goes on with the calls. */
function differencesOf(looks, one, other) {
  const [first, second] = [withoutCalls(one), withoutCalls(other)];
  return looks.flatMap((line, at) => (first[at] === second[at] ? [] : [`${line}: ${first[at]} and not ${second[at]}`]));
}
