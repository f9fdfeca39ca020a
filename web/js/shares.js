// What each client was given along a future, and what its weights entitle it to, as tools/plot has it: in each group those who have something
// to send share by their weights, of the first class alone; under `none` all share alike.

// No more lines than these are asked for it.
const MOST_ASKED = 900_000;

/** Of each dispatch of a course that was accepted, by its row: the seat, the session, how many sectors, and the share of each client. */
class Services {
  constructor(course) {
    this.course = course;
    this.rows = new Map();
    this.isTooLong = false;
    this.ask();
  }

  /** Asks before each dispatch who waits, and after it whose request is sent. */
  ask() {
    const { course } = this;
    const rows = course.rows.map((it, row) => ({ ...it, row, line: course.lines[row] })).filter((it) => it.answer !== null);
    const seats = [...new Set(rows.flatMap((it) => (/^attach (\d+) /.test(it.line) ? [Number(it.line.split(" ")[1])] : [])))].filter((it) => it < SEATS);
    const groups = range(Math.min(GROUPS, 1 + rows.filter((it) => it.line.startsWith("group ")).length));
    const before = ["show host", "show requeued", ...seats.flatMap((it) => [`show seat ${it}`, `show queue ${it}`]), ...groups.map((it) => `show tree ${it}`)];
    const isDispatch = (it) => it.line === "dispatch" && !isRefusal(it.answer);
    const asked = rows.flatMap((it) => (isDispatch(it) ? [...before, it.line, "show flight"] : [it.line]));
    this.isTooLong = asked.length > MOST_ASKED;
    if (this.isTooLong) return;
    const answers = linesOf(course.machine.run(asked.map((line) => `${line}\n`).join(""), course.dials).text);
    let at = 0;
    for (const it of rows) {
      if (isDispatch(it)) {
        const looks = answers.slice(at, (at += before.length));
        this.rows.set(it.row, serviceOf(looks, seats, groups, answers[at], answers[at + 1]));
        at += 1;
      }
      at += 1;
    }
  }

  /** The points along a future: how many sectors were sent, and for each client what it was given and entitled to; with the step's depth. */
  points(future) {
    if (future.points) return future.points;
    let last = { depth: 0, total: 0, clients: new Map(), served: null };
    const points = [last];
    for (const node of this.course.way(future)) {
      const it = this.rows.get(node.row);
      if (!it) continue;
      const clients = new Map(last.clients);
      for (const [key, client] of it.clients) {
        const { sent, due } = clients.get(key) ?? { sent: 0, due: 0 };
        clients.set(key, { ...client, sent: sent + (client.seat === it.seat ? it.count : 0), due: due + it.count * (it.shares.get(client.seat) ?? 0) });
      }
      last = { depth: node.depth, total: last.total + it.count, clients, served: it.seat };
      points.push(last);
    }
    future.points = points;
    return points;
  }
}

/** What one dispatch gave and to whom, and what share each seat was entitled to. */
function serviceOf(looks, seats, groups, answer, flight) {
  const [, tag, , , , count] = answer.split(" ");
  const seat = Number(rest(flight).map((item) => item.split(":")).find((item) => item[0] === tag)[2]);
  const scheduler = rest(looks[0])[0], isReturned = rest(looks[1]).length > 0;
  const clients = new Map(), waiting = [];
  for (const [at, of] of seats.entries()) {
    const session = rest(looks[2 + 2 * at])[1];
    if (session === "none") continue;
    clients.set(`${of} ${session}`, { seat: of, session: Number(session) });
    if (looks[3 + 2 * at].split(" ").length > 2) waiting.push(of);
  }
  const shares = new Map();
  if (isReturned) {
    // Nobody waits for a request that the device gave back: it was paid for when it was first sent.
    shares.set(seat, 1);
  } else if (scheduler === "none") {
    for (const it of waiting) shares.set(it, 1 / waiting.length);
  } else {
    const trees = new Map(groups.map((group, at) => [group, rest(looks[2 + 2 * seats.length + at]).slice(3).map(memberOf)]));
    shareOut(trees, ROOT, 1, shares);
  }
  return { seat, count: Number(count), clients, shares };
}

/** Gives the share of a group to its members. */
function shareOut(trees, group, share, found) {
  const busy = (trees.get(group) ?? []).filter((it) => it.state !== "idle");
  const first = CLASSES.find((name) => busy.some((it) => it.className === name));
  const chosen = busy.filter((it) => it.className === first);
  const whole = chosen.reduce((sum, it) => sum + it.weight, 0);
  for (const it of chosen) {
    if (it.entity < OF_GROUPS) found.set(it.entity, (share * it.weight) / whole);
    else shareOut(trees, it.entity - OF_GROUPS, (share * it.weight) / whole, found);
  }
}
