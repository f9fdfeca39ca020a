// The slider: a line for each future over the number of steps that stand, with a tick for each step and a large one for each choice; and what
// each client was given, as a table and as a picture of who is ahead of its share.

// The ends are those of the thumb of the slider below it.
const TRACK = { left: 8, right: 8, lane: 20, top: 14, mostLanes: 4 };
// Small ticks that are nearer to each other than so many pixels would touch.
const LEAST_APART = 2.5;
const AHEAD = "How many sectors each client was given more than it is entitled to: above 0 it is ahead of its share, below 0 behind.";

/** The lane of each future, of which the one that stands has the lowest; those that do not overlap share one. */
function lanesOf(course) {
  const lanes = [[{ from: 0, to: Infinity }]];
  const found = new Map([[course.standing, 0]]);
  for (const future of course.futures.slice(0, -1).reverse()) {
    const own = { from: future.fork, to: future.tip.depth };
    let lane = lanes.findIndex((taken) => taken.every((it) => own.to < it.from || own.from > it.to));
    if (lane < 0) lane = lanes.push([]) - 1;
    lanes[lane].push(own);
    found.set(future, lane);
  }
  return { found, count: lanes.length };
}

/** The most steps of a future. */
function mostSteps(course) {
  return Math.max(1, ...course.futures.map((it) => it.tip.depth));
}

/** The drawing of all futures on their lanes, so many pixels wide, with what tells the future and the place at a point of it. */
function trackOf(course, { found, count }, future, place, wide) {
  const shown = Math.min(count, TRACK.mostLanes);
  const high = TRACK.top + TRACK.lane * shown + 8;
  const most = mostSteps(course);
  const x = (depth) => TRACK.left + (depth / most) * (wide - TRACK.left - TRACK.right);
  const y = (it) => high - 14 - TRACK.lane * Math.min(found.get(it), shown - 1);
  const drawing = drawn("svg", { viewBox: `0 0 ${wide} ${high}`, width: wide, height: high, class: "track", "aria-hidden": true });
  const laid = course.futures.filter((it) => found.get(it) < shown || it === future);
  for (const it of laid) drawing.append(...laneOf(course, it, it === future, x, y(it), y(course.standing)));
  drawing.append(
    drawn("path", { d: `M${x(place) - 7} ${y(future) - 15} h14 l-7 9 z`, class: "marker" }),
    drawn("circle", { cx: x(place), cy: y(future), r: 4, class: "marker" }));
  const nearest = (px, py) => {
    const of = laid.reduce((best, it) => (Math.abs(y(it) - py) < Math.abs(y(best) - py) ? it : best));
    const depth = Math.round(((px - TRACK.left) / (wide - TRACK.left - TRACK.right)) * most);
    // On a lane with several futures the one is meant that reaches to this place.
    const inLane = laid.filter((it) => found.get(it) === found.get(of) && it.fork <= depth && depth <= it.tip.depth);
    const taken = inLane[0] ?? of;
    return { future: taken, place: Math.max(0, Math.min(depth, taken.tip.depth)) };
  };
  return { drawing, nearest };
}

/** The line of one future with its ticks, from where it left the line that stands. */
function laneOf(course, future, isChosen, x, y, ground) {
  const from = future.fork, to = future.tip.depth, isStanding = future === course.standing;
  const words = `${isStanding ? "standing" : "dropped"}${isChosen ? " chosen" : ""}`;
  const found = [drawn("path", { d: isStanding ? `M${x(0)} ${y} H${x(to)}` : `M${x(from)} ${ground} V${y} H${x(to)}`, class: `lane ${words}` })];
  const nodes = course.tail(future);
  const small = [], large = [];
  for (const node of nodes) {
    const isChoice = course.lineOf(node) === "dispatch";
    if (isChoice) large.push(`M${x(node.depth).toFixed(1)} ${y - 6}v12`);
    else if (x(1) - x(0) >= LEAST_APART) small.push(`M${x(node.depth).toFixed(1)} ${y - 2.5}v5`);
  }
  found.push(drawn("path", { d: small.join(""), class: `tick small ${words}` }), drawn("path", { d: large.join(""), class: `tick large ${words}` }));
  return found;
}

/** The last point of some that is not behind a place. */
function pointAt(points, place) {
  let [first, last] = [0, points.length - 1];
  while (first < last) {
    const middle = (first + last + 1) >> 1;
    if (points[middle].depth <= place) first = middle;
    else last = middle - 1;
  }
  return points[first];
}

/** What each client was given so far and what its weights entitle it to, as a table. */
function sharesTable(points, place) {
  const point = pointAt(points, place);
  const rows = [...point.clients.values()].sort((one, other) => one.seat - other.seat || one.session - other.session);
  if (point.total === 0) return element("p", { class: "none" }, "No sector was sent yet.");
  const percent = (of) => ((100 * of) / point.total).toFixed(1);
  const sign = (ahead) => (Math.abs(ahead) < 0.05 ? "0" : `${ahead > 0 ? "+" : "\u2212"}${Math.abs(ahead).toFixed(1)}`);
  const heads = ["client", "given", "entitled", "share, %", "of weights, %", "ahead"];
  return element("table", { class: "shares" },
    element("thead", {}, element("tr", {}, heads.map((it) => element("th", { scope: "col", title: it === "ahead" ? AHEAD : null }, it)))),
    element("tbody", {}, rows.map((it) => element("tr", { class: colourOf(it.seat) },
      element("th", { scope: "row" }, element("span", { class: "swatch" }), `seat ${it.seat}`),
      [`${it.sent}`, it.due.toFixed(1), percent(it.sent), percent(it.due), sign(it.sent - it.due)].map((text) => element("td", {}, text))))));
}

/** How far each client is ahead of its share over all sectors that were sent, with a mark at a place, in a drawing that is so wide. */
function aheadPicture(points, place, wide) {
  const high = 96, left = 38, right = 6, top = 6, bottom = 18;
  const last = points[points.length - 1];
  if (last.total === 0) return null;
  const aheadOf = (point, key) => { const it = point.clients.get(key); return it ? it.sent - it.due : 0; };
  const keys = [...last.clients.keys()];
  // Of many points as many are drawn as there are pixels.
  const shown = points.filter((_, at) => at % Math.ceil(points.length / 800) === 0 || at === points.length - 1);
  const most = Math.max(1, ...shown.flatMap((point) => keys.map((key) => Math.abs(aheadOf(point, key)))));
  const x = (point) => left + ((wide - left - right) * point.total) / last.total;
  const y = (ahead) => top + ((high - top - bottom) * (1 - ahead / most)) / 2;
  const drawing = drawn("svg", { viewBox: `0 0 ${wide} ${high}`, class: "ahead", role: "img", "aria-label": AHEAD },
    drawn("line", { x1: left, x2: wide - right, y1: y(0), y2: y(0), class: "grid" }),
    drawn("text", { x: left - 4, y: y(most) + 9, class: "tick end" }, `+${most.toFixed(0)}`),
    drawn("text", { x: left - 4, y: y(-most), class: "tick end" }, `\u2212${most.toFixed(0)}`),
    drawn("text", { x: left, y: high - 4, class: "tick start" }, "sectors ahead of its share"),
    drawn("text", { x: wide - right, y: high - 4, class: "tick end" }, `${last.total} sent`));
  for (const key of keys) {
    const { seat } = last.clients.get(key);
    const corners = shown.map((it) => `${x(it).toFixed(1)},${y(aheadOf(it, key)).toFixed(1)}`).join(" ");
    drawing.append(drawn("polyline", { points: corners, class: `ahead ${colourOf(seat)} dash-${seat % 4}` }));
  }
  const here = x(pointAt(points, place));
  drawing.append(drawn("line", { x1: here, x2: here, y1: top, y2: high - bottom, class: "vtime" }));
  return drawing;
}
