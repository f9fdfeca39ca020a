// The page: what is chosen and typed, and what is shown of it.

// How many lines of a script stand in the list around the one that is looked at.
const ROWS_AROUND = 120;
// A run of more lines than these is shown when the slider rests, and not while it is drawn.
const MANY_LINES = 8_000, REST_MILLISECONDS = 160;
// A script that is longer than this many characters does not stand in the address.
const MOST_IN_ADDRESS = 30_000;

const AS_WORKED_OUT = "\u2713 Worked out before, by the rules. The machine gave this answer, and the whole state after it is the same.";

const view = { machine: null, text: "", dials: null, course: null, services: null, future: null, place: 0, look: null, beside: null, given: null, waiting: 0,
  // What was edited and has not run, or null.
  draft: null,
  // The scripts of one's own by their values in the menu, each with its text and its words of options as it ran last.
  own: new Map() };

/** Begins: with what the address says, else with the script that this page was made with, else with the first of the menu. */
async function begin() {
  const given = JSON.parse(byId("given").textContent), menu = JSON.parse(byId("menu-scripts").textContent);
  view.given = given;
  view.menu = menu;
  byId("run").append(...(given.name ? [element("option", { value: given.name }, given.name)] : []), ...menuOf(menu));
  // What may be typed, with words in capitals for what is to be put in.
  byId("forms").append(...TABLES.forms.map((form) => element("option", { value: form.join(" ") })));
  for (const { name, field, least, most, says } of OPTIONS) {
    const input = element("input", { id: field, inputmode: "numeric", size: 8 });
    byId("dials").append(element("label", { title: `${least} to ${most}` }, element("code", {}, name), input, says));
  }
  try {
    view.machine = await machineOf(byId("module").textContent.trim());
  } catch (fault) {
    byId("missing-why").textContent = `This browser cannot run the machine of this page: ${fault.message}. `;
    return;
  }
  document.documentElement.classList.add("runs");
  listen();
  fromAddress();
}

/** The parts of the menu. What a page cannot run has no text, and says why; it cannot be chosen. */
function menuOf(menu) {
  const parts = [...new Set(menu.map((it) => it.part))];
  const optionOf = (it) => element("option", { value: it.name ?? it.label, disabled: !("text" in it) }, it.label);
  return parts.map((part) => element("optgroup", { label: part }, menu.filter((it) => it.part === part).map(optionOf)));
}

/** Chooses a script of one's own in the menu: the one that is chosen there, or one more. */
function chooseOwn() {
  const menu = byId("run");
  if (view.own.has(menu.value)) return;
  // No name of a run has this sign, nor has that of a file.
  const number = view.own.size + 1, value = `own/${number}`;
  view.own.set(value, null);
  menu.append(element("option", { value }, `a script of your own${number > 1 ? `, ${number}` : ""}`));
  menu.value = value;
}

/** A script of the menu, or the one that this page was made with. */
function scriptNamed(name) {
  return name === view.given.name && name ? view.given : view.menu.find((it) => it.name === name && "text" in it);
}

/** Shows what the address says. */
function fromAddress() {
  const words = new URLSearchParams(location.hash.slice(1));
  document.documentElement.classList.toggle("large", words.get("print") === "large");
  setLook(words.get("look"));
  const named = scriptNamed(words.get("run")) ?? scriptNamed(view.given.name) ?? scriptNamed(TABLES.first);
  const text = words.get("script") ?? named.text, options = words.get("options")?.split(" ").filter((it) => it) ?? (words.has("script") ? [] : named.options);
  let dials = usualDials();
  tellFault(words.get("run") && words.get("run") !== named.name ? `There is no run \u201c${words.get("run")}\u201d here. Shown is ${named.name}.` : "");
  try {
    dials = dialsOf(options);
  } catch (fault) {
    if (!(fault instanceof BadOption)) throw fault;
    tellFault(`${fault.message}. The options are as usual.`);
  }
  const own = [...view.own].find(([, it]) => it.text === text);
  byId("run").value = words.has("script") ? own?.[0] ?? "" : named.name;
  if (words.has("script")) chooseOwn();
  runScript(text, dials, Number(words.get("future") ?? NaN), Number(words.get("step") ?? NaN), Number(words.get("beside") ?? NaN));
}

/** Runs a script, and shows a place of a future. If these are no numbers of it: a script of the menu at its first choice, another at its end. */
function runScript(text, dials, number = NaN, place = NaN, beside = NaN) {
  // A text that lies open and was not touched becomes the new one.
  const isOpenAsIs = isEditing() && !isChanged();
  Object.assign(view, { text, dials });
  if (view.own.has(byId("run").value)) view.own.set(byId("run").value, { text, options: wordsOf(dials) });
  if (isOpenAsIs) byId("text").value = text;
  tellOptions(dials);
  byId("scheduler").value = dials.scheduler;
  for (const { field } of OPTIONS) {
    byId(field).value = `${dials[field]}`;
    byId(field).removeAttribute("aria-invalid");
  }
  try {
    view.course = new Course(view.machine, text, dials);
  } catch (fault) {
    if (!(fault instanceof MachineFault)) throw fault;
    tellFault(fault.message);
    return;
  }
  const { course } = view;
  Object.assign(view, { services: null, look: null });
  view.lanes = lanesOf(course);
  const names = () => course.futures.map((it) => element("option", { value: it.number }, nameOfFuture(it)));
  byId("future").replaceChildren(...names());
  byId("beside").replaceChildren(element("option", { value: "" }, "none"), ...names());
  byId("futures").hidden = course.futures.length < 2;
  view.future = course.futures[number - 1] ?? course.standing;
  view.beside = course.futures.filter((it) => it !== view.future).find((it) => it.number === beside - 1) ?? null;
  const end = view.future === course.standing ? course.stateAfter(course.rows.length).cursor : view.future.tip.depth;
  tellFault(course.fault ? toldFault(course.fault, course.lines[course.fault.line - 1]) : "", true);
  const isOfMenu = view.menu.includes(scriptNamed(byId("run").value)) && view.future === course.standing;
  show(Number.isInteger(place) ? place : isOfMenu ? choiceFrom(0, 1) : end);
}

/** Tells the options with which the script runs. No line of the page breaks within one. */
function tellOptions(dials) {
  const words = wordsOf(dials);
  const options = range(words.length / 2).flatMap((at) => [" ", element("span", {}, `${words[2 * at]} ${words[2 * at + 1]}`)]);
  byId("dials-told").replaceChildren("with", ...(options.length > 0 ? options : [" the usual options"]));
}

/** Why a run ended early, with the line if the reason does not quote the whole of it. */
function toldFault({ line, why, isBad }, text) {
  const itself = text === undefined || why.includes(quoted(text)) ? "" : ` It is \u201c${text.length > 80 ? `${text.slice(0, 80)}\u2026` : text}\u201d.`;
  return `Line ${line} ${isBad ? "is bad, so the run ends before it" : "did not run"}: ${why}.${itself}`;
}

/** Says what is wrong with what was given; nothing is wrong if the text is empty. A fault that was told stays until it is mended. */
function tellFault(text, isOfScript = false) {
  const place = byId(isOfScript ? "fault" : "fault-of-options");
  place.textContent = text;
  place.hidden = text === "";
}

/** Goes to a place of the chosen future, and draws it when there is time. What was said of a line that was typed elsewhere is gone then. */
function show(place) {
  tellTyped("");
  view.place = Math.max(0, Math.min(place, view.future.tip.depth));
  drawTrack();
  clearTimeout(view.waiting);
  if (view.course.lines.length > MANY_LINES) view.waiting = setTimeout(draw, REST_MILLISECONDS);
  else draw();
}

/** Draws all that is at the chosen place. */
function draw() {
  const { course, future, place } = view;
  try {
    view.look = course.lookAt(future, place);
    view.lookBeside = view.beside === null ? null : course.lookAt(view.beside, Math.min(place, view.beside.tip.depth));
  } catch (fault) {
    if (!(fault instanceof MachineFault)) throw fault;
    tellFault(fault.message, true);
    return;
  }
  const { look } = view;
  drawClients();
  byId("device").replaceChildren(element("h2", {}, "device"), ...deviceOf(look, course.dials));
  byId("strip").replaceChildren(...stripOf(look, course.dials));
  drawReason();
  drawGroups();
  drawRows();
  drawExactness();
  drawShares();
  keepInSight();
  toAddress();
  document.documentElement.dataset.step = `${place}`;
}

/** The clients. */
function drawClients() {
  const panel = byId("clients"), { scrollTop } = panel;
  panel.replaceChildren(element("h2", {}, "clients"), ...clientsOf(view.look));
  panel.scrollTop = scrollTop;
}

/** Keeps the client in service in sight, where they do not all have room. How much there is depends on all other panels. */
function keepInSight() {
  const panel = byId("clients"), card = panel.querySelector("[aria-current]");
  if (card === null) return;
  const above = card.offsetTop - panel.offsetTop, below = above + card.offsetHeight - panel.clientHeight;
  // The first card keeps the head of the panel above it.
  if (panel.scrollTop > above) panel.scrollTop = card.previousElementSibling.matches("h2") ? 0 : above;
  else panel.scrollTop = Math.max(panel.scrollTop, below);
}

/** The groups, and those of the other future at the same place, if one lies beside, in drawings that are so wide, or as wide as there
 * is room. */
function drawGroups(wide = null) {
  const { course, future, place, beside, look, lookBeside } = view;
  document.documentElement.classList.toggle("beside", beside !== null);
  byId("other").hidden = beside === null;
  const head = beside ? headOf(shortNameOf(future), place, course.nodeAt(future, place)) : [element("h2", {}, "groups")];
  const hasReasonMore = MORE_PLACES.are.test(byId("reason").textContent);
  byId("groups").replaceChildren(...head, ...groupsOf(look, wide ?? wideIn(byId("groups")), hasReasonMore));
  if (beside === null) return;
  const there = lookBeside.place;
  byId("other").replaceChildren(...headOf(shortNameOf(beside), there, course.nodeAt(beside, there)), ...groupsOf(lookBeside, wide ?? wideIn(byId("other"))));
}

/** The head of one of two futures that lie side by side. */
function headOf(name, place, node) {
  return [element("h2", {}, `${name}: ${place} steps`), element("p", { class: "words" }, node === NO_STEP ? "no step" : toldStep(node))];
}

/** A future among others: which of its steps are its own, and the line that ended it. */
function nameOfFuture(future) {
  const { course } = view, { number, fork, prefix, tip } = future;
  if (future === course.standing) return `${number + 1}: the one that stands, ${tip.depth} steps`;
  const steps = fork + 1 === tip.depth ? `step ${tip.depth}` : `steps ${fork + 1} to ${tip.depth}`;
  return `${number + 1}: ${steps} dropped by line ${prefix + 1}, ${course.lines[prefix]}`;
}

function shortNameOf(future) {
  return `future ${future.number + 1}, which ${future === view.course.standing ? "stands" : "was dropped"}`;
}

/** A step, as its line with its answer. */
function toldStep(node) {
  return `${view.course.lineOf(node)} \u2192 ${told(view.course.rows[node.row].answer)}`;
}

/** The lines of the script around the one that is looked at, each with its answer. */
function drawRows() {
  const { course, future, place } = view;
  const here = course.nodeAt(future, place).row;
  const middle = Math.max(here, 0);
  const first = Math.max(0, middle - ROWS_AROUND), last = Math.min(course.lines.length, middle + ROWS_AROUND);
  const inWay = new Map(course.way(future).map((node) => [node.row, node.depth]));
  const rows = course.lines.slice(first, last).map((line, at) => rowOf(line, first + at, inWay, here));
  byId("rows").replaceChildren(...(first > 0 ? [element("li", { class: "more" }, `${first} lines before`)] : []), ...rows,
    ...(last < course.lines.length ? [element("li", { class: "more" }, `${course.lines.length - last} lines behind`)] : []));
  const list = byId("rows"), row = list.querySelector("[aria-current]");
  list.scrollTop = row ? row.offsetTop - list.clientHeight / 2 : 0;
  const has = (kind) => list.querySelector(`.${kind}`) !== null;
  const said = [has("undone") && "Dotted at its left: undone here.", has("elsewhere") && "Struck through: a step of another future; a click leads there."];
  byId("rows-legend").textContent = said.filter((it) => it).join(" ");
}

/** A row of the list. One that is a step leads to it. */
function rowOf(line, row, inWay, here) {
  const { course, place } = view;
  const answer = course.rows[row]?.answer ?? null, depth = inWay.get(row), node = course.nodes.get(row);
  const isBad = course.fault !== null && row === course.fault.line - 1;
  const isElsewhere = depth === undefined && node !== undefined;
  const words = [isSilent(line) ? "silent" : "", isBad ? "bad" : "", row >= course.rows.length && !isBad ? "unrun" : "",
    isElsewhere ? "elsewhere" : depth > place ? "undone" : ""];
  const look = answer !== null && { class: isRefusal(answer) ? "answer refusal" : "answer", title: sentenceOf(answer) || null };
  const title = isElsewhere ? `a step of ${shortNameOf(course.homeOf(node))}` : depth > place ? "undone at this place" : null;
  const attributes = { class: words.join(" ").trim() || null, "aria-current": row === here && here >= 0 ? "step" : null, "data-row": row, title };
  return element("li", attributes, element("span", { class: "number" }, `${row + 1}`), element("span", { class: "line" }, line),
    node ? element("span", { class: "step" }, `step ${node.depth}`) : null, answer === null ? null : element("span", look, told(answer)));
}

/** The step that was made last, and its reason if it is a choice; and what would come next. */
function drawReason() {
  const { course, future, place, look } = view;
  const node = course.nodeAt(future, place);
  const most = future.tip.depth;
  if (node === NO_STEP) {
    byId("told").textContent = `No step stands, of ${most}.`;
    byId("why").replaceChildren();
  } else {
    const answer = course.rows[node.row].answer;
    byId("told").textContent = `Step ${place} of ${most}, line ${node.row + 1}: ${toldStep(node)}`;
    const reason = course.lineOf(node) === "dispatch" ? reasonOf(look.before, answer, look.fresh, course.dials, MORE_PLACES) : null;
    byId("why").replaceChildren(...(reason === null ? [] : reasonParts(reason)));
  }
  const next = new Choice(copyOf(look.fresh), course.dials, MORE_PLACES).reason();
  const [, , , operation, start, count] = (next.answer ?? "").split(" ");
  const [now, wouldSend] = look.isHeld ? [`The host is held, so a dispatch now waits: ${told(HELD)}. Once it is released, a dispatch`, "sends"]
    : ["A dispatch now", "would send"];
  byId("next").textContent = next.seat === null ? `${now}: ${next.answer ? told(next.answer) : "no answer"}, as ${next.parts.join("; ")}.`
    : `${now} ${wouldSend} ${operation} ${start}+${count} of seat ${next.seat}: ${next.parts.join("; ")}.`;
}

/** The parts of a reason, and whether the machine did as was worked out. */
function reasonParts(reason) {
  const parts = reason.parts.map((part) => element("li", {}, part));
  const end = reason.faults.length === 0 ? element("p", { class: "as-worked-out" }, AS_WORKED_OUT)
    : element("p", { class: "otherwise", role: "alert" }, reason.faults.map((it) => element("span", {}, `!!! THE HOST DID OTHERWISE: ${it} `)));
  return [element("ol", {}, parts), end];
}

/** Whether undo and redo gave what a new machine gives. */
function drawExactness() {
  const { look, place, future } = view;
  const how = look.moves.map((it) => `${it.line} \u2192 ${it.answer}`).join(", ");
  const same = `gives the same ${look.answers.length} looks.`;
  const it = byId("exact");
  it.className = look.differences.length > 0 ? "otherwise" : "";
  if (look.differences.length > 0) it.textContent = `!!! UNDO IS NOT EXACT: ${look.differences.join("; ")}`;
  else if (look.isStuck) it.textContent = `${how}: the history is full, so this is a new machine that ran the lines up to this step.`;
  else if (look.moves.length === 0) it.textContent = `${whereItIs(future, place)} \u2713 A new machine that ran the lines up to this step ${same}`;
  else it.textContent = `The machine was brought back: ${how}. \u2713 A new machine that ran the lines up to step ${place} alone ${same}`;
}

/** Where the script leaves the machine, which has not been moved from there. */
function whereItIs(future, place) {
  const most = future.tip.depth;
  if (place === most) return future === view.course.standing ? "The end of this run." : "The end of this future.";
  return `The script itself leaves the machine here: ${place} of ${most} steps stand, and the others are undone.`;
}

/** What each client was given. It is asked for when all else is shown, as that takes a run with looks before each dispatch. */
function drawShares() {
  const { course, future, place } = view;
  if (view.services === null) {
    setTimeout(() => {
      if (view.course !== course || view.services !== null) return;
      view.services = new Services(course);
      drawShares();
    }, 0);
    return;
  }
  if (view.services.isTooLong) {
    byId("shares").replaceChildren(element("p", { class: "none" }, "This run is too long to ask who waited at each dispatch, so no share is told."));
    return;
  }
  const points = view.services.points(future);
  const picture = aheadPicture(points, place, wideIn(byId("shares")));
  byId("shares").replaceChildren(sharesTable(points, place), ...[picture].filter((it) => it !== null));
  keepInSight();
}

/** The slider. */
function drawTrack() {
  const { course, future, place } = view;
  const { drawing, nearest } = trackOf(course, view.lanes, future, place, byId("track").clientWidth || USUAL_WIDE);
  byId("track").replaceChildren(drawing);
  view.nearest = nearest;
  const slider = byId("slider");
  // It is as long as the longest future, so that its thumb stands below the mark of the drawing.
  slider.max = `${mostSteps(course)}`;
  slider.value = `${place}`;
  const node = course.nodeAt(future, place);
  slider.setAttribute("aria-valuetext", `step ${place} of ${future.tip.depth}, ${node === NO_STEP ? "no step stands" : toldStep(node)}`);
  byId("count").textContent = `step ${place} of ${future.tip.depth}`;
  byId("future").value = `${future.number}`;
  byId("beside").value = `${view.beside?.number ?? ""}`;
  for (const it of byId("beside").options) it.hidden = it.disabled = it.value === `${future.number}`;
}

/** Draws anew what depends on how much room there is. */
function drawAsWide() {
  if (!view.course) return;
  drawTrack();
  if (!view.look) return;
  drawClients();
  drawGroups();
  drawRows();
  drawShares();
}

/** The next place of a choice, forth or back; the end if there is none. */
function choiceFrom(place, by) {
  const way = view.course.way(view.future);
  for (let at = place + by; at >= 1 && at <= way.length; at += by) if (view.course.lineOf(way[at - 1]) === "dispatch") return at;
  return by > 0 ? way.length : 0;
}

/** A place of a future. If that lay beside, the one that was shown lies there now. */
function choosePlace(future, place) {
  if (view.beside === future) view.beside = view.future === future ? null : view.future;
  view.future = future;
  show(place);
}

/** Another future, at the place at which it leaves the one that is shown, or where that was. */
function choose(future) {
  choosePlace(future, Math.min(view.place, future.tip.depth));
}

/** The future behind or before this one in the order in which they were dropped. */
function otherFuture(by) {
  const { futures } = view.course;
  return futures[(view.future.number + by + futures.length) % futures.length];
}

/** Lays a future beside the one that is shown, or none. */
function layBeside(future) {
  view.beside = future;
  show(view.place);
}

/** The future behind the one that lies beside, in the order of the list; none behind the last. */
function nextBeside() {
  const others = view.course.futures.filter((it) => it !== view.future);
  return others[others.indexOf(view.beside) + 1] ?? null;
}

/** Asks a line that was typed, at the place that is shown: steps behind it are undone first, and are another future then. A line that cannot
 * be asked stays in its field, and the script as it is. */
function ask(line) {
  const why = whyNotAsked(line);
  if (why !== null) {
    tellTyped(why, true);
    return;
  }
  const { course, place } = view, { standing } = course;
  const { cursor, isHeld } = course.stateAfter(standing.prefix);
  const moves = course.movesTo(standing, place);
  // Who typed `hold` wants it to stay; a host that was held for the way is released.
  const lines = [...course.lines, ...moves, ...(place !== cursor && !isHeld ? ["release"] : []), line];
  chooseOwn();
  byId("typed").value = "";
  runScript(lines.map((it) => `${it}\n`).join(""), view.dials);
  const answer = view.course.rows[lines.length - 1]?.answer ?? "no answer";
  tellTyped(`${line} \u2192 ${told(answer)}${isRefusal(answer) ? `: ${sentenceOf(answer)}` : ""}`, isRefusal(answer));
}

/** Why a line cannot be asked at the place that is shown, or null. It goes behind all lines of the script, so these must have run, and the
 * steps that stand there must be those of the future that stands. */
function whyNotAsked(line) {
  const { course, future, place } = view, { fault, standing } = course;
  if (fault?.isBad) return `Line ${fault.line} of the script is bad: mend it first (edit the script).`;
  if (fault) return `Line ${fault.line} of the script did not run, so no line goes behind it.`;
  if (isSilent(line)) return "This line asks for nothing.";
  const why = whyBad(line);
  if (why !== null) return why;
  const isShared = place <= standing.tip.depth && course.nodeAt(standing, place) === course.nodeAt(future, place);
  return isShared ? null : `This future was dropped: go to the one that stands (${standing.number + 1}) to type, or back to a step of both.`;
}

/** Says what came of a line that was typed. */
function tellTyped(text, isFault) {
  byId("typed-answer").textContent = text;
  byId("typed-answer").className = isFault ? "fault" : "";
}

function isEditing() {
  return document.documentElement.classList.contains("edits");
}

/** Whether the text that is edited is another one than the script. A field has no carriage return. */
function isChanged() {
  return byId("text").value !== view.text.replaceAll(/\r\n?/g, "\n");
}

/** Opens or closes the script as a text. What was edited and has not run is kept. */
function edit(isOpen) {
  const wasOpen = isEditing();
  if (wasOpen) view.draft = isChanged() ? byId("text").value : null;
  document.documentElement.classList.toggle("edits", isOpen);
  if (isOpen && !wasOpen) byId("text").value = view.draft ?? view.text;
  if (isOpen) byId("text").focus();
  tellDraft();
}

/** Says whether there is a text that has not run. */
function tellDraft() {
  const has = isEditing() ? isChanged() : view.draft !== null;
  byId("edit").textContent = has ? "your text, not run yet" : "edit the script";
  byId("drop").disabled = !has;
}

/** Takes what was edited for the script, or the script for it. */
function endEdit(isRun) {
  const text = byId("text").value;
  byId("text").value = view.text;
  edit(false);
  if (!isRun) return;
  if (text !== view.text) chooseOwn();
  runScript(text, view.dials);
}

/** Leaves what was opened last: a panel, the text of the script, or a field. */
function leave() {
  const panel = document.querySelector("details[open]");
  if (panel) {
    panel.open = false;
    panel.querySelector("summary").focus();
  } else if (isEditing()) {
    edit(false);
    byId("edit").focus();
  } else {
    document.activeElement.blur();
  }
}

/** Runs what stands in the fields of options; a field that is wrong is marked, and the run stays. */
function fromFields() {
  const words = [SCHEDULER, byId("scheduler").value, ...OPTIONS.flatMap(({ name, field }) => [name, byId(field).value.trim()])];
  for (const { field } of OPTIONS) byId(field).removeAttribute("aria-invalid");
  try {
    const dials = dialsOf(words);
    tellFault("");
    runScript(view.text, dials);
  } catch (fault) {
    if (!(fault instanceof BadOption)) throw fault;
    const wrong = OPTIONS.find(({ name }) => fault.message.startsWith(`${name} `));
    if (wrong) byId(wrong.field).setAttribute("aria-invalid", "true");
    tellFault(`${fault.message}. What is shown is the run before.`);
  }
}

/** Light, dark, or what the system has. */
function setLook(look) {
  document.documentElement.dataset.look = look === "dark" || look === "light" ? look : "";
}

function isDark() {
  const { look } = document.documentElement.dataset;
  return look ? look === "dark" : matchMedia("(prefers-color-scheme: dark)").matches;
}

/** Puts what is shown into the address, so that a link or a reload shows it again. */
function toAddress() {
  if (!view.course) return;
  const words = new URLSearchParams();
  const named = scriptNamed(byId("run").value);
  if (named?.text === view.text) {
    if (named !== view.given) words.set("run", named.name);
  } else if (view.text.length <= MOST_IN_ADDRESS) {
    words.set("script", view.text);
  }
  const options = wordsOf(view.dials).join(" ");
  if (words.has("script") ? options : options !== (named ?? view.given).options.join(" ")) words.set("options", options);
  if (view.future !== view.course.standing) words.set("future", view.future.number + 1);
  words.set("step", view.place);
  if (view.beside) words.set("beside", view.beside.number + 1);
  if (document.documentElement.classList.contains("large")) words.set("print", "large");
  if (document.documentElement.dataset.look) words.set("look", document.documentElement.dataset.look);
  view.address = `#${words}`;
  try {
    history.replaceState(null, "", view.address);
  } catch {
    // A browser may refuse it for a page from a disk. The page works without.
  }
}

const KEYS = {
  ArrowLeft: (shift) => show(shift ? choiceFrom(view.place, -1) : view.place - 1),
  ArrowRight: (shift) => show(shift ? choiceFrom(view.place, 1) : view.place + 1),
  ArrowUp: () => choose(otherFuture(-1)),
  ArrowDown: () => choose(otherFuture(1)),
  Home: () => show(0),
  End: () => show(view.future.tip.depth),
  b: () => layBeside(nextBeside()),
  e: () => edit(true),
  t: () => { edit(false); byId("typed").select(); },
  l: () => { document.documentElement.classList.toggle("large"); drawAsWide(); toAddress(); },
  d: () => { setLook(isDark() ? "light" : "dark"); toAddress(); },
};

/** Whether a key belongs to the element that has the focus. */
function isTyping(target) {
  return target.matches("textarea, select, input:not([type=range])");
}

/** Listens to keys, buttons, fields and the drawing of the slider. */
function listen() {
  document.addEventListener("keydown", (event) => {
    if (event.key === "Escape") leave();
    if (event.ctrlKey || event.altKey || event.metaKey || isTyping(event.target) || !(event.key in KEYS)) return;
    event.preventDefault();
    KEYS[event.key](event.shiftKey);
  });
  const pressed = [["first", "Home"], ["choice-back", "ArrowLeft", true], ["back", "ArrowLeft"], ["forth", "ArrowRight"], ["choice-forth", "ArrowRight", true],
    ["last", "End"], ["large", "l"], ["dark", "d"]];
  for (const [id, key, shift] of pressed) byId(id).addEventListener("click", () => KEYS[key](shift));
  listenToScript();
  listenToTrack();
  for (const id of ["scheduler", "dials"]) byId(id).addEventListener("change", fromFields);
  byId("future").addEventListener("change", (event) => choose(view.course.futures[Number(event.target.value)]));
  byId("beside").addEventListener("change", (event) => layBeside(event.target.value ? view.course.futures[Number(event.target.value)] : null));
  addEventListener("hashchange", () => { if (location.hash !== view.address) fromAddress(); });
}

/** Listens to the menu, to the list of lines, and to what is typed. */
function listenToScript() {
  for (const [id, act] of [["edit", () => edit(true)], ["keep", () => edit(false)], ["drop", () => endEdit(false)], ["run-text", () => endEdit(true)]]) {
    byId(id).addEventListener("click", act);
  }
  byId("text").addEventListener("input", tellDraft);
  byId("run").addEventListener("change", (event) => {
    const it = view.own.get(event.target.value) ?? scriptNamed(event.target.value);
    if (!it) return;
    tellFault("");
    runScript(it.text, dialsOf(it.options));
    // In the menu an arrow would choose another script.
    byId("slider").focus({ preventScroll: true });
  });
  byId("typing").addEventListener("submit", (event) => {
    event.preventDefault();
    ask(byId("typed").value);
  });
  byId("rows").addEventListener("click", (event) => goToRow(Number(event.target.closest("li[data-row]")?.dataset.row ?? NaN)));
}

/** Listens to the slider and to its drawing, on which a press also chooses a future. */
function listenToTrack() {
  byId("slider").addEventListener("input", (event) => show(Number(event.target.value)));
  let isDragged = false;
  const drag = (event) => {
    const box = byId("track").getBoundingClientRect();
    const { future, place } = view.nearest(event.clientX - box.left, event.clientY - box.top);
    if (event.type === "pointerdown") choosePlace(future, place);
    else show(place);
  };
  byId("track").addEventListener("pointerdown", (event) => {
    isDragged = true;
    byId("track").setPointerCapture(event.pointerId);
    drag(event);
  });
  byId("track").addEventListener("pointermove", (event) => { if (isDragged) drag(event); });
  byId("track").addEventListener("pointerup", () => { isDragged = false; });
  addEventListener("resize", drawAsWide);
  addEventListener("beforeprint", () => { if (view.look) drawGroups(USUAL_WIDE); });
  addEventListener("afterprint", drawAsWide);
}

/** Goes to the step of a row, in this future or in the one that has it. */
function goToRow(row) {
  const node = view.course.nodes.get(row);
  if (!node) return;
  const { course } = view;
  choosePlace(course.way(view.future)[node.depth - 1] === node ? view.future : course.homeOf(node), node.depth);
}

// A test that has no document takes the functions above alone.
if (typeof document !== "undefined") begin();
