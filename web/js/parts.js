// The parts of the host at both sides of the groups: clients with their queues, the device, and what is stored.

// A queue shows so many blocks, and above the strip stands what so many of its parts have.
const MOST_BLOCKS = 12, MOST_NAMED = 8;

/** The cards of all clients, or a sentence if there is none. */
function clientsOf({ machine, before }) {
  const cards = [...machine.queues].map(([seat, queue]) => clientOf(seat, queue, before.queues.get(seat), machine));
  return cards.length > 0 ? cards : [element("p", { class: "none" }, "No client sits here yet.")];
}

/** The seat that is in service, or under `none` the one that was served last; null if there is none. */
function servedSeat(machine) {
  return machine.scheduler === "none" ? machine.lastSeat : machine.service?.seat ?? null;
}

function servedWord(machine) {
  return machine.scheduler === "none" ? "served last" : "\u25b6 in service";
}

/** A client: its words, its queue as blocks with the head, and its outbox. */
function clientOf(seat, queue, last, machine) {
  const isServed = servedSeat(machine) === seat;
  const words = [`session ${queue.session}`, `group ${queue.group}`, `prio ${queue.prio}`, queue.word === "leaving" ? "leaving" : null];
  const head = nextRequest(machine, seat);
  const outbox = queue.outbox.map(([bio, end]) => `${bio} ${end}`).join(", ");
  const changed = (what) => (last === undefined ? what !== "queue" || queue.requests.length > 0 : factsOf(queue)[what] !== factsOf(last)[what]);
  return element("article", { class: `client ${colourOf(seat)}`, "aria-current": isServed ? "true" : null },
    element("h3", {}, element("span", { class: "swatch" }), `seat ${seat}`, isServed ? element("b", { class: "served" }, ` ${servedWord(machine)}`) : null),
    element("p", { class: "words" }, words.filter((it) => it !== null).join(", ")),
    element("p", { class: classWords("words", changed("owed")) }, `owed ${queue.owed}, head at sector ${queue.head}`),
    element("div", { class: classWords("queue", changed("queue")), role: "group", "aria-label": `queue of seat ${seat}` },
      queue.requests.length === 0 ? element("span", { class: "none" }, "nothing queued") : null,
      queue.requests.slice(0, MOST_BLOCKS).map((it) => blockOf(it, it === head)),
      queue.requests.length > MOST_BLOCKS ? element("span", { class: "more" }, `and ${queue.requests.length - MOST_BLOCKS} more`) : null),
    outbox ? element("p", { class: classWords("words outbox", changed("outbox")) }, `outbox: ${outbox}`) : null);
}

/** What of a client may change, as texts. */
function factsOf(queue) {
  const requests = queue.requests.map((it) => `${textOf(it)} ${it.bios}`).join();
  return { owed: `${queue.owed} ${queue.head} ${queue.word}`, queue: requests, outbox: queue.outbox.join() };
}

/** The request that would be sent next of a seat, if it has one. */
function nextRequest(machine, seat) {
  if (machine.queues.get(seat).requests.length === 0) return null;
  return machine.scheduler === "none" ? machine.queues.get(seat).requests[0] : nextOf(machine, seat);
}

// What stands before the sectors of a request that is no read.
const LETTERS = { fetch: "", store: "W ", discard: "D " };

/** A request as a block. The next one to be sent of its queue has a mark. */
function blockOf(request, isNext = false) {
  const text = `${request.operation} ${request.start}+${request.count}, bios ${request.bios.join(", ")}${isNext ? "; next of its queue" : ""}`;
  return element("span", { class: `block ${request.operation}${isNext ? " next" : ""}`, title: text },
    `${isNext ? "\u25b8" : ""}${LETTERS[request.operation]}${request.start}+${request.count}`);
}

/** The device: a place for each tag, and what it gave back. */
function deviceOf({ machine, before, isHeld }, dials) {
  const tags = range(Number(dials.tags)).map((tag) => tagOf(tag, machine.flight.get(tag), before.flight.get(tag)));
  const free = tags.filter((it) => it === null).length;
  const list = (it) => it.returned.map((of) => `seat ${of.seat} ${textOf(of.request)}`);
  const returned = list(machine), hasChanged = returned.join() !== list(before).join();
  return [
    element("h3", {}, `in flight: ${machine.flight.size} of ${dials.tags} tag${dials.tags === 1n ? "" : "s"}`),
    element("ul", { class: "tags" }, tags.filter((it) => it !== null),
      free > 0 ? element("li", { class: classWords("free", machine.flight.size < before.flight.size) }, `${free} free`) : null),
    element("h3", {}, "dispatch list"),
    returned.length > 0
      ? element("ol", { class: classWords("returned", hasChanged) }, returned.map((it) => element("li", {}, it)))
      : element("p", { class: classWords("none", hasChanged) }, "Nothing was given back."),
    element("h3", {}, "host"),
    element("p", { class: classWords("words", modeOf(machine) !== modeOf(before)) }, `${isHeld ? "held; " : ""}${modeOf(machine)}`),
  ];
}

/** A tag that bears a request; null if it is free. */
function tagOf(tag, it, last) {
  if (!it) return null;
  return element("li", { class: classWords(`tag ${colourOf(it.seat)}`, last?.issue !== it.issue) },
    element("span", { class: "swatch" }), `tag ${tag}: seat ${it.seat} ${textOf(it.request)}, issue ${it.issue}`);
}

/** What the host is at, in words. */
function modeOf(machine) {
  const { service } = machine;
  const served = service ? `seat ${service.seat} in service, ${service.sent} of ${machine.budgets.get(service.seat)} sectors, age ${service.age}`
    : machine.scheduler === "none" ? `round robin: seat ${machine.lastSeat} was last` : "no queue in service";
  return `${machine.isFrozen ? "frozen; " : ""}${served}`;
}

/** What is stored, as a strip of all sectors of the device. */
function stripOf({ sectors, sectorsBefore, machine }, dials) {
  const most = Number(dials.sectors);
  const parts = sectors.map((it, at) => ({ ...it, end: sectors[at + 1]?.start ?? most, before: sectorsBefore[at]?.content ?? null }));
  const stored = parts.filter((it) => it.content !== null || it.before !== null);
  const strip = drawn("svg", { viewBox: "0 0 1000 26", preserveAspectRatio: "none", class: "strip", "aria-hidden": true },
    drawn("rect", { x: 0, y: 0, width: 1000, height: 26, class: "device" }));
  const at = (sector) => (most > 0 ? (1000 * sector) / most : 0);
  for (const it of stored) {
    // A part that is narrower than a line is seen all the same.
    const width = Math.max(2, at(it.end) - at(it.start));
    const look = classWords(it.content === null ? "gone" : "stored", it.content !== it.before);
    strip.append(drawn("rect", { x: at(it.start), y: 0, width, height: 26, class: look }));
  }
  for (const [seat, queue] of machine.queues) {
    strip.append(drawn("line", { x1: at(queue.head), x2: at(queue.head), y1: 0, y2: 26, class: `head ${colourOf(seat)}` }));
  }
  const names = stored.filter((it) => it.content !== null).map((it) =>
    `${it.start}${it.end - it.start > 1 ? ` to ${it.end - 1}` : ""}: ${it.content.length > 2 ? "many bytes" : `bytes ${it.content}`}`);
  const more = names.length > MOST_NAMED ? `, and ${names.length - MOST_NAMED} parts more` : "";
  const text = names.length === 0 ? "nothing is stored" : `stored are sectors ${names.slice(0, MOST_NAMED).join(", ")}${more}`;
  return [element("p", { class: "words" }, `overlay over ${most} sectors; ${text}. Lines are the heads of queues.`), strip];
}
