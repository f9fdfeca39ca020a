// What the host's looks say: the lines that are asked, and their answers as a machine.

const SEATS = 16, GROUPS = 32, ROOT = 0;
// The entity of a group has its number and this one; those below are the sessions at the seats.
const OF_GROUPS = 16;
const ENTITIES = OF_GROUPS + GROUPS;
const CLASSES = ["rt", "be", "idle"];
const CLASS_NAMES = { rt: "real time", be: "best effort", idle: "idle" };
const BEST_EFFORT = "be";
// Virtual times divided by 2 to the power of this are in sectors by weight.
const SCALE = 22n;

const range = (count) => [...Array(count).keys()];

/** What the looks say does not go together. */
class Contradiction extends Error {}

// Each part of a look, with its lines.
const LOOKS = {
  host: ["show host"], service: ["show service"], requeued: ["show requeued"], flight: ["show flight"],
  seats: range(SEATS).map((seat) => `show seat ${seat}`),
  queues: range(SEATS).map((seat) => `show queue ${seat}`),
  outboxes: range(SEATS).map((seat) => `show outbox ${seat}`),
  trees: range(GROUPS).map((group) => `show tree ${group}`),
  vtimes: range(GROUPS).flatMap((group) => CLASSES.map((name) => `vtime ${group} ${name}`)),
  entities: range(ENTITIES).map((entity) => `entity ${entity}`),
};
const LOOK_LINES = Object.values(LOOKS).flat();

/** The parts of a look by their names, of its answers in the order of LOOK_LINES. */
function partsOf(answers) {
  let at = 0;
  return Object.fromEntries(Object.entries(LOOKS).map(([name, lines]) => [name, answers.slice(at, (at += lines.length))]));
}

/** What an entity is. */
function nameOf(entity) {
  return entity < OF_GROUPS ? `seat ${entity}` : `group ${entity - OF_GROUPS}`;
}

/** A virtual time in sectors by weight, to so many places. */
function toPlaces(vtime, places) {
  const power = 10n ** BigInt(places);
  const parts = (vtime * power + (1n << (SCALE - 1n))) >> SCALE;
  return `${parts / power}.${(parts % power).toString().padStart(places, "0")}`;
}

/** A virtual time in sectors by weight, to three places. */
function byWeight(vtime) {
  return toPlaces(vtime, 3);
}

/** A virtual time to so many places that two of them are never told alike: 2^-22 is more than two of the last place. */
function byWeightExactly(vtime) {
  return toPlaces(vtime, 7);
}

/** The words of an answer behind its first one. */
function rest(answer) {
  return answer.split(" ").slice(1);
}

/** A request of `OP:START+COUNT:BIO,BIO`. */
function requestOf(operation, sectors, bios) {
  const [start, count] = sectors.split("+").map(Number);
  return { operation, start, count, bios: bios.split(",") };
}

/** A member of a group by its item in a tree. One of a later version may have more fields. */
function memberOf(item) {
  const [entity, state, start, finish, weight, pending, ...more] = item.split(":");
  return {
    entity: Number(entity), state, start: BigInt(start), finish: BigInt(finish), weight: Number(weight), pending: Number(pending),
    className: more.find((word) => CLASSES.includes(word)) ?? BEST_EFFORT,
  };
}

/** The machine as the answers to LOOK_LINES have it. */
function machineIn(answers) {
  const parts = partsOf(answers);
  const [scheduler, run, hold, last, cursor, length, serial, calls] = rest(parts.host[0]);
  const machine = {
    scheduler, isFrozen: run === "frozen", isHeld: hold === "held", lastSeat: Number(last), cursor: Number(cursor), length: Number(length),
    serial: Number(serial), calls: Number(calls), service: null, returned: [], flight: new Map(), queues: new Map(), members: new Map(),
    vtimes: new Map(), parents: new Map(), budgets: new Map(), groupOf: new Map(),
  };
  const [seat, sent, age] = rest(parts.service[0]);
  if (seat !== "none") machine.service = { seat: Number(seat), sent: Number(sent), age: Number(age) };
  machine.returned = rest(parts.requeued[0]).map((item) => {
    const [of, ...request] = item.split(":");
    return { seat: Number(of), request: requestOf(...request) };
  });
  for (const item of rest(parts.flight[0])) {
    const [tag, issue, of, ...request] = item.split(":");
    machine.flight.set(Number(tag), { seat: Number(of), issue, request: requestOf(...request) });
  }
  readSeats(machine, parts);
  readGroups(machine, parts);
  return machine;
}

/** What the taken seats have to send and to reap. */
function readSeats(machine, parts) {
  for (const [seat, answer] of parts.seats.entries()) {
    const [, session, group, prio, owed, head, word] = rest(answer);
    if (session === "none") continue;
    const requests = rest(parts.queues[seat]).slice(1).map((item) => requestOf(...item.split(":")));
    const outbox = rest(parts.outboxes[seat]).slice(1).map((item) => item.split(":"));
    machine.queues.set(seat, { session: Number(session), group: Number(group), prio: Number(prio), owed: Number(owed), head: Number(head), word,
      requests, outbox });
  }
}

/** What the groups know of their members, from the root down. */
function readGroups(machine, parts) {
  const waiting = [ROOT];
  while (waiting.length > 0) {
    const group = waiting.shift();
    const [, parent, , ...items] = rest(parts.trees[group]);
    if (parent === "none") continue;
    const members = items.map(memberOf);
    machine.members.set(group, new Map(members.map((it) => [it.entity, it])));
    for (const name of CLASSES) machine.vtimes.set(placeOf(group, name), BigInt(rest(parts.vtimes[CLASSES.length * group + CLASSES.indexOf(name)])[2]));
    for (const it of members) {
      machine.parents.set(it.entity, group);
      machine.budgets.set(it.entity, Number(rest(parts.entities[it.entity])[5]));
      if (it.entity >= OF_GROUPS) waiting.push(it.entity - OF_GROUPS);
    }
  }
}

/** The name of a class in a group. */
function placeOf(group, className) {
  return `${group} ${className}`;
}

/** The classes that a group has members of, the first to be served first. */
function classesIn(machine, group) {
  const members = [...machine.members.get(group).values()];
  return CLASSES.filter((name) => members.some((it) => it.className === name));
}

/** The answers of a look without what goes on with the calls: whether the host is held, its line, its serials and its journal. */
function withoutCalls(answers) {
  const [scheduler, run, , last] = rest(answers[0]);
  return [`host ${scheduler} ${run} ${last}`, ...answers.slice(1)];
}
