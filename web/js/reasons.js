// Why the host sends just this request: what a dispatch must do by the rules of docs/MODEL.md, worked out from the looks before it, in words;
// and where the host did otherwise. It is the rule of tools/reasons.py, and a test compares the two.

// No virtual time is greater.
const MOST_VTIME = 2n ** 62n;
const LEAST_BUDGET = 256;
// By how much the budget grows of a queue that expires for exhaustion or for time.
const GROWS = { exhaustion: 4, time: 2 };
const HELD = "notyet 41", NOTHING_QUEUED = "refused 17", NO_TAG = "refused 18", VTIME_FULL = "refused 27", HISTORY_FULL = "refused 33",
  NO_ROOM = "refused 34";
// These come before memory is asked for.
const BEFORE_MEMORY = [HELD, NOTHING_QUEUED, NO_TAG, HISTORY_FULL];

/** A virtual time would be too great. */
class Full extends Error {}

/** The virtual time that a service takes. */
function delta(sectors, weight) {
  return (BigInt(sectors) << SCALE) / BigInt(weight);
}

/** A virtual time that is made. */
function checked(vtime) {
  if (vtime > MOST_VTIME) throw new Full();
  return vtime;
}

// How times are told that three places do not tell apart, and a difference that is less than they tell: tools/why gives the whole numbers of
// which a time is made, and what a page shows has more places.
const WHOLE = { alike: (vtime) => `${byWeight(vtime)} (${vtime})`, little: (vtime) => `${vtime}/2^${SCALE}` };
const MORE_PLACES = { alike: byWeightExactly, little: byWeightExactly, are: /\d\.\d{7}/ };

/** The times of some that three places do not tell apart. */
function alikeIn(vtimes) {
  const found = new Map();
  for (const vtime of new Set(vtimes)) found.set(byWeight(vtime), [...(found.get(byWeight(vtime)) ?? []), vtime]);
  return new Set([...found.values()].filter((it) => it.length > 1).flat());
}

/** What tells virtual times: by weight, and in another manner if another one looks the same by weight. */
function timesOf(vtimes, manner) {
  const alike = alikeIn(vtimes);
  return (vtime) => (alike.has(vtime) ? manner.alike(vtime) : byWeight(vtime));
}

/** How far two times are apart. */
function apart(later, earlier, manner) {
  const text = byWeight(later - earlier);
  return text === byWeight(0n) ? manner.little(later - earlier) : text;
}

/** Names in a row. */
function listed(names) {
  const last = names[names.length - 1];
  return names.length > 1 ? `${names.slice(0, -1).join(", ")} and ${last}` : last;
}

function textOf(request) {
  return `${request.operation} ${request.start}+${request.count}`;
}

/** A copy of a machine, of which the rules change the parts that a dispatch changes. */
function copyOf(machine) {
  const copies = {
    service: machine.service && { ...machine.service }, returned: [...machine.returned], flight: new Map(machine.flight),
    queues: new Map([...machine.queues].map(([seat, queue]) => [seat, { ...queue, requests: [...queue.requests] }])),
    members: new Map([...machine.members].map(([group, members]) => [group, new Map(members)])),
    vtimes: new Map(machine.vtimes), budgets: new Map(machine.budgets),
  };
  return { ...machine, ...copies };
}

/** What a group knows of an entity. */
function memberIn(machine, entity) {
  if (!machine.parents.has(entity)) throw new Contradiction(`${nameOf(entity)} is served, and no group has it`);
  return machine.members.get(machine.parents.get(entity)).get(entity);
}

/** The entities from a session up to the root, which is none. */
function pathOf(machine, seat) {
  const path = [];
  for (let entity = seat; entity !== null; ) {
    memberIn(machine, entity);
    path.push(entity);
    const group = machine.parents.get(entity);
    entity = group === ROOT ? null : OF_GROUPS + group;
  }
  return path;
}

/** The members of a group, or of a class in it, that wait. */
function activeIn(machine, group, className = null) {
  return [...machine.members.get(group).values()].filter((it) => it.state === "active" && (className === null || it.className === className));
}

/** The request of a queue that is sent next: the first from its head on, else the first of all. */
function nextOf(machine, seat) {
  const queue = machine.queues.get(seat);
  if (!queue || queue.requests.length === 0) throw new Contradiction(`seat ${seat} is served, and no request is queued there`);
  const isBefore = (one, other) =>
    one.start < queue.head !== other.start < queue.head ? other.start < queue.head : one.start < other.start;
  return queue.requests.reduce((least, it) => (isBefore(it, least) ? it : least));
}

/** A dispatch by the rules: it changes a machine, and says why. */
class Choice {
  constructor(machine, dials, manner = WHOLE) {
    this.machine = machine;
    this.manner = manner;
    this.limits = { maxBudget: Number(dials.maxBudget), timeout: Number(dials.timeout), tags: Number(dials.tags), history: Number(dials.history) };
    this.said = [];
  }

  /** The refusal that comes before any rule, with why; null if there is none. */
  refusal() {
    const { machine, limits } = this;
    if (machine.isHeld) return [HELD, "the host is held, so no step is taken"];
    if (machine.returned.length === 0 && ![...machine.queues.values()].some((it) => it.requests.length > 0)) {
      return [NOTHING_QUEUED, "no request waits to be sent"];
    }
    if (machine.flight.size >= limits.tags) return [NO_TAG, `each of the ${limits.tags} tags bears a request in flight`];
    if (machine.calls >= limits.history) {
      return [HISTORY_FULL, `the history has ${machine.calls} calls, and there is room for ${limits.history}`];
    }
    return null;
  }

  /** The reason: its parts, the answer that must come, and whose request is sent. It has no answer if the looks do not go together. */
  reason() {
    const refusal = this.refusal();
    if (refusal) return { parts: [refusal[1]], answer: refusal[0], seat: null };
    let sent;
    try {
      sent = this.sent();
    } catch (fault) {
      if (fault instanceof Full) return { parts: [...this.said, "a virtual time would pass 2^62"], answer: VTIME_FULL, seat: null };
      if (fault instanceof Contradiction) return { parts: [...this.said, fault.message], answer: null, seat: null };
      throw fault;
    }
    const { machine } = this;
    const { seat, request } = sent;
    const tag = range(this.limits.tags).find((it) => !machine.flight.has(it));
    machine.serial += 1;
    machine.calls += 1;
    machine.flight.set(tag, { seat, issue: `${machine.serial}`, request });
    return { parts: this.said, answer: `issued ${tag} ${machine.serial} ${request.operation} ${request.start} ${request.count}`, seat };
  }

  /** Whose request is sent, and which. */
  sent() {
    const { machine } = this;
    if (machine.returned.length > 0) {
      const first = machine.returned.shift();
      this.said.push(`from the dispatch list, which goes first: seat ${first.seat}, ${textOf(first.request)}`);
      return first;
    }
    return machine.scheduler === "none" ? this.byTurns() : this.byBudget();
  }

  /** The round robin. */
  byTurns() {
    const { machine } = this;
    const seat = range(SEATS).map((at) => (machine.lastSeat + 1 + at) % SEATS).find((it) => machine.queues.get(it)?.requests.length > 0);
    if (seat === undefined) throw new Contradiction(`a request is queued, but at no seat from 0 to ${SEATS - 1}`);
    const request = machine.queues.get(seat).requests.shift();
    this.said.push(`by turns: after seat ${machine.lastSeat} the next with a request is seat ${seat}; its earliest is ${textOf(request)}`);
    machine.lastSeat = seat;
    return { seat, request };
  }

  /** The rules of BFQ. */
  byBudget() {
    const { machine } = this;
    if (machine.service) {
      memberIn(machine, machine.service.seat);
      this.goOnOrExpire();
    }
    if (machine.service === null) this.select();
    const seat = machine.service.seat;
    const queue = machine.queues.get(seat), request = nextOf(machine, seat);
    const how = request.start >= queue.head ? `from sector ${queue.head} on` : `as none starts at ${queue.head} or after it`;
    this.said.push(`next is ${textOf(request)}, ${how}`);
    this.charge(seat, request);
    queue.requests = queue.requests.filter((it) => it !== request);
    queue.head = request.start + request.count;
    if (queue.requests.length === 0) this.expire("emptying", `seat ${seat} is empty then, and expires for emptying`);
    return { seat, request };
  }

  /** The queue in service, which may have had enough. */
  goOnOrExpire() {
    const { seat, sent, age } = this.machine.service, { timeout } = this.limits;
    const budget = this.machine.budgets.get(seat), { count } = nextOf(this.machine, seat);
    if (age >= timeout) {
      this.expire("time", `seat ${seat} expires for time: its age is ${age} of ${timeout}`);
    } else if (sent + count > budget) {
      this.expire("exhaustion", `seat ${seat} expires for exhaustion: ${sent} sectors sent and ${count} next pass its budget of ${budget}`);
    } else {
      this.said.push(`seat ${seat} is in service and goes on: ${sent} of ${budget} sectors sent, ${count} next, age ${age} of ${timeout}`);
    }
  }

  /** The queue in service is in service no more. */
  expire(cause, text) {
    const { machine } = this;
    const { seat, sent } = machine.service;
    const before = machine.budgets.get(seat);
    const after = cause in GROWS ? Math.min(this.limits.maxBudget, before * GROWS[cause]) : Math.max(LEAST_BUDGET, sent);
    machine.budgets.set(seat, after);
    this.said.push(`${text}, budget ${before}${before === after ? " stays" : ` -> ${after}`}`);
    for (const entity of pathOf(machine, seat)) {
      const member = memberIn(machine, entity);
      const left = checked(member.start + delta(sent, member.weight));
      const said = `${nameOf(entity)}: F' = S ${byWeight(member.start)} + ${sent}/${member.weight} = ${byWeight(left)}`;
      const more = entity >= OF_GROUPS ? activeIn(machine, entity - OF_GROUPS) : machine.queues.get(entity).requests;
      if (more.length > 0) {
        const finish = checked(left + delta(machine.budgets.get(entity), member.pending));
        this.put(entity, { state: "active", start: left, finish, weight: member.pending });
        this.said.push(`${said}, waits with F ${byWeight(finish)}`);
      } else {
        this.put(entity, { state: "idle", start: left, finish: left });
        this.said.push(`${said}, idle`);
      }
    }
    machine.service = null;
  }

  /** Changes what a group knows of an entity. */
  put(entity, given) {
    const members = this.machine.members.get(this.machine.parents.get(entity));
    members.set(entity, { ...memberIn(this.machine, entity), ...given });
  }

  /** From the root down to a session. */
  select() {
    for (let group = ROOT; ; ) {
      const name = CLASSES.find((it) => activeIn(this.machine, group, it).length > 0);
      if (name === undefined) throw new Contradiction(`nobody waits in group ${group}, though a request is queued`);
      const entity = this.pick(group, name);
      this.put(entity, { state: "serving" });
      if (entity < OF_GROUPS) {
        this.machine.service = { seat: entity, sent: 0, age: 0 };
        return;
      }
      group = entity - OF_GROUPS;
    }
  }

  /** One of a class in a group. */
  pick(group, name) {
    const { machine } = this;
    const waiting = activeIn(machine, group, name);
    const before = machine.vtimes.get(placeOf(group, name)) ?? 0n;
    const least = waiting.map((it) => it.start).reduce((one, other) => (other < one ? other : one));
    const vtime = before > least ? before : least;
    machine.vtimes.set(placeOf(group, name), vtime);
    const eligible = waiting.filter((it) => it.start <= vtime)
      .sort((one, other) => (one.finish === other.finish ? one.entity - other.entity : one.finish < other.finish ? -1 : 1));
    const [taken, ...others] = eligible;
    const time = timesOf([before, vtime, ...waiting.map((it) => (it.start <= vtime ? it.finish : it.start))], this.manner);
    const ofClass = classesIn(machine, group).some((it) => it !== BEST_EFFORT) ? ` class ${name}` : "";
    const texts = [vtime === before ? `group ${group}${ofClass}: V ${time(vtime)}`
      : `group ${group}${ofClass}: V jumps from ${time(before)} to ${time(vtime)}, the least S`];
    texts.push(`eligible ${eligible.map((it) => `${nameOf(it.entity)} F ${time(it.finish)}`).join(", ")}`);
    const late = waiting.filter((it) => it.start > vtime);
    const lateTexts = late.map((it) => `${nameOf(it.entity)}, S ${time(it.start)} is past V by ${apart(it.start, vtime, this.manner)}`);
    if (late.length > 0) texts.push(`not eligible ${lateTexts.join(", ")}`);
    const tied = others.filter((it) => it.finish === taken.finish).map((it) => nameOf(it.entity));
    const why = tied.length > 0 ? `, of the same F as ${listed(tied)} and the lower number` : others.length > 0 ? ", the least F" : "";
    this.said.push(`${texts.join(", ")}: ${nameOf(taken.entity)} is taken${why}`);
    return taken.entity;
  }

  /** Service of so many sectors. */
  charge(seat, request) {
    const { machine } = this;
    machine.service = { ...machine.service, sent: machine.service.sent + request.count };
    for (const entity of pathOf(machine, seat)) {
      const group = machine.parents.get(entity), { className } = memberIn(machine, entity);
      const weights = this.sumOf(group, className);
      if (weights === 0) throw new Contradiction(`${nameOf(entity)} is served, and no weight counts in group ${group}`);
      const place = placeOf(group, className);
      machine.vtimes.set(place, checked(machine.vtimes.get(place) + delta(request.count, weights)));
    }
  }

  /** The sum of weights of a class in a group. */
  sumOf(group, className) {
    const vtime = this.machine.vtimes.get(placeOf(group, className));
    const counted = [...this.machine.members.get(group).values()]
      .filter((it) => it.className === className && (it.state !== "idle" || it.finish > vtime));
    return counted.reduce((sum, it) => sum + it.weight, 0);
  }
}

/** All that must be as the rules say, by name. */
function flat(machine) {
  const found = new Map();
  const ofRequest = ({ operation, start, count, bios }) => `${operation} ${start}+${count} of ${bios.join(",")}`;
  found.set("the scheduler", machine.scheduler);
  found.set("whether it is held", `${machine.isHeld}`);
  found.set("the last serial", `${machine.serial}`);
  found.set("the count of calls", `${machine.calls}`);
  found.set("the round robin", `${machine.lastSeat}`);
  found.set("the queue in service", machine.service ? `seat ${machine.service.seat}, sent ${machine.service.sent}, age ${machine.service.age}` : "none");
  found.set("the dispatch list", machine.returned.map((it) => `seat ${it.seat} ${ofRequest(it.request)}`).join("; "));
  const flight = [...machine.flight].sort(([one], [other]) => one - other);
  found.set("what is in flight", flight.map(([tag, it]) => `tag ${tag} issue ${it.issue} seat ${it.seat} ${ofRequest(it.request)}`).join("; "));
  for (const [seat, it] of machine.queues) {
    found.set(`the queue of seat ${seat}`, `session ${it.session} in group ${it.group}, head ${it.head}: ${it.requests.map(ofRequest).join("; ")}`);
  }
  for (const members of machine.members.values()) {
    for (const it of members.values()) {
      const weight = it.weight === it.pending ? `${it.weight}` : `${it.weight}->${it.pending}`;
      found.set(nameOf(it.entity), `${it.state} with S ${it.start}, F ${it.finish} and weight ${weight}`);
    }
  }
  for (const [place, vtime] of machine.vtimes) {
    const [group, name] = place.split(" ");
    found.set(`V of class ${name} in group ${group}`, `${vtime}`);
  }
  for (const [entity, budget] of machine.budgets) found.set(`the budget of ${nameOf(entity)}`, `${budget}`);
  return found;
}

/** The reason of a dispatch by the looks before it, and where its answer and the looks after it are otherwise. A refusal changes nothing. */
function reasonOf(before, answer, after, dials, manner = WHOLE) {
  const worked = copyOf(before);
  const { parts, answer: byRules, seat } = new Choice(worked, dials, manner).reason();
  const isNoRoom = answer === NO_ROOM && !BEFORE_MEMORY.includes(byRules);
  const wanted = isNoRoom ? answer : byRules;
  const told = isNoRoom ? [...parts.slice(0, -1), `${parts[parts.length - 1]}; no memory was found, which no look tells`] : parts;
  return { parts: told, seat, faults: faultsOf(answer, wanted, isRefusal(answer) ? before : worked, after) };
}

/** Where the host did otherwise than the rules have it. */
function faultsOf(answer, wanted, byRules, after) {
  if (wanted === null) return ["its looks do not go together"];
  const faults = answer === wanted ? [] : [`the answer is ${told(answer)} and not ${told(wanted)}`];
  // After another step than the wanted one nothing can be as wanted.
  if (answer !== wanted && !isRefusal(answer)) return faults;
  const [rules, found] = [flat(byRules), flat(after)];
  for (const what of [...new Set([...rules.keys(), ...found.keys()])].sort()) {
    if (rules.get(what) !== found.get(what)) faults.push(`${what} is ${found.get(what)} and not ${rules.get(what)}`);
  }
  return faults;
}
