// The machine itself: the module that was compiled from the proved host. A whole script is run at each call, and nothing stays.

// The statuses of a run, as those of `bfqhost sim`.
const DONE = 0, BAD_LINE = 2, NO_WRITE = 4, NO_MEMORY = 5, REFUSED_DIALS = 6;
// The dials and the end as the module has them in memory: numbers of 8 bytes, the flag of the scheduler first.
const FIELDS_IN_MEMORY = ["nrRequests", "tags", "firstBudget", "maxBudget", "timeout", "history", "firstVtime", "sectors"];
const NUMBER_BYTES = 8;
// For a first try there is so much room for the text: as much for each byte of the script, and as much besides.
const ROOM_OF_BYTE = 8, ROOM_BESIDES = 1 << 18;

/** The machine cannot run, or has stopped. */
class MachineFault extends Error {}

/** A machine of a compiled module, whose method `run` gives the text and the status of a script on a new host. */
class Machine {
  constructor(module) {
    this.module = module;
    this.instance = null;
  }

  /** Runs a script, a text or bytes, on a new host with these dials. */
  run(script, dials) {
    const bytes = typeof script === "string" ? encoder.encode(script) : script;
    let room = ROOM_BESIDES + ROOM_OF_BYTE * bytes.length;
    for (;;) {
      const { status, length, text } = this.tried(bytes, dials, room);
      if (length <= room) return { status, text };
      room = length;
    }
  }

  /** One run with so much room for the text. */
  tried(bytes, dials, room) {
    try {
      return this.called(bytes, dials, room);
    } catch (fault) {
      // Its memory may be half written, so the next run has another one.
      this.instance = null;
      if (fault instanceof MachineFault) throw fault;
      throw new MachineFault(`the machine stopped: ${fault.message}`);
    }
  }

  called(bytes, dials, room) {
    this.instance ??= new WebAssembly.Instance(this.module, {});
    const its = this.instance.exports;
    its.page_reset();
    const place = (size) => {
      const found = its.page_room(BigInt(size));
      if (found === 0n) throw new MachineFault("this browser gives the machine no more memory");
      return found;
    };
    const dialsAt = place(NUMBER_BYTES * (1 + FIELDS_IN_MEMORY.length));
    const scriptAt = place(bytes.length + 1), textAt = place(room), endAt = place(2 * NUMBER_BYTES);
    const view = new DataView(its.memory.buffer);
    // What is not the flag itself of its 8 bytes must be nothing.
    view.setBigUint64(Number(dialsAt), dials.scheduler === "bfq" ? 1n : 0n, true);
    FIELDS_IN_MEMORY.forEach((field, at) => view.setBigUint64(Number(dialsAt) + NUMBER_BYTES * (at + 1), dials[field], true));
    new Uint8Array(its.memory.buffer).set(bytes, Number(scriptAt));
    its.bfq_page_run(dialsAt, scriptAt, BigInt(bytes.length), textAt, BigInt(room), endAt);
    // The memory may have grown, and then the old view is of none.
    const after = new DataView(its.memory.buffer);
    const status = Number(after.getBigUint64(Number(endAt), true)), length = Number(after.getBigUint64(Number(endAt) + NUMBER_BYTES, true));
    const text = length > room ? "" : new TextDecoder().decode(new Uint8Array(its.memory.buffer, Number(textAt), length));
    return { status, length, text };
  }
}

/** The machine of the module in this page. It throws MachineFault if this browser cannot have it. */
async function machineOf(base64) {
  if (typeof WebAssembly !== "object") throw new MachineFault("it has no WebAssembly");
  try {
    const bytes = Uint8Array.from(atob(base64), (it) => it.charCodeAt(0));
    const module = await WebAssembly.compile(bytes);
    await WebAssembly.instantiate(module, {});
    return new Machine(module);
  } catch (fault) {
    throw new MachineFault(`it does not take the module: ${fault.message}`);
  }
}
