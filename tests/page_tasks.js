// Does tasks with the script of a page and the module in it, outside of a browser: the tests compare what comes with what others say.
//
//     node page_tasks.js PAGE < TASKS > ANSWERS
//
// A task is a line of JSON: what it is to be done, a script and options of sim. So is an answer: what its function below gives.
"use strict";
const fs = require("fs"), vm = require("vm");

const page = fs.readFileSync(process.argv[2], "utf8");
const inner = (begin) => page.slice(page.indexOf(begin) + begin.length, page.indexOf("</script>", page.indexOf(begin)));
const its = vm.runInThisContext(`${inner("<script>")};
({ Machine, Course, Services, MachineFault, LOOK_LINES, MORE_PLACES, blockOf, requestOf, dialsOf, usualDials, checkDials, whyBad, linesOf, isRefusal, told,
  machineOf })`);

// An element here is its attributes and its text.
globalThis.document = {
  createElement: () => ({ text: "", setAttribute(name, value) { this[name] = value; }, append(...texts) { this.text += texts.join(""); } }),
};

const TASKS = {
  /** The text and the status of a run. */
  run(machine, { script, options }) {
    return machine.run(Buffer.from(script, "base64"), its.dialsOf(options));
  },

  /** The reason of each dispatch of a script: the line with its answer, its parts, the same as the page shows them, and where the host did
   * otherwise. */
  reasons(machine, { script, options }) {
    const course = courseOf(machine, script, options);
    const rows = [...course.rows.keys()].filter((row) => course.lines[row] === "dispatch");
    const shown = (row) => course.reasonOfRow(row, its.MORE_PLACES).parts;
    return rows.map((row) => ({ answer: its.told(course.rows[row].answer), shown: shown(row), ...course.reasonOfRow(row) }));
  },

  /** At how many places of all futures undo and redo were compared with a new machine, at how many none was possible, and the differences. */
  exactness(machine, { script, options, most }) {
    const course = courseOf(machine, script, options), found = { places: 0, stuck: 0, differences: [] };
    for (const future of course.futures) {
      const step = Math.max(1, Math.floor(future.tip.depth / most));
      for (let place = 0; place <= future.tip.depth; place += step) {
        const look = course.lookAt(future, place);
        found.places += 1;
        found.stuck += look.isStuck ? 1 : 0;
        found.differences.push(...look.differences);
      }
    }
    return found;
  },

  /** What each client was given and entitled to at the end of each future. */
  shares(machine, { script, options }) {
    const course = courseOf(machine, script, options), services = new its.Services(course);
    return course.futures.map((future) => [...services.points(future).at(-1).clients.values()].map(({ seat, session, sent, due }) => [seat, session, sent, due]));
  },

  /** How a run ends: how many lines ran, why not all did, and to how many no memory was found. */
  end(machine, { script, options }) {
    const course = courseOf(machine, script, options);
    return { rows: course.rows.length, fault: course.fault, without: course.rows.filter((row) => row.answer === "refused 34").length };
  },

  /** What is shown of requests, each as a look has it: the words of its class, its title and its text. */
  blocks(machine, { requests }) {
    return requests.map((item) => its.blockOf(its.requestOf(...item.split(":")))).map((it) => [it.class, it.title, it.text]);
  },

  /** Why each line is bad; null of a good one. */
  bad(machine, { lines }) {
    return lines.map((line) => its.whyBad(line));
  },

  /** What is wrong with the words of a run, or null. */
  options(machine, { options }) {
    try {
      its.dialsOf(options);
      return null;
    } catch (fault) {
      return fault.message;
    }
  },
};

function courseOf(machine, script, options) {
  return new its.Course(machine, Buffer.from(script, "base64").toString(), its.dialsOf(options));
}

(async () => {
  const machine = await its.machineOf(inner('id="module">'));
  for (const line of fs.readFileSync(0, "utf8").split("\n").filter((it) => it)) {
    const task = JSON.parse(line);
    process.stdout.write(`${JSON.stringify(TASKS[task.task](machine, task))}\n`);
  }
})();
