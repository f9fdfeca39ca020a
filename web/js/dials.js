// The options of a run, as `bfqhost sim` takes them, and the first that is out of its limits.

// The options are those of tools/dials.py. A greatest number that is a field is what that one is.
const OPTIONS = TABLES.options.map((it) => ({
  ...it, least: BigInt(it.least), most: /^\d+$/.test(it.most) ? BigInt(it.most) : it.most, usual: BigInt(it.usual),
}));
const SCHEDULERS = ["bfq", "none"];
const SCHEDULER = "--scheduler";
// No number of an option is greater.
const MOST_OF_OPTION = 2n ** 64n - 1n;

/** What is wrong with the words of a run. */
class BadOption extends Error {}

/** The dials if no option is given. */
function usualDials() {
  return { scheduler: "bfq", ...Object.fromEntries(OPTIONS.map((option) => [option.field, option.usual])) };
}

/** A number that is spelled as in a script. */
function numberOfOption(name, word) {
  if (!/^(0|[1-9][0-9]*)$/.test(word) || word.length > 20 || BigInt(word) > MOST_OF_OPTION) {
    throw new BadOption(`${name} is no number: ${quoted(word)}`);
  }
  return BigInt(word);
}

/** The dials of words as `--tags 4` or `--tags=4`. It throws BadOption if they are other words, or a number is out of its limits. */
function dialsOf(words) {
  const dials = usualDials();
  const parts = words.flatMap((word) => (word.includes("=") ? [word.slice(0, word.indexOf("=")), word.slice(word.indexOf("=") + 1)] : [word]));
  const seen = new Set();
  for (let at = 0; at < parts.length; at += 2) {
    const [name, value] = [parts[at], parts[at + 1]];
    const option = OPTIONS.find((it) => it.name === name);
    if (!option && name !== SCHEDULER) throw new BadOption(`a page has no option ${quoted(name)}`);
    if (value === undefined) throw new BadOption(`${name} has no value`);
    if (seen.has(name)) throw new BadOption(`${name} is given twice`);
    seen.add(name);
    if (option) {
      dials[option.field] = numberOfOption(name, value);
    } else if (SCHEDULERS.includes(value)) {
      dials.scheduler = value;
    } else {
      throw new BadOption(`${name} is ${SCHEDULERS.join(" or ")}: ${quoted(value)}`);
    }
  }
  checkDials(dials);
  return dials;
}

/** Throws BadOption with the first number that is out of its limits. */
function checkDials(dials) {
  for (const { name, field, least, most } of OPTIONS) {
    const greatest = typeof most === "bigint" ? most : dials[most];
    if (dials[field] < least || dials[field] > greatest) throw new BadOption(`${name} is ${least} to ${greatest}, and not ${dials[field]}`);
  }
}

/** The words for dials, of those alone that are not as usual. */
function wordsOf(dials) {
  const words = dials.scheduler === "bfq" ? [] : [SCHEDULER, dials.scheduler];
  return [...words, ...OPTIONS.filter((it) => dials[it.field] !== it.usual).flatMap((it) => [it.name, `${dials[it.field]}`])];
}
