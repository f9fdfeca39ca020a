// The lines of a script, why a line is none of them, and what a refusal says. The tables of forms, numbers and names are those of
// tools/grammar.py, and the sentences those of docs/FORMATS.md: the maker of the page puts them in as TABLES.

const encoder = new TextEncoder();

/** An empty line and a comment print nothing. */
function isSilent(line) {
  return line === "" || line.startsWith("#");
}

/** The call was not done, as things stand or not yet. */
function isRefusal(answer) {
  return answer.startsWith("refused ") || answer.startsWith("notyet ");
}

/** A good line that asks for a step, which takes a serial if it is accepted. */
function isStep(line) {
  return !isSilent(line) && !TABLES.noSteps.includes(line.split(" ")[0]);
}

/** An answer, with its name if it is a refusal. */
function told(answer) {
  return isRefusal(answer) ? `${answer} (${TABLES.names[answer.split(" ")[1]] ?? "a number with no name here"})` : answer;
}

/** What a refusal says, in a sentence; an empty text for another answer. */
function sentenceOf(answer) {
  return isRefusal(answer) ? TABLES.sentences[answer.split(" ")[1]] ?? "" : "";
}

/** The lines of a text. A last one without an end counts if it is not empty. */
function linesOf(text) {
  const lines = text.split("\n");
  if (lines[lines.length - 1] === "") lines.pop();
  return lines;
}

/** Why a line is a bad one, of a script or of other forms; null if it is good. */
function whyBad(line, forms = TABLES.forms) {
  if (encoder.encode(line).length > TABLES.mostBytes) return `more than ${TABLES.mostBytes} bytes`;
  if (isSilent(line)) return null;
  return whyNotJoined(line) ?? whyOtherWords(line.split(" "), forms);
}

/** Why a text is not words of plain letters, digits and signs, joined by one space; null if it is. */
function whyNotJoined(text) {
  for (const [fault, reason] of [["\r", "a carriage return"], ["\t", "a tab"], ["  ", "a space too many: two in a row"]]) {
    if (text.includes(fault)) return reason;
  }
  if (text.startsWith(" ")) return "a space too many: before the first word";
  if (text.endsWith(" ")) return "a space too many: after the last word";
  const strange = /[^ -~]/u.exec(text);
  if (strange) return `a byte that stands in no word: 0x${encoder.encode(strange[0])[0].toString(16).padStart(2, "0")}`;
  return null;
}

/** Why words have none of these forms; null if they have one. */
function whyOtherWords(words, forms) {
  let left = forms;
  for (const [at, word] of words.entries()) {
    left = left.filter((form) => form.length > at);
    if (left.length === 0) return `a word too many: ${quoted(word)}`;
    const name = left[0][at];
    let reason = null;
    if (name in TABLES.choices) {
      reason = whyNoChoice(name, word);
    } else if (name === name.toUpperCase()) {
      reason = whyNoNumber(name, word);
    } else {
      left = left.filter((form) => form[at] === word);
      reason = left.length > 0 ? null : whyUnknown(word);
    }
    if (reason !== null) return reason;
  }
  if (left.some((form) => form.length === words.length)) return null;
  const next = [...new Set(left.map((form) => form[words.length]))].sort();
  return `too few words: after ${quoted(words[words.length - 1])} comes ${next.join(" or ")}`;
}

/** A word between quotes, as Python writes it. */
function quoted(word) {
  const escaped = word.replaceAll("\\", "\\\\");
  return word.includes("'") && !word.includes('"') ? `"${escaped}"` : `'${escaped.replaceAll("'", "\\'")}'`;
}

function whyUnknown(word) {
  return `${word === word.toLowerCase() ? "an unknown word" : "a capital letter"}: ${quoted(word)}`;
}

/** Why a word is none of the few that may stand at this place; null if it is one. */
function whyNoChoice(name, word) {
  const choices = TABLES.choices[name];
  if (choices.includes(word)) return null;
  if (word !== word.toLowerCase()) return whyUnknown(word);
  return `${name} is ${choices.slice(0, -1).join(", ")} or ${choices[choices.length - 1]}: ${quoted(word)}`;
}

/** Why a word is no number of a place with so many bits; null if it is one. */
function whyNoNumber(name, word) {
  const most = 2n ** BigInt(TABLES.bits[name]) - 1n;
  if (!/^[0-9]+$/.test(word)) return `${name} is no number: ${quoted(word)}`;
  if (word[0] === "0" && word !== "0") return `${name} has a 0 before its number: ${quoted(word)}`;
  // The longest of all has 20 digits.
  if (word.length > 20 || BigInt(word) > most) return `${name} is at most ${most}: ${quoted(word)}`;
  return null;
}
