// The world at a moment, from the lines of its state: the clock, and of each object and script what it holds and waits
// for.
import { made } from "./elements.js";
import { fields } from "./journal.js";
import { quoted } from "./quoting.js";
import { seconds } from "./telling.js";

const MOST_LINES = 1500;
// Stands for a word that isn't known.
export const UNKNOWN = "?";

const grouped = number => Number(number).toLocaleString("en");

// The words of a line, texts with their quotes.
const wordsOf = line => fields(line).map(([text, isQuoted]) => (isQuoted ? quoted(text) : text));

function listen([number, how, channel, name, id, message]) {
  const asked = [["from", name], ["with the key", id], ["of", message]].filter(it => it[1] !== '""');
  const said = [...(how === "on" ? [] : ["off"]), `on channel ${channel}`, ...asked.map(it => it.join(" "))];
  return [`listen ${number}`, said.join(", ")];
}

// How each line is shown: a name and a text.
const SHOWN = {
  clock: ([milliseconds]) => ["clock", `${seconds(Number(milliseconds))} s`],
  pair: ([name, value]) => [name, value],
  leaving: ([state]) => ["leaves", state],
  fault: ([reason]) => ["stopped", reason],
  took: ([event, ...args]) => ["handles", `${event}(${args.join(", ")})`],
  event: ([event, ...args]) => ["waits", `${event}(${args.join(", ")})`],
  listen,
  timer: ([period, due]) => ["timer", `every ${grouped(period)} s, due at ${seconds(Number(due))} s`],
  sleeps: ([until]) => ["sleeps", `until ${seconds(Number(until))} s`],
};

const bare = text => text.replace(/^"|"$/g, "");

function waiting(queued) {
  if (queued === "0") return "no event waits";
  return queued === "1" ? "1 event waits" : `${queued} events wait`;
}

function heading(word, words) {
  const name = bare(words[1]) || `${word} ${words[0]}`;
  if (word === "object") {
    return words[2] === UNKNOWN ? name : `${name} in ${bare(words[2]) || "a region without a name"}`;
  }
  const [state, rest, queued, charge, limit] = words.slice(2);
  const said = [[state, rest].filter(it => it !== UNKNOWN).join(", ")];
  if (queued !== undefined) said.push(waiting(queued), `${grouped(charge)} of ${grouped(limit)} bytes`);
  return `${name}: ${said.join("; ")}`;
}

function rowOf([name, text]) {
  const row = made("tr");
  row.append(Object.assign(made("th", name), { scope: "row" }), made("td", text));
  return row;
}

// The elements that show a state's lines, as many as are made in a moment. Of the script whose calls are shown beside them the variables are left out.
export function worldElements(lines, script) {
  const found = [];
  let [table, isHere] = [null, false];
  const add = row => {
    if (!table) found.push(table = made("table"));
    table.append(rowOf(row));
  };
  for (const line of lines.slice(0, MOST_LINES)) {
    const [word, ...words] = wordsOf(line);
    if (word === "object" || word === "script") {
      isHere = word === "script" && Number(words[0]) === script;
      found.push(made("h4", heading(word, words), isHere ? "here" : ""));
      table = null;
    } else if (word in SHOWN) {
      add(SHOWN[word](words));
    } else if (!isHere && (word === "global" || word === "call")) {
      add(word === "global" ? [words[0], words.slice(1).join(" ")] : [`in ${words[0]}`, `line ${words[1]}`]);
    }
  }
  if (lines.length > MOST_LINES) found.push(made("p", `and ${grouped(lines.length - MOST_LINES)} more lines`));
  return found;
}
