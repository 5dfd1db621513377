// Reads a world file: its objects, prims, scripts, notecards and steps (docs/WORLDS.md). Lines that have too few words
// are passed over: the program refuses them.
import { quoted, unquoted } from "./quoting.js";

export const KEY = /[0-9a-fA-F]{8}(-[0-9a-fA-F]{4}){3}-[0-9a-fA-F]{12}/;
const DECLARED = ["object", "prim", "script", "note", "begin", "end"];
// How many words follow each first word, at least.
const LEAST = { object: 4, prim: 2, script: 2, note: 2, clock: 1, say: 4, touch: 4, changed: 2, rez: 2, go: 2, run: 1,
  pause: 1, cross: 2 };

function isSkipped(line) {
  return /^[ \t]*(#|$)/.test(line);
}

// The words of a line, as their texts, and the column at which each begins.
export function wordsOf(line) {
  const word = /[ \t]*(?:"((?:[^"\\]|\\.)*)"|(".*)|([^ \t]+))/ys;
  const words = [];
  for (let found = word.exec(line); found; found = word.exec(line)) {
    const start = found.index + found[0].search(/[^ \t]/);
    words.push({ text: found[1] === undefined ? found[2] ?? found[3] : unquoted(found[1]), start });
  }
  return words;
}

// The step of a line that begins at a place of a world file's text.
export function readStep(text, start, line) {
  const end = text.indexOf("\n", start);
  const [word, ...fields] = wordsOf(cleared(text.slice(start, end < 0 ? text.length : end))).map(it => it.text);
  return { line, start, word, fields };
}

const cleared = line => (line.endsWith("\r") ? line.slice(0, -1) : line);

// The world of a file's text. A script is its name, its file, its prim and the line that names it; a step its line,
// where that begins, its first word and its other words.
export function readWorld(text) {
  const world = { objects: [], scripts: [], notes: [], steps: [], begin: 0 };
  let start = 0;
  for (const [at, line] of text.split("\n").entries()) {
    if (!isSkipped(cleared(line))) take(world, readStep(text, start, at + 1));
    start += line.length + 1;
  }
  return world;
}

function take(world, step) {
  const { line, word, fields } = step;
  if (fields.length < (LEAST[word] ?? 0)) return;
  if (word === "begin") world.begin = line;
  else if (!world.begin) declare(world, word, fields, line);
  else if (!DECLARED.includes(word) && word in LEAST) world.steps.push(step);
}

function declare(world, word, fields, line) {
  const [first, second, owner, region] = fields;
  const { objects, scripts, notes } = world;
  if (word === "object") {
    const prim = { key: first.toLowerCase(), name: second, object: objects.length + 1, link: 1 };
    objects.push({ key: prim.key, name: second, owner, region, prims: [prim] });
  } else if (word === "prim" && objects.length) {
    const { prims } = objects.at(-1);
    prims.push({ key: first.toLowerCase(), name: second, object: objects.length, link: prims.length + 1 });
  } else if (word === "script" && objects.length) {
    scripts.push({ name: first, file: second, prim: objects.at(-1).prims.at(-1), line });
  } else if (word === "note" && objects.length) {
    notes.push({ name: first, file: second, prim: objects.at(-1).prims.at(-1), line });
  }
}

// The world in which `once` runs a script.
export function worldOfOnce(name) {
  return `object 00000000-0000-0000-0000-000000000001 "Object" 00000000-0000-0000-0000-000000000002 "here"
script "New Script" ${quoted(name)}

begin
run 1000000
end
`;
}
