// Changes of a world file's text: what is added, with the keys that it needs. Each answers the new text.
import { quoted } from "./quoting.js";
import { person, prim } from "./stage.js";
import { KEY, readWorld, wordsOf } from "./worlds.js";

export const NEW_WORLD = "begin\nend\n";
const EACH_KEY = new RegExp(KEY.source, "g");

const firstWord = line => wordsOf(line)[0]?.text;

// The first key of a kind that isn't in the text.
function freeKey(text, made) {
  const taken = new Set((text.match(EACH_KEY) ?? []).map(it => it.toLowerCase()));
  for (let number = 1; ; number++) if (!taken.has(made(number))) return made(number);
}

// The people whom the steps name, with their keys.
export function peopleOf({ steps }) {
  const people = new Map();
  for (const { word, fields } of steps) {
    if (word === "say" && fields[1]) people.set(fields[1], fields[2]);
    if (word === "touch" && fields[3]) people.set(fields[3], fields[2]);
  }
  return people;
}

export function regionsOf({ objects, steps }) {
  const crossed = steps.filter(it => it.word === "cross").map(it => it.fields[1]);
  return [...new Set([...objects.map(it => it.region), ...crossed])];
}

export function keyOfPerson(text, name) {
  return peopleOf(readWorld(text)).get(name) ?? freeKey(text, person);
}

function withLines(text, at, added) {
  const lines = text.split("\n");
  lines.splice(at, 0, ...added);
  return lines.join("\n");
}

// The number of the line before which more can be declared or done: that of `begin` or `end`, or of the text's end.
function lineOf(text, word) {
  const lines = text.split("\n");
  const found = lines.findIndex(it => firstWord(it) === word);
  return found >= 0 ? found : lines.at(-1) === "" ? lines.length - 1 : lines.length;
}

// The text with both `begin` and `end`.
function whole(text) {
  const lines = text.split("\n").map(firstWord);
  let made = text === "" || text.endsWith("\n") ? text : `${text}\n`;
  if (!lines.includes("begin")) made += "begin\n";
  return lines.includes("end") ? made : `${made}end\n`;
}

export function withObject(text, { name, region }) {
  const { objects } = readWorld(text);
  const owner = objects[0]?.owner ?? freeKey(text, person);
  const line = `object ${freeKey(text, prim)} ${quoted(name)} ${owner} ${quoted(region)}`;
  return withLines(whole(text), lineOf(whole(text), "begin"), [line]);
}

// The line after the declarations of an object, or of a prim of it.
function lineAfter(text, object, link) {
  let [objects, prims, last] = [0, 0, 0];
  for (const [at, line] of text.split("\n").entries()) {
    const word = firstWord(line);
    if (word === "begin") break;
    if (word === "object") [objects, prims] = [objects + 1, 1];
    if (word === "prim") prims++;
    const isHere = objects === object && (link === undefined || prims === link);
    if (isHere && ["object", "prim", "script", "note"].includes(word)) last = at + 1;
  }
  return last;
}

export function withPrim(text, { object, name }) {
  return withLines(text, lineAfter(text, object), [`prim ${freeKey(text, prim)} ${quoted(name)}`]);
}

// A script gets a number in the order of the file: steps that name a later one name it by the next number.
export function withScript(text, { object, link, name, file }) {
  const at = lineAfter(text, object, link);
  const number = readWorld(text).scripts.filter(it => it.line <= at).length + 1;
  const renumbered = text.replace(/^([ \t]*go[ \t]+)(\d+)/gm, (whole, head, script) =>
    Number(script) >= number ? `${head}${Number(script) + 1}` : whole);
  return withLines(renumbered, at, [`script ${quoted(name)} ${quoted(file)}`]);
}

export function withNote(text, { object, link, name, file }) {
  return withLines(text, lineAfter(text, object, link), [`note ${quoted(name)} ${quoted(file)}`]);
}

export function withStep(text, words, isRun) {
  const added = [words.join(" "), ...(isRun ? ["run 10000"] : [])];
  return withLines(whole(text), lineOf(whole(text), "end"), added);
}

// The clock after all steps, in milliseconds.
export function clockOf({ steps }) {
  return steps.filter(it => it.word === "clock").reduce((most, it) => Math.max(most, Number(it.fields[0])), 0);
}

// The part that differs between two texts: where it begins, where it ended, and what takes its place.
export function difference(before, after) {
  let start = 0;
  while (start < before.length && start < after.length && before[start] === after[start]) start++;
  let shared = 0;
  const most = Math.min(before.length, after.length) - start;
  while (shared < most && before.at(-1 - shared) === after.at(-1 - shared)) shared++;
  return { start, end: before.length - shared, text: after.slice(start, after.length - shared) };
}
