// node drive.js MODULE WORDS: does the tasks of standard input, a JSON array of pairs of a name and a value, and prints
// what comes of each, as a JSON array. Bytes are in base64. WORDS is the file of the page's words.
import fs from "node:fs";
import { explained } from "../faults.js";
import { Grammar } from "../highlight.js";
import { Lines } from "../lines.js";
import { Lsl } from "../lsl.js";
import { markedWorld, withoutMarks } from "../marks.js";
import { outcomeOf } from "../outcome.js";
import { linesOf, probedFiles } from "../probes.js";
import { refusalsOf } from "../refusals.js";
import { NO_STEPS, Scene, sceneOf, stepsOf } from "../scene.js";
import { packed, unpacked } from "../share.js";
import { stagedWorld } from "../stage.js";
import { readWorld, worldOfOnce } from "../worlds.js";

const lsl = new Lsl(new WebAssembly.Module(fs.readFileSync(process.argv[2])));
const words = JSON.parse(fs.readFileSync(process.argv[3], "utf8"));
const bytesOf = files => files.map(([name, text]) => [name, Buffer.from(text, "base64")]);
const textOf = bytes => new TextDecoder().decode(bytes);

// A run: with a room of its own it isn't tried again with more.
function run({ word, file, files, room }) {
  const start = performance.now();
  const all = bytesOf(files);
  const ran = room === null ? lsl.run(word, file, all) : lsl.runOnce(word, file, all, room);
  const output = Buffer.from(ran.output).toString("base64");
  return { status: ran.status, output, milliseconds: performance.now() - start, memory: ran.memory };
}

const worldText = ({ word, file, files }) =>
  word === "once" ? worldOfOnce(file) : textOf(bytesOf(files).find(it => it[0] === file)[1]);

// The rows of a run's lines in words, with the steps between them, and its arrows.
function told(task) {
  const all = bytesOf(task.files);
  const text = worldText(task);
  const marked = markedWorld(text);
  const journal = textOf(lsl.run(task.word, task.file, all).output);
  const ran = marked ? lsl.run("replay", "\u0000world", [...all, ["\u0000world", marked.text], marked.file]) : null;
  const seen = ran?.status === 0 ? withoutMarks(textOf(ran.output), readWorld(text), marked.stride) : null;
  const steps = stepsOf(journal, text, seen?.text === journal ? seen.steps : null);
  const scene = new Scene(sceneOf(journal, text, steps), words);
  return { rows: Array.from({ length: scene.rowCount }, (_, row) => scene.rowText(row)), arrows: [...scene.arrows] };
}

// The lines of a journal in words.
function lines({ journal, world }) {
  const scene = new Scene(sceneOf(journal, world, NO_STEPS), words);
  return Array.from({ length: scene.rowCount }, (_, row) => scene.rowText(row));
}

// What became of a run, with the lines of faults and of handlers that were cut.
function outcome(task) {
  const files = bytesOf(task.files).map(([name, text]) => [name, textOf(text)]);
  const text = worldText(task);
  const { output } = lsl.run(task.word, task.file, files);
  const found = outcomeOf(output);
  const asked = [...found.faults, ...found.cut.map(it => ({ ...it, line: found.lines }))];
  const copies = probedFiles(files, new Set(readWorld(text).scripts.map(it => it.file)));
  const ran = lsl.run("replay", "\u0000world", [...copies.files, ["\u0000world", text]]);
  return { ...found, located: linesOf(textOf(ran.output), textOf(output), copies, asked) };
}

// The pieces of a text's lines with their colours.
function coloured({ text }) {
  const lines = new Lines();
  lines.set(text, new Grammar(words.grammar));
  return lines.lines.map((_, line) => lines.pieces(line));
}

// The lines that refuse a script.
function refusals({ name, text }) {
  return refusalsOf(text, it => textOf(lsl.run("check", name, [[name, it]]).output).split("\n")[0]);
}

async function link(fragment) {
  try {
    return { play: await unpacked(fragment) };
  } catch (error) {
    return { error: error.message };
  }
}

const TASKS = {
  run, told, lines, outcome, coloured, refusals, link,
  stage: ({ file, lines }) => stagedWorld(file, lines, words.steps),
  fault: ({ output, files }) => explained(output, files, words),
  share: async play => unpacked(await packed(play)),
};

const answers = [];
for (const [name, value] of JSON.parse(fs.readFileSync(0, "utf8"))) answers.push(await TASKS[name](value));
process.stdout.write(JSON.stringify(answers));
