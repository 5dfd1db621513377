// Runs requests apart from the page, which stays usable meanwhile and may end this worker. It reads the journals too,
// and hands over what is shown of them: to the page, and through a port to the frame of the timeline. Two such workers
// share a world's runs, and hear one another through a port.
import { clockOf, withStep } from "./building.js";
import { Core, hasCore } from "./core.js";
import { Lsl } from "./lsl.js";
import { withoutMarks, markedWorld } from "./marks.js";
import { frontOf, outcomeOf } from "./outcome.js";
import { handOver } from "./pieces.js";
import { linesOf, probedFiles } from "./probes.js";
import { refusalsOf } from "./refusals.js";
import { NO_STEPS, sceneOf, stepsOf } from "./scene.js";
import { stagedWorld, waitFrom } from "./stage.js";
import { readWorld } from "./worlds.js";

const MOST_LINES = 500000;
const MOST_BYTES = 32000000;
const HEAD = 2000;
const MOST_CHECKED = 64;
const REFUSED = 3;
const SECOND_WORLD = "\u0000world";
const UNDRAWN = [2, 3, 8];
let lsl, frame, peer;
// What ran last: its output as bytes, and the front of it that is shown.
let last = {};

const textOf = bytes => new TextDecoder().decode(bytes);

// What a world says of its scripts and notecards, and how many segments run at its last step.
function namedIn(text) {
  if (text === undefined) return { scripts: [], named: [], segments: 0 };
  const { scripts, notes, steps } = readWorld(text);
  const runs = steps.filter(it => it.word === "run" || it.word === "go");
  const named = [...scripts, ...notes].map(({ file, line }) => ({ file, line }));
  return { scripts: scripts.map(it => it.file), named, segments: Number(runs.at(-1)?.fields.at(-1) ?? 0) };
}

// The lines that refuse a script.
function refusals(name, files) {
  const check = text => textOf(lsl.run("check", name, [[name, text]]).output).split("\n")[0];
  return refusalsOf(new Map(files).get(name), check);
}

// The faults of the scripts that are played, of which one was refused; that one's come first.
function allFaults(head, files, scripts) {
  const here = new Set(files.map(it => it[0]));
  const names = [...new Set(scripts)].filter(it => here.has(it)).slice(0, MOST_CHECKED);
  const found = names.map(it => refusals(it, files));
  const isFirst = lines => lines[0] === head.split("\n")[0];
  const lines = [...found.filter(isFirst), ...found.filter(it => !isFirst(it))].flat();
  return lines.length ? lines : [head];
}

// The world file of steps, with the clock going from one moment at which something is due to the next.
function worldOf({ file, steps, words }, files) {
  if (!hasCore(lsl.module)) return stagedWorld(file, steps, words);
  return stagedWorld(file, steps, words, world => new Core(lsl).due(files, world));
}

// A world file that waits: after its steps the clock goes up to so many milliseconds from then.
function wait({ files, world, milliseconds }, answer) {
  let text = world;
  const due = () => (hasCore(lsl.module) ? new Core(lsl).due(files, text) : []);
  const clock = clockOf(readWorld(world));
  waitFrom(clock, clock + milliseconds, due, it => (text = withStep(text, ["clock", `${it}`], true)));
  answer({ kind: "waited", world: text });
}

function stage({ files, stage: asked }, answer) {
  answer({ kind: "staged", world: worldOf(asked, files) });
}

// A request whose world is made of steps gets that of the clock's own way.
function staged(asked) {
  if (!asked.stage) return {};
  const world = worldOf(asked.stage, asked.files);
  return { world, files: asked.files.map(([name, text]) => [name, name === asked.file ? world : text]) };
}

// Runs a request, and says what became of it; then hands over the front of its journal.
function run({ number, ...asked }, answer, tell) {
  const start = performance.now();
  const made = staged(asked);
  const { word, file, files, world } = { ...asked, ...made };
  if (world !== undefined && word !== "freeze") peer.postMessage({ number, task: "mark", files, world });
  const { status, output } = lsl.run(word, file, files);
  last = { number, output, files, world, front: frontOf(output, MOST_LINES, MOST_BYTES) };
  const [outcome, milliseconds] = [outcomeOf(output), performance.now() - start];
  const named = namedIn(world);
  const head = last.front.slice(0, HEAD);
  const scripts = named.scripts.length ? named.scripts : [file];
  const heads = status === REFUSED ? allFaults(head, files, scripts) : [head];
  answer({ kind: "ran", status, outcome, size: output.length, milliseconds, head, heads, named, staged: made });
  last.isDrawn = world !== undefined && !UNDRAWN.includes(status);
  if (!last.isDrawn) return;
  const scene = sceneOf(last.front, world, structuredClone(NO_STEPS));
  handOver(structuredClone(scene), tell);
  handOver(scene, answer);
  if (word === "freeze") add(null, answer, tell);
}

// The second run of a world, and from which step each of its lines comes; nothing where there is none.
function marks({ files, world }) {
  const marked = markedWorld(world);
  const second = marked ? [...files, [SECOND_WORLD, marked.text], marked.file] : [];
  const ran = marked ? lsl.run("replay", SECOND_WORLD, second) : null;
  if (ran?.status !== 0) return { text: "", steps: new Uint32Array(0) };
  const text = frontOf(ran.output, 2 * MOST_LINES, 2 * MOST_BYTES);
  return withoutMarks(text, readWorld(world), marked.stride);
}

function mark({ number, ...asked }) {
  const found = marks(asked);
  peer.postMessage({ number, task: "addSteps", ...found }, [found.steps.buffer]);
}

// Adds arrows to what was handed over; and the steps, where the second run did the same.
function addSteps({ number, text, steps }, answer, tell) {
  if (number !== last.number || !last.isDrawn) return;
  const isCut = last.output.length > MOST_BYTES || steps.length > MOST_LINES;
  const isSame = isCut ? text.startsWith(last.front) : text === last.front;
  add(isSame ? steps.subarray(0, MOST_LINES) : null, answer, tell);
}

function add(steps, answer, tell) {
  const added = stepsOf(last.front, last.world, steps);
  tell({ kind: "stepped", ...structuredClone(added) });
  answer({ kind: "stepped", ...added });
}

// Has the other worker look for the lines of the scripts at which they stopped or were cut.
function find({ number, asked }) {
  const { files, world, front } = last;
  if (number === last.number) peer.postMessage({ number, task: "locate", files, world, front, asked });
}

function locate({ files, world, front, asked }, answer) {
  const copies = probedFiles(files, new Set(readWorld(world).scripts.map(it => it.file)));
  const ran = lsl.run("replay", SECOND_WORLD, [...copies.files, [SECOND_WORLD, world]]);
  const lines = ran.status === 0 ? linesOf(textOf(ran.output), front, copies, asked) : [];
  answer({ kind: "located", lines });
}

function save(_, answer) {
  answer({ kind: "saved", file: new Blob([last.output ?? ""], { type: "text/plain" }) });
}

const TASKS = { run, stage, wait, mark, addSteps, find, locate, save };

// Does a task, and answers with its number and what came of it.
function take({ data: { number, task, ...asked } }) {
  try {
    const to = target => (answer, moved = []) => target?.postMessage({ number, ...answer }, moved);
    TASKS[task]({ number, ...asked }, to(self), to(frame));
  } catch (error) {
    postMessage({ number, kind: "failed", error: `${error.message ?? error}` });
  }
}

// A message has a task, or else the module or ports, which come first.
addEventListener("message", message => {
  const { module, toFrame, toPeer, task } = message.data;
  if (task) take(message);
  if (module) lsl = new Lsl(module);
  frame = toFrame ?? frame;
  if (!toPeer) return;
  peer = toPeer;
  peer.onmessage = take;
});
