// The worker of the panel that steps through a run: it has the core make a trace, keeps it, and answers what is known
// at a moment, where a move leads, and how the world is at a place.
import { Core } from "./core.js";
import { Lsl } from "./lsl.js";
import { Moments } from "./moments.js";
import { readTrace } from "./trace.js";

const MOST_BYTES = 20000000;
const MOST_MOMENTS = 300000;
const MOST_LINES = 500000;
const WORLD = "\u0000world";
const NOWHERE = /^nowhere/;
const MOMENT = /^moment (\d+) /;
let lsl, core, moments;

const textOf = bytes => new TextDecoder().decode(bytes);

// The journal as a trace that tells nothing else.
function handlersOf(files, world) {
  const journal = textOf(lsl.run("replay", WORLD, [...files, [WORLD, world]]).output);
  return { status: 0, isCut: false, text: journal.replace(/^(?=.)/gm, "said 0 0 ") };
}

// The stop that is at a moment or next after it.
function stopAt(moment) {
  const { stops } = moments;
  let [low, high] = [0, stops.length];
  while (low < high) {
    const middle = (low + high) >> 1;
    if (stops[middle] < moment) low = middle + 1;
    else high = middle;
  }
  return low;
}

// Makes a trace of some steps, or of the handlers alone, and says where its stops are.
async function trace({ files, world, first, last, isHandlers }) {
  core.open(files, world);
  const made = isHandlers ? handlersOf(files, world) : core.trace(first, last, MOST_BYTES);
  if (made.status !== 0 && !made.isCut) return { kind: "untraced", status: made.status };
  const read = await readTrace(made.text, isHandlers ? MOST_LINES : MOST_MOMENTS);
  moments = new Moments(read);
  const { stops, lines, steps, scripts, count } = moments;
  const column = values => Uint32Array.from(stops, it => values[it]);
  return {
    kind: "traced", isCut: made.isCut || read.isCut, count, last: count ? steps[count - 1] : 0,
    files: read.files.filter(it => it), lines: column(lines), steps: column(steps), scripts: column(scripts),
  };
}

// What is known at a stop. Changes are marked from an earlier stop, or else from the one before.
function look({ stop, since }) {
  const { stops } = moments;
  const from = since !== null && since < stop ? since : stop - 1;
  return { kind: "looked", stop, ...moments.at(stops[stop], from < 0 ? -1 : stops[from]) };
}

// The stop to which a move leads from another one, or one that is so many after it. The core counts moments from 1.
function seek({ stop, move, after }) {
  const { text } = core.seek(moments.stops[stop] + 1, move);
  const found = NOWHERE.test(text) ? null : MOMENT.exec(text);
  return { kind: "sought", from: stop, to: found ? stopAt(Number(found[1]) - 1) + after : null, move };
}

function state({ step, segment }) {
  const { status, text } = core.state(step, segment);
  const start = status === 0 ? text.search(/^clock /m) : -1;
  return { kind: "state", step, segment, lines: start < 0 ? [] : text.slice(start).split("\n").slice(0, -1) };
}

const TASKS = { trace, look, seek, state };

// The module comes first, and then tasks.
addEventListener("message", async ({ data: { module, number, task, ...asked } }) => {
  if (module) {
    lsl = new Lsl(module);
    core = new Core(lsl);
    return;
  }
  try {
    const answer = await TASKS[task](asked);
    const columns = Object.values(answer).filter(it => ArrayBuffer.isView(it));
    postMessage({ number, ...answer }, columns.map(it => it.buffer));
  } catch (error) {
    postMessage({ number, kind: "failed", error: `${error.message ?? error}` });
  }
});
