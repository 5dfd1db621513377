// A second run of a world, which shows from which step each line of its journal comes.
import { HOME, Journal, TOOK } from "./journal.js";
import { quoted } from "./quoting.js";
import { readWorld } from "./worlds.js";

const MARKER_FILE = "\u0000marker";
const MARKER = "default { touch_start(integer n) { } }\n";
const MOST_STEPS = 100000;
const MOST_BYTES = 1000000;
const MARK_BYTES = 90;

function freeKey(world) {
  const taken = new Set(world.objects.flatMap(it => it.prims.map(prim => prim.key)));
  for (let number = 0; ; number++) {
    const key = `ffffffff-0000-0000-0000-${number.toString(16).padStart(12, "0")}`;
    if (!taken.has(key)) return key;
  }
}

// A second world: one more object, after all others, whose script is touched before the steps, before each `stride` of
// them. Nothing where the file has no room for that.
export function markedWorld(text) {
  const world = readWorld(text);
  const room = Math.min(
    Math.floor((MOST_STEPS - world.steps.length) / 2),
    Math.floor((MOST_BYTES - new TextEncoder().encode(text).length) / MARK_BYTES),
  );
  if (!world.begin || world.objects.length >= 64 || world.scripts.length >= 256 || room < 1) return null;
  const stride = Math.max(1, Math.ceil(world.steps.length / room));
  const lines = text.split("\n");
  const key = freeKey(world);
  const touch = `touch ${world.objects.length + 1} 1 ${key} ""\ngo ${world.scripts.length + 1} 1`;
  world.steps.forEach((step, at) => {
    if (at % stride === 0) lines[step.line - 1] = `${touch}\n${lines[step.line - 1]}`;
  });
  const added = `object ${key} "" ${key} ""\nscript "" ${quoted(MARKER_FILE)}\n`;
  lines[world.begin - 1] = added + lines[world.begin - 1];
  return { text: lines.join("\n"), stride, file: [MARKER_FILE, MARKER] };
}

// The journal of the marked world without what was added, and for each line the step from which it comes.
export function withoutMarks(text, world, stride) {
  const journal = Journal.read(text);
  const steps = new Uint32Array(journal.count);
  const pieces = [];
  let [kept, step, start] = [0, 0, 0];
  for (let line = 0, marks = -1; line < journal.count; line++) {
    const [kind, number, end] = [journal.kinds[line], journal.numbers[line], journal.ends[line] + 1];
    const isAdded = number > (kind === HOME ? world.objects : world.scripts).length;
    if (isAdded) {
      if (kind === TOOK) step = ++marks * stride;
      if (line && start < journal.ends[line - 1] + 1) pieces.push(text.slice(start, journal.ends[line - 1] + 1));
      start = end;
    } else {
      steps[kept++] = kind === HOME ? world.steps.length : step;
    }
  }
  pieces.push(text.slice(start));
  return { text: pieces.join(""), steps: steps.slice(0, kept) };
}
