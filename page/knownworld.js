// What a journal alone says of its world at a line: as lines of a state (docs/DEBUGGING.md), in which what it doesn't
// say is left out.
import { lowest } from "./chart.js";
import { CUT, STOPPED } from "./handlers.js";
import { CLEAR } from "./journal.js";
import { quoted } from "./quoting.js";
import { UNKNOWN } from "./worldview.js";

// The states to which scripts went before a line.
function statesAt({ journal, states }, line) {
  const found = new Map();
  for (let at = 0; at < line; at++) {
    if (journal.kinds[at] === CLEAR) found.set(journal.numbers[at], states[at] ?? UNKNOWN);
  }
  return found;
}

// The handler of a script that is under way at a line, or that stopped it before.
function handlerAt({ handlers, lanes }, script, line) {
  const lane = lanes[script - 1] ?? [];
  const at = lane[lowest(lane.length, line + 1, it => handlers.begins[lane[it]]) - 1];
  if (at === undefined) return {};
  const isOver = handlers.endings[at] !== CUT && handlers.ends[at] < line;
  return { at, isOver, isStopped: isOver && handlers.endings[at] === STOPPED };
}

function scriptLines(scene, script, line, states) {
  const { handlers, journal } = scene;
  const { at, isOver, isStopped } = handlerAt(scene, script, line);
  const isUnder = at !== undefined && !isOver;
  const event = isUnder ? journal.rest(handlers.begins[at]) : "";
  const rest = isStopped ? "dead" : isUnder ? event.split(" ")[0] : "idle";
  const name = quoted(scene.scripts[script - 1]?.name ?? "");
  const found = [`script ${script} ${name} ${states.get(script) ?? "default"} ${rest}`];
  if (isStopped) found.push(`fault ${journal.rest(handlers.ends[at])}`);
  if (isUnder) found.push(`took ${event}`);
  return found;
}

// The region of each object after so many steps.
function regionsAt(scene, steps) {
  const regions = scene.objects.map(it => quoted(it.region));
  const isKnown = scene.places.length > 0;
  for (const { step, object, region } of scene.crossed) {
    if (!isKnown) regions[object - 1] = UNKNOWN;
    else if (step < steps) regions[object - 1] = quoted(region);
  }
  return regions;
}

// The lines of the world at a line of the journal.
export function knownAt(scene, line) {
  const steps = scene.stepsBy(line);
  const regions = regionsAt(scene, steps);
  const states = statesAt(scene, line);
  const found = scene.places.length ? [`clock ${scene.clocks[steps - 1] ?? 0}`] : [];
  scene.objects.forEach(({ prims }, at) => {
    found.push(`object ${at + 1} ${quoted(prims[0].name)} ${regions[at]}`);
    scene.scripts.forEach(({ prim }, script) => {
      if (prim.object === at + 1) found.push(...scriptLines(scene, script + 1, line, states));
    });
  });
  return found;
}
