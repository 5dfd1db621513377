// What is shown of a journal: its lines, its handlers, where the steps of its world are, and arrows. A worker makes it;
// what a message holds of it are texts and arrays of numbers, so that handing it over takes no time.
import { Arrows } from "./arrows.js";
import { Handlers } from "./handlers.js";
import { CHAT, DROP, FAULT, HOME, Journal, OWNER } from "./journal.js";
import { quoted } from "./quoting.js";
import { Names, clocksOf, seconds } from "./telling.js";
import { readStep, readWorld } from "./worlds.js";

export const STEP_WORDS = ["run", "go", "clock", "say", "touch", "changed", "rez", "pause", "cross"];
const HEADED = ["took", "drop", "clear"];
const LEAST_WIDTH = 8;
const TITLED = 4;

// For each step the first line that isn't before it. `steps` has for each line the step from which it comes.
function placesOf(count, steps) {
  let place = 0;
  return Uint32Array.from({ length: count }, (_, number) => {
    while (place < steps.length && steps[place] < number) place++;
    return place;
  });
}

function titleOf(world) {
  const names = world.objects.map(it => it.name).filter(it => it !== "");
  return names.slice(0, TITLED).join(", ") || "Journal";
}

// The lines of what was said, of what stopped, and of what was lost; and of objects that didn't get to their regions.
function spokenOf(journal, { homes }) {
  const { kinds, numbers, count } = journal;
  const isMissed = line => {
    const wanted = homes.get(numbers[line]);
    return wanted !== undefined && journal.rest(line) !== quoted(wanted);
  };
  const found = [];
  for (let line = 0; line < count; line++) {
    const kind = kinds[line];
    const isSpoken = kind === CHAT || kind === OWNER || kind === FAULT || kind === DROP;
    if (isSpoken || (kind === HOME && isMissed(line))) found.push(line);
  }
  return Uint32Array.from(found);
}

// The numbers of the handlers of each script, in the order in which they began.
function lanesOf(handlers, scriptCount) {
  const counts = new Uint32Array(scriptCount);
  for (const script of handlers.scripts) counts[script - 1]++;
  const lanes = Array.from(counts, count => new Uint32Array(count));
  counts.fill(0);
  handlers.scripts.forEach((script, at) => (lanes[script - 1][counts[script - 1]++] = at));
  return lanes;
}

function scriptCountOf({ kinds, numbers, count }, world) {
  let most = world.scripts.length;
  for (let line = 0; line < count; line++) if (kinds[line] !== HOME && numbers[line] > most) most = numbers[line];
  return most;
}

// Where the steps of a scene are, and its arrows. `steps` is nothing where it isn't known from which the lines come.
export function stepsOf(text, worldText, steps) {
  const [journal, world] = [Journal.read(text), readWorld(worldText)];
  const places = steps?.length ? placesOf(world.steps.length, steps) : new Uint32Array(0);
  return { places, arrows: new Arrows(journal, world).all(places) };
}

// What takes the place of them until they are known.
export const NO_STEPS = { places: new Uint32Array(0), arrows: new Int32Array(0) };

// The parts of a scene. `steps` has where the steps are, and the arrows; `states` has the state of each `clear` whose
// state is known.
export function sceneOf(text, worldText, steps, states = {}) {
  const [journal, world] = [Journal.read(text), readWorld(worldText)];
  const known = (({ keys, ways, homes }) => ({ keys, ways, homes }))(new Names(world, null));
  const [handlers, scriptCount] = [Handlers.of(journal), scriptCountOf(journal, world)];
  return {
    journal: journal.parts, worldText, objects: world.objects, scripts: world.scripts, known, scriptCount,
    stepLines: Uint32Array.from(world.steps, it => it.line),
    stepStarts: Uint32Array.from(world.steps, it => it.start),
    stepWords: Uint8Array.from(world.steps, it => STEP_WORDS.indexOf(it.word)),
    clocks: Float64Array.from(clocksOf(world)),
    handlers: handlers.parts, lanes: lanesOf(handlers, scriptCount), spoken: spokenOf(journal, known), states,
    title: titleOf(world), ...steps,
  };
}

export class Scene {
  constructor(parts, words) {
    Object.assign(this, parts);
    this.journal = new Journal(parts.journal);
    this.handlers = new Handlers(parts.handlers);
    this.names = new Names({ objects: parts.objects, scripts: parts.scripts, steps: [] }, words, parts.known);
    const names = Array.from({ length: this.scriptCount }, (_, at) => this.names.script(at + 1));
    this.width = names.reduce((most, it) => Math.max(most, it.length), LEAST_WIDTH);
  }

  // The same scene with where its steps are.
  with({ places, arrows }) {
    return Object.assign(Object.create(Object.getPrototypeOf(this)), this, { places, arrows });
  }

  // The words of a line.
  entry(line) {
    return this.names.entry(this.journal, line, this.states[line]);
  }

  // Who a line is of.
  who(line) {
    return this.journal.kinds[line] === HOME ? "" : this.names.script(this.journal.numbers[line]);
  }

  step(number) {
    const step = readStep(this.worldText, this.stepStarts[number], this.stepLines[number]);
    return this.names.step(step);
  }

  clock(step) {
    return `${seconds(this.clocks[step] ?? 0)} s`;
  }

  owner(script) {
    const prim = this.scripts[script - 1]?.prim;
    return prim ? this.names.object(prim.object) + (prim.link > 1 ? `, ${prim.name}` : "") : "";
  }

  // The steps that are crossings, with their objects and where these go. One that stays in its region crosses nowhere.
  get crossed() {
    if (this.known.crossed) return this.known.crossed;
    const found = [];
    this.stepWords.forEach((word, step) => {
      if (STEP_WORDS[word] !== "cross") return;
      const { line, fields } = readStep(this.worldText, this.stepStarts[step], this.stepLines[step]);
      if (this.names.ways.get(line) !== fields[1]) found.push({ step, object: Number(fields[0]), region: fields[1] });
    });
    return (this.known.crossed = found);
  }

  // The same with the lines at which they are, where these are known.
  get crossings() {
    const { places } = this;
    return this.crossed.filter(({ step }) => step < places.length).map(it => ({ place: places[it.step], ...it }));
  }

  // How many steps begin at a line of the journal or before.
  stepsBy(line) {
    let [low, high] = [0, this.places.length];
    while (low < high) {
      const middle = (low + high) >> 1;
      if (this.places[middle] <= line) low = middle + 1;
      else high = middle;
    }
    return low;
  }

  // How many rows there are of so many lines and so many steps.
  rowsBy(lines, steps) {
    return lines + Math.max(this.stepsBy(lines - 1), Math.min(steps, this.places.length));
  }

  // The rows of the lines in plain words, with the steps between them.
  get rowCount() {
    return this.journal.count + this.places.length;
  }

  // What a row is: a step or a line.
  rowAt(row) {
    let [low, high] = [0, this.places.length];
    while (low < high) {
      const middle = (low + high) >> 1;
      if (this.places[middle] + middle <= row) low = middle + 1;
      else high = middle;
    }
    const isStep = low > 0 && this.places[low - 1] + low - 1 === row;
    return isStep ? { step: low - 1 } : { line: row - low };
  }

  rowText(row) {
    const { step, line } = this.rowAt(row);
    if (step !== undefined) return `[${seconds(this.clocks[step])}] ${this.step(step)}`;
    if (this.journal.kinds[line] === HOME) return this.entry(line);
    const indent = HEADED.includes(this.journal.word(line)) ? "  " : "    ";
    return `${this.who(line).padStart(this.width)} ${indent}${this.entry(line)}`;
  }
}
