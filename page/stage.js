// A world that is made of steps, which are written line by line as for `lsl play`. Their forms and the ranges of their
// numbers are data (tools/words/steps.json).
import { quoted } from "./quoting.js";

const UNITS = { ms: 1, s: 1000, "": 1000, m: 60000, h: 3600000 };
const MOST_CLOCK = 2147483647999;
const MOST_WAITS = 1000;
const WIDTH = 24;

const padded = number => number.toString(16).padStart(12, "0");
export const person = number => `00000000-0000-4000-8000-${padded(number)}`;
export const prim = number => `00000000-0000-4000-9000-${padded(number)}`;

// A line that is no step.
export class BadStep extends Error {}

// The forms of the lines, two in each line of the help.
export function stepsHelp({ lines }) {
  const forms = Object.values(lines).map(({ form, does }) => `${form.padEnd(WIDTH)}${does}`);
  return forms.join("\n");
}

// The clock goes from one moment at which a timer is due or a script wakes to the next, up to `end`. `due` gives the
// moments that are known by then, and `goTo` sets the clock.
export function waitFrom(clock, end, due, goTo) {
  let now = clock;
  for (let count = 0; count < MOST_WAITS; count++) {
    const next = due().filter(it => now < it && it < end);
    if (!next.length) break;
    now = Math.min(...next);
    goTo(now);
  }
  goTo(end);
}

function milliseconds(text) {
  const found = /^([0-9]+(?:\.[0-9]+)?)(ms|s|m|h|)$/.exec(text);
  if (!found) throw new BadStep(`'${text}' is no time: write 10s, 2m, 1h or 500ms`);
  return Math.floor(Number(found[1]) * UNITS[found[2]] + 0.5);
}

class Stage {
  constructor(file, words, due) {
    Object.assign(this, { file, words, due, steps: [], ticks: 10000, clock: 0, prims: 1, people: new Map(), by: null });
    this.owner = this.keyOf("Owner");
    this.run();
  }

  // The key that is made up for a person.
  keyOf(name) {
    if (!this.people.has(name)) this.people.set(name, person(this.people.size + 1));
    return this.people.get(name);
  }

  number(text, name) {
    const [least, greatest] = this.words["line ranges"][name];
    const value = Number(text);
    if (/^-?[0-9]{1,10}$/.test(text) && value >= least && value <= greatest) return value;
    throw new BadStep(`'${text}' is no number for ${name}: ${least} to ${greatest}`);
  }

  run() {
    this.steps.push(`run ${this.ticks}`);
  }

  // One line. A step is followed by a run.
  read(line) {
    const [, word, rest] = /^(\S*)\s*(.*?)$/s.exec(line.trim());
    if (word === "" || word.startsWith("#")) return;
    if (word === "by") this.by = rest || null;
    else if (word === "run") this.ticks = this.number(rest, "run");
    else if (word === "wait" || word === "after") this.wait(this.clock + milliseconds(rest || "1s"));
    else {
      this.steps.push(this.step(word, rest));
      this.run();
    }
  }

  step(word, rest) {
    if (word === "touch") return this.touch(rest);
    if (word === "say") return this.say(rest);
    if (word === "changed" || word === "rez") return `${word} 1 ${this.number(rest, word)}`;
    throw new BadStep(`'${word}' is no step`);
  }

  wait(end) {
    waitFrom(this.clock, end, () => this.due(this.text()), clock => this.goTo(clock));
  }

  goTo(clock) {
    this.clock = Math.min(clock, MOST_CLOCK);
    this.steps.push(`clock ${this.clock}`);
    this.run();
  }

  touch(rest) {
    const [, said, digits] = /^(.*?)\s*([0-9]*)$/s.exec(rest);
    const link = digits ? this.number(digits, "link") : 1;
    const name = said || this.by || "Someone";
    this.by = name;
    this.prims = Math.max(this.prims, link);
    return `touch 1 ${link} ${this.keyOf(name)} ${quoted(name)}`;
  }

  say(rest) {
    const [, digits, text] = /^(?:(-?[0-9]+)\s+(?=\S))?(.*)$/s.exec(rest);
    const channel = digits ? this.number(digits, "channel") : 0;
    const name = this.by || "Someone";
    return `say ${channel} ${quoted(name)} ${this.keyOf(name)} ${quoted(text)}`;
  }

  text() {
    const name = this.file.replace(/^.*\//s, "").replace(/(?!^)\.[^.]*$/s, "");
    const object = `object ${prim(1)} ${quoted(name)} ${this.owner} "Here"`;
    const lines = [object, `script ${quoted(name)} ${quoted(this.file)}`];
    for (let link = 2; link <= this.prims; link++) lines.push(`prim ${prim(link)} "Link ${link}"`);
    return [...lines, "", "begin", ...this.steps, "end", ""].join("\n");
  }
}

// The world file in which one script goes through these steps. `words` is the table of steps; `due` gives the moments,
// in milliseconds, at which something is due after the steps of a world file.
export function stagedWorld(file, lines, words, due = () => []) {
  const stage = new Stage(file, words, due);
  for (const [at, line] of lines.split("\n").entries()) {
    try {
      stage.read(line);
    } catch (error) {
      if (error instanceof BadStep) error.message = `step ${at + 1}: ${error.message}`;
      throw error;
    }
  }
  return stage.text();
}
