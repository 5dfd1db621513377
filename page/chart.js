// What is seen of a scene, and where: lanes from top to bottom, lines of the journal from left to right.
import { CUT, NO_LINE } from "./handlers.js";
import { CHAT, CLEAR, DROP, FAULT, OWNER } from "./journal.js";
import { STEP_WORDS } from "./scene.js";

export const LANE = 30;
export const TOP = 46;
const WIDEST = 150;
const MOST_SCALE = 120;
const NEAR = 5;
const MOST_STEPS = 8;
export const MARKS = new Map([
  [FAULT, ["fault", "\u2716"]], [DROP, ["cut", "\u25bc"]], [CLEAR, ["mark", "\u25c6"]],
  [CHAT, ["said", "\u25cf"]], [OWNER, ["said", "\u25cb"]],
]);

// The first of so many whose value isn't below.
export function lowest(count, value, read) {
  let [low, high] = [0, count];
  while (low < high) {
    const middle = (low + high) >> 1;
    if (read(middle) < value) low = middle + 1;
    else high = middle;
  }
  return low;
}

export class Chart {
  constructor(scene, canvas) {
    Object.assign(this, { scene, canvas, from: 0, scale: 0, down: 0, picked: -1, total: scene.journal.count });
    this.lanes = scene.lanes;
    this.crossings = scene.crossings;
    this.group();
    this.measure();
  }

  // Steps that begin at one line are one group: the first of its steps, and 2 for a pause, 1 for a crossing.
  group() {
    const { places, stepWords } = this.scene;
    const firsts = [];
    this.groupMarks = [];
    places.forEach((place, step) => {
      if (step === 0 || places[step - 1] !== place) {
        firsts.push(step);
        this.groupMarks.push(0);
      }
      const mark = { pause: 2, cross: 1 }[STEP_WORDS[stepWords[step]]] ?? 0;
      this.groupMarks[firsts.length - 1] = Math.max(this.groupMarks.at(-1), mark);
    });
    this.groups = firsts;
  }

  // What is seen stays where another scene of the same journal takes the place of this one.
  follow({ from, scale, down, picked }) {
    Object.assign(this, { from, scale, down, picked });
  }

  // Reads the canvas's size. Each later reading would lay out the page anew.
  measure() {
    const { clientWidth: width, clientHeight: height } = this.canvas;
    if (this.isWhole && width !== this.width) this.scale = 0;
    Object.assign(this, { width, height, left: Math.min(WIDEST, width * 0.3) });
  }

  laneY(script) { return TOP + (script - 1) * LANE - this.down; }
  xOf(line) { return this.left + (line - this.from) * this.scale; }
  lineAt(x) { return (x - this.left) / this.scale + this.from; }

  groupPlace(at) {
    return at < this.groups.length ? this.scene.places[this.groups[at]] : this.total;
  }

  groupAt(line) {
    return lowest(this.groups.length, line + 1, at => this.groupPlace(at)) - 1;
  }

  // The texts of a group's steps; those that only let scripts run come last.
  groupTexts(at) {
    const end = this.groups[at + 1] ?? this.scene.places.length;
    const steps = Array.from({ length: Math.min(end - this.groups[at], MOST_STEPS) }, (_, it) => this.groups[at] + it);
    const isRun = step => this.scene.stepWords[step] < 2;
    const texts = [...steps.filter(it => !isRun(it)), ...steps.filter(isRun)].map(it => this.scene.step(it));
    return end - this.groups[at] > MOST_STEPS ? [...texts, "..."] : texts;
  }

  groupClock(at) {
    return this.scene.clock((this.groups[at + 1] ?? this.scene.places.length) - 1);
  }

  clockAt(line) {
    const { places } = this.scene;
    const step = lowest(places.length, line + 1, at => places[at]) - 1;
    return step < 0 ? "0.000 s" : this.scene.clock(step);
  }

  endOf(handler) {
    const end = this.scene.handlers.ends[handler];
    return end === NO_LINE ? this.total : end + 1;
  }

  // Keeps what is seen within the journal.
  clamp() {
    const room = this.width - this.left;
    const least = (room / Math.max(this.total, 1)) * 0.98;
    this.isWhole = this.scale <= least;
    this.scale = Math.min(MOST_SCALE, Math.max(this.scale, least));
    this.from = Math.max(0, Math.min(this.from, this.total - (room / this.scale) * 0.9));
    this.down = Math.max(0, Math.min(this.down, this.lanes.length * LANE - (this.height - TOP) + 10));
  }

  zoom(factor, x = (this.width + this.left) / 2) {
    const line = this.lineAt(x);
    this.scale *= factor;
    this.clamp();
    this.from = line - (x - this.left) / this.scale;
  }

  // What is under a point: its lines, its script and its words; nothing where there is nothing.
  under(x, y) {
    if (x < this.left) return null;
    const line = Math.floor(this.lineAt(x));
    if (y < TOP) return this.groupUnder(line);
    const script = Math.floor((y - TOP + this.down) / LANE) + 1;
    if (!this.lanes[script - 1]) return null;
    return this.crossingUnder(x, script) ?? this.handlerUnder(line, script) ?? this.markUnder(line, script);
  }

  groupUnder(line) {
    const at = this.groupAt(line);
    if (at < 0) return null;
    const first = this.groupPlace(at);
    const last = Math.max(this.groupPlace(at + 1), first + 1);
    return { first, last, text: [this.groupClock(at), ...this.groupTexts(at)].join("\n") };
  }

  crossingUnder(x, script) {
    const object = this.scene.scripts[script - 1]?.prim.object;
    const found = this.crossings.find(it => it.object === object && Math.abs(this.xOf(it.place) - x) < NEAR);
    if (!found) return null;
    const text = `${this.scene.step(found.step)}\nclock ${this.clockAt(found.place)}`;
    return { first: found.place, last: found.place + 1, script, text };
  }

  handlerUnder(line, script) {
    const lane = this.lanes[script - 1];
    const { begins } = this.scene.handlers;
    const at = lowest(lane.length, line + 1, it => begins[lane[it]]) - 1;
    if (at < 0 || line >= Math.max(this.endOf(lane[at]), begins[lane[at]] + 1)) return null;
    return this.spotOf(lane[at], this.isMark(line, script) ? line : -1);
  }

  // A handler as what is under a point, with the line of it that is meant.
  spotOf(handler, line = -1) {
    const { scene } = this;
    const [first, script] = [scene.handlers.begins[handler], scene.handlers.scripts[handler]];
    const isCut = scene.handlers.endings[handler] === CUT;
    const end = isCut ? "is still in it at the end" : scene.entry(scene.handlers.ends[handler]);
    const said = line >= 0 && line !== first ? [`\u2192 ${scene.entry(line)}`] : [];
    const head = `${scene.names.script(script)}: ${scene.entry(first)}`;
    const where = `clock ${this.clockAt(first)}, line ${first + 1} of the journal`;
    return { first, last: this.endOf(handler), script, handler, text: [head, ...said, end, where].join("\n") };
  }

  isMark(line, script) {
    const { numbers, kinds } = this.scene.journal;
    return line >= 0 && line < this.total && numbers[line] === script && MARKS.has(kinds[line]);
  }

  markUnder(line, script) {
    if (!this.isMark(line, script)) return null;
    const text = `${this.scene.names.script(script)}: ${this.scene.entry(line)}`;
    return { first: line, last: line + 1, script, text };
  }
}
