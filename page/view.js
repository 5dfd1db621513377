// A timeline: its canvas, the words under the pointer, the lines of what is picked, and a search.
import { Chart, lowest } from "./chart.js";
import { Drawing } from "./drawing.js";
import { HOME } from "./journal.js";
import { knownAt } from "./knownworld.js";
import { Pointing } from "./pointing.js";
import { Rows, rowOf } from "./rows.js";
import { Scene } from "./scene.js";
import { worldElements } from "./worldview.js";

const at = id => document.getElementById(id);
const SLICE = 4000;
const FOUND = 30;
const KNOWN = "World, as far as the journal says";
const counted = (count, noun) => `${count.toLocaleString("en")} ${noun}${count === 1 ? "" : "s"}`;

export class View {
  // `picked` is called with the first line of what is picked.
  constructor(picked = () => {}) {
    this.picked = picked;
    this.canvas = at("canvas");
    this.chart = null;
    this.lines = new Rows(at("lines"), row => this.row(row));
    this.pointing = new Pointing(this);
    this.first = this.last = 0;
    at("find").addEventListener("keydown", event => event.key === "Enter" && this.find());
    at("next").addEventListener("click", () => this.find());
    new ResizeObserver(() => this.again()).observe(this.canvas);
    matchMedia("(prefers-color-scheme: dark)").addEventListener("change", () => this.again());
  }

  show(parts, words) {
    this.use(new Scene(parts, words));
    const { scriptCount, handlers, journal, title } = this.scene;
    at("title").textContent = document.title = title;
    const counts = [counted(scriptCount, "script"), counted(handlers.count, "handler"), counted(journal.count, "line")];
    at("count").textContent = counts.join(", ");
    this.showWorld("", []);
    this.pick({ first: 0, last: Math.min(journal.count, FOUND), text: "" }, true, -1);
  }

  // Adds what is known later: where the steps are. What is seen stays.
  step(steps) {
    if (!this.chart) return;
    const before = this.chart;
    this.use(this.scene.with(steps));
    this.chart.follow(before);
    this.showPicked();
    this.again();
  }

  use(scene) {
    this.scene = scene;
    this.chart = new Chart(scene, this.canvas);
    this.drawing = new Drawing(this.chart);
  }

  // Marks a moment: how many lines there are by then, and whose it is; or none.
  follow(moment) {
    this.moment = moment;
    if (moment && this.chart) this.pointing.show({ first: moment.line, script: Math.max(moment.script, 1) });
    this.again();
  }

  again() {
    if (!this.chart || this.isWaiting) return;
    this.isWaiting = true;
    requestAnimationFrame(() => {
      this.isWaiting = false;
      this.chart.measure();
      if (!this.chart.width || !this.chart.height) return;
      this.chart.clamp();
      this.drawing.draw(this.moment);
    });
  }

  // Shows the words of what is under the pointer.
  tell(event, found) {
    const tip = at("tip");
    tip.hidden = !found;
    if (!found) return;
    tip.textContent = found.text;
    const [right, low] = [this.chart.width - tip.offsetWidth - 8, this.chart.height - tip.offsetHeight - 4];
    tip.style.left = `${Math.max(0, Math.min(event.offsetX + 14, right))}px`;
    tip.style.top = `${Math.max(0, Math.min(event.offsetY + 16, low))}px`;
  }

  say(text) {
    at("spot").textContent = text;
  }

  // Picks a handler, a step or a mark; with `isShown` its lines are shown too.
  pick(found, isShown, picked = found.first) {
    this.found = found;
    this.chart.picked = picked;
    if (picked >= 0) this.showKnown(picked);
    if (picked >= 0) this.picked(picked);
    this.say(found.text.replaceAll("\n", "; "));
    if (isShown) this.showPicked();
    this.again();
  }

  showPicked() {
    const { places } = this.scene;
    const before = line => lowest(places.length, line, step => places[step]);
    this.first = this.found.first + before(this.found.first);
    this.last = this.found.last + before(this.found.last);
    this.lines.show(Math.max(this.last - this.first, 0));
  }

  // Shows the world at a line of the journal.
  showKnown(line) {
    this.showWorld(KNOWN, knownAt(this.scene, line));
  }

  // Whether the world is shown elsewhere.
  leaveWorld(isElsewhere) {
    this.isWorldElsewhere = isElsewhere;
    at("world-side").hidden = isElsewhere || !at("world").childElementCount;
  }

  // Shows the lines of a state, with a heading; or nothing, where it is shown elsewhere.
  showWorld(name, lines) {
    at("world-name").textContent = name;
    at("world").replaceChildren(...worldElements(lines, 0));
    at("world-side").hidden = this.isWorldElsewhere || !lines.length;
  }

  row(number) {
    const { scene } = this;
    const { step, line } = scene.rowAt(this.first + number);
    if (step !== undefined) return rowOf("step", [scene.rowText(this.first + number)]);
    const kind = scene.journal.word(line);
    const sort = { fault: "fault", drop: "cut" }[kind] ?? "";
    const isHere = scene.journal.kinds[line] !== HOME && scene.journal.numbers[line] === this.found.script;
    const head = `${String(line + 1).padStart(6)} ${scene.who(line).padStart(12)} `;
    const margin = kind === "took" || kind === "drop" ? "" : "  ";
    return rowOf(`${sort} ${isHere ? "here" : ""}`, [head, "faint"], [margin + scene.entry(line)]);
  }

  // Looks for a text in the lines after the picked one, some at a time.
  find() {
    const wanted = at("find").value.toLowerCase();
    if (!wanted || !this.chart) return;
    this.searching = (this.searching ?? 0) + 1;
    this.say("...");
    this.look(wanted, 1, this.searching);
  }

  look(wanted, begin, searching) {
    const { total } = this.chart;
    if (searching !== this.searching) return;
    for (let step = begin; step < begin + SLICE; step++) {
      if (step > total) return this.say("it isn't in any line");
      const line = (Math.max(this.chart.picked, -1) + step) % total;
      if (this.scene.entry(line).toLowerCase().includes(wanted)) return this.reach(line);
    }
    setTimeout(() => this.look(wanted, begin + SLICE, searching));
  }

  reach(line) {
    const { chart, scene } = this;
    const script = scene.journal.kinds[line] === HOME ? 1 : scene.journal.numbers[line];
    chart.scale = Math.max(chart.scale, 8);
    this.pointing.show({ first: line, script });
    this.pointing.lane = script - 1;
    const text = `${scene.who(line)} ${scene.entry(line)}`;
    this.pick({ first: line, last: Math.min(line + FOUND, chart.total), script, text }, true);
  }
}
