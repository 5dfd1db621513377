// The panel that steps through a run: a slider over its moments, buttons and keys for moves, the source, the calls with
// their variables, and the world.
import { Debugging, WHOLE } from "./debugging.js";
import { made } from "./elements.js";
import { Rows, rowOf } from "./rows.js";
import { SourceView } from "./sourceview.js";
import { baseOf } from "./state.js";
import { MOVES, counted, isBackwards, nowhere, toldOf } from "./stepwords.js";
import { SAID } from "./trace.js";
import { worldElements } from "./worldview.js";

const at = id => document.getElementById(id);
const MOST_CALLS = 200;

export class StepPanel {
  // `module` is the promise of the module. The timeline follows each moment that is shown, and shows its world.
  constructor(module, grammar, timeline) {
    Object.assign(this, { timeline, asked: null, start: null, firstStart: null });
    this.debugging = new Debugging(module, this.seen);
    this.source = new SourceView(at("source"), grammar, (line, isBack) => this.toLine(line, isBack));
    this.journal = new Rows(at("so-far"), row => this.journalRow(row));
    at("moment").addEventListener("input", () => this.debugging.go(Number(at("moment").value)));
    at("stepping").addEventListener("keydown", event => this.key(event));
    at("moves").addEventListener("click", ({ target }) => target.dataset.move && this.move(target.dataset.move));
    at("step-window").addEventListener("submit", event => this.narrow(event));
    at("calls").addEventListener("click", ({ target }) => this.chooseCall(target.closest("button")));
  }

  // What shows the answers of the worker.
  get seen() {
    return {
      begin: () => this.say("the statements are being traced ..."),
      traced: (traced, wanted) => this.traced(traced, wanted),
      untraced: status => this.note(`The statements can't be traced (status ${status}): these are the handlers.`),
      look: view => this.look(view),
      state: (state, view) => this.state(state, view),
      nowhere: ([move]) => this.say(`${this.placed}; ${nowhere(move)}`),
      fail: error => this.say(error),
    };
  }

  // A run that may be stepped through, or none. It is traced when the panel is seen.
  offer(asked, scene) {
    this.debugging.close();
    Object.assign(this, { asked, scene, start: this.firstStart, firstStart: null, isReached: false });
    this.note("");
    this.clear();
    if (this.isSeen) this.begin();
  }

  // More is known of the scene.
  with(scene) {
    this.scene = this.debugging.scene = scene;
  }

  see(isSeen) {
    this.isSeen = isSeen;
    if (isSeen) this.begin();
    if (isSeen) for (const rows of [this.source.rows, this.journal]) rows.follow(true);
  }

  begin() {
    if (this.debugging.isOpen || !this.asked) return;
    this.debugging.open(this.asked, this.scene, WHOLE, this.start ?? (() => 0));
  }

  // Goes to what follows a line of the journal, where there is something that can be stepped through.
  reach(line) {
    this.start = this.debugging.start = () => this.debugging.stopAfter(line);
    this.isReached = true;
    if (this.debugging.traced) this.debugging.go(this.debugging.stopAfter(line));
    else this.begin();
  }

  clear() {
    for (const id of ["calls", "globals", "world-now"]) at(id).replaceChildren();
    this.source.show(null, "", []);
    this.journal.show(0);
    Object.assign(at("moment"), { max: 0, value: 0, disabled: true });
    for (const it of at("moves").querySelectorAll("button")) it.disabled = true;
    at("crossing").hidden = true;
    for (const name of ["stop", "state"]) delete at("stepping").dataset[name];
    this.say(this.asked ? "" : "Nothing ran that can be stepped through.");
    this.timeline.follow(null);
  }

  traced({ count, isCut, last, files, lines }, wanted) {
    const isPart = isCut || wanted.first > WHOLE.first || wanted.last < WHOLE.last || wanted.isHandlers;
    const told = files.filter(toldOf).map(it => `${baseOf(it.name)}: ${toldOf(it)}`);
    const front = counted(count, "moment");
    const cut = isCut ? [`The trace is too long: its first ${front} are here, up to step ${last}`] : [];
    if (isPart || told.length) this.note([...cut, ...told].join("; "));
    at("step-window").hidden = !isPart;
    Object.assign(at("moment"), { max: Math.max(lines.length - 1, 0), disabled: lines.length === 0 });
    for (const it of at("moves").querySelectorAll("button")) {
      it.disabled = lines.length === 0 || (wanted.isHandlers && !it.dataset.move.endsWith("handler"));
    }
    at("moves-crossing").hidden = !this.scene.crossed.length;
    if (!lines.length) this.say("No statement ran.");
  }

  // The steps that are to be traced, or that only handlers are.
  narrow(event) {
    event.preventDefault();
    const { first, last, handlers } = event.target.elements;
    const wanted = { first: Number(first.value), last: Number(last.value), isHandlers: handlers.checked };
    this.note("");
    this.debugging.open(this.asked, this.scene, wanted);
  }

  // Moves

  move(name) {
    const isBack = isBackwards(name);
    if (name.endsWith("line")) return this.source.run(isBack);
    if (name.endsWith("crossing")) return this.debugging.cross(isBack);
    if (this.debugging.wanted.isHandlers) return this.debugging.beside(isBack);
    return this.debugging.seek([name]);
  }

  toLine(line, isBack) {
    this.debugging.seek([isBack ? "reverse-until" : "until", "line", this.source.file, `${line}`]);
  }

  key(event) {
    const isText = event.target.matches("input:not([type=range])");
    const moves = MOVES[event.key.toLowerCase()];
    if (!moves || isText || event.ctrlKey || event.metaKey || event.altKey || !this.debugging.count) return;
    event.preventDefault();
    this.move(moves[Number(event.shiftKey)]);
  }

  // What is shown

  note(text) {
    at("step-note").textContent = text;
    at("step-note").hidden = text === "";
    if (text === "") at("step-window").hidden = true;
  }

  say(text) {
    at("place").textContent = text;
  }

  look(view) {
    const [call] = view.calls;
    this.placed = this.placeOf(view);
    this.say(this.placed);
    at("moment").value = view.stop;
    at("moment").setAttribute("aria-valuetext", this.placed);
    this.showCrossing(view);
    const isDeep = view.calls.length > MOST_CALLS;
    const seen = view.calls.slice(0, MOST_CALLS);
    at("calls").replaceChildren(...seen.flatMap((it, depth) => this.callElements(it, depth)));
    if (isDeep) at("calls").append(made("p", `and ${counted(view.calls.length - MOST_CALLS, "outer call")}`));
    if (!view.calls.length) at("calls").append(made("p", "no call is active"));
    at("globals").replaceChildren(...view.globals.map(it => this.variable(it)));
    at("globals-name").hidden = !view.globals.length;
    if (call) this.showSource(call.file, view.calls);
    this.showJournal(view);
    this.timeline.follow(view);
    at("stepping").dataset.stop = view.stop;
  }

  // Where a moment is, in words.
  placeOf({ stop, step, segment, calls: [call], scriptName = "", sort, lines }) {
    const count = `${(stop + 1).toLocaleString("en")} of ${this.debugging.count.toLocaleString("en")}`;
    const where = call ? `${call.name} at ${baseOf(call.file)}:${call.line}` : scriptName;
    const said = sort === SAID ? this.scene.entry(lines - 1) : "";
    const place = step ? `step ${step}, segment ${segment}` : "";
    return [count, where, said, place].filter(it => it).join("; ");
  }

  showSource(file, calls) {
    const text = new Map(this.asked.files).get(file) ?? "";
    at("source-name").textContent = baseOf(file);
    this.source.show(file, text, calls);
  }

  chooseCall(button) {
    if (!button) return;
    const call = this.debugging.view.calls[Number(button.dataset.call)];
    this.showSource(call.file, this.debugging.view.calls);
    this.source.choose(call.line);
  }

  callElements({ name, line, slots }, depth) {
    const button = made("button", `${name}, line ${line}`);
    button.dataset.call = depth;
    const table = made("table");
    table.append(...slots.map(it => this.variable(it)));
    return [button, table];
  }

  variable({ name, value, isChanged }) {
    const row = made("tr", "", isChanged ? "changed" : "");
    row.append(Object.assign(made("th", name), { scope: "row" }), made("td", value));
    if (isChanged) row.lastChild.append(made("span", " changed", "mark"));
    return row;
  }

  // Says what crosses between this moment and its neighbours.
  showCrossing(view) {
    const { past, next } = this.debugging.crossings;
    const words = ({ step }) => this.scene.step(step);
    const calls = view.calls.length ? `, with ${counted(view.calls.length, "call")} active` : "";
    const before = past.map(it => `Before this: ${words(it)}${calls}`);
    const said = [...before, ...next.map(it => `Next: ${words(it)}${calls}`)];
    at("crossing").textContent = said.join(". ");
    at("crossing").hidden = !said.length;
  }

  showJournal({ lines, step }) {
    const count = this.scene.rowsBy(lines, step);
    this.journal.show(count, false);
    this.journal.bring(Math.max(count - 1, 0));
  }

  journalRow(row) {
    return rowOf(this.scene.rowAt(row).step === undefined ? "" : "step", [this.scene.rowText(row), ""]);
  }

  // Shows the lines of a state, which is that after so many segments of a step.
  state({ lines, step, segment }, view) {
    at("world-now").replaceChildren(...worldElements(lines, view.script));
    if (lines.length && this.isReached) this.timeline.showWorld(lines, step, segment);
    at("stepping").dataset.state = view.stop;
  }
}
