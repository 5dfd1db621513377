// What came of a run, on the page: its status, the output, and the views of the journal.
import { Output } from "./output.js";
import { Rows, rowOf } from "./rows.js";
import { TabList } from "./tablist.js";

const at = id => document.getElementById(id);
const VIEWS = [["timeline", "Timeline"], ["told", "In words"], ["journal", "Journal"]];
const NARROW = "(max-width: 900px)";

export class Panels {
  constructor(words, go) {
    Object.assign(this, { wanted: 0 });
    this.output = new Output(at("output"), go);
    this.told = new Rows(at("told"), row => this.toldRow(row));
    this.journal = new Rows(at("journal"), line => rowOf("", [this.journalLine(line), ""]));
    this.tabs = new TabList(at("views"), view => this.want(view));
    at("step-through").addEventListener("click", () => this.showStepping(!this.isStepping));
    this.ready = new Promise(resolve => (this.isReady = resolve));
    // Hands the frame the port on which it hears the worker.
    this.wire = port => this.ready.then(() => this.frame.postMessage({ words, port }, location.origin, [port]));
    addEventListener("message", event => this.hear(event));
    at("timeline").src = "timeline.html";
    this.want(0);
  }

  // Adds the panel that steps through runs, where the module has its calls.
  addStepping(panel) {
    this.stepping = panel;
    at("step-through").hidden = false;
    if (this.scene) panel.offer(this.asked, this.scene);
  }

  // Shows or hides that panel, which is between the output and the journal's views.
  showStepping(isShown) {
    this.isStepping = isShown;
    at("stepping").hidden = !isShown;
    at("step-through").ariaExpanded = `${isShown}`;
    at("result").classList.toggle("steps", isShown);
    this.tellFrame({ isStepping: isShown });
    this.output.rows.follow(true);
    this.stepping.see(isShown);
  }

  // Shows the moment before the first crossing of the run that comes first.
  showCrossing() {
    this.stepping.firstStart = debugging => debugging.stopToCross;
    this.showStepping(true);
  }

  // Marks the moment that is seen in the timeline, or none.
  follow(view) {
    this.tellFrame({ moment: view && { line: view.lines, script: view.script } });
  }

  // Shows the lines of a state below the timeline: that after so many segments of a step.
  showWorld(lines, step, segment) {
    const place = segment ? `after segment ${segment} of step ${step}` : `before step ${step}`;
    this.tellFrame({ world: { name: `World, ${place}`, lines } });
  }

  tellFrame(message) {
    this.ready.then(() => this.frame.postMessage(message, location.origin));
  }

  get frame() {
    return at("timeline").contentWindow;
  }

  // What the frame says: that it is ready, and that it has drawn.
  hear({ source, origin, data }) {
    if (source !== this.frame || origin !== location.origin) return;
    if (data.isReady) this.isReady();
    if (data.picked !== undefined) this.stepping?.reach(data.picked);
    if (data.isDrawn) at("result").dataset.drawn = data.number;
  }

  want(view) {
    this.wanted = view;
    const tabs = VIEWS.map(([id, name]) => ({ name, panel: id, id: `view-${id}` }));
    this.tabs.show(tabs, view);
    VIEWS.forEach(([id], place) => (at(id).hidden = place !== view));
    at(VIEWS[view][0]).setAttribute("aria-labelledby", `view-${VIEWS[view][0]}`);
    for (const rows of [this.told, this.journal]) rows.follow(true);
  }

  begin() {
    at("result").setAttribute("aria-busy", "true");
    this.old(false);
  }

  // Brings the outcome into view where the page is as narrow as a phone.
  end() {
    at("result").setAttribute("aria-busy", "false");
    if (!matchMedia(NARROW).matches || !this.isAsked) return;
    at("result").scrollIntoView({ block: "start" });
  }

  status({ text, sort }, more) {
    at("status").textContent = text;
    at("status").className = sort;
    at("more").textContent = more;
  }

  old(isOld) {
    at("old").hidden = !isOld;
    at("result").classList.toggle("old", isOld);
  }

  // Shows a scene, or that there is none. `isSame` where it is the last one with more known of it.
  draw(scene, answer, asked, isSame, faults) {
    Object.assign(this, { scene, asked });
    if (isSame) this.stepping?.with(scene);
    else this.stepping?.offer(scene ? asked : null, scene);
    at("save").disabled = false;
    at("save").textContent = asked.word === "freeze" ? "Save the frozen world" : "Save the journal";
    if (scene) this.output.show(scene, answer, asked, isSame);
    else this.output.refuse(faults);
    this.told.show(scene?.rowCount ?? 0, !isSame);
    this.lines = scene ? null : answer.head.split("\n").slice(0, -1);
    this.journal.show(scene?.journal.count ?? this.lines.length, !isSame);
    at("timeline").classList.toggle("empty", !scene);
  }

  journalLine(line) {
    return this.scene ? this.scene.journal.line(line) : this.lines[line];
  }

  toldRow(row) {
    const { step, line } = this.scene.rowAt(row);
    const kind = step === undefined ? this.scene.journal.word(line) : "step";
    const sort = { step: "step", fault: "fault", drop: "cut", done: "faint" }[kind] ?? "";
    return rowOf(sort, [this.scene.rowText(row), ""]);
  }

  save(file, { word }) {
    const link = Object.assign(document.createElement("a"), { href: URL.createObjectURL(file) });
    link.download = word === "freeze" ? "world.frozen" : "journal.out";
    link.click();
    setTimeout(() => URL.revokeObjectURL(link.href), 60000);
  }
}
