// The output: what was said, by whom, and what stopped, in the order in which it happened.
import { DROP, FAULT } from "./journal.js";
import { Rows, rowOf } from "./rows.js";
import { placeOf } from "./status.js";

const SORTS = new Map([[FAULT, "fault"], [DROP, "cut"]]);

export class Output {
  // `go` is called with a file's name and a line of it.
  constructor(element, go) {
    Object.assign(this, { element, go, lines: [], ends: [] });
    this.rows = new Rows(element, row => this.row(row));
    element.addEventListener("click", event => {
      const { file, line } = event.target.closest("[data-line]")?.dataset ?? {};
      if (file) this.go(file, Number(line));
    });
    element.addEventListener("keydown", event => event.key === "Enter" && this.goFirst());
  }

  // Shows why nothing ran: the lines of each fault.
  refuse(faults) {
    const said = faults.flatMap(fault => fault.said.split("\n").map((text, at) => ({ fault, text, isQuote: at > 0 })));
    Object.assign(this, { lines: [], ends: [], scene: null, said });
    this.rows.show(said.length);
  }

  // Shows a scene. `answer` and `asked` are those of its run.
  show(scene, answer, asked, isSame) {
    Object.assign(this, { scene, answer, asked });
    this.lines = scene.spoken;
    this.ends = answer.outcome.cut;
    this.rows.show(Math.max(this.lines.length + this.ends.length, 1), !isSame);
  }

  // The line of the file at which the script of a fault stopped, or one that was cut is.
  sourceOf(place) {
    return this.answer.lines?.[place];
  }

  row(number) {
    if (!this.scene) return this.faultRow(this.said[number]);
    if (number < this.lines.length) return this.lineRow(this.lines[number]);
    const cut = this.ends[number - this.lines.length];
    if (!cut) return rowOf("faint", ["nothing was said"]);
    const source = this.sourceOf(this.answer.outcome.faults.length + number - this.lines.length);
    const text = `is still in ${cut.event} at ${placeOf(cut.script, this.asked.scripts, source)}`;
    return this.linked(rowOf("cut", [`${this.scene.names.script(cut.script)} `], [text]), cut.script, source);
  }

  faultRow({ fault, text, isQuote }) {
    const row = rowOf(isQuote ? "fault quote" : "fault", [text]);
    Object.assign(row.dataset, { file: fault.name, line: fault.line });
    return row;
  }

  lineRow(line) {
    const { scene } = this;
    const { kinds, numbers } = scene.journal;
    const who = scene.who(line);
    const row = [who ? [`${who} `, "who"] : ["", ""], [scene.entry(line), ""]];
    if (kinds[line] !== FAULT) return rowOf(SORTS.get(kinds[line]) ?? "", ...row);
    const source = this.sourceOf(this.answer.outcome.faults.findIndex(it => it.line === line));
    row.push([`, in ${placeOf(numbers[line], this.asked.scripts, source)}`, ""]);
    return this.linked(rowOf("fault", ...row), numbers[line], source);
  }

  linked(row, script, source) {
    if (source !== undefined) Object.assign(row.dataset, { file: this.asked.scripts[script - 1], line: source });
    return row;
  }

  goFirst() {
    const row = this.element.querySelector("[data-line]");
    if (row) this.go(row.dataset.file, Number(row.dataset.line));
  }
}
