// The source at a moment: the lines at which the calls are, and a line that is chosen to run to.
import { made } from "./elements.js";
import { Lines } from "./lines.js";
import { Rows } from "./rows.js";

export class SourceView {
  // `grammar` has the colours of scripts; `runTo` is called with a line and whether to go back.
  constructor(element, grammar, runTo) {
    Object.assign(this, { element, grammar, runTo, lines: new Lines(), file: null, calls: [], chosen: 0 });
    this.rows = new Rows(element, row => this.row(row + 1));
    element.addEventListener("click", event => this.click(event));
    element.addEventListener("keydown", event => this.key(event));
  }

  // Shows a file's text and the calls that are in it, the innermost first.
  show(file, text, calls) {
    const isOther = file !== this.file || text !== this.lines.text;
    Object.assign(this, { file, calls: calls.filter(it => it.file === file) });
    if (isOther) {
      this.lines.set(text, this.grammar);
      this.chosen = 0;
      this.rows.show(this.lines.lines.length);
    }
    const [now] = this.calls;
    if (!this.chosen) this.chosen = now?.line ?? 1;
    this.paint();
    if (now) this.rows.bring(now.line - 1);
  }

  paint() {
    this.rows.follow(true);
    const id = `source-${this.chosen}`;
    if (document.getElementById(id)) this.element.setAttribute("aria-activedescendant", id);
    else this.element.removeAttribute("aria-activedescendant");
  }

  // The line's number among those of the calls: 0 for the one that runs.
  depthOf(line) {
    return this.calls.findIndex(it => line === it.line);
  }

  row(line) {
    const depth = this.depthOf(line);
    const sort = depth === 0 ? "now" : depth > 0 ? "outer" : "";
    const row = made("div", "", `row ${sort} ${line === this.chosen ? "chosen" : ""}`);
    const said = depth === 0 ? "\u25b6" : depth > 0 ? "\u25b7" : "";
    row.append(made("span", `${said} ${line}`.padStart(7), "gutter"), made("span", "  "));
    for (const piece of this.lines.pieces(line - 1)) row.append(made("span", ...piece));
    Object.assign(row, { role: "option", id: `source-${line}`, ariaSelected: `${line === this.chosen}` });
    const text = this.lines.lines[line - 1].trim();
    if (depth >= 0) row.ariaLabel = `${depth ? "called from" : "here"}, line ${line}: ${text}`;
    return row;
  }

  choose(line) {
    this.chosen = Math.min(Math.max(line, 1), this.lines.lines.length);
    this.rows.bring(this.chosen - 1);
    this.paint();
  }

  // A click chooses a line; one in the margin runs to it.
  click(event) {
    const row = event.target.closest(".row");
    if (!row) return;
    this.choose(Number(row.id.replace("source-", "")));
    if (event.target.closest(".gutter")) this.run(event.shiftKey);
  }

  run(isBack) {
    if (this.file !== null) this.runTo(this.chosen, isBack);
  }

  key(event) {
    const page = Math.max(Math.floor(this.element.clientHeight / 18) - 1, 1);
    const to = {
      ArrowDown: this.chosen + 1, ArrowUp: this.chosen - 1, PageDown: this.chosen + page, PageUp: this.chosen - page,
      Home: 1, End: Infinity,
    }[event.key];
    if (event.ctrlKey || event.metaKey || event.altKey) return;
    if (to !== undefined) this.choose(to);
    else if (event.key === "Enter") this.run(event.shiftKey);
    else return;
    event.preventDefault();
  }
}
