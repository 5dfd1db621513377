// The tabs of the files, their names, how they are run, and the bar that takes back what was replaced.
import { TabList } from "./tablist.js";
import { WAYS, baseOf } from "./state.js";

const at = id => document.getElementById(id);
const MOST_TABS = 100;
const radioOf = way => document.querySelector(`input[name=how][value=${way}]`);

export class FilePanel {
  constructor(play, editor) {
    Object.assign(this, { play, editor });
    this.tabs = new TabList(at("tabs"), tab => this.choose(tab));
    play.listen(what => this.draw(what));
    at("add").addEventListener("click", () => {
      play.add();
      editor.area.focus();
    });
    at("name").addEventListener("change", () => play.rename(at("name").value));
    at("remove").addEventListener("click", () => {
      play.remove();
      at("tabs").querySelector("[aria-selected=true]").focus();
    });
    at("file").addEventListener("change", () => play.choose(play.names.indexOf(at("file").value)));
    for (const way of WAYS) radioOf(way).addEventListener("change", () => play.setWay(way));
    at("steps").addEventListener("input", () => play.setSteps(at("steps").value));
    at("undo-forget").addEventListener("click", () => {
      play.forget();
      editor.area.focus();
    });
    at("undo-button").addEventListener("click", () => {
      play.undo();
      editor.area.focus();
    });
  }

  // The files that have tabs: those around the chosen one, where there are many.
  get tabbed() {
    const first = Math.max(0, Math.min(this.play.chosen - MOST_TABS / 2, this.play.files.length - MOST_TABS));
    return { first, files: this.play.files.slice(first, first + MOST_TABS) };
  }

  choose(tab) {
    this.play.choose(this.tabbed.first + tab);
  }

  draw(what) {
    if (what === "text") return;
    if (what === "before") {
      this.drawBefore();
      return;
    }
    if (what !== "how") {
      this.drawTabs();
      this.editor.show();
    }
    this.drawWay();
  }

  drawTabs() {
    const { first, files } = this.tabbed;
    const tabs = files.map(({ name }, tab) => {
      return { name: baseOf(name) || "(no name)", title: name, panel: "panel", id: `tab-${tab}` };
    });
    this.tabs.show(tabs, this.play.chosen - first);
    at("panel").setAttribute("aria-labelledby", `tab-${this.play.chosen - first}`);
    at("name").value = this.play.shown.name;
    at("remove").disabled = this.play.files.length === 1;
  }

  drawWay() {
    const { play } = this;
    radioOf(play.how).checked = true;
    at("file").replaceChildren(...play.runnable().map(it => new Option(it, it)));
    at("file").value = play.file;
    at("staging").hidden = play.how !== "play";
    if (at("steps").value !== play.steps) at("steps").value = play.steps;
  }

  drawBefore() {
    const { before } = this.play;
    at("undo").hidden = before === null;
    at("undo-said").textContent = before?.said ?? "";
  }
}
