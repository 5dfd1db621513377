// The page: what is played, where it is edited, and what came of it.
import { Builder } from "./builder.js";
import { Choices } from "./choices.js";
import { hasCore } from "./core.js";
import { Editor } from "./editor.js";
import { FilePanel } from "./filepanel.js";
import { Grammar, PLAIN, WorldGrammar } from "./highlight.js";
import { Hints } from "./hints.js";
import { Keeper } from "./keeping.js";
import { Lookup } from "./lookup.js";
import { NEEDS, hasMemory64 } from "./lsl.js";
import { Panels } from "./panels.js";
import { Problems } from "./problems.js";
import { Running } from "./running.js";
import { BadLink, packed, unpacked } from "./share.js";
import { BadStep, stagedWorld, stepsHelp } from "./stage.js";
import { Play, isWorld } from "./state.js";
import { StepPanel } from "./steppanel.js";

const at = id => document.getElementById(id);
const made = async name => (await fetch(name)).json();

class Page {
  constructor(examples, words) {
    Object.assign(this, { examples, words, play: new Play(), runs: 0 });
    const [script, world] = [new Grammar(words.grammar), new WorldGrammar(words.steps)];
    this.grammar = script;
    const grammarOf = name => (isWorld(name) ? world : /\.lsl$/.test(name) || !/\.\w+$/.test(name) ? script : PLAIN);
    const lookup = new Lookup(words.names, words.steps);
    this.editor = new Editor(this.play, grammarOf);
    this.panels = new Panels(words, (name, line, place) => this.go(name, line, place));
    this.problems = new Problems(this.play, this.editor, (name, line, place) => this.go(name, line, place));
    this.filePanel = new FilePanel(this.play, this.editor);
    this.builder = new Builder(this.play, this.editor, words.steps, async (...asked) => this.running?.wait(...asked));
    this.choices = new Choices(this.editor, this.play, lookup);
    this.hints = new Hints(this.editor, this.play, lookup);
    this.choices.said = it => this.hints.show(it);
    this.keeper = new Keeper(this.play, said => this.panels.status({ text: said, sort: "bad" }, ""));
  }

  // Goes to a line of a file, counted from 1.
  go(name, line, place = 0) {
    const found = this.play.names.indexOf(name);
    if (found < 0) return;
    if (found !== this.play.chosen) {
      this.play.chosen = found;
      this.play.tell("chosen");
    }
    this.editor.go(line - 1, place);
  }

  run(isAsked = true) {
    if (!this.running) return;
    this.panels.isAsked = isAsked;
    try {
      this.running.run();
    } catch (error) {
      if (!(error instanceof BadStep)) throw error;
      this.panels.status({ text: error.message, sort: "bad" }, "");
    }
  }

  // What shows a run.
  get seen() {
    const { panels } = this;
    return {
      wire: panels.wire,
      begin: number => {
        panels.begin();
        this.runs = number;
        at("stop").disabled = false;
        panels.status({ text: "running ...", sort: "" }, "");
      },
      end: () => {
        // The focus isn't lost with the button: Run is next to it.
        if (document.activeElement === at("stop")) at("run").focus();
        at("stop").disabled = true;
        panels.end();
        at("result").dataset.runs = this.runs;
      },
      status: (status, more) => panels.status(status, more),
      faults: faults => this.showFaults(faults),
      draw: (...drawn) => panels.draw(...drawn),
      save: (file, asked) => panels.save(file, asked),
    };
  }

  // The first fault's file is shown, and the caret goes to it, where the run was asked for.
  showFaults(faults) {
    this.problems.show(faults);
    if (faults.length && this.panels.isAsked) this.problems.visit(faults[0]);
  }

  listen() {
    this.play.listen(what => {
      if (what === "text") {
        this.panels.old(this.runs > 0);
        this.problems.forget(this.play.shown.name);
      }
      if (what === "files" || what === "chosen") this.problems.mark();
    });
    at("run").addEventListener("click", () => this.run());
    at("stop").addEventListener("click", () => this.running.stop());
    at("save").addEventListener("click", () => this.running.save());
    at("share").addEventListener("click", () => this.share());
    at("examples").addEventListener("change", () => this.chooseExample(Number(at("examples").value)));
    at("world").addEventListener("click", () => this.makeWorld());
    addEventListener("hashchange", () => this.openLink());
    addEventListener("keydown", event => event.key === "Enter" && (event.ctrlKey || event.metaKey) && this.run());
  }

  chooseExample(number) {
    const { title } = this.examples[number];
    const said = this.isEdited() ? `The files were replaced by the example ${title}.` : null;
    this.play.replace(this.examples[number], said);
    this.example = JSON.stringify(this.play.parts);
    this.run();
  }

  // Whether there is work in the files: they are no example as it came.
  isEdited() {
    return this.play.files.length > 0 && JSON.stringify(this.play.parts) !== this.example;
  }

  async makeWorld() {
    const { play, words, running } = this;
    try {
      const world = running ? await running.stage() : stagedWorld(play.file, play.steps, words.steps);
      play.setWay("replay", play.put("steps.world", world));
    } catch (error) {
      if (!(error instanceof BadStep)) throw error;
      this.panels.status({ text: error.message, sort: "bad" }, "");
    }
  }

  async share() {
    try {
      const link = await packed(this.play.parts);
      history.replaceState(null, "", `#${link}`);
      await navigator.clipboard.writeText(location.href);
      at("shared").textContent = "the link is copied";
    } catch (error) {
      const isLong = error instanceof BadLink;
      at("shared").textContent = isLong ? `there is no link: ${error.message}` : "the link is in the address";
    }
  }

  // Takes what the address holds. A bad link changes nothing; whether it was good, or nothing where there is none.
  async openLink() {
    try {
      const play = await unpacked(location.hash.slice(1));
      if (!play) return null;
      this.play.replace(play, this.isEdited() ? "The files were replaced by those of the link." : null);
      this.example = JSON.stringify(this.play.parts);
      at("examples").selectedIndex = -1;
      this.run(false);
      return true;
    } catch (error) {
      if (!(error instanceof BadLink)) throw error;
      this.panels.status({ text: `the link is bad: ${error.message}`, sort: "bad" }, "");
      return false;
    }
  }

  // Begins with what was kept, or with the first example; then a link takes their place.
  async begin() {
    const kept = this.keeper.kept();
    this.play.replace(kept ?? this.examples[0]);
    const found = this.examples.findIndex(({ files, how, file, steps }) =>
      JSON.stringify({ files, how, file, steps }) === JSON.stringify(this.play.parts));
    if (found >= 0) this.example = JSON.stringify(this.play.parts);
    at("examples").selectedIndex = found;
    if (this.play.before) this.play.tell("before");
    this.listen();
    if (!hasMemory64()) return this.panels.status({ text: NEEDS, sort: "bad" }, "");
    this.running = new Running(this.play, this.words, this.seen);
    this.addStepping(this.running.runner.module, !kept);
    at("run").disabled = at("share").disabled = false;
    if ((await this.openLink()) === null) this.run(false);
    return undefined;
  }

  // Adds the panel that steps through runs, where the module has what it needs. On a first visit it is seen at once.
  async addStepping(module, isFirst) {
    const found = await module.catch(() => null);
    if (!found || !hasCore(found)) return;
    this.panels.addStepping(new StepPanel(module, this.grammar, this.panels));
    if (isFirst && location.hash === "") this.panels.showCrossing();
  }
}

function listExamples(examples) {
  const groups = new Map();
  examples.forEach(({ group, title }, place) => {
    if (!groups.has(group)) groups.set(group, Object.assign(document.createElement("optgroup"), { label: group }));
    groups.get(group).append(new Option(title, place));
  });
  at("examples").replaceChildren(...groups.values());
}

const [examples, words] = await Promise.all([made("examples.json"), made("words.json")]);
at("help").textContent = stepsHelp(words.steps);
listExamples(examples);
await new Page(examples, words).begin();
