// Forms that write a world file: objects, prims, scripts, notecards and steps.
import { NEW_WORLD, clockOf, difference, keyOfPerson, peopleOf, regionsOf, withNote, withObject, withPrim, withScript,
  withStep } from "./building.js";
import { field, fieldsOf, form, select } from "./formfields.js";
import { quoted } from "./quoting.js";
import { baseOf, isWorld } from "./state.js";
import { readWorld } from "./worlds.js";

const at = id => document.getElementById(id);
const NEW = "a new script";
// The steps after which the scripts run.
const ACTS = ["clock", "say", "touch", "changed", "rez", "cross"];
const ORDER = ["touch", "say", "clock", "cross", "changed", "rez", "run", "go", "pause"];
const NAMED = { clock: "wait" };

export class Builder {
  // `words` is the table of steps. `waited` promises a world file that waits so many milliseconds after its steps, or
  // nothing where none can be played.
  constructor(play, editor, words, waited) {
    Object.assign(this, { play, editor, words, waited });
    play.listen(what => what !== "before" && this.follow());
    at("builder").addEventListener("toggle", () => this.draw());
    at("add-world").addEventListener("click", () => this.begin());
  }

  // A new world file, which the forms fill.
  begin() {
    this.play.put("new.world", NEW_WORLD);
    at("builder").open = true;
    this.draw();
    at("forms").querySelector("input")?.focus();
  }

  follow() {
    at("builder").hidden = !isWorld(this.play.shown.name);
    clearTimeout(this.timer);
    this.timer = setTimeout(() => this.draw(), 100);
  }

  get world() {
    return readWorld(this.play.shown.text);
  }

  // Makes the forms anew where what they choose among has changed.
  draw() {
    if (at("builder").hidden || !at("builder").open) return;
    const { objects, scripts, steps } = this.world;
    const known = JSON.stringify([objects, scripts.length, this.play.names, [...peopleOf({ steps })], this.step]);
    if (known === this.known) return;
    this.known = known;
    const active = document.activeElement?.id;
    at("forms").replaceChildren(...this.forms());
    if (active) document.getElementById(active)?.focus();
  }

  forms() {
    const { objects, scripts, steps } = this.world;
    const regions = regionsOf({ objects, steps });
    const made = [form("Object", [
      field("object-name", "name", "Object"), field("object-region", "region", regions[0] ?? "North", regions),
    ], "Add the object", values => withObject(this.text, values))];
    if (!objects.length) return this.wired(made);
    made.push(
      form("Prim", [this.objects("prim-object"), field("prim-name", "name", "Prim")], "Add the prim",
        values => withPrim(this.text, { ...values, object: Number(values.object) })),
      form("Script", [this.prims("script-prim"), select("script-file", "file", this.files(/\.lsl$/, NEW))],
        "Add the script", values => this.addScript(values)),
    );
    const cards = this.files(/^(?!.*\.(lsl|world)$)/s);
    if (cards.length) {
      made.push(form("Notecard", [this.prims("note-prim"), select("note-file", "file", cards)], "Add the notecard",
        ({ prim, file }) => withNote(this.text, { ...this.primOf(prim), name: baseOf(file), file })));
    }
    return this.wired([...made, this.stepForm(objects, scripts, regions)]);
  }

  get text() {
    return this.play.shown.text;
  }

  wired(forms) {
    return forms.map(({ element, change }) => {
      element.addEventListener("submit", event => {
        event.preventDefault();
        this.change(() => change(fieldsOf(element)), document.activeElement);
      });
      return element;
    });
  }

  // Makes a change of the world file. One that takes time is made again where the file has changed meanwhile.
  async change(made, focused) {
    const [{ name }, before] = [this.play.shown, this.text];
    const text = await made();
    if (this.play.shown.name !== name || text === undefined) return;
    if (this.text !== before) this.change(made, focused);
    else this.put(text, focused);
  }

  // Puts a new text into the editor, whose undo takes it back; the focus stays in the form.
  put(text, focused) {
    const { start, end, text: added } = difference(this.text, text);
    this.editor.change(start, end, added);
    focused?.focus();
    this.draw();
  }

  files(wanted, ...more) {
    return [...this.play.names.filter(it => wanted.test(it)), ...more].map(it => [it, baseOf(it)]);
  }

  objects(id) {
    return select(id, "object", this.world.objects.map((it, at) => [at + 1, `${at + 1} ${it.name}`]));
  }

  prims(id) {
    const all = this.world.objects.flatMap(it => it.prims);
    return select(id, "prim", all.map(it => [`${it.object}.${it.link}`, `${it.object}.${it.link} ${it.name}`]));
  }

  primOf(text) {
    const [object, link] = text.split(".").map(Number);
    return { object, link };
  }

  addScript({ prim, file }) {
    const world = this.play.chosen;
    const name = file === NEW ? this.play.put("script.lsl", this.play.fresh, false) : file;
    this.play.choose(world);
    return withScript(this.text, { ...this.primOf(prim), name: baseOf(name).replace(/\.lsl$/, ""), file: name });
  }

  // The form of a step: its fields are those of the table.
  stepForm(objects, scripts, regions) {
    this.step ??= "touch";
    const kinds = ORDER.map(it => [it, NAMED[it] ?? it]);
    const kind = select("step-kind", "step", kinds, this.step);
    kind.lastChild.addEventListener("change", event => {
      this.step = event.target.value;
      this.draw();
      at("step-kind").focus();
    });
    const { fields, does } = this.words.steps[this.step];
    const inputs = fields.map(it => this.input(it, objects, scripts, regions)).filter(it => it);
    return form("Step", [kind, ...inputs], "Add the step", values => this.addStep(values), does);
  }

  input(name, objects, scripts, regions) {
    const people = [...peopleOf(this.world).keys()];
    const most = Math.max(...objects.map(it => it.prims.length));
    const links = Array.from({ length: most }, (_, link) => [link + 1, link + 1]);
    const made = {
      OBJECT: () => this.objects("step-object"),
      SCRIPT: () => select("step-script", "script", scripts.map((it, at) => [at + 1, `${at + 1} ${it.name}`])),
      LINK: () => select("step-link", "link", links),
      NAME: () => field("step-name", "person", people[0] ?? "Ann", people),
      REGION: () => field("step-region", "region", regions[1] ?? "South", regions),
      MS: () => field("step-seconds", "seconds", "1", [], "number"),
      TEXT: () => field("step-text", "text", "hello"),
      CHANNEL: () => field("step-channel", "channel", "0", [], "number"),
      FLAGS: () => field("step-flags", "flags", "1", [], "number"),
      N: () => field("step-n", "start parameter", "0", [], "number"),
      TICKS: () => field("step-ticks", "segments", "10000", [], "number"),
      GAPS: () => field("step-gaps", "gaps", "8"),
    };
    return made[name]?.();
  }

  // A wait goes from one moment at which something is due to the next, where that can be found out.
  async addStep(values) {
    const milliseconds = Math.max(0, Math.round(Number(values.seconds) * 1000) || 0);
    const waited = this.step === "clock" ? await this.waited(this.text, milliseconds).catch(() => null) : null;
    return waited ?? this.withOne(values, milliseconds);
  }

  withOne(values, milliseconds) {
    const key = () => keyOfPerson(this.text, values.person);
    const number = name => String(Math.trunc(Number(values[name])) || 0);
    const made = {
      OBJECT: () => values.object, SCRIPT: () => values.script, LINK: () => values.link, KEY: key,
      NAME: () => quoted(values.person), REGION: () => quoted(values.region), TEXT: () => quoted(values.text),
      MS: () => String(clockOf(this.world) + milliseconds),
      CHANNEL: () => number("channel"), FLAGS: () => number("flags"), N: () => number("start parameter"),
      TICKS: () => number("segments"), GAPS: () => values.gaps,
    };
    const words = this.words.steps[this.step].fields.map(it => made[it]());
    return withStep(this.text, [this.step, ...words], ACTS.includes(this.step));
  }
}
