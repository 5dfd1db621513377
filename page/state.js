// What is played: files, how they are run, which of them, and the steps. Nothing here knows of the page's elements.

export const WAYS = ["once", "play", "replay", "freeze", "check"];
const OF_WORLD = ["replay", "freeze"];
const FRESH = "default {\n    state_entry() {\n        llOwnerSay(\"Hello!\");\n    }\n}\n";

export const isWorld = name => name.endsWith(".world");
export const baseOf = name => name.replace(/^.*\//s, "");

export class Play {
  constructor() {
    Object.assign(this, { files: [], chosen: 0, how: "once", file: "", steps: "", heard: [], before: null });
  }

  // `heard` is called after each change, with what has changed: `files`, `text`, `chosen`, `how` or `before`.
  listen(heard) {
    this.heard.push(heard);
  }

  tell(what) {
    for (const heard of this.heard) heard(what);
  }

  // What a link or the browser's storage holds of it.
  get parts() {
    const files = this.files.map(({ name, text }) => [name, text]);
    return { files, how: this.how, file: this.file, steps: this.steps };
  }

  get names() {
    return this.files.map(it => it.name);
  }

  get shown() {
    return this.files[this.chosen];
  }

  textOf(name) {
    return this.files.find(it => it.name === name)?.text;
  }

  // Takes other files in place of these. Those that were edited can be had back by `undo`.
  replace({ files, how, file, steps }, said = null) {
    if (said) this.keepBefore(said);
    this.files = files.map(([name, text]) => ({ name, text }));
    Object.assign(this, { how, file, steps });
    this.chosen = Math.max(this.names.indexOf(file), 0);
    this.tell("files");
  }

  keepBefore(said) {
    this.before = { said, parts: this.parts };
    this.tell("before");
  }

  forget() {
    this.before = null;
    this.tell("before");
  }

  undo() {
    const { before } = this;
    if (!before) return;
    this.before = null;
    this.replace(before.parts);
    this.tell("before");
  }

  // The files that may be run in this way.
  runnable() {
    const wanted = OF_WORLD.includes(this.how);
    const isScript = name => /\.lsl$/.test(name) || !/\.\w+$/.test(name);
    const fitting = this.names.filter(it => (wanted ? isWorld(it) : isScript(it)));
    return fitting.length ? fitting : this.names;
  }

  // Chooses a file. What is seen is what runs, but for a script of the world that is to run.
  choose(at) {
    this.chosen = at;
    const { name } = this.shown;
    if (isWorld(name)) this.setWay(OF_WORLD.includes(this.how) ? this.how : "replay", name);
    else if (OF_WORLD.includes(this.how) && /\.lsl$/.test(name) && !this.isOfWorld(name)) this.setWay("once", name);
    else if (!OF_WORLD.includes(this.how) && this.runnable().includes(name)) this.file = name;
    this.tell("chosen");
  }

  isOfWorld(name) {
    return (this.textOf(this.file) ?? "").includes(`"${name}"`);
  }

  setWay(how, file = this.file) {
    Object.assign(this, { how, file });
    const names = this.runnable();
    if (!names.includes(this.file)) this.file = names.includes(this.shown.name) ? this.shown.name : names[0];
    this.tell("how");
  }

  setText(text, file = this.shown) {
    if (file.text === text) return;
    file.text = text;
    this.tell("text");
  }

  setSteps(steps) {
    this.steps = steps;
    this.tell("text");
  }

  freeName(name) {
    const [, front, end] = /^(.*?)(\.[^.]*)?$/s.exec(name);
    for (let number = 1; ; number++) {
      const tried = number === 1 ? name : `${front}-${number}${end ?? ""}`;
      if (!this.names.includes(tried)) return tried;
    }
  }

  rename(name) {
    const { shown } = this;
    const was = shown.name;
    shown.name = "";
    shown.name = this.freeName(name || "script.lsl");
    if (this.file === was) this.file = shown.name;
    this.tell("files");
    this.choose(this.chosen);
  }

  // Adds a file, and answers its name.
  put(name, text, isChosen = true) {
    this.files.push({ name: this.freeName(name), text });
    this.tell("files");
    if (isChosen) this.choose(this.files.length - 1);
    return this.files.at(-1).name;
  }

  get fresh() {
    return FRESH;
  }

  add() {
    return this.put("script.lsl", FRESH);
  }

  remove() {
    const { name } = this.shown;
    this.keepBefore(`${baseOf(name)} was removed.`);
    this.files.splice(this.chosen, 1);
    this.chosen = Math.max(this.chosen - 1, 0);
    // What was to run is gone: what is seen now runs, or else what is left.
    if (this.file === name) this.choose(this.chosen);
    if (!this.names.includes(this.file)) this.setWay(this.names.some(isWorld) ? "replay" : "once", "");
    this.tell("files");
  }
}
