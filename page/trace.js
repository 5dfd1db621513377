// A trace: what a script did, statement by statement, as lines (docs/DEBUGGING.md). They are read into columns of
// numbers, in slices between which the worker hears other messages; a value is cut out of the text when it is shown.
import { unquoted } from "./quoting.js";

const SLICE = 20000;
const TABLES = ["file", "script", "global", "mark", "name"];
// What a moment is: an entry at a mark of this sort, or a line of the journal.
export const SORTS = ["enter", "stmt", "again", "leave", "note", "said"];
export const [ENTER, STMT, AGAIN, LEAVE, NOTE, SAID] = SORTS.keys();
export const RESULT = -1;

// A column that grows.
class Column {
  constructor(Sort = Uint32Array) {
    Object.assign(this, { values: new Sort(1024), length: 0 });
  }

  push(value) {
    if (this.length === this.values.length) {
      const grown = new this.values.constructor(2 * this.length);
      grown.set(this.values);
      this.values = grown;
    }
    this.values[this.length++] = value;
  }

  get whole() {
    return this.values.subarray(0, this.length);
  }
}

const columns = (...names) => Object.fromEntries(names.map(it => [it, new Column()]));

// Reads lines into tables and columns.
class Reader {
  constructor(text, most) {
    Object.assign(this, { text, most, at: 0, isCut: false, journal: 0 });
    Object.assign(this, { files: [], scripts: [], globals: [], marks: [null] });
    // Of each moment its place, its script (0 where none is), what it is, its mark, its call and the call around that;
    // of a line of the journal also where its text begins, and how many lines there are by then.
    this.moments = columns("steps", "segments", "scripts", "sorts", "marks", "serials", "outers", "texts", "lines");
    // Of each value that is told: its moment, its call, its variable, and where its text is.
    this.told = { ...columns("moments", "serials", "starts"), slots: new Column(Int32Array) };
  }

  // Reads so many lines. Whether there are more.
  read(lines) {
    const { text } = this;
    for (let count = 0; count < lines; count++) {
      const end = text.indexOf("\n", this.at);
      if (end < 0) return false;
      if (!this.line(this.at, end)) return false;
      this.at = end + 1;
    }
    return true;
  }

  // Takes a line. Whether the next one is to be read.
  line(start, end) {
    const { text } = this;
    if (text.startsWith("set ", start)) return this.set(start + 4);
    if (text.startsWith("at ", start)) return this.entry(start + 3);
    if (text.startsWith("said ", start)) return this.said(start + 5);
    const word = TABLES.find(it => text.startsWith(`${it} `, start));
    if (word) this[word](text.slice(start + word.length + 1, end));
    return true;
  }

  // The number at the place that is read, and the place after it and a space.
  number() {
    const { text } = this;
    let [number, digit] = [0, text.charCodeAt(this.place) - 48];
    for (; digit >= 0 && digit < 10; digit = text.charCodeAt(++this.place) - 48) number = number * 10 + digit;
    this.place++;
    return number;
  }

  file(rest) {
    const [, unit, name, tier] = /^(\d+) "(.*)" (\d+)$/.exec(rest);
    this.files[Number(unit)] = { name: unquoted(name), tier: Number(tier) };
  }

  script(rest) {
    const [, script, unit, name] = /^(\d+) (\d+) "(.*)"$/.exec(rest);
    this.scripts[Number(script)] = { unit: Number(unit), name: unquoted(name) };
  }

  global(rest) {
    const [unit, slot, kind, name] = rest.split(" ");
    (this.globals[Number(unit)] ??= []).push({ slot: Number(slot), kind, name });
  }

  mark(rest) {
    const [number, unit, routine, sort, first, last] = rest.split(" ");
    this.marks[Number(number)] = {
      unit: Number(unit), routine, sort: SORTS.indexOf(sort), first: Number(first), last: Number(last), names: [],
    };
  }

  name(rest) {
    const [number, slot, kind, name] = rest.split(" ");
    this.marks[Number(number)].names.push({ slot: slot === "result" ? RESULT : Number(slot), kind, name });
  }

  isFull() {
    this.isCut = this.moments.steps.length >= this.most;
    return this.isCut;
  }

  entry(start) {
    if (this.isFull()) return false;
    this.place = start;
    const [step, segment, script] = [this.number(), this.number(), this.number()];
    const [mark, serial, outer] = [this.number(), this.number(), this.number()];
    this.push({ step, segment, script, sort: this.marks[mark].sort, mark, serial, outer, text: 0 });
    return true;
  }

  said(start) {
    if (this.isFull()) return false;
    this.place = start;
    const [step, segment, text] = [this.number(), this.number(), this.place];
    this.place = this.text.indexOf(" ", text) + 1;
    const script = this.text.startsWith("home ", text) ? 0 : this.number();
    this.journal++;
    this.push({ step, segment, script, sort: SAID, mark: 0, serial: 0, outer: 0, text });
    return true;
  }

  push(it) {
    const { moments } = this;
    for (const name of ["step", "segment", "script", "sort", "mark", "serial", "outer", "text"]) {
      moments[`${name}s`].push(it[name]);
    }
    moments.lines.push(this.journal);
  }

  set(start) {
    this.place = start;
    const serial = this.number();
    const isResult = this.text.startsWith("result ", this.place);
    const slot = isResult ? RESULT : this.number();
    this.told.moments.push(this.moments.steps.length - 1);
    this.told.serials.push(serial);
    this.told.slots.push(slot);
    this.told.starts.push(isResult ? this.place + 7 : this.place);
    return true;
  }

  get trace() {
    const { text, files, scripts, globals, marks, isCut } = this;
    const whole = it => Object.fromEntries(Object.entries(it).map(([name, column]) => [name, column.whole]));
    return { text, files, scripts, globals, marks, isCut, moments: whole(this.moments), told: whole(this.told) };
  }
}

const turn = () => new Promise(done => setTimeout(done));

// The trace of a text, with at most so many moments.
export async function readTrace(text, most) {
  const reader = new Reader(text, most);
  while (reader.read(SLICE)) await turn();
  return reader.trace;
}
