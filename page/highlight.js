// Colours of a text's lines, by the grammar of the files for VS Code (tools/lslkit/highlighting.py): patterns with a
// name, which are tried one after another, and some that go from a beginning to an end over several lines.

const classOf = name => `c-${name.replace(/\.lsl$/, "").replaceAll(".", "-")}`;
const WORLD_PIECES = {
  comment: /^[ \t]*#.*/, string: /"(?:[^"\\]|\\.)*"/, invalid: /".*/,
  constant: /[0-9a-fA-F]{8}(?:-[0-9a-fA-F]{4}){3}-[0-9a-fA-F]{12}|-?\b[0-9]+\b/, word: /[^ \t"]+/,
};
const WORLD = new RegExp(Object.entries(WORLD_PIECES).map(([name, it]) => `(?<${name}>${it.source})`).join("|"), "g");

export class Grammar {
  constructor({ patterns }) {
    this.patterns = patterns.map(it => ({ ...it, className: classOf(it.name) }));
    const source = ({ match, begin }, at) => `(?<p${at}>${match ?? begin})`;
    this.all = new RegExp(this.patterns.map(source).join("|"), "g");
    // What can hide the beginning of another pattern: lines' states need no more.
    this.hiding = this.patterns.map((it, at) => [it, at]).filter(([it]) => it.begin || it.name.startsWith("comment"));
    this.quick = new RegExp(this.hiding.map(([it, at]) => source(it, at)).join("|"), "g");
  }

  // Where a pattern that goes on ends in a line, or nothing.
  endOf({ end, patterns }, line, from) {
    const escape = patterns?.length ? `${patterns[0].match}|` : "";
    const ends = new RegExp(`${escape}(?<end>${end})`, "g");
    ends.lastIndex = from;
    for (let found = ends.exec(line); found; found = ends.exec(line)) {
      if (found.groups.end !== undefined) return ends.lastIndex;
    }
    return -1;
  }

  which(found) {
    return this.patterns.findIndex((_, at) => found.groups[`p${at}`] !== undefined);
  }

  // Goes through a line from a state: nothing, or the pattern that is going on. Calls `add` with each piece and its
  // class, and answers the state at the line's end.
  pass(line, state, pattern, add) {
    let at = 0;
    let going = state;
    while (at <= line.length) {
      if (going) {
        const end = this.endOf(going, line, at);
        add(line.slice(at, end < 0 ? undefined : end), going.className);
        if (end < 0) return going;
        [at, going] = [end, null];
      }
      pattern.lastIndex = at;
      const found = pattern.exec(line);
      if (!found) break;
      const it = this.patterns[this.which(found)];
      add(line.slice(at, found.index), "");
      if (it.begin) {
        const end = this.endOf(it, line, found.index + found[0].length);
        add(line.slice(found.index, end < 0 ? undefined : end), it.className);
        if (end < 0) return it;
        at = end;
      } else {
        add(found[0], it.className);
        at = found.index + Math.max(found[0].length, 1);
      }
    }
    add(line.slice(at), "");
    return null;
  }

  after(line, state) {
    return this.pass(line, state, this.quick, () => {});
  }

  // Its pieces, of which only texts and comments have classes.
  asides(line, state) {
    const found = [];
    this.pass(line, state, this.quick, (text, className) => text && found.push([text, className]));
    return found;
  }

  pieces(line, state) {
    const found = [];
    this.pass(line, state, this.all, (text, className) => text && found.push([text, className]));
    return found;
  }
}

// The same of world files, whose lines begin with the words of a table.
export class WorldGrammar {
  constructor({ declarations, steps }) {
    this.words = { ...declarations, ...steps };
  }

  after() {
    return null;
  }

  asides(line) {
    return this.pieces(line);
  }

  pieces(line) {
    const found = [];
    let at = 0;
    for (const it of line.matchAll(WORLD)) {
      if (it.index > at) found.push([line.slice(at, it.index), ""]);
      const isFirst = line.slice(0, it.index).trim() === "";
      const sort = Object.keys(it.groups).find(name => it.groups[name] !== undefined);
      found.push([it[0], sort === "word" && isFirst && it[0] in this.words ? "c-keyword-control"
        : sort === "word" || sort === "invalid" ? "c-invalid-illegal" : `c-${sort}`]);
      at = it.index + it[0].length;
    }
    return at < line.length ? [...found, [line.slice(at), ""]] : found;
  }
}

// A text that isn't coloured: a notecard's.
const whole = line => [[line, ""]];
export const PLAIN = { after: () => null, pieces: whole, asides: whole };
