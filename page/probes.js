// Copies of scripts that say where they are, for the lines of faults and of handlers that were cut: before each
// statement of a block is a call of llOwnerSay. Nothing is taken from a run of copies whose journal is another one.

const TOKEN = /"(?:[^"\\]|\\.)*"|\/\/[^\n]*|\/\*[^]*?\*\/|[A-Za-z_]\w*|\s+|[^]/g;
const NOT_FIRST = ["}", "else", "@", ")"];
const isAside = token => /^(\s|\/\/|\/\*)/.test(token);

// Walks over a script's tokens, and finds where the statements of its blocks begin.
class Statements {
  constructor() {
    Object.assign(this, { depth: 0, body: 0, brackets: 0, before: "", dos: [] });
  }

  // Whether a statement begins at this token.
  begins(token) {
    const isFirst = this.body > 0 && this.brackets === 0 && ["{", "}", ";"].includes(this.before);
    const isEnd = token === "while" && this.dos[this.depth] > 0;
    return isFirst && !isEnd && !NOT_FIRST.includes(token);
  }

  pass(token) {
    if (token === "{") this.open();
    else if (token === "}") this.close();
    else if (token === "(" || token === "[") this.brackets++;
    else if (token === ")" || token === "]") this.brackets--;
    else if (token === "do") this.dos[this.depth] = (this.dos[this.depth] ?? 0) + 1;
    else if (token === "while" && this.dos[this.depth] > 0) this.dos[this.depth]--;
    this.before = token;
  }

  open() {
    this.depth++;
    if (!this.body && this.before === ")") this.body = this.depth;
    this.dos[this.depth] = 0;
  }

  close() {
    if (this.depth === this.body) this.body = 0;
    this.depth--;
  }
}

// Where the bodies of functions and handlers are in a script's text, with their braces.
export function bodiesOf(text) {
  const statements = new Statements();
  const found = [];
  for (const { 0: token, index } of text.matchAll(TOKEN)) {
    if (isAside(token)) continue;
    const wasIn = statements.body > 0;
    statements.pass(token);
    if (!wasIn && statements.body > 0) found.push({ start: index, end: 0 });
    else if (wasIn && statements.body === 0) found.at(-1).end = index + 1;
  }
  return found.filter(it => it.end > 0);
}

// The copy of a script's text. Each probe is added to `places`: its line, and whether its statement divides.
function probed(text, mark, places) {
  const statements = new Statements();
  let line = 1;
  let copy = "";
  for (const [token] of text.matchAll(TOKEN)) {
    if (!isAside(token)) {
      if (statements.begins(token)) {
        copy += `llOwnerSay("${mark}${places.length}");`;
        places.push({ line, divides: false });
      }
      if ((token === "/" || token === "%") && places.length) places.at(-1).divides = true;
      statements.pass(token);
    }
    line += token.split("\n").length - 1;
    copy += token;
  }
  return copy;
}

// The files with copies of these scripts, and how the output of their run is read.
export function probedFiles(files, names) {
  const mark = `probe ${crypto.getRandomValues(new Uint32Array(3)).join("-")} `;
  const places = [];
  const copies = files.map(([name, text]) => [name, names.has(name) ? probed(text, mark, places) : text]);
  return { mark, places, files: copies };
}

// The lines at which the scripts stood last before these lines of the journal: for each `{script, line, reason}` a line
// of its script or nothing. `text` is what the copies wrote, `wanted` the scripts' own journal.
export function linesOf(text, wanted, { mark, places }, asked) {
  const sign = `"${mark}`;
  const last = new Map();
  const found = new Map();
  const queue = asked.map((it, at) => ({ ...it, at })).sort((one, other) => one.line - other.line);
  let line = 0;
  let kept = 0;
  for (let start = 0, end; (end = text.indexOf("\n", start)) >= 0; start = end + 1) {
    const place = text.startsWith("owner ", start) ? text.indexOf(" ", start + 6) + 1 : 0;
    if (place && text.startsWith(sign, place)) {
      pass(last, Number(text.slice(start + 6, place - 1)), places[parseInt(text.slice(place + sign.length, end), 10)]);
      continue;
    }
    while (queue.length && queue[0].line === line) take(queue.shift(), last, found);
    if (text.startsWith("took ", start)) last.set(parseInt(text.slice(start + 5, start + 15), 10), []);
    if (!wanted.startsWith(text.slice(start, end + 1), kept)) return [];
    kept += end + 1 - start;
    line++;
  }
  for (const it of queue) take(it, last, found);
  return kept === wanted.length ? asked.map((_, at) => found.get(at)) : [];
}

// Keeps the last statement of a handler, and the last that divides.
function pass(last, script, { line, divides }) {
  const [, divided] = last.get(script) ?? [];
  last.set(script, [line, divides ? line : divided]);
}

function take({ at, script, reason }, last, found) {
  const [line, divided] = last.get(script) ?? [];
  found.set(at, reason === "Math Error" ? divided : line);
}
