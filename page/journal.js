// A journal: its text, and where its lines are (docs/WORLDS.md). It is read at once into arrays of numbers, and a line
// is cut out of the text when it is wanted.
import { unquoted } from "./quoting.js";

export const KINDS = ["took", "drop", "clear", "chat", "owner", "done", "fault", "home", "frozen"];
export const [TOOK, DROP, CLEAR, CHAT, OWNER, DONE, FAULT, HOME, FROZEN] = KINDS.keys();
// The kinds by their first two letters.
const BY_LETTERS = new Map(KINDS.map((word, kind) => [word.charCodeAt(0) * 256 + word.charCodeAt(1), kind]));

function countOf(text) {
  let count = 0;
  for (let at = text.indexOf("\n"); at >= 0; at = text.indexOf("\n", at + 1)) count++;
  return count;
}

// The number that is a line's second word.
function numberAt(text, start) {
  let at = text.indexOf(" ", start) + 1;
  let number = 0;
  for (let digit = text.charCodeAt(at) - 48; digit >= 0 && digit < 10; digit = text.charCodeAt(++at) - 48) {
    number = number * 10 + digit;
  }
  return number;
}

export class Journal {
  constructor({ text, ends, kinds, numbers }) {
    Object.assign(this, { text, ends, kinds, numbers, count: ends.length });
  }

  static read(text) {
    const count = countOf(text);
    const [ends, kinds, numbers] = [new Uint32Array(count), new Uint8Array(count), new Uint32Array(count)];
    let start = 0;
    for (let line = 0; line < count; line++) {
      const end = text.indexOf("\n", start);
      ends[line] = end;
      const kind = BY_LETTERS.get(text.charCodeAt(start) * 256 + text.charCodeAt(start + 1)) ?? FROZEN;
      kinds[line] = kind;
      numbers[line] = kind === FROZEN ? 0 : numberAt(text, start);
      start = end + 1;
    }
    return new Journal({ text, ends, kinds, numbers });
  }

  // What a message holds of it: a journal is made of that again.
  get parts() {
    const { text, ends, kinds, numbers } = this;
    return { text, ends, kinds, numbers };
  }

  line(at) {
    return this.text.slice(at ? this.ends[at - 1] + 1 : 0, this.ends[at]);
  }

  word(at) {
    return KINDS[this.kinds[at]];
  }

  // What follows the first word and the number.
  rest(at) {
    const line = this.line(at);
    const first = line.indexOf(" ");
    if (this.kinds[at] === FROZEN) return line.slice(first + 1);
    const second = line.indexOf(" ", first + 1);
    return second < 0 ? "" : line.slice(second + 1);
  }

  // The event of a `took` or `drop` line, and its arguments.
  event(at) {
    const rest = this.rest(at);
    const end = rest.indexOf(" ");
    return end < 0 ? [rest, ""] : [rest.slice(0, end), rest.slice(end + 1)];
  }
}

// The words of a line, each as its text and whether it was quoted.
export function fields(rest) {
  return [...rest.matchAll(/"((?:[^"\\]|\\.)*)"|([^ ]+)/gs)].map(it =>
    it[2] === undefined ? [unquoted(it[1]), true] : [it[2], false],
  );
}
