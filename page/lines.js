// The lines of a text that is edited, the state in which each begins for its colours, and places in it.

export const TAB = 4;
const isWide = code => code >= 0x1100;
// Texts without these have a column for each sign.
const UNEVEN = /[\t\u1100-\uffff]/;

export class Lines {
  constructor() {
    this.set("", null);
  }

  // Takes a text. What is known of the lines before the first that has changed is kept.
  set(text, grammar) {
    const lines = text.split("\n");
    let same = 0;
    if (grammar === this.grammar) while (same < lines.length && lines[same] === this.lines[same]) same++;
    this.states = grammar === this.grammar ? this.states.slice(0, same + 1) : [null];
    if (!this.states.length) this.states = [null];
    Object.assign(this, { text, lines, grammar });
  }

  // The state in which a line begins.
  state(line) {
    for (let at = this.states.length; at <= line; at++) {
      this.states[at] = this.grammar.after(this.lines[at - 1], this.states[at - 1]);
    }
    return this.states[line];
  }

  pieces(line) {
    return this.grammar.pieces(this.lines[line], this.state(line));
  }

  asides(line) {
    return this.grammar.asides(this.lines[line], this.state(line));
  }

  // The line and the place in it of a place of the text.
  at(place) {
    let line = 0;
    let start = 0;
    while (line < this.lines.length - 1 && start + this.lines[line].length < place) {
      start += this.lines[line++].length + 1;
    }
    return { line, place: place - start, start };
  }

  startOf(line) {
    let start = 0;
    for (let at = 0; at < Math.min(line, this.lines.length); at++) start += this.lines[at].length + 1;
    return start;
  }

  // How many columns the front of a line takes.
  columns(line, place = this.lines[line].length) {
    const text = this.lines[line];
    let columns = 0;
    for (let at = 0; at < place; at++) {
      const code = text.charCodeAt(at);
      columns += code === 9 ? TAB - (columns % TAB) : isWide(code) ? 2 : 1;
    }
    return columns;
  }

  // The place of a column in a line.
  placeAt(line, column) {
    let place = 0;
    while (place < this.lines[line].length && this.columns(line, place + 1) <= column) place++;
    return place;
  }

  get widest() {
    let most = 0;
    if (!UNEVEN.test(this.text)) return this.lines.reduce((longest, it) => Math.max(longest, it.length), 0);
    for (let line = 0; line < this.lines.length; line++) {
      if (this.lines[line].length * 2 > most) most = Math.max(most, this.columns(line));
    }
    return most;
  }
}
