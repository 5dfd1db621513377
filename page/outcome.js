// What became of a run: how many lines it wrote, which scripts stopped, and which were still in a handler at its end.
// The whole output is followed, however long it is, as bytes.

const LINE_END = 10;
const SPACE = 32;
const ZERO = 48;
const MOST_FAULTS = 100;
const letters = word => word.charCodeAt(0) * 256 + word.charCodeAt(1);
const [TOOK, DONE, FAULT, DROP] = ["took", "done", "fault", "drop"].map(letters);

const textOf = (bytes, start, end) => new TextDecoder().decode(bytes.subarray(start, end));

class Follower {
  constructor(bytes) {
    Object.assign(this, { bytes, lines: 0, drops: 0, faultCount: 0, faults: [], running: new Map() });
  }

  follow() {
    const { bytes } = this;
    for (let start = 0, end; (end = bytes.indexOf(LINE_END, start)) >= 0; start = end + 1) {
      const word = bytes[start] * 256 + bytes[start + 1];
      if (word === TOOK) this.running.set(this.script(start + 5), start);
      else if (word === DONE) this.running.delete(this.script(start + 5));
      else if (word === DROP) this.drops++;
      else if (word === FAULT) this.addFault(start, end);
      this.lines++;
    }
  }

  script(at) {
    let number = 0;
    for (; this.bytes[at] !== SPACE && this.bytes[at] >= ZERO; at++) number = number * 10 + this.bytes[at] - ZERO;
    return number;
  }

  addFault(start, end) {
    const script = this.script(start + 6);
    this.running.delete(script);
    this.faultCount++;
    if (this.faults.length >= MOST_FAULTS) return;
    const reason = textOf(this.bytes, start, end).replace(/^fault \d+ "|"$/g, "");
    this.faults.push({ script, reason, line: this.lines });
  }

  eventAt(start) {
    return textOf(this.bytes, start, start + 60).split("\n")[0].split(" ")[2] ?? "";
  }
}

export function outcomeOf(bytes) {
  const it = new Follower(bytes);
  it.follow();
  const cut = [...it.running].map(([script, start]) => ({ script, event: it.eventAt(start) }));
  return { lines: it.lines, drops: it.drops, faultCount: it.faultCount, faults: it.faults, cut };
}

// The front of an output that is shown: at most so many lines, and so many bytes.
export function frontOf(bytes, mostLines, mostBytes) {
  let end = 0;
  for (let count = 0; count < mostLines; count++) {
    const next = bytes.indexOf(LINE_END, end) + 1;
    if (next === 0 || next > mostBytes) break;
    end = next;
  }
  return textOf(bytes, 0, end);
}
