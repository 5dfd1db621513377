// The handlers that a journal shows, in the order in which they began.
import { DONE, FAULT, TOOK } from "./journal.js";

export const [ENDED, STOPPED, CUT] = [0, 1, 2];
export const NO_LINE = 0xffffffff;

// Columns: the scripts, the lines at which they began and ended, and how. One that was cut has no line at its end.
export class Handlers {
  constructor({ scripts, begins, ends, endings }) {
    Object.assign(this, { scripts, begins, ends, endings, count: scripts.length });
  }

  static of(journal) {
    const { kinds, numbers, count } = journal;
    let taken = 0;
    for (let line = 0; line < count; line++) taken += kinds[line] === TOOK;
    const [scripts, begins, ends] = [new Uint32Array(taken), new Uint32Array(taken), new Uint32Array(taken)];
    const endings = new Uint8Array(taken).fill(CUT);
    ends.fill(NO_LINE);
    const running = new Map();
    for (let line = 0, at = 0; line < count; line++) {
      const script = numbers[line];
      if (kinds[line] === TOOK) {
        scripts[at] = script;
        begins[at] = line;
        running.set(script, at++);
      } else if ((kinds[line] === DONE || kinds[line] === FAULT) && running.has(script)) {
        const handler = running.get(script);
        ends[handler] = line;
        endings[handler] = kinds[line] === DONE ? ENDED : STOPPED;
        running.delete(script);
      }
    }
    return new Handlers({ scripts, begins, ends, endings });
  }

  get parts() {
    const { scripts, begins, ends, endings } = this;
    return { scripts, begins, ends, endings };
  }
}
