// The debugger's core, as the module exports it: a trace of a world, the moment to which a move leads, and the state of
// the world at a place. What comes back are lines, as `lsl_debug` prints them.

const EXPORTS = ["lsl_page_trace", "lsl_page_seek", "lsl_page_state"];
const [WORLD, TRACE] = ["\u0000world", "\u0000trace"];
const FIRST_ROOM = 1 << 20;
const OUTPUT_FULL = 5;
// As a step it stands for the end of the world file.
const END = 0;

const textOf = bytes => new TextDecoder().decode(bytes);

export function hasCore(module) {
  const names = new Set(WebAssembly.Module.exports(module).map(it => it.name));
  return EXPORTS.every(it => names.has(it));
}

export class Core {
  constructor(lsl) {
    this.lsl = lsl;
  }

  // Takes a world and its files, of which the calls that follow are.
  open(files, world) {
    Object.assign(this, { files: [...files, [WORLD, world]], room: FIRST_ROOM });
  }

  // The trace of these steps, or its front of so many bytes. Moves are made in the trace that was made last. There is
  // room for all of them at once: where it were too small, the world would run again.
  trace(first, last, most) {
    const { status, output } = this.lsl.call("lsl_page_trace", [WORLD, first, last], this.files, most, most);
    const isCut = status === OUTPUT_FULL && output.length > 0;
    this.traced = isCut ? output.subarray(0, output.lastIndexOf(10) + 1) : output;
    return { status, isCut, text: textOf(this.traced) };
  }

  // The moment to which a move leads, whose words are given, from another moment.
  seek(moment, words) {
    return this.told("lsl_page_seek", [TRACE, moment, words.join("\n")], [[TRACE, this.traced]]);
  }

  // The world after so many segments of a step, or at its end.
  state(step = END, segment = 0) {
    return this.told("lsl_page_state", [WORLD, step, segment], this.files);
  }

  // What a call writes, in as much room as the last one needed.
  told(name, words, files) {
    const { status, output } = this.lsl.call(name, words, files, this.room);
    this.room = Math.max(this.room, FIRST_ROOM + output.length);
    return { status, text: textOf(output) };
  }

  // The moments, in milliseconds, at which something is due after the steps of a world.
  due(files, world) {
    this.open(files, world);
    const lines = this.state().text.split("\n").map(it => it.split(" "));
    return lines.filter(it => it[0] === "timer" || it[0] === "sleeps").map(it => Number(it.at(-1)));
  }
}
