// What became of a run, in a line.
import { MEANINGS } from "./lsl.js";
import { baseOf } from "./state.js";

const REFUSED = [2, 3, 8];
const counted = (count, noun) => `${count.toLocaleString("en")} ${noun}${count === 1 ? "" : "s"}`;

// The script of a number, as a name with the line of its file where it is known.
export function placeOf(script, files, line) {
  const name = files[script - 1] === undefined ? `script ${script}` : baseOf(files[script - 1]);
  return line === undefined ? name : `${name}:${line}`;
}

function more(count) {
  return count > 1 ? `, and ${counted(count - 1, "more script")}` : "";
}

// `answer` is the worker's, with `lines` of its faults and cut handlers where they were found; `asked` the request.
export function statusOf(answer, asked, fault) {
  const { status, outcome, lines = [] } = answer;
  const { faults, faultCount, cut } = outcome;
  if (REFUSED.includes(status)) return { text: `not accepted: ${fault?.short ?? MEANINGS[status]}`, sort: "bad" };
  if (status === 4) return { text: missing(asked), sort: "bad" };
  if (status !== 0) return { text: MEANINGS[status], sort: "bad" };
  if (asked.word === "check") return { text: `accepted: ${baseOf(asked.file)}`, sort: "good" };
  if (faultCount) {
    const where = placeOf(faults[0].script, asked.scripts, lines[0]);
    return { text: `stopped: ${faults[0].reason} in ${where}${more(faultCount)}`, sort: "bad" };
  }
  if (cut.length) {
    const where = placeOf(cut[0].script, asked.scripts, lines[faults.length]);
    const text = `still running after ${counted(asked.segments, "segment")}, in ${cut[0].event} at ${where}`;
    return { text: text + more(cut.length), sort: "open" };
  }
  return { text: "finished", sort: "good" };
}

function missing({ files, named, file }) {
  const here = new Set(files.map(it => it[0]));
  const absent = named.find(it => !here.has(it.file));
  return absent ? `${absent.file} isn't here: ${baseOf(file)} names it in line ${absent.line}` : `${file} isn't here`;
}

// How much was written, what of it is shown, and what was lost.
export function sizeOf({ outcome, milliseconds, size }, shown) {
  const lost = outcome.drops ? `; ${counted(outcome.drops, "event")} lost` : "";
  const part = shown !== undefined && shown < outcome.lines
    ? `; the first ${shown.toLocaleString("en")} are shown, all ${size.toLocaleString("en")} bytes can be saved` : "";
  return `${counted(outcome.lines, "line")} in ${milliseconds.toFixed(1)} ms${lost}${part}`;
}
