// All that refuses a script: its first fault, and then each time the first one of the rest, once the body of the
// function or handler with the fault before is blanked. tools/lslkit/findings.py finds more than one fault in a body
// too: it mends them. Here nothing is mended, so a fault outside of all bodies is the last one.
import { bodiesOf } from "./probes.js";

const REFUSAL = /^bad script "(?:[^"\\]|\\.)*" (\d+):(\d+) fault \d+$/;
const MOST = 50;

const bytesIn = sign => new TextEncoder().encode(sign).length;

// As many blanks as a text has bytes, in as many lines.
function blank(text) {
  return text.replace(/[^\n]/gu, sign => " ".repeat(bytesIn(sign)));
}

// The place in a text of a line and a byte of it, both counted from 1.
function placeOf(text, row, column) {
  let place = 0;
  for (let line = 1; line < row; line++) place = text.indexOf("\n", place) + 1;
  for (let bytes = 1; bytes < column && place < text.length; ) {
    const sign = String.fromCodePoint(text.codePointAt(place));
    bytes += bytesIn(sign);
    place += sign.length;
  }
  return place;
}

// The text with nothing in the body around a place; nothing where there is no such body, or nothing in it.
function blanked(text, place) {
  const body = bodiesOf(text).find(it => it.start < place && place < it.end);
  if (!body) return null;
  const [start, end] = [body.start + 1, body.end - 1];
  const inner = text.slice(start, end);
  return inner.trim() ? text.slice(0, start) + blank(inner) + text.slice(end) : null;
}

// The lines that refuse a script: the first one first, and the others in the order of their places. `check` gives the
// line that refuses a text, or another one.
export function refusalsOf(text, check) {
  const found = [];
  for (let rest = text; rest !== null && found.length < MOST; ) {
    const [said, row, column] = REFUSAL.exec(check(rest)) ?? [];
    const place = said ? placeOf(rest, row, column) : 0;
    // What is lacking at the end of the text is due to the brackets of a fault before.
    if (!said || (found.length && place >= rest.trimEnd().length)) break;
    found.push({ said, row: Number(row), column: Number(column) });
    rest = blanked(rest, place);
  }
  const [first, ...others] = found;
  others.sort((one, other) => one.row - other.row || one.column - other.column);
  return first ? [first, ...others].map(it => it.said) : [];
}
