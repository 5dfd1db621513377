// The line that refuses a script or a world, in words (docs/LANGUAGE.md), with the line of the file and a caret.
import { unquoted } from "./quoting.js";

const REFUSAL = /^bad (\w+) "((?:[^"\\]|\\.)*)" (?:line (\d+)|(\d+):(\d+)) fault (\d+)$/;

// Where a byte of a line is among the signs of its text. Columns count bytes, and a page's texts count UTF-16.
function signAt(line, column) {
  let bytes = 1;
  let at = 0;
  for (const sign of line) {
    if (bytes >= column) break;
    bytes += new TextEncoder().encode(sign).length;
    at += sign.length;
  }
  return at;
}

// What is known of the word at a place: that LSL has no such word, or what takes the place of a name.
function hintsOf(text, place, { habits, substitutes }) {
  const word = /^\w+/.exec(text.slice(place))?.[0];
  const known = (table, key) => (table && key !== undefined && Object.hasOwn(table, key) ? table[key] : undefined);
  return [known(habits?.words, word), known(substitutes?.names, word)?.write].filter(it => it !== undefined);
}

// Why a file was refused: its name, the line, counted from 1, the place within it, counted from 0, and the words;
// nothing where the output refuses none. `words` are the tables of tools/words.
export function explained(output, files, words) {
  const found = REFUSAL.exec(output.split("\n")[0]);
  if (!found) return null;
  const [, , quoted, ofWorld, row, column, fault] = found;
  const name = unquoted(quoted);
  const line = Math.max(Number(ofWorld ?? row), 1);
  const whole = new Map(files).get(name)?.split("\n")[line - 1];
  const text = whole ?? "";
  const place = column === undefined ? 0 : signAt(text, Number(column));
  const where = `${name}:${line}`;
  const says = words.faults[fault]?.says ?? "a fault without words";
  const hints = hintsOf(text, place, words);
  const said = `${where}:${column ?? 1}: error: ${says} (fault ${fault})`;
  const blanks = text.slice(0, place).replace(/[^\t]/g, " ");
  const short = `${says}, at ${where.replace(/^.*\//, "")}${column === undefined ? "" : `:${column}`}`;
  const shown = whole === undefined ? said : `${said}\n${text}\n${blanks}^`;
  return { name, line, place, fault, says, short, hints, said: shown };
}
