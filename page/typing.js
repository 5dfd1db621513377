// Changes of a text area that its own undo takes back, and the keys that make them.

const INDENT = "    ";

// Puts a text in place of a part of the area's.
export function put(area, start, end, text) {
  area.focus();
  area.setSelectionRange(start, end);
  const isDone = text === "" ? start === end || document.execCommand("delete")
    : document.execCommand("insertText", false, text);
  if (isDone) return;
  area.setRangeText(text, start, end, "end");
  area.dispatchEvent(new Event("input"));
}

function lineStart(text, place) {
  return text.lastIndexOf("\n", place - 1) + 1;
}

// Changes each line of the selection, and selects them.
function changeLines(area, change) {
  const { value, selectionStart, selectionEnd } = area;
  const start = lineStart(value, selectionStart);
  const isAtStart = selectionEnd > selectionStart && value[selectionEnd - 1] === "\n";
  const found = value.indexOf("\n", isAtStart ? selectionEnd - 1 : selectionEnd);
  const end = found < 0 ? value.length : found;
  const before = value.slice(start, end);
  const after = before.split("\n").map(change).join("\n");
  if (after === before) return;
  put(area, start, end, after);
  const isCaret = selectionStart === selectionEnd;
  const first = isCaret ? Math.max(start, selectionStart + after.length - before.length) : start;
  area.setSelectionRange(first, isCaret ? first : start + after.length);
}

const indented = line => (line === "" ? line : INDENT + line);
const outdented = line => line.replace(/^( {1,4}|\t)/, "");

export function tab(area, isBack) {
  const { value, selectionStart, selectionEnd } = area;
  if (isBack) return changeLines(area, outdented);
  if (selectionStart !== selectionEnd) return changeLines(area, indented);
  const column = selectionStart - lineStart(value, selectionStart);
  return put(area, selectionStart, selectionEnd, INDENT.slice(column % INDENT.length));
}

// A new line, as deep as the one before it, or deeper after a bracket.
export function newLine(area) {
  const { value, selectionStart, selectionEnd } = area;
  const line = value.slice(lineStart(value, selectionStart), selectionStart);
  const [margin] = /^[ \t]*/.exec(line);
  const isOpen = /[{([]\s*$/.test(line);
  const isShut = isOpen && /^[ \t]*[})\]]/.test(value.slice(selectionEnd));
  put(area, selectionStart, selectionEnd, `\n${margin}${isOpen ? INDENT : ""}${isShut ? `\n${margin}` : ""}`);
  if (!isShut) return;
  const place = selectionStart + 1 + margin.length + INDENT.length;
  area.setSelectionRange(place, place);
}

// A `}` as the first sign of a line goes as deep as the block that it ends.
export function shut(area) {
  const { value, selectionStart, selectionEnd } = area;
  const start = lineStart(value, selectionStart);
  const margin = value.slice(start, selectionStart);
  if (selectionStart !== selectionEnd || !/^ {4,}$/.test(margin)) return false;
  const before = value.slice(0, start).trimEnd();
  const deep = /^[ \t]*/.exec(before.slice(lineStart(before, before.length)))[0].length;
  const isDeeper = before.endsWith("{") ? margin.length > deep : margin.length >= deep;
  if (!isDeeper) return false;
  put(area, selectionStart - INDENT.length, selectionEnd, "}");
  return true;
}
