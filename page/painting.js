// The painted lines of the editor. A line that is as it was keeps its element.

const isSame = (one, other) =>
  one.text === other.text && one.state === other.state && one.mark === other.mark
  && `${one.pairs}` === `${other.pairs}`;

// A piece of a line, cut around the brackets that belong together.
function cut(text, start, pairs) {
  const parts = [];
  let from = 0;
  for (const place of [...pairs].sort((one, other) => one - other)) {
    if (place < start || place >= start + text.length) continue;
    parts.push([text.slice(from, place - start), false], [text[place - start], true]);
    from = place - start + 1;
  }
  return [...parts, [text.slice(from), false]].filter(([part]) => part !== "");
}

function piece(text, className) {
  if (className === "") return document.createTextNode(text);
  return Object.assign(document.createElement("span"), { className, textContent: text });
}

function made({ lines, line, mark, pairs }) {
  const row = document.createElement("div");
  if (mark) row.className = `marked ${mark.sort}`;
  let place = 0;
  for (const [text, className] of lines.pieces(line)) {
    for (const [part, isPair] of cut(text, place, pairs)) {
      row.append(piece(part, isPair ? `${className} pair` : className));
    }
    place += text.length;
  }
  if (mark) row.append(piece(mark.text, "beside"));
  if (!row.hasChildNodes()) row.append("\u200b");
  return row;
}

export class PaintedRows {
  constructor(element) {
    Object.assign(this, { element, from: 0, rows: [] });
  }

  paint(rows, from) {
    const before = this.rows;
    const move = from - this.from;
    for (const [at, row] of rows.entries()) {
      const old = before[at + move];
      row.element = old && isSame(old, row) ? old.element : made(row);
    }
    const isInPlace = move === 0 && rows.length === before.length;
    if (!isInPlace) this.element.replaceChildren(...rows.map(it => it.element));
    else rows.forEach((it, at) => it.element !== before[at].element && before[at].element.replaceWith(it.element));
    Object.assign(this, { rows, from });
  }
}
