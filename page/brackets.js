// The bracket that belongs to one beside the caret. Brackets in texts and comments don't count.

const OPEN = "([{";
const SHUT = ")]}";
const MOST_LINES = 1000;
const isAside = className => /^c-(string|comment)/.test(className);

// The brackets of a line, with their places.
function bracketsOf(lines, line) {
  const found = [];
  let place = 0;
  for (const [text, className] of lines.asides(line)) {
    for (let at = 0; at < text.length && !isAside(className); at++) {
      if (OPEN.includes(text[at]) || SHUT.includes(text[at])) found.push({ sign: text[at], line, place: place + at });
    }
    place += text.length;
  }
  return found;
}

function partner(lines, { sign, line, place }) {
  const step = OPEN.includes(sign) ? 1 : -1;
  const [same, other] = step > 0 ? [sign, SHUT[OPEN.indexOf(sign)]] : [sign, OPEN[SHUT.indexOf(sign)]];
  let depth = 0;
  for (let at = line, count = 0; at >= 0 && at < lines.lines.length && count < MOST_LINES; at += step, count++) {
    const found = bracketsOf(lines, at).filter(it => at !== line || (it.place - place) * step >= 0);
    for (const it of step > 0 ? found : found.reverse()) {
      if (it.sign === same) depth++;
      if (it.sign === other && --depth === 0) return it;
    }
  }
  return null;
}

// The two brackets, or nothing.
export function bracketsAt(lines, { line, place }) {
  const near = bracketsOf(lines, line).filter(it => it.place === place || it.place === place - 1);
  const one = near.find(it => it.place === place - 1) ?? near[0];
  const other = one && partner(lines, one);
  return other ? [one, other] : [];
}
