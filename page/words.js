// The phrases of tools/words. tools/lslkit/words.py fills them the same way.

export function filled(phrase, fields) {
  return phrase.replace(/\{(\w+)\}/g, (whole, name) => fields[name] ?? whole);
}
