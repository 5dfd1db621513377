// Quoted texts of world files and journals.

export function quoted(text) {
  return `"${text.replaceAll("\\", "\\\\").replaceAll('"', '\\"').replaceAll("\n", "\\n")}"`;
}

// The text between a quoted text's quotes.
export function unquoted(text) {
  return text.replace(/\\(.)/gs, (_, sign) => (sign === "n" ? "\n" : sign));
}
